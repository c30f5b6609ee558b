"""Writes a table as MRT (RFC 6396) to standard output: a peer, and COUNT routes of IPv4 and IPv6 in turn.

    mrt.py COUNT

Route K has a prefix of its own, of 24 or 48 bits, and an origin of 64496 to 64511; each tenth path ends with an AS_SET.
Each seventh route has a path identifier (RFC 8050), as of a neighbour with add-path.
"""
import struct
import sys


def record(kind, body):
    """TABLE_DUMP_V2."""
    return struct.pack(">IHHI", 1_772_323_200, 13, kind, len(body)) + body


def attributes(place):
    """ORIGIN and AS_PATH."""
    path = struct.pack(">BBIII", 2, 3, 64512, 65536, 64496 + place % 16)
    path += struct.pack(">BBII", 1, 2, 64496, 64497) if place % 10 == 0 else b""
    return b"\x40\x01\x01\x00" + struct.pack(">BBB", 0x40, 2, len(path)) + path


def rib(place):
    """RIB_IPV4_UNICAST or RIB_IPV6_UNICAST, or with _ADDPATH, with the one entry of the peer."""
    number = struct.pack(">I", place // 2)
    kind, prefix = (4, b"\x30\x20\x01" + number) if place % 2 else (2, b"\x18" + number[1:])
    made = attributes(place)
    identifier = struct.pack(">I", 1) if place % 7 == 0 else b""
    entry = struct.pack(">HHI", 1, 0, 0) + identifier + struct.pack(">H", len(made)) + made
    return record(kind + 6 if identifier else kind, struct.pack(">I", place) + prefix + entry)


peer = struct.pack(">B4s4sI", 2, b"\xc0\0\2\2", b"\xc0\0\2\2", 64512)
sys.stdout.buffer.write(record(1, b"\xc0\0\2\1" + struct.pack(">HH", 0, 1) + peer))
for number in range(int(sys.argv[1])):
    sys.stdout.buffer.write(rib(number))
