"""Announces routes by BGP (RFC 4271) until it is killed, with octets of a path of four (RFC 6793) and IPv6 (RFC 4760).

    speaker.py LOCAL AS REMOTE PORT <ROUTES

LOCAL and REMOTE are IPv4 addresses. A route is a line: a prefix and its path, where braces hold an AS_SET, such as
`192.0.2.0/24 64500 {64501,64502}`. Of one AS with its neighbour, it adds LOCAL_PREF, and the path may be empty.
"""
import ipaddress
import socket
import struct
import sys
import time

OPEN, UPDATE, KEEPALIVE = 1, 2, 4


def message(kind, body=b""):
    return b"\xff" * 16 + struct.pack(">HB", 19 + len(body), kind) + body


def opening(local, asn):
    """With the capabilities IPv4 and IPv6 unicast, and AS numbers of four octets."""
    families = b"".join(struct.pack(">BBHBB", 1, 4, family, 0, 1) for family in (1, 2))
    capabilities = families + struct.pack(">BBI", 65, 4, asn)
    body = struct.pack(">BHH", 4, asn if asn < 65536 else 23456, 90) + socket.inet_aton(local)
    return message(OPEN, body + struct.pack(">BBB", len(capabilities) + 2, 2, len(capabilities)) + capabilities)


def attribute(flags, kind, value):
    return struct.pack(">BBB", flags, kind, len(value)) + value


def segment(word):
    """An AS_SET, or an AS_SEQUENCE of one."""
    numbers = [int(number) for number in word.strip("{}").split(",")]
    return struct.pack(f">BB{len(numbers)}I", 1 if word[0] == "{" else 2, len(numbers), *numbers)


def update(local, inner, line):
    """One route; `inner` where both are of one AS."""
    text, *path = line.split()
    prefix = ipaddress.ip_network(text)
    reached = bytes([prefix.prefixlen]) + prefix.network_address.packed[:(prefix.prefixlen + 7) // 8]
    attributes = attribute(0x40, 1, b"\0") + attribute(0x40, 2, b"".join(map(segment, path)))
    attributes += attribute(0x40, 5, struct.pack(">I", 100)) if inner else b""
    if prefix.version == 4:
        attributes += attribute(0x40, 3, socket.inet_aton(local))
    else:
        hop = ipaddress.ip_address("2001:db8:ffff::1").packed
        attributes += attribute(0x80, 14, struct.pack(">HBB", 2, 1, 16) + hop + b"\0" + reached)
        reached = b""
    return message(UPDATE, struct.pack(">HH", 0, len(attributes)) + attributes + reached)


def main(local, asn, remote, port):
    lines = sys.stdin.read().splitlines()
    session = socket.create_connection((remote, int(port)), timeout=60, source_address=(local, 0))
    session.sendall(opening(local, int(asn)))
    got = session.recv(65536)
    inner = int(asn) == struct.unpack(">H", got[20:22])[0]
    session.sendall(message(KEEPALIVE))
    time.sleep(1)
    for line in lines:
        session.sendall(update(local, inner, line))
    while True:
        session.sendall(message(KEEPALIVE))
        time.sleep(20)


main(*sys.argv[1:])
