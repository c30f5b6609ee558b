"""What `openssl` does not write or read: a manifest's content, and the prefixes of a ROA's (X.690, DER)."""
import hashlib
import ipaddress


def element(tag, *parts):
    """An element whose content is the parts; a length over 127 is in octets of its own, after their number."""
    content = b"".join(parts)
    size = len(content)
    if size < 128:
        return bytes([tag, size]) + content
    length = size.to_bytes((size.bit_length() + 7) // 8, "big")
    return bytes([tag, 0x80 | len(length)]) + length + content


def integer(number):
    return element(0x02, number.to_bytes(number.bit_length() // 8 + 1, "big"))


def time(moment):
    """GeneralizedTime."""
    return element(0x18, moment.strftime("%Y%m%d%H%M%SZ").encode())


SHA256 = element(0x06, bytes.fromhex("608648016503040201"))


def manifest(number, this_update, next_update, files):
    """RFC 9286 section 4.2: the name and the hash of each file, given as a mapping from names to octets."""
    listed = [element(0x30, element(0x16, name.encode()), element(0x03, b"\0", hashlib.sha256(files[name]).digest()))
              for name in sorted(files)]
    return element(0x30, integer(number), time(this_update), time(next_update), SHA256, element(0x30, *listed))


def elements(octets):
    """The contents of the elements that these octets are, one after the other."""
    found = []
    while octets:
        size, begin = octets[1], 2
        if size >= 128:
            begin += size & 127
            size = int.from_bytes(octets[2:begin], "big")
        found.append(octets[begin:begin + size])
        octets = octets[begin + size:]
    return found


def network(family, address):
    """The prefix that a BIT STRING is: how many bits are unused, then the bits."""
    width = 4 if family == 1 else 16
    make = ipaddress.IPv4Network if family == 1 else ipaddress.IPv6Network
    return make((address[1:].ljust(width, b"\0"), 8 * (len(address) - 1) - address[0]))


def roa_prefixes(content):
    """The prefixes of a content (RFC 9582 section 4), which is one as docs/ROA-CONTENT.md writes it."""
    blocks = [elements(block) for block in elements(elements(elements(content)[0])[-1])]
    return [network(family[1], elements(address)[0]) for family, addresses in blocks for address in elements(addresses)]
