#!/usr/bin/env python3
"""Writes a payload file and a route file for a benchmark of `roadesk check`.

    generate.py [--shuffled] [--seed S] VRPS ROUTES PAYLOADS.csv ROUTES.csv

The same arguments give the same files. The rows rise by family, address, length and what follows;
with --shuffled they are in any order. No VRP occurs twice; a route may.
"""

import argparse
import random

# How often each length occurs, about as in the world's VRPs: most prefixes are short allocations
# or the longest that is commonly routed.
LENGTHS4 = {8: 0.004, 9: 0.004, 10: 0.01, 11: 0.03, 12: 0.1, 13: 0.2, 14: 0.4, 15: 0.6, 16: 4, 17: 1.5,
            18: 2.5, 19: 4, 20: 6, 21: 6, 22: 14, 23: 9, 24: 51.652}
LENGTHS6 = {19: 0.02, 20: 0.1, 21: 0.02, 22: 0.1, 23: 0.1, 24: 0.2, 25: 0.1, 26: 0.2, 27: 0.2, 28: 0.8,
            29: 6, 30: 0.8, 31: 0.5, 32: 22, 33: 2, 34: 1.5, 35: 1.5, 36: 5, 37: 0.8, 38: 1, 39: 0.8,
            40: 7, 41: 0.8, 42: 1.5, 43: 0.8, 44: 5, 45: 0.8, 46: 1.5, 47: 2, 48: 36.86}
LENGTHS = {4: LENGTHS4, 6: LENGTHS6}

# An IPv4 address is its 32 bits; of an IPv6 address only the upper 64 are kept, the lower are zero.
BITS = {4: 32, 6: 64}
LONGEST_MAX = {4: 24, 6: 48}
LONGEST_ROUTE = {4: 32, 6: 64}
NO_ORIGIN = -1


def prefix_text(family, address, length):
    """The canonical text of a prefix (RFC 5952)."""
    if family == 4:
        return f"{address >> 24}.{address >> 16 & 255}.{address >> 8 & 255}.{address & 255}/{length}"
    # The lower four groups are zero, so the zeros at the end are always the longest run.
    second, third, fourth = address >> 32 & 65535, address >> 16 & 65535, address & 65535
    if fourth:
        return f"{address >> 48:x}:{second:x}:{third:x}:{fourth:x}::/{length}"
    if third:
        return f"{address >> 48:x}:{second:x}:{third:x}::/{length}"
    if second:
        return f"{address >> 48:x}:{second:x}::/{length}"
    return f"{address >> 48:x}::/{length}"


def masked(family, address, length):
    shift = BITS[family] - length
    return address >> shift << shift


class Generator:
    def __init__(self, seed, vrp_count):
        self.rng = random.Random(seed)
        self.systems = [self.new_system() for _ in range(max(1, vrp_count // 10))]

    def new_system(self):
        """A 16-bit AS number or one of those given out since."""
        if self.rng.random() < 0.4:
            return int(1 + self.rng.random() * 64000)
        return int(131072 + self.rng.random() * 280000)

    def some(self, items):
        return items[int(self.rng.random() * len(items))]

    def families_and_lengths(self, count):
        """Four of five are IPv4."""
        families = self.rng.choices((4, 6), (4, 1), k=count)
        lengths = {family: iter(self.rng.choices(list(of), list(of.values()), k=families.count(family)))
                   for family, of in LENGTHS.items()}
        return [(family, next(lengths[family])) for family in families]

    def address(self, family, length):
        """1.0.0.0 to 223.255.255.255, or one in 2000::/6, which the registries use."""
        if family == 4:
            return masked(4, int((1 + self.rng.random() * 223) * (1 << 24)), length)
        return masked(6, 0x2000 << 48 | self.rng.getrandbits(58), length)

    def vrps(self, count):
        """Distinct VRPs as (family, address, length, maxLength, AS)."""
        chosen = {}
        prefixes = []
        while len(chosen) < count:
            for family, length in self.families_and_lengths(count - len(chosen)):
                if prefixes and self.rng.random() < 0.06:
                    # A further AS for a prefix that has one.
                    family, address, length = self.some(prefixes)
                else:
                    address = self.address(family, length)
                    prefixes.append((family, address, length))
                longest = length
                if self.rng.random() < 0.15:
                    longest += int(self.rng.random() * (LONGEST_MAX[family] + 1 - length))
                system = 0 if self.rng.random() < 0.002 else self.some(self.systems)
                chosen[family, address, length, longest, system] = None
        return list(chosen)

    def below(self, family, address, length, longer):
        """Some prefix of the length `longer` in the given one."""
        return address | self.rng.getrandbits(longer - length) << BITS[family] - longer if longer > length else address

    def uncovered(self, taken):
        """A prefix that no VRP covers, with the lengths of VRPs."""
        while True:
            family = 4 if self.rng.random() < 0.8 else 6
            length = int(20 + self.rng.random() * 5) if family == 4 else int(32 + self.rng.random() * 17)
            address = self.address(family, length)
            if not any((family, masked(family, address, shorter), shorter) in taken
                       for shorter in range(min(LENGTHS[family]), length + 1)):
                return family, address, length

    def routes(self, count, vrps):
        """Routes as (family, address, length, origin)."""
        taken = {vrp[:3] for vrp in vrps}
        rows = []
        for _ in range(count):
            kind = self.rng.random()
            if kind < 0.15:
                rows.append((*self.uncovered(taken), self.some(self.systems)))
                continue
            family, address, length, longest, system = self.some(vrps)
            if kind < 0.19:
                # Longer than the VRP allows, most by little.
                longer = min(longest + 1 + int(self.rng.random() ** 2 * 8), LONGEST_ROUTE[family])
            else:
                longer = length if length == longest else length + int(self.rng.random() * (longest + 1 - length))
            if kind >= 0.99:
                system = NO_ORIGIN
            elif kind >= 0.89:
                system = self.some(self.systems)
            rows.append((family, self.below(family, address, length, longer), longer, system))
        return rows


def main():
    parser = argparse.ArgumentParser(description="Writes a payload file and a route file.")
    parser.add_argument("vrp_count", type=int, metavar="VRPS")
    parser.add_argument("route_count", type=int, metavar="ROUTES")
    parser.add_argument("payload_file", metavar="PAYLOADS.csv")
    parser.add_argument("route_file", metavar="ROUTES.csv")
    parser.add_argument("--shuffled", action="store_true", help="rows in any order, else rising")
    parser.add_argument("--seed", type=int, default=1)
    args = parser.parse_args()
    if args.vrp_count < 1 or args.route_count < 0:
        parser.error("there must be a VRP, and no fewer than 0 routes")

    generator = Generator(args.seed, args.vrp_count)
    vrps = generator.vrps(args.vrp_count)
    routes = generator.routes(args.route_count, vrps)
    for rows in (vrps, routes):
        if args.shuffled:
            generator.rng.shuffle(rows)
        else:
            rows.sort()

    with open(args.payload_file, "w", encoding="ascii", newline="\n") as out:
        out.write("asn,prefix,maxlength\n")
        out.writelines(f"AS{system},{prefix_text(family, address, length)},{longest}\n"
                       for family, address, length, longest, system in vrps)
    with open(args.route_file, "w", encoding="ascii", newline="\n") as out:
        out.write("prefix,origin\n")
        out.writelines(f"{prefix_text(family, address, length)},{'NONE' if system == NO_ORIGIN else f'AS{system}'}\n"
                       for family, address, length, system in routes)


if __name__ == "__main__":
    main()
