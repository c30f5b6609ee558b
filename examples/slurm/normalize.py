#!/usr/bin/env python3
"""Spells a SLURM file (RFC 8416) as the desk reads it, and reports what it changed.

    normalize.py FILE.json >SPELLED.json

The desk reads one spelling. This changes what can mean one thing alone: prefixes to that of RFC 5952, numbers that are
written as text, with `AS` or with a fraction of zeros, and arrays that are left out, to empty ones. It takes out BGPsec
entries, which change no VRP: the desk has no router keys. Each change is a line on standard error.

A prefix with bits past its length, a filter of nothing, another version, an unknown or repeated member and whatever
else may be a mistake is for its author to mend: each is a line on standard error too, nothing is written, and the
status is 1.
"""
import ipaddress
import json
import re
import sys

PARTS = {"validationOutputFilters": ("prefixFilters", "bgpsecFilters"),
         "locallyAddedAssertions": ("prefixAssertions", "bgpsecAssertions")}
MEMBERS = {"prefixFilters": {"prefix", "asn", "comment"},
           "prefixAssertions": {"prefix", "asn", "maxPrefixLength", "comment"}}


class Fault(Exception):
    """What is not changed here."""


def pairs(members):
    if len(dict(members)) < len(members):
        raise Fault("a member is repeated")
    return dict(members)


def spelled_prefix(text):
    """As RFC 5952 section 4 writes it, without a dotted tail."""
    if not isinstance(text, str) or not re.fullmatch(r"[0-9a-fA-F.:]+/[0-9]{1,3}", text):
        raise Fault(f"{json.dumps(text)} is no prefix")
    try:
        network = ipaddress.ip_network(text)
    except ValueError as error:
        raise Fault(error) from error
    if network.version == 4:
        return str(network)
    groups = [group.lstrip("0") or "0" for group in network.network_address.exploded.split(":")]
    for run in range(8, 1, -1):
        for at in range(9 - run):
            if groups[at:at + run] == ["0"] * run:
                return f"{':'.join(groups[:at])}::{':'.join(groups[at + run:])}/{network.prefixlen}"
    return f"{':'.join(groups)}/{network.prefixlen}"


def spelled_number(value, lowest, highest):
    """Plain decimal digits."""
    text = re.fullmatch("(?:AS)?([0-9]{1,10})", value, re.IGNORECASE) if isinstance(value, str) else None
    number = int(text[1]) if text else int(value) if isinstance(value, float) and value.is_integer() else value
    if type(number) is not int or not lowest <= number <= highest:
        raise Fault(f"{json.dumps(value)} is no number from {lowest} to {highest}")
    return number


def spelled_comment(value):
    if not isinstance(value, str):
        raise Fault("a comment is no text")
    return value


class Report:
    """Lines on what was changed, and on what was not."""

    def __init__(self):
        self.changed, self.faults = [], []

    def spell(self, place, spelling, value, *bounds):
        """The value in its spelling; the value itself where it has none."""
        try:
            found = spelling(value, *bounds)
        except Fault as fault:
            self.faults.append(f"{place}: {fault}")
            return value
        if found != value or type(found) is not type(value):
            self.changed.append(f"{place}: {json.dumps(value)} is now {json.dumps(found)}")
        return found

    def members(self, place, value, known):
        """The object, whose members have to be among these."""
        if not isinstance(value, dict):
            self.faults.append(f"{place}: no object")
            return {}
        self.faults += [f"{place}: unknown member {name}" for name in value if name not in known]
        return value


def normal_entry(report, place, entry, known):
    """A prefix filter or a prefix assertion."""
    entry = dict(report.members(place, entry, known))
    if "prefix" in entry:
        entry["prefix"] = report.spell(f"{place} prefix", spelled_prefix, entry["prefix"])
    if "asn" in entry:
        entry["asn"] = report.spell(f"{place} asn", spelled_number, entry["asn"], 0, 2**32 - 1)
    if "maxPrefixLength" in entry and "prefix" in entry and not report.faults:
        network = ipaddress.ip_network(entry["prefix"])
        bounds = network.prefixlen, network.max_prefixlen
        entry["maxPrefixLength"] = report.spell(f"{place} maxPrefixLength", spelled_number, entry["maxPrefixLength"],
                                                *bounds)
    if "comment" in entry:
        report.spell(f"{place} comment", spelled_comment, entry["comment"])
    asked = {"prefix", "asn"} & set(entry)
    if not asked or "maxPrefixLength" in known and len(asked) < 2:
        report.faults.append(f"{place}: lacks prefix or asn")
    return entry


def normal_part(report, name, part):
    """Filters or assertions: the array for prefixes, and an empty one for BGPsec."""
    prefixes, keys = PARTS[name]
    part = report.members(name, part, PARTS[name])
    for array in PARTS[name]:
        if array not in part:
            report.changed.append(f"{array}: is now an empty array")
        elif not isinstance(part[array], list):
            report.faults.append(f"{array}: no array")
            return part
    if part.get(keys):
        report.changed.append(f"{keys}: {len(part[keys])} taken out")
    return {prefixes: [normal_entry(report, f"{prefixes} {place}", entry, MEMBERS[prefixes])
                       for place, entry in enumerate(part.get(prefixes, []), 1)], keys: []}


def normal_file(report, octets):
    try:
        file = json.loads(octets.decode("utf-8-sig"), object_pairs_hook=pairs)
    except (ValueError, Fault) as error:
        report.faults.append(f"no JSON: {error}" if isinstance(error, ValueError) else str(error))
        return None
    if octets.startswith(b"\xef\xbb\xbf"):
        report.changed.append("the byte order mark is gone")
    file = report.members("the file", file, {"slurmVersion", *PARTS})
    version = report.spell("slurmVersion", spelled_number, file.get("slurmVersion"), 1, 1)
    return {"slurmVersion": version} | {name: normal_part(report, name, file.get(name, {})) for name in PARTS}


def main(path):
    report = Report()
    with open(path, "rb") as file:
        found = normal_file(report, file.read())
    for line in report.faults or report.changed:
        print(f"normalize.py: {line}", file=sys.stderr)
    if report.faults:
        sys.exit(1)
    print(json.dumps(found, indent=2, ensure_ascii=False))


if __name__ == "__main__":
    if len(sys.argv) != 2:
        sys.exit(__doc__)
    main(sys.argv[1])
