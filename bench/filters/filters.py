#!/usr/bin/env python3
"""Writes a script of `roadesk script` for the benchmark of prefix filters.

    filters.py FILTERS FILES QUERIES CHARTER.csv > SCRIPT.jsonl

A desk gets 100 holders with 100 authorizations each, so many filters in so many SLURM files of which none matches
any of their VRPs, and is asked for VRPs so many times, each time of another day than before, so that no answer is
taken from the day that is kept. The charter is written too.
"""

import json
import sys

from common import charter_of, slurm_file

HOLDERS = 100
AUTHORIZATIONS = 100
DAYS = ["2026-03-01", "2026-03-02"]


def line(caller, day=DAYS[0], **members):
    print(json.dumps({"day": day, "caller": caller, **members}, separators=(",", ":")))


def block(number):
    """The /16 of a holder."""
    return f"10.{number}.0.0/16"


def filter_of(number):
    """Filters of every form, of prefixes beside those of the VRPs or of an AS that none of them has."""
    prefix = f"172.{16 + number // 256}.{number % 256}.0/24"
    return [
        {"prefix": prefix},
        {"asn": 65536 + number},
        {"prefix": block(number % HOLDERS), "asn": 65536 + number},
    ][number % 3]


def slurm_files(filters, files):
    """No two files name one block."""
    entries = [[] for _ in range(files)]
    for number in range(filters):
        entries[number % HOLDERS % files].append(filter_of(number))
    return [{"name": f"file-{place}", "file": slurm_file(some)} for place, some in enumerate(entries)]


def main():
    filters, files, queries, charter = *map(int, sys.argv[1:4]), sys.argv[4]
    with open(charter, "w", encoding="ascii") as out:
        out.write(charter_of("10.0.0.0/8"))
    for number in range(HOLDERS):
        holder = f"holder-{number}"
        line("reg", do="register", holder=holder)
        line("reg", do="delegate", holder=holder, prefix=block(number))
        line("reg", do="grant", holder=holder, name="ann", role="manager", scope="all", until="2026-12-31")
        for third in range(AUTHORIZATIONS):
            line("ann", do="create", holder=holder, asn=64496 + third, prefix=f"10.{number}.{third}.0/24", max=24,
                 **{"from": "2026-01-01"}, until="2026-12-31")
    line("reg", do="slurm", files=slurm_files(filters, files))
    for number in range(queries):
        line("bob", DAYS[number % 2], do="payloads")


main()
