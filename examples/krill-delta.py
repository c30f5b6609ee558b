#!/usr/bin/env python3
"""Makes the change of a Krill CA's route authorizations out of two exports of a holder.

    krill-delta.py OLD.csv OLD-DAY NEW.csv NEW-DAY >delta.json

The form is that of Krill's manual ("Krill API", POST /api/v1/cas/{ca}/routes) as the writer knew it: an object with the
arrays `added` and `removed`, of objects with `asn`, `prefix` and `max_length`. No Krill was run with it. Krill has
no days, so a row counts if it is in force on the day of its export: run this each day, with what was sent on the day
before as OLD.csv, or only the header of an export the first time. A row that is not in NEW.csv is removed: make both
exports as a caller with a grant for all of the holder's space. Ends with 1 where a file is no export, or a day no day.
"""
import csv
import ipaddress
import json
import re
import sys

HEADER = ["number", "asn", "prefix", "maxlength", "from", "until"]


def in_force(path, day):
    """The VRPs of the rows: AS, prefix and maxLength."""
    if not re.fullmatch("[0-9]{4}-[0-9]{2}-[0-9]{2}", day):
        sys.exit(f"krill-delta.py: {day!r} is no day")
    with open(path, encoding="ascii", newline="") as file:
        header, *rows = list(csv.reader(file)) or [[]]
    if header != HEADER or any(len(row) != len(HEADER) for row in rows):
        sys.exit(f"krill-delta.py: {path} is no export")
    return {(int(asn[2:]), prefix, int(longest))
            for _, asn, prefix, longest, first, last in rows if first <= day <= last}


def order(vrp):
    network = ipaddress.ip_network(vrp[1])
    return network.version, network, vrp


def listed(vrps):
    return [{"asn": asn, "prefix": prefix, "max_length": longest} for asn, prefix, longest in sorted(vrps, key=order)]


def main(old, old_day, new, new_day):
    before, after = in_force(old, old_day), in_force(new, new_day)
    print(json.dumps({"added": listed(after - before), "removed": listed(before - after)}, indent=2))


if __name__ == "__main__":
    if len(sys.argv) != 5:
        sys.exit(__doc__)
    main(*sys.argv[1:])
