#!/usr/bin/env python3
"""Writes what a desk authorizes, for sign.py: each holder's space, and the authorizations with their contents.

    fetch.py DESK CALLER REGISTRY.csv >SNAPSHOT.json

DESK is the address of the desk or its front, such as http://127.0.0.1:8080. CALLER needs a grant for `all` at each
holder that has space; an auditor's is enough. A front gets CALLER and the PASSWORD of the environment by basic
authentication; its certificate may be named by SSL_CERT_FILE. REGISTRY.csv is what examples/registry.sql lists: no
request tells who holds what, so the space is that of the copy which it read.

Ends with 1, and writes nothing, where a request is not answered 200 or a holder's export changed meanwhile.
"""
import base64
import csv
import ipaddress
import json
import os
import sys
import time
import urllib.error
import urllib.request


def spaces(registry):
    """The prefixes of each holder: the rows below `holder,first,last`, which alone have three fields."""
    found = {}
    for row in csv.reader(registry):
        if len(row) == 3 and row != ["holder", "first", "last"]:
            run = ipaddress.summarize_address_range(*map(ipaddress.ip_address, row[1:]))
            found.setdefault(row[0], []).extend(map(str, run))
    return found


def ask(desk, caller, path, tries=5):
    """The body of the response. After a 429 of the front it asks again, a second later, at most so many times."""
    fields = {"Desk-Caller": caller}
    if "PASSWORD" in os.environ:
        pair = f"{caller}:{os.environ['PASSWORD']}".encode()
        fields["Authorization"] = "Basic " + base64.b64encode(pair).decode()
    try:
        with urllib.request.urlopen(urllib.request.Request(desk + path, headers=fields), timeout=60) as response:
            return response.read().decode()
    except urllib.error.HTTPError as error:
        if error.code == 429 and tries:
            time.sleep(1)
            return ask(desk, caller, path, tries - 1)
        sys.exit(f"fetch.py: {path}: {error.code} {error.read().decode().strip()}")
    except OSError as error:
        sys.exit(f"fetch.py: {path}: {error}")


def authorizations(desk, caller, holder):
    """The content and the days of each active authorization, by its number."""
    export = ask(desk, caller, f"/holders/{holder}/export")
    found = {}
    for row in csv.DictReader(export.splitlines()):
        number = row["number"]
        if number not in found:
            content = json.loads(ask(desk, caller, f"/holders/{holder}/auths/{number}/content"))["content"]
            found[number] = {"content": content, "from": row["from"], "until": row["until"]}
    if ask(desk, caller, f"/holders/{holder}/export") != export:
        sys.exit(f"fetch.py: {holder} was changed meanwhile: run it again")
    return found


def main(desk, caller, registry):
    with open(registry, encoding="ascii") as file:
        held = spaces(file)
    snapshot = {holder: {"space": space, "authorizations": authorizations(desk, caller, holder)}
                for holder, space in held.items()}
    json.dump(snapshot, sys.stdout, indent=1)
    print()


if __name__ == "__main__":
    if len(sys.argv) != 4:
        sys.exit(__doc__)
    main(*sys.argv[1:])
