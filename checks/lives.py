"""Kills `roadesk serve` at random moments under load, and compares its tables with its replies.

    lives.py PROGRAM FOLDER LIVES SEED

One to four clients send random requests to a desk in the folder, each at holders of its own, and each keeps the rows
that its requests leave by FORMATS.md and DEFINITIONS.md. At a random moment the desk is killed (SIGKILL). Its files are
copied, and the copy is read twice: by SQLite as it is, and after the program opened and ended it. Both have to have the
rows of the commands that were answered 200 and no others, except that one command that got no response may be among
them. Then the desk is started again on its own files.

Ends with 1 where something else is found, or where of the commands without a response none was kept or none was lost.
"""
import atexit
import copy
import json
import random
import shutil
import socket
import sqlite3
import subprocess
import sys
import threading
import time
from collections import Counter
from dataclasses import dataclass
from datetime import date
from pathlib import Path
from typing import Callable, Optional

from common import (DAY, TABLES, charter_of, connected, exchanged, free_port, reply_of, request, serve_words,
                    slurm_file)

CLIENTS = 4
FROM = "2026-01-01"
# The longest life in seconds, and how many authorizations a holder has about at most.
LONGEST = 0.5
MANY = 300
POOL = 10 << 24


def number_of(day):
    return (date.fromisoformat(day) - date(1970, 1, 1)).days


def blob(address):
    return address.to_bytes(16, "big")


def text(prefix):
    address, length = prefix
    return ".".join(str(address >> shift & 255) for shift in (24, 16, 8, 0)) + f"/{length}"


def overlap(one, other):
    length = min(one[1], other[1])
    return one[0] >> 32 - length == other[0] >> 32 - length


@dataclass(frozen=True)
class Auth:
    asn: int
    prefix: tuple
    max: int
    until: str

    def vrp(self):
        return self.asn, self.prefix, self.max

    def members(self):
        return {"asn": self.asn, "prefix": text(self.prefix), "max": self.max, "from": FROM, "until": self.until}


@dataclass
class Command:
    """A request, the reply that it gets by the rules, and what it does to the rows of its client."""
    caller: str
    method: str
    path: str
    body: str
    reply: str
    effect: Optional[Callable] = None

    def __str__(self):
        return f"{self.caller} {self.method} {self.path} {self.body}"

    def bytes(self):
        return request(f"{self.method} {self.path}", self.caller, self.body)


class Rows:
    """The rows of a client: its two holders share a /16, of which the second takes some /24."""

    def __init__(self, client):
        self.holder, self.taker = f"h{client}", f"t{client}"
        self.first = POOL + (client << 16)
        self.keepers = [self.holder] * 256
        self.made, self.granted = 0, 1
        self.auths = {}
        self.grants = {1: ("ann", 1, None)}
        self.exceptions = []

    def setup(self):
        """The commands that make these rows."""
        yield done("reg", "PUT", f"/holders/{self.holder}")
        yield done("reg", "PUT", f"/holders/{self.taker}")
        yield done("reg", "POST", f"/holders/{self.holder}/delegations", {"prefix": text((self.first, 16))})
        grant = {"name": "ann", "role": "manager", "scope": "all", "until": "2026-12-31"}
        yield done("reg", "POST", f"/holders/{self.holder}/grants", grant, 1)

    def block(self, place):
        return self.first + (place << 8), 24

    def holds(self, prefix):
        return all(keeper == self.holder for place, keeper in enumerate(self.keepers)
                   if overlap(prefix, self.block(place)))

    def denial(self, auth, beside=None):
        """The first rule that a create fails, or an amend of the authorization of that number."""
        if beside is None and not self.holds(auth.prefix):
            return "held"
        if any(number != beside and other.vrp() == auth.vrp() for number, other in self.auths.items()):
            return "same"
        return None

    def make(self, auth):
        self.made += 1
        self.auths[self.made] = auth

    def runs(self):
        start = 0
        for place in range(1, 257):
            if place == 256 or self.keepers[place] != self.keepers[start]:
                yield self.first + (start << 8), self.first + (place << 8) - 1, self.keepers[start]
                start = place

    def tables(self):
        yield "holder", self.holder, self.granted, self.made
        yield "holder", self.taker, 0, 0
        for low, high, keeper in self.runs():
            yield "holding", 4, blob(low), blob(high), keeper
        for number, (name, role, scope) in self.grants.items():
            columns = (4, blob(scope[0]), scope[1]) if scope else (None, None, None)
            yield "granted", self.holder, number, name, role, *columns, number_of("2026-12-31")
        for number, auth in self.auths.items():
            yield "claim", self.holder, number, auth.asn, number_of(FROM), number_of(auth.until)
            yield "entry", self.holder, number, auth.asn, 4, blob(auth.prefix[0]), auth.prefix[1], auth.max
        for row in self.exceptions:
            yield "slurm", *row


def done(caller, method, path, members=None, number=None, effect=None):
    body = json.dumps(members) if members else ""
    return Command(caller, method, path, body, f"200 {json.dumps({'done': number}, separators=(',', ':'))}\n", effect)


def denied(caller, method, path, members, rule):
    return Command(caller, method, path, json.dumps(members), f'403 {{"denied":"{rule}"}}\n')


def some_auth(rows, chance):
    """Now and then equal to another, or of a last day that is past."""
    until = "2026-02-01" if chance.random() < 0.02 else chance.choice(["2026-06-30", "2026-12-31"])
    if rows.auths and chance.random() < 0.1:
        old = chance.choice(list(rows.auths.values()))
        return Auth(old.asn, old.prefix, old.max, until)
    length = chance.randint(22, 28)
    address = rows.first + (chance.randrange(1 << 16) >> 32 - length << 32 - length)
    return Auth(chance.randint(64496, 64511), (address, length), min(length + chance.randint(0, 2), 32), until)


def create(rows, chance):
    auth = some_auth(rows, chance)
    path = f"/holders/{rows.holder}/auths"
    # The day is not past the last one.
    rule = "dates" if auth.until < DAY else rows.denial(auth)
    if rule:
        return denied("ann", "POST", path, auth.members(), rule)
    return done("ann", "POST", path, auth.members(), rows.made + 1, lambda after: after.make(auth))


def create_by_a_stranger(rows, chance):
    return denied("bob", "POST", f"/holders/{rows.holder}/auths", some_auth(rows, chance).members(), "grant")


def amend(rows, chance):
    number = chance.choice(list(rows.auths))
    old = rows.auths[number]
    auth = Auth(old.asn, old.prefix, min(old.prefix[1] + chance.randint(0, 2), 32), "2026-09-30")
    path, members = f"/holders/{rows.holder}/auths/{number}", {"max": auth.max, "until": auth.until}
    rule = rows.denial(auth, beside=number)
    if rule:
        return denied("ann", "PATCH", path, members, rule)
    return done("ann", "PATCH", path, members, None, lambda after: after.auths.update({number: auth}))


def withdraw(rows, chance):
    number = chance.choice(list(rows.auths))
    return done("ann", "DELETE", f"/holders/{rows.holder}/auths/{number}", None, None,
                lambda after: after.auths.pop(number))


def import_rows(rows, chance):
    auths = [some_auth(rows, chance) for _ in range(chance.randint(1, 20))]
    lines = [f"AS{auth.asn},{text(auth.prefix)},{auth.max},{FROM},{auth.until}\n" for auth in auths]
    after, made, present, reply = copy.deepcopy(rows), [], 0, None
    for place, auth in enumerate(auths, 1):
        if auth in after.auths.values():
            present += 1
            continue
        rule = "dates" if auth.until < DAY else after.denial(auth)
        if rule:
            reply = f'403 {{"denied":"{rule}","row":{place}}}\n'
            break
        after.make(auth)
        made.append(auth)
    body = "asn,prefix,maxlength,from,until\n" + "".join(lines)
    path = f"/holders/{rows.holder}/imports"
    if reply:
        return Command("ann", "POST", path, body, reply)
    reply = f'200 {{"made":{len(made)},"present":{present}}}\n'
    return Command("ann", "POST", path, body, reply, lambda later: [later.make(auth) for auth in made])


def grant(rows, chance):
    scope = chance.choice([None, (rows.first, 18)])
    members = {"name": "cleo", "role": "clerk", "scope": text(scope) if scope else "all", "until": "2026-12-31"}
    number = rows.granted + 1

    def effect(after):
        after.granted = number
        after.grants[number] = ("cleo", 2, scope)
    return done("reg", "POST", f"/holders/{rows.holder}/grants", members, number, effect)


def revoke(rows, chance):
    number = chance.choice(list(rows.grants)[1:])
    return done("ann", "DELETE", f"/holders/{rows.holder}/grants/{number}", None, None,
                lambda after: after.grants.pop(number))


def transfer(rows, chance):
    # Back to the holder if the taker has many.
    taken = [place for place in range(256) if rows.keepers[place] == rows.taker]
    place = chance.choice(taken) if len(taken) > 5 else chance.randrange(256)
    giver = rows.keepers[place]
    taker = rows.taker if giver == rows.holder else rows.holder

    def effect(after):
        after.keepers[place] = taker
        if giver == after.holder:
            after.auths = {number: auth for number, auth in after.auths.items()
                           if not overlap(auth.prefix, after.block(place))}
    members = {"prefix": text(rows.block(place)), "giver": giver, "taker": taker}
    return done("reg", "POST", "/transfers", members, None, effect)


def slurm(rows, chance):
    """One file, or a second one too, whose filters name no prefix. There is one set, so one client alone sends them."""
    filters = [some_auth(rows, chance) for _ in range(chance.randrange(30))]
    assertions = [some_auth(rows, chance) for _ in range(chance.randrange(30))]
    numbers = [chance.randrange(64496, 64512) for _ in range(chance.choice([0, 0, 20]))]
    main = slurm_file([{"asn": one.asn, "prefix": text(one.prefix)} for one in filters],
                      [{"asn": one.asn, "prefix": text(one.prefix), "maxPrefixLength": one.max} for one in assertions])
    other = slurm_file([{"asn": asn} for asn in numbers])

    def effect(after):
        after.exceptions = [
            ("main", kind, place, 4, blob(one.prefix[0]), one.prefix[1], one.max if kind == 2 else None, one.asn)
            for kind, entries in ((1, filters), (2, assertions)) for place, one in enumerate(entries, 1)]
        after.exceptions += [("noc", 1, place, None, None, None, None, asn) for place, asn in enumerate(numbers, 1)]
    if numbers:
        files = [{"name": "noc", "file": other}, {"name": "main", "file": main}]
        return done("reg", "PUT", "/slurms", {"files": files}, None, effect)
    return done("reg", "PUT", "/slurm", main, None, effect)


def list_all(rows, chance):
    items = [{"number": number, **auth.members()} for number, auth in sorted(rows.auths.items())]
    reply = json.dumps({"listed": items}, separators=(",", ":"))
    return Command("ann", "GET", f"/holders/{rows.holder}/auths", "", f"200 {reply}\n")


class Client:
    """Sends one request after the other, until one gets no response."""

    def __init__(self, number, seed):
        self.number = number
        self.rows = Rows(number)
        self.chance = random.Random(f"{seed} {number}")
        self.in_hand = None
        self.asked = False
        self.faults = []
        self.answered = Counter()

    def next(self):
        kinds = {create: 40, create_by_a_stranger: 3, import_rows: 6, transfer: 8, list_all: 4}
        if self.rows.auths:
            kinds.update({amend: 10, withdraw: 10 if len(self.rows.auths) < MANY else 120})
        if len(self.rows.grants) < 60:
            kinds[grant] = 6
        if len(self.rows.grants) > 1:
            kinds[revoke] = 6
        if self.number == 0:
            kinds[slurm] = 4
        kind = self.chance.choices(list(kinds), kinds.values())[0]
        return kind(self.rows, self.chance)

    def run(self, port, is_over):
        self.in_hand, self.asked = None, False
        while not is_over.is_set():
            command = self.next()
            try:
                connection = socket.create_connection(("127.0.0.1", port), timeout=60)
            except OSError:
                time.sleep(0.001)
                continue
            self.asked = True
            reply = exchange(connection, command)
            if reply is None:
                self.in_hand = command
                return
            self.judge(command, reply)

    def judge(self, command, reply):
        if reply != command.reply:
            self.faults.append(f"{command}\nfound {reply}expected {command.reply}")
            return
        self.answered[reply[:3]] += 1
        if command.effect:
            command.effect(self.rows)

    def after(self):
        """The rows with the command that got no response."""
        rows = copy.deepcopy(self.rows)
        self.in_hand.effect(rows)
        return rows


def exchange(connection, command):
    """Status and body, or None where no whole response came."""
    return reply_of(exchanged(connection, command.bytes())[0])


def tables_of(path):
    connection = sqlite3.connect(path)
    rows = {(table, *row) for table in TABLES for row in connection.execute(f"SELECT * FROM {table}")}
    connection.close()
    return rows


class Check:
    def __init__(self, program, folder, seed):
        self.program, self.folder = program, Path(folder)
        self.db = self.folder / "desk.db"
        self.chance = random.Random(seed)
        self.port = free_port()
        self.clients = [Client(number, seed) for number in range(CLIENTS)]
        self.counts = Counter()

    def serve(self, db, port, count):
        with open(self.folder / "errors", "w") as errors:
            server = subprocess.Popen([self.program, *serve_words(db, port, count)], stderr=errors)
        atexit.register(server.kill)
        return server

    def errors(self):
        return (self.folder / "errors").read_text()

    def ask(self, port, command):
        """Of a desk that begins to listen."""
        connection = connected(port)
        return connection and exchange(connection, command)

    def set_up(self):
        charter = self.folder / "charter.csv"
        charter.write_text(charter_of("10.0.0.0/8"))
        subprocess.run([self.program, "init", "--db", self.db, "--charter", charter], check=True)
        commands = [command for client in self.clients for command in client.rows.setup()]
        server = self.serve(self.db, self.port, len(commands))
        for command in commands:
            reply = self.ask(self.port, command)
            if reply != command.reply:
                server.kill()
                return [f"{command}\nfound {reply}"]
        server.wait()
        return []

    def expected(self, kept=None):
        rows = {("meta", "schema", 2), ("operator", "reg"), ("pool", 4, blob(POOL), 8)}
        return rows.union(*((client.after() if client is kept else client.rows).tables() for client in self.clients))

    def live(self):
        """One life; what was wrong in it."""
        # Some end by themselves, so that they are killed while they copy their log.
        count = self.chance.choice([1_000_000] * 9 + [self.chance.randint(1, 300)])
        clients = self.clients[:self.chance.randint(1, CLIENTS)]
        is_over = threading.Event()
        server = self.serve(self.db, self.port, count)
        threads = [threading.Thread(target=client.run, args=(self.port, is_over), daemon=True)
                   for client in clients]
        for thread in threads:
            thread.start()
        time.sleep(self.chance.uniform(0, LONGEST))
        faults = [f"no response to {client.in_hand}" for client in clients if client.in_hand and count == 1_000_000]
        server.kill()
        ended = server.wait()
        is_over.set()
        for thread in threads:
            thread.join()
        if ended not in [-9, 0] or self.errors():
            faults.append(f"the desk ended with {ended}: {self.errors()}")
        self.counts["ended before it was killed"] += ended == 0
        self.counts["killed before it listened"] += not any(client.asked for client in clients)
        return faults + [fault for client in clients for fault in client.faults] + self.compare()

    def compare(self):
        """Finds which command in hand was kept, if any, and takes it among the rows of its client."""
        found, problem = self.found()
        if problem:
            return [problem]
        in_hand = [client for client in self.clients if client.in_hand and client.in_hand.effect]
        for kept in [None, *in_hand]:
            if found == self.expected(kept):
                break
        else:
            return ["rows that are missing and that are too many:", *map(str, self.expected() - found), "--",
                    *map(str, found - self.expected())]
        self.counts["kept"] += kept is not None
        self.counts["lost"] += len(in_hand) - (kept is not None)
        if kept:
            kept.rows = kept.after()
        for client in self.clients:
            client.in_hand = None
        return []

    def found(self):
        """The rows after the program opened and ended a copy, and a fault where SQLite reads others in it."""
        for name in ["first.db", "second.db"]:
            for end in ["", "-wal", "-shm"]:
                (self.folder / (name + end)).unlink(missing_ok=True)
            for end in ["", "-wal"]:
                shutil.copy(f"{self.db}{end}", self.folder / (name + end))
        port = free_port()
        server = self.serve(self.folder / "first.db", port, 1)
        reply = self.ask(port, Command("probe", "GET", "/holders/probe/auths", "", ""))
        if server.wait() or self.errors() or reply != '403 {"denied":"grant"}\n':
            return None, f"a copy was not opened: {self.errors()}{reply}"
        found = tables_of(self.folder / "first.db")
        return found, None if tables_of(self.folder / "second.db") == found else "SQLite reads other rows in the log"

    def live_often(self, number, name):
        """The faults of the first of so many lives that has any."""
        faults = self.set_up()
        lived = 0
        while not faults and lived < number:
            faults = self.live()
            lived += 1
        answered = sum((client.answered for client in self.clients), Counter())
        print(f"{lived} {name}: answered {answered['200']} with 200 and {answered['403']} with 403")
        print("; ".join(f"{kind} {count}" for kind, count in self.counts.items()))
        return faults


def main(program, folder, lives, seed):
    check = Check(program, folder, seed)
    faults = check.live_often(int(lives), f"lives, seed {seed}")
    for fault in faults:
        print(fault)
    return 1 if faults or not check.counts["kept"] or not check.counts["lost"] else 0


if __name__ == "__main__":
    sys.exit(main(*sys.argv[1:]))
