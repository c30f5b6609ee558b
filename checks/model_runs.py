"""Gives random requests to the program and to the model, and stops at the first difference.

    model_runs.py PROGRAM WORK RUNS SEED STEP    WORK is an empty folder

Run K has the seed SEED + STEP * (K - 1), on which all of it depends. Each fifth seed makes a session over HTTP, all
others a script. Holders, callers, prefixes, AS numbers and days are few, so that rules clash; some requests are malformed.

Ends with 1 where the answers differ, and with 77 where an hour was too short for all runs.
"""
import json
import os
import random
import re
import subprocess
import sys
import time

import model
from common import NOT_RUN, connected, exchanged, free_port, not_run, serve_words, slurm_file

CHARTERS = [
    "kind,value\noperator,reg\npool,192.0.2.0/24\npool,198.51.100.0/24\npool,2001:db8::/32\n",
    "kind,value\noperator,reg\noperator,ann\npool,192.0.2.0/25\npool,192.0.2.128/25\npool,192.0.2.64/26\n"
    "pool,2001:db8::/33\npool,2001:db8:8000::/33\n",
    "kind,value\noperator,reg\npool,0.0.0.0/0\npool,::/0\n",
]
HOLDERS = ["alpha", "beta", "gamma"]
CALLERS = ["reg", "ann", "bob", "cleo"]
PREFIXES = ["192.0.2.0/24", "192.0.2.0/25", "192.0.2.128/25", "192.0.2.0/26", "192.0.2.64/26", "192.0.2.255/32",
            "2001:db8::/32", "2001:db8::/33", "2001:db8:8000::/33", "2001:db8:ffff::/48"]
OTHER_PREFIXES = ["0.0.0.0/0", "::/0", "0.0.0.0/1", "192.0.0.0/16", "203.0.113.0/24", "255.255.255.255/32",
                  "ffff:ffff:ffff:ffff:ffff:ffff:ffff:ffff/128", "1:2:3:4:5:6:7:0/112", "::ffff:c000:201/128",
                  "1::2:0:0:3:4/128", "2001:db8:0:1::/64", "2001:0:0:1::/65", "8000::/1"]
DAYS = ["2025-12-31", "2026-01-01", "2026-03-01", "2026-06-30", "2026-12-31"]
OTHER_DAYS = ["1970-01-01", "9999-12-31", "2024-02-29", "2000-02-29"]
NUMBERS = ["24.0", "1e2", "-0", "-1", "0", "1", "256", "1000000", "999999", "4294967295", "4294967296", "1e999", "01",
           "18446744073709551615", "18446744073709551616", "1" + "0" * 308, "1" + "0" * 309, "0.1", "1E400", "NaN"]
TEXTS = ["", "-a", "Alpha", "a" * 32, "a" * 33, "a_b", "a-", "0", "\u00e4", "a ", "192.0.2.1/24", "192.0.02.0/24",
         "2001:DB8::/32", "2001:db8:0::/32", "192.0.2.0/33", "192.0.2.0", "192.0.2.0/", "1::2::3/64", "256.0.0.0/8",
         "::ffff:192.0.2.1/128", "1:2:3:4:5:6:7::/112", "1::2:3:4:5:6:7:8/128", "192.0.2.0/024", ":::/0", "0::/0",
         "1:0:0:2:0:0:3:4/128", "1:0:0:2::3/128", "2001:db8::/129", "2001:db8::1/64", "2026-02-29", "2100-02-29",
         "1969-12-31", "2026-1-01", "10000-01-01", "2026-13-01", "2026-00-10", "2026-01-00", "2026-04-31", "0000-01-01",
         "all", "All", "manager", "Clerk", "create", "null", "192.0.2.0/24", "2026-03-01", "\u0661"]


class Requests:
    """What the random choices of one run make."""

    def __init__(self, seed):
        self.random = random.Random(seed)
        self.chance = lambda of: self.random.random() < of
        self.pick = self.random.choice

    def prefix(self):
        return self.pick(OTHER_PREFIXES if self.chance(0.07) else PREFIXES)

    def day(self):
        return "2026-03-01" if self.chance(0.5) else self.pick(OTHER_DAYS if self.chance(0.1) else DAYS)

    def last_day(self):
        return "2026-12-31" if self.chance(0.6) else self.day()

    def holder(self):
        return "delta" if self.chance(0.02) else self.random.choices(HOLDERS, [7, 2, 1])[0]

    def asn(self):
        return self.pick([64496, 64496, 64497, 64498, 0, 2**32 - 1])

    def several(self, make, counts):
        return [make() for _ in range(self.pick(counts))]

    def subset(self, members):
        return {name: value for name, value in members.items() if self.chance(0.6)}

    def entry(self, odd=0.35):
        prefix = self.prefix()
        length = int(prefix.split("/")[1])
        longest = self.pick([length + 1, length + 8, 24, 25, 32, 33, 128, max(length - 1, 0), 255])
        return {"prefix": prefix, "max": longest if self.chance(odd) else length}

    def days(self):
        return {"from": "2026-01-01" if self.chance(0.7) else self.day(), "until": self.last_day()}

    def row(self):
        return {"asn": self.asn()} | self.entry() | self.days()

    def entries(self):
        """Few of them mostly; now and then as many as there may be or one more, or one prefix twice."""
        if self.chance(0.02):
            addresses = [f"192.0.2.{at}/32" for at in range(64)] + [f"2001:db8::{at}/128" for at in range(1, 65)]
            prefixes = self.random.sample(addresses, self.pick([30, 64, 65]))
            return [{"prefix": prefix, "max": int(prefix.split("/")[1])} for prefix in prefixes]
        made = self.several(lambda: self.entry(0.1), [2, 2, 3, 4]) if self.chance(0.6) else [self.entry()]
        entries = list({entry["prefix"]: entry for entry in made}.values())
        return entries + [self.pick(entries) | {"max": 25}] if self.chance(0.02) else entries

    def maxes(self):
        """The maxLengths of an amend: those for IPv4 prefixes come first."""
        if self.chance(0.02):
            return [self.pick([24, 32, 128])] * self.pick([0, 30, 64, 65])
        if self.chance(0.2):
            return [self.entry()["max"] for _ in range(self.pick([1, 2, 3]))]
        fours, sixes = self.pick([(1, 0), (1, 0), (0, 1), (2, 0), (1, 1), (0, 2), (2, 1), (1, 2), (2, 2)])
        return [self.pick([24, 26, 32, 32]) for _ in range(fours)] + [self.pick([33, 48, 128]) for _ in range(sixes)]

    def terms(self):
        """The members of a create: the short form or the list, now and then both or neither."""
        entries = self.entries()
        short, listed = entries[0], {"entries": entries}
        forms = [listed] if entries[1:] else [short, short, listed]
        odd = [short | listed, {"max": 24} | listed, {"prefix": short["prefix"]}, {}]
        return {"asn": self.asn()} | self.pick(odd if self.chance(0.03) else forms) | self.days()

    def amendment(self):
        maxes = self.maxes()
        short, listed = {"max": (maxes or [24])[0]}, {"maxes": maxes}
        forms = [listed] if maxes[1:] else [short, short, listed]
        return self.pick([short | listed, {}] if self.chance(0.03) else forms) | {"until": self.last_day()}

    def route(self):
        return {"prefix": self.prefix(), "origin": self.pick([None, self.asn(), self.asn()])}

    def change(self):
        return {"do": "withdraw", "number": self.number()} if self.chance(0.4) else {"do": "create"} | self.terms()

    def number(self):
        return self.random.randint(1, 6)

    def filter(self):
        return self.subset({"prefix": self.prefix(), "asn": self.asn(), "comment": "c"})

    def assertion(self):
        row = self.row()
        further = self.subset({"maxPrefixLength": row["max"], "comment": ""})
        return {"prefix": row["prefix"], "asn": row["asn"]} | further

    def slurm(self):
        return slurm_file(self.several(self.filter, [0, 1, 2]), self.several(self.assertion, [0, 1, 2]))

    def exceptions(self):
        """The members of a set of SLURM files, now and then both forms or neither."""
        names = self.random.sample(["a", "b", "main", "noc"], self.pick([0, 1, 2, 2, 2, 3]))
        if self.chance(0.03):
            names = self.pick([["a", "a"], ["-a"], [f"a{at}" for at in range(17)]])
        short, listed = {"file": self.slurm()}, {"files": [{"name": name, "file": self.slurm()} for name in names]}
        return self.pick([short | listed, {}] if self.chance(0.03) else [short, listed, listed])

    def request(self, do=None, **fixed):
        """A request with values that read; `fixed` has members that are given."""
        weights = [2, 5, 2, 4, 5, 2, 16, 7, 3, 6, 5, 6, 8, 7, 4, 3, 5]
        do = do or self.random.choices(list(model.FURTHER), weights)[0]
        members = self.row() | {
            "holder": self.holder(), "giver": self.holder(), "taker": self.pick(HOLDERS), "number": self.number(),
            "name": self.pick(CALLERS), "role": self.pick(["manager", "clerk", "auditor"]),
            "scope": self.prefix() if self.chance(0.4) else "all", "rows": self.several(self.row, [1, 2, 3, 5]),
            "changes": self.several(self.change, [0, 1, 2, 3]), "routes": self.several(self.route, [1, 2, 4])}
        if members["role"] == "manager" and self.chance(0.97):
            members["scope"] = "all"
        caller = self.pick(["ann", "ann", "ann", "ann", "bob", "bob", "cleo", "reg"])
        if {"operator", "steward"} & set(model.RULES.get(do, [])) and self.chance(0.9):
            caller = "reg"
        request = {"day": self.day(), "caller": caller, "do": do}
        if do == "create":
            return request | {"holder": members["holder"]} | self.terms() | fixed
        if do == "slurm":
            return request | (fixed or self.exceptions())
        if do == "amend":
            return request | {"holder": members["holder"], "number": members["number"]} | self.amendment() | fixed
        return request | {name: members[name] for name in model.FURTHER[do]} | fixed

    def opening(self):
        """What makes later requests meet something: holders, their space and grants, and authorizations."""
        spaces = self.pick([
            [("alpha", "192.0.2.0/24"), ("alpha", "2001:db8::/32")],
            [("alpha", "192.0.2.0/25"), ("alpha", "192.0.2.128/25"), ("beta", "2001:db8::/33"),
             ("alpha", "2001:db8:8000::/33")],
            [(self.holder(), self.prefix()) for _ in range(6)]])
        manager = {"name": "ann", "role": "manager", "scope": "all", "until": "2026-12-31", "day": "2026-01-01"}
        requests = [self.request("register", caller="reg", holder=holder) for holder in HOLDERS]
        requests += [self.request("delegate", caller="reg", holder=holder, prefix=prefix) for holder, prefix in spaces]
        requests += [self.request("grant", caller="reg", holder=holder, **manager) for holder in HOLDERS[:2]]
        requests += [self.request("grant", caller="reg", until="2026-12-31") for _ in range(4)]
        if self.chance(0.05):
            requests += [self.request("grant", caller="reg", holder="alpha") for _ in range(66)]
        requests += [self.request("create", caller="ann") for _ in range(8)]
        return requests + [self.request("amend", caller="ann", holder="alpha", number=at) for at in (1, 1, 2, 2, 3)]

    # ---- Requests that are spoiled. In a text "@24.0@" is the number 24.0.

    def junk(self):
        numbers = ["@" + self.pick(NUMBERS) + "@" for _ in range(2)]
        depth = self.pick([125, 126, 127, 128])
        nested = "@" + "[" * depth + "]" * depth + "@"
        return self.pick([None, True, False, [], {}, [[]], nested, *numbers, *self.random.sample(TEXTS, 3)])

    def spoil(self, value):
        """Another value somewhere in it, a member less or one more."""
        if not value or type(value) not in (dict, list) or self.chance(0.15):
            return self.junk()
        if type(value) is list:
            at = self.random.randrange(len(value))
            return value[:at] + [self.spoil(value[at])] + value[at + 1:]
        name = self.pick(list(value))
        value = {other: value[other] for other in self.random.sample(list(value), len(value))}
        match self.random.randrange(8):
            case 0:
                del value[name]
            case 1:
                names = ["comment", "asn", "max", "number", "day", "Holder", "", "entries", "maxes"]
                value[self.pick(names)] = self.junk()
            case 2 if "rows" in value:
                value["rows"] = []
            case _:
                value[name] = self.spoil(value[name])
        return value

    def text(self, value):
        text = json.dumps(value, ensure_ascii=self.chance(0.5), separators=self.pick([(",", ":"), (", ", " : ")]))
        return re.sub('"@(.*?)@"', "\\1", text).encode()

    def broken(self, text):
        """A text with one thing wrong, or only odd."""
        at = self.random.randrange(len(text) + 1)
        inserted = [text[:at] + octets + text[at:] for octets in (b"\xff", b"\t", b"\v", b"", b" ", b",", b"\xc3\xa4")]
        replaced = [text.replace(b"alpha", octets) for octets in (
            b"\\ud800", b"\\ud83d\\ude00", "\u00e4\u2028".encode(), b"\\u0061lpha", b"alph\\x61", b"al\x00pha")]
        return self.pick(inserted + replaced + [
            text[:at], text[at:], b"\xef\xbb\xbf" + text, text + b"\r", b" \t" + text + b" ", text + b"x", text + text,
            text.replace(b"}", b",}"), text.replace(b":", b"::", 1), b"'" + text[1:], b"", b"[]", b"null", b"{}"])

    def spoiled(self, value):
        for _ in range(self.pick([0] * 20 + [1, 1, 2])):
            value = self.spoil(value)
        return self.broken(self.text(value)) if self.chance(0.02) else self.text(value)

    # ---- Scripts.

    def lines(self, seed):
        if seed % 100 == 1:
            return self.limits()
        opening = [self.text(request) for request in self.opening()] if self.chance(0.95) else []
        return opening + [self.spoiled(self.request()) for _ in range(self.random.randint(20, 90))]

    def limits(self):
        """Rooms, lists and lines at their limits."""
        asked = {"day": "2026-03-01", "caller": "ann", "holder": "alpha"}
        row = {"prefix": "192.0.2.0/26", "max": 27, "from": "2026-01-01", "until": "2026-12-31"}
        withdraw = {"do": "withdraw", "number": 7}
        many, two = [row | {"asn": asn} for asn in range(999)], [row | {"asn": asn} for asn in (2000, 2001)]
        requests = self.opening()
        requests += [asked | {"do": "import", "rows": rows} for rows in (many, two, two[:1], many)]
        requests += [asked | row | {"do": "create", "asn": 2001}, asked | withdraw]
        requests += [asked | {"do": "import", "rows": two[:1] * count} for count in (10_000, 10_001)]
        requests += [self.request("whatif", changes=[withdraw] * count) for count in (1000, 1001)]
        requests += [self.request("validity", routes=[self.route()] * count) for count in (10_000, 10_001)]
        for count in (4096, 4097):
            file = self.slurm()
            file["validationOutputFilters"]["prefixFilters"] = [{"asn": 64499}] * (count - 1)
            file["locallyAddedAssertions"]["prefixAssertions"] = [{"asn": 64499, "prefix": "192.0.2.0/24"}]
            requests.append(self.request("slurm", caller="reg", file=file))
        padded = self.text(asked | {"do": "list"})
        texts = [self.text(request) for request in requests]
        return texts + [padded + b" " * (model.LINE_LIMIT + over - len(padded)) for over in (0, 1)] + [padded]

    # ---- Messages.

    def message(self, request):
        """The octets of a connection that asks for it, perhaps spoiled."""
        do = "export" if request["do"] == "list" and self.chance(0.5) else request["do"]
        do = "slurms" if do == "slurm" and "files" in request else do
        path, methods = self.pick([route for route in model.ROUTES if do in route[1].values()])
        method = next(method for method in methods if methods[method] == do)
        value = {name: request[name] for name in request
                 if name not in ("day", "caller", "do") and "{" + name + "}" not in path}
        path, version, body = path.format(**request).encode(), b"HTTP/1.1", b""
        if value:
            whole = value["file"] if do == "slurm" else value
            body = self.csv(value["rows"]) if do == "import" else self.spoiled(whole)
        fields = [b"Desk-Caller: " + request["caller"].encode(), b"Host: desk.example"]
        if value or self.chance(0.05):
            fields.append(b"Content-Length: %d" % len(body))
        match self.random.randrange(80):
            case 0:
                method = self.pick(["GET", "PUT", "POST", "PATCH", "DELETE", "HEAD", "OPTIONS", "get", "G/T"])
            case 1 | 2:
                path = self.path(path)
            case 3 | 4:
                fields = self.fields(fields, len(body))
            case 5:
                version = self.pick([b"HTTP/2.0", b"HTTP/1.1 ", b"http/1.1", b"", b"HTTP/1.2"])
            case 6:
                body = self.pick([body[:-1], body + b"x", b"", body * 2])
            case 7:
                fields += [b"X: y"] * (self.pick([32, 33]) - len(fields))
            case 8:
                head = b"\r\n".join([b" ".join([method.encode(), path, version])] + fields + [b"X: ", b"", b""])
                fields.append(b"X: " + b"y" * (self.pick([8192, 8193]) - len(head)))
        self.random.shuffle(fields)
        message = b"\r\n".join([b" ".join([method.encode(), path, version])] + fields + [b"", b""]) + body
        return message[:self.random.randrange(len(message))] if self.chance(0.01) else message

    def path(self, path):
        number = self.pick([b"0", b"01", b"999999", b"1000000", b"x", b"+1", b"1" * 30])
        holder = self.pick([b"Alpha", b"", b"-a", b"a" * 33, "\u00e4".encode(), b"a{b}"])
        return self.pick([path + b"/", path + b"?a=b", path + b"#a", path.replace(b"a", b"%61"), path[1:], b"/" + path,
                          b"*", path.replace(b"alpha", holder), *[re.sub(rb"\d+", number, path)] * 2])

    def fields(self, fields, length):
        caller, host, *_ = fields
        odd = self.pick([b"Transfer-Encoding: chunked", b"X\x01: y", b"X: \x01", b"X : y", b": y", b"X", b"X: \xff",
                         b"Content-Length: %d" % length, caller, caller.lower()])
        other = self.pick([b"", b"+5", b"5, 5", b"0x5", b"%05d" % length, b"1048577", b"9" * 30, b"0", b"00", b"-0"])
        return self.pick([
            fields + [odd], [caller, host, b"Content-Length: " + other], [caller, host], [host] + fields[2:],
            [caller.upper()] + fields[1:], [caller.replace(b": ", b":")] + fields[1:],
            [caller.replace(b": ", b": \t") + b" "] + fields[1:], fields[:2] + [b"content-length:%d" % length]])

    def csv(self, rows):
        """An import file, perhaps with odd ends of lines or quotes, or with a fault."""
        lines = [b"asn,prefix,maxlength,from,until"]
        lines += [f"AS{row['asn']},{row['prefix']},{row['max']},{row['from']},{row['until']}".encode() for row in rows]
        if self.chance(0.3):
            at = self.random.randrange(len(lines))
            fields = lines[at].split(b",")
            place = self.random.randrange(len(fields))
            field = fields[place]
            fields[place] = self.pick([
                b'"' + field + b'"', b'"' + field, field + b'"', b'""', b'"' + field + b'"x', b" " + field, b"",
                b"\xff", b"as1", b"AS01", b"AS4294967296", b"1", b"256", field + b",", self.pick(TEXTS).encode(),
                b'"a,""b\r\n"'])
            lines[at] = b",".join(fields)
            marked = [b"\xef\xbb\xbf" + lines[0]] + lines[1:]
            lines = self.pick([lines, lines, lines[1:], lines[:1], lines + [b"", b""], marked])
        end = self.pick([b"\n", b"\n", b"\n", b"\r\n", b"\r", b"\n\n"])
        return end.join(lines) + self.pick([b"", end])


# ---- Runs ---------------------------------------------------------------------------------------------------------


def differ(seed, place, request, answers):
    print(f"seed {seed}: {place} differs: model.sh 1 {seed} asks it again")
    for name, octets in zip(["request", "program", "model"], [request, *answers]):
        print(f"{name}:\n    {octets[:2000]!r}")
    sys.exit(1)


def run_script(program, seed, charter_file, charter, requests, heard):
    lines = requests.lines(seed)
    script = b"\n".join(lines) + requests.pick([b"", b"\n"])
    words = [program, "script", "--charter", charter_file]
    ended = subprocess.run(words, input=script, capture_output=True, timeout=300)
    replies = ended.stdout.split(b"\n")
    desk = model.Desk(charter)
    asked = model.lines_of(script)
    for place, (line, reply) in enumerate(zip(asked, replies), 1):
        expected = desk.answer_line(line).encode()
        if reply != expected:
            differ(seed, f"line {place}", line, (reply, expected))
        heard(line, reply)
    if len(replies) != len(asked) + 1 or replies[-1] or ended.returncode or ended.stderr:
        differ(seed, "the end", f"{len(asked)} lines".encode(), (f"{len(replies) - 1} lines, {ended}".encode(), b""))
    return len(asked), len(desk.history)


def run_session(program, seed, charter_file, charter, requests, heard):
    """Some days of one file, each served by a process of its own."""
    database = os.path.join(os.path.dirname(charter_file), f"{seed}.db")
    subprocess.run([program, "init", "--db", database, "--charter", charter_file], check=True, timeout=60)
    desk = model.Desk(charter)
    asked, opening = 0, requests.opening()
    for day in [requests.day() for _ in range(requests.pick([1, 2, 3]))]:
        messages = [requests.message(request) for request in opening]
        messages += [requests.message(requests.request()) for _ in range(requests.random.randint(10, 40))]
        opening = []
        port = free_port()
        words = serve_words(database, port, len(messages), day)
        served = subprocess.Popen([program, *words], stderr=subprocess.PIPE)
        expected_log = ""
        try:
            for place, message in enumerate(messages, 1):
                expected = model.answer_message(desk, day, message)
                if not expected:
                    expected_log += f"roadesk: connection {place}: fault 1\n"
                client = connected(port)
                if not client:
                    sys.exit("model: no connection")
                got, fault = exchanged(client, message, is_all=True)
                # Bytes after a request are not read, so the connection may be reset before all of the response is there.
                if got == expected:
                    heard(message, got)
                elif not (fault and expected.startswith(got)):
                    differ(seed, f"connection {place} of {day}", message, (got, expected))
            log = served.communicate(timeout=60)[1].decode()
        finally:
            served.kill()
        if log != expected_log or served.returncode:
            differ(seed, f"the end of {day}", b"", (f"{served.returncode} {log}".encode(), expected_log.encode()))
        asked += len(messages)
    os.remove(database)
    return asked, len(desk.history)


def run(program, work, seed, heard=lambda request, answer: None):
    """How many requests the run of this seed made, and how many were accepted; `heard` gets each with its answer."""
    requests = Requests(seed)
    charter = requests.pick(CHARTERS)
    charter_file = os.path.join(work, "charter.csv")
    with open(charter_file, "w", encoding="utf-8") as file:
        file.write(charter)
    kind = run_session if seed % 5 == 0 else run_script
    counts = kind(program, seed, charter_file, charter, requests, heard)
    for function in (model.registered, model.moves, model.holds, model.grants, model.authorizations):
        function.cache_clear()
    return counts


def main():
    program, work = sys.argv[1:3]
    runs, first, step = map(int, sys.argv[3:6])
    began, asked, accepted = time.time(), 0, 0
    for done, seed in enumerate(range(first, first + step * runs, step), 1):
        counts = run(program, work, seed)
        asked, accepted = asked + counts[0], accepted + counts[1]
        if time.time() - began > 3600:
            break
    print(f"model: {asked} requests of {done} runs from seed {first}, {accepted} accepted: as the program")
    if done < runs:
        not_run(f"the runs after the seed {seed}, since an hour is over")
        return NOT_RUN
    return 0


if __name__ == "__main__":
    sys.exit(main())
