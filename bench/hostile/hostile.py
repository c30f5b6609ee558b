"""Sends `roadesk` hostile bodies and lines, and accepted ones of the same size, and compares the times.

    hostile.py PROGRAM FOLDER RUNS

A time is the processor time of the program: of a new `serve` over a copy of one file that answers the body alone, and
of a script of 20 lines, each less that of a run with a short request. Ends with 1 where a reply is not the expected
one, or a time is over 3 times that of the accepted.
"""
import json
import os
import shutil
import subprocess
import sys
from pathlib import Path

import common
from common import DAY, charter_of, connected, exchanged, free_port, request, serve_words

SIZE = 1 << 20
DATES = "2026-01-01,2026-12-31"
LINES = 20
LIMIT = 3
SETUP = [
    ("PUT /holders/alpha", "reg", ""),
    ("POST /holders/alpha/delegations", "reg", '{"prefix":"10.0.0.0/8"}'),
    ("POST /holders/alpha/grants", "reg", '{"name":"ann","role":"manager","scope":"all","until":"2026-12-31"}'),
]


def padded(text):
    return text + " " * (SIZE - len(text))


def filled(beginning, piece, end):
    """Ends after as many whole pieces as there is room for, and spaces."""
    return padded(beginning + piece * ((SIZE - len(beginning) - len(end)) // len(piece)) + end)


def members(count):
    """An object of so many members, with names of one length."""
    return padded("{" + ",".join(f'"m{number:05}":1' for number in range(count)) + "}")


def routes(count=10_000):
    return '{"routes":[' + ",".join('{"prefix":"10.0.0.0/24","origin":64496}' for _ in range(count)) + "]}"


def answers(count=10_000):
    return '{"answers":[' + ",".join('"NotFound"' for _ in range(count)) + "]}\n"


def slurm_file():
    comment = "x" * 170
    filters = [{"prefix": f"10.{number >> 8}.{number & 255}.0/24", "comment": comment} for number in range(4096)]
    return padded(json.dumps(common.slurm_file(filters)))


def rows(lines):
    return "asn,prefix,maxlength,from,until\n" + "".join(lines)


def row(number, block=10):
    """One of 1,000, for which a holder has room."""
    return f"AS64496,{block}.0.{number % 250}.0/24,{24 + number // 250 % 4},{DATES}\n"


# For each path the bodies, the accepted one first: the name, the body, the status and the reply.
DEEP = "[" * SIZE
DIGITS = filled('{"routes":', "9", "}")
ESCAPES = filled('{"routes":"', "\\u0041", '"}')
NOT_JSON, NOT_MEMBERS = '{"malformed":1}\n', '{"malformed":2}\n'
TABLES = [
    ("POST /validity", "ann", [
        ("10,000 routes", padded(routes()), "200 OK", answers()),
        ("arrays", DEEP, "400 Bad Request", NOT_JSON),
        ("60,000 members", members(60_000), "400 Bad Request", NOT_MEMBERS),
        ("digits", DIGITS, "400 Bad Request", NOT_JSON),
        ("escapes", ESCAPES, "400 Bad Request", NOT_MEMBERS),
    ]),
    ("PUT /slurm", "reg", [
        ("4,096 filters", slurm_file(), "200 OK", '{"done":null}\n'),
        ("arrays", DEEP, "400 Bad Request", '{"malformed":11,"slurm":1}\n'),
        ("60,000 members", members(60_000), "400 Bad Request", '{"malformed":11,"slurm":3}\n'),
        ("digits", DIGITS, "400 Bad Request", '{"malformed":11,"slurm":1}\n'),
        ("escapes", ESCAPES, "400 Bad Request", '{"malformed":11,"slurm":3}\n'),
    ]),
    ("POST /holders/alpha/imports", "ann", [
        ("10,000 rows", rows(map(row, range(10_000))), "200 OK", '{"made":1000,"present":9000}\n'),
        ("10,000 equal rows", rows([row(9_999)] * 10_000), "200 OK", '{"made":1,"present":9999}\n'),
        ("the last row denied", rows([*map(row, range(9_999)), row(9_999, 11)]), "403 Forbidden",
         '{"denied":"held","row":10000}\n'),
    ]),
]


BEGINNING = f'{{"day":"{DAY}","caller":"ann","do":"validity",'
SCRIPTS = [
    ("10,000 routes", padded(BEGINNING + routes()[1:]), answers()),
    ("arrays", (BEGINNING + '"routes":' + DEEP)[:SIZE], NOT_JSON),
    ("60,000 members", padded(BEGINNING + members(60_000).strip()[1:]), NOT_MEMBERS),
    ("digits", filled(BEGINNING + '"routes":', "9", "}"), NOT_JSON),
    ("escapes", filled(BEGINNING + '"routes":"', "\\u0041", '"}'), NOT_MEMBERS),
]


# Of every table: it is no JSON, and no CSV.
SHORT = ("", "x")


class Desk:
    def __init__(self, program, folder):
        self.program, self.folder = program, folder
        self.charter = folder / "charter.csv"
        self.charter.write_text(charter_of("10.0.0.0/8"))
        self.base, self.db = folder / "base.db", folder / "desk.db"
        for path in [self.base, folder / "base.db-wal"]:
            path.unlink(missing_ok=True)
        subprocess.run([program, "init", "--db", self.base, "--charter", self.charter], check=True)
        self.serve(self.base, SETUP)

    def serve(self, db, requests):
        """The processor seconds, and the responses."""
        port = free_port()
        server = subprocess.Popen([self.program, *serve_words(db, port, len(requests))])
        found = [ask(server, port, *words) for words in requests]
        return seconds_of(server), found

    def time(self, head, caller, body):
        (self.folder / "desk.db-wal").unlink(missing_ok=True)
        shutil.copy(self.base, self.db)
        seconds, found = self.serve(self.db, [(head, caller, body)])
        return seconds, found[0]

    def script(self, one):
        lines, replies = self.folder / "lines", self.folder / "replies"
        lines.write_text((one + "\n") * LINES)
        with lines.open() as source, replies.open("w") as drain:
            words = ["script", "--charter", self.charter]
            seconds = seconds_of(subprocess.Popen([self.program, *words], stdin=source, stdout=drain))
        return seconds, replies.read_text()


def seconds_of(process):
    """The processor time of a program, once it ended."""
    _, status, usage = os.wait4(process.pid, 0)
    process.returncode = status
    if status:
        sys.exit("hostile.py: the program failed")
    return usage.ru_utime + usage.ru_stime


def ask(server, port, head, caller, body):
    client = connected(port, server)
    if not client:
        server.kill()
        sys.exit("hostile.py: the program does not listen")
    got, fault = exchanged(client, request(head, caller, body))
    return got.decode() + (f"[{fault}]" if fault else "")


def measure(name, table, runs, one, expected):
    """The least times of the rows in turn; whether all replies and times are as they have to be."""
    least, good = [float("inf")] * len(table), True
    short = min(one(SHORT)[0] for _ in range(runs))
    for _ in range(runs):
        for place, entry in enumerate(table):
            seconds, found = one(entry)
            least[place] = min(least[place], seconds)
            if found != expected(entry):
                print(f"{name}: {entry[0]}: found {found[-200:]!r}")
                good = False
    for entry, seconds in zip(table, least):
        ratio = (seconds - short) / (least[0] - short)
        milliseconds = (seconds - short) * 1000
        print(f"{name:28} {entry[0]:22} {len(entry[1]):8} {milliseconds:9.1f} ms {ratio:6.2f}", flush=True)
        good = good and ratio <= LIMIT
    return good


def main(program, folder, runs):
    desk = Desk(program, Path(folder))
    good = True
    for head, caller, table in TABLES:
        good &= measure(head, table, int(runs), lambda entry: desk.time(head, caller, entry[1]),
                        lambda entry: common.response(entry[2], entry[3]).decode())
    good &= measure(f"script of {LINES} lines", SCRIPTS, int(runs), lambda entry: desk.script(entry[1]),
                    lambda entry: entry[2] * LINES)
    sys.exit(0 if good else 1)


main(*sys.argv[1:])
