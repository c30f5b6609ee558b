"""Refuses each allocation of `roadesk init` and of `roadesk serve --count 1` over a file, each in a run of its own.

    refused.py PROGRAM REFUSE CHARTER FOLDER [STEP]

REFUSE is the library that is preloaded, and refuses the allocation of a number, or all from it on. After `init` there
is a desk, or a file that the next `init` goes on with, or one of which it says `exists` and `serve` says `schema`.
`serve` gives the whole right response or the whole 503, or ends with its line. SQLite reads the rows of before or after
in the files that are left: those of before where a response was 503 and the program went on to its end. A kind of run
is over when the program made fewer allocations fifty times in a row. Those of opening are tried with the first request
on a desk, and after the first 2,000 each STEPth (1 if not given), and of all from one on each 37th after the first
hundred. From where the desk was opened, and then prepares its day, each is tried. Ends with 1 where something else is
found, or nothing was refused.
"""
import json
import os
import shutil
import sqlite3
import subprocess
import sys
from collections import Counter
from concurrent.futures import ThreadPoolExecutor
from dataclasses import dataclass
from pathlib import Path

import common
from common import PROCESSORS, TABLES, connected, exchanged, response, serve_words

DATES = "2026-01-01,2026-12-31"
# Of these many allocations each is refused.
EACH = 2000
# So many runs in a row in which nothing was refused end a kind of run.
MISSED = 50
LINES = {3: ["roadesk: database", "roadesk: socket", "roadesk: file", "roadesk: stream"], 4: ["roadesk: memory"]}


@dataclass
class Request:
    name: str
    head: str
    caller: str
    body: str
    reply: str
    kind: str = "application/json"

    def bytes(self):
        return common.request(self.head, self.caller, self.body)

    def response(self):
        return response("200 OK", self.reply, self.kind)


UNAVAILABLE = response("503 Service Unavailable", '{"unavailable":true}\n')


def members(**values):
    return json.dumps(values, separators=(",", ":"))


def rows(first, count):
    lines = [f"AS{asn},192.0.2.0/24,24,{DATES}\n" for asn in range(first, first + count)]
    return "asn,prefix,maxlength,from,until\n" + "".join(lines)


def slurm_file(comment):
    filters = [{"asn": 64497, "comment": comment}]
    return members(**common.slurm_file(filters, [{"asn": 64496, "prefix": "198.51.100.0/24"}]))


def slurm_files(count):
    file = common.slurm_file([{"asn": 64497, "comment": "one"}])
    return members(files=[{"name": f"a{at}", "file": file} for at in range(count)])


AUTH = {"asn": 64496, "prefix": "192.0.2.0/24", "max": 24, "from": "2026-01-01", "until": "2026-12-31"}
CREATE = "POST /holders/alpha/auths"
IMPORT = "POST /holders/alpha/imports"
SETUP = [
    Request("", "PUT /holders/alpha", "reg", "", '{"done":null}\n'),
    Request("", "POST /holders/alpha/delegations", "reg", members(prefix="192.0.2.0/24"), '{"done":null}\n'),
    Request("", "POST /holders/alpha/grants", "reg",
            members(name="ann", role="manager", scope="all", until="2026-12-31"), '{"done":1}\n'),
    Request("", CREATE, "ann", members(**AUTH), '{"done":1}\n'),
]
MANY = [Request("", IMPORT, "ann", rows(65000, 999), '{"made":999,"present":0}\n')]
REQUESTS = [
    Request("create", CREATE, "ann", members(**{**AUTH, "asn": 64497}), '{"done":2}\n'),
    Request("import of 100 rows", IMPORT, "ann", rows(65000, 100), '{"made":100,"present":0}\n'),
    Request("what-if", "POST /holders/alpha/whatif", "ann",
            members(changes=[{"do": "withdraw", "number": 1}], routes=[{"prefix": "192.0.2.0/24", "origin": 64496}]),
            '{"report":[["Valid","NotFound"]]}\n'),
    Request("SLURM file", "PUT /slurm", "reg", slurm_file("one"), '{"done":null}\n'),
    Request("SLURM files", "PUT /slurms", "reg", slurm_files(3), '{"done":null}\n'),
    Request("SLURM file of 480 KB", "PUT /slurm", "reg", slurm_file("x" * (480 << 10)), '{"done":null}\n'),
]
PAYLOADS = Request("payloads of 1,000", "GET /payloads", "bob", "", "asn,prefix,maxlength\n" + "".join(
    f"AS{asn},192.0.2.0/24,24\n" for asn in [64496, *range(65000, 65999)]), "text/csv")


def tables_of(folder):
    """The schema and the rows that SQLite reads in a copy of the files."""
    copy = folder / "copy"
    shutil.rmtree(copy, ignore_errors=True)
    copy.mkdir()
    for name in ["desk.db", "desk.db-wal"]:
        if (folder / name).exists():
            shutil.copy(folder / name, copy / name)
    connection = sqlite3.connect(copy / "desk.db")
    try:
        if connection.execute("PRAGMA integrity_check").fetchall() != [("ok",)]:
            return None
        schema = connection.execute("SELECT sql FROM sqlite_master ORDER BY name").fetchall()
        return schema, [sorted(connection.execute(f"SELECT * FROM {table}").fetchall(), key=repr) for table in TABLES]
    except sqlite3.DatabaseError:
        return None
    finally:
        connection.close()


class Place:
    """A folder and an address for one run at a time."""

    def __init__(self, program, library, folder, number):
        self.program, self.library, self.folder = program, library, folder
        self.address, self.port = f"127.0.7.{number + 1}", 20000
        folder.mkdir(exist_ok=True)

    def start(self, words, number=0, all_later=False):
        (self.folder / "refused").unlink(missing_ok=True)
        names = {"REFUSE": str(number), "REFUSED": "refused", "LD_PRELOAD": str(self.library)} if number else {}
        if all_later:
            names["REFUSE_ALL"] = "1"
        return subprocess.Popen([self.program, *words], cwd=self.folder, env={**os.environ, **names},
                                stdout=subprocess.DEVNULL, stderr=subprocess.PIPE, text=True)

    def was_refused(self):
        return (self.folder / "refused").exists()

    def put(self, base):
        for name in ["desk.db", "desk.db-wal"]:
            (self.folder / name).unlink(missing_ok=True)
            if base and (base / name).exists():
                shutil.copy(base / name, self.folder / name)

    def init(self, charter, number=0, all_later=False):
        ended = self.start(["init", "--db", "desk.db", "--charter", str(charter)], number, all_later)
        return end(ended)

    def serve(self, requests, number=0, all_later=False):
        """The responses, the status and the line of a run that answers these."""
        self.port = self.port + 1 if self.port < 32000 else 20000
        words = serve_words("desk.db", self.port, len(requests), address=self.address)
        server = self.start(words, number, all_later)
        responses = [ask(server, self.address, self.port, request) for request in requests]
        return responses, *end(server)


def end(server):
    try:
        line = server.communicate(timeout=60)[1]
    except subprocess.TimeoutExpired:
        server.kill()
        return "hangs", server.communicate()[1]
    return server.returncode, line


def ask(server, address, port, request):
    """What comes until the connection ends; None where the program ended and there is no connection."""
    client = connected(port, server, address, seconds=60)
    return exchanged(client, request.bytes())[0] if client else None


def is_fault(status, line):
    return line.rstrip("\n") in LINES.get(status, []) and line.count("\n") == 1


def judge_init(place, charter, empty, status, line):
    """What a run of `init` was, or None where it is not allowed."""
    if status == 0:
        return "a desk" if line == "" and tables_of(place.folder) == empty else None
    if not is_fault(status, line):
        return None
    again, line = place.init(charter)
    if again == 0:
        return "a fault, then done" if tables_of(place.folder) == empty else None
    if (again, line) != (5, "roadesk: exists\n"):
        return None
    if tables_of(place.folder) == empty:
        return "a fault, and a desk"
    responses, status, line = place.serve([REQUESTS[0]])
    return "a fault, then schema" if (responses, status, line) == ([None], 5, "roadesk: schema\n") else None


def judge_serve(place, request, before, after, responses, status, line):
    """What a run of `serve` was, or None where it is not allowed."""
    found = tables_of(place.folder)
    if status != 0 and not is_fault(status, line) or status == 0 and line:
        return None
    if status != 0 and not responses[0]:
        return "a fault" if found == before else None
    ended = "" if status == 0 else ", then a fault"
    if responses[0] == request.response():
        return "right" + ended if found == after else None
    if responses[0] == UNAVAILABLE:
        # Where the end fails too the command may be found.
        return "503" + ended if found == before or status != 0 and found == after else None
    return None


class Sweep:
    def __init__(self, program, library, charter, folder, step):
        self.charter, self.folder, self.step = charter, folder, step
        self.places = [Place(program, library, folder / f"place{number}", number) for number in range(PROCESSORS)]
        self.faults = 0

    def numbers(self, first, answered, all_later):
        """From this number on, and each from where a request is answered."""
        number = first
        while True:
            yield number
            step = 37 if all_later and number > 100 else self.step if number > EACH else 1
            number = min(number + step, answered) if number < answered else number + 1

    def run(self, name, one, first=1, answered=sys.maxsize):
        """`one` makes a run at a place, and says what it was, or None, and what was found."""
        for all_later in [False, True]:
            seen, last, missed = Counter(), 0, 0
            numbers = self.numbers(first, answered, all_later)
            with ThreadPoolExecutor(len(self.places)) as pool:
                while missed < MISSED:
                    tried = [next(numbers) for _ in self.places]
                    runs = pool.map(lambda pair: one(pair[0], pair[1], all_later), zip(self.places, tried))
                    for number, (was_refused, kind, found) in zip(tried, runs):
                        if kind is None:
                            self.faults += 1
                            print(f"{name}: allocation {number} {'and all later ' * all_later}refused: {found}")
                        missed = 0 if was_refused else missed + 1
                        if was_refused:
                            last = number
                            seen[kind or "not allowed"] += 1
            if not last:
                self.faults += 1
                print(f"{name}: no allocation was refused")
            counts = ", ".join(f"{kind} {count}" for kind, count in sorted(seen.items()))
            print(f"{name}, {'all from' if all_later else 'each of'} {first} to {last}: {counts}", flush=True)

    def init(self):
        place = self.places[0]
        place.put(None)
        if place.init(self.charter) != (0, ""):
            sys.exit("refused.py: init fails")
        empty = tables_of(place.folder)

        def one(place, number, all_later):
            place.put(None)
            status, line = place.init(self.charter, number, all_later)
            was_refused = place.was_refused()
            return was_refused, judge_init(place, self.charter, empty, status, line), (status, line)
        self.run("init", one)

    def base(self, name, setup):
        """A folder with the files of a desk after these requests."""
        place, folder = self.places[0], self.folder / name
        folder.mkdir(exist_ok=True)
        place.put(None)
        place.init(self.charter)
        if place.serve(setup) != ([request.response() for request in setup], 0, ""):
            sys.exit(f"refused.py: the set-up of {name} fails")
        shutil.copy(place.folder / "desk.db", folder / "desk.db")
        return folder

    def answered(self, base, request):
        """The first allocation that is made after the desk was opened."""
        place, low, high = self.places[0], 0, 1 << 20
        while high - low > 1:
            middle = (low + high) // 2
            place.put(base)
            responses, _, _ = place.serve([request], middle)
            low, high = (low, middle) if responses[0] else (middle, high)
        return high

    def serve(self, base, request, is_opening=False):
        """Refuses the allocations of the opening too, or else those after it."""
        place = self.places[0]
        place.put(base)
        before = tables_of(place.folder)
        if place.serve([request]) != ([request.response()], 0, ""):
            sys.exit(f"refused.py: {request.name} fails")
        after = tables_of(place.folder)

        def one(place, number, all_later):
            place.put(base)
            responses, status, line = place.serve([request], number, all_later)
            kind = judge_serve(place, request, before, after, responses, status, line)
            return place.was_refused(), kind, (responses, status, line)
        answered = self.answered(base, request)
        self.run(request.name, one, 1 if is_opening else answered, answered)


def main(program, library, charter, folder, step="1"):
    sweep = Sweep(program, Path(library), Path(charter), Path(folder), int(step))
    sweep.init()
    base = sweep.base("few", SETUP)
    for place, request in enumerate(REQUESTS):
        sweep.serve(base, request, is_opening=place == 0)
    sweep.serve(sweep.base("many", SETUP + MANY), PAYLOADS, is_opening=True)
    return 1 if sweep.faults else 0


if __name__ == "__main__":
    sys.exit(main(*sys.argv[1:]))
