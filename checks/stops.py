"""Stops the program at each of its calls of the disk, has its disk fail and changes its files, and compares what it
answered with what is then in them: see stops.sh.

    stops.py PROGRAM FOLDER LIVES SEED     FOLDER has charter.csv, and other users may go through it

SWEEPS, REFUSED_EDITS, OPENED_EDITS and SEQUENCES have the cases.
"""
import atexit
import itertools
import json
import os
import shutil
import sqlite3
import subprocess
import sys
from collections import Counter
from concurrent.futures import ThreadPoolExecutor
from contextlib import closing
from pathlib import Path

import lives
from common import (NEW_TABLES, PROCESSORS, SCHEMA, TOP, connected, exchanged, expect, failures, reply_of, request,
                    serve_words)
from lives import blob

PROGRAM, WORK = sys.argv[1], Path(sys.argv[2])
CHARTER, FIRST, OLD = WORK / "charter.csv", WORK / "first.db", WORK / "old.db"
# Nobody else listens at this address of the loopback interface, which is of this process alone.
ADDRESS = f"127.{64 + (os.getpid() >> 16)}.{os.getpid() >> 8 & 255}.{os.getpid() & 255}"
PORTS = itertools.count(20000)
MANY = 1_000_000

# What the program writes and its status, in a line; and responses.
FINE, KILLED = "status 0", "status -9"
DATABASE = "roadesk: database status 3"
OTHER_SCHEMA = "roadesk: schema status 5"
EXISTS = "roadesk: exists status 5"
UNAVAILABLE = '503 {"unavailable":true}'
NO_GRANT = '403 {"denied":"grant"}'


def end_of(output, status):
    return " ".join([*output.splitlines(), f"status {status}"])


def run(*words, **variables):
    """What a command writes, and its status."""
    how = {"stdout": subprocess.PIPE, "stderr": subprocess.STDOUT, "text": True, "timeout": 60, "check": False}
    try:
        ended = subprocess.run(words, env={**os.environ, **variables}, **how)
    except subprocess.TimeoutExpired:
        return "hangs"
    return end_of(ended.stdout, ended.returncode)


def init(file, below=()):
    """`below` has the words of another command, which runs the program."""
    return run(*below, PROGRAM, "init", "--db", file, "--charter", CHARTER)


def serve(file, below=()):
    """Of a file that is not to be opened."""
    return run(*below, PROGRAM, *serve_words(file, 0, 1))


def sqlite3_of(file, *statements):
    """What the command sqlite3 prints for these."""
    script = "".join(f"{statement};\n" for statement in statements)
    return subprocess.run(["sqlite3", file], input=script, check=True, stdout=subprocess.PIPE, text=True).stdout


class Desk:
    """Serves so many connections of a file."""

    def __init__(self, file, count=MANY, below=()):
        self.port = next(PORTS)
        words = [*below, PROGRAM, *serve_words(file, self.port, count, address=ADDRESS)]
        self.server = subprocess.Popen(words, stderr=subprocess.PIPE, text=True)
        atexit.register(self.server.kill)

    def ask(self, line, caller, body=""):
        """Status and body of the response; nothing where the desk ended without one."""
        client = connected(self.port, self.server, ADDRESS, seconds=60)
        response, _ = exchanged(client, request(line, caller, body)) if client else (b"", None)
        return (reply_of(response) or "").rstrip("\n")

    def create(self, number):
        return self.ask("POST /holders/alpha/auths", "ann", json.dumps(terms(number)))

    def list(self):
        return self.ask("GET /holders/alpha/auths", "ann")

    def probe(self):
        """What a caller without grants asks."""
        return self.ask("GET /holders/probe/auths", "probe")

    def finish(self):
        """Waits for its end: what it wrote, and its status."""
        try:
            said = self.server.communicate(timeout=60)[1]
        except subprocess.TimeoutExpired:
            return "hangs"
        return end_of(said, self.server.returncode)

    def stop(self):
        self.server.kill()
        return self.finish()


def terms(number):
    """The members of the authorization of this number, of which each has another AS."""
    return {"asn": 64495 + number, "prefix": "192.0.2.0/24", "max": 24, "from": "2026-01-01", "until": "2026-12-31"}


def done(number):
    return f'200 {{"done":{number}}}'


def listed(count):
    """The response to a list of so many authorizations."""
    items = [{"number": number, **terms(number)} for number in range(1, count + 1)]
    return "200 " + json.dumps({"listed": items}, separators=(",", ":"))


def ask_once(file, ask):
    """The response of a desk that serves one connection, and its end."""
    desk = Desk(file, 1)
    return f"{ask(desk)} {desk.finish()}".lstrip()


# The rows of the charter, by FORMATS.md.
BLOCK = 0xc0000200
CHARTER_ROWS = {("meta", "schema", 2), ("operator", "reg"), ("pool", 4, blob(BLOCK), 24),
                ("pool", 4, blob(0xc6336400), 24), ("pool", 6, blob(0x20010db8 << 96), 32)}


def desk_rows(count):
    """Those of a desk with one holder, which has so many authorizations."""
    numbers = range(1, count + 1)
    return CHARTER_ROWS | {
        ("holder", "alpha", 1, count), ("holding", 4, blob(BLOCK), blob(BLOCK + 255), "alpha"),
        ("granted", "alpha", 1, "ann", 1, None, None, None, 20818),
        *(("claim", "alpha", number, 64495 + number, 20454, 20818) for number in numbers),
        *(("entry", "alpha", number, 64495 + number, 4, blob(BLOCK), 24, 24) for number in numbers)}


def rows(file):
    try:
        return lives.tables_of(file)
    except sqlite3.Error as fault:
        return {str(fault)}


def read(file, reader):
    try:
        with closing(sqlite3.connect(file)) as connection:
            return reader(connection)
    except sqlite3.Error as fault:
        return str(fault)


def dump(file):
    return read(file, lambda connection: list(connection.iterdump()))


def found(file):
    """How many authorizations the desk has that opens the file, or else what it has."""
    once = ask_once(file, Desk.probe)
    if once != f"{NO_GRANT} {FINE}":
        return once
    held = rows(file)
    count = sum(row[0] == "claim" for row in held)
    return count if held == desk_rows(count) else "other rows"


def remove(file):
    for one in file.parent.glob(f"{file.name}*"):
        one.unlink(missing_ok=True)


def copy(file, source=FIRST):
    """A copy of the first desk, which has one authorization."""
    remove(file)
    return Path(shutil.copy(source, file))


def make_first():
    expect("init", init(FIRST), FINE)
    expect("the rows of a new desk", rows(FIRST), CHARTER_ROWS)
    desk = Desk(FIRST, 4)
    grant = {"name": "ann", "role": "manager", "scope": "all", "until": "2026-12-31"}
    replies = [desk.ask("PUT /holders/alpha", "reg"),
               desk.ask("POST /holders/alpha/delegations", "reg", '{"prefix":"192.0.2.0/24"}'),
               desk.ask("POST /holders/alpha/grants", "reg", json.dumps(grant)), desk.create(1)]
    expect("the first commands", replies, [done("null"), done("null"), done(1), done(1)])
    expect("their rows", (desk.finish(), rows(FIRST)), (FINE, desk_rows(1)))


def make_old():
    """The rows of the first desk in a database of schema 1."""
    tables = ["meta", "operator", "pool", "holder", "holding", "granted", "slurm"]
    sqlite3_of(OLD, *(statement for statement in SCHEMA if statement not in NEW_TABLES), f"ATTACH '{FIRST}' AS first",
               *(f"INSERT INTO main.{table} SELECT * FROM first.{table}" for table in tables),
               "INSERT INTO main.auth SELECT holder, number, asn, family, lo, len, max, opens, ends"
               " FROM first.claim NATURAL JOIN first.entry", "UPDATE main.meta SET value = 1")


# ---- One call of the disk is killed, or fails ---------------------------------------------------------------------


def killed_init(place, below):
    file = place / "killed.db"
    remove(file)
    init(file, below)
    if not file.exists() or not file.stat().st_size:
        line = f"no file or an empty one; init: {init(file)}"
    else:
        line = f"a file; init: {init(file)}"
        served = ask_once(file, Desk.probe)
        line += f"; serve: {served}"
        if served == OTHER_SCHEMA:
            remove(file)
            line += f"; removed, init: {init(file)}"
    return line if rows(file) == CHARTER_ROWS else line + "; other rows"


def killed_serve(place, below):
    file, made = copy(place / "killed.db"), 1
    desk = Desk(file, 2, below)
    for number in (2, 3):
        made = number if desk.create(number) == done(number) else made
    desk.finish()
    return f"made {made}, found {found(file)}"


# The words of a strace with which no request was answered otherwise than with 503.
shutting = []


def failing_serve(place, below):
    """A create, a list, a create and a probe, of which each is answered as it should be or with 503."""
    file, made, statuses = copy(place / "failing.db"), 1, []
    desk = Desk(file, 4, below)
    for ask in ("create", "list", "create", "probe"):
        right = {"create": done(made + 1), "list": listed(made), "probe": NO_GRANT}[ask]
        response = desk.create(made + 1) if ask == "create" else getattr(desk, ask)()
        if response == right:
            made += ask == "create"
        elif response not in (UNAVAILABLE, ""):
            response = f"another response {response}"
        statuses.append(response.partition(" {")[0])
    if statuses == ["503"] * 4:
        shutting.append(below)
    # The desk may not have opened, and then no status is there.
    return " ".join(filter(None, [*statuses, f"{desk.finish()}; made {made}, found {found(file)}"]))


def move(place, below):
    """Opens a database of schema 1. The end of the desk; and what is left, schema 1 as it was or 2, with what the desk
    has that opens it next."""
    file = copy(place / "moved.db", OLD)
    desk = Desk(file, 1, below)
    desk.probe()
    ended = desk.finish()
    left = read(file, lambda connection: connection.execute("SELECT max(value) FROM meta").fetchone()[0])
    if left == 1 and dump(file) != dump(OLD):
        left = "other rows"
    return f"{ended}; schema {left} left, found {found(file)}"


def injected(case, call, injection, number):
    """Runs the case with the words of a strace that the program is to be below, which injects that into the call of
    this number. Its line, and whether the program made so many."""
    place = WORK / f"place{number % PROCESSORS}"
    place.mkdir(exist_ok=True)
    log = place / "calls"
    line = case(place, ["strace", "-D", "-f", "-qq", "-o", str(log), "-e", f"trace={call}",
                        "-e", f"inject={call}:{injection}:when={number}"])
    return line, log.read_text(errors="replace").count(f"{call}(") >= number


def sweep(case, injection, calls):
    """Injects that into the first call of each kind, the second and so on, until the program makes fewer of them. How
    often each line came."""
    lines = Counter()
    with ThreadPoolExecutor(PROCESSORS) as pool:
        for call in calls.split():
            for first in itertools.count(1, PROCESSORS):
                numbers = range(first, first + PROCESSORS)
                runs = list(pool.map(lambda number: injected(case, call, injection, number), numbers))
                lines.update(line for line, made in runs if made)
                if not all(made for _, made in runs):
                    break
    return lines


def expect_lines(name, lines, expected, all_come=False):
    """Whether each of these lines came, or some did, and no other."""
    for line, count in sorted(lines.items()):
        print(f"{count} times: {line}")
    if all_come or not lines:
        expect(name, "\n".join(sorted(lines)), "\n".join(sorted(expected)))
    else:
        expect(name, "\n".join(sorted(set(lines) - set(expected))), "")


# Of a desk that did not open, or in which the database was shut: after the first 503 there is nothing else until the
# end, and the command that got it may be found.
SHUT = [
    f"{DATABASE}; made 1, found 1",
    f"503 503 503 503 {DATABASE}; made 1, found 1",
    f"503 503 503 503 {DATABASE}; made 1, found 2",
    f"200 200 503 503 {DATABASE}; made 2, found 2",
    f"200 200 503 503 {DATABASE}; made 2, found 3",
    f"200 200 200 403 {DATABASE}; made 3, found 3",
]
# One command is refused, and the others are not.
OPEN = [
    f"503 200 200 403 {FINE}; made 2, found 2",
    f"200 200 503 403 {FINE}; made 2, found 2",
    f"200 200 200 403 {FINE}; made 3, found 3",
]
# Of a desk that opens a database of schema 1: it is moved, or stays as it was, or the commit that was told to have
# failed is found.
MOVES = [
    f"{FINE}; schema 2 left, found 1",
    f"{DATABASE}; schema 1 left, found 1",
    f"{DATABASE}; schema 2 left, found 1",
]
KILL, EIO, ENOSPC = "signal=KILL", "error=EIO", "error=ENOSPC"
DISK = "openat pwrite64 ftruncate fsync fdatasync"
SYNCS, WRITES = "fsync fdatasync", "pwrite64 ftruncate"
# The name, the case, what is injected into which calls, the lines, and whether all of them have to come.
SWEEPS = [
    ("init, killed at each of its calls", killed_init, KILL, DISK, [
        f"no file or an empty one; init: {FINE}",
        f"a file; init: {EXISTS}; serve: {OTHER_SCHEMA}; removed, init: {FINE}",
        f"a file; init: {EXISTS}; serve: {NO_GRANT} {FINE}",
    ], True),
    ("serve, killed at each of its calls", killed_serve, KILL, f"{WRITES} {SYNCS} sendto write", [
        "made 1, found 1", "made 1, found 2", "made 2, found 2", "made 2, found 3", "made 3, found 3",
    ], True),
    ("serve, each of its syncs failing in turn", failing_serve, EIO, SYNCS, SHUT, False),
    ("serve, each of its writes refused in turn", failing_serve, ENOSPC, WRITES, SHUT + OPEN, False),
    ("a database of schema 1 opened, killed at each of its calls", move, KILL, DISK, [
        f"{KILLED}; schema 1 left, found 1", f"{KILLED}; schema 2 left, found 1",
    ], True),
    ("each of its syncs failing in turn", move, EIO, SYNCS, MOVES, False),
    ("each of its writes refused in turn", move, ENOSPC, WRITES, MOVES, False),
]


# ---- sqlite3 edits the files --------------------------------------------------------------------------------------

LO = f"x'{blob(BLOCK).hex()}'"
# How serve ends if this is edited by these statements; the file stays as it is then.
REFUSED_EDITS = {
    OTHER_SCHEMA: {
        "the number of the schema": "UPDATE meta SET value = 3",
        "that number away": "DELETE FROM meta",
        "the operator away": "DELETE FROM operator",
        "an operator to no name": "UPDATE operator SET name = 'Reg'",
        "a pool prefix to one with a bit past its length": f"UPDATE pool SET len = 20 WHERE lo = {LO}",
        "a counter over 999,999": "UPDATE holder SET auths = 1000000",
        "a run to end before it begins": "UPDATE holding SET hi = x'000000000000000000000000C00001FF'",
        "an address to 15 bytes": "UPDATE holding SET lo = x'0000000000000000000000C0000200'",
        "a family to 5": "UPDATE entry SET family = 5",
        "a caller to no name": "UPDATE granted SET caller = ''",
        "a role to 4": "UPDATE granted SET role = 4",
        "a scope to a hal": "UPDATE granted SET family = 4",
        "an AS number over 4294967295": "UPDATE claim SET asn = 4294967296; UPDATE entry SET asn = 4294967296",
        "the AS number of a claim alone": "UPDATE claim SET asn = 64511",
        "the entries of a claim away": "DELETE FROM entry",
        "a maxLength below the length": "UPDATE entry SET max = 23",
        "a maxLength over 32": "UPDATE entry SET max = 33",
        "a day after the last": "UPDATE claim SET ends = 2932897",
        "a number to 0": "UPDATE claim SET number = 0; UPDATE entry SET number = 0",
        "a row of schema 1": f"INSERT INTO auth VALUES ('alpha', 2, 64497, 4, {LO}, 24, 24, 20454, 20818)",
        "a filter of nothing": "INSERT INTO slurm VALUES ('main', 1, 1, NULL, NULL, NULL, NULL, NULL)",
        "an assertion without maxLength": f"INSERT INTO slurm VALUES ('main', 2, 1, 4, {LO}, 24, NULL, 64496)",
        "a SLURM file of no name": "INSERT INTO slurm VALUES ('More', 1, 1, NULL, NULL, NULL, NULL, 64496)",
        "a table away": "DROP TABLE slurm",
        "a column away": "ALTER TABLE slurm DROP COLUMN max",
    },
    DATABASE: {
        "a further table": "CREATE TABLE notes (text)",
        "a further column": "ALTER TABLE claim ADD COLUMN note TEXT",
        "a further row of meta": "INSERT INTO meta VALUES ('more', 1)",
        "an authorization to one of nobody": "UPDATE claim SET holder = 'beta'; UPDATE entry SET holder = 'beta'",
        "an entry to one of no claim": "DELETE FROM claim",
    },
}
# What is edited, the statements, what is asked then and answered; and perhaps what sqlite3 says of it afterwards.
OPENED_EDITS = [
    ("an AS number", "UPDATE claim SET asn = 64511; UPDATE entry SET asn = 64511", Desk.list,
     listed(1).replace("64496", "64511")),
    ("the last day to one before the first", "UPDATE claim SET ends = 20453", Desk.list,
     listed(1).replace("2026-12-31", "2025-12-31")),
    ("an index and a view beside", "CREATE INDEX by_as ON claim (asn); CREATE VIEW seen AS SELECT asn FROM claim",
     Desk.list, listed(1)),
    ("the index of runs away", "DROP INDEX holding_of", Desk.list, listed(1),
     "its indexes afterwards", "SELECT name FROM pragma_index_list('holding')", "sqlite_autoindex_holding_1\n"),
    ("the whole file by VACUUM", "VACUUM", Desk.list, listed(1)),
    ("a claim away with its entries", "PRAGMA foreign_keys = ON; DELETE FROM claim", Desk.list, listed(0)),
    ("a counter forward", "UPDATE holder SET auths = 7", lambda desk: desk.create(2), done(8)),
    # The number is taken.
    ("a counter back", "UPDATE holder SET auths = 0", lambda desk: desk.create(2), UNAVAILABLE,
     "what that desk has", "SELECT auths, number FROM holder, claim", "0|1\n"),
]


def edited_rows():
    file = WORK / "edited.db"
    for end, edits in REFUSED_EDITS.items():
        for text, statements in edits.items():
            sqlite3_of(copy(file), statements)
            before = dump(file)
            expect(f"sqlite3 edits {text}", (serve(file), dump(file) == before), (end, True))
    for text, statements, ask, response, *afterwards in OPENED_EDITS:
        sqlite3_of(copy(file), statements)
        expect(f"sqlite3 edits {text}", ask_once(file, ask), f"{response} {FINE}")
        if afterwards:
            name, statement, expected = afterwards
            expect(name, sqlite3_of(file, statement), expected)
    dumped = subprocess.run(["sqlite3", FIRST, ".dump"], check=True, stdout=subprocess.PIPE, text=True).stdout
    sqlite3_of(WORK / "dumped.db", dumped)
    expect("a desk made from a dump", found(WORK / "dumped.db"), 1)


# ---- Sequences ----------------------------------------------------------------------------------------------------


def condition(desk):
    """That of the unit which restarts the service."""
    return run(TOP / "packaging/lib/answers-503", LISTEN=f"{ADDRESS}:{desk.port}")


def probe_restarts():
    file = WORK / "probed.db"
    desk = Desk(copy(file))
    expect("the probe where the desk answers", (desk.probe(), condition(desk)), (NO_GRANT, "status 1"))
    desk.stop()
    expect("the probe where nothing listens", condition(desk), "status 1")
    # The sync of the first command fails.
    desk = Desk(copy(file), below=shutting[0] if shutting else ())
    expect("the probe where the disk failed", (desk.create(2), condition(desk), desk.probe()),
           (UNAVAILABLE, FINE, UNAVAILABLE))
    desk.stop()


def up_to(limit):
    """A write beyond so many bytes of a file is refused."""
    return ["prlimit", f"--fsize={limit}", "env", "--ignore-signal=XFSZ"]


def full_disk():
    file, stopped, made = copy(WORK / "full.db"), WORK / "stopped.db", 1
    # The log reaches this first.
    desk = Desk(file, below=up_to(f"{600 << 10}:"))
    while (response := desk.create(made + 1)) == done(made + 1) and made < 900:
        made += 1
    print(f"a full disk: {made - 1} commands were answered before")
    expect("a full disk: a command", response, UNAVAILABLE)
    expect("a full disk: a list", desk.list(), listed(made))
    expect("a full disk: the command again", desk.create(made + 1), UNAVAILABLE)
    for end in ("", "-wal"):
        shutil.copy(f"{file}{end}", f"{stopped}{end}")
    expect("a full disk: found after a stop", found(stopped), made)
    subprocess.run(["prlimit", "--pid", str(desk.server.pid), "--fsize=unlimited:"], check=False)
    expect("room again: the command", desk.create(made + 1), done(made + 1))
    expect("room again: found after a stop", (desk.stop(), found(file)), (KILLED, made + 1))
    expect("a full disk: init", init(WORK / "none.db", up_to(6 << 10)), DATABASE)


def other_users():
    folder = WORK / "folder"
    file = folder / "desk.db"
    other = [] if os.getuid() else ["setpriv", "--reuid=65534", "--regid=65534", "--clear-groups"]
    folder.mkdir()
    copy(file).chmod(0o666)
    folder.chmod(0o555)
    expect("a read-only folder: serve", serve(file, other), DATABASE)
    expect("a read-only folder: init", init(folder / "new.db", other), DATABASE)
    folder.chmod(0o777)
    file.chmod(0o444)
    expect("a read-only file: serve", serve(file, other), DATABASE)
    expect("the folder afterwards", (os.listdir(folder), file.read_bytes() == FIRST.read_bytes()), (["desk.db"], True))


def two_programs():
    file, link, name = copy(WORK / "shared.db"), WORK / "link.db", WORK / "name.db"
    desk = Desk(file)
    expect("a desk that is served", desk.create(2), done(2))
    link.symlink_to(file)
    expect("a second serve", serve(file), DATABASE)
    expect("a second serve through a link", serve(link), DATABASE)
    expect("init beside it", init(file), EXISTS)
    expect("the first serve goes on", (desk.create(3), desk.list()), (done(3), listed(3)))
    expect("found after a stop", (desk.stop(), found(file)), (KILLED, 3))
    name.hardlink_to(file)
    expect("serve of a file with two names", serve(file), DATABASE)
    name.unlink()
    with subprocess.Popen(["sqlite3", file], stdin=subprocess.PIPE, stdout=subprocess.PIPE, text=True) as reader:
        reader.stdin.write("SELECT count(*) FROM claim;\n")
        reader.stdin.flush()
        expect("serve while sqlite3 has the file open", (reader.stdout.readline(), serve(file)), ("3\n", DATABASE))
        reader.kill()
    expect("found afterwards", found(file), 3)


def two_inits():
    file, lines = WORK / "raced.db", Counter()
    with ThreadPoolExecutor(2) as pool:
        for _ in range(30):
            remove(file)
            lines[",".join(sorted(pool.map(init, [file, file])))] += 1
            lines["other rows"] += rows(file) != CHARTER_ROWS
    expect_lines("two inits at once", +lines, [f"{EXISTS},{FINE}", f"{DATABASE},{FINE}"])


def foreign_log():
    file, other = WORK / "restored.db", WORK / "sqlite.db"
    desk = Desk(copy(file))
    expect("a command after the copy", desk.create(2), done(2))
    desk.stop()
    shutil.copy(FIRST, file)
    for end in ("", "-wal"):
        shutil.copy(f"{file}{end}", f"{other}{end}")
    # SQLite applies the log to whatever file it is beside, and here the two agree.
    expected = sqlite3_of(other, "SELECT count(*) FROM claim")
    expect("a copy put back beside the old log", (expected, found(file)), ("2\n", 2))

    desk = Desk(copy(file))
    expect("the command again", desk.create(2), done(2))
    desk.stop()
    Path(f"{file}-wal").unlink()
    shutil.copy(FIRST, file)
    expect("a copy put back, the old log removed", found(file), 1)


def hot_journal():
    file = copy(WORK / "journal.db")
    journal = Path(f"{file}-journal")
    # The cache of one page is written before the commit.
    script = """PRAGMA journal_mode = DELETE;
PRAGMA cache_size = 1;
BEGIN;
WITH more (one) AS (SELECT 2 UNION ALL SELECT one + 1 FROM more WHERE one < 900)
    INSERT INTO entry SELECT holder, one, asn + one, family, lo, len, max FROM entry, more;
.shell kill -9 $PPID
"""
    subprocess.run(["sqlite3", file], input=script, stdout=subprocess.DEVNULL, text=True, check=False)
    expect("a hot journal", (journal.read_bytes()[:1], serve(file)), (b"\xd9", DATABASE))
    expect("no log was made", sorted(WORK.glob("journal.db*")), [file, journal])
    expect("what sqlite3 makes of it", sqlite3_of(file, "SELECT count(*) FROM entry"), "1\n")
    expect("found afterwards", found(file), 1)


SEQUENCES = [probe_restarts, full_disk, other_users, two_programs, two_inits, foreign_log, hot_journal, edited_rows]


def main(number, seed):
    make_first()
    make_old()
    for name, case, injection, calls, expected, all_come in SWEEPS:
        expect_lines(name, sweep(case, injection, calls), expected, all_come)
    for sequence in SEQUENCES:
        sequence()
    folder = WORK / "lives"
    folder.mkdir()
    return 1 if lives.main(PROGRAM, folder, number, seed) or failures else 0


if __name__ == "__main__":
    sys.exit(main(*sys.argv[3:]))
