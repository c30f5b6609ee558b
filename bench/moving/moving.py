#!/usr/bin/env python3
"""Measures how long a database of schema 1 takes to be moved when it is opened, beside sqlite3 doing the same statements.

    moving.py [AUTHORIZATIONS [RUNS]]      (100000 and 3 if left out)

The authorizations lie at 200 holders. Each run opens a copy with the program and asks for a list that is denied, so that
its time is that from the start to the first answer; then it does so once more, with the database that was moved. The
statements are those of the move, in one transaction of a copy that is written through (WAL, synchronous FULL), by the
sqlite3 module of Python, whose time has the reading of all rows too, as an opening does it. Of the runs the shortest counts.

PROGRAM names the program, else it is that of the repository. Files go to a temporary folder, or below BENCH_WORK. Ends
with 1 where a moved database has other rows or something failed, with 77 where there is no program.
"""

import os
import pathlib
import shutil
import sqlite3
import subprocess
import sys
import tempfile
import time

sys.path.insert(0, str(pathlib.Path(__file__).resolve().parents[2] / "tools"))
from common import NEW_TABLES, SCHEMA, connected, exchanged, find_program, free_port, request, serve_words

HOLDERS = 200
MOVED = ("claim", "entry")
COPY = (
    "INSERT INTO claim (holder, number, asn, opens, ends) SELECT holder, number, asn, opens, ends FROM auth",
    "INSERT INTO entry (holder, number, asn, family, lo, len, max)"
    " SELECT holder, number, asn, family, lo, len, max FROM auth",
    "DELETE FROM auth",
    "UPDATE meta SET value = 2",
)


def address(number):
    return (number).to_bytes(16, "big")


def make_old(path, count):
    """A database of schema 1 with so many authorizations of an AS and a prefix each, a run a holder."""
    with sqlite3.connect(path) as db:
        for statement in SCHEMA:
            if statement not in NEW_TABLES:
                db.execute(statement)
        each = -(-count // HOLDERS)
        db.execute("INSERT INTO meta VALUES ('schema', 1)")
        db.execute("INSERT INTO operator VALUES ('reg')")
        db.execute("INSERT INTO pool VALUES (4, ?, 8)", (address(10 << 24),))
        for place in range(HOLDERS):
            name, first = f"h{place:03}", (10 << 24) + (place << 16)
            db.execute("INSERT INTO holder VALUES (?, 0, ?)", (name, each))
            db.execute("INSERT INTO holding VALUES (4, ?, ?, ?)", (address(first), address(first + 0xFFFF), name))
            db.executemany(
                "INSERT INTO auth VALUES (?, ?, ?, 4, ?, 24, 24, 20454, 20818)",
                ((name, number + 1, 64496 + number // 256, address(first + (number % 256 << 8))) for number in range(each)),
            )
    db.close()


def copy(old, path):
    for end in ("", "-wal", "-shm"):
        if os.path.exists(path + end):
            os.remove(path + end)
    shutil.copy(old, path)


def first_answer(program, path):
    """Seconds from the start of a desk to its first response, and those of the processor until its end."""
    port = free_port()
    start = time.perf_counter()
    desk = subprocess.Popen([program, *serve_words(path, port, 1)])
    client = connected(port, desk, seconds=600)
    response = exchanged(client, request("GET /holders/h000/auths", "nobody"))[0] if client else b""
    if not response.startswith(b"HTTP/1.1 403 "):
        desk.kill()
        sys.exit("moving.py: the desk did not answer")
    seconds = time.perf_counter() - start
    usage = os.wait4(desk.pid, 0)[2]
    return seconds, usage.ru_utime + usage.ru_stime


def moved_by_statements(path):
    db = sqlite3.connect(path, isolation_level=None)
    db.execute("PRAGMA journal_mode = WAL")
    db.execute("PRAGMA synchronous = FULL")
    db.execute("PRAGMA foreign_keys = ON")
    start, processor = time.perf_counter(), time.process_time()
    for table in ("operator", "pool", "holder", "holding", "granted", "auth", "slurm"):
        for _ in db.execute(f"SELECT * FROM {table}"):
            pass
    db.execute("BEGIN")
    db.execute("DROP INDEX holding_of")
    for statement in (*NEW_TABLES, *COPY, SCHEMA[-1]):
        db.execute(statement)
    db.execute("COMMIT")
    seconds = time.perf_counter() - start, time.process_time() - processor
    db.close()
    return seconds


def rows(path):
    db = sqlite3.connect(path)
    found = [db.execute(f"SELECT * FROM {table} ORDER BY 1, 2, 3, 4, 5").fetchall() for table in ("auth", *MOVED)]
    db.close()
    return found


def main():
    program = find_program()
    count = int(sys.argv[1]) if len(sys.argv) > 1 else 100_000
    runs = int(sys.argv[2]) if len(sys.argv) > 2 else 3
    with tempfile.TemporaryDirectory(dir=os.environ.get("BENCH_WORK")) as work:
        old, one, other = f"{work}/old.db", f"{work}/one.db", f"{work}/other.db"
        make_old(old, count)
        opening, again, statements = [], [], []
        for _ in range(runs):
            copy(old, one)
            opening.append(first_answer(program, one))
            again.append(first_answer(program, one))
            copy(old, other)
            statements.append(moved_by_statements(other))
        if rows(one) != rows(other):
            sys.exit("moving.py: the moved database has other rows")
    print(f"{count} authorizations of {HOLDERS} holders, seconds and those of the processor:")
    for what, times in (
        ("opened and moved", opening),
        ("opened once more", again),
        ("all rows read and the statements done by sqlite3", statements),
    ):
        print(f"  {what}: {min(times)[0]:.2f}, {min(used for _, used in times):.2f}")
    least = [min(used for _, used in times) for times in (opening, again, statements)]
    print(f"  of the processor: opening {least[0] / least[2]:.2f} times sqlite3,"
          f" moving {(least[0] - least[1]) / least[2]:.2f} times")


main()
