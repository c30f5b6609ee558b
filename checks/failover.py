"""Kills `roadesk serve` at random moments under load, and goes on with what a second machine has of its files.

    failover.py PROGRAM FOLDER LIVES SEED SECONDS

`record.so` in the folder, which is preloaded, records what the desk writes to its two files and when it syncs them. The
records are played onto the second pair of files as a mirror that answers a sync when both machines have synced: of each
file all up to its last sync, and of what came after it nothing, all, or a part, in which a write may be cut off. The
program opens a copy of the second pair. The rows have to be those of the commands that were answered 200 and no others,
except that one command that got no response may be among them (lives.py). Then the second machine is the first: the
desk is started on its files, and the other pair is made anew as a copy of them.

Two cases follow, of what is not to be done. A mirror that lags behind: the records are played up to an earlier sync.
And a second desk that is opened while the first one goes on.

Ends with 1 where something else is found, or where of the commands without a response none was kept or none was lost.
"""
import atexit
import os
import shutil
import struct
import subprocess
import sys
import time
from pathlib import Path

import lives
from common import connected, free_port, serve_words
from lives import Check, Command, done, exchange, tables_of

RECORD = struct.Struct("=IIQQ")
WRITE, TRUNCATE, SYNC = 1, 2, 3
ENDS = {1: "", 2: "-wal"}
# A write that is killed may have been made up to the end of a page of the file.
PAGE = 4096
# How long a desk may take until it listens, in seconds, and how many creates a mirror that lags is tried with.
START = 120
CREATES = 20


def records_of(path):
    """The records: kind, file, offset and bytes. The last may have been cut off by the kill."""
    content, at = path.read_bytes() if path.exists() else b"", 0
    records = []
    while at + RECORD.size <= len(content):
        kind, file, offset, length = RECORD.unpack_from(content, at)
        at += RECORD.size
        if at + length > len(content):
            break
        records.append((kind, file, offset, content[at:at + length]))
        at += length
    return records


def read_pair(db):
    return {file: bytearray(Path(f"{db}{end}").read_bytes()) for file, end in ENDS.items()}


def write_pair(db, pair):
    for file, end in ENDS.items():
        Path(f"{db}{end}").write_bytes(pair[file])


def apply(pair, record):
    kind, file, offset, written = record
    content = pair[file]
    if kind == WRITE:
        content.extend(bytes(max(0, offset + len(written) - len(content))))
        content[offset:offset + len(written)] = written
    elif kind == TRUNCATE:
        content.extend(bytes(max(0, offset - len(content))))
        del content[offset:]


def part_of(record, chance):
    """What is left of a call that was not synced: nothing, all, or the beginning or the end of a write."""
    kind, file, offset, written = record
    choice = chance.randrange(4 if kind == WRITE else 2)
    cut = chance.randint(0, len(written))
    return [None, record, (kind, file, offset, written[:cut]), (kind, file, offset + cut, written[cut:])][choice]


def beginnings(record):
    """What a kill may leave of a call: all, nothing, or of a write what ends with a page of the file."""
    kind, file, offset, written = record
    yield [record]
    yield []
    if kind == WRITE:
        for end in range(offset // PAGE * PAGE + PAGE, offset + len(written), PAGE):
            yield [(kind, file, offset, written[:end - offset])]


def play(pair, records, rest, chance):
    """The pair with the records, of which those that no sync followed as `rest` says."""
    last = {file: max((place for place, record in enumerate(records) if record[:2] == (SYNC, file)), default=-1)
            for file in ENDS}
    for place, record in enumerate(records):
        if place > last[record[1]]:
            record = {"none": None, "all": record, "some": part_of(record, chance)}[rest]
        if record:
            apply(pair, record)
    return pair


def wait_for(port, server):
    """Without a connection, which would be counted."""
    end = time.monotonic() + START
    while f":{port:04X} 00000000:0000 0A" not in Path("/proc/net/tcp").read_text():
        if server.poll() is not None or time.monotonic() > end:
            return
        time.sleep(0.005)


class Pair(Check):
    """Of two machines: `db` is the file of the one that serves, and `standby` that of the other."""

    def __init__(self, program, folder, seed):
        super().__init__(program, folder, seed)
        self.standby = self.folder / "standby.db"
        self.record = self.folder / "record"

    def serve(self, db, port, count):
        preloaded = {"LD_PRELOAD": self.folder / "record.so", "RECORD_OF": db, "RECORD": self.record}
        environment = {**os.environ, **preloaded} if db == self.db else None
        with open(self.folder / "errors", "w") as errors:
            server = subprocess.Popen([self.program, *serve_words(db, port, count)], stderr=errors, env=environment)
        atexit.register(server.kill)
        # Most lives are counted from when the desk listens.
        if self.chance.random() < 0.9:
            wait_for(port, server)
        return server

    def ask(self, port, command):
        connection = connected(port, seconds=START)
        return connection and exchange(connection, command)

    def mirror(self):
        """Both pairs are equal, and no record is left."""
        self.before = read_pair(self.db)
        write_pair(self.standby, self.before)
        self.record.unlink(missing_ok=True)

    def live(self):
        self.mirror()
        return super().live()

    def copy_of(self, pair):
        return {file: bytearray(content) for file, content in pair.items()}

    def is_whole_record(self, records):
        """The pair of the process that was killed, which lost nothing, is what all records make. The call of the last
        one may not have been made, or in part."""
        found = read_pair(self.db)
        ends = beginnings(records[-1]) if records else [[]]
        return any(play(self.copy_of(self.before), [*records[:-1], *end], "all", self.chance) == found for end in ends)

    def found(self):
        """The first machine is gone: what is found is that of the second, which is the first from now on."""
        records = records_of(self.record)
        if not self.is_whole_record(records):
            return None, "the records do not make the files of the desk that was killed"
        self.counts["writes"] += sum(kind == WRITE for kind, *_ in records)
        self.counts["syncs"] += sum(kind == SYNC for kind, *_ in records)
        rest = self.chance.choice(["none", "all", "some", "some"])
        pair = play(self.copy_of(self.before), records, rest, self.chance)
        self.counts["other bytes than the first machine has"] += pair != read_pair(self.db)
        write_pair(self.standby, pair)
        self.db, self.standby = self.standby, self.db
        return super().found()


def authorizations_of(db):
    return sorted(row[2] for row in tables_of(db) if row[0] == "claim")


class Lag(Pair):
    """One client, whose creates are numbered."""

    def set_up(self):
        self.clients = self.clients[:1]
        self.holder, self.made = self.clients[0].rows.holder, 0
        return super().set_up()

    def create(self, port, asn):
        number = self.made + 1
        members = {"asn": asn, "prefix": "10.0.0.0/24", "max": 24, "from": "2026-01-01", "until": "2026-12-31"}
        command = done("ann", "POST", f"/holders/{self.holder}/auths", members, number)
        reply = self.ask(port, command)
        return [] if reply == command.reply else [f"{command}\nfound {reply}"]

    def kept_up_to(self, records):
        """How many authorizations the second machine has where these records reached it, after the program opened it."""
        write_pair(self.standby, play(self.copy_of(self.before), records, "none", self.chance))
        port = free_port()
        server = self.serve(self.standby, port, 1)
        reply = self.ask(port, Command("probe", "GET", "/holders/probe/auths", "", ""))
        if server.wait() or reply != '403 {"denied":"grant"}\n':
            return None
        numbers = authorizations_of(self.standby)
        return len(numbers) if numbers == list(range(1, len(numbers) + 1)) else None

    def lag(self):
        """Each create was answered. Of a mirror that has the records up to one sync or another, how many are left: ever
        more of the first ones, and all of them where it has the last sync."""
        self.mirror()
        server = self.serve(self.db, self.port, 1_000_000)
        faults = []
        for asn in range(64496, 64496 + CREATES):
            faults += self.create(self.port, asn)
            self.made += 1
        server.kill()
        server.wait()
        records = records_of(self.record)
        syncs = [place for place, record in enumerate(records) if record[0] == SYNC]
        some = sorted({syncs[0], syncs[-1], *self.chance.sample(syncs, min(6, len(syncs)))})
        kept = [self.kept_up_to(records[:place + 1]) for place in some]
        print(f"a mirror that lags: of {CREATES} creates that were answered it has, after {len(some)} of its syncs:", *kept)
        if None in kept or kept != sorted(kept) or kept[-1] != CREATES or kept[0] == CREATES:
            faults.append("a mirror that lags has another state than an earlier one")
        return faults

    def two_writers(self):
        """Nothing keeps the second machine from opening its files. Both desks answer the same number."""
        self.mirror()
        first, second, port = None, None, free_port()
        try:
            first = self.serve(self.db, self.port, 1_000_000)
            faults = self.create(self.port, 64600)
            write_pair(self.standby, play(self.copy_of(self.before), records_of(self.record), "none", self.chance))
            self.made += 1
            second = self.serve(self.standby, port, 1_000_000)
            faults += self.create(port, 64601) + self.create(self.port, 64602)
        finally:
            for server in filter(None, (first, second)):
                server.kill()
                server.wait()
        others = sorted(row[0] for row in tables_of(self.db) ^ tables_of(self.standby))
        print("two writers: both answered number", self.made + 1, "and each has one authorization that the other lacks")
        return faults if others == ["claim", "claim", "entry", "entry"] else faults + ["two writers left other rows"]


def main(program, folder, number, seed, seconds):
    lives.LONGEST = float(seconds)
    check = Pair(program, folder, seed)
    faults = check.live_often(int(number), f"takeovers, seed {seed}")
    if not faults:
        other = Path(folder) / "lag"
        other.mkdir()
        shutil.copy(Path(folder) / "record.so", other)
        lag = Lag(program, other, seed)
        faults = lag.set_up() + lag.lag() + lag.two_writers()
    for fault in faults:
        print(fault)
    return 1 if faults or not check.counts["kept"] or not check.counts["lost"] else 0


if __name__ == "__main__":
    sys.exit(main(*sys.argv[1:]))
