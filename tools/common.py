"""What the scripts in Python have in common, as common.sh for those in bash, which also says how they end.

A script that is not started by one in bash puts this folder on its path before it imports this.
"""
import os
import pathlib
import shutil
import signal
import socket
import sys
import time

TOP = pathlib.Path(__file__).resolve().parent.parent
PROCESSORS = len(os.sched_getaffinity(0))
# The status of a script of which nothing failed, but not all could be run.
NOT_RUN = 77
# The day on which desks are served, and the tables of their files.
DAY = "2026-03-01"
TABLES = ["meta", "operator", "pool", "holder", "holding", "granted", "auth", "slurm", "claim", "entry"]
# The statements that make the tables, and those of them that schema 1 lacks.
SCHEMA = (TOP / "tools/tables.sql").read_text(encoding="ascii").splitlines()
NEW_TABLES = [line for line in SCHEMA if line.startswith(("CREATE TABLE claim ", "CREATE TABLE entry "))]
# The names of what was expected and not found.
failures = []

# A script that is asked to end does so as by sys.exit, so that it first ends what it started.
signal.signal(signal.SIGTERM, lambda *_: sys.exit(1))


def expect(name, found, expected):
    """Whether the two are the same."""
    if found == expected:
        print(f"{name}: ok", flush=True)
    else:
        failures.append(name)
        print(f"{name}: found\n{found}\nexpected\n{expected}", flush=True)


def not_run(text):
    """Says what is missing."""
    print(f"{pathlib.Path(sys.argv[0]).name}: not run: {text}", file=sys.stderr, flush=True)


def need_rt():
    """Ends the script where there is no rt."""
    if not shutil.which("rt"):
        not_run("no command rt (of the Rattle toolchain, which Debian does not have)")
        sys.exit(NOT_RUN)


def find_program():
    """The path of the program, which PROGRAM may name; the script ends where there is none."""
    program = os.environ.get("PROGRAM") or str(TOP / "crates/cli/out/cli")
    if not os.access(program, os.X_OK):
        not_run(f"no program {program}: run ./roadesk build first, or name another in PROGRAM")
        sys.exit(NOT_RUN)
    return program


def charter_of(*pools):
    """The file of a charter with the operator `reg`."""
    return "kind,value\noperator,reg\n" + "".join(f"pool,{pool}\n" for pool in pools)


def slurm_file(filters=(), assertions=()):
    """A SLURM file of these prefix filters and assertions."""
    return {
        "slurmVersion": 1,
        "validationOutputFilters": {"prefixFilters": list(filters), "bgpsecFilters": []},
        "locallyAddedAssertions": {"prefixAssertions": list(assertions), "bgpsecAssertions": []},
    }


def request(line, caller, body=""):
    """The octets of a request: its line, without the version, and its body."""
    octets = body.encode()
    head = f"{line} HTTP/1.1\r\nDesk-Caller: {caller}\r\nContent-Length: {len(octets)}\r\n\r\n"
    return head.encode() + octets


def response(status, body, kind="application/json", field=""):
    """The octets of a response, which may have a field of its own."""
    fields = f"Content-Type: {kind}\r\nContent-Length: {len(body)}\r\n{field}Connection: close\r\n"
    return f"HTTP/1.1 {status}\r\n{fields}\r\n{body}".encode()


def reply_of(octets):
    """Status and body of a response, or None where it is not whole."""
    head, end, body = octets.partition(b"\r\n\r\n")
    length = [line for line in head.split(b"\r\n") if line.startswith(b"Content-Length: ")]
    if not end or not length or len(body) != int(length[0].split()[1]):
        return None
    return f"{head.split()[1].decode()} {body.decode()}"


def free_port():
    with socket.socket() as probe:
        probe.bind(("127.0.0.1", 0))
        return probe.getsockname()[1]


def serve_words(db, port, count, day=DAY, address="127.0.0.1"):
    """The words with which the program serves so many connections."""
    return ["serve", "--db", db, "--listen", f"{address}:{port}", "--count", str(count), "--day", day]


def connected(port, server=None, address="127.0.0.1", seconds=10):
    """A connection to a desk that begins to listen, or None where it does not in this time, or its process ends."""
    end = time.monotonic() + seconds
    while time.monotonic() < end:
        has_ended = server and server.poll() is not None
        try:
            return socket.create_connection((address, port), timeout=60)
        except OSError:
            if has_ended:
                return None
            time.sleep(0.002)
    return None


def exchanged(client, octets, is_all=False):
    """Sends the octets, after which nothing more comes if `is_all`. What comes back until the connection ends, and the
    fault with which it broke, or None."""
    got, broken = b"", None
    with client:
        try:
            client.sendall(octets)
            if is_all:
                client.shutdown(socket.SHUT_WR)
        except OSError as fault:
            broken = fault
        try:
            while piece := client.recv(1 << 16):
                got += piece
        except OSError as fault:
            broken = broken or fault
    return got, broken
