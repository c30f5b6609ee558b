#!/usr/bin/env python3
"""Measures the rule `overlap`: a line of 1 MiB with 16 SLURM files of 2,800 filters each, of which no two overlap.

    overlap.py [RUNS]      (3 if left out)

The line is sent by a stranger, whom the rule before it denies; and by an operator, with one more filter that lies in the
last one of another file, so that this rule denies it after it went over all prefixes. The time of a line is that of a
script of 11 less that of one, by 10; of the runs the least counts. PROGRAM names the program, else it is that of the
repository. Ends with 1 where an answer is another, with 77 where there is no program.
"""

import json
import pathlib
import subprocess
import sys
import tempfile
import time

sys.path.insert(0, str(pathlib.Path(__file__).resolve().parents[2] / "tools"))
from common import charter_of, find_program, slurm_file

FILES = 16
FILTERS = 2800


def line(caller, further=()):
    files = [[f"{place * 4096 + number:x}::/16" for number in range(1, FILTERS + 1)] for place in range(FILES)]
    files[0] += further
    named = [{"name": f"file-{place}", "file": slurm_file({"prefix": prefix} for prefix in prefixes)}
             for place, prefixes in enumerate(files)]
    request = {"day": "2026-03-01", "caller": caller, "do": "slurm", "files": named}
    return json.dumps(request, separators=(",", ":")) + "\n"


def seconds(program, charter, text, answer):
    start = time.perf_counter()
    words = [program, "script", "--charter", charter]
    said = subprocess.run(words, input=text, capture_output=True, text=True, check=True)
    if said.stdout.splitlines() != [answer] * text.count("\n"):
        sys.exit(f"overlap.py: {said.stdout[:80]}")
    return time.perf_counter() - start


def main():
    program = find_program()
    runs = int(sys.argv[1]) if len(sys.argv) > 1 else 3
    with tempfile.TemporaryDirectory() as work:
        charter = f"{work}/charter.csv"
        with open(charter, "w", encoding="ascii") as out:
            out.write(charter_of("10.0.0.0/8"))
        for what, text, answer in (
            ("denied operator", line("bob"), '{"denied":"operator"}'),
            ("denied overlap", line("reg", ["faf0::/32"]), '{"denied":"overlap"}'),
        ):
            one, many = (min(seconds(program, charter, text * count, answer) for _ in range(runs)) for count in (1, 11))
            print(f"{what}: {(many - one) * 100:.1f} ms a line of {len(text)} bytes")


main()
