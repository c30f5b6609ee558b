"""The crates of the repository, and processes that run side by side, for proofs.py and tests.py of the checks."""
import os
import pathlib
import re
import signal
import subprocess
import sys
import time

from common import PROCESSORS, TOP

# The megabytes that one more process of a proof has been seen to take.
PROCESS_MEMORY = 1500

# The numbers of the signals that ask this process to end. They are only noted, so that none comes between two steps.
signals = []


def note_signals():
    for number in (signal.SIGHUP, signal.SIGINT, signal.SIGTERM):
        signal.signal(number, lambda number, _: signals.append(number))


def crate_lines():
    """Returns for each crate, in the order of crates.txt, its line there after the colon."""
    lines = (line.partition("#")[0] for line in (TOP / "crates.txt").read_text().splitlines())
    named = (line.split(":", 1) for line in lines if line.strip())
    return {name.split()[0]: used for name, used in named}


def used_crates():
    """Returns for each crate, in the order of crates.txt, the crates that it uses."""
    lines = crate_lines()
    return {name: [it for it in used.split() if it in lines] for name, used in lines.items()}


def available_memory():
    """Returns the megabytes that can be taken without swapping."""
    text = pathlib.Path("/proc/meminfo").read_text()
    return int(re.search(r"^MemAvailable: *(\d+) kB$", text, re.M)[1]) // 1024


class Job:
    """A process whose output goes to a file, with the megabytes that it is likely to need and its processors."""

    def __init__(self, command, folder, output, memory):
        self.command, self.folder, self.output, self.memory = command, folder, output, memory
        self.processors = 1

    def claim(self, processors):
        """Takes up to so many processors, if it can use more than one."""

    def begin(self):
        """Starts it in a session of its own, so that it and what it starts can be signalled together."""
        with open(self.output, "wb") as output:
            how = {"stdin": subprocess.DEVNULL, "stdout": output, "stderr": subprocess.STDOUT}
            self.process = subprocess.Popen(self.command, cwd=self.folder, start_new_session=True, **how)

    def said(self):
        return self.output.read_text(errors="replace")

    def signal(self, number):
        try:
            os.killpg(self.process.pid, number)
        except ProcessLookupError:
            pass


def stop(jobs):
    """Leaves no process of these jobs. rt has time to end what it started elsewhere and to remove its files."""
    for job in jobs:
        job.signal(signal.SIGTERM)
    for job in jobs:
        try:
            job.process.wait(30)
        except subprocess.TimeoutExpired:
            pass
        job.signal(signal.SIGKILL)


def run_side_by_side(jobs, may_begin, end, watch=lambda: None):
    """Runs the jobs, the first ones first, as many at a time as there are processors and memory for, and always one.

    `may_begin` says of a job whether what it needs is done. `end` takes each job that has ended, and may raise. `watch`
    is called again and again while they run. However this ends, also by a signal, no process is left.
    """
    memory = available_memory()
    waiting, running = list(jobs), []

    def begin(ready):
        """Begins the first of the jobs, if there is room, with the processors that the others leave."""
        job = ready[0]
        unclaimed = min(memory - sum(it.memory for it in running), available_memory())
        free = PROCESSORS - sum(it.processors for it in running)
        if running and (free < 1 or job.memory > unclaimed):
            return
        job.claim(max(1, min(free - len(ready) + 1, 1 + (unclaimed - job.memory) // PROCESS_MEMORY)))
        job.begin()
        waiting.remove(job)
        running.append(job)

    try:
        while waiting or running:
            for job in [it for it in running if it.process.poll() is not None]:
                running.remove(job)
                end(job)
            ready = [it for it in waiting if may_begin(it)]
            for place in range(len(ready)):
                begin(ready[place:])
            watch()
            if signals:
                sys.exit(128 + signals[0])
            time.sleep(0.2)
    finally:
        stop(running)
