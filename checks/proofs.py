#!/usr/bin/env python3
"""Proves and builds the program and the crates that it uses, several at a time, as `./roadesk build`.

    proofs.py

A crate begins once all that it uses are built: first the one that the most lines wait for. It gets the processors for
which no other crate is ready. rt lets no other rt work on a crate, nor on those that it uses, so each proof has a copy
of them, whose files are hard links. What it built is then moved to where the crate is.

On standard error is the name of each crate as its proof begins. Needs rt. Ends with 0 where all are built, with 1 where
one is not proved, after what its proof printed, and with 77, after a line that says so, where there is no rt.
"""
import functools
import os
import pathlib
import shutil
import sys
import tempfile

sys.path.insert(0, str(pathlib.Path(__file__).resolve().parent.parent / "tools"))
import side_by_side
from common import TOP, need_rt
from side_by_side import Job

PROGRAM = "cli"

used = side_by_side.used_crates()


def lines_of(crate, *folders):
    files = (file for folder in folders for file in (TOP / "crates" / crate / folder).rglob("*"))
    return sum(file.read_bytes().count(b"\n") for file in files if file.suffix in (".rt", ".antt"))


def size_of(crate):
    return lines_of(crate, "src", "specs", "proofs")


@functools.lru_cache(maxsize=None)
def below(crate):
    """Returns the crates that this one uses, and those that they use."""
    return frozenset(used[crate]).union(*map(below, used[crate]))


@functools.lru_cache(maxsize=None)
def lines_that_wait(crate):
    """Returns the lines of this crate and of the longest chain of crates that wait for it."""
    above = [it for it in (*below(PROGRAM), PROGRAM) if crate in used[it]]
    return size_of(crate) + max(map(lines_that_wait, above), default=0)


class Proof(Job):
    """The proof of a crate, which then is built for those above. It has a copy of the crate and of those below."""

    def __init__(self, crate, work):
        self.crate = crate
        self.home = TOP / "crates" / crate
        self.top = pathlib.Path(work) / crate
        # A bound on what was measured: 0.8 to 2.2 GB for the crates below the desk, up to 7 GB for a large one above all.
        memory = 1000 + size_of(crate) // 2 + sum(lines_of(it, "src") for it in below(crate)) // 4
        super().__init__(["rt", "lib"], self.top / "crates" / crate, self.top / "said", memory)

    def claim(self, processors):
        """The processes of a proof share their work, and each takes memory of its own."""
        self.processors = processors
        self.memory += (processors - 1) * side_by_side.PROCESS_MEMORY
        self.command = [*self.command, "--jobs", str(processors)]

    def begin(self):
        print(f"roadesk: proving {self.crate}", file=sys.stderr, flush=True)
        self.copy()
        super().begin()

    def copy(self):
        how = {"symlinks": True, "copy_function": os.link}
        for crate in below(self.crate):
            kept = shutil.ignore_patterns("incremental")
            shutil.copytree(TOP / "crates" / crate, self.top / "crates" / crate, ignore=kept, **how)
        shutil.copytree(self.home, self.folder, **how)
        lines = (TOP / "crates.txt").read_text().splitlines(keepends=True)
        named = {*below(self.crate), self.crate}
        (self.top / "crates.txt").write_text("".join(it for it in lines if it.split(":")[0].strip() in named))

    def has_passed(self):
        return self.process.returncode == 0

    def keep(self):
        """Moves what was built, and what serves the next proof, to where the crate is."""
        shutil.rmtree(self.home / "out", ignore_errors=True)
        os.rename(self.folder / "out", self.home / "out")
        shutil.rmtree(self.top)


class Program(Proof):
    """The proof of the program, which is built and run with no words: it prints a line and ends."""

    def __init__(self, work):
        super().__init__(PROGRAM, work)
        self.command, self.folder = ["rt", "run"], self.home

    def claim(self, processors):
        """It is the last one, so rt chooses as it does alone."""

    def copy(self):
        """Nothing else runs by now, so it is built where it is."""
        self.top.mkdir()

    def has_passed(self):
        return "roadesk: words" in self.said().splitlines()

    def keep(self):
        pass


def main():
    need_rt()
    side_by_side.note_signals()
    built = set()

    def end(proof):
        if not proof.has_passed():
            sys.exit(f"{proof.said()}roadesk: {proof.crate} is not proved")
        proof.keep()
        built.add(proof.crate)

    # A hard link needs the file system of the crates.
    place = TOP / "crates" / PROGRAM / "out"
    place.mkdir(exist_ok=True)
    with tempfile.TemporaryDirectory(prefix="build-", dir=place) as work:
        crates = sorted(below(PROGRAM), key=lines_that_wait, reverse=True)
        proofs = [*(Proof(crate, work) for crate in crates), Program(work)]
        side_by_side.run_side_by_side(proofs, lambda proof: built.issuperset(used[proof.crate]), end)


if __name__ == "__main__":
    main()
