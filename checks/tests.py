"""Runs all tests of all crates before any proof, several processes at a time, as `./roadesk test`.

    tests.py

`rt try --test` builds all that a crate uses, which takes longer than most of its tests, and runs them one after the
other. So each process has a copy of the sources with one crate more, whose modules are crates of tests. It keeps the
share of the tests that this process runs. A test has passed only if its process said so by name, and the names are
those that the sources have.

Prints a line for each crate once its last test has ended, with the seconds since the beginning, and after the last
process each test that failed or did not run. Needs rt. Ends with 0 if all passed, with 77, after a line that says so,
where there is no rt, and else with 1.
"""
import os
import pathlib
import re
import shutil
import sys
import tempfile
import time

sys.path.insert(0, str(pathlib.Path(__file__).resolve().parent.parent / "tools"))
import side_by_side
from common import PROCESSORS, TOP, need_rt
from side_by_side import Job

# A test and the comments before it, as rt fmt lays them out.
TEST = re.compile(r"(?:^ *//.*\n)*^( *)#\[test\]\n(?:.*\n)*?\1}\n", re.M)
BUILT = re.compile(r"^tests: \d+$", re.M)
VERDICT = re.compile(r"^test (\S+) \.\.\. (ok|FAILED)\n((?:[ \t].*\n)*)", re.M)

# The crate of all tests. Its modules are `of_` and the name of a crate of tests, since no module has a crate's name.
ALL_TESTS = "all_tests"

# About how many seconds each test takes that has such a word in its name, the first of these, and each other test.
SECONDS = {
    "while_made": 110,
    "while_the_log_is_copied": 90,
    "while_moved": 80,
    "while_opened_and_closed": 50,
    "while_the_log_grows": 45,
    "kept_day": 15,
}
OTHER_SECONDS = 3

# How many seconds a test may take, and a build.
TEST_SECONDS = 600
BUILD_SECONDS = 150

# The megabytes that a process takes while it builds, with so many for each of its crates of tests, and afterwards.
BUILD_MEMORY = 4200
CRATE_MEMORY = 1900
TEST_MEMORY = 500


def seconds_of(test):
    return next((seconds for word, seconds in SECONDS.items() if word in test), OTHER_SECONDS)


def tests_of(crate):
    """Returns the tests of the crate, each as the name of its crate and its own, in the order of the sources."""
    names = []
    for file in sorted((TOP / "crates" / crate / "src").rglob("*.rt")):
        text = file.read_text()
        found = [re.search(r"\bfn (\w+)", it[0])[1] for it in TEST.finditer(text)]
        if len(found) != text.count("#[test]"):
            sys.exit(f"roadesk: {file}: not each #[test] is where rt fmt has it")
        names += [f"{crate}::{name}" for name in found]
    if len(set(names)) < len(names):
        sys.exit(f"roadesk: {crate}: two tests have one name")
    return names


def shares(crates, count, builds):
    """Divides the tests among so many processes, of which so many build at a time.

    Each crate more takes a process time and memory to build. So the last process, which begins last, has all tests of
    each crate that has less than one share of the seconds. Those of the other crates follow, the slowest first, each in
    the process that will have ended first.
    """
    shares, seconds = [set() for _ in range(count)], [nth // builds * BUILD_SECONDS for nth in range(count)]
    mean = sum(seconds_of(test) for tests in crates.values() for test in tests) / count
    divided = []

    def add(test, nth):
        shares[nth].add(test)
        seconds[nth] += seconds_of(test)

    for tests in crates.values():
        if sum(map(seconds_of, tests)) > mean:
            divided += tests
        else:
            for test in tests:
                add(test, -1)
    for test in sorted(divided, key=seconds_of, reverse=True):
        add(test, seconds.index(min(seconds)))
    return [share for share in shares if share]


class Part(Job):
    """A process with its share of the tests, which are of these crates, in a copy of the sources."""

    def __init__(self, crates, tests, top):
        self.crates, self.tests, self.top = crates, tests, top
        command = ["rt", "try", "--test", "--seconds", str(TEST_SECONDS)]
        memory = BUILD_MEMORY + CRATE_MEMORY * len(crates)
        super().__init__(command, top / "crates" / ALL_TESTS, top / "said", memory)

    def begin(self):
        shutil.copytree(TOP / "crates", self.top / "crates", ignore=shutil.ignore_patterns("out"))
        used = side_by_side.crate_lines()
        needs = sorted({word for crate in self.crates for word in used[crate].split()})
        lines = [f"{name}: {words.strip()}\n" for name, words in used.items()]
        (self.top / "crates.txt").write_text("".join(lines) + f"{ALL_TESTS}: {' '.join(needs)}\n")
        for crate in self.crates:
            self.copy(crate)
        modules = "".join(f"mod of_{crate};\n" for crate in self.crates)
        (self.folder / "src" / "lib.rt").write_text(f"#![tactic(auto)]\n\n{modules}")
        super().begin()

    def copy(self, crate):
        """Makes the crate a module, without the tests of the other processes."""
        sources, to = TOP / "crates" / crate / "src", self.folder / "src" / f"of_{crate}"
        for file in sorted(sources.rglob("*.rt")):
            text = re.sub(r"\bcrate::", f"crate::of_{crate}::", file.read_text())
            text = re.sub(r"^(//!|#!).*\n", "", text, flags=re.M)
            place = to / file.relative_to(sources)
            if place == to / "lib.rt":
                place = to.with_suffix(".rt")
            place.parent.mkdir(parents=True, exist_ok=True)
            place.write_text(TEST.sub(lambda it: it[0] if self.takes(crate, it[0]) else "", text))

    def takes(self, crate, text):
        name = re.search(r"\bfn (\w+)", text)[1]
        return f"{crate}::{name}" in self.tests

    def verdicts(self):
        """Returns for each test that has ended its verdict, and what it said."""
        if not self.output.exists():
            return {}
        found, said = {}, self.said()
        if BUILT.search(said):
            self.memory = TEST_MEMORY
        for path, verdict, why in VERDICT.findall(said):
            crate, *_, name = path.removeprefix("of_").split("::")
            found[f"{crate}::{name}"] = (verdict, why)
        return found

    def is_whole(self):
        """Whether the process judged each of its tests and no other, and ended as these say."""
        verdicts = self.verdicts()
        has_failed = any(verdict == "FAILED" for verdict, _ in verdicts.values())
        return set(verdicts) == self.tests and bool(self.process.returncode) == has_failed


class Report:
    """What is known of the tests of each crate, and which crates have a line already."""

    def __init__(self, crates, parts):
        self.crates, self.parts = crates, parts
        self.begun, self.seen = time.monotonic(), 0
        self.told = set()

    def verdicts(self):
        return {test: verdict for part in self.parts for test, verdict in part.verdicts().items()}

    def watch(self):
        """Prints a line for each crate whose tests have ended since the last one."""
        if time.monotonic() - self.seen < 1:
            return
        verdicts, self.seen = self.verdicts(), time.monotonic()
        for crate, tests in self.crates.items():
            if crate not in self.told and all(test in verdicts for test in tests):
                self.tell(crate, verdicts)

    def tell(self, crate, verdicts):
        self.told.add(crate)
        tests = self.crates[crate]
        passed = sum(verdicts.get(test, ("",))[0] == "ok" for test in tests)
        print(f"{crate}: {passed} of {len(tests)} passed, {time.monotonic() - self.begun:.0f} s", flush=True)

    def end(self):
        """Prints what is left to say; returns whether all tests have passed."""
        verdicts = self.verdicts()
        tests = [test for tests in self.crates.values() for test in tests]
        for crate in self.crates:
            if crate not in self.told:
                self.tell(crate, verdicts)
        for part in self.parts:
            if not part.is_whole():
                print(f"rt try ended with {part.process.returncode}, after\n{part.said()[-3000:]}")
            if not part.verdicts():
                # The others did not begin either.
                break
        failed = [test for test in tests if verdicts.get(test, ("",))[0] == "FAILED"]
        not_run = [test for test in tests if test not in verdicts]
        for test in failed:
            print(f"failed: {test}\n{verdicts[test][1]}", end="")
        for test in not_run:
            print(f"not run: {test}")
        passed = len(tests) - len(failed) - len(not_run)
        print(f"{passed} passed, {len(failed)} failed" + (f", {len(not_run)} not run" if not_run else ""))
        return passed == len(tests) and all(part.is_whole() for part in self.parts)


def main():
    need_rt()
    side_by_side.note_signals()
    crates = {name: tests for name in side_by_side.used_crates() if (tests := tests_of(name))}
    builds = max(1, side_by_side.available_memory() // (BUILD_MEMORY + CRATE_MEMORY))
    with tempfile.TemporaryDirectory(prefix="roadesk-test-") as work:
        # So that nothing is left of an rt that is killed.
        os.environ["TMPDIR"] = work
        parts = []
        for nth, share in enumerate(shares(crates, PROCESSORS, builds)):
            named = [name for name, tests in crates.items() if not share.isdisjoint(tests)]
            parts.append(Part(named, share, pathlib.Path(work) / str(nth)))
        report = Report(crates, parts)
        side_by_side.run_side_by_side(parts, lambda part: True, lambda part: None, report.watch)
        passed = report.end()
    sys.exit(not passed)


if __name__ == "__main__":
    main()
