#!/usr/bin/env python3
"""Whether the wrong bodies of must-fail edits that name a row of a test make that row fail.

    rows.py [CRATE/EDIT...]      (every edit in crates/*/must-fail that names a row, if left out)

Such an edit has a line `# fails: CRATE, TEST, row "ROW"`. Each is planted alone in a copy of the crates, in which `rt
try --test` runs the test of that crate: it has to fail with a message that has the row's text in it. That the test
passes without the edit is for `./roadesk test`.

Needs rt. Ends with 0 where each row failed, with 1 where one did not, a test did not run or an edit could not be
planted or none names a row, and with 77, after a line that says so, where there is no rt.
"""
import pathlib
import re
import shutil
import subprocess
import sys
import tempfile

sys.path.insert(0, str(pathlib.Path(__file__).resolve().parent.parent / "tools"))
from common import TOP, need_rt

NAMED = re.compile(r'^# fails: (\w+), (\w+), row "(.*)"$', re.M)


def plant(lines, crate):
    """Makes the changes of an edit in a copy of its crate, as `rt must-fail` reads them."""
    for line in lines:
        word, _, text = line.partition(":")
        text = text.removeprefix(" ")
        if word == "file":
            file = crate / text.strip()
        elif word == "old":
            old = text
        elif word == "new":
            was = file.read_text()
            if was.count(old) != 1:
                return f"an old text is in {file.name} {was.count(old)} times"
            file.write_text(was.replace(old, text))
    return None


def verdict(edit, named, work):
    """Says what the test told of the planted edit: that its row failed, or what else."""
    crate, test, row = named.groups()
    copy = work / "crates"
    shutil.copytree(TOP / "crates", copy, ignore=shutil.ignore_patterns("out"))
    shutil.copy(TOP / "crates.txt", work)
    fault = plant(edit.read_text().splitlines(), copy / edit.parent.parent.name)
    if fault:
        return f"not planted: {fault}"
    how = {"cwd": copy / crate, "stdin": subprocess.DEVNULL, "stdout": subprocess.PIPE, "stderr": subprocess.STDOUT}
    said = subprocess.run(["rt", "try", "--test", "--", test], **how, text=True, errors="replace").stdout
    told = re.search(rf"^test (?:\S+::)?{test} \.\.\. (\w+)\n((?:[ \t].*\n)*)", said, re.M)
    if not told:
        return f"not run\n{said}"
    if told[1] == "FAILED" and row in told[2]:
        return "fails"
    return f"does not fail\n{said}"


def main():
    need_rt()
    names = sys.argv[1:]
    edits = [TOP / "crates" / crate / "must-fail" / f"{edit}.edit" for crate, edit in (it.split("/") for it in names)]
    failed = tried = 0
    for edit in edits or sorted(TOP.glob("crates/*/must-fail/*.edit")):
        named = NAMED.search(edit.read_text())
        if named or names:
            with tempfile.TemporaryDirectory(prefix="roadesk-rows-") as work:
                said = verdict(edit, named, pathlib.Path(work)) if named else "names no row"
            tried += 1
            failed += said != "fails"
            about = ", ".join(named.groups()) if named else ""
            print(f"{edit.parent.parent.name}/{edit.stem}: {about}: {said}", flush=True)
    if not tried:
        sys.exit("rows.py: no edit names a row")
    sys.exit(failed > 0)


if __name__ == "__main__":
    main()
