#!/usr/bin/env python3
"""The public contracts of the crates: what a change of code, of tests or of where an item is must leave alone.

    clauses.py [TOP]                  prints those of the repository at TOP, or of this one
    clauses.py --against TOP          compares those of the repository at TOP with those of this one

Prints each public function and each method of a trait, tests aside, with its signature and its clauses, one to a
line, and the ghost lines of each type. A comparison prints what is in one of the two alone. An item is named by its impl
or trait and its own name, without its crate and its module, so one that moved is the same.

Needs nothing but python3. Ends with 0, and with 1 where a comparison printed something, for other words, and where a
repository has no contracts.
"""
import collections
import pathlib
import re
import sys

sys.path.insert(0, str(pathlib.Path(__file__).resolve().parent.parent / "tools"))
from common import TOP

OUTER = re.compile(r"^(?:unsafe )?(impl\b.*|(?:pub )?trait .*)$")
FUNCTION = re.compile(r"^( *)(?:(pub) )?(?:const )?fn (\w+)")
TEST = re.compile(r"^ *#\[(?:test|cfg\(test\))\]")


def head_of(lines, start, indent):
    """The lines of a function from its `fn` to its body, without it."""
    found = []
    for line in lines[start:]:
        if line in (f"{indent}{{", f"{indent}{{}}"):
            return found
        found.append(line)
        is_clause = any(re.match(r" *(?:ensures|requires|starred)\b", it) for it in found)
        if line.endswith(";") and line.count("}") >= line.count("{"):
            return found
        if line.endswith(" {") and not is_clause:
            return [*found[:-1], line[:-2]]
        if line.endswith(" {}") and not is_clause:
            return [*found[:-1], line[:-3]]
    return found


def spread(lines):
    """The text of a head, with a line for its signature and for each clause."""
    text = re.sub(r"\s+", " ", " ".join(lines)).strip().rstrip(";").strip()
    return re.sub(r" (?=(?:ensures|requires|decreases)\b)", "\n    ", text)


def contracts_of(path):
    """The public contracts of a file: each with the name of its item."""
    lines, outer, is_test = path.read_text(encoding="utf-8").splitlines(), "", False
    for at, line in enumerate(lines):
        is_test = is_test or bool(TEST.match(line))
        if line and not line[0].isspace():
            if line.startswith(("impl", "unsafe impl", "pub trait", "trait")):
                outer = re.sub(r"\s+", " ", " ".join(lines[at : at + 1])).rstrip(" {")
            elif not line.startswith(("}", ")", "{", "where", "#", "//")):
                outer = ""
        function = FUNCTION.match(line)
        if function:
            of_trait = outer.startswith(("pub trait", "trait")) or re.search(r"\bfor\b", re.sub(r"<.*?>", "", outer))
            if not is_test and (function[2] or of_trait):
                yield f"{outer}: " if outer else "", spread(head_of(lines, at, function[1]))
            is_test = False
        elif re.match(r" +ghost (?!use\b)\w+ = ", line):
            yield f"{outer}: ", re.sub(r"\s+", " ", line.strip() + " " + " ".join(rest_of(lines, at)))
        elif line.startswith(("mod ", "pub mod ", "pub struct", "pub enum", "use ", "pub use ", "const ", "pub const ")):
            is_test = False


def rest_of(lines, at):
    """The further lines of a ghost line, up to the end of its braces."""
    depth = lines[at].count("{") - lines[at].count("}")
    for line in lines[at + 1 :]:
        if depth <= 0:
            return
        depth += line.count("{") - line.count("}")
        yield line.strip()


def tests_of(path):
    """The files and folders of the modules that a file has for tests alone."""
    folder = path.parent if path.stem in ("lib", "main") else path.with_suffix("")
    for name in re.findall(r"#\[cfg\(test\)\]\n(?:pub )?mod (\w+);", path.read_text(encoding="utf-8")):
        yield from (folder / f"{name}.rt", folder / name)


def contracts(top):
    paths = sorted(pathlib.Path(top).glob("crates/*/src/**/*.rt"))
    if not paths:
        sys.exit(f"clauses.py: {top} has no crates")
    tests = {it for path in paths for it in tests_of(path)}
    found = collections.Counter()
    for path in paths:
        if not tests & {path, *path.parents}:
            for outer, text in contracts_of(path):
                found[outer + text] += 1
    return found


def main(words):
    if words[:1] == ["--against"] and len(words) == 2:
        old, new = contracts(words[1]), contracts(TOP)
        for sign, found in ("-", old - new), ("+", new - old):
            for text in sorted(found.elements()):
                print(sign, text)
        print(f"{sum(old.values())} contracts there, {sum(new.values())} here")
        return 1 if old != new else 0
    if len(words) > 1 or words[:1] == ["--against"]:
        print(__doc__, file=sys.stderr)
        return 1
    found = contracts(words[0] if words else TOP)
    print("\n".join(sorted(found.elements())))
    return 0


if __name__ == "__main__":
    sys.exit(main(sys.argv[1:]))
