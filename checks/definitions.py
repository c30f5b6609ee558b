#!/usr/bin/env python3
"""What has to be read to believe a clause: the definitions that it reaches, with their lines.

    definitions.py [CRATE FILE CLAUSE..]      without words: desk src/desk.rt answered left

For the clauses of these names in the file, prints the definitions of specs/ that they reach, each file with its names and
lines; then the types of the code that these name; then the definitions of the toolchain's libraries, whose own
definitions are not followed. Nothing is proved or run. The last line has the sums.

Needs nothing but python3. Ends with 0, and with 1 where there is no such file or no such clause in it.
"""
import pathlib
import re
import sys

sys.path.insert(0, str(pathlib.Path(__file__).resolve().parent.parent / "tools"))
from common import TOP

USE = re.compile(r"^\s*(?:ghost )?use (Rattle\.[\w.+]+)(?:\.\{([^}]*)\}| as (\w+));?\s*$", re.M)
HEAD = re.compile(r"^(?:(?:abbrev|unfoldable|pub) )*(?:record |data )?([^\s(:]+)(?=[\s(:])")
WORD = re.compile(r"[^\s(){}\[\],;λ]+")


def imports(text):
    """The names that a text uses of other modules: each with its module and its name there."""
    found = {}
    for module, names, alias in USE.findall(text):
        if alias:
            found[alias] = module, None
        for it in filter(None, (it.strip() for it in names.split(","))):
            name, _, other = it.partition(" as ")
            found[other or name] = module, name
    return found


def blocks(text):
    """The definitions of a file of specs/: the name and the lines of each."""
    found, name = {}, None
    for line in text.splitlines():
        if not line.strip() or line.startswith(("use ", "--", "pub mod ", "mod ")):
            name = None if not line.strip() else name
            continue
        if not line[0].isspace() and (head := HEAD.match(line)):
            name = head[1] if head[1] not in found or name != head[1] else name
            found.setdefault(name, [])
        if name:
            found[name].append(line)
    return found


class Module:
    """A file of specs/."""

    def __init__(self, path):
        text = path.read_text(encoding="utf-8")
        self.used, self.blocks = imports(text), blocks(text)


def place(module):
    """Where a module stands: the crate and its file, or a type of the code, or a library of the toolchain."""
    _, crate, part, *rest = module.split(".")
    if not (TOP / "crates" / crate).is_dir():
        return "toolchain", module
    if rest[0] in ("declared", "contracts"):
        return "code", ".".join([crate, *[it for it in rest[1:] if not it.startswith("The")]])
    return "specs", TOP / "crates" / crate / part / ("/".join(rest) + ".antt")


def reached(text, used, own):
    """The modules and names that a text reaches, where these are used and these are the file's own."""
    for word in WORD.findall(re.sub(r"--.*", "", text)):
        for it in (word, word.split(".")[0]):
            if it in own:
                yield None, it
            elif it in used:
                module, name = used[it]
                yield module, name or word.partition(".")[2]


def clauses(text, names):
    """The texts of the clauses of these names."""
    for head in re.finditer(r"ensures\*? (\w+) \{", text):
        if head[1] in names:
            depth, at = 1, head.end()
            while depth:
                depth += {"{": 1, "}": -1}.get(text[at], 0)
                at += 1
            yield text[head.end() : at - 1]


def follow(crate, file, names):
    """The definitions of specs/ by file, the types of the code, and those of the toolchain by module, that are reached."""
    text = (TOP / "crates" / crate / file).read_text(encoding="utf-8")
    modules, specs, code, kit = {}, {}, set(), {}
    missing = [it for it in names if not any(clauses(text, [it]))]
    if missing:
        sys.exit(f"definitions.py: {file} has no clause {missing[0]}")
    left = [it for clause in clauses(text, names) for it in reached(clause, imports(text), ())]
    while left:
        module, name = left.pop()
        kind, where = place(module)
        if kind == "code":
            code.add(where)
        elif kind == "toolchain":
            kit.setdefault(where, set()).add(name)
        elif name not in specs.setdefault(where, {}):
            if where not in modules:
                modules[where] = Module(where)
            it = modules[where]
            lines = it.blocks.get(name, [])
            specs[where][name] = len(lines)
            found = reached("\n".join(lines), it.used, it.blocks)
            left += [(of or module, to) for of, to in found]
    return specs, code, kit


def main(words):
    crate, file, *names = words or ["desk", "src/desk.rt", "answered", "left"]
    specs, code, kit = follow(crate, file, names)
    for path in sorted(specs):
        print(f"{path.relative_to(TOP)}: {sum(specs[path].values())} lines: {' '.join(sorted(specs[path]))}")
    print(f"\ntypes of the code: {' '.join(sorted(code))}\n")
    for module in sorted(kit):
        print(f"{module}: {' '.join(sorted(kit[module]))}")
    number = sum(len(it) for it in specs.values())
    lines = sum(sum(it.values()) for it in specs.values())
    print(f"\n{number} definitions in {lines} lines of {len(specs)} files, {len(code)} types of the code, "
          f"{sum(len(it) for it in kit.values())} definitions of {len({it.split('.')[1] for it in kit})} libraries of the toolchain")


if __name__ == "__main__":
    main(sys.argv[1:])
