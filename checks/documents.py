#!/usr/bin/env python3
"""Whether what the documents name is there: the targets of their links, files, and items of the code.

    documents.py

Reads the documents outside their blocks of code. Looks up each link, with its anchor. But for the CHANGELOG, looks up
each text in backquotes that is a path of files, a path of items (`crate::module::item`), or, if the document is not for
users, a name with a capital or an underscore.

Needs nothing but python3. Exit status: 0 if all is there, and 1, after a line for each name that is not.
"""
import itertools
import pathlib
import re
import sys

sys.path.insert(0, str(pathlib.Path(__file__).resolve().parent.parent / "tools"))
from common import TOP

DOCUMENTS = [TOP / "README.md", TOP / "CHANGELOG.md", TOP / "bench/README.md", TOP / "examples/README.md"]
DOCUMENTS += sorted((TOP / "docs").glob("*.md"))
# Those for users, which name things of other programs too.
OF_OTHERS = ("GUIDE.md", "OPERATIONS.md")
# Folders of the repository. What a document names in another is on a machine, not here.
FOLDERS = ("bench", "checks", "console", "crates", "docs", "examples", "packaging", "tools")
WORD = re.compile(r"\w+")
LINK = re.compile(r"\[[^\]]*\]\(([^()\s]+)\)")
QUOTED = re.compile(r"`([^`\n]+)`")
FILE = re.compile(rf"(?:{'|'.join(FOLDERS)})/[\w./-]+")
# What stands for a name, and what is built.
PLACE = re.compile(r"/[A-Z]+/|/out/")
ITEMS = re.compile(r"\w+(?:::(?:\w+|\{[\w, ]+\}))+")
TYPE = re.compile(r"\b(?:struct|enum|trait|type) (\w+)")
NAME = re.compile(r"[A-Z]\w*[a-z]\w*|[a-z]\w*_\w+")


def text_of(path):
    """The text of a file; none of a folder, or of a file that is no UTF-8."""
    try:
        return path.read_text(encoding="utf-8")
    except (IsADirectoryError, UnicodeDecodeError):
        return ""


def prose_of(document):
    """The document without its blocks of code, as many lines as it has."""
    return re.sub(r"^```.*?^```$", lambda block: "\n" * block[0].count("\n"), text_of(document), flags=re.S | re.M)


def anchors_of(document):
    """The anchors of its headings, as forges make them."""
    headings = re.findall(r"^#+ (.*)$", prose_of(document), flags=re.M)
    slugs = [re.sub(r"[^\w\- ]", "", heading.lower()).replace(" ", "-") for heading in headings]
    return {slug if n == 0 else f"{slug}-{n}" for slug in slugs for n in range(slugs.count(slug))}


def is_linked(document, target):
    """Whether the target of a link is there. One on another host is not looked up."""
    if "://" in target or target.startswith("mailto:"):
        return True
    file, _, anchor = target.partition("#")
    path = (document.parent / file).resolve() if file else document
    return path.exists() and (not anchor or anchor in anchors_of(path))


def items_of(path):
    """The items that a path names, each as the list of its parts: one, or one for each in its braces."""
    parts = [re.findall(r"\w+", part) for part in path.split("::")]
    return [list(names) for names in itertools.product(*parts)]


def sources():
    """The files in which a name may be: code, definitions, scripts, units and examples."""
    for folder in FOLDERS:
        for path in sorted((TOP / folder).rglob("*")):
            if "out" not in path.parts and path.suffix not in (".md", ".png") and path.is_file():
                yield path
    yield TOP / "roadesk"


def find_crates():
    """The words of each crate, and its modules and types."""
    crates = {}
    for path in (TOP / "crates").glob("*/src/**/*.rt"):
        name = path.relative_to(TOP / "crates").parts[0]
        words, rooms = crates.setdefault(name, ({name}, set()))
        words.update(WORD.findall(text_of(path)), [path.stem])
        rooms.update(TYPE.findall(text_of(path)), [path.stem])
    return crates


def is_item(parts, crates):
    """Whether the crate that the path begins with has all its parts, or some crate the module or type and the others."""
    if parts[0] in crates:
        return set(parts) <= crates[parts[0]][0]
    return any(parts[0] in rooms and set(parts) <= words for words, rooms in crates.values())


def missing_in(document, crates, words):
    """The names in the document that are not there, with their lines."""
    is_of_others = document.name in OF_OTHERS
    is_of_the_past = document.name == "CHANGELOG.md"
    for number, line in enumerate(prose_of(document).split("\n"), 1):
        for target in LINK.findall(line):
            if not is_linked(document, target):
                yield number, target
        for quoted in [] if is_of_the_past else QUOTED.findall(line):
            for file in FILE.findall(quoted):
                if file == quoted and not (TOP / file).exists() and not PLACE.search(file):
                    yield number, file
            if ITEMS.fullmatch(quoted):
                yield from ((number, "::".join(item)) for item in items_of(quoted) if not is_item(item, crates))
            elif not is_of_others and NAME.fullmatch(quoted) and quoted not in words:
                yield number, quoted


crates = find_crates()
words = {*crates, *itertools.chain.from_iterable(WORD.findall(text_of(path)) for path in sources())}
missing = [(document, *found) for document in DOCUMENTS for found in missing_in(document, crates, words)]
for document, number, name in missing:
    print(f"{document.relative_to(TOP)}:{number}: {name} is not there")
sys.exit(1 if missing else 0)
