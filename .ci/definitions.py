#!/usr/bin/env python3
"""Compares the documents that say what is promised with the crates that they speak of.

    .ci/definitions.py

- docs/DEFINITIONS.md: each file that it names is there, each definition that an entry is about stands in one
  of the files that its section names, and every other name in code is a name of the crates.
- docs/PROVED.md and the README's section on what is proved: each name in code within brackets is a name of
  the crates; in PROVED.md each crate but `main` and those of tests has its section, or is in one's heading.
- docs/ARCHITECTURE.md: each crate has its entry, which names crates that it stands on alone, and each word
  for a level that it names is a definition.
- All documents: each file and each link that they name is there.

A name of the crates is a file or a definition of `specs`, or a function, a type, a field, a variant or a
clause of `src`. What is missing is printed, a line each, with status 1; else one line says what was compared.
"""

import pathlib
import re
import sys

TOP = pathlib.Path(__file__).resolve().parent.parent
CRATES = TOP / "crates"
DEFINED = re.compile(
    r"^ *(?:abbrev |unfoldable |opaque )*(?:pub )?(?:(?:record|data) (\w+)|([A-Za-z_]\w*)\b.*:)", re.M
)
ITEM = re.compile(r"\b(?:fn|struct|enum|trait|type|ghost|ensures|requires|invariant|mod|const) (\w+)")
MEMBER = re.compile(r"^ +(?:pub )?(\w+)(?:[:(,{]| =)", re.M)
CODE = re.compile(r"`([^`]+)`")
NAME = re.compile(r"[A-Za-z_]\w*")
FILE = re.compile(r"(?:\.ci|bench|docs|examples|tools)/[a-z0-9_./-]+")


def read(path):
    return (TOP / path).read_text(encoding="utf-8")


def crates():
    """The crates of crates.txt, each with those that it stands on."""
    lines = (line.partition("#")[0].partition(":") for line in read("crates.txt").split("\n"))
    return {head.split()[0]: set(below.split()) for head, _, below in lines if head.split()}


def definitions_of(path):
    """The names that a file of specs defines."""
    found = DEFINED.findall(path.read_text(encoding="utf-8"))
    return {record or other for record, other in found}


def definitions():
    """The names that the specs of all crates define."""
    return set().union(*(definitions_of(it) for it in CRATES.glob("*/specs/*.antt")))


def files():
    """The names of the files of specs."""
    return {it.stem for it in CRATES.glob("*/specs/*.antt")}


def names_of(crate):
    """The names that the sources of a crate have."""
    texts = (it.read_text(encoding="utf-8") for it in (CRATES / crate / "src").rglob("*.rt"))
    return {name for text in texts for name in ITEM.findall(text) + MEMBER.findall(text)}


def sections(text, level):
    """The titles of this level with what stands below each, up to the next title of it or one above."""
    marks = "#" * level
    return re.findall(rf"^{marks} (.*)\n((?:(?!#{{1,{level}}} ).*\n)*)", text, re.M)


def plain(text):
    """The text without its fenced blocks."""
    return re.sub(r"^```.*?^```$", "", text, flags=re.M | re.S)


def files_in(text):
    """The files of specs that a text names, as `cm_a/specs/B`, `C`, of which C is of cm_a too."""
    found, folder = [], None
    for name in CODE.findall(text):
        if "/specs/" in name:
            folder = name.rpartition("/")[0]
            found.append(name)
        elif folder and NAME.fullmatch(name) and name[0].isupper():
            found.append(f"{folder}/{name}")
    return found


def items(text):
    """The entries of a list, each with the lines that go on with it."""
    return re.findall(r"^- (.*(?:\n  .*)*)", text, re.M)


def table(text):
    """The names of the middle column of a table's rows, each with the file of the last column."""
    for row in re.findall(r"^\|(.*)\|$", text, re.M)[2:]:
        cells = row.split("|")
        for name in CODE.findall(cells[1]):
            yield name, CODE.findall(cells[2])


def defined_in(paths):
    """The names that these files define, of those that are there."""
    return set().union(*(definitions_of(path) for path in paths if path.is_file()))


def misplaced(item, paths, known):
    """What an entry is about that stands in none of its section's files, nor in one that it names itself."""
    subject = re.sub(r"\([^)]*\)", "", item.partition(":")[0])
    own = {path.parent / f"{name}.antt" for path in paths for name in re.findall(r"\(`(\w+)`\)", item)}
    there = defined_in([*paths, *own, *(CRATES / f"{it}.antt" for it in files_in(item))])
    wrong = [f"`{it}` isn't in its files" for it in CODE.findall(subject) if it not in there]
    names = [it for it in CODE.findall(item) if NAME.fullmatch(it)]
    return wrong + [f"nothing is called `{it}`" for it in names if it not in known]


def misplaced_row(name, cells, paths):
    """Whether the name of a table's row stands in none of the files of that row."""
    there = [folder / f"{cell}.antt" for folder in {path.parent for path in paths} for cell in cells]
    return [] if name in defined_in(there) else [f"`{name}` isn't in {' or '.join(cells)}"]


def missing_definitions(text, known):
    """What DEFINITIONS.md names that isn't there."""
    wrong = []
    for title, body in sections(plain(text), 2):
        head = re.search(r"^Files?: (.*(?:\n\S.*)*)", body, re.M)
        paths = [CRATES / f"{it}.antt" for it in files_in(head[1] if head else "")]
        told = [it for it in CODE.findall(body) if re.fullmatch(r"\w+/specs/\w+", it)]
        told = paths + [CRATES / f"{it}.antt" for it in told]
        found = [f"no file {path.relative_to(CRATES)}" for path in told if not path.is_file()]
        found += [it for item in items(body) for it in misplaced(item, paths, known)]
        found += [it for name, cells in table(body) for it in misplaced_row(name, cells, paths)]
        wrong += [f"docs/DEFINITIONS.md, {title}: {it}" for it in found]
    return wrong


def bracketed(text):
    """The names in code that stand within brackets."""
    inside = re.findall(r"\(([^()]*`[^()]*)\)", text)
    return {name for it in inside for name in CODE.findall(it) if NAME.fullmatch(name)}


def unfounded(path, text, known):
    return [f"{path}: nothing is called `{it}`" for it in sorted(bracketed(plain(text)) - known)]


def unproved(text):
    """Crates that PROVED.md has no section of, and crates of headings that aren't there."""
    told = {it for title, _ in sections(text, 2) for it in re.findall(r"`(\w+)`", title)}
    wanted = {it for it in crates() if not it.endswith(("_tests", "_player")) and it != "component_manager"}
    wrong = [f"docs/PROVED.md: no section of `{it}`" for it in sorted(wanted - told)]
    return wrong + [f"docs/PROVED.md: no crate is called `{it}`" for it in sorted(told - wanted)]


def unplaced(text, known):
    """Crates without an entry in ARCHITECTURE.md, entries without a crate, and levels without a name."""
    entries = "\n".join(re.findall(r"^- ((?:\*\*`\w+`[^*]*\*\*|\*\*`.*?`\*\*).*)", text, re.M))
    told = set(re.findall(r"`(\w+)`", " ".join(re.findall(r"\*\*(.*?)\*\*", entries))))
    wrong = [f"docs/ARCHITECTURE.md: no entry of `{it}`" for it in crates() if it not in told]
    wrong += [f"docs/ARCHITECTURE.md: no crate is called `{it}`" for it in sorted(told - set(crates()))]
    for crate, said in re.findall(r"^- \*\*`(\w+)`\*\*: (.*(?:\n  .*)*)", text, re.M):
        below = re.search(r"\bOn\s(.*?)\.(?:\s|$)", said, re.S)
        over = set(CODE.findall(below[1] if below else "")) - crates().get(crate, set())
        wrong += [f"docs/ARCHITECTURE.md: `{crate}` doesn't stand on `{it}`" for it in sorted(over)]
    levels = next((body for title, body in sections(text, 2) if title == "Words for levels"), "")
    words = {it for bold in re.findall(r"\*\*([^*`]+)\*\*", levels) for it in re.split(r", | and ", bold)}
    return wrong + [f"docs/ARCHITECTURE.md: no level is called {it}" for it in sorted(words - known)]


def documents():
    """The documents, by their paths."""
    folders = (TOP, TOP / "docs", TOP / "docs" / "proving", TOP / "tools")
    return [it.relative_to(TOP) for folder in folders for it in sorted(folder.glob("*.md"))]


def dangling(path):
    """The files that a document names or links to that aren't there."""
    text, sources = plain(read(path)), {it.name for it in CRATES.glob("*/src/**/*.rt")}
    links = (it.partition("#")[0] for it in re.findall(r"\]\(([^)\s]+)\)", text) if "://" not in it)
    wrong = [it for it in links if it and not (TOP / path.parent / it).exists()]
    for name in CODE.findall(text):
        if FILE.fullmatch(name) and not (TOP / name).exists():
            wrong.append(name)
        elif re.fullmatch(r"[\w/]+\.rt", name) and name.rpartition("/")[2] not in sources:
            wrong.append(name)
    return [f"{path}: no file {it}" for it in wrong]


def main():
    defined = definitions()
    known = defined.union(files(), crates(), *(names_of(it) for it in crates()))
    texts = {name: read(f"docs/{name}.md") for name in ("DEFINITIONS", "PROVED", "ARCHITECTURE")}
    readme = next(body for title, body in sections(read("README.md"), 2) if title == "What is proved")
    wrong = missing_definitions(texts["DEFINITIONS"], known)
    wrong += unfounded("docs/PROVED.md", texts["PROVED"], known) + unproved(texts["PROVED"])
    wrong += unfounded("README.md", readme, known) + unplaced(texts["ARCHITECTURE"], defined)
    wrong += [it for path in documents() for it in dangling(path)]
    for it in dict.fromkeys(wrong):
        print(f"definitions: {it}")
    if not wrong:
        count = len(set(CODE.findall(texts["DEFINITIONS"])) | bracketed(texts["PROVED"]) | bracketed(readme))
        print(f"definitions: ok, {count} names of the documents are those of the crates")
    return 1 if wrong else 0


if __name__ == "__main__":
    sys.exit(main())
