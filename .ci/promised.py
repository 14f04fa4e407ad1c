#!/usr/bin/env python3
"""Looks at which definitions are promised, and makes docs/PROMISED.md.

    .ci/promised.py [--write] [--list]

What the top call promises names some definitions, these name others, and so on: they are promised. All
others are inside: proofs use them, and no reader of the promise has to. Each file of definitions says in its
first line which it is, `-- Promised.` or `-- Inside.`, and none is both, but for files with a block (of
parameters, or of definitions that name each other), which are promised where one of their definitions is.
docs/PROMISED.md is the list. What is wrong
is printed, a line each, with status 1; a name that leads nowhere gives 2. --write writes the page, --list
tells each promised definition and what names it.
"""

import argparse
import pathlib
import re
import sys

import closure

TOP = pathlib.Path(__file__).resolve().parent.parent
PAGE = TOP / "docs/PROMISED.md"
# The top call.
FROM = ("cm_program", "run", "run")
MARKS = {True: "-- Promised.", False: "-- Inside."}
HEAD = """# What is promised

This page is made by `.ci/promised.py --write`. The top call is `{call}` of `{crate}`: its contract is one
record, [Promise](../crates/cm_program/specs/Promise.antt), and what that names, and what these name in turn,
is what a reader who wants to believe the promise has to read: **{part} of {total} definitions, {lines} of
{all_lines} lines**, with the {types} types that they speak of. All other definitions are inside: proofs use
them, and the prover checks that they suffice. What the proof itself rests on is told in
[ASSUMPTIONS](ASSUMPTIONS.md).

Each file of definitions says in its first line what it is, `-- Promised.` or `-- Inside.`. Begin with
`Promise` and follow its imports.

| crate | promised | of | lines | of |
|---|---|---|---|---|
"""


def lines_of(definitions):
    return sum(len(it.text) + it.above for it in definitions)


class Tally:
    """The promised definitions of each file of definitions."""

    def __init__(self, repository):
        self.files = []
        reached = repository.definitions()
        for (crate, module), spec in sorted(repository.specs.items()):
            some = list(spec.definitions.values())
            promised = [it for it in some if (crate, module, it.name) in reached]
            if some:
                self.files.append((crate, module, promised, some, spec.has_blocks))

    def of(self, crate):
        return [it for it in self.files if it[0] == crate]


def path_of(crate, module):
    return f"crates/{crate}/{module.replace('.', '/')}.antt"


def wrong_marks(tally):
    """Where a file's first line isn't what its definitions are, and where it has both kinds."""
    for crate, module, promised, some, has_blocks in tally.files:
        path = path_of(crate, module)
        head = (TOP / path).read_text(encoding="utf-8").split("\n")[0]
        want = MARKS[bool(promised)]
        if head != want:
            yield f"{path}: its first line isn't `{want}`"
        if promised and len(promised) < len(some) and not has_blocks:
            names = ", ".join(it.name for it in some if it not in promised)
            yield f"{path}: {names} stand among what is promised, and nothing that is promised names them"


def page_of(repository, tally):
    rows, lists = [], []
    for crate in repository.crates:
        files = tally.of(crate)
        part = [it for _, _, promised, _, _ in files for it in promised]
        some = [it for _, _, _, all_of_file, _ in files for it in all_of_file]
        if some:
            rows.append(f"| `{crate}` | {len(part)} | {len(some)} | {lines_of(part)} | {lines_of(some)} |")
        named = [f"[{module.split('.', 1)[1]}](../{path_of(crate, module)})" + share(promised, all_of_file)
                 for _, module, promised, all_of_file, _ in files if promised]
        if named:
            lists += wrapped(f"- `{crate}`: " + ", ".join(named) + ".")
    part = [it for _, _, promised, _, _ in tally.files for it in promised]
    some = [it for _, _, _, all_of_file, _ in tally.files for it in all_of_file]
    types = sum(key[0] == "type" for key in repository.reached)
    head = HEAD.format(crate=FROM[0], call=FROM[2], part=len(part), total=len(some), lines=lines_of(part),
                       all_lines=lines_of(some), types=types)
    tail = "\n\n## The files\n\nA file of which a part is promised says how many of its definitions are.\n\n"
    return head + "\n".join(rows) + tail + "\n".join(lists) + "\n"


def share(promised, some):
    return "" if len(promised) == len(some) else f" ({len(promised)} of {len(some)})"


def wrapped(text):
    """A list's entry, broken at 110 columns."""
    lines, now = [], ""
    for word in text.split(" "):
        if now and len(now) + 1 + len(word) > 110:
            lines.append(now)
            now = "  " + word
        else:
            now = f"{now} {word}" if now else word
    return [*lines, now]


def main():
    words = argparse.ArgumentParser(usage=__doc__.split("\n\n")[1].strip())
    words.add_argument("--write", action="store_true")
    words.add_argument("--list", action="store_true")
    args = words.parse_args()
    repository = closure.Repository(TOP)
    repository.from_function(*FROM)
    repository.close()
    if repository.lost:
        for there, name, why in sorted(repository.lost):
            print(f"promised: {there}.{name}, named by {why}, leads nowhere")
        sys.exit(2)
    tally = Tally(repository)
    if args.list:
        for crate, module, promised, _, _ in tally.files:
            for it in promised:
                why = repository.why["spec", crate, module, it.name]
                print(f"{path_of(crate, module)}:{it.line}: {it.name}, named by {why}")
    page = page_of(repository, tally)
    if args.write:
        PAGE.write_text(page, encoding="utf-8")
    wrong = list(wrong_marks(tally))
    if not PAGE.is_file() or PAGE.read_text(encoding="utf-8") != page:
        wrong.append("docs/PROMISED.md isn't what is promised now: .ci/promised.py --write makes it")
    for it in wrong:
        print(f"promised: {it}")
    if not wrong:
        counted = re.search(r"\*\*(.*?)\*\*", page, re.S)[1].replace("\n", " ")
        print(f"promised: ok, {counted} in {sum(bool(it[2]) for it in tally.files)} files")
    sys.exit(1 if wrong else 0)


if __name__ == "__main__":
    main()
