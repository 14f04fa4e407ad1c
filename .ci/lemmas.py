#!/usr/bin/env python3
"""Looks at where lemmas stand, and whether each is said in words.

    .ci/lemmas.py

The lemmas of a crate stand below `proofs/lemmas`, by topic, so that whoever looks for one knows where; beside
that folder are the answers to what the prover asked, below the path of their function. In `cm_facts` and
`cm_trees` all is lemmas, and topics are at the top. Over each lemma, and each definition beside lemmas,
stands a line that says in words what it states. What is elsewhere or isn't said is printed, with status 1.
"""

import pathlib
import re
import sys

import house

TOP = pathlib.Path(__file__).resolve().parent.parent
# The crates of lemmas alone.
LEMMAS_ALONE = {"cm_facts", "cm_trees"}
MODULE = re.compile(r"^(?:pub )?mod (\w+)$", re.M)


def files_of(node, folder):
    """The files of the modules that a file of modules names, and of theirs."""
    for name in MODULE.findall(node.read_text(encoding="utf-8")):
        path = folder / f"{name}.antt"
        yield path
        yield from files_of(path, folder / name)


def lemmas_of(crate):
    """The files of a crate's lemmas, or what is wrong with where they stand."""
    folder = TOP / "crates" / crate / "proofs"
    node = folder / "Lib.antt"
    if not node.is_file():
        return [], []
    tops = MODULE.findall(node.read_text(encoding="utf-8"))
    if crate in LEMMAS_ALONE or not tops:
        return list(files_of(node, folder)), []
    beside = [f"crates/{crate}/proofs/{it}.antt: stands beside `lemmas`" for it in tops if it != "lemmas"]
    return list(files_of(node, folder)), beside


def unsaid_in(path, crate):
    """The lemmas of a file over which no line of words stands."""
    text = path.read_text(encoding="utf-8")
    for it in house.definitions_in(text, crate, ""):
        if not it.above:
            yield f"{path.relative_to(TOP)}:{it.line}: nothing says what {it.name} states"


def main():
    wrong, files = [], 0
    for crate in house.crates_of(TOP):
        paths, elsewhere = lemmas_of(crate)
        files += len(paths)
        wrong += elsewhere
        for path in paths:
            wrong += unsaid_in(path, crate)
    for it in wrong:
        print(f"lemmas: {it}")
    print(f"lemmas: {files} files, {len(wrong)} lemmas that stand elsewhere or aren't said")
    return 1 if wrong else 0


if __name__ == "__main__":
    sys.exit(main())
