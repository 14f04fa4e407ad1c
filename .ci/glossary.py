#!/usr/bin/env python3
"""Compares docs/GLOSSARY.md with the crates.

    .ci/glossary.py

Each entry has a word, the field's term for it in brackets, what it means, and what carries it: names in code,
as `cm_crate::Name`. The name has to be a definition of that crate's specs, or a type, a trait, a function or
a constant of its sources. Entries stand in alphabetical order, no word has two, and there are enough of them.
What is wrong is printed, a line each, with status 1; else one line says what was compared.
"""

import pathlib
import re
import sys

from telling import told

TOP = pathlib.Path(__file__).resolve().parent.parent
PAGE = "docs/GLOSSARY.md"
# How many entries there are at least, so that an empty page doesn't pass.
LEAST = 70
CARRIER = re.compile(r"`(\w+)::(\w+)`")
MARKS = r"^ *(?:(?:abbrev|unfoldable|opaque|pub) )*"
DEFINED = re.compile(MARKS + r"(?:(?:record|data) (\w+)|(\w+)(?: \{[^}]*\})? :)", re.M)
ITEM = re.compile(r"^ *(?:pub(?:\([^)]*\))? )?(?:fn|struct|enum|trait|type|const) (\w+)", re.M)


def texts(crate, folder, ending):
    """The texts of the files of one folder of a crate."""
    found = sorted((TOP / "crates" / crate / folder).rglob(f"*.{ending}"))
    return [it.read_text(encoding="utf-8") for it in found]


def names_of(crate):
    """What a crate defines and has."""
    defined = (found for text in texts(crate, "specs", "antt") for found in DEFINED.findall(text))
    items = (found for text in texts(crate, "src", "rt") for found in ITEM.findall(text))
    return {record or other for record, other in defined}.union(items)


def entries():
    """The words of the page, each with what is said of it; nothing where the list has another line."""
    page = (TOP / PAGE).read_text(encoding="utf-8")
    listed = page.partition("\n- ")[2].split("\n")[1:-1]
    if not all(re.match(r"- \*\*|  \S", line) for line in listed):
        return []
    return re.findall(r"^- \*\*(.+?)\*\*(.*(?:\n  .*)*)", page, re.M)


def faults_of(word, said, known):
    """What is wrong with an entry; the names of crates that were looked at are kept in `known`."""
    carriers = CARRIER.findall(said)
    wrong = [] if carriers else [f"nothing carries '{word}'"]
    if not re.match(r" \([^)]+\):\s", said):
        wrong.append(f"'{word}' hasn't the field's term")
    for crate, name in carriers:
        if crate not in known:
            known[crate] = names_of(crate)
        if name not in known[crate]:
            wrong.append(f"{crate} has no {name}, which is to carry '{word}'")
    return wrong


def misplaced(words):
    """Words that have two rows, or stand out of order."""
    order = sorted(words, key=str.lower)
    wrong = [f"'{it}' has two entries" for it, other in zip(order, order[1:]) if it == other]
    return wrong + [f"'{it}' stands out of order" for it, other in zip(words, order) if it != other][:1]


def main():
    found, known = entries(), {}
    wrong = [fault for word, said in found for fault in faults_of(word, said, known)]
    wrong += misplaced([word for word, _ in found])
    if len(found) < LEAST:
        wrong.append(f"there are {len(found)} words, and {LEAST} are wanted")
    wrong = [f"{PAGE}: {it}" for it in wrong]
    return told("glossary", wrong, f"ok, {len(found)} words, which {len(known)} crates carry")


if __name__ == "__main__":
    sys.exit(main())
