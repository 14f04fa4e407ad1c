#!/usr/bin/env python3
"""Looks at the names of the house: one meaning for a public name, and no word that was given up.

    .ci/names.py

A public name of a type, a trait or a predicate, in the sources or in the definitions, stands in one crate, so
that whoever searches for it finds one thing. A word of the table below was given up for the field's own word:
it stands in no identifier, comment or document but CHANGELOG.md, fenced blocks and quotes, which show what
was and what programs print. What is wrong is printed, a line each, with status 1.
"""

import collections
import pathlib
import re
import sys

import house
import lines
from telling import told

TOP = pathlib.Path(__file__).resolve().parent.parent
# Words as parts of identifiers and in prose, each with what is said now.
WORDS = {
    "front": "prefix", "fronts": "prefixes", "peel": "toposort", "peeled": "toposorted",
    "peeling": "toposort",
    "woven": "merged", "weave": "merge", "shelf": "manifests", "crew": "pool", "bells": "wakeups",
    "halves": "binary search", "rising": "increasing",
}
# Where such a word is English, or another's name.
ENGLISH = re.compile(
    r"in front\b|to the front|up front|front end|(?:pop|push)_front|(?:both|into|its|two|the|which) halves"
    r"|counts as rising", re.I)
PHRASES = {
    r"by halves": "by binary search", r"guessed place": "interpolated place",
    r"wants? of memory": "out of memory, or lack of memory",
    r"(?:were|was) there again": "was a cache hit",
}
PARTS = re.compile(r"[A-Z]+(?![a-z])|[A-Z][a-z0-9]*|[a-z0-9]+")
QUOTED = re.compile(r"b?\"(?:[^\"\\\n]|\\.|\\\n)*\"")


def shared_names():
    """Public names of types and predicates that stand in several crates, with where."""
    found = collections.defaultdict(lambda: collections.defaultdict(list))
    for it in house.all_definitions(TOP):
        if it.public and it.name[0].isupper():
            found[it.name][it.crate].append(f"{it.module.replace('.', '/')}.antt:{it.line}")
    for name, places in house.rust_types(TOP).items():
        for crate, path, public in places:
            if public:
                found[name][crate].append(path)
    for name, crates in sorted(found.items()):
        if len(crates) > 1:
            places = ", ".join(f"{crate} ({at[0]})" for crate, at in sorted(crates.items()))
            yield f"{name} stands in {places}"


def files():
    """The sources, definitions, proofs and documents, but the one that tells what things were called."""
    for name in lines.files():
        if name.endswith((".rt", ".antt", ".md")) and name != "CHANGELOG.md" and (TOP / name).is_file():
            yield name


def old_words(name):
    """Where a file says a word that was given up."""
    text = (TOP / name).read_text(encoding="utf-8")
    # Most files have none, and are passed over by this quick look.
    low = text.lower()
    if not any(word in low for word in WORDS) and not any(re.search(phrase, low) for phrase in PHRASES):
        return
    if name.endswith(".md"):
        text = re.sub(r"^ *```.*?^ *```$", blank, text, flags=re.M | re.S)
    text = ENGLISH.sub(blank, QUOTED.sub(blank, text))
    for number, line in enumerate(text.split("\n"), 1):
        for part in PARTS.findall(line):
            if part.lower() in WORDS:
                yield f"{name}:{number}: `{part}` was given up: say `{WORDS[part.lower()]}`"
        bare = re.sub(r"`[^`]*`", blank, line)
        for phrase, now in PHRASES.items():
            if re.search(rf"\b{phrase}\b", bare, re.I):
                yield f"{name}:{number}: `{phrase}` was given up: say `{now}`"


def blank(match):
    """What is passed over, as spaces, so that lines stay."""
    return re.sub(r"[^\n]", " ", match[0])


def main():
    wrong, count = list(shared_names()), 0
    for name in files():
        count += 1
        wrong += old_words(name)
    sys.exit(told("names", wrong, f"{count} files, and no name or word is wrong"))


if __name__ == "__main__":
    main()
