#!/usr/bin/env python3
"""Compares the recipes of CONTRIBUTING.md with the files that they name.

    .ci/recipes.py                  the check
    .ci/recipes.py --find NAME..    the files that know these names, by kind: for who writes a recipe

A recipe is a section `### ..` of the chapter `Recipes`. Its table has a row for each file that is touched:
the file, what goes there, and the words by which the example of the recipe stands in it. A recipe is wrong
where a file isn't there or a word doesn't stand in it, where it has no table, where it doesn't say what its
example is, or where it names no check that is there. A path is one from the top of the repository, or one
below `crates`. What is wrong is printed, a line each, with status 1; else one line says what was compared.
"""

import pathlib
import re
import subprocess
import sys

from telling import told

TOP = pathlib.Path(__file__).resolve().parent.parent
PAGE = "CONTRIBUTING.md"
# How many recipes there are at least, so that a page without any doesn't pass.
LEAST = 6
CODE = re.compile(r"`([^`]+)`")
KINDS = ("sources", "definitions", "proofs", "wrong bodies", "tests", "documents", "tools")
BELOW = {"src": "sources", "specs": "definitions", "proofs": "proofs", "must-fail": "wrong bodies"}


def read(path):
    """The text of a file, or nothing where it is none."""
    try:
        return path.read_text(encoding="utf-8")
    except (OSError, UnicodeDecodeError):
        return ""


def pattern(word):
    """Finds a word on its own: no letter, digit or underscore goes on with it."""
    before = r"(?<!\w)" if word[0].isalnum() else ""
    after = r"(?!\w)" if word[-1].isalnum() else ""
    return re.compile(before + re.escape(word) + after)


def file_of(path):
    """The file of a path, from the top or below `crates`."""
    own = TOP / path
    return own if own.is_file() else TOP / "crates" / path


def recipes(page):
    """The recipes of the page: titles, each with its text."""
    chapter = re.search(r"^## Recipes\n(.*?)(?=^## |\Z)", page, re.M | re.S)
    return re.findall(r"^### (.*)\n((?:(?!###? ).*\n)*)", chapter[1] if chapter else "", re.M)


def rows(recipe):
    """The rows of a recipe's table: the cells of each."""
    found = re.findall(r"^\|(.*)\|$", recipe, re.M)
    return [[cell.strip() for cell in row.split("|")] for row in found[2:]]


def faults_of_row(cells):
    """What is wrong with a row."""
    files = CODE.findall(cells[0])
    words = CODE.findall(cells[-1])
    if len(cells) != 3 or len(files) != 1 or not words or not cells[1]:
        return [f"the row of {cells[0]} isn't a file, what goes there, and words"]
    file = file_of(files[0])
    if not file.is_file():
        return [f"no file {files[0]}"]
    text = read(file)
    return [f"{files[0]} hasn't `{word}`" for word in words if not pattern(word).search(text)]


def faults_of(recipe):
    """What is wrong with a recipe."""
    found = rows(recipe)
    wrong = [] if found else ["it has no table"]
    if not re.search(r"^Example: .*`", recipe, re.M):
        wrong.append("it doesn't say what its example is")
    checks = re.search(r"^What was forgotten .*(?:\n\S.*)*", recipe, re.M)
    named = [it for it in CODE.findall(checks[0] if checks else "") if it.startswith(".ci/")]
    if not any((TOP / it).is_file() for it in named):
        wrong.append("it names no check that tells what was forgotten")
    wrong += [f"no check {it}" for it in named if not (TOP / it).is_file()]
    return wrong + [fault for cells in found for fault in faults_of_row(cells)]


def kind_of(path):
    """What kind of file a path of the repository names, or None where it is none that is touched."""
    parts = path.split("/")
    if parts[0] == "crates":
        is_test = parts[1].endswith(("_tests", "_player")) or parts[-1] == "tests.rt"
        return "tests" if is_test else BELOW.get(parts[2])
    if parts[:2] == ["bench", "edits"]:
        return "wrong bodies"
    if parts[0] == "docs" or path.endswith(".md"):
        return None if path == "CHANGELOG.md" else "documents"
    return "tools" if parts[0] in ("tools", "bench", ".ci", "component_manager", "examples") else None


def knowing(path, words):
    """Which of the words, each with its pattern, stand in a file. Most files have none of them."""
    text = read(TOP / path)
    return [word for word, found in words.items() if word in text and found.search(text)]


def print_files(names):
    """Prints the files that know one of the names, by kind, each with the names that stand in it."""
    listed = subprocess.run(["git", "ls-files"], cwd=TOP, capture_output=True, text=True, check=True).stdout
    found, words = {kind: [] for kind in KINDS}, {name: pattern(name) for name in names}
    for path in listed.split():
        there = knowing(path, words) if kind_of(path) else []
        if there:
            found[kind_of(path)].append(f"{path}: {' '.join(there)}")
    for kind in KINDS:
        print(f"{kind}: {len(found[kind])}", *(f"    {it}" for it in found[kind]), sep="\n")


def main(words):
    if words and (words[0] != "--find" or len(words) == 1):
        print("usage: recipes.py [--find NAME..]", file=sys.stderr)
        return 2
    if words:
        print_files(words[1:])
        return 0
    found = recipes(read(TOP / PAGE))
    wrong = [f"{PAGE}, {title}: {fault}" for title, recipe in found for fault in faults_of(recipe)]
    if len(found) < LEAST:
        wrong.append(f"{PAGE} has {len(found)} recipes, and {LEAST} are wanted")
    files = sum(len(rows(recipe)) for _, recipe in found)
    return told("recipes", wrong, f"ok, {len(found)} recipes, {files} files")


if __name__ == "__main__":
    sys.exit(main(sys.argv[1:]))
