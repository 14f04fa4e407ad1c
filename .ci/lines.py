#!/usr/bin/env python3
"""Looks at the lines of all files of the repository that people read.

    .ci/lines.py

A line is wrong that is longer than 110 columns, ends in a space, names a folder of one machine, or has a
mark that was left behind: of a merge, or a note to oneself. Long lines may stand where a line can't be
broken: in proofs and in edits that the prover refuses, in what was recorded (fenced blocks of documents,
journals, inputs and outputs of runs, the tables of the crates of tests), in a script's commands, and in
crates.txt. What is wrong is printed, a line each, with status 1; else one line says how many files were
looked at.
"""

import pathlib
import re
import subprocess
import sys

from telling import told

TOP = pathlib.Path(__file__).resolve().parent.parent
WIDTH = 110
# These are split, so that this file isn't found itself.
NOTE = re.compile(r"\b(?:TO" r"DO|FIX" r"ME|XX" r"X|HA" r"CK)\b")
FOLDER = re.compile(r"(?<![\w.])/(?:ho" r"me|t" r"mp|Us" r"ers|o" r"pt)/")
MERGE = re.compile(r"(?:<{7}|>{7}|\|{7}) |={7}$")
WIDE = re.compile(
    r"crates/[^/]+/(?:proofs/|must-fail/|stdin$|stdout$)|tools/tests/journals/|bench/turns/.*\.txt$"
    r"|bench/edits/|docs/component_manager\.1$|crates\.txt$|crates/\w+_tests/src/"
)
COMMAND = re.compile(r"\d+ ")


def files():
    """The files of the repository, as git tells them, or else all below the top but what runs leave."""
    try:
        done = subprocess.run(["git", "ls-files", "-z"], cwd=TOP, capture_output=True, check=True)
        return sorted(name for name in done.stdout.decode().split("\0") if name)
    except (OSError, subprocess.CalledProcessError):
        found = (it.relative_to(TOP) for it in TOP.rglob("*") if it.is_file())
        return sorted(str(it) for it in found if not {".git", "out", "__pycache__"} & set(it.parts))


def text_of(name):
    """The text of a file, or nothing where it isn't there or is none."""
    try:
        return (TOP / name).read_text(encoding="utf-8")
    except (OSError, UnicodeDecodeError):
        return ""


def may_be_wide(name, line, is_fenced):
    """Whether a line may be longer than others."""
    is_command = name.endswith(".txt") and COMMAND.match(line)
    return is_fenced or bool(is_command) or WIDE.match(name) is not None


def faults_of(name):
    """What is wrong with the lines of a file."""
    is_fenced = False
    for number, line in enumerate(text_of(name).split("\n"), 1):
        if name.endswith(".md") and line.startswith("```"):
            is_fenced = not is_fenced
        place = f"{name}:{number}"
        if len(line) > WIDTH and not may_be_wide(name, line, is_fenced):
            yield f"{place} has {len(line)} columns"
        if line.endswith(" ") and not is_fenced:
            yield f"{place} ends in a space"
        if FOLDER.search(line):
            yield f"{place} names a folder of one machine"
        if MERGE.match(line):
            yield f"{place} has the mark of a merge"
        if NOTE.search(line):
            yield f"{place} has a note to oneself"


def main():
    names = files()
    wrong = [fault for name in names for fault in faults_of(name)]
    return told("lines", wrong, f"ok, {len(names)} files")


if __name__ == "__main__":
    sys.exit(main())
