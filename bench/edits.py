#!/usr/bin/env python3
"""Tries the wrong bodies that the gate doesn't: the edits below bench/edits, each of which has to be refused.

    bench/edits.py [CRATE..]

Without names it tries those of all crates that have some. The crates and those below them are copied into a
temporary folder, their edits of bench/edits/CRATE are put into must-fail there, in the place of those that
the gate tries, and `rt must-fail` looks at them. What an earlier check kept in the crates' folders is taken
along, so that what is proved already isn't proved again. The status is rt's: 0 where each edit was refused,
and 2 where a name is no crate's or rt isn't on the path.
"""
import os
import shutil
import subprocess
import sys
import tempfile

sys.dont_write_bytecode = True

import gate

EDITS = os.path.join(gate.TOP, "bench", "edits")
# What a crate's folder `out` has that a check begins with.
KEPT = ("rlib", "incremental")


def crates_with_edits():
    """The crates that have edits here."""
    return sorted(os.listdir(EDITS)) if os.path.isdir(EDITS) else []


def link_or_copy(source, target):
    """Takes a file along: by a link where it is kept work that checks replace and never change."""
    if "/out/rlib/" in source or source.endswith(".oantt"):
        try:
            os.link(source, target)
            return
        except OSError:
            pass
    shutil.copy2(source, target)


def is_left_out(folder, name):
    """Whether a copy of a crate goes without this file of the folder."""
    return os.path.basename(folder) == "out" and name not in KEPT or name in ("must-fail", "__pycache__")


def copy_with_edits(room, names):
    """Fills a folder with these crates and those below them, with the edits of these."""
    crates = gate.crates_of(gate.TOP)
    for crate in gate.with_those_below(names, crates):
        shutil.copytree(f"{gate.TOP}/crates/{crate}", f"{room}/crates/{crate}", copy_function=link_or_copy,
                        ignore=lambda folder, found: [it for it in found if is_left_out(folder, it)])
    for crate in names:
        shutil.copytree(f"{EDITS}/{crate}", f"{room}/crates/{crate}/must-fail")
    gate.write_list(room, gate.with_those_below(names, crates))
    shutil.copy(f"{gate.TOP}/HANDLES", room)


def refused(words):
    """Why the words can't be taken, or nothing."""
    known, ours = gate.crates_of(gate.TOP), crates_with_edits()
    for name in words:
        if name not in known:
            return f"no crate is named {name}"
        if name not in ours:
            return f"{name} has no edits in bench/edits"
    return "" if shutil.which("rt") else "the kit's tool rt is not on the path"


def main() -> int:
    """Tries the edits of the named crates, or of all; its status."""
    why = refused(sys.argv[1:])
    if why:
        print(f"edits.py: {why}", file=sys.stderr)
        return 2
    names = sys.argv[1:] or crates_with_edits()
    with tempfile.TemporaryDirectory(prefix="edits-") as room:
        copy_with_edits(room, names)
        return subprocess.run(["rt", "must-fail", *names], cwd=room, check=False).returncode


if __name__ == "__main__":
    sys.exit(main())
