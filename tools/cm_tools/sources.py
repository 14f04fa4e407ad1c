"""The sources of a program: its crates, whether one has tests, and the sum that names what is made."""

from __future__ import annotations

import hashlib
import os
import re
from pathlib import Path

TOP = Path(__file__).resolve().parent.parent.parent
NAME = "component_manager"
TEST = re.compile(r"^\s*#\[test\]", re.MULTILINE)


def listed() -> dict[str, list[str]]:
    """What each crate of crates.txt stands on."""
    below = {}
    for line in (TOP / "crates.txt").read_text("utf-8").split("\n"):
        head, _, uses = line.partition("#")[0].partition(":")
        if head.strip():
            below[head.split()[0]] = uses.split()
    return below


def crates_below(name: str) -> list[str]:
    """A crate and those that it stands on, by their names."""
    below, found = listed(), [name]
    for crate in found:
        found += [one for one in below[crate] if one in below and one not in found]
    return sorted(found)


def has_tests(crate: str) -> bool:
    """Whether a crate has test functions."""
    return any(TEST.search(path.read_text("utf-8")) for path in _source_files(crate))


def sum_of_sources(crate: str) -> str:
    """The sum of what a crate's program, or that of its tests, is made of."""
    found = hashlib.sha256(crate.encode())
    paths = [TOP / "crates.txt"]
    for one in crates_below(crate):
        paths += _source_files(one)
    for path in paths:
        data = path.read_bytes()
        found.update(f"{path.relative_to(TOP)} {len(data)}\n".encode() + data)
    return found.hexdigest()[:16]


def newer_source(program: Path) -> Path | None:
    """A source that is newer than a program which was proved and built of it, as the script at the top looks
    for one; None where none is.
    """
    built = program.stat().st_mtime_ns
    paths = [TOP / "crates.txt"]
    for folder, below, names in os.walk(TOP / "crates"):
        below[:] = [name for name in below if name != "out"]
        paths += [Path(folder, name) for name in names if name.endswith((".rt", ".antt"))]
    return next((path.relative_to(TOP) for path in paths if path.stat().st_mtime_ns > built), None)


def _source_files(crate: str) -> list[Path]:
    """The files below a crate's `src`, in an order that is always the same."""
    return [
        Path(folder, name)
        for folder, _, names in sorted(os.walk(TOP / "crates" / crate / "src"))
        for name in sorted(names)
    ]
