"""The command line of `package`."""

from __future__ import annotations

import re
from pathlib import Path

from cm_tools.console import Unusable, Words
from cm_tools.packaging import NAME, TOP, build_of, debian, entries_of, tarball
from cm_tools.program import chosen_program
from cm_tools.sources import newer_source

# The gate's last line.
PASSED = re.compile(r"([0-9]+) of ([0-9]+) crates ok")
PROVED = TOP / "crates" / "component_manager" / "out" / "component_manager"
UNPROVED = "none: the program is unproved"


def main(words: list[str]) -> int:
    """Writes the `.deb` and the tarball of a built program, and prints their paths."""
    options = _parser().parse_args(words)
    if options.unproved:
        program, gate = chosen_program(), UNPROVED
    else:
        program, gate = _proved(), _last_line(options.gate)
    build = build_of(program, gate, not options.unproved)
    entries = entries_of(build)
    folder = Path(options.output)
    folder.mkdir(parents=True, exist_ok=True)
    made = {
        f"{NAME}_{build.version}_{build.machine}.deb": debian(build, entries),
        f"{NAME}-{build.version}.tar.gz": tarball(build, entries),
    }
    for name, data in made.items():
        (folder / name).write_bytes(data)
        print(folder / name)
    return 0


def _parser() -> Words:
    parser = Words(
        prog="package",
        description="Makes a .deb and a tarball of the proved program with its tools, pages and examples.",
    )
    parser.add_argument("output", metavar="DIR", help="the folder for both")
    which = parser.add_mutually_exclusive_group(required=True)
    which.add_argument("--gate", metavar="FILE", help="what ./test printed, for the receipt")
    which.add_argument("--unproved", action="store_true",
                       help="pack the program that is here, proved or not; the receipt says so")
    return parser


def _proved() -> Path:
    if not PROVED.is_file():
        raise Unusable("no proved program is here: ./component_manager prove makes it")
    newer = newer_source(PROVED)
    if newer is not None:
        raise Unusable(f"{newer} is newer than the proved program: ./component_manager prove makes it anew")
    return PROVED


def _last_line(path: str) -> str:
    """The last line of the gate's output, which has to say that all passed."""
    try:
        lines = Path(path).read_text("utf-8", "replace").strip().split("\n")
    except OSError as fault:
        raise Unusable(f"{path}: {fault.strerror}") from None
    passed = PASSED.fullmatch(lines[-1])
    if passed is None or passed[1] != passed[2]:
        raise Unusable(f"{path} doesn't end in a line that says that all passed: {lines[-1][:60]!r}")
    return lines[-1]
