"""The command line of `check-all`."""

from __future__ import annotations

import re
import subprocess
from pathlib import Path

from cm_tools.console import Unusable, Words
from cm_tools.merge_main import add_words, features
from cm_tools.merging import SUFFIXES, Sources
from cm_tools.program import HELP, chosen_program

# What the program says of a manifest, by its status.
VERDICTS = {0: re.compile("valid"), 1: re.compile("invalid .*")}


def main(words: list[str]) -> int:
    """Checks each manifest that is named or stands below a folder; 0 where all are valid, else 1."""
    options = _parser().parse_args(words)
    sources = Sources([Path(one) for one in options.include], features(options.without))
    manifests = [path for place in options.places for path in _manifests(Path(place))]
    program = chosen_program(options.program)
    faulty = 0
    for manifest in manifests:
        verdict, is_valid = _check(program, sources, manifest)
        print(f"{manifest}: {verdict}", flush=True)
        faulty += not is_valid
    return 1 if faulty else 0


def _parser() -> Words:
    parser = Words(
        prog="check-all",
        description="Checks each manifest, a line for each: files by any name, and what is named *.cml or"
        " *.cm below folders.",
    )
    parser.add_argument("places", metavar="PATH", nargs="+", help="a manifest or a folder")
    add_words(parser)
    parser.add_argument("--program", metavar="FILE", help=HELP)
    return parser


def _manifests(place: Path) -> list[Path]:
    """The file itself, or the manifests below a folder, in the order of their paths."""
    if place.is_file():
        return [place]
    if not place.is_dir():
        raise Unusable(f"{place} is no file and no folder")
    found = sorted(path for path in place.rglob("*") if path.suffix in SUFFIXES and path.is_file())
    if not found:
        raise Unusable(f"there is no manifest (*.cml, *.cm) below {place}")
    return found


def _check(program: Path, sources: Sources, manifest: Path) -> tuple[str, bool]:
    """What the program says of the manifest, with its shards, and whether it is valid."""
    try:
        text = sources.text(manifest)
    except Unusable as fault:
        return str(fault), False
    except OSError as fault:
        raise Unusable(f"{manifest}: {fault.strerror}") from None
    try:
        ran = subprocess.run([program, "check"], input=text, capture_output=True, check=False)
    except OSError as fault:
        raise Unusable(f"{fault.filename or program}: {fault.strerror}") from None
    verdict = ran.stdout.decode("utf-8", "replace").strip()
    if ran.returncode not in (0, 1):
        told = ran.stderr.decode("utf-8", "replace").strip().split("\n")[-1]
        raise Unusable(f"{program} ended with status {ran.returncode} on {manifest}: {told}")
    if not VERDICTS[ran.returncode].fullmatch(verdict):
        raise Unusable(f"{program} gave no verdict on {manifest}: {ascii(verdict[:60])}")
    return verdict, ran.returncode == 0
