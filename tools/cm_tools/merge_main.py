"""The command line of `merge`."""

from __future__ import annotations

import sys
from pathlib import Path

from cm_tools.console import Unusable, Words, write_text
from cm_tools.features import ALL, TOLD
from cm_tools.merging import merged
from cm_tools.values import written


def main(words: list[str]) -> int:
    """Prints a manifest with its shards merged; what is left out is told on the error stream."""
    options = _parser().parse_args(words)
    found = merged(Path(options.file), [Path(one) for one in options.include], features(options.without))
    for line in found.left_out:
        print(f"merge: left out: {line}", file=sys.stderr)
    write_text(options.output, written(found.value))
    return 0


def features(text: str) -> frozenset[str]:
    """The features of a list of names joined by commas; `all` stands for all of them."""
    names = {name for name in text.split(",") if name}
    unknown = sorted(names - ALL - {"all"})
    if unknown:
        raise Unusable(f"no feature is named {unknown[0]}; they are {', '.join(sorted(ALL))}")
    return ALL if "all" in names else frozenset(names)


def add_words(parser: Words) -> None:
    """Adds the words for shards, which other tools take too."""
    parser.add_argument("--include", metavar="DIR", action="append", default=[],
                        help="a folder in which shards are looked for; of `//` too; may be repeated")
    parser.add_argument("--without", metavar="NAMES", default="",
                        help="leave out what isn't read here, by names joined by commas, or `all`")


def _parser() -> Words:
    parser = Words(
        prog="merge",
        description="Prints a manifest with the shards merged that its `include` names.",
        epilog="What can be left out: " + "; ".join(f"{name}: {told}" for name, told in TOLD.items()) + ".",
    )
    parser.add_argument("file", metavar="FILE", help="the manifest")
    add_words(parser)
    parser.add_argument("-o", "--output", metavar="FILE", help="write to a file")
    return parser
