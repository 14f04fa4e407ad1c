"""What the program said, read: a manifest's fault, a script's fault, or a refusal."""

from __future__ import annotations

import re
from dataclasses import dataclass

INVALID = re.compile(r"invalid ([0-9]{1,10}) (\w+) ([0-9]{1,10})(?: (.*))?\Z", re.DOTALL)
SCRIPT = re.compile(r"line ([0-9]{1,10}): ([0-9]{1,10}) ([a-z-]+)(?: at ([0-9]{1,10}))?\Z")
REFUSED = re.compile(r"(?:([0-9]{1,10}) )?refused ([0-9]{1,10}) (.*)\Z")
CHECKED = re.compile(r"  (\S+) (\S+) refused ([0-9]{1,10}) (.*)\Z")
REPORTED = re.compile(r"(\S+) storage (/\S+) refused ([0-9]{1,10}) (.*)\Z")
HOP = re.compile(r"(?:([a-z-]+) at|void at) (use|offer|expose|capability|framework|builtin) (\S+)\Z")
# The directory behind a storage, and the hop that a number of the report on storage names by its moniker.
BACKING = "backing "
PLACE_STEPS = {101: "offer", 102: "capability", 103: "offer", 104: "capability"}
REPLY = re.compile(r"[0-9]{1,10} [a-z]")
CLASHES = frozenset({50, 54, 55, 56})


@dataclass(frozen=True, slots=True)
class ManifestFault:
    """`invalid NUMBER SECTION INDEX`, with what follows it.

    `field` is there below 50, `against` is the section and the index of the row that it clashes with,
    `cycle` has the nodes of a circle of strong dependencies.
    """

    number: int
    section: str
    index: int
    field: str
    against: tuple[str, int] | None
    cycle: tuple[str, ...]


@dataclass(frozen=True, slots=True)
class ScriptFault:
    """`line LINE: NUMBER WORD`, and the position behind `at`, counted in bytes."""

    line: int
    number: int
    word: str
    at: int


@dataclass(frozen=True, slots=True)
class Refusal:
    """`refused NUMBER WORDS`, as the reply of a lane or in a line of a check of all routes.

    `step` and `moniker` are the hop at which a route fails; `client` and `path` are there in a line of
    a check; `fault` is the manifest's where one is told.
    """

    number: int
    words: str
    lane: int | None
    step: str
    moniker: str
    client: str
    path: str
    fault: ManifestFault | None


@dataclass(frozen=True, slots=True)
class NoPlace:
    """`MONIKER storage PATH refused NUMBER WORDS`, a line of the report on storage.

    `step` and `at` are the hop at which it fails, where the words name one, and `weak` is what the words say
    of it.
    """

    moniker: str
    path: str
    number: int
    words: str
    step: str
    at: str
    weak: str


Said = ManifestFault | ScriptFault | Refusal | NoPlace


def read_said(line: str) -> Said | None:
    """What a line says; None where nothing is refused in it."""
    return _no_place(line) or _manifest_fault(line) or _script_fault(line) or _refusal(line)


def is_reply(line: str) -> bool:
    """Whether the line is the first of a lane's reply."""
    return REPLY.match(line) is not None and REPORTED.match(line) is None


def _no_place(line: str) -> NoPlace | None:
    match = REPORTED.match(line)
    if match is None:
        return None
    number, words = int(match[3]), match[4]
    hop, step = HOP.match(words.removeprefix(BACKING)), PLACE_STEPS.get(number, "")
    at = hop[3] if hop else words.rpartition(" at ")[2] if step else ""
    weak = (hop[1] or "") if hop else ""
    return NoPlace(match[1], match[2], number, words, hop[2] if hop else step, at, weak)


def _manifest_fault(line: str) -> ManifestFault | None:
    match = INVALID.match(line)
    if match is None:
        return None
    number, section, index = int(match[1]), match[2], int(match[3])
    words = (match[4] or "").split()
    if number == 58:
        return ManifestFault(number, section, index, "", None, tuple(words))
    if number in CLASHES and len(words) == 2 and words[1].isdecimal():
        return ManifestFault(number, section, index, "", (words[0], int(words[1])), ())
    return ManifestFault(number, section, index, match[4] or "", None, ())


def _script_fault(line: str) -> ScriptFault | None:
    match = SCRIPT.match(line)
    if match is None:
        return None
    return ScriptFault(int(match[1]), int(match[2]), match[3], int(match[4] or 0))


def _refusal(line: str) -> Refusal | None:
    checked = CHECKED.match(line)
    match = checked or REFUSED.match(line)
    if match is None:
        return None
    number, words = (int(match[3]), match[4]) if checked else (int(match[2]), match[3])
    lane = None if checked or match[1] is None else int(match[1])
    hop = HOP.match(words)
    inner = words.find("invalid ")
    return Refusal(
        number, words, lane,
        hop[2] if hop else "", hop[3] if hop else "",
        checked[1] if checked else "", checked[2] if checked else "",
        _manifest_fault(words[inner:]) if number == 83 and inner >= 0 else None,
    )
