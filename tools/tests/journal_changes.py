"""Changes of a legal journal, each with the verdict that the definition gives then, known by how it was made.

A change is a function of a journal and a source of choices. It gives the lines as they are then and the
verdict, or None where the journal has nothing to be changed so.
"""

from __future__ import annotations

import json
from dataclasses import dataclass
from random import Random
from typing import Callable

ARROW = " => "
NOBODY = 999_999
USE = '{"availability":"required","dependency":"strong","from":"#nobody","path":"/svc/z","protocol":"z"}'
# Events that any caller may make: no later entry asks who made them.
FREE = ("find", "show", "list", "route", "survey", "tail", "open", "open-exposed", "create", "mark", "purge",
        "exited", "reap")
Changed = tuple[list[str], str]


@dataclass(frozen=True)
class Entry:
    """An entry: the place of its line, its number and caller, the words of its event, and its reply."""

    at: int
    number: int
    caller: int
    words: list[str]
    reply: str

    def line(self, number: object = None, caller: object = None, words: list[str] | None = None,
             reply: str | None = None) -> str:
        """The entry's line with some of it replaced."""
        asked = [self.number if number is None else number, self.caller if caller is None else caller]
        text = " ".join([*map(str, asked), *(self.words if words is None else words)])
        return f"{text}{ARROW}{self.reply if reply is None else reply}"

    @property
    def word(self) -> str:
        """The first word of the event."""
        return self.words[0]


class Journal:
    """A legal journal, by its lines."""

    def __init__(self, text: str) -> None:
        self.lines = text.split("\n")[:-1]
        self.journal = self.lines.index("journal")
        behind = range(self.journal, len(self.lines))
        self.root = next(at for at in behind if self.lines[at].startswith("root "))
        self.entries = [self._entry(at) for at in range(self.root + 1, len(self.lines))]
        self.legal = f"legal {len(self.entries)}"

    def _entry(self, at: int) -> Entry:
        asked, _, reply = self.lines[at].rpartition(ARROW)
        number, caller, *words = asked.split(" ")
        return Entry(at, int(number), int(caller), words, reply)

    def chosen(self, random: Random, fits: Callable[[Entry], object] = lambda entry: True) -> Entry | None:
        """An entry that fits."""
        fitting = [entry for entry in self.entries if fits(entry)]
        return random.choice(fitting) if fitting else None

    def with_lines(self, at: int, lines: list[str], count: int = 1) -> list[str]:
        """The lines with others in the place of so many."""
        return [*self.lines[:at], *lines, *self.lines[at + count :]]


def bad(at: int) -> str:
    """The verdict that the line at a place isn't in the grammar."""
    return f"bad-text {at + 1}"


def illegal(entry: Entry, expected: str, number: object = None, given: str | None = None) -> str:
    """The verdict that an entry isn't legal."""
    told = entry.reply if given is None else given
    return f"illegal {entry.number if number is None else number} given {told} expected {expected}"


def is_pick(entry: Entry) -> bool:
    """Whether it is a pick."""
    return entry.word == "pick"


def begun_by(entry: Entry) -> str:
    """The action that the entry began, or no text."""
    words = entry.reply.split(" ")
    if words[0] == "stopping":
        return words[2]
    return words[1] if words[0] == "begun" else ""


# ---- numbers and callers


def another_number(journal: Journal, random: Random) -> Changed | None:
    """An entry has another number than the next."""
    entry = journal.chosen(random)
    assert entry
    number = random.choice([0, entry.number + 1, entry.number + 1000, 2**64 - 1])
    lines = journal.with_lines(entry.at, [entry.line(number=number)])
    return lines, illegal(entry, f"number {entry.number}", number)


def no_number(journal: Journal, random: Random) -> Changed | None:
    """In place of its number or caller stands what is none, or one that is too large."""
    entry = journal.chosen(random)
    assert entry
    field = random.choice(("number", "caller"))
    digits = str(getattr(entry, field))
    too_large = (2**64, 10**20) if field == "number" else (2**32, 2**64, 10**20)
    text = random.choice([f"0{digits}", f"+{digits}", f"-{digits}", "x", "", *map(str, too_large)])
    return journal.with_lines(entry.at, [entry.line(**{field: text})]), bad(entry.at)


def free_caller(journal: Journal, random: Random) -> Changed | None:
    """Another caller makes what anybody may make, with the same reply."""
    entry = journal.chosen(random, lambda it: it.word in FREE)
    caller = random.choice((77, 2**32 - 1))
    return entry and (journal.with_lines(entry.at, [entry.line(caller=caller)]), journal.legal)


def ends_by_another(journal: Journal, random: Random) -> Changed | None:
    """Another caller ends an action, or takes its outcome, which it didn't begin or join."""
    entry = journal.chosen(random, lambda it: it.word in ("end", "await"))
    return entry and (journal.with_lines(entry.at, [entry.line(caller=77)]), illegal(entry, "no-such-step"))


def begun_by_another(journal: Journal, random: Random) -> Changed | None:
    """Another caller begins an action: who then ends it may not."""
    entry = journal.chosen(random, begun_by)
    if entry is None:
        return None
    wrong = next((it for it in journal.entries if it.words[:2] == ["end", begun_by(entry)]), None)
    told = illegal(wrong, "no-such-step") if wrong else journal.legal
    return journal.with_lines(entry.at, [entry.line(caller=77)]), told


# ---- replies


def another_reply(journal: Journal, random: Random) -> Changed | None:
    """An event that isn't a pick is given another reply."""
    entry = journal.chosen(random, lambda it: not is_pick(it))
    if entry is None:
        return None
    reply = entry.reply
    texts = [f"{reply} ", f"{reply}0", reply[:-1], reply[1:], reply.upper(), "", "done", "=>", "need 99"]
    given = random.choice([text for text in texts if text != reply])
    lines = journal.with_lines(entry.at, [entry.line(reply=given)])
    return lines, illegal(entry, reply, given=given)


def another_pick(journal: Journal, random: Random) -> Changed | None:
    """A pick is given the reply of none that may be made."""
    entry = journal.chosen(random, is_pick)
    if entry is None:
        return None
    word, *rest = entry.reply.split(" ")
    texts = ["done", "", f"shutdown {NOBODY}", f"stopping {NOBODY} 1", f"{entry.reply} ", "need 0"]
    texts += [f"stopping {rest[0]} 99"] if word == "shutdown" else []
    texts += [f"shutdown {rest[0]}", f"stopping {rest[0]} {rest[1]}1"] if word == "stopping" else []
    given = random.choice([text for text in texts if text != entry.reply])
    lines = journal.with_lines(entry.at, [entry.line(reply=given)])
    return lines, illegal(entry, "another-pick", given=given)


# ---- events


def gone(journal: Journal, random: Random) -> Changed | None:
    """An event is about an instance that there never was."""
    words = ("show", "survey", "route", "open", "open-exposed", "list", "create", "exited", "tail")
    entry = journal.chosen(random, lambda it: it.word in words or it.word in ("begin", "mark"))
    if entry is None:
        return None
    at = 2 if entry.word in ("begin", "mark") else 1
    changed = [*entry.words[:at], str(NOBODY), *entry.words[at + 1 :]]
    return journal.with_lines(entry.at, [entry.line(words=changed)]), illegal(entry, f"gone {NOBODY}")


def shuts_nobody(journal: Journal, random: Random) -> Changed | None:
    """A pick for an instance that there never was is done."""
    entry = journal.chosen(random, lambda it: is_pick(it) and it.reply != "done")
    words = ["pick", str(NOBODY)]
    return entry and (journal.with_lines(entry.at, [entry.line(words=words)]), illegal(entry, "another-pick"))


def no_such_action(journal: Journal, random: Random) -> Changed | None:
    """An action ends that never began."""
    entry = journal.chosen(random, lambda it: it.word in ("end", "await"))
    if entry is None:
        return None
    words = [entry.word, str(NOBODY), *entry.words[2:]]
    return journal.with_lines(entry.at, [entry.line(words=words)]), illegal(entry, "no-such-step")


def ends_otherwise(journal: Journal, random: Random) -> Changed | None:
    """An action ends with another outcome of its kind, and the reply tells the former."""
    others = {"resolved": ("absent", "bad-url"), "started": ("declined", "gate-failed"),
              "stopped": ("killed",), "absent": ("gate-failed", "bad-url"), "bad-url": ("absent",)}
    entry = journal.chosen(random, lambda it: it.word == "end" and it.words[2] in others)
    if entry is None:
        return None
    outcome = random.choice(others[entry.words[2]])
    lines = journal.with_lines(entry.at, [entry.line(words=["end", entry.words[1], outcome])])
    return lines, illegal(entry, f"ended {outcome}")


def ends_as_another_kind(journal: Journal, random: Random) -> Changed | None:
    """An action ends as one of another kind would, or as none is ended."""
    kinds = {"resolved": "started", "started": "stopped", "stopped": "absent", "absent": "stopped"}
    entry = journal.chosen(random, lambda it: it.word == "end" and it.words[2] in kinds)
    if entry is None:
        return None
    outcome = random.choice((kinds[entry.words[2]], "full", "resolved"))
    lines = journal.with_lines(entry.at, [entry.line(words=["end", entry.words[1], outcome])])
    return lines, illegal(entry, "no-such-step")


def invalid_manifest(journal: Journal, random: Random) -> Changed | None:
    """A resolve brings a manifest that isn't valid."""
    entry = journal.chosen(random, lambda it: it.words[2:3] == ["resolved"] and len(it.words) == 5)
    if entry is None:
        return None
    comma = "" if '"use":[]' in entry.words[4] else ","
    manifest = entry.words[4].replace('"use":[', f'"use":[{USE}{comma}')
    lines = journal.with_lines(entry.at, [entry.line(words=[*entry.words[:4], manifest])])
    return lines, illegal(entry, "no-such-step")


# ---- what isn't in the grammar


def spelling(journal: Journal, random: Random) -> Changed | None:
    """A line is spelt as no entry is."""
    entry = journal.chosen(random)
    assert entry
    line, word = journal.lines[entry.at], entry.word
    lines = [line.replace(" ", "  ", 1), line.replace(" ", "\t", 1), f" {line}", "", "journal",
             line.replace(ARROW, " -> "), line.replace(ARROW, "=>"), line.replace(ARROW, f" {ARROW}"),
             line.rpartition(ARROW)[0], line.replace(f" {word}", f" {word}x", 1),
             line.replace(f" {word}", "", 1), line.replace(word, word.upper(), 1),
             f"{line}{ARROW}done" if word != "create" else ""]
    return journal.with_lines(entry.at, [random.choice(lines)]), bad(entry.at)


def moniker(journal: Journal, random: Random) -> Changed | None:
    """A moniker is spelt as none is written."""
    entry = journal.chosen(random, lambda it: it.word == "find")
    if entry is None:
        return None
    name = entry.words[1]
    changed = random.choice([f"/{name}", f"{name}/", "a//b", "..", "", "@1", "a b", "a" * 256])
    return journal.with_lines(entry.at, [entry.line(words=["find", changed])]), bad(entry.at)


def manifest_spelling(journal: Journal, random: Random) -> Changed | None:
    """A manifest is spelt otherwise than it is written."""
    entry = journal.chosen(random, lambda it: it.words[2:3] == ["resolved"] and len(it.words) == 5)
    if entry is None:
        return None
    text = entry.words[4]
    value = json.loads(text)
    compact = lambda rows: json.dumps(rows, separators=(",", ":"))
    assert compact(value) == text
    changed = random.choice([
        compact(dict(reversed(value.items()))), compact({**value, "facets": {}}), json.dumps(value),
        compact({key: rows for key, rows in value.items() if key != "use"}),
        f"{text} ", text[:-1], f"{text}}}",
        text.replace('"', "'"), text.replace('"use"', "use"), text.replace("{", "{/**/", 1), "{}",
    ])
    return journal.with_lines(entry.at, [entry.line(words=[*entry.words[:4], changed])]), bad(entry.at)


# ---- lines


def removed(journal: Journal, random: Random) -> Changed | None:
    """A line is missing: the next one is told, and behind the last one nothing shows it."""
    entry = journal.chosen(random)
    assert entry
    lines = journal.with_lines(entry.at, [])
    if entry is journal.entries[-1]:
        return lines, f"legal {len(journal.entries) - 1}"
    return lines, illegal(journal.entries[entry.number], f"number {entry.number}")


def doubled(journal: Journal, random: Random) -> Changed | None:
    """A line stands twice."""
    entry = journal.chosen(random)
    assert entry
    lines = journal.with_lines(entry.at, [entry.line()] * 2)
    return lines, illegal(entry, f"number {entry.number + 1}")


def swapped(journal: Journal, random: Random) -> Changed | None:
    """Two neighbours stand in the opposite order."""
    entry = journal.chosen(random, lambda it: it.number < len(journal.entries))
    if entry is None:
        return None
    behind = journal.entries[entry.number]
    lines = journal.with_lines(entry.at, [behind.line(), entry.line()], 2)
    return lines, illegal(behind, f"number {entry.number}")


def head(journal: Journal, random: Random) -> Changed | None:
    """The lines in front of the entries are others."""
    root = journal.lines[journal.root]
    behind = len(journal.lines)
    return random.choice([
        (journal.with_lines(journal.root, []), bad(journal.root)),
        (journal.with_lines(journal.root, [root, root]), bad(journal.root + 1)),
        (journal.with_lines(journal.root, [f"{root} x"]), bad(journal.root)),
        (journal.with_lines(journal.root, ["root x=>y"]), journal.legal),
        (journal.with_lines(journal.root, ["builtin directory d /d r*", root]), bad(journal.root)),
        (journal.with_lines(journal.root, ["builtin protocol nobody.asks", root]), journal.legal),
        (journal.with_lines(journal.root, ["builtin protocol", root]), bad(journal.root)),
        (journal.with_lines(journal.journal, []), bad(behind - 1)),
        (journal.with_lines(journal.journal, ["journal "]), bad(behind)),
        (journal.with_lines(journal.journal, ["journal", "journal"]), bad(journal.journal + 1)),
        (journal.with_lines(journal.journal, ["root x", "1 0 show 0 => x", "journal"]), journal.legal),
        (journal.lines[: journal.journal + 1], bad(journal.journal + 1)),
    ])


def end(journal: Journal, random: Random) -> Changed | None:
    """More stands behind the last entry, or the last line is cut."""
    last = journal.entries[-1]
    behind = len(journal.lines)
    cut = last.reply[: random.randrange(len(last.reply))]
    expected = "another-pick" if is_pick(last) else last.reply
    return random.choice([
        ([*journal.lines, ""], bad(behind)),
        ([*journal.lines, *journal.lines], bad(behind)),
        ([*journal.lines, *journal.lines[journal.journal :]], bad(behind)),
        (journal.with_lines(last.at, [last.line(reply=cut)]), illegal(last, expected, given=cut)),
        (journal.with_lines(last.at, [last.line().rpartition(ARROW)[0]]), bad(last.at)),
        (journal.lines[: last.at], f"legal {len(journal.entries) - 1}"),
    ])


def first_decides(journal: Journal, random: Random) -> Changed | None:
    """Two lines are wrong, one in the grammar and one not: the first is told."""
    first, second = another_reply(journal, random), spelling(journal, random)
    if first is None or second is None:
        return None
    differs = lambda lines: next(at for at, line in enumerate(lines) if line != journal.lines[at])
    places = [differs(lines) for lines, _ in (first, second)]
    if places[0] == places[1]:
        return None
    lines = journal.with_lines(places[0], [first[0][places[0]]])
    lines[places[1]] = second[0][places[1]]
    return lines, (first if places[0] < places[1] else second)[1]


KINDS: tuple[Callable[[Journal, Random], Changed | None], ...] = (
    another_number, no_number, free_caller, ends_by_another, begun_by_another, another_reply, another_pick,
    gone, shuts_nobody, no_such_action, ends_otherwise, ends_as_another_kind, invalid_manifest, spelling,
    moniker, manifest_spelling, removed, doubled, swapped, head, end, first_decides,
)
