"""The parser of what `run --journal` prints.

The replies come first and are kept as they are. Behind the line `journal` come a line for each
builtin, the root line, and a line `NUMBER CALLER EVENT => REPLY` for each entry, numbered from 1.
"""

from __future__ import annotations

from functools import lru_cache

from cm_tools.console import Unusable
from cm_tools.entries import Builtin, Entry, Event, Hop, Journal, Reply, Route

NUMBER_DIGITS = 20
ACTIONS = frozenset({"resolve", "start", "stop"})
MARKS = frozenset({"closing", "doomed"})
STEPS = frozenset({"use", "offer", "expose", "capability", "framework", "builtin"})

# Events that are a word and a number, and those that have more behind it.
PLAIN_EVENTS = frozenset({"pick", "purge", "show", "survey", "exited", "reap", "await"})
FULLER_EVENTS = frozenset({"route", "open", "open-exposed", "list", "tail", "create"})

# Replies by how many numbers they begin with at least.
BARE_REPLIES = frozenset({
    "already", "no-collection", "offers-refused", "full", "marked", "not-dynamic", "done",
    "purged-before", "no-such-use", "client-off", "left",
})
NUMBERED_REPLIES = frozenset({
    "found", "need", "shut", "gone", "begun", "joined", "created", "closing", "exists", "shutdown",
    "purged", "source-shut", "need-start", "tailed", "bad-offer", "stopping", "listed", "surveyed",
})
TOLD_REPLIES = frozenset({
    "not-found", "ended", "cycle", "failed", "void", "given", "opened", "shown",
})


def parse_journal(data: bytes, partial: bool = False) -> Journal:
    """The journal in these bytes; `Unusable` says where they aren't one.

    With `partial` a journal that is cut is read up to its last whole line.
    """
    text = data.decode("utf-8", "surrogateescape")
    if not text.strip():
        raise Unusable("the input is empty; give it what `run --journal` prints")
    lines = text.split("\n")
    last = lines.pop()
    if "journal\r" in lines:
        raise Unusable(
            f"line {lines.index('journal' + chr(13)) + 1} ends in a carriage return (CRLF); save the journal"
            " with line feeds alone, as `tr -d '\\r'` does"
        )
    journal_line = _find_journal_line(lines, last)
    if last and not partial:
        raise Unusable(f"line {len(lines) + 1} is cut short (--partial reads what stands before it)")
    journal, first = _parse_head(lines, journal_line)
    _parse_entries(journal, lines, first)
    return journal


@lru_cache(maxsize=1 << 16)
def parse_route(text: str) -> Route | None:
    """The route of a reply `given` or `opened`, behind its first word; None where it isn't one."""
    front, through, hops_text = text.partition(" through ")
    words = front.split(" ")
    if not through or len(words) < 3 or words[1] != "at":
        return None
    path, source = words[0], words[2]
    incarnation, rest = None, words[3:]
    if rest[:1] == ["incarnation"] and len(rest) >= 2:
        incarnation, rest = parse_number(rest[1]), rest[2:]
    rights = rest[1] if len(rest) == 2 and rest[0] == "rights" else ""
    told = hops_text.split(", ")
    hops = tuple(hop for hop in map(parse_hop, told) if hop is not None)
    if len(hops) != len(told):
        return None
    if incarnation is None:
        return Route(path, source, "", None, rights, hops)
    return Route(path, "instance", source, incarnation, rights, hops)


def parse_number(text: str) -> int | None:
    """A number of at most 20 digits, as 64 bits have; None where the text is none."""
    return int(text) if text.isdecimal() and text.isascii() and len(text) <= NUMBER_DIGITS else None


@lru_cache(maxsize=1 << 16)
def parse_hop(text: str) -> Hop | None:
    """A hop as `offer core/session`; None where the text is none."""
    step, _, moniker = text.partition(" ")
    return Hop(step, moniker) if step in STEPS and moniker else None


def _find_journal_line(lines: list[str], last: str) -> int:
    try:
        return lines.index("journal")
    except ValueError:
        pass
    if lines and "journal".startswith(last) and last:
        raise Unusable(f"line {len(lines) + 1} is cut short, before the journal began")
    raise Unusable("there is no line `journal`; run the script with `run --journal`")


def _parse_head(lines: list[str], journal_line: int) -> tuple[Journal, int]:
    """The head of the journal, and the index of the line behind it."""
    builtins: list[Builtin] = []
    for index in range(journal_line + 1, len(lines)):
        word, _, rest = lines[index].partition(" ")
        if word == "root" and rest:
            journal = Journal(rest, builtins, [], lines[:journal_line])
            return journal, index + 1
        builtins.append(_parse_builtin(word, rest, index + 1))
    raise Unusable(f"line {len(lines) + 1} is missing: the journal is cut before its root line")


def _parse_builtin(word: str, rest: str, line: int) -> Builtin:
    words = rest.split(" ")
    if word == "builtin" and words[0] == "protocol" and len(words) == 2:
        return Builtin("protocol", words[1], "/svc/" + words[1], "")
    if word == "builtin" and words[0] == "directory" and len(words) in (3, 4):
        return Builtin("directory", words[1], words[2], words[3] if len(words) == 4 else "")
    raise Unusable(f"line {line} is neither a builtin line nor the root line of a journal")


def _parse_entries(journal: Journal, lines: list[str], first: int) -> None:
    entries = journal.entries
    for index in range(first, len(lines)):
        entry = _parse_entry(lines[index])
        if entry is None:
            raise Unusable(f"line {index + 1} is no entry of a journal: {_shown(lines[index])}")
        if entry.number != len(entries) + 1:
            raise Unusable(
                f"line {index + 1} has the number {entry.number}; {len(entries) + 1} should follow"
            )
        entries.append(entry)


def _shown(line: str) -> str:
    cut = line if len(line) <= 60 else line[:57] + "..."
    return ascii(cut)


def _parse_entry(line: str) -> Entry | None:
    front, arrow, reply_text = line.rpartition(" => ")
    if not arrow:
        return None
    parts = front.split(" ", 2)
    if len(parts) != 3:
        return None
    number, caller = parse_number(parts[0]), parse_number(parts[1])
    event, reply = _parse_event(parts[2]), _parse_reply(reply_text)
    if number is None or caller is None or event is None or reply is None:
        return None
    return Entry(number, caller, event, reply)


def _parse_event(text: str) -> Event | None:
    word, _, rest = text.partition(" ")
    if word == "find":
        return Event(word, None, "", rest, "") if rest else None
    if word == "end":
        return _parse_end(rest)
    if word == "begin" or word == "mark":
        kind, _, text = rest.partition(" ")
        number = parse_number(text)
        known = number is not None and kind in (ACTIONS if word == "begin" else MARKS)
        return Event(word, number, kind, "", "") if known else None
    text, _, more = rest.partition(" ")
    number = parse_number(text)
    if number is None or word not in (FULLER_EVENTS if more else PLAIN_EVENTS):
        return None
    return Event(word, number, "", more, "")


def _parse_end(rest: str) -> Event | None:
    parts = rest.split(" ", 3)
    action = parse_number(parts[0])
    if len(parts) < 2 or action is None:
        return None
    if parts[1] == "resolved" and len(parts) == 4:
        return Event("end", action, "resolved", parts[2], parts[3])
    return Event("end", action, parts[1], rest.partition(" ")[2], "")


def _parse_reply(text: str) -> Reply | None:
    word, _, rest = text.partition(" ")
    if word in NUMBERED_REPLIES:
        number = parse_number(rest.partition(" ")[0])
        return Reply(word, number, rest) if number is not None else None
    if word in BARE_REPLIES:
        return Reply(word, None, "") if not rest else None
    if word == "reaping" and rest and None in map(parse_number, rest.split(" ")):
        return None
    if word in TOLD_REPLIES or word == "reaping":
        return Reply(word, None, rest)
    return None
