"""The model of a journal: its head, its entries, and the routes that replies tell of."""

from __future__ import annotations

from dataclasses import dataclass, field


@dataclass(frozen=True, slots=True)
class Hop:
    """One hop of a route: its step (`use`, `offer` and so on) and the moniker where it stands."""

    step: str
    moniker: str


@dataclass(frozen=True, slots=True)
class Route:
    """A route that was given or opened.

    `source` is `instance`, `framework` or `builtin`; the moniker and the incarnation are those of
    the providing instance, where there is one. `rights` is empty for a protocol.
    """

    path: str
    source: str
    moniker: str
    incarnation: int | None
    rights: str
    hops: tuple[Hop, ...]


@dataclass(frozen=True, slots=True)
class Event:
    """What a caller asked of the tree: a word, and what stands behind it.

    `number` is the incarnation or, for `end` and `await`, the action; None for `find`, which names
    a moniker in `text`. `kind` is the action of a `begin` or the mark of a `mark`. `text` is the
    rest as it is written, without the declaration. `declaration` is the JSON of a resolved manifest.
    """

    word: str
    number: int | None
    kind: str
    text: str
    declaration: str


@dataclass(frozen=True, slots=True)
class Reply:
    """What the tree answered: a word, its first number where it has one, and the rest as written."""

    word: str
    number: int | None
    text: str


@dataclass(frozen=True, slots=True)
class Entry:
    """One entry of the history, with the number of its caller."""

    number: int
    caller: int
    event: Event
    reply: Reply


@dataclass(frozen=True, slots=True)
class Builtin:
    """A capability that stands above the root."""

    kind: str
    name: str
    path: str
    rights: str


@dataclass(slots=True)
class Journal:
    """All that `run --journal` printed: the replies, the builtins, the root's URL and the entries."""

    root: str
    builtins: list[Builtin] = field(default_factory=list)
    entries: list[Entry] = field(default_factory=list)
    replies: list[str] = field(default_factory=list)

    def callers(self) -> list[int]:
        """The callers that have an entry, in order."""
        return sorted({entry.caller for entry in self.entries})
