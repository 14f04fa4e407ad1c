"""The walk along a route, hop by hop, from a use or an expose to its end or to the hop that is missing.

Where a route leads is the program's word alone. The walk finds for its hops what states them: for `explain`
the items of manifests and the commands of a script, for `doctor` the rows that the program read. A route to a
storage goes on to the directory behind it.
"""

from __future__ import annotations

from dataclasses import dataclass
from typing import Callable, Iterable

from cm_tools.relaxed import Node
from cm_tools.scripts import Command

STEP_LIMIT = 10_000


@dataclass(frozen=True, slots=True)
class Given:
    """A row as a walk sees it: the kind, the name by which it is looked for, the name that it takes and from
    where, the target of an offer, and what states it: an item, a command, or a row that was read.
    """

    kind: str
    name: str
    taken: str
    origin: str
    target: str
    stated: object


@dataclass(frozen=True, slots=True)
class Stop:
    """A hop: its step and moniker, of what kind and by which name it is looked for, and the row there.

    There is none above the root, at the framework, and where it is missing; `wish` says what is missing.
    """

    step: str
    moniker: str
    kind: str
    name: str
    given: Given | None
    wish: str = ""

    @property
    def item(self) -> Node | None:
        """The item that states the hop."""
        stated = self.given.stated if self.given else None
        return stated if isinstance(stated, Node) else None

    @property
    def command(self) -> Command | None:
        """The command that states the hop."""
        stated = self.given.stated if self.given else None
        return stated if isinstance(stated, Command) else None


class Ways:
    """What the instances of a realm have, by what looks for it.

    `rows_of` gives the rows of a section of an instance's manifest, and `created` those of the command that
    created an instance, as what its parent offers to it alone.
    """

    def __init__(
        self, rows_of: Callable[[str, str], Iterable[Given]], created: Callable[[str, str], Iterable[Given]]
    ) -> None:
        self._rows_of, self._created = rows_of, created
        self._known: dict[tuple[str, str], dict[tuple[str, str, str], Given]] = {}

    def walk(self, first: Stop) -> list[Stop]:
        """The hops from the first one on."""
        stops = [first]
        while len(stops) < STEP_LIMIT:
            following = self._next(stops[-1])
            if following is None:
                break
            stops.append(following)
        return stops

    def _next(self, stop: Stop) -> Stop | None:
        """The hop behind this one; None at the end."""
        given, moniker = stop.given, stop.moniker
        if given is None or (stop.step == "capability" and given.kind != "storage"):
            return None
        kind = "directory" if stop.step == "capability" else given.kind
        if given.origin == "framework":
            return Stop("framework", moniker, kind, given.taken, None)
        if given.origin == "self":
            return self._own(moniker, kind, given.taken)
        if given.origin.startswith("#"):
            child = given.origin[1:] if moniker == "." else f"{moniker}/{given.origin[1:]}"
            return self.expose(child, kind, given.taken)
        if given.origin != "parent":
            return None
        if moniker == ".":
            wish = f"no line `builtin {kind} {given.taken}` stands in the header"
            return Stop("builtin", ".", kind, given.taken, None, wish)
        return self._offer(moniker, kind, given.taken)

    def expose(self, moniker: str, kind: str, name: str) -> Stop:
        """The hop at which an instance exposes something."""
        found = self._found(moniker, "expose").get((kind, name, ""))
        wish = "" if found else f"{moniker} exposes no {kind} {name}"
        return Stop("expose", moniker, kind, name, found, wish)

    def _own(self, moniker: str, kind: str, name: str) -> Stop:
        found = self._found(moniker, "capabilities").get((kind, name, ""))
        wish = "" if found else f"{moniker} declares no {kind} {name}"
        return Stop("capability", moniker, kind, name, found, wish)

    def _offer(self, child: str, kind: str, name: str) -> Stop:
        parent, own = parent_of(child), child.rpartition("/")[2]
        rows = self._found(parent, "offer")
        found = rows.get((kind, name, f"#{own}")) or rows.get((kind, name, f"#{own.partition(':')[0]}"))
        if found is None and ":" in own:
            made = self._created(parent, own)
            found = next((row for row in made if (row.kind, row.name) == (kind, name)), None)
        wish = "" if found else f"{parent} offers no {kind} {name} to {own}"
        return Stop("offer", parent, kind, name, found, wish)

    def _found(self, moniker: str, section: str) -> dict[tuple[str, str, str], Given]:
        """The rows of a section by kind, name and target; of two that are the same the first."""
        key = (moniker, section)
        if key not in self._known:
            rows: dict[tuple[str, str, str], Given] = {}
            for row in self._rows_of(moniker, section):
                rows.setdefault((row.kind, row.name, row.target), row)
            self._known[key] = rows
        return self._known[key]


def parent_of(moniker: str) -> str:
    """The moniker above; that of the root is its own."""
    return moniker.rpartition("/")[0] or "."


def groups_of(command: Command) -> list[Given]:
    """What a `create` offers to the child alone: each of its groups as a row."""
    found = []
    for part in " ".join(command.words[5:]).split("+ ")[1:]:
        words = part.split()
        if len(words) >= 3:
            renamed = next((word[3:] for word in words if word.startswith("as=")), "")
            found.append(Given(words[0], renamed or words[1], words[1], words[2], "", command))
    return found
