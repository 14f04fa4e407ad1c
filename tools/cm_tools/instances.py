"""The model of the realm tree: instances with their states, actions, and the routes that were told."""

from __future__ import annotations

import json
from dataclasses import dataclass, field
from typing import Any

from cm_tools.entries import Hop, Route

# Every state in the order of an instance's life, with what it says.
STATES: dict[str, str] = {
    "discovered": "declared by its parent, its manifest not read",
    "resolving": "its manifest is being fetched",
    "resolved": "its manifest is read, its program was never started",
    "starting": "its program is being started",
    "started": "its program runs",
    "stopping": "its program is being stopped",
    "stopped": "its program ran and doesn't any more",
    "closing": "it is being shut down",
    "shut": "it is shut down for good",
    "doomed": "it is being destroyed",
    "destroyed": "it is gone",
}

PENDING_STATES = {"resolve": "resolving", "start": "starting", "stop": "stopping"}


@dataclass(slots=True)
class Instance:
    """One instance, by its incarnation, with all that the entries so far say of it.

    `born` is the entry that made it, 0 for the root; `changes` are its states, each with the entry
    that made it so. `failures` has what its actions failed of, each with its entry, and an empty text
    where a later one didn't fail; `resolved` is the entry that resolved it. `passing` are its children in
    collections that aren't doomed, in the order in which they came, and `once` its collections that run
    each child once.
    """

    incarnation: int
    moniker: str
    name: str
    parent: int | None
    url: str
    born: int
    eager: bool = False
    absolute: str = ""
    declaration: str = ""
    children: list[int] = field(default_factory=list)
    passing: dict[int, None] = field(default_factory=dict)
    once: frozenset[str] = frozenset()
    is_on: bool = False
    has_run: bool = False
    is_closing: bool = False
    is_doomed: bool = False
    is_shut: bool = False
    is_destroyed: bool = False
    pending: str = ""
    resolved: int | None = None
    failures: list[tuple[int, str]] = field(default_factory=list)
    entries: list[int] = field(default_factory=list)
    changes: list[tuple[int, str]] = field(default_factory=list)

    @property
    def collection(self) -> str:
        """The collection that it was created in, or no text for a child that was declared."""
        return self.name.partition(":")[0] if ":" in self.name else ""

    @property
    def is_resolved(self) -> bool:
        """Whether its manifest was read."""
        return self.resolved is not None

    @property
    def failure(self) -> str:
        """What its last action failed of; empty where it didn't fail."""
        return self.failures[-1][1] if self.failures else ""

    def note_failure(self, entry: int, text: str) -> None:
        """Keeps what an action failed of, or that it didn't, where that is new."""
        if text != self.failure:
            self.failures.append((entry, text))

    @property
    def state(self) -> str:
        """The one word of `STATES` that says most of it."""
        if self.is_destroyed:
            return "destroyed"
        if self.is_doomed:
            return "doomed"
        if self.is_shut:
            return "shut"
        if self.pending:
            return PENDING_STATES[self.pending]
        if self.is_closing:
            return "closing"
        if self.is_on:
            return "started"
        if self.is_resolved:
            return "stopped" if self.has_run else "resolved"
        return "discovered"

    def identity(self) -> dict[str, Any]:
        """Which one it is, in the names that all tools write."""
        return {
            "incarnation": self.incarnation,
            "moniker": self.moniker,
            "parent": self.parent,
            "children": self.children,
            "url": self.url,
        }

    def declared(self) -> dict[str, Any]:
        """The declaration, with every section; empty where it isn't resolved."""
        if not self.declaration:
            return {}
        value = json.loads(self.declaration)
        return value if isinstance(value, dict) else {}


@dataclass(slots=True)
class Action:
    """An action that was begun, with its outcome once it has ended."""

    number: int
    kind: str
    incarnation: int
    caller: int
    began: int
    outcome: str = ""


@dataclass(slots=True)
class RouteNote:
    """What was last told of one route: who asked for what, and what came of it.

    `asked` is a path, or `exposed NAME`. `outcome` is the reply's word; `route` is there where it is
    `given` or `opened`, `hop` where it is `failed` or `void`, and `why` says the rest of it.
    """

    client: int
    asked: str
    entry: int
    outcome: str
    route: Route | None
    hop: Hop | None
    why: str
    times: int = 1
