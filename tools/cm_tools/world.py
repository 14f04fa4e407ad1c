"""The replay of a journal: the realm tree that its entries leave, up to a chosen one."""

from __future__ import annotations

import json
from typing import Callable

from cm_tools.console import Unusable
from cm_tools.entries import Entry, Hop, Journal, Route
from cm_tools.instances import Action, Instance, RouteNote
from cm_tools.journal import parse_hop, parse_journal, parse_number, parse_route

ROUTE_OUTCOMES = frozenset({
    "given", "opened", "failed", "void", "source-shut", "no-such-use", "client-off",
})
SUCCESSES = frozenset({"resolved", "started", "stopped", "killed"})


class World:
    """The tree after the entries that were applied, with everything that ever was in it.

    `routes` has what was last told of each route, and `askings` each asking in order.
    """

    def __init__(self, root_url: str) -> None:
        root = Instance(0, ".", ".", None, root_url, 0)
        root.changes.append((0, "discovered"))
        self.instances: dict[int, Instance] = {0: root}
        self.actions: dict[int, Action] = {}
        self.routes: dict[tuple[int, str], RouteNote] = {}
        self.askings: list[RouteNote] = []
        self.subjects: list[tuple[int, ...]] = []
        self.doomed: dict[int, tuple[int, ...]] = {}
        self.applied = 0
        self._live: dict[str, int] = {".": 0}
        self._next = 1
        self._steps: dict[str, Callable[[Entry], list[int]]] = {
            "find": self._find,
            "begin": self._begin,
            "end": self._end,
            "await": self._await,
            "create": self._create,
            "mark": self._mark,
            "pick": self._pick,
            "purge": self._purge,
            "reap": self._reap,
            "exited": self._exited,
            "route": self._route,
            "open": self._route,
            "open-exposed": self._route,
        }

    def apply(self, entry: Entry) -> None:
        """Makes the entry's change; `Unusable` where it speaks of what isn't there."""
        step = self._steps.get(entry.event.word, self._look)
        touched = step(entry)
        self.applied = entry.number
        kept = tuple(dict.fromkeys(inc for inc in touched if inc in self.instances))
        self.subjects.append(kept)
        for incarnation in kept:
            instance = self.instances[incarnation]
            instance.entries.append(entry.number)
            self._note_state(instance, entry.number)

    def pending(self) -> list[Action]:
        """The actions that were begun and haven't ended."""
        return [action for action in self.actions.values() if not action.outcome]

    def moniker(self, incarnation: int | None) -> str:
        """The moniker of an incarnation, `@N` where none such was ever there."""
        found = self.instances.get(-1 if incarnation is None else incarnation)
        return found.moniker if found else f"@{incarnation}"

    def runs_once(self, instance: Instance) -> bool:
        """Whether it is in a collection that runs each child once."""
        parent = self.instances.get(-1 if instance.parent is None else instance.parent)
        return parent is not None and instance.collection in parent.once

    def _note_state(self, instance: Instance, number: int) -> None:
        state = instance.state
        if instance.changes[-1][1] != state:
            instance.changes.append((number, state))

    def _instance(self, incarnation: int | None, entry: Entry) -> Instance:
        found = self.instances.get(-1 if incarnation is None else incarnation)
        if found is None:
            raise Unusable(
                f"entry {entry.number} speaks of incarnation {incarnation}, which was never made"
            )
        return found

    def _action(self, number: int | None, entry: Entry) -> Action:
        found = self.actions.get(-1 if number is None else number)
        if found is None:
            raise Unusable(f"entry {entry.number} speaks of action {number}, which was never begun")
        return found

    def _add(self, parent: Instance, name: str, url: str, born: int, eager: bool) -> Instance:
        moniker = name if parent.parent is None else f"{parent.moniker}/{name}"
        child = Instance(self._next, moniker, name, parent.incarnation, url, born, eager)
        child.changes.append((born, "discovered"))
        self.instances[child.incarnation] = child
        self._live[moniker] = child.incarnation
        parent.children.append(child.incarnation)
        if child.collection:
            parent.passing[child.incarnation] = None
        self._next += 1
        return child

    def _find(self, entry: Entry) -> list[int]:
        if entry.reply.number is not None:
            return [entry.reply.number]
        prefix = self._live.get(entry.reply.text)
        return [] if prefix is None else [prefix]

    def _look(self, entry: Entry) -> list[int]:
        number = entry.event.number
        return [] if number is None else [number]

    def _begin(self, entry: Entry) -> list[int]:
        event, reply = entry.event, entry.reply
        incarnation = event.number or 0
        if reply.word == "begun" and reply.number is not None:
            self._open_action(reply.number, event.kind, incarnation, entry)
        if reply.word == "need" and reply.number is not None:
            return [incarnation, reply.number]
        return [incarnation]

    def _open_action(self, number: int, kind: str, incarnation: int, entry: Entry) -> None:
        instance = self._instance(incarnation, entry)
        instance.pending = kind
        self.actions[number] = Action(number, kind, incarnation, entry.caller, entry.number)

    def _end(self, entry: Entry) -> list[int]:
        action = self._action(entry.event.number, entry)
        instance = self._instance(action.incarnation, entry)
        outcome = entry.reply.text
        action.outcome = outcome
        instance.pending = ""
        instance.note_failure(entry.number, "" if outcome in SUCCESSES else outcome)
        if outcome == "resolved":
            self._resolve(instance, entry)
        elif outcome == "started":
            instance.is_on = instance.has_run = True
        elif outcome in ("stopped", "killed"):
            instance.is_on = False
            return [instance.incarnation, *self._expire(instance, entry)]
        return [instance.incarnation]

    def _resolve(self, instance: Instance, entry: Entry) -> None:
        instance.resolved = entry.number
        instance.absolute = entry.event.text
        instance.declaration = entry.event.declaration
        try:
            declared = json.loads(entry.event.declaration)
            instance.once = frozenset(
                one["name"] for one in declared["collections"] if one["durability"] == "single_run"
            )
            for child in declared["children"]:
                eager = child.get("startup") == "eager"
                self._add(instance, child["name"], child["url"], entry.number, eager)
        except (ValueError, KeyError, TypeError, AttributeError, RecursionError):
            raise Unusable(f"entry {entry.number} has no declaration that can be read") from None

    def _await(self, entry: Entry) -> list[int]:
        return [self._action(entry.event.number, entry).incarnation]

    def _create(self, entry: Entry) -> list[int]:
        parent = self._instance(entry.event.number, entry)
        if entry.reply.word != "created":
            return [parent.incarnation]
        words = entry.event.text.split(" ")
        if len(words) < 3 or entry.reply.number != self._next:
            raise Unusable(f"entry {entry.number} creates no instance that can follow")
        child = self._add(parent, f"{words[0]}:{words[1]}", words[2], entry.number, False)
        return [child.incarnation, parent.incarnation]

    def _mark(self, entry: Entry) -> list[int]:
        incarnation = entry.event.number or 0
        if entry.reply.word == "marked":
            instance = self._instance(incarnation, entry)
            instance.is_closing = True
            if entry.event.kind == "doomed":
                self._doom(instance)
        return [incarnation]

    def _doom(self, instance: Instance) -> None:
        instance.is_closing = instance.is_doomed = True
        if instance.parent is not None:
            self.instances[instance.parent].passing.pop(instance.incarnation, None)
        if self._live.get(instance.moniker) == instance.incarnation:
            del self._live[instance.moniker]

    def _expire(self, instance: Instance, entry: Entry) -> list[int]:
        """Dooms what goes with an instance that is off now, and gives it: the instance itself where its
        collection runs it once, else its children in collections; nothing where it is being shut down.
        """
        if self._is_closed(instance):
            return []
        gone = [instance.incarnation] if self.runs_once(instance) else list(instance.passing)
        for incarnation in gone:
            self._doom(self.instances[incarnation])
        if gone:
            self.doomed[entry.number] = tuple(gone)
        return gone

    def _is_closed(self, instance: Instance) -> bool:
        """Whether it is shut, or it or one above it is being shut down or destroyed."""
        above: Instance | None = instance
        while above is not None and not above.is_closing:
            above = None if above.parent is None else self.instances[above.parent]
        return instance.is_shut or above is not None

    def _pick(self, entry: Entry) -> list[int]:
        target, reply = entry.event.number or 0, entry.reply
        if reply.word == "stopping" and reply.number is not None:
            action = parse_number(reply.text.partition(" ")[2])
            if action is None:
                raise Unusable(f"entry {entry.number} stops an instance by no action")
            self._open_action(action, "stop", reply.number, entry)
            return [reply.number, target]
        if reply.word == "shutdown" and reply.number is not None:
            self._instance(reply.number, entry).is_shut = True
            return [reply.number, target]
        return [target]

    def _purge(self, entry: Entry) -> list[int]:
        incarnation = entry.event.number or 0
        if entry.reply.word != "purged":
            return [incarnation]
        lost = self._below(self._instance(incarnation, entry))
        for instance in lost:
            instance.is_destroyed = True
            instance.pending = ""
            if self._live.get(instance.moniker) == instance.incarnation:
                del self._live[instance.moniker]
        return [instance.incarnation for instance in lost]

    def _below(self, top: Instance) -> list[Instance]:
        """The instance and all below it that aren't destroyed."""
        found, waiting = [], [top]
        while waiting:
            instance = waiting.pop()
            if not instance.is_destroyed:
                found.append(instance)
                waiting.extend(self.instances[child] for child in instance.children)
        return found

    def _reap(self, entry: Entry) -> list[int]:
        told = map(parse_number, entry.reply.text.split())
        left = [self._instance(number, entry) for number in told]
        for instance in left:
            if not instance.is_doomed:
                raise Unusable(
                    f"entry {entry.number} reaps incarnation {instance.incarnation}, which isn't doomed"
                )
        return [entry.event.number or 0] + [instance.incarnation for instance in left]

    def _exited(self, entry: Entry) -> list[int]:
        incarnation = entry.event.number or 0
        if entry.reply.word != "left":
            return [incarnation]
        instance = self._instance(incarnation, entry)
        instance.is_on = False
        return [incarnation, *self._expire(instance, entry)]

    def _route(self, entry: Entry) -> list[int]:
        event, reply = entry.event, entry.reply
        client = event.number or 0
        if reply.word in ROUTE_OUTCOMES:
            return [client] + self._note_route(client, entry)
        needed = reply.number if reply.word in ("need", "need-start") else None
        return [client] if needed is None else [client, needed]

    def _note_route(self, client: int, entry: Entry) -> list[int]:
        """Keeps what was told of the route, and gives the instance that provides it, if any."""
        event, reply = entry.event, entry.reply
        asked = f"exposed {event.text}" if event.word == "open-exposed" else event.text
        route, hop, why = _told(entry)
        before = self.routes.get((client, asked))
        times = before.times + 1 if before else 1
        note = RouteNote(client, asked, entry.number, reply.word, route, hop, why, times)
        self.routes[client, asked] = note
        self.askings.append(note)
        if route is not None and route.incarnation is not None:
            return [route.incarnation]
        return [reply.number] if reply.number is not None else []


def _told(entry: Entry) -> tuple[Route | None, Hop | None, str]:
    """The route that the reply gives, or the hop that it names with the reason."""
    reply = entry.reply
    if reply.word in ("given", "opened"):
        route = parse_route(reply.text)
        if route is None:
            raise Unusable(f"entry {entry.number} gives no route that can be read")
        return route, None, ""
    if reply.word in ("failed", "void"):
        why, _, text = reply.text.rpartition("at ")
        hop = parse_hop(text)
        if hop is None:
            raise Unusable(f"entry {entry.number} fails at no hop that can be read")
        return None, hop, why.strip()
    return None, None, ""


def replay(journal: Journal, at: int | None = None) -> World:
    """The tree behind entry `at`, or behind all entries."""
    count = len(journal.entries)
    if at is not None and not 0 <= at <= count:
        raise Unusable(f"there is no entry {at}; the journal has {count}")
    world = World(journal.root)
    for entry in journal.entries[: count if at is None else at]:
        world.apply(entry)
    return world


def replay_partly(text: str) -> World | None:
    """The tree that a run's output leaves, whole or cut; None where it has no journal that can be read."""
    try:
        return replay(parse_journal(text.encode("utf-8", "surrogateescape"), True))
    except Unusable:
        return None
