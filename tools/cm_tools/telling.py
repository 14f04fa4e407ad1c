"""Entries and routes in words: the journal's own, with monikers in the place of numbers."""

from __future__ import annotations

from typing import Iterable

from cm_tools.entries import Entry, Hop, Reply
from cm_tools.instances import RouteNote
from cm_tools.world import World

# Replies whose number is an incarnation, and those whose number is an action.
OF_INSTANCES = frozenset({
    "found", "need", "shut", "gone", "created", "closing", "exists", "shutdown", "source-shut",
    "need-start",
})
OF_ACTIONS = frozenset({"begun", "joined"})


def event_words(entry: Entry, world: World) -> str:
    """What the caller asked, as `begin resolve core` or `route core/shell /svc/p`."""
    event = entry.event
    if event.word == "find":
        return f"find {event.text}"
    if event.word in ("end", "await"):
        action = world.actions.get(-1 if event.number is None else event.number)
        told = f"{action.kind} {world.moniker(action.incarnation)}" if action else "?"
        return f"{event.word} {told} (action {event.number})"
    words = [event.word, event.kind, world.moniker(event.number), event.text]
    return " ".join(word for word in words if word)


def reply_words(entry: Entry, world: World) -> str:
    """What the tree answered, as `found core` or `begun action 3`, and what went with a stop."""
    words = _reply_words(entry.reply, world)
    doomed = world.doomed.get(entry.number)
    return f"{words}; doomed: {_monikers(doomed, world)}" if doomed else words


def _reply_words(reply: Reply, world: World) -> str:
    if reply.word in OF_INSTANCES:
        return f"{reply.word} {world.moniker(reply.number)}"
    if reply.word in OF_ACTIONS:
        return f"{reply.word} action {reply.number}"
    if reply.word == "stopping":
        return f"stopping {world.moniker(reply.number)} (action {reply.text.partition(' ')[2]})"
    if reply.word == "reaping":
        return f"reaping {_monikers(map(int, reply.text.split()), world) or 'nothing'}"
    return f"{reply.word} {reply.text}".strip()


def _monikers(incarnations: Iterable[int], world: World) -> str:
    return ", ".join(world.moniker(incarnation) for incarnation in incarnations)


def entry_words(entry: Entry, world: World) -> str:
    """The entry without its number and caller, as `find core => found core`."""
    return f"{event_words(entry, world)} => {reply_words(entry, world)}"


def hop_words(hop: Hop) -> str:
    """The hop as it is written in a route."""
    return f"{hop.step} {hop.moniker}"


def outcome_words(note: RouteNote, world: World) -> str:
    """What came of a route, in one phrase: where it leads, or why it doesn't."""
    route = note.route
    if route is not None:
        source = world.moniker(route.incarnation) if route.source == "instance" else route.source
        rights = f" with {route.rights}" if route.rights else ""
        return f"{source} {route.path}{rights}"
    if note.hop is not None and note.outcome == "failed":
        return f"refused: {note.why} at {hop_words(note.hop)}"
    if note.hop is not None:
        return f"void at {hop_words(note.hop)}"
    return f"refused: {note.outcome}"
