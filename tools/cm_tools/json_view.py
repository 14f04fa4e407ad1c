"""The realm as one JSON value."""

from __future__ import annotations

import json
from typing import Any

from cm_tools.entries import Builtin, Entry, Journal
from cm_tools.instances import Action, Instance, RouteNote
from cm_tools.telling import event_words, hop_words, reply_words
from cm_tools.world import World


def json_text(journal: Journal, world: World) -> str:
    """The JSON text: the root, the instances, the actions, the routes and the timeline.

    Each item of a list stands on a line of its own.
    """
    entries = journal.entries[: world.applied]
    head = {
        "root": journal.root,
        "entries": len(journal.entries),
        "at": world.applied,
        "callers": journal.callers(),
    }
    lists = {
        "builtins": [_builtin_value(one) for one in journal.builtins],
        "instances": [instance_value(one, world) for one in world.instances.values()],
        "actions": [_action_value(action) for action in world.actions.values()],
        "routes": [route_value(note, world) for note in world.routes.values()],
        "timeline": [_entry_value(entry, world) for entry in entries],
    }
    members = [f"{json.dumps(key)}: {json.dumps(value)}" for key, value in head.items()]
    members += [f"{json.dumps(key)}: {_lines(values)}" for key, values in lists.items()]
    return "{\n" + ",\n".join(members) + "\n}\n"


def _lines(values: list[dict[str, Any]]) -> str:
    return "[\n" + ",\n".join(json.dumps(value) for value in values) + "\n]" if values else "[]"


def _builtin_value(builtin: Builtin) -> dict[str, Any]:
    return {
        "kind": builtin.kind,
        "name": builtin.name,
        "path": builtin.path,
        "rights": builtin.rights.split(",") if builtin.rights else None,
    }


def _entry_value(entry: Entry, world: World) -> dict[str, Any]:
    return {
        "number": entry.number,
        "caller": entry.caller,
        "event": event_words(entry, world),
        "reply": reply_words(entry, world),
        "instances": list(world.subjects[entry.number - 1]),
    }


def instance_value(instance: Instance, world: World) -> dict[str, Any]:
    """One instance, with each state that it had and the entry that made it so."""
    return {
        **instance.identity(),
        "absolute_url": instance.absolute or None,
        "state": instance.state,
        "closing": instance.is_closing,
        "eager": instance.eager,
        "collection": instance.collection or None,
        "runs_once": world.runs_once(instance),
        "failure": instance.failure or None,
        "born": instance.born,
        "changes": [{"entry": entry, "state": state} for entry, state in instance.changes],
        "entries": instance.entries,
    }


def route_value(note: RouteNote, world: World) -> dict[str, Any]:
    """One route, as it was last told."""
    route = note.route
    return {
        "client": note.client,
        "moniker": world.moniker(note.client),
        "asked": note.asked,
        "entry": note.entry,
        "times": note.times,
        "outcome": note.outcome,
        "why": note.why or None,
        "at": hop_words(note.hop) if note.hop else None,
        "path": route.path if route else None,
        "source": route.source if route else None,
        "provider": route.incarnation if route else None,
        "rights": route.rights.split(",") if route and route.rights else None,
        "hops": [{"step": hop.step, "moniker": hop.moniker} for hop in route.hops] if route else [],
    }


def _action_value(action: Action) -> dict[str, Any]:
    return {
        "action": action.number,
        "kind": action.kind,
        "incarnation": action.incarnation,
        "caller": action.caller,
        "began": action.began,
        "outcome": action.outcome or None,
    }
