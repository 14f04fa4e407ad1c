"""The realm as one HTML page that needs no network: its style, its script and its data stand in it."""

from __future__ import annotations

import html
import json
import re
from pathlib import Path
from typing import Any

from cm_tools.entries import Journal
from cm_tools.instances import STATES, Instance, RouteNote
from cm_tools.telling import event_words, hop_words, outcome_words, reply_words
from cm_tools.world import World

PAGE = Path(__file__).resolve().parent / "page"


def html_text(journal: Journal, world: World) -> str:
    """The page."""
    data = json.dumps(page_data(journal, world), separators=(",", ":"))
    parts = {
        "@TITLE@": html.escape(f"Realm {journal.root}"),
        "@STYLE@": (PAGE / "page.css").read_text("utf-8"),
        # A script's text ends at the first `</`, whatever it is part of.
        "@DATA@": data.replace("</", "<\\/").replace("<!--", "<\\u0021--"),
        "@SCRIPT@": (PAGE / "page.js").read_text("utf-8"),
    }
    frame = (PAGE / "page.html").read_text("utf-8")
    return re.sub("@[A-Z]+@", lambda mark: parts[mark.group()], frame)


def page_data(journal: Journal, world: World) -> dict[str, Any]:
    """What the page's script reads."""
    entries = journal.entries[: world.applied]
    return {
        "root": journal.root,
        "at": world.applied,
        "total": len(journal.entries),
        "callers": journal.callers(),
        "states": STATES,
        "instances": [_instance(one, world) for one in world.instances.values()],
        "declarations": {
            one.incarnation: one.declaration for one in world.instances.values() if one.declaration
        },
        **_askings(world),
        "entries": [
            [
                entry.caller,
                event_words(entry, world),
                reply_words(entry, world),
                world.subjects[entry.number - 1],
            ]
            for entry in entries
        ],
    }


def _askings(world: World) -> dict[str, Any]:
    """Each route that was told once, and each asking as its entry and the index of what was told."""
    indices: dict[str, int] = {}
    routes, askings = [], []
    for note in world.askings:
        told = _route(note, world)
        key = json.dumps(told)
        if key not in indices:
            indices[key] = len(routes)
            routes.append(told)
        askings.append([note.entry, indices[key]])
    return {"routes": routes, "askings": askings}


def _instance(one: Instance, world: World) -> dict[str, Any]:
    return {
        **one.identity(),
        "name": one.name,
        "absolute": one.absolute,
        "runner": one.declared().get("program", {}).get("runner", ""),
        "collection": one.collection,
        "once": world.runs_once(one),
        "eager": one.eager,
        "failures": one.failures,
        "born": one.born,
        "resolved": one.resolved,
        "changes": one.changes,
    }


def _route(note: RouteNote, world: World) -> dict[str, Any]:
    route = note.route
    return {
        "client": note.client,
        "asked": note.asked,
        "told": outcome_words(note, world),
        "path": route.path if route else "",
        "source": route.source if route else "",
        "provider": route.incarnation if route else None,
        "hops": [hop_words(hop) for hop in route.hops] if route else [],
    }
