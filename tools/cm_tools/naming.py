"""What a command of a script probably names: children, collections, uses and exposes by nearest names."""

from __future__ import annotations

from cm_tools.curing import nearest
from cm_tools.relaxed import Node
from cm_tools.rows import items_of, many
from cm_tools.said import Refusal
from cm_tools.scripts import Command, Sketch

KINDS = ("protocol", "directory")
NO_COLLECTION, NOT_FOUND, NO_USE = 60, 80, 86
FOUND_UP_TO = "not-found in "


def name_cures(sketch: Sketch, refusal: Refusal, command: Command | None) -> list[str]:
    """What is there by a name that is much like the one that the refused command has."""
    words = command.words if command else ()
    if len(words) < 2 or words[1].startswith("@"):
        return []
    told = ""
    if refusal.number == NOT_FOUND and refusal.words.startswith(FOUND_UP_TO):
        told = _child(sketch, refusal.words.removeprefix(FOUND_UP_TO), words[1])
    elif refusal.number == NO_USE and len(words) > 2:
        known = _paths(_manifest(sketch, words[1])) - {words[2]}
        told = nearest(words[2], known) or _listed("It uses", known)
    elif refusal.number == NO_COLLECTION and len(words) > 2:
        known = _names(_manifest(sketch, words[1]), "collections")
        told = nearest(words[2], known) or _listed("Its collections are", known)
    return [told] if told else []


def _listed(front: str, known: set[str]) -> str:
    """What there is, where it is few."""
    return f"{front} {', '.join(sorted(known))}." if 0 < len(known) <= 8 else ""


def _manifest(sketch: Sketch, moniker: str) -> Node | None:
    url = sketch.url(moniker)
    return sketch.value(url) if url else None


def _names(root: Node | None, section: str) -> set[str]:
    return {item.text("name") for item in items_of(root, section)} if root else set()


def _child(sketch: Sketch, place: str, target: str) -> str:
    """The child of the instance at `place`, up to which the target's moniker was found."""
    parts = target.strip("/").split("/")
    depth = 0 if place == "." else place.count("/") + 1
    if depth >= len(parts):
        return ""
    created = {":".join(one.words[2:4]) for one in sketch.script.commands
               if one.words[0] == "create" and len(one.words) >= 5 and one.words[1] == place}
    known = (_names(_manifest(sketch, place), "children") | created) - {parts[depth]}
    return nearest(parts[depth], known)


def _paths(root: Node | None) -> set[str]:
    """Where the uses of a manifest stand."""
    return {
        item.text("path") or f"/svc/{name.value}"
        for item in (items_of(root, "use") if root else [])
        for kind in KINDS
        for name in many(item.get(kind))
    }
