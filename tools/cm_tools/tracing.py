"""The way of a route through the manifests of a script, item by item, up to its end or to what is missing."""

from __future__ import annotations

from typing import Iterator

from cm_tools.hops import Given, Stop, Ways, groups_of
from cm_tools.relaxed import Node
from cm_tools.rows import KINDS, items_of, many, source_of
from cm_tools.scripts import Sketch

# What can be exposed, and so opened at an instance.
EXPOSED = ("protocol", "directory")


def trace(sketch: Sketch, client: str, path: str) -> list[Stop]:
    """The hops of the route of what the client uses at the path; empty where there is no such use."""
    root = _root(sketch, client)
    for row in _rows(root, "use") if root is not None else ():
        item = row.stated
        if isinstance(item, Node) and path == (item.text("path") or f"/svc/{row.taken}"):
            return _ways(sketch).walk(Stop("use", client, row.kind, row.taken, row))
    return []


def trace_exposed(sketch: Sketch, moniker: str, name: str) -> list[Stop]:
    """The hops of the route of what the instance exposes by the name."""
    ways = _ways(sketch)
    for kind in EXPOSED:
        stop = ways.expose(moniker, kind, name)
        if stop.given is not None:
            return ways.walk(stop)
    return [Stop("expose", moniker, "", name, None, f"{moniker} exposes nothing by the name {name}")]


def _ways(sketch: Sketch) -> Ways:
    """What the instances of a script's realm have, by its manifests and its commands."""
    def rows(moniker: str, section: str) -> Iterator[Given]:
        root = _root(sketch, moniker)
        return _rows(root, section) if root is not None else iter(())

    def created(parent: str, own: str) -> list[Given]:
        command = sketch.creation(parent, own)
        return groups_of(command) if command else []

    return Ways(rows, created)


def _rows(root: Node, section: str) -> Iterator[Given]:
    """The rows that the items of a section make."""
    for item in items_of(root, section):
        origin = source_of(root, item) or "parent"
        targets = [target.value for target in many(item.get("to"))] if section == "offer" else [""]
        for kind in KINDS:
            for name in many(item.get(kind)):
                taken = item.text("backing_dir") if section == "capabilities" else name.value
                for target in targets:
                    yield Given(kind, item.text("as") or name.value, taken, origin, target, item)


def _root(sketch: Sketch, moniker: str) -> Node | None:
    """The manifest of an instance; None where it is missing or is no object."""
    url = sketch.url(moniker)
    root = sketch.value(url) if url else None
    return root if root is not None and root.kind == "object" else None
