"""Where in a manifest a fault stands: the places to point at, and what is said beside them."""

from __future__ import annotations

import re
from dataclasses import dataclass

from cm_tools.relaxed import Node
from cm_tools.rows import KINDS, Row, child_names, items_of, many, rows_of, source_of
from cm_tools.said import ManifestFault

NAME = re.compile(r"#?[A-Za-z0-9_][A-Za-z0-9_.\-]{0,254}\Z")
ROWS_FROM = 50
CYCLE = 58


@dataclass(frozen=True, slots=True)
class Place:
    """A stretch of the manifest, and what is said of it."""

    start: int
    end: int
    note: str


def locate(root: Node, fault: ManifestFault) -> list[Place]:
    """The places of the fault, the first one the fault's own; none where they aren't found."""
    if fault.number == CYCLE:
        return _cycle_places(root, fault.cycle)
    if fault.number >= ROWS_FROM:
        return _row_places(root, fault)
    return _item_places(root, fault)


# ---- below 50: items


def _item_places(root: Node, fault: ManifestFault) -> list[Place]:
    if fault.section == "manifest":
        return _section_places(root, fault)
    section = root.member(fault.section)
    if section is None:
        return []
    if fault.section == "program":
        return [_in_object(section.value, fault, "`program`")]
    items = section.value.items
    whole = section.value.kind != "list" or fault.number == 43
    if whole:
        return [Place(section.key.start, section.key.end, f"the section `{fault.section}`")]
    if fault.index >= len(items):
        return []
    told = f"item {fault.index} of `{fault.section}`, counted from 0"
    return [_in_object(items[fault.index], fault, told)]


def _section_places(root: Node, fault: ManifestFault) -> list[Place]:
    if fault.number == 33:
        member = root.member(fault.field)
        return [Place(member.key.start, member.key.end, "an unknown section")] if member else []
    return [Place(root.start, root.start + 1, "the manifest")] if fault.number == 32 else []


def _in_object(item: Node, fault: ManifestFault, told: str) -> Place:
    """The place of the fault in an item: its field, or its first character."""
    member = item.member(fault.field)
    if member is None:
        wish = f", which has no `{fault.field}`" if fault.number == 34 else ""
        return Place(item.start, item.start + 1, told + wish)
    if fault.number == 33:
        return Place(member.key.start, member.key.end, told)
    node = _bad_element(member.value, fault.number)
    return Place(node.start, node.end, told)


def _bad_element(node: Node, number: int) -> Node:
    """The first element of a list that has the fault, where that can be told."""
    for element in node.items:
        is_reference = element.value.startswith("#")
        if number == 36 and not NAME.match(element.value):
            return element
        if number == 39 and not is_reference:
            return element
        if number == 35 and element.kind != "text":
            return element
    return node


# ---- from 50 on: rows


def _row_places(root: Node, fault: ManifestFault) -> list[Place]:
    place = _row_place(root, fault.section, fault.index, fault.number)
    if place is None:
        return []
    if fault.against is None:
        return [place]
    section, index = fault.against
    other = _row_place(root, section, index, fault.number)
    return [place] if other is None else [place, Place(other.start, other.end, f"against {other.note}")]


def _row_place(root: Node, section: str, index: int, number: int) -> Place | None:
    rows = rows_of(root, section, number)
    if index >= len(rows):
        return None
    row = rows[index]
    node = _row_node(root, row, number)
    told = f"row {index} of `{section}`"
    if row.item_index != index or len(rows) != len(items_of(root, section)):
        told += f", which is item {row.item_index} (both counted from 0)"
    detail = row.told()
    return Place(node.start, node.end, f"{told}: {detail}" if detail else told)


def _row_node(root: Node, row: Row, number: int) -> Node:
    """What of the row the number is about."""
    item, source = row.item, row.item.get("from")
    if number == 51:
        return _unknown(root, row)
    fields: dict[int, Node | None] = {
        50: row.name,
        52: source or row.name,
        53: row.target,
        54: item.get("as") or row.name,
        55: item.get("path") or row.name,
        56: item.get("path") or row.name,
        57: item.get("availability") or source,
        91: item.get("environment"),
        94: item.get("path") or row.name,
        95: row.name,
        96: source if row.target is None else row.target,
        97: source,
    }
    found = fields.get(number)
    return found if found is not None else item


def _unknown(root: Node, row: Row) -> Node:
    """The reference that isn't declared: the source, or else the target."""
    source, told = row.item.get("from"), source_of(root, row.item)
    if source is not None and told.startswith("#") and told[1:] not in child_names(root):
        return source
    return row.target or source or row.item


# ---- 58: the circle


def _cycle_places(root: Node, cycle: tuple[str, ...]) -> list[Place]:
    places = []
    for node, following in zip(cycle, cycle[1:]):
        place = _edge_place(root, node, following)
        if place is not None:
            places.append(place)
    return places


def _edge_place(root: Node, node: str, following: str) -> Place | None:
    """The offer or the use by which one node depends on the following."""
    wanted = "self" if following == "self" else f"#{following}"
    section = "use" if node == "self" else "offer"
    for index, item in enumerate(items_of(root, section)):
        source = item.get("from")
        if source is None or source.value != wanted or item.text("dependency") == "weak":
            continue
        goes_there = {target.value for target in many(item.get("to"))}
        if node == "self" or f"#{node}" in goes_there:
            kind = next((kind for kind in KINDS if item.get(kind) is not None), "")
            names = ", ".join(name.value for name in many(item.get(kind)))
            told = f"{node} depends on {following} by item {index} of `{section}`: {kind} {names}"
            return Place(source.start, source.end, told)
    return None
