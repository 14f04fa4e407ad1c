"""Which item of a manifest a row's index means.

Numbers below 50 count the items of a section as they are written. From 50 on they count rows: an item
makes one for each of its names, and an offer one for each target of each name, name by name.
"""

from __future__ import annotations

from dataclasses import dataclass

from cm_tools.relaxed import Node

KINDS = ("protocol", "directory", "storage")
MANY_NAMES = frozenset({"capabilities", "use", "offer", "expose"})


@dataclass(frozen=True, slots=True)
class Row:
    """One row: the index of its item, the item, and the nodes of its name and its target."""

    item_index: int
    item: Node
    name: Node | None
    target: Node | None

    def told(self) -> str:
        """The row in words, as `protocol p to #client`."""
        kind = next((kind for kind in KINDS if self.item.get(kind) is not None), "")
        words = [kind, self.name.value if self.name else ""]
        if self.target is not None:
            words += ["to", self.target.value]
        return " ".join(word for word in words if word)


def items_of(root: Node, section: str) -> list[Node]:
    """The items of a section; none where it isn't a list."""
    node = root.get(section)
    return node.items if node is not None and node.kind == "list" else []


def many(node: Node | None) -> list[Node]:
    """The elements of a field that is one text or a list of them."""
    if node is None:
        return []
    return node.items if node.kind == "list" else [node]


def source_of(root: Node, item: Node) -> str:
    """Where an item takes its capability from: `void` where it names a child that needn't be there, and
    isn't."""
    source = item.text("from")
    if source.startswith("#") and item.text("source_availability") == "unknown":
        return source if source[1:] in child_names(root) else "void"
    return source


def child_names(root: Node) -> set[str]:
    """The names of the children that a manifest declares."""
    return {one.text("name") for one in items_of(root, "children")}


def rows_of(root: Node, section: str, number: int) -> list[Row]:
    """The rows of a section in the order in which faults of this number count them."""
    rows = []
    for index, item in enumerate(items_of(root, section)):
        if item.kind == "object" and _is_counted(item, section, number):
            rows.extend(_rows(index, item, section))
    return rows


def _is_counted(item: Node, section: str, number: int) -> bool:
    is_storage = item.get("storage") is not None
    is_debug = section == "use" and item.text("from") == "debug"
    if number == 94 and section == "use":
        return is_debug
    if 95 <= number <= 97:
        return is_storage
    return not is_storage and not is_debug


def _rows(index: int, item: Node, section: str) -> list[Row]:
    if section not in MANY_NAMES:
        return [Row(index, item, item.get("name"), None)]
    kind = next((kind for kind in KINDS if item.get(kind) is not None), None)
    names: list[Node | None] = list(many(item.get(kind))) if kind else [None]
    targets: list[Node | None] = list(many(item.get("to"))) if section == "offer" else [None]
    return [Row(index, item, name, target) for name in names for target in targets]
