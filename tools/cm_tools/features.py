"""What of Fuchsia's manifests the component manager doesn't read, by name."""

from __future__ import annotations

from dataclasses import dataclass
from typing import Iterator

from cm_tools.relaxed import Node
from cm_tools.rows import many

# The kinds of capabilities that aren't here, and what they are in words.
KINDS = {
    "service": "a service", "runner": "a runner as a capability", "resolver": "a resolver",
    "event_stream": "an event stream", "dictionary": "a dictionary", "config": "a configuration capability",
}
ITEM_SECTIONS = ("capabilities", "use", "offer", "expose")
# Sections and fields that aren't read, with the feature that they belong to.
SECTIONS = {"config": "config", "disable": "disable"}
FIELDS = {
    "on_terminate": "on_terminate", "allow_long_names": "allow_long_names",
    "persistent_storage": "persistent_storage", "delivery": "delivery", "config_key": "config",
    "filter": "event_stream", "scope": "event_stream", "subscribe": "event_stream",
}
TOLD = {
    **KINDS,
    "disable": "the section `disable`",
    "on_terminate": "`on_terminate`, what a child's end does to the realm",
    "allow_long_names": "`allow_long_names`, children with longer names",
    "persistent_storage": "`persistent_storage` of a collection",
    "delivery": "`delivery`, which waits for a provider to be ready",
    "path-source": "a source within a dictionary, as `parent/NAME`",
    "many-sources": "several sources in one item",
    "to-all": "the target `all` or `framework`",
    "expose-storage": "storage that is exposed",
}
ALL = frozenset(TOLD)


@dataclass(frozen=True, slots=True)
class Feature:
    """A part of a manifest that isn't read: its name, the section and the item that it makes unreadable
    (None for a whole section), and the node that shows it.
    """

    name: str
    section: str
    item: Node | None
    node: Node
    field: str = ""

    def told(self) -> str:
        """What it is, in words."""
        return TOLD[self.name] if self.item is not None else f"the section `{self.section}`"


def features_of(root: Node) -> list[Feature]:
    """All parts of a manifest that aren't read, in the order of the file."""
    found = [
        Feature(SECTIONS[member.key.value], member.key.value, None, member.value)
        for member in root.members if member.key.value in SECTIONS
    ]
    for member in root.members:
        if member.value.kind == "list":
            for item in member.value.items:
                found += _of_item(member.key.value, item)
    return sorted(found, key=lambda feature: feature.node.start)


def _of_item(section: str, item: Node) -> Iterator[Feature]:
    if item.kind != "object":
        return
    if section in ITEM_SECTIONS:
        for kind in KINDS:
            if item.get(kind) is not None:
                yield Feature(kind, section, item, item.get(kind) or item)
                return
        if section == "expose" and item.get("storage") is not None:
            yield Feature("expose-storage", section, item, item)
    for field, name in FIELDS.items():
        node = item.get(field)
        if node is not None:
            yield Feature(name, section, item, node, field)
    yield from _references(section, item)


def _references(section: str, item: Node) -> Iterator[Feature]:
    """Sources and targets of forms that aren't here."""
    source = item.get("from")
    if source is not None and source.kind == "list":
        yield Feature("many-sources", section, item, source)
    for node in many(source):
        if "/" in node.value:
            yield Feature("path-source", section, item, node)
            break
    for node in many(item.get("to")) if section == "offer" else []:
        if node.value in ("all", "framework"):
            yield Feature("to-all", section, item, node)
    if section == "expose" and item.text("to") == "framework":
        yield Feature("to-all", section, item, item.get("to") or item)
