"""Manifests whose shards are merged: what `include` names is read, and put into one manifest.

Lists are joined without repeats, where an item with several names or targets is as many. The members of
`program`, `facets` and `config` are merged member by member; two values of one member are a conflict.
"""

from __future__ import annotations

import sys
from dataclasses import dataclass, field
from pathlib import Path

from cm_tools.console import Unusable
from cm_tools.curing import text_cures
from cm_tools.features import Feature, features_of
from cm_tools.pointing import Document
from cm_tools.relaxed import Node, SpellingFault, read_relaxed
from cm_tools.values import Value, same_key, value_of, written

OBJECTS = ("program", "facets", "config")
KINDS = (
    "protocol", "directory", "storage", "service", "runner", "resolver", "event_stream", "dictionary",
    "config",
)
INCLUDE = "include"
# A manifest as its author writes it, and one as a folder of packages holds it.
SUFFIXES = (".cml", ".cm")


@dataclass(slots=True)
class Merged:
    """A merged manifest: its value, the files that it was made of, and what was left out of it."""

    value: dict[str, Value]
    files: list[Path] = field(default_factory=list)
    left_out: list[str] = field(default_factory=list)


def merged(path: Path, folders: list[Path], without: frozenset[str] = frozenset()) -> Merged:
    """The manifest of a file with its shards, which are looked for in the folders and beside the file that
    names them, without the features of those names.
    """
    found = Merged({})
    _Merger(found, folders, without).take(path, [])
    return found


def includes_of(text: str) -> bool:
    """Whether a manifest names shards; not where it can't be read."""
    if INCLUDE not in text:
        return False
    try:
        return read_relaxed(text).member(INCLUDE) is not None
    except SpellingFault:
        return False


class Sources:
    """Manifests as the program is to read them: with their shards, and without what is left out."""

    def __init__(self, folders: list[Path], without: frozenset[str]) -> None:
        self.folders, self.without = folders, without

    def text(self, path: Path) -> bytes:
        """What the program is to read of a file: its own bytes where nothing is to be merged or left out."""
        data = path.read_bytes()
        text = data.decode("utf-8", "replace")
        if not includes_of(text) and not (self.without and _has_features(text, self.without)):
            return data
        return written(merged(path, self.folders, self.without).value).encode()

    def copied(self, folder: Path, place: Path) -> Path:
        """The folder itself, or a copy of its manifests at the place where one of them is to be changed.

        A manifest whose shards can't be had stays as it is, and why is told on the error stream.
        """
        paths = sorted(path for path in folder.rglob("*") if path.is_file())
        texts = {path: self._text_or_own(path) for path in paths if path.suffix in SUFFIXES}
        if all(path.read_bytes() == text for path, text in texts.items()):
            return folder
        for path, text in texts.items():
            copy = place / path.relative_to(folder)
            copy.parent.mkdir(parents=True, exist_ok=True)
            copy.write_bytes(text)
        return place

    def _text_or_own(self, path: Path) -> bytes:
        try:
            return self.text(path)
        except Unusable as fault:
            print(f"{path}: {fault}", file=sys.stderr)
            return path.read_bytes()


def _has_features(text: str, names: frozenset[str]) -> bool:
    """Whether a manifest has one of these features; not where it can't be read."""
    try:
        return any(feature.name in names for feature in features_of(read_relaxed(text)))
    except SpellingFault:
        return False


class _Merger:
    """Takes files into one manifest, each once, shards behind what names them."""

    def __init__(self, found: Merged, folders: list[Path], without: frozenset[str]) -> None:
        self.found, self.folders, self.without = found, folders, without
        self.origins: dict[str, Path] = {}

    def take(self, path: Path, chain: list[Path]) -> None:
        """Takes a file and then its shards; the chain is that of the files that led to it."""
        if path.resolve() in [one.resolve() for one in chain]:
            raise Unusable(f"shards include each other: {_chain([*chain, path])}")
        if path.resolve() in [one.resolve() for one in self.found.files]:
            return
        self.found.files.append(path)
        document, root = _read(path, chain)
        self._take_value(path, _value_without(self._left_out(document, root), root))
        for name in _names(document, root):
            self.take(self._file(name, path, [*chain, path]), [*chain, path])

    def _left_out(self, document: Document, root: Node) -> list[Feature]:
        """The features that are to be left out, which are noted."""
        gone = [feature for feature in features_of(root) if feature.name in self.without]
        self.found.left_out += [
            f"{document.position(feature.node.start)}: {feature.name}: {feature.told()}" for feature in gone
        ]
        return gone

    def _file(self, name: str, including: Path, chain: list[Path]) -> Path:
        """The file of a shard: below a folder, or beside the file that names it."""
        tried = [folder / name.removeprefix("//") for folder in self.folders]
        tried += [] if name.startswith("//") else [including.parent / name]
        path = next((one for one in tried if one.is_file()), None)
        if path is None:
            places = ", ".join(map(str, dict.fromkeys(tried))) or "no folder is given by --include"
            raise Unusable(f"the shard {name} isn't there: {_chain(chain)} ({places})")
        return path

    def _take_value(self, path: Path, value: dict[str, Value]) -> None:
        merged_value = self.found.value
        for section, part in value.items():
            if section in OBJECTS and isinstance(part, dict):
                self._merge(merged_value.setdefault(section, {}), part, section, path)
            elif isinstance(part, list):
                merged_value[section] = _joined(merged_value.get(section, []), part)
            else:
                self._put(merged_value, section, part, section, path)

    def _merge(self, into: Value, part: dict[str, Value], place: str, path: Path) -> None:
        """Merges the members of an object, and of the objects in it."""
        for key, value in part.items():
            inner = f"{place}.{key}"
            if isinstance(value, dict) and isinstance(into.get(key, {}), dict):
                self._merge(into.setdefault(key, {}), value, inner, path)
            elif isinstance(value, list) and isinstance(into.get(key, []), list):
                into[key] = _joined(into.get(key, []), value)
                self.origins.setdefault(inner, path)
            else:
                self._put(into, key, value, inner, path)

    def _put(self, into: Value, key: str, value: Value, place: str, path: Path) -> None:
        """Puts one value, or tells the conflict with the one that is there."""
        if key in into and same_key(into[key]) != same_key(value):
            other = self.origins.get(place, self.found.files[0])
            raise Unusable(
                f"conflict in {place}: {same_key(into[key])} in {other}, {same_key(value)} in {path}"
            )
        into[key] = value
        self.origins.setdefault(place, path)


def _read(path: Path, chain: list[Path]) -> tuple[Document, Node]:
    """The text and the value of a file, which has to be an object."""
    told = f" ({_chain([*chain, path])})" if chain else ""
    try:
        document = Document(str(path), path.read_text("utf-8"))
        root = read_relaxed(document.text)
    except SpellingFault as fault:
        told += "".join(f"; {line.rstrip('.')}" for line in text_cures(document.text))
        raise Unusable(f"{document.position(fault.place)}: {fault.why}{told}") from None
    except UnicodeDecodeError:
        raise Unusable(f"{path}: it is no UTF-8{told}") from None
    except OSError as fault:
        raise Unusable(f"{path}: {fault.strerror}{told}") from None
    if root.kind != "object":
        raise Unusable(f"{path}: it is no object{told}")
    return document, root


def _names(document: Document, root: Node) -> list[str]:
    """The shards that a manifest names."""
    node = root.get(INCLUDE)
    if node is None:
        return []
    if node.kind != "list" or any(item.kind != "text" for item in node.items):
        raise Unusable(f"{document.position(node.start)}: `include` is a list of texts")
    return [item.value for item in node.items]


def _value_without(gone: list[Feature], root: Node) -> dict[str, Value]:
    """The value of a manifest without its shards' names and without what is left out: whole sections, whole
    items, or single fields.
    """
    value: dict[str, Value] = {}
    sections = {feature.section for feature in gone if feature.item is None}
    for member in root.members:
        section = member.key.value
        if section == INCLUDE or section in sections:
            continue
        if member.value.kind == "list":
            kept = [_item_without(gone, item) for item in member.value.items]
            value[section] = [item for item in kept if item is not None]
        else:
            value[section] = value_of(member.value)
    return value


def _item_without(gone: list[Feature], item: Node) -> Value | None:
    """The item's value without the fields that are left out; None where all of it is."""
    features = [feature for feature in gone if feature.item is item]
    if any(not feature.field for feature in features):
        return None
    value = value_of(item)
    for feature in features:
        value.pop(feature.field, None)
    return value


def _joined(one: list[Value], other: list[Value]) -> list[Value]:
    """The lists one behind the other, without what is repeated."""
    found, seen = list(one), {atom for item in one for atom in _atoms(item)}
    for item in other:
        atoms = _atoms(item)
        if not seen & set(atoms):
            found.append(item)
        elif not set(atoms) <= seen:
            found += [part for part in _parts(item) if not set(_atoms(part)) <= seen]
        seen |= set(atoms)
    return found


def _atoms(item: Value) -> list[str]:
    """An item as the rows that it makes, each as a text."""
    return [same_key(part) for part in _parts(item)]


def _parts(item: Value) -> list[Value]:
    """An item as items of one name and one target each."""
    if not isinstance(item, dict):
        return [item]
    parts = [item]
    for key in (*KINDS, "to"):
        if isinstance(item.get(key), list):
            parts = [{**part, key: one} for part in parts for one in item[key]]
    return parts


def _chain(paths: list[Path]) -> str:
    return " -> ".join(map(str, paths))
