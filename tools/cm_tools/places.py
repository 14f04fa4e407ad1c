"""Where a row of a realm's instance stands in the file of its manifest."""

from __future__ import annotations

from pathlib import Path

from cm_tools.pointing import Document
from cm_tools.relaxed import Node, SpellingFault, read_relaxed
from cm_tools.rows import items_of, many
from cm_tools.surveying import Realm, Row, Use, kind_of

Place = tuple[Path, int, int]


def place_of_row(realm: Realm, moniker: str, section: str, row: Row) -> Place | None:
    """The file, the line and the column of a row of a section; None where it can't be found."""
    found = _manifest(realm, moniker)
    if found is None:
        return None
    path, document, root = found
    for item in items_of(root, section):
        if _has_row(item, row):
            return (path, *document.line_and_column(item.start))
    return (path, 1, 1)


def add_availability(realm: Realm) -> None:
    """Puts the availability into the rows of uses of which the program doesn't keep it: those of storage and
    of debug protocols.
    """
    for use in realm.uses:
        if use.kind == "storage" or use.is_debug:
            use.row = {**use.row, "availability": _availability(realm, use)}


def _availability(realm: Realm, use: Use) -> str:
    """How strongly a use is needed, by the manifest that the program reads."""
    part = realm.parts.get(use.client)
    found = _read(realm.read_file(part.url)) if part else None
    for item in items_of(found[2], "use") if found else ():
        if _has_row(item, use.row):
            return item.text("availability") or "required"
    return "required"


def position_of_use(realm: Realm, use: Use) -> str:
    """The place of a use as FILE:LINE:COLUMN, or where its manifest should be."""
    place = place_of_row(realm, use.client, "use", use.row)
    if place is None:
        return realm.parts[use.client].url if use.client in realm.parts else use.client
    return ":".join(map(str, place))


def _manifest(realm: Realm, moniker: str) -> tuple[Path, Document, Node] | None:
    """The manifest of an instance, read; None where it isn't in the folder."""
    part = realm.parts.get(moniker)
    return _read(realm.file(part.url)) if part else None


def _read(path: Path) -> tuple[Path, Document, Node] | None:
    """A manifest's file with what it says; None where it can't be read."""
    if not path.is_file():
        return None
    try:
        document = Document(str(path), path.read_text("utf-8"))
        return path, document, read_relaxed(document.text)
    except (OSError, UnicodeDecodeError, SpellingFault):
        return None


def _has_row(item: Node, row: Row) -> bool:
    """Whether an item makes the row."""
    kind = kind_of(row)
    names = {name.value for name in many(item.get(kind))} if kind else set()
    if row.get(kind) not in names:
        return False
    targets = {target.value for target in many(item.get("to"))}
    if "to" in row and targets and row["to"] not in targets:
        return False
    for field in ("as", "path"):
        if item.get(field) is not None and item.text(field) != row.get(field):
            return False
    return True
