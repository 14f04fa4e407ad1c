"""The uses that the program tells in its reports and not as routes: of storage, and of debug protocols."""

from __future__ import annotations

import re
from typing import Callable

from cm_tools.entries import Route
from cm_tools.said import NoPlace, read_said
from cm_tools.surveying import Realm, Row, Use

STORED = re.compile(r"(\S+) storage (/\S+) at (\S+) in (\S+?)(?: incarnation ([0-9]+))?")
DEBUGGED = re.compile(r"(\S+) debug (/\S+) (?:from (\S+) (\S+) at (\S+)|unregistered)")
# What a place in a storage gives.
RIGHTS = "rw*"


def add_uses(realm: Realm, report: Callable[[str], list[str]]) -> None:
    """Adds the uses of storage and of debug protocols, where manifests have some; `report` runs the program
    with one of its words for reports, and gives the lines.
    """
    rows = {
        (moniker, str(row.get("path", ""))): row
        for moniker, part in realm.parts.items() for row in part.declared.get("use", [])
    }
    if any("storage" in row for row in rows.values()):
        realm.uses += [use for line in report("storage") if (use := _stored(line, rows)) is not None]
    if any(row.get("from") == "debug" for row in rows.values()):
        realm.uses += [use for line in report("environments") if (use := _debugged(line, rows)) is not None]
    order = {moniker: number for number, moniker in enumerate(realm.parts)}
    realm.uses.sort(key=lambda use: order.get(use.client, len(order)))


def _stored(line: str, rows: dict[tuple[str, str], Row]) -> Use | None:
    """What a line of the report on storage says."""
    given = STORED.fullmatch(line)
    if given is not None:
        client, path, place, source, number = given.groups()
        route = Route(place, source if number is None else "instance", "" if number is None else source,
                      None if number is None else int(number), RIGHTS, ())
        return Use(client, path, rows.get((client, path), {}), route, 0, "", "", "")
    said = read_said(line)
    if not isinstance(said, NoPlace):
        return None
    row = rows.get((said.moniker, said.path), {})
    return Use(said.moniker, said.path, row, None, said.number, said.words, said.step, said.at)


def _debugged(line: str, rows: dict[tuple[str, str], Row]) -> Use | None:
    """What a line of the report on environments says of a debug protocol."""
    found = DEBUGGED.fullmatch(line)
    if found is None:
        return None
    client, path, origin, name, owner = found.groups()
    row = rows.get((client, path), {})
    if owner is None:
        return Use(client, path, row, None, 0, "no environment registers it", "", "")
    return Use(client, path, row, None, 0, "", "", "", (owner, origin, name))
