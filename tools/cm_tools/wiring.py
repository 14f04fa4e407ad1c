"""Which rows of which manifests carry the routes of a realm: the hops that the program names, each with its
row.
"""

from __future__ import annotations

from collections import defaultdict
from typing import Iterator

from cm_tools.hops import Given, Stop, Ways, groups_of
from cm_tools.scripts import Command
from cm_tools.surveying import Realm, Row, Use, kind_of

# A debug protocol is looked for at the instance whose manifest registers it, which the program names.
ENVIRONMENT = "environment"


class Wiring:
    """The rows of a realm's offers, exposes and capabilities, by what looks for them."""

    def __init__(self, realm: Realm) -> None:
        self.realm = realm
        self._ways = Ways(self._rows, self._created)
        # The collections that have a child, by what stands in front of the child's name.
        self._collections: dict[str, set[str]] = defaultdict(set)
        for moniker in realm.parts:
            above, slash, name = moniker.rpartition("/")
            if ":" in name:
                self._collections[above + slash].add(name.partition(":")[0])
        self.links = [self._links(use) for use in realm.uses]
        self._links_by_use = {id(use): links for use, links in zip(realm.uses, self.links)}
        # What leads out: to whoever looks at the root, and to children that aren't known.
        self.outward = self._chains(".", "expose", realm.parts["."].declared.get("expose", []))
        self.open = [chain for moniker in realm.parts for chain in self._open(moniker)]
        registered = [chain for moniker in realm.parts for chain in self._registered(moniker)]
        self._leading_out = {
            id(row_at(stop)) for chain in [*self.outward, *self.open, *registered] for stop in chain
        }
        self._carried: dict[int, list[Use]] = defaultdict(list)
        for use, links in zip(realm.uses, self.links):
            for link in links:
                if row_at(link) is not None:
                    self._carried[id(row_at(link))].append(use)

    def walk(self, use: Use) -> list[Stop]:
        """The hops of a use as the rows name them, to the end or to what is missing."""
        return self._ways.walk(_first("use", use.client, "use", use.row, use.name))

    def links_of(self, use: Use) -> list[Stop]:
        """The hops of a use of the realm."""
        return self._links_by_use[id(use)]

    def provider_of(self, use: Use) -> str:
        """The moniker of the instance that provides what is used; none where no instance does."""
        if use.route is not None:
            return use.route.moniker
        last = self.links_of(use)[-1]
        return last.moniker if use.is_given and last.step == "capability" else ""

    def names_at_failure(self, use: Use) -> tuple[str, set[str]]:
        """The name that is looked for where a use fails for want of an offer or expose, and those of the same
        kind that are there.
        """
        links = self.links_of(use)
        last = links[-1]
        if len(links) < 2 or last.given is not None or (last.step, last.moniker) != (use.step, use.moniker):
            return "", set()
        if last.step == "builtin":
            return last.name, set()
        rows = list(self._rows(last.moniker, "expose" if last.step == "expose" else "offer"))
        if last.step != "expose":
            target = "#" + links[-2].moniker.rpartition("/")[2].partition(":")[0]
            rows = [row for row in rows if row.target == target]
        return last.name, {row.name for row in rows if row.kind == last.kind}

    def users(self, row: Row) -> list[Use]:
        """The uses whose routes pass a row."""
        return self._carried.get(id(row), [])

    def is_needed(self, row: Row) -> bool:
        """Whether a row carries a use, or what leads out."""
        return id(row) in self._carried or id(row) in self._leading_out

    def _rows(self, moniker: str, section: str) -> Iterator[Given]:
        """The rows of a section as a walk sees them."""
        part = self.realm.parts.get(moniker)
        for row in part.declared.get(section, []) if part else []:
            yield _given(section, row)

    def _created(self, parent: str, own: str) -> list[Given]:
        """What a command that created a child offers to it alone."""
        for command in self.realm.commands:
            words = tuple(command.split(" "))
            if words[0] == "create" and words[1:2] == (parent,) and ":".join(words[2:4]) == own:
                return groups_of(Command(0, 0, words))
        return []

    def _chains(self, moniker: str, step: str, rows: list[Row]) -> list[list[Stop]]:
        """The hops behind each of these rows of an instance."""
        return [self._ways.walk(_first(step, moniker, step, row)) for row in rows]

    def _open(self, moniker: str) -> list[list[Stop]]:
        """The hops behind each offer to a collection that has no child, or to a child without a manifest."""
        front, part = "" if moniker == "." else f"{moniker}/", self.realm.parts[moniker]
        names = {row["name"] for row in part.declared.get("collections", [])}
        unknown = {f"#{name}" for name in names - self._collections.get(front, set())}
        for row in part.declared.get("children", []):
            child = self.realm.parts.get(front + row["name"])
            unknown |= {f"#{row['name']}"} if child is None or child.failure else set()
        rows = [row for row in part.declared.get("offer", []) if row.get("to") in unknown]
        return self._chains(moniker, "offer", rows)

    def _registered(self, moniker: str) -> list[list[Stop]]:
        """The hops behind each debug protocol that an instance's environments register."""
        environments = self.realm.parts[moniker].declared.get("environments", [])
        rows = [row for one in environments for row in one.get("debug", [])]
        return self._chains(moniker, ENVIRONMENT, rows)

    def _links(self, use: Use) -> list[Stop]:
        """The hops of a use, up to the end or to the hop at which it fails.

        Where the program names other hops, they have no rows.
        """
        walked = self.walk(use)
        if use.is_debug:
            return [*walked, *self._behind(use)]
        if use.route is None:
            places = [(link.step, link.moniker) for link in walked]
            failing = (use.step, use.moniker)
            return walked[: places.index(failing) + 1] if failing in places else walked[:1]
        told = [(hop.step, hop.moniker) for hop in use.route.hops]
        if not told or told == [(link.step, link.moniker) for link in walked]:
            return walked
        return [Stop(step, moniker, use.kind, use.name, None) for step, moniker in told]

    def _behind(self, use: Use) -> list[Stop]:
        """The hops behind a use from `debug`, from where the program says that it is registered."""
        if use.registered is None:
            return []
        moniker, origin, name = use.registered
        given = Given("protocol", use.name, name, origin, "", {})
        return self._ways.walk(Stop(ENVIRONMENT, moniker, "protocol", use.name, given))


def row_at(stop: Stop) -> Row | None:
    """The row that states a hop, if one does."""
    stated = stop.given.stated if stop.given else None
    return stated if isinstance(stated, dict) and stated else None


def _given(section: str, row: Row) -> Given:
    """A row as a walk sees it."""
    kind = kind_of(row)
    name = str(row.get(kind, ""))
    taken = str(row.get("backing_dir", "")) if section == "capabilities" else name
    origin, target = str(row.get("from", "")), str(row.get("to", ""))
    return Given(kind, str(row.get("as") or name), taken, origin, target, row)


def _first(step: str, moniker: str, section: str, row: Row, name: str = "") -> Stop:
    """The hop of a row with which a walk begins."""
    given = _given(section, row)
    return Stop(step, moniker, given.kind, name or given.name, given)
