"""Which runner a start gets: the one that the instance's environment registers.

The word `environments` tells the registration. What is registered from the host is the host's own runner;
what is registered from the parent of an instance further below is what that instance's own environment has.
"""

from __future__ import annotations

import asyncio
import os
import re
from typing import Iterator, NamedTuple

from cm_tools.host import programs
from cm_tools.host.programs import Unfit
from cm_tools.host.reports import Reports, beneath, manifest_with_runner
from cm_tools.host.tree import child_of, parent_of

ROW = re.compile(r"(\S+) runner (\S+) (?:unregistered|from (\S+) (\S+) at (\S+))\Z")
# How many instances are asked for at once: siblings are likely to be started next.
AT_ONCE = 1000
KEPT = 20_000
Stamp = tuple[tuple[str, int, int], ...]


class Registered(NamedTuple):
    """A registration: `source` is the word of `from`, and `owner` whose environment has it."""

    source: str
    name: str
    owner: str


class Environments:
    """Asks for registrations, and keeps them as long as no manifest of theirs changes.

    A registration depends on the manifests from the root to the instance, and on nothing else.
    """

    def __init__(self, reports: Reports) -> None:
        self.reports, self.tree, self.repo = reports, reports.tree, reports.repo
        self.kept: dict[tuple[str, str], tuple[Stamp, Registered | None]] = {}
        self.asked: set[str] = set()
        self.turn = asyncio.Lock()

    async def runner(self, moniker: str, name: str) -> str:
        """The host's runner that a start of the instance gets for the name in its manifest; `Unfit` where it
        gets none of the host's."""
        if not self.reports.knows("environments"):
            return name
        found, whose = await self._registered(moniker, name), moniker
        while found is not None and found.source == "parent" and found.owner != ".":
            # Its parent gives the owner what the owner's own environment has.
            whose = found.owner.partition("/")[2] or "."
            name = found.name
            found = await self._registered_as_if(whose, name)
        if found is None:
            raise Unfit(f"no environment of {whose} registers the runner {name}")
        if found.source != "parent":
            raise Unfit(f"the runner {name} of {whose} is registered from {found.source}, and no runner of a "
                        "component's own is known here")
        return found.name

    async def _registered(self, moniker: str, name: str) -> Registered | None:
        """The registration of an instance for the runner in its manifest; None where it has none."""
        async with self.turn:
            stamp = self._stamp(moniker)
            known = self.kept.get((moniker, name))
            if known is None or known[0] != stamp:
                await self._ask([moniker, *self._siblings(moniker)])
                known = self.kept.get((moniker, name))
            if known is None:
                raise Unfit(f"the word environments tells nothing of the runner {name} of {moniker}")
            return known[1]

    async def _registered_as_if(self, moniker: str, name: str) -> Registered | None:
        """The registration that an instance would have if its program wanted this runner."""
        url = self.tree.url_of(moniker)
        text = manifest_with_runner(self.repo, url, name)
        script = self.reports.script_below_the_host([moniker], {url: text})
        for row in await self.reports.lines("environments", script):
            found = ROW.match(row)
            if found and (found[1], found[2]) == (beneath(moniker), name):
                return _registration(found)
        raise Unfit(f"the word environments tells nothing of the runner {name} at {moniker}")

    async def _ask(self, monikers: list[str]) -> None:
        stamps = {beneath(name): (name, self._stamp(name)) for name in monikers}
        if len(self.asked) > KEPT:
            self.kept.clear()
            self.asked.clear()
        self.asked.update(monikers)
        script = self.reports.script_below_the_host(monikers, {})
        for row in await self.reports.lines("environments", script):
            found = ROW.match(row)
            if found and found[1] in stamps:
                name, stamp = stamps[found[1]]
                self.kept[name, found[2]] = stamp, _registration(found)

    def _siblings(self, moniker: str) -> list[str]:
        """Static children beside an instance, which aren't known yet."""
        if moniker == "." or ":" in moniker.rpartition("/")[2]:
            return []
        parent = parent_of(moniker)
        names = programs.declared(self.repo, self.tree.url_of(parent)).children
        found = (child_of(parent, name) for name in names)
        return [one for one in found if one != moniker and one not in self.asked][:AT_ONCE]

    def _stamp(self, moniker: str) -> Stamp:
        """The manifests on which a registration depends, as they are now."""
        return tuple(self._state(name) for name in _up_from(moniker))

    def _state(self, moniker: str) -> tuple[str, int, int]:
        url = self.tree.url_of(moniker)
        try:
            state = os.stat(programs.place_of(self.repo, url)[1])
            return url, state.st_mtime_ns, state.st_size
        except (OSError, Unfit):
            return url, 0, 0


def _registration(row: re.Match[str]) -> Registered | None:
    return Registered(row[3], row[4], row[5]) if row[3] else None


def _up_from(moniker: str) -> Iterator[str]:
    """The monikers from an instance up to the root."""
    while moniker != ".":
        yield moniker
        moniker = parent_of(moniker)
    yield moniker
