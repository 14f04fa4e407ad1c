"""`fuchsia.component.Realm` as lines, over an instance's own realm alone.

    create COLL NAME URL GROUPS    created COLL:NAME
    destroy COLL:NAME              destroyed COLL:NAME
    list COLL                      children COLL COUNT, then a name a line
    open-exposed CHILD NAME        opened, and from then on the bytes are those of what was opened

A command names children by their names. The manager is asked by incarnations, which name no other instance,
whatever has come in the place of one by then; the runner keeps those that `created` told it, and looks a
static child up once, so that no command's reply is longer than a line.
"""

from __future__ import annotations

import re
import time
from typing import TYPE_CHECKING

from cm_tools.host import programs
from cm_tools.host.instance import Instance
from cm_tools.host.programs import Unfit
from cm_tools.host.sessions import Gone
from cm_tools.host.tree import child_of

if TYPE_CHECKING:
    from cm_tools.host.manager import Manager
    from cm_tools.host.runner import Runner

PLAIN = re.compile(r"[!-~]+( [!-~]+)*\Z")
# Commands of one realm: at once, and in a second.
AT_ONCE, A_SECOND = 200, 20
REPLACED = "refused: the manager was replaced"
BUSY = f"refused: a realm takes at most {A_SECOND} commands a second"


class Room:
    """How much one realm may still ask."""

    def __init__(self) -> None:
        self.room, self.since = float(AT_ONCE), time.monotonic()

    def take(self) -> bool:
        """Takes one command's room, if there is any."""
        now = time.monotonic()
        self.room, self.since = min(AT_ONCE, self.room + A_SECOND * (now - self.since)), now
        if self.room < 1:
            return False
        self.room -= 1
        return True


class Realm:
    """One connection of a program to its own realm. Each command stays with the manager that it began
    with."""

    def __init__(self, runner: Runner, instance: Instance) -> None:
        self.runner, self.instance = runner, instance
        assert instance.manager is not None
        self.manager: Manager = instance.manager

    async def answer(self, line: str) -> tuple[list[str], str | None]:
        """The lines of the reply; behind `opened`, what was opened."""
        words = line.split(" ")
        if not PLAIN.match(line):
            return ["refused bad-command"], None
        if not self.runner.rooms.setdefault(self.instance.key, Room()).take():
            return [BUSY], None
        async with self.runner.changes():
            self.manager = await self.runner.ready()
            if self.instance.manager is not self.manager or self.instance.gone:
                return ["refused gone"], None
            try:
                return await self._answer(words)
            except Gone:
                return [REPLACED], None

    async def _answer(self, words: list[str]) -> tuple[list[str], str | None]:
        if words[0] == "create" and len(words) >= 4:
            return [await self._create(words)], None
        if words[0] == "list" and len(words) == 2:
            return self._list(words[1]), None
        if words[0] == "destroy" and len(words) == 2:
            return [await self._destroy(words[1])], None
        if words[0] == "open-exposed" and len(words) == 3:
            child = await self._child(words[1])
            if child is None:
                return ["refused not-found"], None
            opened = (await self.manager.asked.opens.ask(f"open-exposed @{child} {words[2]}"))[0]
            return (["opened"], opened) if opened.startswith("opened ") else ([opened], None)
        return ["refused bad-command"], None

    async def _create(self, words: list[str]) -> str:
        reply = await self.runner.consoles.tree_command(
            self.manager, self.manager.asked.realms, self.instance.moniker,
            ["create", f"@{self.instance.inc}", *words[1:]])
        return f"created {reply[0].split()[2]}" if reply[0].startswith("created ") else reply[0]

    def _list(self, coll: str) -> list[str]:
        own = self.instance.moniker
        try:
            if coll not in programs.declared(self.runner.repo, self.instance.url).collections:
                return ["refused 60 collection-not-found"]
        except Unfit as fault:
            return [f"refused: {fault}"]
        names = [child.name for child in self.runner.tree.children.values()
                 if child.parent == own and child.coll == coll]
        return [f"children {coll} {len(names)}", *names]

    async def _destroy(self, name: str) -> str:
        child = await self._child(name)
        if child is None:
            return "refused not-found"
        moniker = child_of(self.instance.moniker, name)
        reply = await self.runner.consoles.tree_command(
            self.manager, self.manager.asked.realms, moniker, ["destroy", f"@{child}"])
        return f"destroyed {name}" if reply[0].startswith("destroyed") else reply[0]

    async def _child(self, name: str) -> int | None:
        """The incarnation of a child."""
        moniker = child_of(self.instance.moniker, name)
        if ":" in name or moniker in self.manager.incarnations:
            return self.manager.incarnations.get(moniker)
        found = (await self.manager.asked.realms.ask(f"show {moniker}"))[0].split(" ")
        if found[0] != "shown":
            return None
        # The moniker's child is this instance's own if this one still stands.
        if (await self.manager.asked.realms.ask(f"show @{self.instance.inc}"))[0].startswith("refused"):
            return None
        self.manager.created(moniker, int(found[3]))
        return int(found[3])
