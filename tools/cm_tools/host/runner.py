"""The runner: it runs the programs of a component manager in sandboxes, and connects what they use.

It starts the manager itself. When that ends, hangs, or its history is nearly full, it starts another, gives
it the same tree by ordinary commands, and answers its launches with the programs that run already. It decides
nothing: each connection that a program opens is asked for at the manager, at that moment.
"""

from __future__ import annotations

import asyncio
import contextlib
import os
import resource
import signal
import sys
import time
import traceback
from typing import Any, AsyncIterator

from cm_tools.host import watching
from cm_tools.host.cgroups import Cgroups
from cm_tools.host.consoles import Consoles
from cm_tools.host.doors import Doors
from cm_tools.host.environments import Environments
from cm_tools.host.events import Log
from cm_tools.host.gate import Gate
from cm_tools.host.instance import Instance
from cm_tools.host.laying import Layers
from cm_tools.host.leftovers import remove
from cm_tools.host.manager import Manager
from cm_tools.host.programs import Repo
from cm_tools.host.realm import Room
from cm_tools.host.reports import Reports
from cm_tools.host.sessions import Gone
from cm_tools.host.settings import Places, Settings
from cm_tools.host.starts import Starts
from cm_tools.host.storage import Storage
from cm_tools.host.succession import Succession, end_by_force
from cm_tools.host.tree import Tree, created_part

# How long an orderly end may take before the rest is ended by force, in seconds.
TO_SHUT_DOWN = 60.0
# How long no program has to come to its end before more is asked for at once, in seconds.
A_MOMENT = 0.05
CANT_START, FAULTY, NOT_IN_ORDER = 3, 4, 5


class Runner:
    """All that runs, and who may be asked about it.

    `left` are instances by moniker that the present manager hasn't asked for yet; `there` says that there is
    a manager, `may_change` that commands may be given, and `changing` how many are under way.
    """

    def __init__(self, settings: Settings, layers: Layers) -> None:
        self.settings, self.places = settings, Places(settings.run)
        self.repo = Repo.of(settings.repo, settings.manifests)
        self.birth = int(time.time())
        self.log = Log(self.places.log, quiet=settings.quiet)
        self.log.snapshot, self.log.call_later = self.snapshot, asyncio.get_running_loop().call_later
        self.tree = Tree(settings.root, self.repo, self.places.tree)
        self.starts = Starts()
        reports = Reports(settings.program, self.repo, self.tree, self.starts)
        self.environments, self.storage = Environments(reports), Storage(self, reports)
        self.cgroups, self.layers, self.lays_layers = Cgroups(settings.cgroup), layers, False
        self.gate, self.doors = Gate(self), Doors(self)
        self.consoles, self.succession = Consoles(self), Succession(self)
        self.manager: Manager | None = None
        self.left: dict[str, Instance] = {}
        self.rooms: dict[int, Room] = {}
        self.over, self.there, self.plan = asyncio.Event(), asyncio.Event(), asyncio.Event()
        self.may_change, self.changing = asyncio.Event(), 0
        self.may_change.set()

    async def ready(self) -> Manager:
        """The manager, as soon as there is one that may be asked."""
        while not self.there.is_set():
            await self.there.wait()
        assert self.manager is not None
        return self.manager

    @contextlib.asynccontextmanager
    async def changes(self) -> AsyncIterator[None]:
        """While a command is under way, no planned replacement begins."""
        await self.may_change.wait()
        self.changing += 1
        try:
            yield
        finally:
            self.changing -= 1

    def managers(self) -> list[Manager]:
        """The managers whose instances may still run."""
        return [self.manager] if self.manager is not None else []

    def all_instances(self) -> list[Instance]:
        """All that is known, each once."""
        known = self.manager.instances.values() if self.manager is not None else ()
        return [*self.left.values(), *(it for it in known if self.left.get(it.moniker) is not it)]

    # Programs.

    async def watch(self, it: Instance) -> None:
        """Waits for the end of a program, and tells the manager of one that wasn't asked for."""
        process, start = it.process, it.starts
        assert process is not None
        await process.ended()
        it.process, status = None, process.status
        it.part()
        it.ends = None
        self.cgroups.remove(it.key)
        layers, it.layers = it.layers, []
        if layers:
            asyncio.ensure_future(self.layers.lift_all(layers))
        if not it.stopping and not self.over.is_set():
            pause = it.note_crash()
            again = {"again_behind_s": round(pause, 1)} if pause else {}
            self.log.event("exited", moniker=it.moniker, inc=it.inc, instance=it.key, status=status, **again)
            asyncio.ensure_future(self._tell_exit(it, start))

    async def _tell_exit(self, it: Instance, start: int) -> None:
        manager = self.manager
        is_counted = manager is not None and it.manager is manager and it.counted is manager
        if manager is None or not is_counted or not self.there.is_set():
            # No present manager knows of such a start; the next one won't be told of this one.
            self.forget(self.tree.stopped(it.moniker))
            return
        words = ["exited", f"@{it.inc}"]
        reply = await self.consoles.tree_command(manager, manager.asked.exits, it.moniker, words)
        if reply[0].startswith("refused") and not it.gone and not it.lives():
            self.forget(self.tree.stopped(it.moniker))
        # It counts as off now. What was started in between would run beside that.
        if reply[0] == f"exited @{it.inc}" and it.starts != start:
            await end_by_force(it)
        await self.tidy(it)

    async def tidy(self, it: Instance) -> None:
        """Removes the folder of an instance that is gone: one at or below a child of a collection."""
        if self.over.is_set() or not created_part(it.moniker):
            return
        await asyncio.sleep(0.5)
        manager = self.manager
        if it.manager is None or it.manager is not manager or it.process is not None or it.inc is None:
            return
        try:
            if (await manager.asked.realms.ask(f"show @{it.inc}"))[0].startswith("refused 81"):
                await self.put_away(it)
        except Gone:
            pass

    def forget(self, monikers: list[str]) -> None:
        """These have gone, with all below them; what comes at their places is others."""
        if not monikers:
            return
        for one in monikers:
            if self.manager is not None:
                self.manager.forget(one)
        for it in self.all_instances():
            if any(it.moniker == one or it.moniker.startswith(one + "/") for one in monikers):
                it.gone = True
                if self.left.get(it.moniker) is it:
                    del self.left[it.moniker]
                    asyncio.ensure_future(self.drop(it))
                else:
                    asyncio.ensure_future(self.put_away(it))

    async def drop(self, it: Instance) -> None:
        """Ends an instance for good."""
        await end_by_force(it)
        await self.put_away(it)

    async def put_away(self, it: Instance) -> None:
        """Removes what an instance that is gone has left, as soon as its program has ended."""
        if it.ends is not None:
            await asyncio.wait([it.ends])
        if it.manager is not None and it.inc is not None:
            it.manager.instances.pop(it.inc, None)
        self.rooms.pop(it.key, None)
        for place in (it.folder, *self.storage.left_by(it)):
            await remove(self.starts, place)
        self.log.gone(one.moniker for one in self.all_instances())

    # What it tells.

    def rows(self) -> list[dict[str, Any]]:
        """A row for each instance whose program was started: its number, its state, its process."""
        found = []
        for it in self.all_instances():
            if it.starts:
                state = "on" if it.lives() else "stopping" if it.ends else "off"
                found.append({"moniker": it.moniker, "inc": it.inc, "instance": it.key, "state": state,
                              "pid": it.process.first if it.process else None, "since": it.since,
                              "age": round(time.monotonic() - it.since, 1), "starts": it.starts})
        return sorted(found, key=lambda row: str(row["moniker"]))

    def snapshot(self) -> list[dict[str, Any]]:
        """Events that say what runs and what is open, for the front of a file of events."""
        lines: list[dict[str, Any]] = []
        for it in self.all_instances():
            if it.lives():
                lines.append({"event": "runs", "moniker": it.moniker, "inc": it.inc, "instance": it.key})
            for number, (path, provider) in it.open.items():
                lines.append({"event": "is-open", "moniker": it.moniker, "path": path, "provider": provider,
                              "connection": number})
        return lines

    # Its own life.

    async def main(self) -> int:
        """Runs until it is told to end. Its status."""
        for folder in (self.places.instances, self.places.empty, self.places.layers):
            folder.mkdir(parents=True, exist_ok=True)
        self.places.journals.mkdir(mode=0o700, exist_ok=True)
        self.starts.connect()
        loop = asyncio.get_running_loop()
        for number in (signal.SIGTERM, signal.SIGINT):
            loop.add_signal_handler(number, self.over.set)
        self.lays_layers = await self.layers.works(str(self.places.layers / "probe"))
        resumed = self.tree.open()
        for place in self.storage.sweep():
            await remove(self.starts, place)
        try:
            self.manager = await self.succession.begin()
        except Gone:
            why = f"{self.settings.program} doesn't serve {self.settings.root}"
            self.log.event("fault", of="manager", why=why)
            return CANT_START
        try:
            await self._open_doors()
            await self._begin(resumed)
            await self.succession.follow()
            return 0 if await self._shut_down() else NOT_IN_ORDER
        finally:
            await self._end()

    async def _open_doors(self) -> None:
        doors = ((self.places.console, self.consoles.console), (self.places.control, self.consoles.control))
        for place, answer in doors:
            place.unlink(missing_ok=True)
            await asyncio.start_unix_server(answer, str(place), limit=1 << 17)

    async def _begin(self, resumed: bool) -> None:
        """Starts the root; or all that ran, where the last runner was killed."""
        assert self.manager is not None
        self.log.event("begins", manager=1, root=self.settings.root, cgroups=self.cgroups.is_there)
        self.log.show(f"host      {self.cgroups.told()}")
        if not self.lays_layers and not self.settings.plain:
            self.log.show("host      no layers over folders: components with read-only directories are "
                          "refused, unless --plain-directories is said")
        if resumed:
            told = await self.succession.replay(self.manager)
            self.log.event("resumed", manager=1, **told)
        self.manager.replaying = False
        self.there.set()
        asyncio.ensure_future(self.storage.watch())
        self.log.event("ready", manager=1, console=str(self.places.console))
        if not resumed:
            reply = (await self.consoles.command("start .", self.manager))[0]
            self.log.event("root", moniker=".", manager=1, reply=reply)

    async def _shut_down(self) -> bool:
        """Shuts the realm down, clients before providers. Whether all went in order."""
        manager = self.manager
        assert manager is not None
        self.log.event("shutdown", manager=manager.number)
        replies: list[str] = []
        with contextlib.suppress(OSError, Gone):
            replies = await self._asked_to_shut(manager)
        in_order = replies != [] and all(reply.startswith("shut ") for reply in replies)
        self.log.event("shut", manager=manager.number, in_order=in_order)
        self.tree.close(keep=not in_order)
        return in_order

    async def _asked_to_shut(self, manager: Manager) -> list[str]:
        """The replies to a shutdown. It is asked on one session, and on twice as many each time that no
        program has come to its end for a moment: so programs that don't heed their stop don't add up, and the
        manager has no more callers than it needs, since many of them cost it much in a wide realm."""
        sessions, until = manager.asked.for_shutdown(), time.monotonic() + TO_SHUT_DOWN
        asked: list[asyncio.Future[list[str]]] = []
        before = self.gate.halted
        while time.monotonic() < until:
            if self.gate.halted == before:
                further = sessions[len(asked):max(1, 2 * len(asked))]
                asked += [asyncio.ensure_future(session.ask("shutdown .")) for session in further]
            before = self.gate.halted
            _, missing = await asyncio.wait(asked, timeout=A_MOMENT)
            if not missing:
                break
        return [task.result()[0] for task in asked if task.done() and task.exception() is None]

    async def _end(self) -> None:
        self.over.set()
        for it in self.all_instances():
            await end_by_force(it)
        if self.manager is not None:
            await self.succession.let_go(self.manager, self.settings.writes_journals)
        if self.succession.ending:
            await asyncio.wait(self.succession.ending)
        for place in (self.places.console, self.places.control):
            place.unlink(missing_ok=True)
        self.starts.close()
        self.log.event("ends")


def main() -> int:
    """Runs a runner. The words of the command line are its settings, its end of the socket to who lays
    layers, and the other end, which isn't its own."""
    os.umask(0o077)
    # Each instance takes some descriptors.
    _, most = resource.getrlimit(resource.RLIMIT_NOFILE)
    resource.setrlimit(resource.RLIMIT_NOFILE, (most, most))
    try:
        os.close(int(sys.argv[3]))
        layers = Layers(int(sys.argv[2]))
        return watching.run(_run(Settings.from_text(sys.argv[1]), layers))
    except Exception:
        # Not 1, which is what a killed runner looks like from outside.
        traceback.print_exc()
        return FAULTY


async def _run(settings: Settings, layers: Layers) -> int:
    return await Runner(settings, layers).main()


if __name__ == "__main__":
    sys.exit(main())
