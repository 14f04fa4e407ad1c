"""One manager behind the other: a further one gets the tree, and the programs that run."""

from __future__ import annotations

import asyncio
import shutil
import time
from pathlib import Path
from typing import TYPE_CHECKING

from cm_tools.host.instance import Instance
from cm_tools.host.manager import Manager
from cm_tools.host.sandbox import readable
from cm_tools.host.sessions import Gone, Session
from cm_tools.host.tree import commands

if TYPE_CHECKING:
    from cm_tools.host.runner import Runner

# Each so many seconds a manager is asked something that waits for nothing, and has so long to answer.
PULSE, PATIENCE = 2.0, 6.0
# How long what has come by then is read, in seconds.
TO_READ = 0.5
# How long commands, and then connects, may go on before they are cut off by a planned replacement.
FOR_COMMANDS, FOR_CONNECTS = 10.0, 1.0
# How often another manager is begun before it is given up.
TRIES = 30
# How many journals are kept.
KEPT_JOURNALS = 16


class Succession:
    """Starts managers, replaces them, and notices where one has ended, hangs or is nearly full."""

    def __init__(self, runner: Runner) -> None:
        self.runner = runner
        self.numbers = 0
        # Under which number the last manager knew each instance.
        self.before: dict[str, int] = {}
        # Managers that end beside the present one, and write their journals.
        self.ending: set[asyncio.Future[None]] = set()

    async def begin(self) -> Manager:
        """Starts a manager, in a folder of its own; `Gone` where it ends at once."""
        places = self.runner.places
        self.numbers += 1
        folder = places.live / f"m{self.numbers}"
        folder.mkdir()
        journal = places.journals / f"{self.runner.birth}-{self.numbers}.journal"
        manager = Manager(self.numbers, folder, journal)
        manager.server = self.runner.gate.listen(manager)
        try:
            manager.start(self.runner.settings)
            await manager.listens()
            return manager
        except (Gone, OSError) as fault:
            why = str(fault) or "it doesn't listen"
            self.runner.log.event("manager-lost", manager=manager.number, why=why)
            await self.let_go(manager, False)
            raise Gone from fault

    async def let_go(self, manager: Manager, orderly: bool) -> None:
        """Ends a manager. It has nothing that isn't remembered here, but for its history."""
        by_itself = await manager.end(orderly)
        size = manager.journal.stat().st_size if manager.journal.exists() else None
        self.runner.log.note("manager-ended", manager=manager.number, by_itself=by_itself,
                             journal=manager.journal.name if size is not None else "", bytes=size or 0)
        shutil.rmtree(manager.folder, ignore_errors=True)
        for place in older(self.runner.places.journals, KEPT_JOURNALS):
            place.unlink(missing_ok=True)
            self.runner.log.note("journal-removed", journal=place.name)

    async def follow(self) -> None:
        """Puts a manager into the place of each that ends, hangs or is nearly full, until all is over."""
        runner = self.runner
        while not runner.over.is_set():
            manager = runner.manager
            assert manager is not None
            ended = asyncio.ensure_future(readable(manager.pid))
            pulse = asyncio.ensure_future(self._watch(manager))
            waits = [ended, pulse, asyncio.ensure_future(runner.plan.wait()),
                     asyncio.ensure_future(runner.over.wait())]
            await asyncio.wait(waits, return_when=asyncio.FIRST_COMPLETED)
            why = "ended" if ended.done() else "hangs" if pulse.done() and pulse.result() else "planned"
            for task in waits:
                task.cancel()
            if not runner.over.is_set():
                await self.replace(why)

    async def _watch(self, manager: Manager) -> bool:
        """Comes back with True where a manager doesn't answer any more, with False where its history is to
        be put away."""
        settings = self.runner.settings
        while True:
            await asyncio.sleep(PULSE)
            try:
                if await self._hangs(manager):
                    return True
            except Gone:
                continue  # its end is noticed by its process
            tally = manager.asked.tally
            if tally.entries > settings.roll_entries or tally.bytes > settings.roll_bytes \
                    or manager.memory() > settings.roll_memory:
                return False

    async def _hangs(self, manager: Manager) -> bool:
        """Whether a manager answers no more. What came while this process itself stood still counts."""
        asked = asyncio.ensure_future(manager.asked.pulse.ask("show ."))
        try:
            for seconds in PATIENCE, TO_READ:
                await asyncio.wait([asked], timeout=seconds)
            if asked.done():
                asked.result()  # `Gone` where the session has ended
            return not asked.done()
        finally:
            asked.cancel()

    async def replace(self, why: str) -> None:
        """Puts another manager into the place of the present one."""
        runner, begun = self.runner, time.monotonic()
        old, new = runner.manager, None
        assert old is not None
        if why == "planned":
            try:
                new = await self.begin()
            except Gone:
                pass
            await self._calm(old)
        held = time.monotonic()
        runner.there.clear()
        if why == "planned":
            while not old.asked.is_idle() and time.monotonic() < held + FOR_CONNECTS and not old.has_ended():
                await asyncio.sleep(0.001)
        await self._set_aside(old)
        told, tries = {}, 0
        # An end in order needs a manager that has the tree.
        while not (runner.over.is_set() and tries):
            try:
                new = new or await self.begin()
                told = await self.replay(new)
                break
            except Gone:
                if new is not None:
                    await self._set_aside(new)
                    await self.let_go(new, False)
                new, tries = None, tries + 1
                await asyncio.sleep(min(1.0, 0.02 * tries))
                if tries == TRIES:
                    runner.log.event("fault", of="manager", why=f"none could be begun in {tries} tries")
                    runner.over.set()
        if new is not None:
            runner.manager = new
        runner.plan.clear()
        runner.there.set()
        runner.may_change.set()
        if new is None:
            return
        runner.log.event("replaced", manager=self.numbers, why=why, **told, before=old.number,
                         held_ms=round(1000 * (time.monotonic() - held), 1),
                         ms=round(1000 * (time.monotonic() - begun), 1))
        ending = asyncio.ensure_future(self.let_go(old, why == "planned" and runner.settings.writes_journals))
        self.ending.add(ending)
        ending.add_done_callback(self.ending.discard)

    async def _calm(self, old: Manager) -> None:
        """Holds commands back until none is under way: one may wait two seconds for a stop, and connects
        aren't held for that."""
        runner, until = self.runner, time.monotonic() + FOR_COMMANDS
        runner.may_change.clear()
        while runner.changing or old.asked.exits.under_way:
            if time.monotonic() > until or old.has_ended():
                return
            await asyncio.sleep(0.001)

    async def _set_aside(self, manager: Manager) -> None:
        """What ran under a manager, by monikers, for the next one."""
        manager.over = True
        self.before.update((moniker, inc) for inc, moniker in manager.monikers.items())
        while manager.launching:
            await asyncio.sleep(0.001)
        for it in sorted(manager.instances.values(), key=lambda it: it.key):
            it.inc = it.manager = None
            other = self.runner.left.pop(it.moniker, None)
            for old in (other, it if it.gone else None):
                if old is not None:
                    asyncio.ensure_future(self.runner.drop(old))
            if not it.gone:
                self.runner.left[it.moniker] = it

    async def replay(self, manager: Manager) -> dict[str, int]:
        """Gives a manager the tree, and the programs that run. How many steps, starts, and what was lost."""
        tree, left = self.runner.tree, self.runner.left
        for name in [one for one in tree.children if tree.runs_once(one)]:
            if name in left and not left[name].lives() and name in tree.children:
                tree.destroyed(name)
        names = [one for one in tree.on if one not in left or left[one].lives()]
        manager.wanted = set(names)
        lost = await self._create_again(manager)
        for name in list(tree.shut):
            await manager.asked.realms.ask(f"shutdown {name}")
        lanes = manager.asked.opens.sessions
        done = await asyncio.gather(*(self._start_again(session, names[place::len(lanes)])
                                      for place, session in enumerate(lanes)), return_exceptions=True)
        for one in done:
            if isinstance(one, BaseException):
                raise one
        manager.replaying = False
        self._drop_what_is_off(manager)
        return {"steps": len(tree.steps), "starts": len(names), "adopted": manager.adopted, "lost": lost}

    async def _create_again(self, manager: Manager) -> int:
        """Creates the children anew. How many couldn't be."""
        tree, lost = self.runner.tree, 0
        steps = tree.needed()
        lines = commands(steps)
        for (what, child), line, reply in zip(steps, lines, await manager.asked.exits.ask_all(lines)):
            if reply.startswith("created "):
                manager.created(child.moniker, int(reply.split(" ")[-1]))
                self.runner.log.note("became", moniker=child.moniker, manager=manager.number,
                                     inc=int(reply.split(" ")[-1]), before=self.before.get(child.moniker))
            elif what == "destroy":
                manager.forget(child.moniker)
            if reply.startswith("refused"):
                lost += 1
                self.runner.log.event("lost", moniker=child.moniker, manager=manager.number, command=line,
                                      why=reply)
        for what, child in steps:
            if what == "create" and child.moniker not in tree.children:
                await manager.asked.realms.ask(f"destroy {child.moniker}")  # it ended meanwhile
        return lost

    async def _start_again(self, session: Session, names: list[str]) -> None:
        for name, reply in zip(names, await session.ask_all([f"start {name}" for name in names])):
            if reply.startswith("refused") and name in self.runner.tree.on:
                self.runner.log.event("lost", moniker=name, command=f"start {name}", why=reply)
                self.runner.tree.off(name)

    def _drop_what_is_off(self, manager: Manager) -> None:
        """Ends the programs that the new manager doesn't count on."""
        left, tree = self.runner.left, self.runner.tree
        for it in [*left.values(), *manager.instances.values()]:
            uncounted = it.lives() and it.counted is not manager
            if not (it.gone or uncounted or not tree.stands(it.moniker)):
                continue
            self.runner.log.event("dropped", moniker=it.moniker, manager=manager.number, instance=it.key)
            if left.get(it.moniker) is it:
                del left[it.moniker]
                asyncio.ensure_future(self.runner.drop(it))
            elif it.ends is not None:
                asyncio.ensure_future(end_by_force(it))


def older(folder: Path, count: int) -> list[Path]:
    """The files of a folder but for so many that were written last."""
    found = sorted(folder.iterdir(), key=lambda place: place.stat().st_mtime_ns, reverse=True)
    return found[count:]


async def end_by_force(it: Instance) -> None:
    """Ends the program of an instance, and waits until nothing of it is left."""
    if it.ends is None or it.process is None:
        return
    it.stopping, ends = True, it.ends
    await it.process.kill()
    await ends
