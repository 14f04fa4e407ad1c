"""What a manager asks of the runner: launches and halts."""

from __future__ import annotations

import asyncio
import functools
import os
import time
from pathlib import Path
from typing import TYPE_CHECKING

from cm_tools.host import programs, sandbox, seccomp
from cm_tools.host.events import Said
from cm_tools.host.instance import Instance, Output
from cm_tools.host.leftovers import removed_sockets
from cm_tools.host.programs import Program, Unfit
from cm_tools.host.questions import Asked, Question
from cm_tools.host.reports import RUNNERS
from cm_tools.host.sandbox import Bound, Plan, Process
from cm_tools.host.sessions import Gone
from cm_tools.host.watching import Listener

if TYPE_CHECKING:
    from cm_tools.host.manager import Manager
    from cm_tools.host.runner import Runner


class Gate:
    """Answers the questions of managers, each on a connection of its own."""

    def __init__(self, runner: Runner) -> None:
        self.runner = runner
        self.keys = 0
        # How many programs were halted.
        self.halted = 0
        self.filter = seccomp.program()

    def listen(self, manager: Manager) -> Listener:
        """Has a manager ask from now on."""
        return Listener(str(manager.gate), lambda link: Question(self, manager, link))

    def begin(self, question: Question, manager: Manager, asked: Asked) -> None:
        """Begins to answer what takes a while: a launch, or a halt. A manager that is put aside behind this
        call is put aside with what it asked for."""
        if asked.word == "launch":
            manager.launching += 1
            asyncio.ensure_future(self._answer_launch(question, manager, asked))
            return
        manager.asked.tally.started(asked.action, asked.inc, 0)
        self.runner.tree.off(asked.moniker)
        it = manager.instances.get(asked.inc)
        if it is not None and it.ends is not None:
            it.stopping = True
        asyncio.ensure_future(self._answer_halt(question, manager, asked))

    async def _answer_launch(self, question: Question, manager: Manager, asked: Asked) -> None:
        try:
            answer = await self.launch(manager, asked)
        except (Gone, OSError):
            question.end()
        else:
            question.answer(answer, functools.partial(self.was_taken, manager, asked, answer, False))
        finally:
            manager.launching -= 1

    async def _answer_halt(self, question: Question, manager: Manager, asked: Asked) -> None:
        try:
            question.answer(await self.halt(manager, asked.inc), lambda _: None)
        except (Gone, OSError):
            question.end()

    def cant_begin(self, manager: Manager, asked: Asked, fault: OSError) -> None:
        """No instance can be made for a launch, as where its folders have no room."""
        self.runner.log.event("launch", moniker=asked.moniker, manager=manager.number, inc=asked.inc,
                              answer="failed", why=fault.strerror or str(fault))

    def was_taken(self, manager: Manager, asked: Asked, answer: str, adopted: bool, taken: bool) -> None:
        """The manager counts on an answer to a launch, or doesn't."""
        if answer == "running" and taken:
            self.runner.tree.started(asked.moniker)
        elif answer == "running":
            asyncio.ensure_future(self._not_taken(manager, asked, adopted))

    async def _not_taken(self, manager: Manager, asked: Asked, adopted: bool) -> None:
        dead = manager.pid < 0 or await sandbox.readable(manager.pid, 0.5)
        self.runner.log.event("not-taken", moniker=asked.moniker, manager=manager.number, adopted=adopted,
                              ended=dead)
        # What was adopted outlives this manager too.
        it = manager.instances.get(asked.inc)
        if it is not None and it.counted is manager and not (adopted and dead):
            await self.halt(manager, asked.inc)

    def instance(self, manager: Manager, inc: int, moniker: str) -> Instance:
        """The instance of an incarnation: one of the last manager that isn't asked for yet, or a new one."""
        if inc not in manager.instances:
            it = self.runner.left.pop(moniker, None)
            if it is None:
                self.keys += 1
                it = Instance(self.keys, moniker, self.runner.places.instances / str(self.keys))
            it.inc, it.manager = inc, manager
            manager.instances[inc] = it
        return manager.instances[inc]

    def known(self, manager: Manager, asked: Asked) -> str | None:
        """The answer to a launch where no program has to be started for it."""
        it = self.instance(manager, asked.inc, asked.moniker)
        digest = programs.digest(self.runner.repo, asked.url)
        manager.asked.tally.started(asked.action, asked.inc, digest.size)
        is_wanted = asked.moniker in manager.wanted and asked.moniker in self.runner.tree.on
        if it.lives() and it.counted is not manager:
            if (it.url, it.digest) == (asked.url, digest) and (not manager.replaying or is_wanted):
                it.counted = manager
                manager.adopted += 1
                self.runner.log.note("adopt", moniker=asked.moniker, manager=manager.number, inc=asked.inc,
                                     instance=it.key, before=self.runner.succession.before.get(asked.moniker))
                return "running"
        if manager.replaying and not is_wanted:
            # What was off stays off: an eager child that was stopped, a child that runs once and has run.
            return "declined"
        return None

    async def launch(self, manager: Manager, asked: Asked) -> str:
        """The answer to a launch for which a program has to be started."""
        it = self.instance(manager, asked.inc, asked.moniker)
        begun, why = time.monotonic(), ""
        try:
            answer = await self._launch_anew(manager, it, asked)
        except Unfit as fault:
            answer, why = "declined", str(fault)
        except (OSError, Gone) as fault:
            answer, why = "failed", getattr(fault, "strerror", None) or str(fault) or "the manager is gone"
            it.part()
        told = {"why": why} if why else {"ms": round(1000 * (time.monotonic() - begun), 1)}
        written = self.runner.log.event("launch", moniker=asked.moniker, manager=manager.number,
                                        inc=asked.inc, instance=it.key, answer=answer, **told)
        if answer == "running" and not written:
            await self.halt(manager, asked.inc)
            return "declined"
        return answer

    async def _launch_anew(self, manager: Manager, it: Instance, asked: Asked) -> str:
        """Starts the program of an instance; `Unfit` where it can't be started."""
        url, digest = asked.url, programs.digest(self.runner.repo, asked.url)
        runner = await self.runner.environments.runner(it.moniker, asked.runner)
        if runner not in RUNNERS:
            raise Unfit(f"the runner {runner} isn't known here")
        if it.due > time.monotonic():
            manager.put_off[asked.action] = it.due
            raise Unfit(f"it ended by itself {it.crashes} times, and is started again by a connect behind "
                        f"{it.due - time.monotonic():.1f} s")
        await self._wait_for_dying(it)
        if it.ends:
            # The manager counts it as off: its last start wasn't taken, or somebody told of an exit.
            self.runner.log.note("dropped", moniker=it.moniker, manager=manager.number, instance=it.key)
            it.stopping, ends = True, it.ends
            assert it.process is not None
            await it.process.kill()
            await ends
        program = programs.read(self.runner.repo, url)
        kinds = {use.kind for use in program.uses}
        places = await self.runner.storage.places(it.moniker) if "storage" in kinds else {}
        it.url, it.digest, it.notify = url, digest, program.notify
        it.stopping, it.counted = False, manager
        it.starts += 1
        it.since = time.monotonic()
        if it.starts > 1:
            # The sockets of the last start, at which nobody listens. No link is followed.
            if not removed_sockets(it.out):
                await self.runner.starts.run("find", str(it.out), "-xdev", "-type", "s", "-delete")
        it.process = await self._sandbox(manager, it, program, places)
        it.ends = asyncio.ensure_future(self.runner.watch(it))
        it.tasks.add(Output(it, it.process.output, Said(self.runner.log, it.moniker)))
        for use in program.uses:
            if use.kind == "directory":
                it.task(self.runner.doors.open_directory(it, use.path))
        return "running"

    async def _wait_for_dying(self, it: Instance) -> None:
        """Waits for the end of another instance of the same moniker that is being destroyed."""
        for manager in self.runner.managers():
            for other in list(manager.instances.values()):
                if other is not it and other.moniker == it.moniker and other.ends is not None:
                    await asyncio.wait([other.ends], timeout=10)

    async def _sandbox(self, manager: Manager, it: Instance, program: Program,
                       places: dict[str, str]) -> Process:
        sockets: list[tuple[Path, str]] = []
        bound: list[Bound] = []
        try:
            for number, use in enumerate(program.uses):
                if use.kind == "protocol":
                    sockets.append((self.runner.doors.listen(it, number, use.path), use.path))
                elif use.kind == "directory":
                    one = await self.runner.doors.directory(manager, it, use.path)
                    if one is not None:
                        bound.append(one)
                else:
                    bound.append(await self.runner.storage.bound(it, use.path, places))
            plan = Plan(program, it.out, sockets, bound, seccomp=self.filter,
                        cgroup=self.runner.cgroups.place(it.key))
            return await Process.start(self.runner.starts, plan)
        except BaseException:
            it.part()
            raise
        finally:
            for one in bound:
                os.close(one.descriptor)

    async def halt(self, manager: Manager, inc: int) -> str:
        """Stops the program of an instance: `stopped`, or `killed` where it needed force."""
        it = manager.instances.get(inc)
        if it is None or it.ends is None:
            return "stopped"
        begun = time.monotonic()
        it.stopping, ends = True, it.ends
        assert it.process is not None
        in_time = await it.process.stop(it.notify)
        await ends
        self.halted += 1
        asyncio.ensure_future(self.runner.tidy(it))
        answer = "stopped" if in_time else "killed"
        self.runner.log.event("halt", moniker=it.moniker, manager=manager.number, inc=inc, instance=it.key,
                              answer=answer, ms=round(1000 * (time.monotonic() - begun), 1))
        return answer
