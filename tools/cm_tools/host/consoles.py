"""Lines of consoles, and the commands that change the tree."""

from __future__ import annotations

import asyncio
import json
from typing import TYPE_CHECKING, Any

from cm_tools.host.realm import REPLACED
from cm_tools.host.sessions import Gone, Pool, Session
from cm_tools.host.tree import child_of

if TYPE_CHECKING:
    from cm_tools.host.manager import Manager
    from cm_tools.host.runner import Runner

# What may be asked of the next manager too.
AGAIN = ("show", "survey", "list", "route", "doctor", "resolve", "start")
CHANGES = ("create", "destroy", "stop", "start", "exited", "shutdown")
LONGEST = 1 << 17


class Consoles:
    """Answers consoles over the sessions that are kept for them: a manager serves 4,096 in all."""

    def __init__(self, runner: Runner) -> None:
        self.runner = runner
        self.locks: dict[str, asyncio.Lock] = {}

    async def console(self, reader: asyncio.StreamReader, writer: asyncio.StreamWriter) -> None:
        """One console: a line in, its reply out, until it quits."""
        since: Manager | None = None
        try:
            while (line := await reader.readline()).rstrip(b"\n") != b"quit" and line:
                text = line.decode("utf-8", "surrogateescape").rstrip("\n")
                async with self.runner.changes():
                    since = since or await self.runner.ready()
                    reply = await self.command(text, since)
                writer.write("".join(one + "\n" for one in reply).encode("utf-8", "surrogateescape"))
                await writer.drain()
        except (OSError, ValueError):
            pass
        finally:
            writer.close()

    async def command(self, text: str, since: Manager) -> list[str]:
        """The reply to a command of a console that was there when `since` was the manager."""
        words = text.split(" ")
        while True:
            manager = await self.runner.ready()
            by_number = len(words) > 1 and words[1].startswith("@")
            if by_number and manager is not since:
                return [REPLACED]  # the number means another instance now
            reply = await self._try(manager, text, words)
            if reply != [REPLACED] or by_number or words[0] not in AGAIN or self.runner.over.is_set():
                return reply
            await asyncio.sleep(0.001)

    async def _try(self, manager: Manager, text: str, words: list[str]) -> list[str]:
        """The reply of one manager."""
        try:
            if words[0] in CHANGES and len(words) > (4 if words[0] == "create" else 1):
                target = await self.moniker_of(manager, words[1])
                if target is not None:
                    return await self.tree_command(manager, manager.asked.consoles, target, words)
            reply = await manager.asked.consoles.ask(text)
            manager.learn(reply)
            return reply
        except Gone:
            return [REPLACED]

    async def moniker_of(self, manager: Manager, target: str) -> str | None:
        """The moniker that a command of a console names; none where its number isn't there."""
        if not target.startswith("@"):
            return target.strip("/") or "."
        if not target[1:].isdigit():
            return None
        if int(target[1:]) not in manager.monikers:
            # A line, and not a row for each instance: the history keeps it.
            told = (await manager.asked.consoles.ask(f"show {target}"))[0].split(" ")
            if told[0] == "shown":
                manager.monikers[int(target[1:])] = told[1]
        return manager.monikers.get(int(target[1:]))

    async def tree_command(self, manager: Manager, pool: Pool | Session, target: str,
                           words: list[str]) -> list[str]:
        """A command that changes the tree, below the target's moniker; what came of it is remembered before
        it is answered. Two of one name go one after the other, so that they are remembered in their order,
        and nothing is created below what is just being stopped."""
        names, tree = [target], self.runner.tree
        if words[0] == "create":
            names.append(child_of(target, f"{words[2]}:{words[3]}"))
        locks = [self.locks.setdefault(name, asyncio.Lock()) for name in names]
        try:
            for place, lock in enumerate(locks):
                await self._take(lock, locks[:place])
            try:
                if manager.over or manager is not self.runner.manager:
                    return [REPLACED]
                if words[0] == "create":
                    tree.comes(target, *words[2:5], words[5:])
                reply = await pool.ask(" ".join(words))
                self._note(manager, target, words, reply[0].split(" "))
                return reply
            except Gone:
                return [REPLACED]
            finally:
                tree.coming.pop(names[-1], None)
                for lock in locks:
                    lock.release()
        finally:
            for name, lock in zip(names, locks):
                if not lock.locked() and not getattr(lock, "_waiters", None):
                    self.locks.pop(name, None)

    async def _take(self, lock: asyncio.Lock, held: list[asyncio.Lock]) -> None:
        """Takes a lock; where it is cut short, the ones before are let go."""
        try:
            await lock.acquire()
        except BaseException:
            for one in held:
                one.release()
            raise

    def _note(self, manager: Manager, target: str, words: list[str], reply: list[str]) -> None:
        tree = self.runner.tree
        if reply[0] == "created":
            moniker = tree.created(target, words[2], words[3], words[4], words[5:])
            manager.created(moniker, int(reply[-1]))
            self.runner.log.event("created", moniker=moniker, manager=manager.number, inc=int(reply[-1]))
        elif reply[0] == "destroyed":
            self.runner.forget([target])
            tree.destroyed(target)
            self.runner.log.event("destroyed", moniker=target, manager=manager.number)
        elif reply[0] in ("stopped", "exited") and reply[-1] != "already":
            self.runner.forget(tree.stopped(target))
        elif reply[0] == "shut":
            tree.shut_down(target)
        elif reply[0] == "started":
            tree.started(target)

    # The runner's own words.

    async def control(self, reader: asyncio.StreamReader, writer: asyncio.StreamWriter) -> None:
        """One question to the runner itself, and its answer as JSON."""
        try:
            words = (await reader.readline()).decode("utf-8", "replace").split()
            if words[:1] == ["open"] and len(words) == 3:
                await self.runner.doors.open_from_outside(words[1], words[2], reader, writer)
                return
            answer = await self._answer(words)
            writer.write(json.dumps(answer).encode() + b"\n")
            await writer.drain()
        except (OSError, ValueError):
            pass
        finally:
            writer.close()

    async def _answer(self, words: list[str]) -> Any:
        if words == ["ps"]:
            return self.runner.rows()
        if words == ["replace"]:
            self.runner.plan.set()
            return {"replacing": True}
        if words == ["end"]:
            self.runner.over.set()
            return {"ending": True}
        if words == ["status"]:
            return self._status()
        return {"refused": "words are ps, replace, status, end, and open MONIKER NAME"}

    def _status(self) -> dict[str, Any]:
        """Which manager it is, how much of its history is used, and whether the disk takes what is
        written."""
        manager, runner = self.runner.manager, self.runner
        assert manager is not None
        tally, settings = manager.asked.tally, runner.settings
        return {"manager": manager.number, "entries": tally.entries, "of_entries": settings.roll_entries,
                "bytes": tally.bytes, "of_bytes": settings.roll_bytes, "memory": manager.memory(),
                "tree_on_disk": not runner.tree.is_lost, "log_on_disk": not runner.log.is_full}
