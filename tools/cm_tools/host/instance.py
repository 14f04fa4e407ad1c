"""An instance whose program was started at least once, or into which a directory leads."""

from __future__ import annotations

import asyncio
import os
import time
from pathlib import Path
from typing import TYPE_CHECKING, Any, Coroutine, Protocol

from cm_tools.host.beneath import Listens
from cm_tools.host.programs import NOTHING
from cm_tools.host.watching import PIECE, read_now, watch

if TYPE_CHECKING:
    from cm_tools.host.events import Said
    from cm_tools.host.manager import Manager
    from cm_tools.host.sandbox import Process

# A program that ran so long, in seconds, counts as one that had not crashed before.
SOUND = 10.0
FIRST_PAUSE, LONGEST_PAUSE = 0.2, 10.0


class Ends(Protocol):
    """Something that can be ended."""

    def cancel(self) -> object:
        """Ends it."""


class Output:
    """What a program prints, until all have closed it, or the program's end."""

    def __init__(self, it: Instance, descriptor: int, said: Said) -> None:
        self.it, self.descriptor, self.said = it, descriptor, said
        self.watch = watch(descriptor)
        self.watch.on_read(self._read)

    def _read(self) -> None:
        piece = os.read(self.descriptor, PIECE)
        if piece:
            self.said.take(piece)
        else:
            self._end()

    def cancel(self) -> None:
        """The program has ended. What stands in the pipe is its last word."""
        self.said.take(read_now(self.descriptor))
        self._end()

    def _end(self) -> None:
        self.it.tasks.discard(self)
        self.watch.end()
        os.close(self.descriptor)
        self.said.end()


class Instance:
    """An instance by a number of the runner's own; its folder outlives its program.

    `manager` is the one that knows it by the incarnation `inc`, and `counted` the one that counts on its
    program. It is `gone` where it was destroyed: another one may have its moniker by then.
    """

    def __init__(self, key: int, moniker: str, folder: Path) -> None:
        self.key, self.moniker, self.folder = key, moniker, folder
        self.inc: int | None = None
        self.manager: Manager | None = None
        self.counted: Manager | None = None
        self.url, self.digest = "", NOTHING
        self.gone = self.stopping = self.notify = False
        self.out = folder / "out"
        # Where a program listens for what it provides below /svc.
        for place in folder, self.out, self.out / "svc":
            place.mkdir(exist_ok=True)
        self.process: Process | None = None
        self.starts = 0
        self.since = 0.0
        # What ends with the program.
        self.tasks: set[Ends] = set()
        self.ends: asyncio.Future[None] | None = None
        self.crashes, self.due = 0, 0.0
        # The folders of its storage, by name.
        self.storage: set[str] = set()
        # Where read-only directories are laid for it.
        self.layers: list[str] = []
        # Where it was found to listen, by paths.
        self.listens: dict[str, Listens] = {}
        # What its uses hold open: path and provider.
        self.open: dict[int, tuple[str, str]] = {}

    def lives(self) -> bool:
        """Whether its program runs, and nobody has begun to stop it."""
        return bool(self.process and self.ends and not self.stopping)

    def task(self, work: Coroutine[Any, Any, Any]) -> asyncio.Future[Any]:
        """Begins something that ends with the program."""
        task = asyncio.ensure_future(work)
        self.tasks.add(task)
        task.add_done_callback(self.tasks.discard)
        return task

    def part(self) -> None:
        """Ends all that goes on for it: its connections, and the sockets of its uses."""
        for task in list(self.tasks):
            task.cancel()
        while self.listens:
            self.listens.popitem()[1].close()

    def note_crash(self) -> float:
        """Its program ended by itself. How long the next start has to wait, in seconds: a first one not at
        all, one that comes again and again up to ten."""
        now = time.monotonic()
        self.crashes = 1 if now - self.since > SOUND else self.crashes + 1
        pause = min(LONGEST_PAUSE, FIRST_PAUSE * 2 ** (self.crashes - 2)) if self.crashes > 1 else 0.0
        self.due = now + pause
        return pause
