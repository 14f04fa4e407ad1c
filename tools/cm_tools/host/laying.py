"""Layers over folders, which are laid and lifted by a process that may mount."""

from __future__ import annotations

import asyncio
import contextlib
import os
import socket
from collections import deque

from cm_tools.host.layers import LONGEST
from cm_tools.host.watching import Watch, watch


class Layers:
    """Asks the process that lays layers, over this descriptor of a socket. It answers one by one."""

    def __init__(self, descriptor: int) -> None:
        self.link = socket.socket(fileno=descriptor)
        self.link.setblocking(False)
        self.watch: Watch | None = None
        self.asked: deque[asyncio.Future[str]] = deque()

    async def lay(self, folder: int, at: str) -> None:
        """Lays the folder of a descriptor at a place; an OSError where the system doesn't."""
        os.makedirs(at, exist_ok=True)
        await self._ask(f"lay {at}", [folder])

    async def lift(self, at: str) -> None:
        """Takes a layer away; who has it in a mount namespace of its own keeps it."""
        await self._ask(f"lift {at}", [])
        os.rmdir(at)

    async def lift_all(self, places: list[str]) -> None:
        """Takes layers away, as far as that can be done."""
        for at in places:
            with contextlib.suppress(OSError):
                await self.lift(at)

    async def works(self, place: str) -> bool:
        """Whether the system lays one for this user."""
        try:
            folder = os.open(os.path.dirname(place), os.O_PATH | os.O_DIRECTORY)
            try:
                await self.lay(folder, place)
            finally:
                os.close(folder)
            await self.lift(place)
            return True
        except OSError:
            return False

    async def _ask(self, words: str, folders: list[int]) -> None:
        if self.watch is None:
            self.watch = watch(self.link)
            self.watch.on_read(self._read)
        socket.send_fds(self.link, [words.encode()], folders)
        answer: asyncio.Future[str] = asyncio.get_running_loop().create_future()
        self.asked.append(answer)
        told = await answer
        if told != "done":
            raise OSError(22, told)

    def _read(self) -> None:
        try:
            told = self.link.recv(LONGEST).decode()
        except BlockingIOError:
            return
        except OSError:
            told = ""
        if not told and self.watch is not None:
            self.watch.on_read(None)
        while self.asked:
            answer = self.asked.popleft()
            if not answer.done():
                answer.set_result(told or "nobody lays layers")
            if told:
                return
