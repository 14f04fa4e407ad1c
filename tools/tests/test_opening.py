"""Tests of how a connection of a use is opened, with a manager and a provider that are played here."""

from __future__ import annotations

import asyncio
import contextlib
import io
import json
import os
import socket
import tempfile
import threading
import time
import unittest
from pathlib import Path
from typing import Callable
from unittest.mock import AsyncMock, Mock

from cm_tools.host import watching
from cm_tools.host.doors import Doors
from cm_tools.host.events import EVENTS, Log
from cm_tools.host.instance import Instance
from cm_tools.host.manager import Manager
from cm_tools.host.sessions import Pool
from tests.support import SECONDS

OPENED, REFUSED = "opened /svc/p at b incarnation 2", "refused 87 no-offer at offer ."
# A manager that takes so long, in seconds, hasn't answered when it is looked for the first time.
LATER = 0.02


class Opens(unittest.TestCase):
    """A use whose connections come one behind the other."""

    def setUp(self) -> None:
        kept = tempfile.TemporaryDirectory()
        self.addCleanup(kept.cleanup)
        self.folder = Path(kept.name)
        self.client = Instance(1, "a", self.folder / "a")
        self.provider = Instance(2, "b", self.folder / "b")
        self.asked: list[bytes] = []

    def listen(self, it: Instance, says: bytes, name: str = "p") -> None:
        """Has something listen where an instance may."""
        door = socket.socket(socket.AF_UNIX)
        self.addCleanup(door.close)
        door.bind(str(it.out / "svc" / name))
        door.listen(8)
        threading.Thread(target=serve, args=(door, says), daemon=True).start()

    def play(self, door: socket.socket, answers: tuple[tuple[str, float], ...],
             between: Callable[[int], object]) -> None:
        """Answers as a manager does, each time behind a while in which something is done."""
        link, _ = door.accept()
        with link:
            for count, (answer, seconds) in enumerate(answers):
                self.asked.append(link.recv(1000))
                time.sleep(seconds)
                between(count)
                link.sendall(answer.encode() + b"\n")
            link.recv(1000)

    async def opened(self, answers: tuple[tuple[str, float], ...],
                     between: Callable[[int], object]) -> list[bytes]:
        """What the connections hear."""
        known = Manager(1, self.folder, self.folder / "journal")
        known.asked.opens = Pool(str(self.folder / "manager"), 1, known.asked.tally)
        known.instances = {1: self.client, 2: self.provider}
        log = Log(self.folder, io.StringIO(), quiet=True)
        runner = Mock(manager=known, there=asyncio.Event(), log=log, ready=AsyncMock(return_value=known))
        runner.there.set()
        for it in self.client, self.provider:
            it.inc, it.manager, it.process = it.key, known, Mock()
        with socket.socket(socket.AF_UNIX) as door:
            door.bind(str(self.folder / "manager"))
            door.listen(1)
            known.asked.opens.sessions[0].connect()
            playing = asyncio.ensure_future(asyncio.to_thread(self.play, door, answers, between))
            place = Doors(runner).listen(self.client, 0, "/svc/p")
            said = await asyncio.to_thread(lambda: [heard(place) for _ in answers])
            while self.client.open:
                await asyncio.sleep(0.001)
            self.client.part()
            known.asked.close()
            await playing
        self.assertEqual((self.client.tasks, self.provider.tasks), (set(), set()))
        self.provider.part()
        os.close(log.file)
        return said

    def hears(self, *answers: tuple[str, float], between: Callable[[int], object] = lambda _: None
              ) -> list[bytes]:
        """What the connections hear. No descriptor is left of it."""
        before = len(os.listdir("/proc/self/fd"))
        said = watching.run(asyncio.wait_for(self.opened(answers, between), SECONDS))
        self.assertEqual(len(os.listdir("/proc/self/fd")), before)
        self.assertEqual(self.asked, [b"open @1 /svc/p\n"] * len(answers))
        return said

    def told(self) -> list[str]:
        """The words of the log."""
        return [json.loads(line)["event"] for line in (self.folder / EVENTS).read_text().splitlines()]

    def test_answers(self) -> None:
        """host: whom the manager lets is connected, and nobody else, whether its answer comes at once or not,
        and whatever the last one was"""
        self.listen(self.provider, b"one")
        for seconds in 0.0, LATER:
            with self.subTest(seconds):
                self.asked.clear()
                (self.folder / "manager").unlink(missing_ok=True)
                answers = [OPENED, OPENED, REFUSED, OPENED, REFUSED, REFUSED]
                wanted = [b"one" if answer == OPENED else b"" for answer in answers]
                self.assertEqual(self.hears(*((answer, seconds) for answer in answers)), wanted)
        self.assertEqual((self.told().count("opened"), self.told().count("refused")), (6, 6))

    def test_another_place(self) -> None:
        """host: a connection comes to where the provider listens when the answer is there, also where that
        was another place when it was asked"""
        self.listen(self.provider, b"one")
        self.listen(self.provider, b"two", "q")
        svc = self.provider.out / "svc"
        said = self.hears((OPENED, 0.0), (OPENED, LATER), (OPENED, 0.0),
                          between=lambda count: count == 1 and os.replace(svc / "q", svc / "p"))
        self.assertEqual(said, [b"one", b"two", b"two"])

    def test_another_provider(self) -> None:
        """host: a connection comes to whom the answer names, also where the last one came to another"""
        self.listen(self.provider, b"one")
        self.listen(self.client, b"own")
        said = self.hears((OPENED, 0.0), ("opened /svc/p at a incarnation 1", 0.0), (OPENED, 0.0))
        self.assertEqual(said, [b"one", b"own", b"one"])


def serve(door: socket.socket, says: bytes) -> None:
    """Says the same to each that comes, for ever."""
    with contextlib.suppress(OSError):
        while True:
            with door.accept()[0] as link:
                link.sendall(says)


def heard(place: Path) -> bytes:
    """What a connection hears until its end."""
    with socket.socket(socket.AF_UNIX) as link:
        link.settimeout(SECONDS)
        link.connect(str(place))
        with contextlib.suppress(ConnectionResetError):
            return link.recv(100)
        return b""


if __name__ == "__main__":
    unittest.main()
