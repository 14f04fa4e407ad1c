"""Processes that a runner has begun by its starter, which holds it up in nothing."""

from __future__ import annotations

import asyncio
import contextlib
import errno
import json
import os
import signal
import socket
import subprocess
import sys
from pathlib import Path
from typing import Sequence

from cm_tools.host.starter import MOST
from cm_tools.host.watching import Watch, read_all, watch

PROGRAM = str(Path(__file__).resolve().parent / "starter.py")
LONGEST = 4096
# How long an order waits for room, in seconds.
A_MOMENT = 0.01
# What a process ends with whose end nobody saw.
UNSEEN = -signal.SIGKILL
# What would have a script launch something, or write a journal.
NOT_FOR_THESE = ("COMPONENT_RUNNER", "COMPONENT_JOURNAL")
Streams = tuple["int | None", "int | None", "int | None"]


class Begun:
    """A process that was begun. `descriptor` is a descriptor of it, which is closed by who uses it, and
    `status` its status, as soon as it has ended."""

    def __init__(self, pid: int, descriptor: int) -> None:
        self.pid, self.descriptor = pid, descriptor
        self.status: asyncio.Future[int] = asyncio.get_running_loop().create_future()

    def end(self, status: int) -> None:
        """It has ended."""
        if not self.status.done():
            self.status.set_result(status)

    def kill(self) -> None:
        """Ends it by force."""
        with contextlib.suppress(ProcessLookupError):
            signal.pidfd_send_signal(self.descriptor, signal.SIGKILL)


class Starts:
    """Orders processes of the starter. Another starter is begun where one has ended; what it had begun counts
    as ended then, as sandboxes end with it."""

    def __init__(self) -> None:
        self.numbers = 0
        self.link: socket.socket | None = None
        self.watch: Watch | None = None
        self.starter: subprocess.Popen[bytes] | None = None
        self.ordered: dict[int, asyncio.Future[Begun]] = {}
        self.running: dict[int, Begun] = {}

    async def begin(self, words: Sequence[str | int], passed: Sequence[int] = (),
                    streams: Streams = (None, None, None)) -> Begun:
        """Begins a process; an OSError where that can't be done. Numbers in its words and streams are places
        in `passed`, descriptors that it gets and that stay open here."""
        if len(passed) > MOST:
            raise OSError(24, f"more than {MOST} descriptors")
        link, number = self.connect(), self.numbers + 1
        self.numbers = number
        answer: asyncio.Future[Begun] = asyncio.get_running_loop().create_future()
        file = os.memfd_create("order")
        try:
            os.write(file, json.dumps({"number": number, "words": words, "streams": streams}).encode())
            while not is_sent(link, [file, *passed]):
                await asyncio.sleep(A_MOMENT)
        finally:
            os.close(file)
        self.ordered[number] = answer
        return await answer

    async def run(self, *words: str) -> int:
        """Begins a process and waits for its end. Its status."""
        begun = await self.begin(words)
        os.close(begun.descriptor)
        return await begun.status

    async def said(self, words: Sequence[str], text: bytes, seconds: float) -> tuple[bytes, int]:
        """What a process says that reads a text, and its status. It is killed, and that is a TimeoutError,
        where it takes longer."""
        file, (out, into) = os.memfd_create("text"), os.pipe()
        try:
            os.write(file, text)
            os.lseek(file, 0, os.SEEK_SET)
            begun = await self.begin(words, (file, into), (0, 1, None))
        except BaseException:
            os.close(out)
            raise
        finally:
            os.close(file)
            os.close(into)
        try:
            return await asyncio.wait_for(read_all(out), seconds), await begun.status
        except BaseException:
            begun.kill()
            raise
        finally:
            os.close(begun.descriptor)

    def connect(self) -> socket.socket:
        """Begins a starter where there is none. The socket of it."""
        if self.link is None:
            own, far = socket.socketpair(socket.AF_UNIX, socket.SOCK_SEQPACKET)
            with far:
                self.starter = subprocess.Popen(
                    [sys.executable, "-I", "-S", PROGRAM, str(far.fileno())], stdin=subprocess.DEVNULL,
                    pass_fds=(far.fileno(),), env=plain_environment())
            own.setblocking(False)
            self.link, self.watch = own, watch(own)
            self.watch.on_read(self._receive)
        return self.link

    def _receive(self) -> None:
        assert self.link is not None
        try:
            data, descriptors, _, _ = socket.recv_fds(self.link, LONGEST, 1)
        except BlockingIOError:
            return
        except OSError:
            data, descriptors = b"", []
        if data:
            self._take(json.loads(data), descriptors)
        else:
            self.close()

    def _take(self, told: dict[str, int], descriptors: list[int]) -> None:
        number = told["number"]
        if "status" in told:
            self.running.pop(number).end(told["status"])
            return
        answer = self.ordered.pop(number)
        if "pid" not in told:
            if not answer.done():
                answer.set_exception(OSError(told["fault"], os.strerror(told["fault"])))
            return
        begun = self.running[number] = Begun(told["pid"], descriptors[0])
        if not answer.done():
            answer.set_result(begun)
            return
        # Who asked for it has gone.
        begun.kill()
        os.close(begun.descriptor)

    def close(self) -> None:
        """The starter has ended, or ends now, and with it the sandboxes that it began."""
        if self.link is not None and self.watch is not None:
            self.watch.end()
            self.link.close()
        if self.starter is not None:
            self.starter.kill()
            self.starter.wait()
        self.link = self.watch = self.starter = None
        ordered, running = self.ordered, self.running
        self.ordered, self.running = {}, {}
        for answer in ordered.values():
            if not answer.done():
                answer.set_exception(ChildProcessError("the starter has ended"))
        for begun in running.values():
            begun.end(UNSEEN)


def is_sent(link: socket.socket, descriptors: Sequence[int]) -> bool:
    """Sends an order's descriptors. False where there is no room for them now."""
    try:
        socket.send_fds(link, [b"."], descriptors)
        return True
    except BlockingIOError:
        return False
    except OSError as fault:
        if fault.errno == errno.ETOOMANYREFS:
            return False
        raise


def plain_environment() -> dict[str, str]:
    """The environment without what would have a script launch something, or write a journal."""
    return {name: value for name, value in os.environ.items() if name not in NOT_FOR_THESE}
