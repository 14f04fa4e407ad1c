"""Questions of a manager, as they come over a socket: a connection each, of three lines."""

from __future__ import annotations

import asyncio
import functools
import socket
from typing import TYPE_CHECKING, Callable, NamedTuple

from cm_tools.host.watching import watch

if TYPE_CHECKING:
    from cm_tools.host.gate import Gate
    from cm_tools.host.manager import Manager

# How long the manager has to say that it took an answer, in seconds.
TO_TAKE = 30.0
LONGEST_LINE = 1 << 16


class Asked(NamedTuple):
    """What a manager asks: to launch or to halt the program of an instance."""

    word: str
    action: int
    inc: int
    runner: str
    url: str
    moniker: str

    @staticmethod
    def of(line: str) -> Asked:
        """A question as its line has it; a ValueError where that has another form."""
        word, action, inc, runner, url, moniker = line.split()
        if word not in ("launch", "halt"):
            raise ValueError(f"{word} is no question")
        return Asked(word, int(action), int(inc), runner, url, moniker)


class Question:
    """A question of a manager, on a connection of its own: its line, the answer, and that it was taken.

    What the runner knows already is answered at once; all else in a task.
    """

    def __init__(self, gate: Gate, manager: Manager, link: socket.socket) -> None:
        self.gate, self.manager, self.link = gate, manager, link
        self.loop, self.watch = asyncio.get_running_loop(), watch(link)
        self.read, self.then = b"", self._asked
        self.late: asyncio.TimerHandle | None = None
        self.watch.on_read(self._read)

    def _read(self) -> None:
        """Reads a line. It is empty where the manager hung up before."""
        try:
            piece = self.link.recv(LONGEST_LINE)
        except BlockingIOError:
            return
        except OSError:
            piece = b""
        self.read += piece
        if b"\n" in piece or not piece or len(self.read) > LONGEST_LINE:
            line, _, self.read = self.read.partition(b"\n")
            self.watch.on_read(None)
            self.then(line.decode(errors="replace") if piece else "")

    def _asked(self, line: str) -> None:
        """Answers the question, unless the manager is over: what it asked for is the next one's then."""
        if not line or self.manager.over:
            self.end()
            return
        try:
            asked = Asked.of(line)
        except ValueError as fault:
            self.gate.runner.log.event("fault", of="gate", why=repr(fault))
            self.end()
            return
        self.manager.monikers[asked.inc] = asked.moniker
        try:
            known = self.gate.known(self.manager, asked) if asked.word == "launch" else None
        except OSError as fault:
            self.gate.cant_begin(self.manager, asked, fault)
            self.end()
            return
        if known is not None:
            self.answer(known, functools.partial(self.gate.was_taken, self.manager, asked, known, True))
        else:
            self.gate.begin(self, self.manager, asked)

    def answer(self, answer: str, then: Callable[[bool], None]) -> None:
        """Answers, and tells `then` whether the manager says that it counts on the answer: else it told its
        caller of a failure, and what was launched must not run."""
        self.then = functools.partial(self._taken, then)
        self.late = self.loop.call_later(TO_TAKE, self.then, "")
        try:
            self.link.send(answer.encode() + b"\n")
            self.watch.on_read(self._read)
        except OSError:
            self.then("")

    def _taken(self, then: Callable[[bool], None], line: str) -> None:
        self.end()
        then(line == "taken")

    def end(self) -> None:
        """Hangs up."""
        if self.late is not None:
            self.late.cancel()
        self.watch.end()
        self.link.close()
