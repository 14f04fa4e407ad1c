"""Sessions of the component manager: a line out, a reply back."""

from __future__ import annotations

import asyncio
import functools
import re
import socket
from collections import deque
from typing import Any, Callable, Sequence

from cm_tools.host.watching import Watch, unsent, watch

# A session of the manager ends behind 1,048,576 lines. A new one is begun before that.
LINES = 1_000_000
# How many sessions a manager serves at once, and how many of them go on in a shutdown: those for routes,
# exits, realms, consoles and openings.
WORKERS, KEPT = 16, 13
WITH_ROWS = ("survey ", "doctor ", "children ", "events ")
NUMBERS = re.compile(r"\b(action|incarnation) (\d+)")
# How many commands are sent together.
AT_ONCE = 64
# What comes is taken out of it before anything else is read, so one is enough.
BUFFER = memoryview(bytearray(1 << 16))
# What is done with the lines of a reply; None is where the session ended before.
Then = Callable[["list[str] | None"], None]


class Gone(Exception):
    """The manager hung up, or isn't there."""


def count_of(line: str) -> int:
    """How many rows follow the first line of a reply: its last number, but `events` has a further one."""
    words = line.split(" ")
    return int(words[2] if words[0] == "events" else words[-1])


class Session:
    """One session. Its questions are answered one after another, in the order in which they were asked.

    Who asks and is cancelled leaves it in order: the reply is taken off when it comes.
    """

    def __init__(self, path: str, tally: Tally) -> None:
        self.path, self.tally = path, tally
        self.lines = 0
        self.is_over = False
        self.link: socket.socket | None = None
        self.watch: Watch | None = None
        self.pending: deque[tuple[str, Then]] = deque()
        # What the manager hasn't taken yet, and the begin of a line of it.
        self.unsent = self.behind = b""
        # The lines of the reply that is coming, and how many are missing.
        self.reply: list[str] = []
        self.missing = 0

    @property
    def under_way(self) -> int:
        """How many questions are asked and not answered."""
        return len(self.pending)

    def connect(self) -> None:
        """Begins the session; an OSError where nobody listens."""
        link = socket.socket(socket.AF_UNIX, socket.SOCK_STREAM)
        try:
            link.setblocking(False)
            link.connect(self.path)
        except OSError:
            link.close()
            raise
        self.link, self.watch, self.lines = link, watch(link), 0
        self.unsent = self.behind = b""
        self.reply, self.missing = [], 0
        self.watch.on_read(self.look)

    def _lose(self) -> None:
        """The session has ended; who waits for an answer is told."""
        if self.link is not None and self.watch is not None:
            self.watch.end()
            self.link.close()
        self.link = self.watch = None
        while self.pending:
            self.pending.popleft()[1](None)

    def look(self) -> None:
        """Takes what has come. Who has just asked may find the answer, and needn't wait for it."""
        if self.link is None:
            return
        try:
            count = self.link.recv_into(BUFFER)
        except BlockingIOError:
            return
        except OSError:
            count = 0
        if not count:
            self._lose()
            return
        *lines, self.behind = (self.behind + bytes(BUFFER[:count])).split(b"\n")
        for line in lines:
            self._take(line.decode("utf-8", "replace"))

    def _write(self) -> None:
        """Sends what wasn't taken, and more."""
        assert self.link is not None and self.watch is not None
        try:
            self.unsent = unsent(self.link, self.unsent)
            if self.unsent or self.watch.writes:
                self.watch.on_write(self._write if self.unsent else None)
        except OSError:
            self._lose()

    def _take(self, line: str) -> None:
        """Takes a line of a reply, whose first one says how many follow where there are more."""
        self.reply.append(line)
        if self.missing:
            self.missing -= 1
        elif line.startswith(WITH_ROWS):
            self.missing = count_of(line)
        if self.missing or not self.pending:
            return
        asked, then = self.pending.popleft()
        reply, self.reply = self.reply, []
        self.tally.count(asked, reply)
        then(reply)

    async def ask(self, line: str) -> list[str]:
        """The lines of the reply."""
        await self.renew()
        return await self.send(line)

    def is_fresh(self) -> bool:
        """Whether it takes a further question: it is there, and has lines left."""
        return self.link is not None and self.lines < LINES

    async def renew(self) -> None:
        """Begins it anew where it has ended, as for want of memory, or where its lines are used up."""
        if self.is_over:
            raise Gone
        if self.is_fresh() or self.pending:
            return
        try:
            self._lose()
            self.connect()
        except OSError as fault:
            raise Gone from fault

    def send(self, line: str) -> asyncio.Future[list[str]]:
        """Sends a question. Its reply comes; `Gone` where the session has ended."""
        answer: asyncio.Future[list[str]] = asyncio.get_running_loop().create_future()
        self.send_then(line, functools.partial(_settle, answer))
        return answer

    def send_then(self, line: str, then: Then) -> None:
        """Sends a question, with what is done with its reply; `Gone` where the session has ended."""
        if self.link is None:
            raise Gone
        self.lines += 1
        self.pending.append((line, then))
        is_held = self.unsent != b""
        self.unsent += line.encode("utf-8", "surrogateescape") + b"\n"
        if not is_held:
            self._write()

    async def ask_all(self, lines: Sequence[str]) -> list[str]:
        """The first lines of the replies of many commands, sent together."""
        replies: list[str] = []
        for start in range(0, len(lines), AT_ONCE):
            sent = [self.send(line) for line in lines[start:start + AT_ONCE]]
            replies += [(await answer)[0] for answer in sent]
        return replies

    def close(self) -> None:
        """Ends the session for good."""
        self.is_over = True
        self._lose()


def _settle(answer: asyncio.Future[list[str]], reply: list[str] | None) -> None:
    """Gives a reply to who waits for it, if anybody still does."""
    if answer.done():
        return
    if reply is not None:
        answer.set_result(reply)
        return
    answer.set_exception(Gone())
    # Of many that were sent together the first one is enough to know.
    answer.exception()


class Pool:
    """Some sessions, any of which answers. Each has one question at a time: a slow one holds up no other."""

    def __init__(self, path: str, size: int, tally: Tally) -> None:
        self.sessions = [Session(path, tally) for _ in range(size)]
        self.free = list(self.sessions)
        self.waiting: deque[asyncio.Future[Session]] = deque()

    @property
    def under_way(self) -> int:
        """How many questions are asked, or wait for a session."""
        return sum(session.under_way for session in self.sessions) + len(self.waiting)

    async def ask(self, line: str) -> list[str]:
        """The lines of the reply, as of a session."""
        session = self.free.pop() if self.free else await self._turn()
        answer: asyncio.Future[list[str]] = asyncio.get_running_loop().create_future()
        try:
            if not session.is_fresh():
                await session.renew()
            session.send_then(line, functools.partial(self._answered, session,
                                                      functools.partial(_settle, answer)))
        except BaseException:
            self._let_go(session)
            raise
        return await answer

    def ask_then(self, line: str, then: Then) -> Session | None:
        """Asks at once, with what is done with the reply. The session; None where none is free for it."""
        if not self.free or not self.free[-1].is_fresh():
            return None
        session = self.free.pop()
        try:
            session.send_then(line, functools.partial(self._answered, session, then))
            return session
        except Gone:
            self._let_go(session)
            return None

    def _answered(self, session: Session, then: Then, reply: list[str] | None) -> None:
        self._let_go(session)
        then(reply)

    async def _turn(self) -> Session:
        """Waits for a session."""
        turn: asyncio.Future[Session] = asyncio.get_running_loop().create_future()
        self.waiting.append(turn)
        try:
            return await turn
        except asyncio.CancelledError:
            if turn.done() and not turn.cancelled():
                self._let_go(turn.result())
            raise

    def _let_go(self, session: Session) -> None:
        while self.waiting:
            turn = self.waiting.popleft()
            if not turn.done():
                turn.set_result(session)
                return
        self.free.append(session)


@functools.lru_cache(maxsize=1024)
def numbers_of(reply: str) -> list[tuple[str, int]]:
    """The numbers of actions and incarnations in a reply. Those to openings come again and again."""
    return [(word, int(number)) for word, number in NUMBERS.findall(reply)]


class Tally:
    """At most how many entries, and bytes of the journal, a history has, as far as it shows outside.

    A command is a find or two and an entry of its own; an action a begin, an end, a reap and who awaits it;
    an instance is made, shut down and purged once. The highest numbers of actions and instances are in
    replies and in what is asked at the gate. What an end of a resolve keeps is the manifest.
    """

    OF_COMMAND, OF_ACTION, OF_INSTANCE, OF_ENTRY = 4, 6, 5, 120

    def __init__(self) -> None:
        self.commands = self.actions = self.instances = self.texts = 0

    @property
    def entries(self) -> int:
        """How many entries at most."""
        return (self.OF_COMMAND * self.commands + self.OF_ACTION * self.actions
                + self.OF_INSTANCE * self.instances)

    @property
    def bytes(self) -> int:
        """How many bytes at most."""
        return self.OF_ENTRY * self.entries + self.texts

    def count(self, line: str, reply: Sequence[str]) -> None:
        """Counts a command with its reply, which the journal has with the hops of a route besides."""
        self.commands += 1
        self.texts += 4 * len(line) + 4 * len(reply[0])
        if len(reply) > 1:
            self.texts += 2 * sum(len(row) for row in reply)
        for word, number in numbers_of(reply[0]):
            self.number(word, number)

    def number(self, word: str, number: int) -> None:
        """Keeps the highest number of an action, or of an incarnation."""
        if word == "action":
            self.actions = max(self.actions, number)
        else:
            self.instances = max(self.instances, number + 1)

    def started(self, action: int, inc: int, manifest_bytes: int) -> None:
        """Counts what was asked at the gate, with the resolve that may have come before it."""
        self.number("action", action)
        self.number("incarnation", inc)
        self.texts += 3 * manifest_bytes


class Asked:
    """The sessions of a runner with one manager, each for one sort of question, so that none waits in a
    circle.

    An opening, an exit and a command of a realm may wait for a launch or a halt. A launch waits for
    routes, which wait for manifests alone. So routes have a session that nothing else uses.
    """

    def __init__(self, path: str) -> None:
        self.path, self.tally = path, Tally()
        self.routes = Session(path, self.tally)
        self.exits = Session(path, self.tally)
        self.pulse = Session(path, self.tally)
        self.realms = Pool(path, 3, self.tally)
        self.consoles = Pool(path, 4, self.tally)
        self.opens = Pool(path, 4, self.tally)
        self.more: list[Session] = []

    def connect(self) -> None:
        """Begins all sessions; an OSError where nobody listens yet."""
        for session in (self.routes, self.pulse, *self.changing()):
            if session.link is None:
                session.connect()

    def changing(self) -> list[Session]:
        """The sessions whose commands may wait for launches and halts."""
        pools = self.realms, self.consoles, self.opens
        return [self.exits, *(each for pool in pools for each in pool.sessions)]

    def for_shutdown(self) -> list[Session]:
        """Sessions on which all is asked to shut down at once. Those for openings are left: a program may use
        what it uses until it has ended."""
        self.pulse.close()
        self.more = [Session(self.path, self.tally) for _ in range(WORKERS - KEPT)]
        for session in self.more:
            session.connect()
        return [self.exits, *self.realms.sessions, *self.consoles.sessions, *self.more]

    def is_idle(self) -> bool:
        """Whether no question but a launch's own is under way."""
        asked: tuple[Any, ...] = (self.exits, self.realms, self.consoles, self.opens)
        return not any(each.under_way for each in asked)

    def close(self) -> None:
        """Ends all sessions."""
        for session in (self.routes, self.pulse, *self.changing(), *self.more):
            session.close()
