"""A loop that calls what waits for a socket at once, where that needs nothing else of asyncio.

A connection is opened, carried and ended in some five steps of the loop. What asyncio does besides in each,
and to begin and end the watch of a socket, took most of the time of a connect.
"""

from __future__ import annotations

import asyncio
import contextlib
import functools
import os
import select
import selectors
import socket
import time
import traceback
from typing import Any, AsyncIterator, Callable, Coroutine, Mapping, TypeVar, Union

READS, WRITES, HUNG = select.EPOLLIN, select.EPOLLOUT, select.EPOLLHUP
MOST = 256
# How long is waited where nothing is to be done at a time.
FOR_EVER = -1.0
# How long it is looked for what comes next before it is waited, in seconds: so much shorter a connect is.
A_MOMENT = 0.0001
# What is read of a pipe at once: all that it holds.
PIECE = 1 << 16
Result = TypeVar("Result")
Called = Union[Callable[[], None], None]
NOTHING: Called = None


class Watch:
    """What is called when a socket can be read, when it can be written, and when its other end has closed
    both ways; nothing where that isn't wanted.

    It has to be ended before the socket is closed. A descriptor of a process can be read when that has
    ended. It is `hung` where the other end was seen to have closed both ways.
    """

    __slots__ = ("selector", "number", "reads", "writes", "hangs", "mask", "since", "hung")

    def __init__(self, selector: Selector, number: int) -> None:
        self.selector, self.number, self.since = selector, number, 0
        self.reads = self.writes = self.hangs = NOTHING
        # What the system looks for; nothing where it isn't asked to. That the other end has closed both ways
        # it tells always.
        self.mask: int | None = None
        self.hung = False

    def on_read(self, then: Called) -> None:
        """Sets what is called when there is something to read, or the other end is closed."""
        self.reads = then
        self._tell()

    def on_write(self, then: Called) -> None:
        """Sets what is called when something can be written."""
        self.writes = then
        self._tell()

    def on_hang(self, then: Called) -> None:
        """Sets what is called when the other end has closed both ways, in the place of what is called when
        there is something to read."""
        self.reads, self.hangs = None, then
        self._tell()

    def end(self) -> None:
        """Watches no more."""
        self.reads = self.writes = self.hangs = None
        self._tell()

    def drop(self) -> None:
        """Watches no more, as the socket is closed in this moment. The system forgets it by itself."""
        self.reads = self.writes = self.hangs = None
        if self.mask is not None:
            self.mask = None
            del self.selector.watches[self.number]

    def call(self, mask: int) -> None:
        """Calls what waits for what has come."""
        self.hung = mask & HUNG != 0
        if self.reads is not None and mask & ~WRITES:
            self.reads()
        if self.writes is not None and mask & ~READS:
            self.writes()
        if self.hangs is not None and self.hung:
            self.hangs()

    def _tell(self) -> None:
        mask = None
        if self.reads or self.writes or self.hangs:
            mask = (READS if self.reads else 0) | (WRITES if self.writes else 0)
        if mask != self.mask:
            self.selector.watch(self, mask)
            self.mask = mask


class Selector(selectors.BaseSelector):
    """The selector of the loop. What is watched by a `Watch` is called within `select`."""

    def __init__(self) -> None:
        self.epoll = select.epoll()
        self.keys: dict[int, selectors.SelectorKey] = {}
        self.watches: dict[int, Watch] = {}
        # How often it was looked what has come. What is watched since the last time isn't called for that: it
        # may have the number of another one that is closed by now.
        self.turn = 0
        # Whether the loop has got something to do since it began to wait.
        self.is_wanted = False
        # Whether something had come when it was looked the last time.
        self.has_come = False

    def watch(self, one: Watch, mask: int | None) -> None:
        """Has the system watch for other events of a socket; for none at all with None."""
        if mask is None:
            del self.watches[one.number]
            self.epoll.unregister(one.number)
        elif one.mask is not None:
            self.epoll.modify(one.number, mask)
        else:
            self.epoll.register(one.number, mask)
            self.watches[one.number], one.since = one, self.turn

    def select(self, timeout: float | None = None) -> list[tuple[selectors.SelectorKey, int]]:
        """Waits until the loop has something to do. What needs no loop is done meanwhile."""
        until = None if timeout is None else time.monotonic() + timeout
        self.is_wanted = timeout is not None and timeout <= 0
        # epoll itself rounds up to milliseconds: it isn't asked again and again within the last one.
        wait = FOR_EVER if timeout is None else max(0.0, timeout)
        while True:
            found = self._once(wait)
            if found or self.is_wanted:
                return found
            if until is not None and (wait := until - time.monotonic()) <= 0:
                return found

    def _once(self, wait: float) -> list[tuple[selectors.SelectorKey, int]]:
        found: list[tuple[selectors.SelectorKey, int]] = []
        events, watches = self._come(wait), self.watches
        self.turn += 1
        for number, mask in events:
            one = watches.get(number)
            if one is None:
                if number in self.keys:
                    found.append(_key_of(self.keys[number], mask))
            elif one.since != self.turn:
                try:
                    one.call(mask)
                except Exception:
                    # As with asyncio's own: what goes wrong with one socket ends nothing else.
                    traceback.print_exc()
        return found

    def _come(self, wait: float) -> list[tuple[int, int]]:
        """What comes until the time is over. Where something came the last time, it is looked again and again
        for a moment before it is waited: the next answer is mostly near, and who sleeps is woken late."""
        poll = self.epoll.poll
        if self.has_come and not 0 <= wait <= A_MOMENT:
            until = time.monotonic() + A_MOMENT
            while time.monotonic() < until:
                if events := poll(0, MOST):
                    return events
        events = poll(wait, MOST)
        self.has_come = bool(events)
        return events

    # What asyncio asks for.

    def register(self, fileobj: Any, events: int, data: Any = None) -> selectors.SelectorKey:
        key = selectors.SelectorKey(fileobj, _number(fileobj), events, data)
        if key.fd in self.keys:
            raise KeyError(f"{fileobj!r} is registered already")
        self.epoll.register(key.fd, _mask(events))
        self.keys[key.fd] = key
        return key

    def unregister(self, fileobj: Any) -> selectors.SelectorKey:
        key = self.keys.pop(_number(fileobj))
        with contextlib.suppress(OSError):
            self.epoll.unregister(key.fd)
        return key

    def modify(self, fileobj: Any, events: int, data: Any = None) -> selectors.SelectorKey:
        key = self.keys[_number(fileobj)]
        if events != key.events:
            self.epoll.modify(key.fd, _mask(events))
        self.keys[key.fd] = key._replace(events=events, data=data)
        return self.keys[key.fd]

    def get_key(self, fileobj: Any) -> selectors.SelectorKey:
        return self.keys[_number(fileobj)]

    def get_map(self) -> Mapping[Any, selectors.SelectorKey]:
        return self.keys

    def close(self) -> None:
        self.epoll.close()
        self.keys.clear()
        self.watches.clear()


class Loop(asyncio.SelectorEventLoop):
    """asyncio's loop, which tells its selector of what it is asked to do meanwhile."""

    def __init__(self) -> None:
        self.watcher = Selector()
        super().__init__(self.watcher)

    def call_soon(self, *words: Any, **named: Any) -> asyncio.Handle:
        self.watcher.is_wanted = True
        return super().call_soon(*words, **named)

    def call_at(self, *words: Any, **named: Any) -> asyncio.TimerHandle:
        self.watcher.is_wanted = True
        return super().call_at(*words, **named)


def watch(link: socket.socket | int) -> Watch:
    """A watch of a socket, or of a descriptor, in the loop that runs."""
    return Watch(watcher(), _number(link))


def watcher() -> Selector:
    """What watches in the loop that runs."""
    loop = asyncio.get_running_loop()
    assert isinstance(loop, Loop)
    return loop.watcher


def accepted(door: socket.socket) -> socket.SocketType:
    """The next connection of a door. `accept` finds out anew each time of which family a door is, and makes
    a socket that counts its files."""
    return socket.SocketType(socket.AF_UNIX, socket.SOCK_STREAM, 0, door._accept()[0])


class Listener:
    """A socket at a path. What comes to it is given to `take`, which doesn't wait."""

    def __init__(self, place: str, take: Callable[[socket.socket], object], backlog: int = 64) -> None:
        self.take = take
        self.door = socket.socket(socket.AF_UNIX, socket.SOCK_STREAM)
        self.door.bind(place)
        self.door.listen(backlog)
        self.door.setblocking(False)
        self.watch = watch(self.door)
        self.watch.on_read(self._accept)

    def _accept(self) -> None:
        try:
            link, _ = self.door.accept()
        except BlockingIOError:
            return
        link.setblocking(False)
        self.take(link)

    def close(self) -> None:
        """Takes no more."""
        self.watch.end()
        self.door.close()


async def pieces(descriptor: int) -> AsyncIterator[bytes]:
    """What comes from a pipe, until nobody has it open for writing. Then it is closed here, too."""
    comes, loop = watch(descriptor), asyncio.get_running_loop()
    try:
        while True:
            has_come: asyncio.Future[None] = loop.create_future()
            comes.on_read(functools.partial(_settle, comes, has_come))
            await has_come
            piece = os.read(descriptor, PIECE)
            if not piece:
                return
            yield piece
    finally:
        comes.end()
        os.close(descriptor)


def _settle(comes: Watch, has_come: asyncio.Future[None]) -> None:
    comes.on_read(None)
    if not has_come.done():
        has_come.set_result(None)


async def read_all(descriptor: int, until: bytes | None = None) -> bytes:
    """What comes from a pipe until nobody has it open for writing, or until it ends with this but for white
    space. The descriptor is closed."""
    read = bytearray()
    async with contextlib.aclosing(pieces(descriptor)) as come:
        async for piece in come:
            read.extend(piece)
            if until is not None and read.rstrip().endswith(until):
                break
    return bytes(read)


def read_now(descriptor: int) -> bytes:
    """What stands in a pipe, at most as much as a pipe holds."""
    os.set_blocking(descriptor, False)
    try:
        return os.read(descriptor, PIECE)
    except BlockingIOError:
        return b""


def run(work: Coroutine[Any, Any, Result]) -> Result:
    """Runs something in such a loop, and ends what it has left behind."""
    loop = Loop()
    asyncio.set_event_loop(loop)
    try:
        return loop.run_until_complete(work)
    finally:
        left = asyncio.all_tasks(loop)
        for task in left:
            task.cancel()
        loop.run_until_complete(asyncio.gather(*left, return_exceptions=True))
        loop.run_until_complete(loop.shutdown_asyncgens())
        loop.run_until_complete(loop.shutdown_default_executor())
        asyncio.set_event_loop(None)
        loop.close()


def _key_of(key: selectors.SelectorKey, mask: int) -> tuple[selectors.SelectorKey, int]:
    wanted = (selectors.EVENT_READ if mask & ~WRITES else 0) | (selectors.EVENT_WRITE if mask & ~READS else 0)
    return key, wanted & key.events


def _mask(events: int) -> int:
    return (READS if events & selectors.EVENT_READ else 0) | (WRITES if events & selectors.EVENT_WRITE else 0)


def _number(fileobj: Any) -> int:
    return fileobj if isinstance(fileobj, int) else int(fileobj.fileno())


def unsent(link: socket.socket, data: bytes) -> bytes:
    """Sends what the other end takes at once. What it doesn't take yet."""
    try:
        return data[link.send(data, socket.MSG_DONTWAIT):]
    except BlockingIOError:
        return data
