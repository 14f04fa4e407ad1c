"""A connection between two programs: bytes are handed on, both ways, and nothing else."""

from __future__ import annotations

import socket
from typing import Callable

from cm_tools.host.watching import READS, Selector, Watch, unsent

# One buffer for all connections: a piece is handed on before the next one is read.
BUFFER = memoryview(bytearray(1 << 16))
NOW = socket.MSG_DONTWAIT


class End(Watch):
    """One end, and the way from it: what comes at it goes to the other end. It waits for one that is full.

    `behind` is what the other end didn't take yet.
    """

    __slots__ = ("carried", "link", "other", "behind", "is_over")
    other: End

    def __init__(self, carried: Carried, watcher: Selector, link: socket.SocketType, first: bytes) -> None:
        # As for any watch; each connection has two.
        self.selector, self.number, self.since = watcher, link.fileno(), 0
        self.reads = self.writes = self.hangs = self.mask = None
        self.hung = False
        self.carried, self.link, self.behind, self.is_over = carried, link, first, False

    def begin(self) -> None:
        """Has the loop watch for what comes, of which it may not watch for anything yet."""
        if self.mask is not None:
            self.on_read(self.read)
            return
        selector = self.selector
        selector.epoll.register(self.number, READS)
        self.reads, self.mask, self.since = self.read, READS, selector.turn
        selector.watches[self.number] = self

    def wait(self) -> None:
        """Has the loop watch for what comes next: that the other end takes more, or that more comes."""
        if self.behind:
            self.on_read(None)
            self.other.on_write(self.write)
        else:
            self.other.on_write(None)
            self.on_read(self.read)

    def read(self) -> None:
        """Hands on what has come."""
        try:
            count = self.link.recv_into(BUFFER, 0, NOW)
            if not count:
                self.over()
                return
        except BlockingIOError:
            return
        except OSError as fault:
            self.carried.end(fault)
            return
        try:
            sent = self.other.link.send(BUFFER[:count], NOW)
        except BlockingIOError:
            sent = 0
        except OSError as fault:
            self.carried.end(fault)
            return
        if sent < count:
            self.behind = bytes(BUFFER[sent:count])
            self.wait()

    def write(self) -> None:
        """Hands on what the other end didn't take."""
        try:
            self.behind = unsent(self.other.link, self.behind)
        except OSError as fault:
            self.carried.end(fault)
            return
        if not self.behind:
            self.wait()

    def over(self) -> None:
        """It has said all; the other end is told. One that is closed takes nothing more either."""
        if self.hung:
            self.carried.end(None)
            return
        self.is_over = True
        self.on_hang(self.carried.cancel)
        self.other.link.shutdown(socket.SHUT_WR)
        if self.other.is_over:
            self.carried.end(None)


class Carried:
    """Both ways, from when it begins until both ends have said all, one is closed or broke off, or it is
    cancelled. Then both are closed, and `ended` is called at once."""

    __slots__ = ("ends",)

    def __init__(self, watcher: Selector, one: socket.SocketType, other: socket.SocketType,
                 first: bytes = b"") -> None:
        # What was read of the one before goes first.
        near, far = self.ends = End(self, watcher, one, first), End(self, watcher, other, b"")
        near.other, far.other = far, near

    def begin(self) -> None:
        """Hands on from now on."""
        near, far = self.ends
        try:
            if near.behind:
                near.wait()
            else:
                # What a client said while it was decided is there already, and its provider begins with it.
                near.read()
            if self.ends:
                if near.mask is None and not near.behind:
                    near.begin()
                far.begin()
        except OSError as fault:
            self.end(fault)

    def cancel(self) -> None:
        """Lets both ends go."""
        self.end(None)

    def end(self, fault: OSError | None) -> None:
        """Ends it, with the fault where one end broke off."""
        if not self.ends:
            return
        for end in self.ends:
            end.drop()
            end.link.close()
            # Nothing is left for a search of circles.
            del end.other, end.carried
        self.ends = ()
        self.ended(fault)

    def ended(self, fault: OSError | None) -> None:
        """Is called when it has ended, with the fault where one end broke off."""
