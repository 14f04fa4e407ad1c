"""What the programs use: sockets and directories, each decided by the manager."""

from __future__ import annotations

import asyncio
import contextlib
import functools
import json
import os
import re
import socket
import time
from pathlib import Path
from typing import TYPE_CHECKING, Callable

from cm_tools.host import watching
from cm_tools.host.beneath import Listens, beneath
from cm_tools.host.carried import Carried
from cm_tools.host.instance import Instance
from cm_tools.host.programs import Unfit
from cm_tools.host.realm import REPLACED, Realm
from cm_tools.host.sandbox import Bound
from cm_tools.host.sessions import Gone, Session

if TYPE_CHECKING:
    from cm_tools.host.manager import Manager
    from cm_tools.host.runner import Runner

OPENED = re.compile(r"(?:opened|route) (\S+) at (?:(\S+) incarnation (\d+)|framework|builtin)"
                    r"(?: rights (\S+))?(?: |\Z)")
PUT_OFF = re.compile(r"refused 84 cannot-start action (\d+) declined")
REALM = "/svc/fuchsia.component.Realm"
# Of one use: connections at once, new ones at once, and new ones a second. Each is an entry of the history.
CONNECTIONS, AT_ONCE, A_SECOND = 32, 2000, 20
# How long a connection waits for a start to be in the history, or for the end of a provider's pause; and for
# a provider to listen; in seconds.
PATIENCE, TO_LISTEN = 5.0, 20.0
LONGEST_LINE, PIECE = 8192, 1 << 16
CONNECTS = socket.SOCK_STREAM | socket.SOCK_NONBLOCK
READING = {"connect", "enumerate", "traverse", "read_bytes", "get_attributes"}
WRITING = {"connect", "enumerate", "traverse", "write_bytes", "modify_directory", "update_attributes"}
WRITES = {"write_bytes", "modify_directory", "update_attributes"}


class Door:
    """The socket of a use. It takes connections, as many at once and in a second as a use may have."""

    def __init__(self, doors: Doors, it: Instance, path: str, link: socket.socket) -> None:
        self.doors, self.it, self.path, self.link = doors, it, path, link
        self.loop, self.watch = asyncio.get_running_loop(), watching.Watch(doors.watcher, link.fileno())
        self.room, self.since = float(AT_ONCE), time.monotonic()
        self.taken = 0
        # To whom the last one was connected, and at which path.
        self.last: tuple[Instance, str] | None = None
        self.pause: asyncio.TimerHandle | None = None
        self.is_over = False
        it.tasks.add(self)
        self._watch()

    def cancel(self) -> None:
        """Takes no more, as the program has ended."""
        self.is_over = True
        self._watch()
        if self.pause is not None:
            self.pause.cancel()
        self.link.close()
        self.it.tasks.discard(self)

    def let_go(self) -> None:
        """A connection has ended."""
        self.taken -= 1
        if self.taken == CONNECTIONS - 1 or self.is_over:
            self._watch()

    def _watch(self) -> None:
        """Has the loop watch for connections where more may be taken now."""
        is_wanted = not self.is_over and self.pause is None and self.taken < CONNECTIONS
        self.watch.on_read(self._take if is_wanted else None)

    def _wait(self, seconds: float) -> None:
        self.pause = self.loop.call_later(seconds, self._go_on)
        self._watch()

    def _go_on(self) -> None:
        self.pause = None
        self._watch()

    def _take(self) -> None:
        """Takes a connection. It is read and written without waiting, so it needn't be set so."""
        try:
            client = watching.accepted(self.link)
        except BlockingIOError:
            return
        except OSError:
            self._wait(0.1)  # for want of descriptors
            return
        self.taken += 1
        now = time.monotonic()
        self.room, self.since = min(AT_ONCE, self.room + A_SECOND * (now - self.since)) - 1, now
        if self.room < 1:
            self._wait((1 - self.room) / A_SECOND)
        elif self.taken == CONNECTIONS:
            self._watch()
        Opening(self, client).begin()


class Opening:
    """A connection of a use, from when it is taken until it is open or refused.

    Where the manager answers at once that it is opened, and the provider listens, no more is needed. All
    else goes on in a task. While the manager decides a socket is made, and it is looked where the provider
    of the last one listens: `far` and `place`.
    """

    __slots__ = ("door", "doors", "it", "client", "manager", "far", "place", "waits")

    def __init__(self, door: Door, client: socket.SocketType) -> None:
        self.door, self.doors, self.it, self.client = door, door.doors, door.it, client
        self.manager: Manager | None = None
        self.far: socket.SocketType | None = None
        self.place: Listens | None = None
        self.waits = False

    def begin(self) -> None:
        """Asks the manager."""
        runner, it = self.doors.runner, self.it
        manager = runner.manager
        if manager is not None and runner.there.is_set() and it.manager is manager:
            self.manager, self.waits = manager, True
            session = manager.asked.opens.ask_then(f"open @{it.inc} {self.door.path}", self._answered)
            if session is not None:
                # It may have been lost in this moment.
                if self.waits:
                    self._look(session)
                return
        self._go_on(None)

    def _look(self, session: Session) -> None:
        """Makes ready what is needed, and looks whether the answer is there by then."""
        self._prepare()
        session.look()
        self.place = None
        if self.waits:
            self.it.tasks.add(self)

    def _prepare(self) -> None:
        try:
            self.far = socket.SocketType(socket.AF_UNIX, CONNECTS)
            if self.door.last is not None:
                self.place = place_beneath(*self.door.last)
        except OSError:
            # What is missing is made, or told, when the answer is there.
            pass

    def _let_far_go(self) -> None:
        if self.far is not None:
            self.far.close()
            self.far = None

    def cancel(self) -> None:
        """The program has ended meanwhile."""
        self.waits = False
        self.it.tasks.discard(self)
        self._let_far_go()
        self.client.close()
        self.door.let_go()

    def _answered(self, reply: list[str] | None) -> None:
        if not self.waits:
            return
        self.waits = False
        self.it.tasks.discard(self)
        manager = self.manager
        assert manager is not None
        if reply is None or not self._is_open(manager, reply[0]):
            self._let_far_go()
            self._go_on((reply[0], manager) if reply is not None else None)

    def _is_open(self, manager: Manager, reply: str) -> bool:
        """Opens it where that can be done at once."""
        found, far = provider_of(manager, reply), self.far
        if found is None or far is None or not found[0].process:
            return False
        try:
            place = self.place if found == self.door.last else None
            connect(far, place or place_beneath(*found), *found)
        except OSError:
            return False
        self.far, self.door.last = None, found
        self.doors.carry(self.it, self.door.path, (self.client, far), found[0], manager, self._ended)
        return True

    def _ended(self, fault: OSError | None) -> None:
        self.door.let_go()
        if fault is not None:
            self.doors.broken(self.it, self.door.path, fault)

    def _go_on(self, first: tuple[str, Manager] | None) -> None:
        client = socket.socket(fileno=self.client.detach())
        task = self.it.task(self.doors.connect(self.it, client, self.door.path, first))
        task.add_done_callback(lambda _: self.door.let_go())


class Open(Carried):
    """A connection that is open. It ends with its client's program, and with its provider's."""

    __slots__ = ("doors", "it", "provider", "number", "then")

    def __init__(self, doors: Doors, it: Instance, provider: Instance, number: int,
                 then: Callable[[OSError | None], None], ends: tuple[socket.SocketType, socket.SocketType],
                 first: bytes) -> None:
        super().__init__(doors.watcher, *ends, first)
        self.doors, self.it, self.provider, self.number, self.then = doors, it, provider, number, then
        it.tasks.add(self)
        provider.tasks.add(self)

    def ended(self, fault: OSError | None) -> None:
        """Tells the log, and who waits for it."""
        it = self.it
        it.tasks.discard(self)
        self.provider.tasks.discard(self)
        it.open.pop(self.number, None)
        self.doors.runner.log.closed(it.moniker, self.number)
        self.then(fault)


class Doors:
    """Listens for what the programs connect to, asks, connects, and carries bytes."""

    def __init__(self, runner: Runner) -> None:
        self.runner, self.watcher = runner, watching.watcher()
        self.numbers = 0

    # Sockets.

    def listen(self, it: Instance, number: int, path: str) -> Path:
        """A socket for a use. Each connection to it is asked for at the manager."""
        place = it.folder / f"use{number}"
        place.unlink(missing_ok=True)
        link = socket.socket(socket.AF_UNIX, socket.SOCK_STREAM)
        link.bind(str(place))
        link.listen(16)
        link.setblocking(False)
        Door(self, it, path, link)
        return place

    async def connect(self, it: Instance, client: socket.socket, path: str,
                      first: tuple[str, Manager] | None) -> None:
        """Decides one connection, by the answer that is there already or by a further one, and carries it."""
        log = self.runner.log
        try:
            with client:
                reply, manager = await self.opened(it, path, first)
                if not reply.startswith("opened "):
                    log.event("refused", moniker=it.moniker, path=path, manager=manager.number, why=reply)
                elif reply == f"opened {REALM} at framework":
                    log.event("opened", moniker=it.moniker, path=path, manager=manager.number,
                              provider="framework")
                    await self._realm(it, client)
                else:
                    await self._carry(it, path, client, reply, manager)
        except OSError as fault:
            self.broken(it, path, fault)

    def broken(self, it: Instance, path: str, fault: BaseException | None) -> None:
        """Tells of a connection that couldn't be made, or broke off."""
        self.runner.log.event("broken", moniker=it.moniker, path=path,
                              why=getattr(fault, "strerror", None) or str(fault))

    async def opened(self, it: Instance, path: str,
                     first: tuple[str, Manager] | None = None) -> tuple[str, Manager]:
        """The manager's answer, which may be there already, and which manager that was. Right behind a launch
        the start may not have come into its history. While there is none, it waits."""
        reply, pause, waited = "refused: nobody answers", 0.001, 0.0
        manager = first[1] if first is not None else await self.runner.ready()
        while waited < PATIENCE:
            if first is not None:
                (reply, manager), first = first, None
            else:
                manager = await self.runner.ready()
                if it.manager is not manager:
                    return "refused: the program is none of the present manager's", manager
                try:
                    reply = (await manager.asked.opens.ask(f"open @{it.inc} {path}"))[0]
                except Gone:
                    await asyncio.sleep(0.001)
                    waited += 0.001
                    continue
            wait = self._pause_behind(manager, reply, pause)
            if wait is None or waited + wait > PATIENCE:
                break
            await asyncio.sleep(wait)
            waited += wait
            pause = min(2 * pause, 0.2)
        return reply, manager

    def _pause_behind(self, manager: Manager, reply: str, pause: float) -> float | None:
        """How long to wait before it is asked again; None where the answer stands."""
        if reply.startswith("refused 85"):
            return pause
        found = PUT_OFF.match(reply)
        due = manager.put_off.pop(int(found[1]), None) if found else None
        return max(0.01, due - time.monotonic() + 0.005) if due is not None else None

    async def _carry(self, it: Instance, path: str, client: socket.socket, reply: str, manager: Manager,
                     first: bytes = b"") -> None:
        """Connects to the provider that the manager names, and hands bytes on until both have ended."""
        provider = provider_of(manager, reply)
        if provider is None:
            raise ConnectionRefusedError(f"what is opened is nothing that runs here: {reply}")
        far = await self._reach(*provider)
        done: asyncio.Future[None] = asyncio.get_running_loop().create_future()

        def ended(fault: OSError | None) -> None:
            # The program may have ended meanwhile, and with it who waits here.
            if not done.done():
                done.set_exception(fault) if fault is not None else done.set_result(None)

        self.carry(it, path, (client, far), provider[0], manager, ended, first)
        await done

    def carry(self, it: Instance, path: str, ends: tuple[socket.SocketType, socket.SocketType],
              provider: Instance, manager: Manager, then: Callable[[OSError | None], None],
              first: bytes = b"") -> None:
        """Hands bytes on, both ways, once it stands in the log that it is opened; else both are closed. No
        descriptor is handed on: none is received. `then` is called when both have ended."""
        self.numbers += 1
        log, number = self.runner.log, self.numbers
        if not log.opened(it.moniker, path, manager.number, provider.moniker, number):
            for end in ends:
                end.close()
            then(None)
            return
        it.open[number] = path, provider.moniker
        Open(self, it, provider, number, then, ends, first).begin()
        log.show_opened(it.moniker, path, provider.moniker)

    async def open_from_outside(self, moniker: str, name: str, reader: asyncio.StreamReader,
                                writer: asyncio.StreamWriter) -> None:
        """Opens what an instance exposes, for a client outside of all sandboxes: a line of JSON, and behind
        `opened` the bytes."""
        manager = await self.runner.ready()
        try:
            reply = (await manager.asked.opens.ask(f"open-exposed {moniker} {name}"))[0]
        except Gone:
            reply = REPLACED
        found = provider_of(manager, reply)
        if found is None:
            self.runner.log.event("refused", moniker="(outside)", path=f"{moniker} {name}", why=reply)
            writer.write(json.dumps({"refused": reply}).encode() + b"\n")
            await writer.drain()
            return
        try:
            provider, far = found[0], await self._reach(*found)
        except OSError as fault:
            writer.write(json.dumps({"refused": fault.strerror or str(fault)}).encode() + b"\n")
            return
        far_reader, far_writer = await asyncio.open_unix_connection(sock=far)
        self.runner.log.event("opened", moniker="(outside)", path=f"{moniker} {name}",
                              provider=provider.moniker)
        writer.write(json.dumps({"opened": reply}).encode() + b"\n")
        try:
            await provider.task(_between(reader, writer, far_reader, far_writer))
        finally:
            far_writer.close()

    async def _reach(self, provider: Instance, path: str) -> socket.socket:
        """A connection to what a provider has at a path. Right behind its start it may not listen yet."""
        until, wait = time.monotonic() + TO_LISTEN, 0.001
        while provider.process and time.monotonic() < until:
            try:
                return connected_beneath(provider, path)
            except (FileNotFoundError, ConnectionRefusedError, BlockingIOError):
                await asyncio.sleep(wait)
                wait = min(2 * wait, 0.05)
        raise ConnectionRefusedError(f"nobody listens at {path} of {provider.moniker}")

    async def _realm(self, it: Instance, client: socket.socket) -> None:
        """Lines of a program to its own realm, until it opens something."""
        loop, realm, rest = asyncio.get_running_loop(), Realm(self.runner, it), b""
        client.setblocking(False)
        while len(rest) < LONGEST_LINE and (piece := await loop.sock_recv(client, 4096)):
            rest += piece
            while b"\n" in rest:
                line, _, rest = rest.partition(b"\n")
                lines, opened = await realm.answer(line.decode("ascii", "replace"))
                await loop.sock_sendall(client, "".join(text + "\n" for text in lines).encode())
                if opened:
                    await self._carry(it, line.decode("ascii"), client, opened, realm.manager, rest)
                    return

    # Directories.

    async def directory(self, manager: Manager, it: Instance, path: str) -> Bound | None:
        """The directory that a use leads to, decided at the launch; none where it leads nowhere. `Unfit`
        where its rights can't be kept here."""
        reply = (await manager.asked.routes.ask(f"route @{it.inc} {path}"))[0]
        found = OPENED.match(reply)
        if not found or not found[3]:
            self.runner.log.event("refused", moniker=it.moniker, path=path, manager=manager.number, why=reply)
            return None
        rights = set((found[4] or "").split(","))
        may_write = bool(rights & WRITES)
        if not self.runner.settings.coarse_rights and not can_be_kept(rights):
            raise Unfit(f"the rights {found[4]} at {path} can't be kept here: a directory is read as a "
                        "whole, or read and written as a whole")
        provider = self.runner.gate.instance(manager, int(found[3]), found[2])
        try:
            descriptor = beneath(provider.out, found[1], make=True)
        except OSError as fault:
            self.runner.log.event("refused", moniker=it.moniker, path=path, manager=manager.number,
                                  why=f"{found[1]} of {found[2]}: {fault.strerror}")
            return None
        bound = Bound(descriptor, path, may_write)
        if not may_write and not self.runner.settings.plain:
            try:
                bound.layer = await self._layer(it, descriptor, path)
            except (OSError, Unfit):
                os.close(descriptor)
                raise
        return bound

    async def _layer(self, it: Instance, descriptor: int, path: str) -> str:
        """Lays a read-only directory for an instance. Where it is laid."""
        if not self.runner.lays_layers:
            raise Unfit(f"the read-only directory at {path} needs a layer, which this system doesn't lay; "
                        "--plain-directories binds it without one")
        self.numbers += 1
        place = str(self.runner.places.layers / str(self.numbers))
        await self.runner.layers.lay(descriptor, place)
        it.layers.append(place)
        return place

    async def open_directory(self, it: Instance, path: str) -> None:
        """Has the provider of a directory started, as an opening does."""
        reply, manager = await self.opened(it, path)
        found = OPENED.match(reply)
        if found:
            self.runner.log.event("opened", moniker=it.moniker, path=path, manager=manager.number,
                                  provider=found[2] or "framework", rights=found[4] or "")
        else:
            self.runner.log.event("refused", moniker=it.moniker, path=path, manager=manager.number, why=reply)


@functools.lru_cache(maxsize=4096)
def source_of(reply: str) -> tuple[int, str, str] | None:
    """What a reply says to be opened: the incarnation that provides it, its moniker, and the path; None where
    nothing is opened, or nothing of an instance. The same replies come again and again."""
    found = OPENED.match(reply)
    if found is None or not found[3] or not reply.startswith("opened "):
        return None
    return int(found[3]), found[2], found[1]


def provider_of(manager: Manager, reply: str) -> tuple[Instance, str] | None:
    """Who provides what a manager has opened, and at which path; None where nothing is opened, or nothing
    that was started here."""
    source = source_of(reply)
    if source is None:
        return None
    inc, moniker, path = source
    provider = manager.instances.get(inc)
    if provider is None:
        return None
    manager.monikers[inc] = moniker
    return provider, path


def can_be_kept(rights: set[str]) -> bool:
    """Whether a mount says just these rights: to read all, or to read and write all. To execute is never more
    than to read: what can be read can be copied and run."""
    told = rights - {"execute"}
    return told in (READING, READING | WRITING)


def place_beneath(provider: Instance, path: str) -> Listens:
    """Where a provider listens at a path, for which no link is followed; an OSError where it doesn't."""
    place = provider.listens.get(path)
    if place is None or not place.stands():
        if place is not None:
            provider.listens.pop(path).close()
        place = provider.listens[path] = Listens(provider.out, path)
    return place


def connect(far: socket.SocketType, place: Listens, provider: Instance, path: str) -> None:
    """Connects to where a provider listens at a path; an OSError where it doesn't any more."""
    try:
        far.connect(place.name)
    except BaseException:
        provider.listens.pop(path).close()
        raise


def connected_beneath(provider: Instance, path: str) -> socket.socket:
    """A connection to a provider's socket, for which no link is followed."""
    place = place_beneath(provider, path)
    far = socket.socket(socket.AF_UNIX, CONNECTS)
    try:
        connect(far, place, provider, path)
        return far
    except BaseException:
        far.close()
        raise


async def _between(reader: asyncio.StreamReader, writer: asyncio.StreamWriter,
                   far_reader: asyncio.StreamReader, far_writer: asyncio.StreamWriter) -> None:
    """Hands bytes on, both ways, until both ends have said all."""
    async def hand_on(source: asyncio.StreamReader, sink: asyncio.StreamWriter) -> None:
        while piece := await source.read(PIECE):
            sink.write(piece)
            await sink.drain()
        sink.write_eof()

    await asyncio.gather(hand_on(reader, far_writer), hand_on(far_reader, writer))
