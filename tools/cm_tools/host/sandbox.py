"""The sandbox of one program: what it sees, and how it is started and stopped."""

from __future__ import annotations

import asyncio
import contextlib
import json
import os
import signal
from dataclasses import dataclass
from pathlib import Path
from typing import Sequence

from cm_tools.host.programs import Program
from cm_tools.host.starts import Begun, Starts
from cm_tools.host.watching import read_all, read_now, watch

LIMITS = ("--nproc=64", "--nofile=256", "--fsize=67108864", "--core=0")
TEMPORARY = "16777216"
# How long a program has that is told of its stop, in seconds.
GRACE = 2.0
BARE = ("setpriv", "--inh-caps=-all", "--ambient-caps=-all", "--bounding-set=-all", "--no-new-privs")


@dataclass
class Bound:
    """A directory that stands in a sandbox: an open descriptor of it, its place, and who may write it.

    `layer` is where it is laid over an empty folder, so that no socket in it can be connected; then the
    descriptor isn't used.
    """

    descriptor: int
    path: str
    may_write: bool
    layer: str = ""


@dataclass
class Plan:
    """What a sandbox is made of: its program, its own folder, its sockets, its directories, its cgroup."""

    program: Program
    out: Path
    sockets: Sequence[tuple[Path, str]]
    bound: Sequence[Bound]
    cgroup: str = ""
    seccomp: bytes = b""


def words(plan: Plan, info: int, filter_at: int | None, bound_at: int) -> list[str | int]:
    """The words that start a program in a sandbox. A number stands for a descriptor that it is started with:
    for what bwrap tells, for the filter, and from `bound_at` on for the directories."""
    program = plan.program
    told: list[str | int] = [
        "bwrap", "--unshare-all", "--unshare-user", "--disable-userns", "--uid", "1000", "--gid", "1000",
        "--cap-drop", "ALL", "--die-with-parent", "--new-session", "--hostname", "component",
        "--clearenv", "--setenv", "PATH", "/usr/bin", "--info-fd", info,
        "--ro-bind", "/usr", "/usr", "--symlink", "usr/bin", "/bin", "--symlink", "usr/sbin", "/sbin",
        "--symlink", "usr/lib", "/lib", "--symlink", "usr/lib64", "/lib64",
        "--proc", "/proc", "--dev", "/dev", "--remount-ro", "/dev",
        "--size", TEMPORARY, "--tmpfs", "/tmp",
        "--ro-bind", str(program.package), "/pkg", "--bind", str(plan.out), "/out"]
    for name, value in program.environ:
        told += ["--setenv", name, value]
    if filter_at is not None:
        told += ["--seccomp", filter_at]
    for place, path in plan.sockets:
        told += ["--bind", str(place), path]
    told += _directories(plan.bound, bound_at)
    told += ["--remount-ro", "/", "--chdir", "/pkg", "--", "/usr/bin/prlimit", *LIMITS,
             f"/pkg/{program.binary}", *program.args]
    if plan.cgroup:
        # It enters its cgroup before it is a sandbox.
        return ["/bin/sh", "-c", 'echo 0 > "$0/cgroup.procs" && exec "$@"', plan.cgroup, *told]
    return told


def _directories(bound: Sequence[Bound], bound_at: int) -> list[str | int]:
    """The words for directories. Those without a layer are descriptors, in their order."""
    told: list[str | int] = []
    for one in bound:
        if one.layer:
            told += ["--ro-bind", one.layer, one.path]
        else:
            told += ["--bind-fd" if one.may_write else "--ro-bind-fd", bound_at, one.path]
            bound_at += 1
    return told


async def readable(descriptor: int, seconds: float | None = None) -> bool:
    """Waits until there is something to read, or until a process has ended. False where it took too long."""
    loop, done = asyncio.get_running_loop(), asyncio.Event()
    own = os.dup(descriptor)
    loop.add_reader(own, done.set)
    try:
        await asyncio.wait_for(done.wait(), seconds)
        return True
    except asyncio.TimeoutError:
        return False
    finally:
        loop.remove_reader(own)
        os.close(own)


class Process:
    """A sandbox: bwrap outside, its first process inside, and the program below that.

    `output` is a descriptor of what it prints, which is closed by who reads it. It is `over` when no process
    of it is left.
    """

    def __init__(self, bwrap: Begun, output: int) -> None:
        self.bwrap, self.output = bwrap, output
        self.first = self.inner = -1
        self.over: asyncio.Future[None] = asyncio.get_running_loop().create_future()

    @classmethod
    async def start(cls, starts: Starts, plan: Plan) -> Process:
        """Starts a sandbox; an OSError where none could be made."""
        output, into = os.pipe()
        told, tell = os.pipe()
        passed = [into, tell]
        filter_at = len(passed) if plan.seccomp else None
        if filter_at is not None:
            passed.append(_pipe_of(plan.seccomp))
        own = passed.copy()
        started = words(plan, 1, filter_at, len(passed))
        passed += [one.descriptor for one in plan.bound if not one.layer]
        try:
            self = cls(await starts.begin(started, passed, (None, 0, 0)), output)
        except BaseException:
            os.close(output)
            os.close(told)
            raise
        finally:
            for one in own:
                os.close(one)
        await self._wait_for_first(told)
        return self

    async def _wait_for_first(self, told: int) -> None:
        """Reads which process is the first inside. It comes in pieces. Who stops reading it, or kills bwrap
        before it is there, may leave a first process inside that isn't bound to anybody's life yet."""
        info = await read_all(told, b"}")
        if not info.rstrip().endswith(b"}"):
            await self._fail()
        self.first = json.loads(info)["child-pid"]
        try:
            self.inner = os.pidfd_open(self.first)
        except ProcessLookupError:
            # It has ended, and bwrap has seen it.
            self.inner = os.dup(self.bwrap.descriptor)
        self.bwrap.status.add_done_callback(self._outer_ended)

    async def _fail(self) -> None:
        self.bwrap.kill()
        await self.bwrap.status
        sweep()
        os.close(self.bwrap.descriptor)
        said = read_now(self.output).decode(errors="replace").strip()
        os.close(self.output)
        raise OSError(said.replace("\n", "; ") or "bwrap was killed")

    def _outer_ended(self, _: asyncio.Future[int]) -> None:
        """The first process inside ends, too, if not by itself: bwrap may have been killed before that one
        was bound to its life. It may need a moment yet."""
        with contextlib.suppress(ProcessLookupError):
            signal.pidfd_send_signal(self.inner, signal.SIGKILL)
        self.ends = watch(self.inner)
        self.ends.on_read(self._inner_ended)

    def _inner_ended(self) -> None:
        self.ends.end()
        for one in self.inner, self.bwrap.descriptor:
            # As the first process of a namespace the runner is left the first process inside; and bwrap
            # where its starter has ended.
            with contextlib.suppress(ChildProcessError):
                os.waitid(os.P_PIDFD, one, os.WEXITED | os.WNOHANG)
            os.close(one)
        self.over.set_result(None)

    @property
    def status(self) -> int:
        """Its exit status, when it is over."""
        return self.bwrap.status.result()

    async def ended(self, seconds: float | None = None) -> bool:
        """Waits until no process of the sandbox is left."""
        await asyncio.wait([self.over], timeout=seconds)
        return self.over.done()

    async def stop(self, notify: bool) -> bool:
        """Ends it. Whether it needed no force: it was told and ended in time, or wants not to be told."""
        if not notify:
            await self.kill()
            return True
        try:
            # The first process inside leads the group of the program, and isn't hit itself.
            os.killpg(self.first, signal.SIGTERM)
        except ProcessLookupError:
            # Nothing runs in it yet, or any longer.
            await self.kill()
        in_time = await self.ended(GRACE)
        if not in_time:
            await self.kill()
        return in_time

    async def kill(self) -> None:
        """Ends it by force, with all that runs in it."""
        for process in () if self.over.done() else (self.inner, self.bwrap.descriptor):
            with contextlib.suppress(ProcessLookupError):
                signal.pidfd_send_signal(process, signal.SIGKILL)
        await self.ended()


def sweep() -> None:
    """Kills what is left of sandboxes whose bwrap was killed before the first process inside was bound to its
    life. It falls to the first process of the namespace, which the runner is."""
    with open(f"/proc/self/task/{os.getpid()}/children", encoding="ascii") as file:
        children = [int(word) for word in file.read().split()]
    for pid in children:
        with open(f"/proc/{pid}/comm", encoding="utf-8") as file:
            if file.read() != "bwrap\n":
                continue
        os.kill(pid, signal.SIGKILL)
        os.waitpid(pid, 0)


def _pipe_of(data: bytes) -> int:
    """A descriptor from which these bytes can be read; they are fewer than a pipe holds."""
    out, into = os.pipe()
    os.write(into, data)
    os.close(into)
    return out
