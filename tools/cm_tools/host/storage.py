"""Storage: a folder for each place that the word `storage` tells, kept behind the end of who uses it.

Which place a use has is the manager's rule alone. Places that are told apart have folders apart; a child of a
collection that is made again is another one, and never gets what its predecessor left.
"""

from __future__ import annotations

import asyncio
import contextlib
import hashlib
import os
import re
import time
from pathlib import Path
from typing import TYPE_CHECKING, NamedTuple
from urllib.parse import quote

from cm_tools.host.instance import Instance
from cm_tools.host.programs import Unfit
from cm_tools.host.reports import Reports
from cm_tools.host.sandbox import Bound
from cm_tools.host.starts import Starts
from cm_tools.host.tree import created_part
from cm_tools.host.watching import pieces

if TYPE_CHECKING:
    from cm_tools.host.runner import Runner

ROW = re.compile(r"(\S+) storage (\S+) (?:at (\S+) in (?:(\S+) incarnation \d+|builtin|framework)"
                 r"|refused (\d+ .+))\Z")
UNRESOLVED = re.compile(r"\d+ backing-unresolved incarnation (\d+)\Z")
# How many instances may have to be resolved besides, to find a place.
STEPS = 64
# The name of a folder that goes with one birth has that behind this mark, which no moniker has.
BORN = "~"
LONGEST_NAME = 160
# How often it is looked what is used, in seconds, and how much of the disk has to stay free, in bytes.
PULSE, LEAST_FREE = 1.0, 32 << 20


class Used(NamedTuple):
    """What a folder has: bytes on the disk, and files; `is_whole` where all of it could be counted."""

    size: int
    files: int
    is_whole: bool


class Storage:
    """The folders, by the names of their places; who uses them, and how much may lie in each."""

    def __init__(self, runner: Runner, reports: Reports) -> None:
        self.runner, self.reports = runner, reports
        self.top = runner.places.storage
        self.most_bytes = runner.settings.storage_bytes
        self.most_files = runner.settings.storage_files
        # Folders in which more than the most was found, which has to be looked at again.
        self.full: set[str] = set()
        self.disk = (0, 0)

    # Places.

    async def places(self, moniker: str) -> dict[str, str]:
        """Of each storage use of an instance its place, as the manager tells it; `Unfit` where one has
        none."""
        if not self.reports.knows("storage"):
            raise Unfit("its storage can't be placed: this component manager doesn't know the word storage")
        script, more = self.reports.script([moniker]), dict[str, None]()
        for _ in range(STEPS):
            rows = [row for row in map(ROW.match, await self.reports.lines("storage", [*script, *more]))
                    if row and row[1] == moniker]
            unresolved = [found[1] for row in rows if row[5] and (found := UNRESOLVED.match(row[5]))]
            further = [f"0 resolve @{number}" for number in unresolved]
            if not set(further) - set(more):
                return _told(rows)
            more.update(dict.fromkeys(further))
        raise Unfit(f"its storage has no place behind {STEPS} further resolves")

    async def bound(self, it: Instance, path: str, places: dict[str, str]) -> Bound:
        """The folder of a use, open, which is made where it isn't there."""
        if path not in places:
            raise Unfit(f"the word storage tells nothing of the storage at {path}")
        name = self.name(it.moniker, places[path])
        folder = self.top / name
        self.top.mkdir(mode=0o700, exist_ok=True)
        folder.mkdir(mode=0o700, exist_ok=True)
        if name in self.full:
            await self._look(name)
            if name in self.full:
                raise Unfit(f"the storage at {path} is full: {folder}")
        it.storage.add(name)
        return Bound(os.open(folder, os.O_PATH | os.O_DIRECTORY | os.O_NOFOLLOW | os.O_CLOEXEC), path, True)

    def name(self, moniker: str, place: str) -> str:
        """The name of the folder of a place: the place, and the birth of the child that it ends with."""
        told = quote(place, safe=":._-").replace(BORN, "%7E")
        if len(told) > LONGEST_NAME:
            told = f"{told[:LONGEST_NAME - 33]}-{hashlib.sha256(place.encode()).hexdigest()[:32]}"
        child = self.runner.tree.child(created_part(moniker))
        return told + (BORN + child.birth if child is not None else "")

    # What goes.

    def sweep(self) -> list[Path]:
        """The folders of children that don't stand any more."""
        standing = {child.birth for child in self.runner.tree.children.values()}
        with contextlib.suppress(OSError):
            return [place for place in self.top.iterdir()
                    if BORN in place.name and place.name.partition(BORN)[2] not in standing]
        return []

    def left_by(self, it: Instance) -> list[Path]:
        """The folders that go with an instance that is gone; those of static ones stay."""
        return [self.top / name for name in it.storage if BORN in name]

    # How much lies there.

    async def watch(self) -> None:
        """Ends by force what has more in its storage than it may, as long as the host runs."""
        while True:
            await asyncio.sleep(PULSE)
            users = [it for it in self.runner.all_instances() if it.lives() and it.storage]
            if users and self._has_changed():
                await self._look_at(users)

    async def _look_at(self, users: list[Instance]) -> None:
        begun = time.monotonic()
        disk = os.statvfs(self.top)
        is_short = disk.f_bavail * disk.f_frsize < LEAST_FREE
        for name in {name for it in users for name in it.storage}:
            await self._look(name)
        for it in users:
            full = [name for name in it.storage if name in self.full]
            if it.lives() and (full or is_short):
                self.runner.log.event("storage-full", moniker=it.moniker, instance=it.key,
                                      why=f"in {self.top / full[0]}" if full else "the disk has no room left")
                assert it.process is not None
                await it.process.kill()
        # To look takes at most a tenth of the time.
        await asyncio.sleep(9 * (time.monotonic() - begun))

    def _has_changed(self) -> bool:
        """Whether the disk's use has changed since it was asked last."""
        try:
            disk = os.statvfs(self.top)
        except OSError:
            return False
        state = disk.f_bfree, disk.f_ffree
        changed, self.disk = state != self.disk, state
        return changed

    async def _look(self, name: str) -> None:
        """Counts what a folder has, and whether that is more than the most."""
        used = await counted(self.reports.starts, self.top / name, self.most_files)
        if used.size > self.most_bytes or used.files > self.most_files or not used.is_whole:
            self.full.add(name)
        else:
            self.full.discard(name)


def _told(rows: list[re.Match[str]]) -> dict[str, str]:
    """The places by paths; `Unfit` with the first refusal."""
    for row in rows:
        if row[5]:
            raise Unfit(f"the storage at {row[2]} is refused: {row[5]}")
    return {row[2]: f"{row[4] or 'builtin'} {row[3]}" for row in rows}


async def counted(starts: Starts, folder: Path, most_files: int) -> Used:
    """What is below a folder that a program may write: depth and forbidden folders are no way to hide it."""
    out, into = os.pipe()
    words = ("find", str(folder), "-xdev", "-ignore_readdir_race", "-printf", "%b\n")
    try:
        find = await starts.begin(words, (into,), (None, 0, None))
    except BaseException:
        os.close(out)
        raise
    finally:
        os.close(into)
    blocks = files = 0
    behind = b""
    async with contextlib.aclosing(pieces(out)) as come:
        async for piece in come:
            *lines, behind = (behind + piece).split(b"\n")
            files += len(lines)
            blocks += sum(map(int, lines))
            if files > most_files:
                find.kill()
                break
    os.close(find.descriptor)
    return Used(512 * blocks, files, await find.status == 0)
