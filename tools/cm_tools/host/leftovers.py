"""What programs leave behind, and how it is removed. No link is followed."""

from __future__ import annotations

import os
import stat
from pathlib import Path

from cm_tools.host.starts import Starts

FOLDER = os.O_RDONLY | os.O_DIRECTORY | os.O_NOFOLLOW | os.O_CLOEXEC
# How deep the runner itself looks into what a program left. Tools look deeper.
DEEPEST = 8


def removed_sockets(folder: Path, most: int = 256) -> bool:
    """Removes the sockets below a folder. False where there is more to look through than so much, or where it
    can't be looked through."""
    try:
        at = os.open(folder, FOLDER)
        try:
            return _removed(at, most, DEEPEST, sockets_alone=True) >= 0
        finally:
            os.close(at)
    except OSError:
        return False


def removed_few(folder: Path, most: int = 64) -> bool:
    """Removes a folder with little in it. False where there is more, or something that can't be removed so;
    then some of it may be gone."""
    try:
        at = os.open(folder, FOLDER)
        try:
            if _removed(at, most, DEEPEST, sockets_alone=False) < 0:
                return False
        finally:
            os.close(at)
        os.rmdir(folder)
        return True
    except OSError:
        return False


def _removed(at: int, most: int, depth: int, sockets_alone: bool) -> int:
    """Removes what is below a folder, or the sockets alone. No link is followed. How many more it could have
    been; negative where there is more than so much, or it is deeper."""
    with os.scandir(at) as entries:
        for entry in entries:
            most -= 1
            if most < 0 or not depth:
                return -1
            if entry.is_dir(follow_symlinks=False):
                inside = os.open(entry.name, FOLDER, dir_fd=at)
                try:
                    most = _removed(inside, most, depth - 1, sockets_alone)
                finally:
                    os.close(inside)
                if most < 0:
                    return most
                if not sockets_alone:
                    os.rmdir(entry.name, dir_fd=at)
            elif not sockets_alone or stat.S_ISSOCK(entry.stat(follow_symlinks=False).st_mode):
                os.unlink(entry.name, dir_fd=at)
    return most


async def remove(starts: Starts, folder: Path) -> None:
    """Removes a folder. A program may have left folders that are deep, or that nobody may read."""
    if folder.exists() and not removed_few(folder):
        await starts.run("sh", "-c", 'chmod -R u+rwX "$1"; rm -rf --one-file-system "$1"', "-", str(folder))
