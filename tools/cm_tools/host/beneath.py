"""What is below a folder that a program may write, found without following a link."""

from __future__ import annotations

import os
import stat
from pathlib import Path


def beneath(root: str | Path, path: str, make: bool = False, last: int = os.O_DIRECTORY) -> int:
    """A descriptor of what is at the path below a folder that a program may write.

    No link is followed, at no part: a link would be followed here, outside of the sandbox.
    """
    at = os.open(root, os.O_PATH | os.O_DIRECTORY | os.O_NOFOLLOW | os.O_CLOEXEC)
    parts = path.strip("/").split("/") if path.strip("/") else []
    for place, part in enumerate(parts):
        try:
            if make:
                _make(part, at)
            kind = last if place + 1 == len(parts) else os.O_DIRECTORY
            further = os.open(part, os.O_PATH | os.O_NOFOLLOW | os.O_CLOEXEC | kind, dir_fd=at)
        finally:
            os.close(at)
        at = further
    return at


def _make(part: str, at: int) -> None:
    try:
        os.mkdir(part, 0o755, dir_fd=at)
    except FileExistsError:
        pass


class Listens:
    """Where a provider listens: its socket, as it was found without following a link.

    `name` names that socket, whatever stands at the path by now.
    """

    __slots__ = ("folder", "socket", "last", "state", "name")

    def __init__(self, out: Path, path: str) -> None:
        """An OSError where there is no socket."""
        above, _, self.last = path.rstrip("/").rpartition("/")
        self.socket, self.folder = beneath(out, path, last=0), -1
        try:
            state = os.fstat(self.socket)
            if not stat.S_ISSOCK(state.st_mode):
                raise PermissionError(1, f"{path} is no socket")
            self.folder = beneath(out, above)
        except BaseException:
            self.close()
            raise
        self.state = state.st_dev, state.st_ino
        self.name = f"/proc/self/fd/{self.socket}"

    def stands(self) -> bool:
        """Whether the socket still stands there, and no other."""
        try:
            state = os.stat(self.last, dir_fd=self.folder, follow_symlinks=False)
        except OSError:
            return False
        return (state.st_dev, state.st_ino) == self.state

    def close(self) -> None:
        """Lets it go."""
        for one in self.folder, self.socket:
            if one >= 0:
                os.close(one)
