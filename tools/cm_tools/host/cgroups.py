"""A cgroup for each instance, where the system lets this user make some."""

from __future__ import annotations

import os
from pathlib import Path

LIMITS = {"memory.max": str(512 << 20), "memory.swap.max": "0", "memory.oom.group": "1", "pids.max": "128",
          "cpu.weight": "100"}


class Cgroups:
    """Groups below one that is this user's own; `why` says why there are none."""

    def __init__(self, folder: str) -> None:
        self.folder = Path(folder) if folder else None
        self.why = "" if folder else "this user has no cgroup of its own"
        if self.folder is not None:
            self.why = _unusable(self.folder)
        self.is_there = not self.why

    def told(self) -> str:
        """What is said at the start."""
        if not self.is_there:
            return f"no limits of memory and processor: {self.why}"
        memory, processes = LIMITS["memory.max"], LIMITS["pids.max"]
        return f"each instance has at most {memory} bytes of memory and {processes} processes"

    def place(self, key: int) -> str:
        """The group of an instance, which is made; nothing where there are none."""
        if not self.is_there or self.folder is None:
            return ""
        group = self.folder / f"instance-{key}"
        group.mkdir(exist_ok=True)
        for name, value in LIMITS.items():
            if (group / name).exists():
                (group / name).write_text(value)
        return str(group)

    def remove(self, key: int) -> None:
        """Removes the group of an instance that has ended."""
        if self.is_there and self.folder is not None:
            try:
                os.rmdir(self.folder / f"instance-{key}")
            except OSError:
                pass


def _unusable(folder: Path) -> str:
    """Why a folder can't have groups with limits of memory and processes; nothing where it can."""
    try:
        here = (folder / "cgroup.controllers").read_text().split()
        missing = [name for name in ("memory", "pids") if name not in here]
        if missing:
            return f"{folder} has no controller {' and '.join(missing)}"
        (folder / "cgroup.subtree_control").write_text("+memory +pids" + (" +cpu" if "cpu" in here else ""))
        probe = folder / f"probe-{os.getpid()}"
        probe.mkdir()
        probe.rmdir()
        return ""
    except OSError as fault:
        return f"{folder}: {fault.strerror}"
