"""The table of what runs. It finds the processes of a host as they are seen outside of its namespaces."""

from __future__ import annotations

import time
from pathlib import Path
from typing import Any

from cm_tools.host.settings import Places


def listing(run: Path, rows: list[dict[str, Any]]) -> list[str]:
    """Lines of a table: instance, state, process, since when, memory."""
    pids = inner_pids(run)
    lines = [("INSTANCE", "STATE", "PID", "SINCE", "STARTS", "MEMORY")]
    for row in rows:
        pid = pids.get(row["pid"]) if row["pid"] else None
        since = time.strftime("%Y-%m-%d %H:%M:%S", time.localtime(time.time() - row["age"]))
        lines.append((row["moniker"], row["state"], str(pid or "-"), since, str(row["starts"]),
                      f"{memory_below(pid) >> 10} kB" if pid else "-"))
    widths = [max(len(line[column]) for line in lines) for column in range(len(lines[0]))]
    return ["  ".join(cell.ljust(width) for cell, width in zip(line, widths)).rstrip() for line in lines]


def inner_pids(run: Path) -> dict[int, int]:
    """Of each process below a host: its number in the runner's namespace, and the one that is seen here."""
    try:
        front = int(Places(run).lock.read_text())
    except (OSError, ValueError):
        return {}
    children = _children()
    below, found = [front], {}
    runner_depth = None
    while below:
        pid = below.pop(0)
        below += children.get(pid, [])
        numbers = _numbers(pid)
        if runner_depth is None and len(numbers) > 1 and numbers[-1] == 1:
            runner_depth = len(numbers) - 1
        if runner_depth is not None and len(numbers) > runner_depth:
            found[numbers[runner_depth]] = pid
    return found


def memory_below(pid: int) -> int:
    """How many bytes a process and all below it have in memory."""
    children, more, total = _children(), [pid], 0
    while more:
        one = more.pop()
        more += children.get(one, [])
        try:
            total += int(Path(f"/proc/{one}/statm").read_text().split()[1]) * 4096
        except (OSError, ValueError, IndexError):
            pass
    return total


def _children() -> dict[int, list[int]]:
    found: dict[int, list[int]] = {}
    for entry in Path("/proc").iterdir():
        if entry.name.isdigit():
            try:
                parent = int((entry / "stat").read_text().rpartition(")")[2].split()[1])
            except (OSError, ValueError, IndexError):
                continue
            found.setdefault(parent, []).append(int(entry.name))
    return found


def _numbers(pid: int) -> list[int]:
    """The numbers of a process, from the namespace here to its own."""
    try:
        for line in Path(f"/proc/{pid}/status").read_text().splitlines():
            if line.startswith("NSpid:"):
                return [int(word) for word in line.split()[1:]]
    except (OSError, ValueError):
        pass
    return []
