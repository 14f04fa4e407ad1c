"""One component manager of a host: its process, its sessions, and what is known of it."""

from __future__ import annotations

import asyncio
import errno
import os
import re
import signal
import socket
import subprocess
import time
from pathlib import Path
from typing import TYPE_CHECKING

from cm_tools.host.sandbox import readable
from cm_tools.host.sessions import Asked, Gone
from cm_tools.host.watching import Listener

if TYPE_CHECKING:
    from cm_tools.host.instance import Instance
    from cm_tools.host.settings import Settings

SESSIONS = 4096
SOURCE = re.compile(r" at (\S+) incarnation (\d+)")
# How long a manager may take to listen, and to end by itself, in seconds. It writes a large journal then.
TO_LISTEN, TO_END = 60.0, 60.0


class Manager:
    """A manager. What it is told is told by incarnations, which mean nothing to the next one.

    While `replaying` it is given the tree of the last one; `wanted` is what ran then. When it is `over`, what
    it asked just before isn't answered: it is the next one's.
    """

    def __init__(self, number: int, folder: Path, journal: Path) -> None:
        self.number, self.folder, self.journal = number, folder, journal
        self.asked = Asked(str(folder / "manager"))
        self.gate = folder / "runner"
        self.instances: dict[int, Instance] = {}
        # Incarnations by moniker, of children that were created or looked up; and monikers by incarnation.
        self.incarnations: dict[str, int] = {}
        self.monikers: dict[int, str] = {0: "."}
        # When a start that was put off may be asked for again, by the number of its action.
        self.put_off: dict[int, float] = {}
        self.wanted: set[str] = set()
        self.launching = self.adopted = 0
        self.replaying = True
        self.over = False
        self.server: Listener | None = None
        self.process: subprocess.Popen[bytes] | None = None
        self.pid = -1

    def start(self, settings: Settings) -> None:
        """Starts its process, in a session of its own, so that a terminal's Ctrl-C doesn't reach it."""
        words = [settings.program, "serve", str(self.folder / "manager"), "--root", settings.root,
                 "--repo", settings.manifests, "--sessions", str(SESSIONS), "--workers", "16"]
        environment = {**os.environ, "COMPONENT_RUNNER": str(self.gate),
                       "COMPONENT_JOURNAL": str(self.journal)}
        self.process = subprocess.Popen(words, stdin=subprocess.DEVNULL, env=environment,
                                        start_new_session=True)
        self.pid = os.pidfd_open(self.process.pid)

    async def listens(self) -> None:
        """Waits until its sessions are there; `Gone` where it ends, or takes too long."""
        until = asyncio.get_running_loop().time() + TO_LISTEN
        while asyncio.get_running_loop().time() < until:
            try:
                self.asked.connect()
                return
            except OSError:
                if await readable(self.pid, 0.002):
                    break
        raise Gone

    def has_ended(self) -> bool:
        """Whether its process is no more."""
        return self.process is None or self.process.poll() is not None

    def memory(self) -> int:
        """How many bytes its process has in memory; none where it has ended."""
        try:
            assert self.process is not None
            return int(Path(f"/proc/{self.process.pid}/statm").read_text().split()[1]) * 4096
        except (OSError, ValueError, IndexError):
            return 0

    def created(self, moniker: str, inc: int) -> None:
        """Keeps under which number a child was made."""
        self.incarnations[moniker] = inc
        self.monikers[inc] = moniker

    def learn(self, reply: list[str]) -> None:
        """Keeps what a reply tells of incarnations: of a source, or of rows with monikers."""
        found = SOURCE.search(reply[0])
        if found:
            self.monikers[int(found[2])] = found[1]
        if reply[0].startswith("survey "):
            for row in reply[1:]:
                parts = row.split()
                self.monikers[int(parts[2])] = parts[0]

    def forget(self, moniker: str) -> None:
        """What was at this moniker is gone, with all below it."""
        for name in [one for one in self.incarnations if one == moniker or one.startswith(moniker + "/")]:
            del self.incarnations[name]

    async def end(self, orderly: bool) -> bool:
        """Ends it. In order it has its sessions used up, ends by itself and may write its journal; else, or
        where that takes too long, it is killed. Whether it ended by itself with 0."""
        self.over = True
        self.asked.close()
        if self.server is not None:
            self.server.close()
        if self.process is None or self.pid < 0:
            return False
        if orderly and not self.has_ended():
            await asyncio.to_thread(self._use_up)
            await readable(self.pid, TO_END)
        if self.process.poll() is None:
            # One that hangs may be stopped; KILL ends it all the same.
            self.process.send_signal(signal.SIGKILL)
        await readable(self.pid)
        status = self.process.wait()
        os.close(self.pid)
        self.pid = -1
        return status == 0

    def _use_up(self) -> None:
        """Begins and ends sessions until the manager takes no more: it serves 4,096 in all."""
        until, used = time.monotonic() + TO_END, 0
        while used < SESSIONS and time.monotonic() < until:
            with socket.socket(socket.AF_UNIX) as link:
                link.settimeout(2.0)
                fault = link.connect_ex(self.asked.path)
            used += fault == 0
            if fault not in (0, errno.EAGAIN, errno.ETIMEDOUT):
                return
