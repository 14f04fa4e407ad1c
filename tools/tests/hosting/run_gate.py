"""The gate against runners that hang up, say noise, drip, are late, say more than was asked, or nothing."""

from __future__ import annotations

import os
import shutil
import socket
import subprocess
import threading
import time
import unittest
from concurrent.futures import ThreadPoolExecutor
from pathlib import Path

from cm_tools.meeting import connected
from tests.hosting.trial import EXAMPLE, PATIENCE, ROOT, folder, program

# What the runner does; what the start answers; whether the runner reads `taken`, where it reads at all.
ROWS: list[tuple[str, str, bool | None]] = [
    ("hangs up", "gate-failed", None),
    ("noise\n", "gate-failed", False),
    ("running" * 1000, "gate-failed", False),
    ("running", "gate-failed", False),
    ("running\nmore\n", "gate-failed", False),
    ("stopped\n", "gate-failed", False),
    ("\n", "gate-failed", False),
    ("answers and hangs up", "gate-failed", None),
    ("declined\n", "declined", True),
    ("drips", "started", True),
    ("running\n", "started", True),
]
# These take the whole time that a runner has.
SILENT: list[list[tuple[str, str, bool | None]]] = [
    [("says nothing", "gate-failed", False)], [("answers behind the failure", "gate-failed", False)]]


class Player:
    """A runner that does what it is told.

    `taken` is what it read behind its answer to the present launch, once it is `done` with that. `failed` is
    set when the one who asked for a start has its answer.
    """

    def __init__(self, at: Path) -> None:
        self.door, self.does = socket.socket(socket.AF_UNIX), ""
        self.taken: bool | None = None
        self.done, self.failed = threading.Event(), threading.Event()
        self.line = ""
        self.door.bind(str(at))
        self.door.listen(16)
        threading.Thread(target=self.serve, daemon=True).start()

    def serve(self) -> None:
        while True:
            try:
                link = self.door.accept()[0]
            except OSError:
                return
            threading.Thread(target=self.answer, args=(link, self.does), daemon=True).start()

    def answer(self, link: socket.socket, does: str) -> None:
        with link, link.makefile("r") as lines:
            self.line = lines.readline()
            if self.line.startswith("halt"):
                link.sendall(b"stopped\n")
                lines.readline()
                return
            try:
                self.taken = lines.readline() == "taken\n" if self.speak(link, does) else None
            except OSError:
                self.taken = False
            self.done.set()

    def speak(self, link: socket.socket, does: str) -> bool:
        """Does it. Whether it then reads on."""
        if does == "hangs up":
            return False
        if does == "answers and hangs up":
            link.shutdown(socket.SHUT_RD)
            link.sendall(b"running\n")
            return False
        if does == "says nothing":
            pass
        elif does == "answers behind the failure":
            self.failed.wait(PATIENCE)
            link.sendall(b"running\n")
        elif does == "drips":
            for byte in b"running\n":
                link.sendall(bytes([byte]))
                time.sleep(0.05)
        else:
            link.sendall(does.encode())
            if does == "running":
                link.shutdown(socket.SHUT_WR)
        return True


class Served:
    """A component manager with such a runner."""

    def __init__(self, with_runner: bool = True) -> None:
        self.base = folder()
        self.player = Player(self.base / "runner") if with_runner else None
        environment = {**os.environ}
        environment.pop("COMPONENT_RUNNER", None)
        if with_runner:
            environment["COMPONENT_RUNNER"] = str(self.base / "runner")
        with open(self.base / "told", "wb") as told:
            self.process = subprocess.Popen([program(), "serve", str(self.base / "cm"), "--root", ROOT,
                                             "--repo", str(EXAMPLE)], env=environment,
                                            stdin=subprocess.DEVNULL, stdout=told, stderr=told)
        try:
            self.link = connected(str(self.base / "cm"), PATIENCE, self.process.poll, PATIENCE)
        except OSError as fault:
            why = f"no server ({fault}), status {self.process.poll()}: {self.told()}"
            self.remove()
            raise AssertionError(why) from None
        self.lines = self.link.makefile("rw")

    def told(self) -> str:
        """What the server wrote on its streams."""
        return (self.base / "told").read_text(errors="replace")

    def ask(self, line: str) -> str:
        self.lines.write(line + "\n")
        self.lines.flush()
        reply = self.lines.readline().strip()
        if not reply:
            raise AssertionError(f"no reply to {line}, status {self.process.poll()}: {self.told()}")
        return reply

    def end(self) -> int:
        """Its status."""
        self.lines.write("quit\n")
        self.lines.flush()
        self.lines.close()
        self.link.close()
        return self.process.wait(PATIENCE)

    def remove(self) -> None:
        """Ends it if it still runs, and removes its folder."""
        if self.process.poll() is None:
            self.process.kill()
            self.process.wait()
        if self.player is not None:
            self.player.door.close()
        shutil.rmtree(self.base, ignore_errors=True)


class Gate(unittest.TestCase):
    """Each fault of a runner."""

    def served(self, with_runner: bool = True) -> Served:
        served = Served(with_runner)
        self.addCleanup(served.remove)
        return served

    def rows(self, rows: list[tuple[str, str, bool | None]]) -> None:
        served = self.served()
        player = served.player
        assert player is not None
        for does, wanted, taken in rows:
            player.does, player.taken = does, None
            player.done.clear()
            player.failed.clear()
            reply = served.ask("start logger")
            player.failed.set()
            self.assertIn(wanted, reply, does[:30])
            self.assertTrue(player.done.wait(PATIENCE), does[:30])
            self.assertEqual(player.taken, taken, does[:30])
            if reply.startswith("started"):
                self.assertIn("stopped logger", served.ask("stop logger"))
                self.assertEqual(player.line.split()[0], "halt")
        self.assertEqual(served.end(), 0)

    def test_faults(self) -> None:
        """a runner that hangs up, says noise, drips, says more or nothing, or is late: the start says it"""
        with ThreadPoolExecutor() as pool:
            for done in [pool.submit(self.rows, rows) for rows in (ROWS, *SILENT)]:
                done.result()

    def test_nobody(self) -> None:
        """where nobody listens a start fails, and without the variable all is as before"""
        served = self.served()
        assert served.player is not None
        served.player.door.close()
        os.unlink(served.base / "runner")
        self.assertIn("gate-failed", served.ask("start logger"))
        self.assertEqual(served.end(), 0)
        served = self.served(with_runner=False)
        self.assertTrue(served.ask("start logger").startswith("started logger"))
        self.assertEqual(served.end(), 0)
