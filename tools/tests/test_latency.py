"""Tests that `bench/latency.py` measures a server beside each of its callers, and leaves nothing behind."""

from __future__ import annotations

import os
import subprocess
import sys
import tempfile
import unittest
from pathlib import Path

from tests.support import ROOT, SECONDS

PROGRAM = os.environ.get("COMPONENT_MANAGER", "")
# A client in place of the native one: it asks once for each that it is told to, and tells times of its own.
LOAD = """\
#!{python}
import socket, sys
path, clients, count, at_once, lines, command = sys.argv[1:]
link = socket.socket(socket.AF_UNIX)
link.connect(path)
for _ in range(int(count)):
    link.sendall(command.encode() + b"\\n")
    text = b""
    while not text.endswith(b"\\n"):
        text += link.recv(4096)
    if not text.startswith(b"shown w incarnation "):
        sys.exit(text.decode())
print("1 clients, 1 at a time: 2000 commands/s, p50 1.0 us, p99 22.0 us, p99.9 333.0 us, max 4444.0 us")
"""
WORKS = ("surveys", "shutdowns", "follows", "rereads")


class LatencyTest(unittest.TestCase):
    """The script, with a client that tells the same each time."""

    def setUp(self) -> None:
        folder = tempfile.TemporaryDirectory()
        self.addCleanup(folder.cleanup)
        self.load = Path(folder.name) / "load"

    def ran(self, load: str, *words: str) -> tuple[int, str, str]:
        """The status and both outputs of the script with a client of this text."""
        self.load.write_text(load.replace("{python}", sys.executable), "utf-8")
        self.load.chmod(0o755)
        command = [sys.executable, ROOT / "bench" / "latency.py", *words, PROGRAM or "/bin/true", self.load]
        done = subprocess.run(command, timeout=SECONDS, capture_output=True, text=True, check=False)
        return done.returncode, done.stdout, done.stderr

    @unittest.skipUnless(PROGRAM, "COMPONENT_MANAGER names no program")
    def test_rows(self) -> None:
        """a row for each caller, of what the client tells alone and beside it"""
        status, told, wrong = self.ran(LOAD, "--rounds", "1", "--shows", "200", "--seconds", "0.1")
        self.assertEqual((status, wrong), (0, ""))
        rows = [line.split() for line in told.split("\n")[2:-2]]
        self.assertEqual(tuple(row[0] for row in rows), WORKS)
        for row in rows:
            self.assertEqual(row[2:12], ["|", "1", "22", "333", "4444"] * 2)

    @unittest.skipUnless(PROGRAM, "COMPONENT_MANAGER names no program")
    def test_failing_client(self) -> None:
        """a client that fails is told, with status 1"""
        status, _, wrong = self.ran("#!/bin/sh\necho no >&2\nexit 3\n", "--rounds", "1", "--only", "follows")
        self.assertEqual(status, 1)
        self.assertIn(f"latency: {self.load} ended with 3: no\n", wrong)

    def test_words(self) -> None:
        """words that mean nothing are told, with status 2"""
        for words in (["--rounds", "0"], ["--only", "nobody"], ["--loud"], ["--shows", "1"]):
            with self.subTest(words):
                status, told, wrong = self.ran(LOAD, *words)
                self.assertEqual((status, told), (2, ""))
                self.assertIn("usage: latency.py ", wrong)
