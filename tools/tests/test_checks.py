"""Tests of `.ci/checks`: two lanes side by side, a limit for each check, and nothing that is left behind."""

from __future__ import annotations

import contextlib
import importlib.machinery
import importlib.util
import io
import signal
import subprocess
import sys
import tempfile
import time
import unittest
from pathlib import Path
from types import ModuleType
from unittest import mock

from tests.support import ROOT, SECONDS

SCRIPT = ROOT / ".ci" / "checks"
LOADED = """\
import importlib.machinery, importlib.util, signal, sys
sys.dont_write_bytecode = True
loader = importlib.machinery.SourceFileLoader("checks", {script!r})
checks = importlib.util.module_from_spec(importlib.util.spec_from_loader("checks", loader))
loader.exec_module(checks)
for it in checks.ENDINGS:
    signal.signal(it, checks.stopped)
checks.run([[[600, {path!r}]]])
"""
# A check that begins a program with a session of its own, tells its number, and doesn't end.
HANGS = """\
import os, pathlib, subprocess, sys, time
began = subprocess.Popen(["sleep", "1000000"], start_new_session=True)
print("hangs", flush=True)
pathlib.Path(sys.argv[0] + ".number").write_text(str(began.pid))
os.rename(sys.argv[0] + ".number", sys.argv[0] + ".told")
time.sleep(1000000)
"""


def loaded() -> ModuleType:
    """The script as a module, with a table of its own."""
    loader = importlib.machinery.SourceFileLoader("checks", str(SCRIPT))
    spec = importlib.util.spec_from_loader("checks", loader)
    assert spec is not None
    made = importlib.util.module_from_spec(spec)
    loader.exec_module(made)
    return made


def is_running(number: int) -> bool:
    """Whether a process runs, and isn't one that has ended and whose parent doesn't ask."""
    try:
        return Path(f"/proc/{number}/stat").read_text("utf-8").rpartition(") ")[2][0] != "Z"
    except OSError:
        return False


@unittest.skipUnless(Path("/proc/self/environ").exists(), "there is no /proc")
class ChecksTests(unittest.TestCase):
    """Lanes of small checks."""

    def setUp(self) -> None:
        folder = tempfile.TemporaryDirectory()
        self.addCleanup(folder.cleanup)
        self.folder = Path(folder.name)

    def check(self, name: str, text: str, limit: float = SECONDS) -> list[object]:
        """A check of such a text."""
        (self.folder / name).write_text(text, "utf-8")
        return [limit, str(self.folder / name)]

    def ran(self, *lanes: list[list[object]]) -> tuple[bool, str]:
        """Whether all checks of the lanes passed, and what was printed."""
        out = io.TextIOWrapper(io.BytesIO(), "utf-8", write_through=True)
        with contextlib.redirect_stdout(out):
            is_well = loaded().run(list(lanes))
        return is_well, out.buffer.getvalue().decode()

    def assert_ended(self, name: str) -> None:
        """What the check of this name began is gone."""
        number = int(Path(self.folder, name + ".told").read_text("utf-8"))
        until = time.monotonic() + SECONDS
        while is_running(number) and time.monotonic() < until:
            time.sleep(0.01)
        self.assertFalse(is_running(number))

    def test_lanes(self) -> None:
        """the output of each check stands whole, and what one lane's failed check prints too"""
        waits = "import time\nprint('one')\ntime.sleep(0.5)\nprint('two')\n"
        is_well, text = self.ran([self.check("slow", waits)], [self.check("quick", "print('three')")])
        self.assertTrue(is_well)
        self.assertLess(text.index("three\n"), text.index("one\ntwo\nrun: "))
        self.assertEqual(text.count(" passed, "), 2)
        failing = self.check("failing", "print('why')\nraise SystemExit(3)\n")
        is_well, text = self.ran([failing, self.check("next", "print('four')")])
        self.assertFalse(is_well)
        self.assertIn(f"why\nrun: {self.folder}/failing failed, with status 3, ", text)
        self.assertIn("four\n", text)

    def test_limit(self) -> None:
        """a check that hangs has failed at its limit, with all that it began, and the next one is made"""
        with mock.patch.dict("os.environ"):
            is_well, text = self.ran([self.check("hangs", HANGS, 2), self.check("next", "print('next')")])
        self.assertFalse(is_well)
        self.assertIn("hangs\n", text)
        self.assertIn(f"run: {self.folder}/hangs failed: it wasn't done in 2 s, ", text)
        self.assertIn("next\n", text)
        self.assert_ended("hangs")

    def test_ended(self) -> None:
        """Ctrl-C, a hang-up and a kill end what it began"""
        for number in (signal.SIGINT, signal.SIGTERM, signal.SIGHUP):
            path = str(self.check("hangs", HANGS)[1])
            Path(path + ".told").unlink(missing_ok=True)
            code = LOADED.format(script=str(SCRIPT), path=path)
            with subprocess.Popen([sys.executable, "-c", code], stderr=subprocess.DEVNULL) as process:
                until = time.monotonic() + SECONDS
                while not Path(path + ".told").exists() and time.monotonic() < until:
                    time.sleep(0.01)
                process.send_signal(number)
                self.assertEqual(process.wait(SECONDS), 128 + number)
            self.assert_ended("hangs")

    def test_words(self) -> None:
        """without a program it tells its usage, and each check of its table is a file"""
        ran = subprocess.run([sys.executable, SCRIPT], capture_output=True, text=True, check=False)
        self.assertEqual((ran.returncode, ran.stderr), (2, "usage: checks PROGRAM\n"))
        tables = loaded()
        for _, name, *_ in (*tables.WITH_A_PROGRAM, *tables.WITHOUT):
            self.assertTrue((ROOT / name).is_file(), name)
