"""Tests that what `bench/audit.py` measures is what it says: so many picks, in journals that are legal."""

from __future__ import annotations

import io
import os
import sys
import tempfile
import unittest
from contextlib import redirect_stdout
from pathlib import Path
from unittest import mock

from tests.support import ROOT, TESTS

sys.path.insert(0, str(ROOT / "bench"))

import audit

PROGRAM = os.environ.get("COMPONENT_MANAGER", "")
SIZE = 50


@unittest.skipUnless(PROGRAM, "COMPONENT_MANAGER names no program")
class AuditBenchTests(unittest.TestCase):
    """Small realms of each kind that it measures."""

    def setUp(self) -> None:
        folder = tempfile.TemporaryDirectory()
        self.addCleanup(folder.cleanup)
        self.folder = folder.name
        self.enterContext(mock.patch.object(audit, "PROGRAM", os.path.abspath(PROGRAM)))

    def enterContext(self, manager: mock._patch) -> object:
        """What a context manager gives, which ends with the test; older Pythons haven't this."""
        entered = manager.__enter__()
        self.addCleanup(manager.__exit__, None, None, None)
        return entered

    def lines(self) -> list[str]:
        """The lines of the journal that was measured last."""
        return Path(self.folder, "journal").read_text("utf-8").split("\n")

    def picks(self, word: str) -> list[str]:
        """The replies of its picks that begin so."""
        return [line.partition(" => ")[2] for line in self.lines() if f" pick 0 => {word}" in line]

    def test_shutdowns(self) -> None:
        """each instance of a flat realm is shut by a pick, and stopped by one where it runs"""
        for realm, stopped in ((audit.declared, 0), (audit.started, SIZE)):
            size, entries, *_ = audit.audited(self.folder, realm(SIZE))
            self.assertEqual((len(self.picks("shutdown")), len(self.picks("stopping"))), (SIZE, stopped))
            self.assertEqual(size, os.path.getsize(os.path.join(self.folder, "journal")))
            self.assertGreater(entries, SIZE + stopped)

    def test_turned(self) -> None:
        """picks in another order are others, and legal"""
        audit.audited(self.folder, audit.declared(SIZE))
        before = self.picks("shutdown")
        audit.audited(self.folder, audit.declared(SIZE), audit.turn_picks)
        self.assertEqual(self.picks("shutdown"), [*reversed(before[:-1]), before[-1]])

    def test_workload(self) -> None:
        """a workload starts each instance, and each draw is answered"""
        audit.audited(self.folder, audit.workload(SIZE, 80))
        answers = self.lines()[: self.lines().index("journal")]
        words = [line.split(" ")[1] for line in answers]
        self.assertEqual(words[:SIZE], ["started"] * SIZE)
        self.assertEqual(len(words), SIZE + 80)
        drawn = 1
        for word in words[SIZE:]:
            drawn = (drawn * 1103515245 + 12345) % 2**31
            self.assertEqual(word, "opened" if drawn // 65536 % SIZE else "shown")

    def test_wrong(self) -> None:
        """an audit that says another thing ends it, and so does one that takes too long"""
        environment = {"RIGHT": os.path.abspath(PROGRAM), "WRONG": "entry_dropped"}
        with mock.patch.object(audit, "PROGRAM", str(TESTS / "wrong_program.py")), \
                mock.patch.dict(os.environ, environment), self.assertRaises(SystemExit) as ended:
            audit.audited(self.folder, audit.declared(SIZE))
        self.assertIn("illegal ", str(ended.exception.code))
        with redirect_stdout(io.StringIO()), self.assertRaises(SystemExit):
            audit.tell("x", (1000, 10, 1.0, 2.1, 1000))
        with redirect_stdout(io.StringIO()):
            audit.tell("x", (1000, 10, 1.0, 1.9, 1000))
            audit.tell("x", (1000, 10, 1.0, 2.1, 1000), is_bound=False)


if __name__ == "__main__":
    unittest.main()
