"""Tests that a journal of which the program says that it isn't legal is refused at once."""

from __future__ import annotations

import os
import tempfile
import unittest
from pathlib import Path
from unittest import mock

from cm_tools.program import VARIABLE
from tests.support import JOURNALS, run

ROUTE = JOURNALS / "route.txt"
WRONG = "illegal 4 given found 1 expected found 2"


class AuditingTests(unittest.TestCase):
    """What the tools say of a journal by the program's verdict."""

    def with_program(self, status: int, verdict: str) -> mock._patch_dict:
        """A program that gives this verdict, as the one that the tools ask."""
        folder = tempfile.TemporaryDirectory()
        self.addCleanup(folder.cleanup)
        program = Path(folder.name) / "program"
        program.write_text(f"#!/bin/sh\ncat > /dev/null\necho '{verdict}'\nexit {status}\n", "utf-8")
        program.chmod(0o755)
        return mock.patch.dict(os.environ, {VARIABLE: str(program)})

    def test_illegal(self) -> None:
        """a journal that isn't legal is refused in one line; one that is cut may be shown all the same"""
        with self.with_program(1, WRONG):
            ran = run("realm", str(ROUTE), audited=True)
            self.assertEqual((ran.status, ran.out), (2, ""))
            self.assertEqual(ran.err, f"realm: the journal isn't legal: {WRONG}\n")
            self.assertEqual(run("realm", "--partial", str(ROUTE), audited=True).status, 0)

    def test_legal(self) -> None:
        """a legal journal is shown, and any where the program doesn't know the word or isn't there"""
        for status, verdict in ((0, "legal 11"), (2, ""), (6, "")):
            with self.with_program(status, verdict):
                self.assertEqual(run("realm", str(ROUTE), audited=True).status, 0)
        with mock.patch.dict(os.environ, {VARIABLE: "/nowhere"}):
            self.assertEqual(run("realm", str(ROUTE), audited=True).status, 0)

    def test_explained(self) -> None:
        """what is explained behind a script's answers is refused where its journal isn't legal"""
        with self.with_program(1, WRONG), tempfile.NamedTemporaryFile("w", suffix=".txt") as script:
            script.write("root a\n0 show .\n")
            script.flush()
            ran = run("explain", script.name, data=b"0 shown x\njournal\nroot a\n", audited=True)
            self.assertEqual((ran.status, ran.out), (2, ""))
            self.assertEqual(ran.err, f"explain: the journal isn't legal: {WRONG}\n")


if __name__ == "__main__":
    unittest.main()
