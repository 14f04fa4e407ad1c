"""The defences of a host, taken away one by one: the attack of each comes through then."""

from __future__ import annotations

import shutil
import unittest

from tests.hosting.edits import EDITS, ROWS, STORED, changed
from tests.hosting.run_attacks import TRIES, attacked, through
from tests.hosting.trial import TOOLS, folder

PAGE, TABLE = TOOLS.parent / "docs/HOST.md", "| a component tries | what comes |"


class Edits(unittest.TestCase):
    """Each change of the sources is noticed by what the intruder says."""

    def test_edits(self) -> None:
        """each defence that is taken away lets the attack through that it keeps out"""
        for name, (_, expected) in EDITS.items():
            with self.subTest(name):
                base = folder()
                self.addCleanup(shutil.rmtree, base, True)
                rows = attacked(base, changed(base, name))
                self.assertLessEqual(set(expected), set(through(rows)), rows)

    def test_rows(self) -> None:
        """each row of the page's table of attacks has a defence that is taken away here"""
        _, _, behind = PAGE.read_text("utf-8").partition(TABLE + "\n|---|---|\n")
        table = behind.partition("\n\n")[0].splitlines()
        self.assertEqual([line.split(" | ")[0].removeprefix("| ") for line in table], list(ROWS))
        tried = {*EDITS, *TRIES, *STORED}
        self.assertEqual({name for names in ROWS.values() for name in names} - tried, set())
