#!/usr/bin/env python3
"""Tests the tools: prints what it checked, and ends with 0 where all is well, else with 1."""

from __future__ import annotations

import sys
import unittest
from pathlib import Path

TOOLS = Path(__file__).resolve().parent.parent / "tools"


class Told(unittest.TextTestResult):
    """Prints a line for each test, by what it says that it checks."""

    def startTest(self, test: unittest.TestCase) -> None:
        unittest.TestResult.startTest(self, test)

    def addSuccess(self, test: unittest.TestCase) -> None:
        unittest.TestResult.addSuccess(self, test)
        self.stream.writeln(f"checked: {test.shortDescription() or test.id()}")

    def addSkip(self, test: unittest.TestCase, reason: str) -> None:
        unittest.TestResult.addSkip(self, test, reason)
        self.stream.writeln(f"skipped: {test.shortDescription() or test.id()}")


def main() -> int:
    """Runs all tests below tools/tests."""
    if sys.version_info < (3, 10):
        print("skipped: the tools need Python 3.10 or a later one")
        return 0
    sys.dont_write_bytecode = True
    sys.path.insert(0, str(TOOLS))
    suite = unittest.defaultTestLoader.discover(str(TOOLS / "tests"), top_level_dir=str(TOOLS))
    runner = unittest.TextTestRunner(stream=sys.stdout, resultclass=Told, verbosity=0)
    return 0 if runner.run(suite).wasSuccessful() else 1


if __name__ == "__main__":
    sys.exit(main())
