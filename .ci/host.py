#!/usr/bin/env python3
"""Runs a host for real: the example, the intruder, kills, and a gate that meets wrong runners.

    .ci/host.py [NAME ..]

The component manager is the one that COMPONENT_MANAGER names. Where bubblewrap or user namespaces aren't
there it says so, and ends with 0. As root it goes on as another user, since a host refuses root. With names
it runs the parts of these names alone: demo, attacks, edits, kills, inputs, words, groups, journals, gate,
live, stress, document. What this system or this component manager doesn't let be tried is told as left out.
Each wait in a test has its end and says what it waited for. A test that takes longer than all of them
together should is ended, with all that it began, and where it stood is told.
"""

from __future__ import annotations

import faulthandler
import os
import signal
import subprocess
import sys
import tempfile
import threading
import time
import unittest
from pathlib import Path

TOP = Path(__file__).resolve().parent.parent
PARTS = ("demo", "attacks", "edits", "kills", "inputs", "words", "groups", "journals", "gate", "live",
         "stress", "document")


# How long a test may take, in seconds.
LONGEST = 1500.0


class Told(unittest.TextTestResult):
    """Prints a line for each test, by what it says that it checks, with how long that took."""

    def startTest(self, test: unittest.TestCase) -> None:
        unittest.TestResult.startTest(self, test)
        self.begun = time.monotonic()
        why = f"{test.shortDescription() or test.id()}: it took more than {LONGEST:.0f} s"
        self.bound = threading.Timer(LONGEST, end_all, (why,))
        self.bound.daemon = True
        self.bound.start()

    def stopTest(self, test: unittest.TestCase) -> None:
        self.bound.cancel()
        unittest.TestResult.stopTest(self, test)

    def addSuccess(self, test: unittest.TestCase) -> None:
        unittest.TestResult.addSuccess(self, test)
        took = time.monotonic() - self.begun
        self.stream.writeln(f"checked: {test.shortDescription() or test.id()} ({took:.0f} s)")
        self.stream.flush()

    def addSkip(self, test: unittest.TestCase, reason: str) -> None:
        unittest.TestResult.addSkip(self, test, reason)
        self.stream.writeln(f"left out: {test.shortDescription() or test.id()}, since {reason}")
        self.stream.flush()


def end_all(why: str) -> None:
    """Ends this run and all that it began. Where each thread stands is told."""
    from tests.hosting.trial import below

    print(f"ended: {why}", flush=True)
    faulthandler.dump_traceback(sys.stdout)
    for pid in below(os.getpid()):
        try:
            os.kill(pid, signal.SIGKILL)
        except ProcessLookupError:
            pass
    os._exit(1)


def is_root_refused() -> bool:
    """Whether a host refuses root, with the reason, and makes nothing."""
    with tempfile.TemporaryDirectory() as place:
        words = [sys.executable, TOP / "tools/host", TOP / "examples/host",
                 "fuchsia-pkg://demo/root#meta/root.cm", "--run", f"{place}/r"]
        done = subprocess.run(words, capture_output=True, text=True, timeout=600)
        refused = done.returncode == 2 and "as root a sandboxed program could write" in done.stderr
        if refused and not os.listdir(place):
            print("checked: root is refused, with the reason", flush=True)
            return True
    print(f"root isn't refused: {done}")
    return False


def main() -> int:
    """Runs the parts that are named, or all."""
    sys.dont_write_bytecode = True
    sys.path.insert(0, str(TOP / "tools"))
    from cm_tools.console import Unusable
    from cm_tools.host.front import check_sandbox
    from tests.hosting.user import as_another_user, can_host

    if not can_host():
        return 0
    if os.getuid() == 0:
        try:
            return as_another_user(__file__) if is_root_refused() else 1
        except Unusable as fault:
            print(fault)
            return 1
    try:
        check_sandbox()
    except Unusable as fault:
        print(f"skipped: a host can't run here, since {fault}")
        return 0
    for number in signal.SIGINT, signal.SIGTERM:
        signal.signal(number, lambda *_: end_all("it was told to end"))
    suite = unittest.TestSuite()
    for part in sys.argv[1:] or PARTS:
        if (TOP / f"tools/tests/hosting/run_{part}.py").exists():
            suite.addTests(unittest.defaultTestLoader.loadTestsFromName(f"tests.hosting.run_{part}"))
    runner = unittest.TextTestRunner(stream=sys.stdout, resultclass=Told, verbosity=0)
    return 0 if runner.run(suite).wasSuccessful() else 1


if __name__ == "__main__":
    sys.exit(main())
