"""The tests of crates without any proof: each test program is made once, and run."""

from __future__ import annotations

import os
import re
import subprocess
import sys
import tempfile
from pathlib import Path

from cm_tools.linked_kit import kit_folder
from cm_tools.making import program_made, stop
from cm_tools.sources import TOP, crates_below, has_tests, listed
from cm_tools.workshops import Unmade, free_memory, say

PASSED = re.compile(r"^test result: ok\.", re.MULTILINE)
# How long one test may take, in seconds.
PATIENCE = 300
# How much free memory each of several makings gets, in kilobytes.
SHARE = 4_000_000


def run_tests(names: list[str]) -> int:
    """Makes and runs the tests of these crates, or of all that have some; 0 where all pass, else 1."""
    known = listed()
    for name in names:
        if name not in known or not has_tests(name):
            say(f"{name} is no crate with tests")
            return 2
    # The largest first.
    chosen = sorted(names or filter(has_tests, known), key=lambda name: -len(crates_below(name)))
    failed = _make_all(chosen)
    runner = kit_folder() / "bin" / "rattle-test"
    for name in chosen:
        if name in failed:
            print(f"== {name}: not made", flush=True)
        elif not _passes(runner, name):
            failed.add(name)
    print(f"unproved: the tests of {len(chosen) - len(failed)} crates passed, of {len(failed)} failed")
    return 1 if failed else 0


def _make_all(names: list[str]) -> set[str]:
    """Makes the tests side by side, each by a process of its own, and gives the crates where that failed."""
    waiting, failed = list(names), set()
    running: list[tuple[str, subprocess.Popen[bytes]]] = []
    try:
        while waiting or running:
            while waiting and len(running) < _width():
                name = waiting.pop(0)
                words = [sys.executable, str(TOP / "tools" / "try"), "--make", name]
                running.append((name, subprocess.Popen(words)))
            name, run = running.pop(0)
            try:
                if run.wait(0.2):
                    failed.add(name)
            except subprocess.TimeoutExpired:
                running.append((name, run))
    finally:
        for _, run in running:
            stop(run)
    return failed


def _width() -> int:
    """How many are made side by side: one for each processor that has its share of free memory."""
    return max(1, min(len(os.sched_getaffinity(0)), free_memory() // SHARE))


def _passes(runner: Path, name: str) -> bool:
    """Runs a crate's tests in an empty folder, and prints what the runner says. One that says nothing has
    run nothing.
    """
    print(f"== {name}", flush=True)
    try:
        program = program_made(name)
    except Unmade as fault:
        say(fault)
        return False
    with tempfile.TemporaryDirectory(prefix="tests-") as folder:
        words = [runner, "--seconds", str(PATIENCE), program]
        ran = subprocess.run(words, cwd=folder, stdout=subprocess.PIPE, check=False)
    said = ran.stdout.decode("utf-8", "replace")
    print(said, end="", flush=True)
    return ran.returncode == 0 and PASSED.search(said) is not None
