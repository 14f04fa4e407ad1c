"""Tests that `bench/soak.py` finds programs that are wrong, and makes a script that fails small."""

from __future__ import annotations

import os
import subprocess
import sys
import tempfile
import unittest
from pathlib import Path
from unittest import mock

from tests import wrong_program
from tests.support import ROOT, SECONDS, TESTS

sys.path.insert(0, str(ROOT / "bench"))

import journals
import realms
import soak

WRONG = TESTS / "wrong_program.py"
PROGRAM = os.environ.get("COMPONENT_MANAGER", "")
SEEDS = range(1, 9)
# How long a smaller script is looked for, in seconds: one that is a little smaller is found at once.
SHRINK = 30
# A way of being wrong, the kind of case that shows it, and how what differs begins.
WRONG_WAYS = (
    ("reply_word", "eight_lanes", "no entry of caller "),
    ("reply_word", "one_lane", "no entry of caller 0 "),
    ("reply_number", "eight_lanes", "no entry of caller "),
    ("reply_of_another", "eight_lanes", "no entry of caller "),
    ("answer_dropped", "eight_lanes", "the lanes of the answers"),
    ("journal_number", "eight_lanes", "the audit, "),
    ("journal_caller", "eight_lanes", "no entry of caller "),
    ("entry_dropped", "eight_lanes", "the audit, "),
    ("last_entry_dropped", "eight_lanes", "no entry of caller "),
    ("always_legal", "eight_lanes", "the audit of a changed number"),
    ("session_word", "one_lane", "a session beside a lane"),
    ("session_word", "killed_server", "what a server had sent that was killed"),
    ("session_reply_dropped", "eight_sessions", "a session: the replies of a session"),
    ("session_reply_dropped", "killed_clients", "a session: the replies of a session"),
)
ENTRIES = [
    (1, 0, "find a", "found 1"),
    (2, 1, "show 1", "shown resolved on"),
    (3, 0, "list 1 k", "listed 1 [x incarnation 2]"),
    (4, 0, "find b", "not-found ."),
]
LISTED = ["children a k 1", "x incarnation 2"]
NOT_FOUND = ["refused 80 not-found in ."]


class WrongRuns(soak.Soak):
    """The program, whose runs and audits are changed in one way."""

    def __init__(self, way: str) -> None:
        super().__init__(PROGRAM)
        self.way = way

    def ran(self, words: list[str], text: bytes) -> bytes:
        """What the program writes, changed."""
        told = super().ran(words, text)
        if words[0] == "run" and self.way in wrong_program.RUNS:
            return wrong_program.RUNS[self.way](told)
        if words[0] == "audit" and self.way in wrong_program.AUDITS:
            return wrong_program.AUDITS[self.way](text, told)
        return told


class JournalTests(unittest.TestCase):
    """What the answers of a caller are held against."""

    def test_decided(self) -> None:
        """each answer is decided by an entry of its caller, in their order"""
        own = [entry for entry in ENTRIES if entry[1] == 0]
        self.assertIsNone(journals.odd_reply([LISTED, NOT_FOUND], own))
        self.assertEqual(journals.odd_reply([NOT_FOUND, LISTED], own), LISTED[0])
        self.assertEqual(journals.odd_reply([LISTED, LISTED], own), LISTED[0])
        self.assertEqual(journals.odd_reply([[LISTED[0], "x incarnation 3"]], own), LISTED[0])
        self.assertEqual(journals.odd_reply([["nothing known"]], own), "nothing known")

    def test_entries(self) -> None:
        """an event ends at the last arrow of its line"""
        line = "3 0 create 0 c x a => b => need 0"
        self.assertEqual(journals.entry_of(line), (3, 0, "create 0 c x a => b", "need 0"))

    def test_happenings(self) -> None:
        """what a stream tells is what the entry of that number was answered"""
        entries = [(1, 0, "end 1 started", "ended started")]
        right = [["events . 1 next 2", "1 started . incarnation 0"]]
        self.assertIsNone(journals.odd_happening(right, entries))
        for line in ("1 stopped . incarnation 0", "2 started . incarnation 0", "1 eaten . incarnation 0"):
            self.assertEqual(journals.odd_happening([["events . 1 next 2", line]], entries), line)


class ShrinkingTests(unittest.TestCase):
    """The smallest script that still fails."""

    def test_commands(self) -> None:
        """of 40 commands and all manifests those are left without which nothing fails"""
        case = soak.case_of(1, "eight_lanes")
        lines = tuple(f"{number % 8} show @{number}" for number in range(40))
        case = realms.Case(case.manifests, ("builtin protocol p",), lines)
        fails = lambda it: {lines[7], lines[31]} <= set(it.lines) and "m1.cm" in it.manifests
        least = soak.smallest(case, fails, SECONDS)
        self.assertEqual((least.lines, [*least.manifests]), ((lines[7], lines[31]), ["m1.cm"]))
        self.assertEqual(least.builtins, ())

    def test_time(self) -> None:
        """a script stays as it is where there is no time"""
        case = soak.case_of(1, "eight_lanes")
        self.assertEqual(soak.smallest(case, lambda it: True, -1), case)

    def test_seeds(self) -> None:
        """a seed gives the same case each time, and another seed another one"""
        self.assertEqual(soak.case_of(5, "one_lane"), soak.case_of(5, "one_lane"))
        self.assertNotEqual(soak.case_of(5, "one_lane"), soak.case_of(6, "one_lane"))


@unittest.skipUnless(PROGRAM, "COMPONENT_MANAGER names no program")
class WrongProgramTests(unittest.TestCase):
    """Programs that are wrong in one way."""

    def found(self, way: str, name: str) -> list[str]:
        """What differs of the first cases of a kind, up to the first that does.

        What sessions reply is changed by a program between them and the right one.
        """
        tried = soak.Soak(str(WRONG)) if way in wrong_program.SESSIONS else WrongRuns(way)
        for seed in SEEDS:
            differs = soak.tried(tried, name, seed, soak.case_of(seed, name))
            if differs:
                return [differs]
        return []

    def test_wrong(self) -> None:
        """each of the ways of being wrong is found within eight seeds, and told as what it is"""
        for way, name, begins in WRONG_WAYS:
            with self.subTest(way=way, kind=name):
                with mock.patch.dict(os.environ, {"RIGHT": os.path.abspath(PROGRAM), "WRONG": way}):
                    found = self.found(way, name)
                self.assertEqual([text[: len(begins)] for text in found], [begins], found)

    def test_told(self) -> None:
        """a failure prints the seed, how to have it again, and a smaller script; its status is 1"""
        words = ["--seed", "1", "--cases", "1", "--only", "one_lane", "--shrink", str(SHRINK), str(WRONG)]
        environment = {**os.environ, "RIGHT": os.path.abspath(PROGRAM), "WRONG": "entry_dropped"}
        ran = subprocess.run([sys.executable, ROOT / "bench" / "soak.py", *words], env=environment,
                             capture_output=True, text=True, timeout=SECONDS)
        self.assertEqual((ran.returncode, ran.stderr), (1, ""))
        self.assertIn("\nseed 1, one_lane: the audit, ", f"\n{ran.stdout}")
        self.assertIn("again by: bench/soak.py --seed 1 --cases 1 --only one_lane ", ran.stdout)
        script = ran.stdout.partition("the smallest script that still fails, of ")[2]
        whole = soak.case_of(1, "one_lane")
        self.assertLess(int(script.split(" ")[0]), len(whole.commands()))
        self.assertIn(f"\nroot {realms.PACKAGE}m0.cm\n", script)

    def test_served_journal(self) -> None:
        """of the sessions of a journal each has a worker of its own, whose entries decide its replies"""
        case = soak.case_of(2, "eight_lanes")
        told = soak.Soak(PROGRAM).ran(["run", "--journal"], case.script().encode())
        answers, head, journal = told.partition(b"journal\n")
        lanes: dict[bytes, bytes] = {}
        for lines in journals.replies_of(answers.decode()):
            lane, first = lines[0].encode().split(b" ", 1)
            text = b"\n  ".join([first, *(line.encode() for line in lines[1:])])
            lanes[lane] = lanes.get(lane, b"") + text + b"\n"
        right = list(lanes.values())
        self.assertEqual(len(right), soak.LANES)
        self.assertEqual(self.served(head + journal, right), "")
        told_more = [*right[1:], right[0] + b"shut x\n"]
        self.assertIn("no worker's entries", self.served(head + journal, told_more))
        self.assertIn("one worker's entries", self.served(head + journal, [*right, max(right, key=len)]))
        wrong = journal.replace(b"\n9 ", b"\n10 ", 1)
        self.assertIn("the audit, ", self.served(head + wrong, right))

    def served(self, journal: bytes, sessions: list[bytes]) -> str:
        """What differs between the journal of a served realm and what sessions were replied, or no text."""
        tried = soak.Soak(PROGRAM)
        tried.keeps_journals = True
        with tempfile.TemporaryDirectory() as folder:
            Path(folder, "journal").write_bytes(journal)
            try:
                tried.check_served(folder, sessions)
            except soak.Odd as odd:
                return str(odd)
        return ""

    def test_right(self) -> None:
        """nothing differs of the program itself: one seed of each kind"""
        tried = soak.Soak(PROGRAM)
        for name in soak.KINDS:
            self.assertIsNone(soak.tried(tried, name, 1, soak.case_of(1, name)), name)


if __name__ == "__main__":
    unittest.main()
