"""Tests what the program says of journals in which one thing was changed."""

from __future__ import annotations

import itertools
import os
import subprocess
import sys
import unittest
from collections import Counter
from concurrent.futures import ThreadPoolExecutor
from random import Random

from tests.journal_changes import KINDS, Entry, Journal
from tests.support import ROOT, SECONDS

sys.path.insert(0, str(ROOT / "bench"))

import soak

PROGRAM = os.environ.get("COMPONENT_MANAGER", "")
EXAMPLES = ("logger-route.txt", "whole-realm.txt", "reference/tour.txt", "reference/durability.txt",
            "reference/availability.txt", "reference/refused.txt")
SEEDS = (1, 2, 3, 5)
COUNT = 500
# How many audits run at once.
TOGETHER = 8
# How many of them aren't legal at least, so that who always says so is found.
WRONG = 400
# Journals whose bytes are changed anyhow, of which only the first line that may be told is known.
EDITS = 100

# The journal of examples/logger-route.txt with one line replaced, by its number in the text, and the verdict.
# Entry N stands on line N + 3.
BY_HAND = (
    (1, "\udcff\udcfe\0", "legal 11"),
    (2, "journal\udcff", "bad-text 15"),
    (2, "journal\r", "bad-text 15"),
    (3, "root fuchsia-pkg://t/\udcffa", "bad-text 3"),
    (3, "root ", "bad-text 3"),
    (3, "root a=>b", "legal 11"),
    (3, "root a => b", "bad-text 3"),
    (3, "1 0 find client => need 0", "bad-text 3"),
    (4, "1 0 find client => need 0\udcff", "bad-text 4"),
    (4, "1 0 find cli\udcffent => need 0", "bad-text 4"),
    (4, "1 0 find client => need 0\r", "illegal 1 given need 0\r expected need 0"),
    (4, "100000000000000000000 0 find client => need 0", "bad-text 4"),
    (4, "1 100000000000000000000 find client => need 0", "bad-text 4"),
    (4, "1 0 show 100000000000000000000 => need 0", "bad-text 4"),
    (4, "1 0 find client => need 100000000000000000000",
     "illegal 1 given need 100000000000000000000 expected need 0"),
    (4, "18446744073709551616 0 find client => need 0", "bad-text 4"),
    (4, "18446744073709551615 0 find client => need 0",
     "illegal 18446744073709551615 given need 0 expected number 1"),
    (4, "0 0 find client => need 0", "illegal 0 given need 0 expected number 1"),
    (4, "1 4294967295 find client => need 0", "legal 11"),
    (4, "1 4294967296 find client => need 0", "bad-text 4"),
    (4, "1 0 create 0 c n a=>b => need 0", "legal 11"),
    (4, "1 0 create 0 c n => => need 0", "legal 11"),
    (4, "1 0 create 0 c n a => b => need 0", "bad-text 4"),
    (4, "1 0 create 0 c n a => => need 0", "bad-text 4"),
    (4, "1 0 find client => => need 0", "bad-text 4"),
    (4, "1 0 find client =>", "bad-text 4"),
    (4, "1 0 find client => ", "illegal 1 given  expected need 0"),
    (4, "1 0 find . => found 0", "legal 11"),
    (4, "1 0 find . => need 0", "illegal 1 given need 0 expected found 0"),
    (5, "2 0 begin start 0 => begun 1", "illegal 2 given begun 1 expected need 0"),
    (5, "2 0 begin stop 0 => begun 1", "illegal 2 given begun 1 expected already"),
    (5, "2 0 exited 0 => left", "illegal 2 given left expected already"),
    (5, "2 0 pick 0 => done", "illegal 2 given done expected no-such-step"),
    (5, "2 0 purge 0 => purged 1", "illegal 2 given purged 1 expected no-such-step"),
    (5, "2 0 await 1 => ended resolved", "illegal 2 given ended resolved expected no-such-step"),
    (5, "2 0 end 1 absent => ended absent", "illegal 2 given ended absent expected no-such-step"),
    (5, "2 0 mark closing 0 => marked", "illegal 3 given ended resolved expected no-such-step"),
    (7, "4 0 find client => found 1", "illegal 4 given found 1 expected found 2"),
    (7, "4 0 find none => not-found .", "legal 11"),
    (7, "4 0 begin resolve 0 => already", "legal 11"),
    (7, "4 0 begin resolve 2 => begun 2", "illegal 6 given begun 2 expected joined 2"),
)


def told_by(words: list[str], text: bytes) -> str:
    """What the program writes of a text."""
    ran = subprocess.run([PROGRAM, *words], input=text, capture_output=True, timeout=SECONDS)
    return ran.stdout.decode("utf-8", "backslashreplace")


@unittest.skipUnless(PROGRAM, "COMPONENT_MANAGER names no program")
class ChangedJournalTests(unittest.TestCase):
    """Audits of journals that the program wrote, and that were changed then."""

    journals: list[Journal]

    @classmethod
    def setUpClass(cls) -> None:
        scripts = [(ROOT / "examples" / name).read_bytes() for name in EXAMPLES]
        scripts += [soak.case_of(seed, "eight_lanes").script().encode() for seed in SEEDS]
        cls.journals = [Journal(told_by(["run", "--journal"], script)) for script in scripts]

    def verdict(self, lines: list[str], end: str = "\n") -> str:
        """The program's verdict on lines."""
        told = told_by(["audit"], ("\n".join(lines) + end).encode("utf-8", "surrogateescape"))
        self.assertTrue(told.endswith("\n"))
        return told[:-1]

    def verdicts(self, journals: list[list[str]]) -> list[str]:
        """The program's verdicts on the lines of journals."""
        with ThreadPoolExecutor(TOGETHER) as together:
            return list(together.map(self.verdict, journals))

    def test_unchanged(self) -> None:
        """a journal as it was written is legal, with its last line feed and without"""
        for journal in self.journals:
            self.assertEqual(self.verdict(journal.lines), journal.legal)
            self.assertEqual(self.verdict(journal.lines, ""), journal.legal)

    def test_changed(self) -> None:
        """500 journals with one change each, of 22 kinds, get the verdict that is known by the change"""
        random, wrong = Random(1), 0
        made: list[tuple[str, list[str], str]] = []
        while len(made) < COUNT:
            kind = KINDS[len(made) % len(KINDS)]
            journal = random.choice(self.journals)
            changed = kind(journal, random)
            if changed is not None:
                made.append((kind.__name__, *changed))
                wrong += changed[1] != journal.legal
        for (name, lines, wanted), told in zip(made, self.verdicts([lines for _, lines, _ in made])):
            with self.subTest(kind=name, root=[line for line in lines if line.startswith("root ")]):
                self.assertEqual(told, wanted)
        self.assertEqual(Counter(name for name, _, _ in made).keys(), {kind.__name__ for kind in KINDS})
        self.assertGreater(wrong, WRONG)

    def test_by_hand(self) -> None:
        """41 journals with one line replaced, whose verdicts were written by hand"""
        lines = self.journals[0].lines
        self.assertEqual(lines[3], "1 0 find client => need 0")
        changed = [[*lines[: at - 1], line, *lines[at:]] for at, line, _ in BY_HAND]
        for (at, line, wanted), told in zip(BY_HAND, self.verdicts(changed)):
            with self.subTest(at=at, line=line):
                self.assertEqual(told, wanted)

    def test_cut(self) -> None:
        """a journal that is cut anywhere is told by the line that is cut, or is legal up to there"""
        text = "\n".join(self.journals[0].lines)
        cuts = [text[:end].split("\n") for end in Random(3).sample(range(len(text)), 40)]
        with ThreadPoolExecutor(TOGETHER) as together:
            verdicts = list(together.map(lambda lines: self.verdict(lines, ""), cuts))
        for lines, verdict in zip(cuts, verdicts):
            word, number = verdict.split(" ")[:2]
            entries = max(0, len(lines) - 4)
            if lines[-1] == "":
                self.assertIn((word, int(number)), (("legal", entries), ("bad-text", len(lines))))
            else:
                known = {"legal": len(lines) - 3, "illegal": entries + 1, "bad-text": len(lines)}
                known["bad-text"] += len(lines) < 3
                self.assertEqual(int(number), known[word], lines[-1])

    def test_nothing(self) -> None:
        """texts without lines of a journal"""
        for lines, end, wanted in (
            ([], "", "bad-text 1"), ([], "\n", "bad-text 2"), (["journal"], "", "bad-text 2"),
            (["journal"], "\n", "bad-text 2"), (["journal", "root u"], "", "legal 0"),
            (["journal", "root u", ""], "\n", "bad-text 3"),
        ):
            self.assertEqual(self.verdict(lines, end), wanted, lines)

    def test_picks(self) -> None:
        """four children that don't need each other are shut in any order, and their parent behind them"""
        names = ",".join(f'{{name:"{name}",url:"#l"}}' for name in "abcd")
        manifest = f"manifest x://h/p#r\n{{children:[{names}]}}\n%%\n"
        script = f"{manifest}root x://h/p#r\n0 resolve .\n0 shutdown .\n"
        journal = Journal(told_by(["run", "--journal"], script.encode()))
        picks = [entry for entry in journal.entries if entry.reply.startswith("shutdown ")]
        self.assertEqual([entry.reply for entry in picks[:-1]], [f"shutdown {it}" for it in range(1, 5)])
        orders = []
        for order in itertools.permutations(range(1, 5)):
            orders.append(list(journal.lines))
            for entry, row in zip(picks, order):
                orders[-1][entry.at] = entry.line(reply=f"shutdown {row}")
        self.assertEqual(self.verdicts(orders), [journal.legal] * 24)
        for entry in picks[:-1]:
            lines = journal.with_lines(entry.at, [entry.line(reply="shutdown 0")])
            wanted = f"illegal {entry.number} given shutdown 0 expected another-pick"
            self.assertEqual(self.verdict(lines), wanted)

    def test_bytes(self) -> None:
        """where a byte of an entry is changed, no verdict names an earlier line"""
        random = Random(2)
        edited = [self.edited(random) for _ in range(EDITS)]
        for (entry, text, lines), verdict in zip(edited, self.verdicts([lines for _, _, lines in edited])):
            word, number = verdict.split(" ")[:2]
            least = {"legal": 1, "illegal": entry.number, "bad-text": entry.at + 1}[word]
            is_own = word == "illegal" and text.startswith(f"{number} ")
            self.assertTrue(is_own or int(number) >= least, f"{text} => {verdict}")

    def edited(self, random: Random) -> tuple[Entry, str, list[str]]:
        """An entry, its line with a byte changed, and the journal's lines then."""
        journal = random.choice(self.journals)
        entry = random.choice(journal.entries)
        line = entry.line()
        at = random.randrange(len(line))
        text = line[:at] + random.choice(("", "\udcff", "7", " ", "x")) + line[at + 1 :]
        return entry, text, journal.with_lines(entry.at, [text])


if __name__ == "__main__":
    unittest.main()
