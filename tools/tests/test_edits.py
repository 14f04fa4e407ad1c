"""Tests of the wrong bodies: that each can be put in its file, and what `bench/edits.py` hands to rt."""

from __future__ import annotations

import os
import subprocess
import sys
import tempfile
import unittest
from pathlib import Path

from cm_tools import workshops
from tests.support import ROOT, SECONDS

SCRIPT = ROOT / "bench" / "edits.py"
HERE = ROOT / "bench" / "edits"
# Stands for rt: tells its words and the files of the copy, and ends with a status of its own.
STANDS_IN = '#!/bin/sh\necho "$@"\nfind . -type f | cut -c3- | LC_ALL=C sort\nexit 5\n'


def edits_in(folder: Path) -> dict[str, set[str]]:
    """The names of the edits of each crate: in the crates' own folders, or below bench/edits."""
    found: dict[str, set[str]] = {}
    for path in folder.glob("*/must-fail/*" if folder.name == "crates" else "*/*"):
        found.setdefault(path.relative_to(folder).parts[0], set()).add(path.name)
    return found


class EditTests(unittest.TestCase):
    """The edits as they stand in the checkout."""

    def test_apply(self) -> None:
        """each old line of an edit, the gate's or another, stands once in its file"""
        for path in [*ROOT.glob("crates/*/must-fail/*"), *HERE.glob("*/*")]:
            crate = path.parent.name if path.is_relative_to(HERE) else path.parts[-3]
            with self.subTest(edit=str(path.relative_to(ROOT))):
                self.assertEqual(path.suffix, ".edit")
                texts, file, old = {}, "", ""
                for line in path.read_text("utf-8").splitlines():
                    kind, _, rest = line.partition(":")
                    if kind == "file":
                        file = str(ROOT / "crates" / crate / rest.strip())
                        texts.setdefault(file, Path(file).read_text("utf-8"))
                    elif kind == "old":
                        old = rest[1:]
                        self.assertEqual(texts[file].count(old), 1, old)
                    elif kind == "new":
                        texts[file] = texts[file].replace(old, rest[1:])
                self.assertTrue(old)

    def test_folders(self) -> None:
        """no edit is in both folders, and a crate that has some has one that the gate tries"""
        gate, others = edits_in(ROOT / "crates"), edits_in(HERE)
        self.assertTrue(others)
        for crate, names in others.items():
            self.assertTrue(gate.get(crate))
            self.assertEqual(gate[crate] & names, set())


class ScriptTests(unittest.TestCase):
    """What the script hands to rt, over one that stands in, in a small checkout of three crates."""

    def setUp(self) -> None:
        folder = tempfile.TemporaryDirectory()
        self.addCleanup(folder.cleanup)
        self.top = Path(folder.name, "top")
        for name in ("gate.py", "edits.py"):
            self.lay(f"bench/{name}", (ROOT / "bench" / name).read_text("utf-8"))
        self.lay("crates.txt", "one: thing\ntwo may_wait=1: one\nthree: two\nfour: one\n")
        self.lay("HANDLES", "Handles allowed: none.\n")
        for crate in ("one", "two", "three", "four"):
            for part in ("src/lib.rt", "out/rlib/stamp", "out/incremental/a.oantt", "out/stdout"):
                self.lay(f"crates/{crate}/{part}", crate)
        for place in ("crates/two/must-fail/gates", "bench/edits/two/ours", "bench/edits/four/fours"):
            self.lay(f"{place}.edit", "file: src/lib.rt\n")
        workshops.write_script(Path(folder.name, "rt"), STANDS_IN)
        self.given = {**os.environ, "PATH": f"{folder.name}:{os.environ['PATH']}"}

    def lay(self, place: str, text: str) -> None:
        """Lays a file of the checkout."""
        path = self.top / place
        path.parent.mkdir(parents=True, exist_ok=True)
        path.write_text(text, "utf-8")

    def ran(self, *words: str, **given: str) -> subprocess.CompletedProcess[str]:
        """What comes of the script."""
        command = [sys.executable, self.top / "bench/edits.py", *words]
        return subprocess.run(command, env={**self.given, **given}, text=True, capture_output=True,
                              timeout=SECONDS, check=False)

    def test_one_crate(self) -> None:
        """a crate goes to rt with those below it, with these edits alone and with what was kept"""
        ran = self.ran("two")
        self.assertEqual((ran.returncode, ran.stderr), (5, ""))
        first, *files = ran.stdout.splitlines()
        self.assertEqual(first, "must-fail two")
        kept = [f"crates/{it}/{part}" for it in ("one", "two")
                for part in ("out/incremental/a.oantt", "out/rlib/stamp", "src/lib.rt")]
        self.assertEqual(files, sorted(["HANDLES", "crates.txt", "crates/two/must-fail/ours.edit", *kept]))

    def test_all_crates(self) -> None:
        """without names all crates go to rt that have edits"""
        self.assertEqual(self.ran().stdout.splitlines()[0], "must-fail four two")

    def test_unusable(self) -> None:
        """a name of no crate, one without edits and a missing rt are a line each"""
        for words, path, told in ((["five"], self.given["PATH"], "no crate is named five"),
                                  (["one"], self.given["PATH"], "one has no edits in bench/edits"),
                                  ([], "/nowhere", "the kit's tool rt is not on the path")):
            ran = self.ran(*words, PATH=path)
            self.assertEqual((ran.returncode, ran.stdout, ran.stderr), (2, "", f"edits.py: {told}\n"))
