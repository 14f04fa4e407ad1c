"""Tests that `bench/limits.py` finds programs that are wrong where their memory is short."""

from __future__ import annotations

import subprocess
import sys
import tempfile
import unittest
from pathlib import Path

from tests.support import ROOT, SECONDS

# A program that is right where it has a hundred megabytes, and does what SHORT says where it has less.
PROGRAM = """\
#!/bin/sh
limit=$(ulimit -v)
cat >/dev/null
case $1 in
check) echo valid ;;
audit) echo "$VERDICT" ;;
run)
    if [ "$limit" = unlimited ] || [ "$limit" -ge 100000 ]; then
        printf '0 shown\\njournal\\nroot u\\n1 0 begin start 0 => begun 1\\n'
        echo '2 0 end 1 started => ended started'
        exit 0
    fi
    {short}
    ;;
esac
"""
ENDS = "echo 'want of memory' >&2; exit 6"
REFUSED = "printf '0 refused want-of-memory\\njournal\\nroot u\\n1 0 begin start 0 => begun 1\\n'"
# What a program may do, with what is said of it, if anything.
CASES = (
    (ENDS, None),
    (f"printf '0 sho'; {ENDS}", None),
    (f"echo '0 refused want-of-memory'; {ENDS}", None),
    ("kill -SEGV $$", "status -11"),
    ("exit 6", "error stream ''"),
    ("echo '0 hidden'; exit 0", "another text"),
    (f"echo '0 hidden'; {ENDS}", "neither a front nor a line that was answered so"),
    (f"{REFUSED}; {ENDS}", "open actions 1"),
)


class LimitsTest(unittest.TestCase):
    """The script, over programs that are as they have to be, and others."""

    def tried(self, short: str, verdict: str = "legal 2") -> tuple[int, str]:
        """The status and the output of the script over a program that does so where its memory is short."""
        with tempfile.TemporaryDirectory() as folder:
            program = Path(folder) / "program"
            program.write_text(PROGRAM.replace("{short}", short), "utf-8")
            program.chmod(0o755)
            words = [sys.executable, ROOT / "bench" / "limits.py", "--seconds", "0.3", program, "one lane"]
            ran = subprocess.run(words, env={"PATH": "/usr/bin:/bin", "VERDICT": verdict}, timeout=SECONDS,
                                 capture_output=True, text=True, check=False)
        self.assertEqual(ran.stderr, "")
        return ran.returncode, ran.stdout

    def test_programs(self) -> None:
        """programs that end otherwise where their memory is short are told, and others aren't"""
        for short, said in CASES:
            with self.subTest(short):
                status, told = self.tried(short)
                self.assertEqual(status, 1 if said else 0, told)
                if said:
                    self.assertIn(f"KiB: {said}\n", told)

    def test_audit(self) -> None:
        """a journal that the program's own audit refuses is told"""
        printed = REFUSED.replace("begin start 0 => begun 1", "show 0 => gone 0")
        status, told = self.tried(f"{printed}; {ENDS}", "illegal 1 given gone 0 expected shown")
        self.assertEqual(status, 1)
        self.assertIn("KiB: the audit says illegal 1 given gone 0 expected shown\n", told)

    def test_words(self) -> None:
        """a run that isn't there is told, with status 2"""
        words = [sys.executable, ROOT / "bench" / "limits.py", "/bin/sh", "none"]
        ran = subprocess.run(words, timeout=SECONDS, capture_output=True, text=True, check=False)
        self.assertEqual((ran.returncode, ran.stdout), (2, ""))
        self.assertIn("no run is named none; there are one lane, ", ran.stderr)
