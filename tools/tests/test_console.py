"""Tests of how tools end: on a full device, on closed streams, by Ctrl-C; and of what bash completes."""

from __future__ import annotations

import shutil
import signal
import subprocess
import sys
import tempfile
import unittest
from pathlib import Path

from tests.support import JOURNALS, ROOT, SECONDS, TOOLS, heeds_interrupts, run
from tests.test_session import Server

JOURNAL = str(JOURNALS / "product.txt")
# A call of each tool that prints something.
CALLS = [
    ["realm", JOURNAL], ["realm", "--html", JOURNAL], ["explain", "--number", "51"], ["try", "--help"],
    ["check-all", str(ROOT / "examples"), "--program", "/bin/true"], ["definitions", "cm_io"],
    ["make-man", "--print"],
]


def called(words: list[str], shell: str) -> tuple[int, str]:
    """The status of a tool whose streams the shell's words change, and what stands on its error stream."""
    command = f'"$@" {shell}'
    ran = subprocess.run(
        ["sh", "-c", command, "sh", sys.executable, str(TOOLS / words[0]), *words[1:]], timeout=SECONDS,
        stdin=subprocess.DEVNULL, stdout=subprocess.PIPE, stderr=subprocess.PIPE, check=False,
    )
    return ran.returncode, ran.stderr.decode("utf-8")


class StreamTests(unittest.TestCase):
    """Each tool, where what it prints can't be written."""

    def test_full_device(self) -> None:
        """a full device is told in one line, with status 2"""
        for words in CALLS:
            status, told = called(words, ">/dev/full")
            self.assertEqual((status, told.count("\n")), (2, 1), (words, told))

    def test_closed_streams(self) -> None:
        """a closed output, a closed error stream and a closed pipe: no trace of the tool's own parts"""
        for words in CALLS:
            for shell in (">&-", "2>&-", "<&-", "| true", ">&- 2>&- <&-"):
                status, told = called(words, shell)
                self.assertNotIn("Traceback", told, (words, shell))
                self.assertNotIn("Exception", told, (words, shell))
                self.assertIn(status, (0, 2), (words, shell, told))

    def test_interrupted_session(self) -> None:
        """Ctrl-C ends a session that waits for its next line, with status 130 and without a word"""
        with tempfile.TemporaryDirectory() as folder:
            path = Path(folder) / "s"
            Server(path).start()
            command = [sys.executable, str(TOOLS / "session"), str(path)]
            with subprocess.Popen(command, stdin=subprocess.PIPE, stdout=subprocess.PIPE,
                                  stderr=subprocess.PIPE, preexec_fn=heeds_interrupts) as tool:
                assert tool.stdin and tool.stdout and tool.stderr
                tool.stdin.write(b"show .\n")
                tool.stdin.flush()
                tool.stdout.readline()
                tool.send_signal(signal.SIGINT)
                self.assertEqual(tool.wait(SECONDS), 130)
                self.assertEqual(tool.stderr.read(), b"")

    def test_journal_of_another_system(self) -> None:
        """a journal whose lines end in a carriage return is told as such"""
        data = Path(JOURNAL).read_bytes().replace(b"\n", b"\r\n")
        ran = run("realm", data=data)
        self.assertEqual((ran.status, ran.out, ran.err.count("\n")), (2, "", 1))
        self.assertIn("carriage return", ran.err)


class CompletionTests(unittest.TestCase):
    """What bash offers, in a folder that has folders of the same names as words."""

    def offered(self, *words: str) -> list[str]:
        """What is offered for the last word."""
        script = (
            'source "$1"; shift; COMP_WORDS=("$@"); COMP_CWORD=$(($# - 1))\n'
            'spec=$(complete -p "$1"); spec=${spec#*-F }; ${spec%% *} "$1"\n'
            'printf "%s\\n" "${COMPREPLY[@]}"; [[ $(complete -p "$1") != *filenames* ]]'
        )
        with tempfile.TemporaryDirectory() as folder:
            for name in ("run", "show", "serve", "prove"):
                Path(folder, name).mkdir()
            completion = str(TOOLS / "completion.bash")
            ran = subprocess.run(["bash", "-c", script, "bash", completion, *words], cwd=folder, check=True,
                                 timeout=SECONDS, capture_output=True, text=True)
        return sorted(ran.stdout.split())

    def test_words(self) -> None:
        """words where words are wanted, and files where files are"""
        if not shutil.which("bash"):
            self.skipTest("bash isn't here")
        self.assertEqual(self.offered("./component_manager", "r"), ["run"])
        self.assertEqual(self.offered("./component_manager", "serve", "run/cm", "--w"), ["--workers"])
        self.assertEqual(self.offered("./component_manager", "run", "--repo", "r"), ["run"])
        self.assertEqual(self.offered("./component_manager", "check", "s"), ["serve", "show"])
        self.assertEqual(self.offered("./component_manager", "help", "pr"), ["prove"])
        self.assertEqual(self.offered("tools/session", "run/cm", "sh"), ["show", "shutdown"])
        self.assertEqual(self.offered("tools/realm", "--ht"), ["--html"])
        self.assertEqual(self.offered("tools/realm", "p"), ["prove"])


if __name__ == "__main__":
    unittest.main()
