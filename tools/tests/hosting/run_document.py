"""The commands of docs/HOST.md, in their order, against what it says that they print."""

from __future__ import annotations

import os
import re
import shutil
import subprocess
import threading
import unittest
from pathlib import Path

from tests.hosting.trial import PATIENCE, TOOLS, folder, kill_all, need_layers, still_there

DOCUMENT = TOOLS.parent / "docs/HOST.md"


def commands(text: str) -> list[tuple[str, list[str]]]:
    """Each command of the fenced blocks, with the lines that it is said to print."""
    found: list[tuple[str, list[str]]] = []
    for block in re.findall(r"^```console\n(.*?)^```", text, re.M | re.S):
        for line in block.splitlines():
            if line.startswith("$ "):
                found.append((line[2:], []))
            else:
                found[-1][1].append(line)
    return found


def fits(wanted: list[str], lines: list[str]) -> bool:
    """Whether lines are as they are said: `...` stands for any text, and as a line for any lines."""
    text = "".join(r"(?:.*\n)*" if line == "..." else re.escape(line).replace(re.escape("..."), ".*") + "\n"
                   for line in wanted)
    return re.fullmatch(text, "".join(line + "\n" for line in lines)) is not None


class Document(unittest.TestCase):
    """A reader who follows the page."""

    def test_document(self) -> None:
        """each command of docs/HOST.md does what the page says"""
        if shutil.which("socat") is None:
            self.skipTest("socat isn't here")
        base = folder()
        self.base = str(base)
        self.addCleanup(shutil.rmtree, base, True)
        for name in "tools", "examples", "docs":
            (base / name).symlink_to(TOOLS.parent / name)
        shell = subprocess.Popen(["bash"], stdin=subprocess.PIPE, stdout=subprocess.PIPE, text=True, cwd=base,
                                 stderr=subprocess.STDOUT, env={**os.environ, "DIR": str(base / "r")})
        self.addCleanup(self.stop, shell)
        assert shell.stdin is not None
        for command, wanted in commands(DOCUMENT.read_text("utf-8")):
            lines = self.printed(shell, command)
            need_layers(self.screen())
            self.assertTrue(fits(wanted, lines), f"{command}\nis said to print {wanted}\nand prints {lines}")
        shell.stdin.close()
        self.assertEqual(shell.wait(PATIENCE), 0)
        self.assertEqual(still_there(str(base)), [])

    def screen(self) -> str:
        """What the host shows that was started last."""
        place = Path(self.base) / "screen.txt"
        return place.read_text(errors="replace") if place.exists() else ""

    def printed(self, shell: subprocess.Popen[str], command: str) -> list[str]:
        """The lines that a command prints. One that hangs is ended, and its shell with all that it began."""
        assert shell.stdin is not None and shell.stdout is not None
        ends = threading.Timer(PATIENCE, lambda: (shell.kill(), kill_all(self.base)))
        ends.start()
        shell.stdin.write(f"{command}\necho '== end'\n")
        shell.stdin.flush()
        lines = []
        while (line := shell.stdout.readline()) not in ("== end\n", ""):
            lines.append(line.rstrip("\n"))
        ends.cancel()
        return lines if line else [*lines, "(the shell has ended)"]

    def stop(self, shell: subprocess.Popen[str]) -> None:
        """Ends what a command that failed has left."""
        if shell.stdin is not None and not shell.stdin.closed:
            shell.stdin.close()
        if shell.stdout is not None:
            shell.stdout.close()
        try:
            shell.wait(1)
        except subprocess.TimeoutExpired:
            shell.kill()
            shell.wait()
        kill_all(self.base)
