"""Tests of `session`, the client, over a server that stands in for the component manager."""

from __future__ import annotations

import os
import re
import socket
import subprocess
import sys
import tempfile
import threading
import unittest
import unittest.mock
from pathlib import Path

from cm_tools.session_main import REPLY
from tests.support import ROOT, SECONDS, TOOLS, run, run_process

SHOWN = "shown . incarnation 0 url fuchsia-pkg://t/a#meta/root.cm resolved on\n"
# A reply of three lines, in which a line is told to be refused.
CHECKED = "doctor . 2\n  a /svc/p refused 88 void at offer .\n  b unresolved\n"
REFUSED = "refused 80 not-found in .\n"
REPLIES = {"show .": SHOWN, "doctor .": CHECKED, "stop x": REFUSED}
UNKNOWN = "refused 70 bad-command at 0\n"

# Commands to the product, and what the program replies.
PRODUCT_COMMANDS = ("start session", "show session", "list session elements", "open session /svc/none")
PRODUCT_REPLIES = """\
started session action 3
shown session incarnation 5 url fuchsia-pkg://fuchsia.com/session#meta/session.cm resolved on
children session elements 0
refused 86 no-such-use
"""


class Server(threading.Thread):
    """Serves one session: each line gets its reply, in pieces of one byte, and `quit` ends it.

    After `limit` lines, or in the middle of the reply behind them where it is to be cut, it hangs up.
    """

    def __init__(self, path: Path, limit: int = 1000, is_cut: bool = False) -> None:
        super().__init__(daemon=True)
        self.limit, self.is_cut = limit, is_cut
        self.door = socket.socket(socket.AF_UNIX, socket.SOCK_STREAM)
        self.door.bind(str(path))
        self.door.listen()

    def run(self) -> None:
        link, _ = self.door.accept()
        with self.door, link, link.makefile("rb") as lines:
            for number, line in enumerate(lines):
                text = line.decode().rstrip("\n")
                if text == "quit":
                    break
                reply = REPLIES.get(text, UNKNOWN).encode()
                if number == self.limit:
                    link.sendall(reply[:3] if self.is_cut else b"")
                    break
                for place in range(len(reply)):
                    link.sendall(reply[place : place + 1])
            link.shutdown(socket.SHUT_RDWR)


class SessionTests(unittest.TestCase):
    """One session each."""

    def served(self, *commands: str, data: bytes = b"", limit: int = 1000,
               is_cut: bool = False) -> tuple[int, str, str]:
        with tempfile.TemporaryDirectory() as folder:
            path = Path(folder) / "s"
            Server(path, limit, is_cut).start()
            ran = run("session", str(path), *commands, data=data)
            return ran.status, ran.out, ran.err

    def test_commands(self) -> None:
        """commands as words and as lines: the replies, and 1 where one was refused"""
        self.assertEqual(self.served("show ."), (0, SHOWN, ""))
        self.assertEqual(self.served("show .", "stop x", "show ."), (1, SHOWN + REFUSED + SHOWN, ""))
        self.assertEqual(self.served(data=b"show .\nshow ."), (0, SHOWN + SHOWN, ""))
        self.assertEqual(self.served(data=b"\nshow .\n"), (1, UNKNOWN + SHOWN, ""))
        self.assertEqual(self.served(), (0, "", ""))

    def test_long_replies(self) -> None:
        """a reply of several lines is one reply, and what is refused within it refuses no command"""
        self.assertEqual(self.served("doctor .", "show ."), (0, CHECKED + SHOWN, ""))

    def test_quit(self) -> None:
        """nothing behind a `quit` is sent"""
        self.assertEqual(self.served("show .", "quit", "stop x"), (0, SHOWN, ""))
        self.assertEqual(self.served(data=b"show .\nquit\nstop x\n"), (0, SHOWN, ""))
        self.assertEqual(self.served("quit"), (0, "", ""))

    def test_early_end(self) -> None:
        """a session that ends before each command has its reply: one line, status 2"""
        told = "session: the session ended early, behind 1 whole reply\n"
        self.assertEqual(self.served("show .", "show .", "show .", limit=1), (2, SHOWN, told))
        self.assertEqual(self.served("show .", "show .", "show .", limit=1, is_cut=True),
                         (2, SHOWN + SHOWN[:3], told))
        told = "session: the session ended early, behind 0 whole replies\n"
        self.assertEqual(self.served("show .", limit=0), (2, "", told))

    def test_another_server(self) -> None:
        """a server of another kind: one line, status 2"""
        with unittest.mock.patch.dict(REPLIES, {"show .": "HTTP/1.1 400 Bad Request\n"}):
            status, out, err = self.served("show .")
        self.assertEqual((status, out), (2, "HTTP/1.1 400 Bad Request\n"))
        told = "what answers there is no component manager: 'HTTP/1.1 400 Bad Request'"
        self.assertEqual(err, f"session: {told}\n")

    def test_known_replies(self) -> None:
        """each reply of the reference's table is one"""
        told = re.findall(r"^\| `(\w[^`]*)`", self.section("Replies"), re.M)
        self.assertEqual(len(told), 16)
        for text in told:
            self.assertTrue(REPLY.match(text.encode()), text)

    def section(self, title: str) -> str:
        text = (ROOT / "docs" / "REFERENCE.md").read_text("utf-8")
        return text.partition(f"\n## {title}\n")[2].partition("\n## ")[0]

    def test_waiting(self) -> None:
        """a server that comes later is waited for, and one that doesn't come is told"""
        with tempfile.TemporaryDirectory() as folder:
            path = Path(folder) / "s"
            later = threading.Timer(0.3, lambda: Server(path).start())
            later.start()
            self.assertEqual(run("session", "--wait", str(SECONDS), str(path), "show .").out, SHOWN)
            later.join()
            ran = run("session", "--wait", "0.1", f"{folder}/none", "show .")
            self.assertEqual((ran.status, ran.out, ran.err.count("\n")), (2, "", 1))

    def test_each_line_as_it_comes(self) -> None:
        """a line of the standard input is sent, and its reply printed, before the next one comes"""
        with tempfile.TemporaryDirectory() as folder:
            path = Path(folder) / "s"
            Server(path).start()
            command = [sys.executable, str(TOOLS / "session"), str(path)]
            with subprocess.Popen(command, stdin=subprocess.PIPE, stdout=subprocess.PIPE) as tool:
                assert tool.stdin and tool.stdout
                for line, reply in ((b"show .\n", SHOWN), (b"stop x\n", REFUSED)):
                    tool.stdin.write(line)
                    tool.stdin.flush()
                    self.assertEqual(tool.stdout.readline(), reply.encode())
                tool.stdin.close()
                self.assertEqual(tool.wait(SECONDS), 1)

    def test_many_commands(self) -> None:
        """more commands and replies than the system holds between the two ends"""
        count = 3000
        status, out, err = self.served(data=b"show .\n" * count, limit=count)
        self.assertEqual((status, out.count("\n"), err), (0, count, ""))

    def test_no_server(self) -> None:
        """no socket, another kind of file, a path that is too long: one line, status 2"""
        with tempfile.TemporaryDirectory() as folder:
            plain = Path(folder) / "plain"
            plain.write_text("")
            for path in (f"{folder}/none", str(plain), f"{folder}/{'s' * 200}"):
                ran = run_process("session", path, "show .")
                self.assertEqual((ran.status, ran.out, ran.err.count("\n")), (2, "", 1), path)

    def test_bad_words(self) -> None:
        """a command with a line end, and no socket at all"""
        ran = run("session", "s", "show .\nshow .")
        self.assertEqual((ran.status, ran.out, ran.err.count("\n")), (2, "", 1))
        ran = run("session")
        self.assertEqual((ran.status, ran.err.count("\n")), (2, 1))


class ProgramTests(unittest.TestCase):
    """A session with the program itself."""

    def test_program(self) -> None:
        """a session with the program that serves the product (where COMPONENT_MANAGER names it)"""
        program = os.environ.get("COMPONENT_MANAGER")
        if not program:
            self.skipTest("COMPONENT_MANAGER names no program")
        with tempfile.TemporaryDirectory() as folder:
            path = os.path.join(folder, "s")
            words = ["serve", path, "--root", "fuchsia-pkg://fuchsia.com/product#meta/product.cm",
                     "--repo", str(ROOT / "examples" / "product" / "packages")]
            with subprocess.Popen([program, *words]) as server:
                try:
                    ran = run("session", "--wait", str(SECONDS), path, *PRODUCT_COMMANDS)
                    self.assertEqual((ran.status, ran.out, ran.err), (1, PRODUCT_REPLIES, ""))
                    self.assertEqual(server.wait(SECONDS), 0)
                finally:
                    # Where it isn't asked, it never ends by itself.
                    server.kill()
