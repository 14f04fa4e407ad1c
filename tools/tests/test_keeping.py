"""Tests of the journal of a served realm, which the program that COMPONENT_MANAGER names keeps in a file."""

from __future__ import annotations

import os
import resource
import signal
import subprocess
import tempfile
import unittest
from pathlib import Path

from tests.support import ROOT, SECONDS, Ran, run

PROGRAM = os.environ.get("COMPONENT_MANAGER", "")
URL = "fuchsia-pkg://fuchsia.com/product#meta/product.cm"
PACKAGES = ROOT / "examples" / "product" / "packages"
COMMANDS = ("start session", "show session", "open session /svc/none", "stop session", "shutdown .")


@unittest.skipUnless(PROGRAM, "COMPONENT_MANAGER names no program")
class KeepingTests(unittest.TestCase):
    """What stands at the path that COMPONENT_JOURNAL tells, and what doesn't."""

    def setUp(self) -> None:
        folder = tempfile.TemporaryDirectory()
        self.addCleanup(folder.cleanup)
        self.folder = Path(folder.name)
        self.socket, self.place = self.folder / "s", self.folder / "kept" / "journal"
        self.place.parent.mkdir()

    def begin(self, place: str | bytes | Path | None, *words: str, limit: int | None = None,
              ) -> subprocess.Popen[str]:
        """Starts a server whose journal is to be kept there; with a limit no file may get longer."""
        environment: dict[bytes, bytes] = {**os.environb}
        environment.pop(b"COMPONENT_JOURNAL", None)
        if place is not None:
            environment[b"COMPONENT_JOURNAL"] = os.fsencode(place)

        def bound() -> None:
            if limit is not None:
                signal.signal(signal.SIGXFSZ, signal.SIG_IGN)
                resource.setrlimit(resource.RLIMIT_FSIZE, (limit, limit))

        command = [PROGRAM, "serve", str(self.socket), "--root", URL, "--repo", str(PACKAGES), *words]
        server = subprocess.Popen(command, env=environment, preexec_fn=bound, text=True,
                                  stdin=subprocess.DEVNULL, stdout=subprocess.PIPE, stderr=subprocess.PIPE)
        self.addCleanup(self.let_go, server)
        return server

    def let_go(self, server: subprocess.Popen[str]) -> None:
        if server.poll() is None:
            server.kill()
        server.communicate()

    def end(self, server: subprocess.Popen[str]) -> Ran:
        """Waits for its end."""
        out, err = server.communicate(timeout=SECONDS)
        return Ran(server.returncode, out, err)

    def ask(self, *commands: str) -> list[str]:
        """Holds a session."""
        ran = run("session", "--wait", str(SECONDS), str(self.socket), *commands)
        self.assertEqual(ran.err, "")
        return ran.out.splitlines()

    def files(self) -> list[str]:
        """What stands in the folder of the journal."""
        return sorted(os.listdir(self.place.parent))

    def audit(self) -> str:
        journal = self.place.read_bytes()
        ran = subprocess.run([PROGRAM, "audit"], input=journal, capture_output=True, timeout=SECONDS)
        return ran.stdout.decode()

    def test_same_as_a_run(self) -> None:
        """the journal of one session is, byte by byte, what `run --journal` writes of the same commands"""
        server = self.begin(self.place, "--workers", "1")
        replies = self.ask(*COMMANDS)
        self.assertEqual(self.end(server), Ran(0, "", ""))
        script = f"root {URL}\n" + "".join(f"0 {command}\n" for command in COMMANDS)
        command = [PROGRAM, "run", "--journal", "--repo", str(PACKAGES)]
        ran = subprocess.run(command, input=script, capture_output=True, text=True, timeout=SECONDS)
        answers, _, journal = ran.stdout.partition("journal\n")
        self.assertEqual([line.removeprefix("0 ") for line in answers.splitlines()], replies)
        self.assertEqual(self.place.read_text(), "journal\n" + journal)
        self.assertEqual(self.files(), ["journal"])

    def test_of_many_sessions(self) -> None:
        """the journal of sessions side by side is legal, and has all that each of them was told"""
        server = self.begin(self.place, "--sessions", "3", "--workers", "3")
        replies = [self.ask("start session", "stop session") for _ in range(3)]
        self.assertEqual(self.end(server), Ran(0, "", ""))
        lines = self.place.read_text().splitlines()
        self.assertEqual(self.audit(), f"legal {len(lines) - 2}\n")
        begun = [line for line in lines if " begin start 5 => begun " in line]
        self.assertEqual([f"started session action {line.split()[-1]}" for line in begun],
                         [reply[0] for reply in replies])

    def test_realm_reads_it(self) -> None:
        """tools/realm draws the realm of such a journal"""
        server = self.begin(self.place)
        self.ask("start session")
        self.end(server)
        ran = run("realm", str(self.place), audited=True)
        self.assertEqual((ran.status, ran.err), (0, ""))
        self.assertIn("session", ran.out)

    def test_nothing_is_kept(self) -> None:
        """without the variable, and for all other words, nothing is kept"""
        server = self.begin(None)
        self.ask("show .")
        self.assertEqual(self.end(server), Ran(0, "", ""))
        environment = {**os.environ, "COMPONENT_JOURNAL": str(self.place)}
        for words in (["run", "--journal"], ["check"], ["generate", "1", "2"], ["serve"], ["none"]):
            command = [PROGRAM, *words]
            ran = subprocess.run(command, input=b"{}", capture_output=True, timeout=SECONDS)
            told = subprocess.run(command, input=b"{}", capture_output=True, timeout=SECONDS,
                                  env=environment)
            self.assertEqual((told.returncode, told.stdout, told.stderr),
                             (ran.returncode, ran.stdout, ran.stderr))
        self.assertEqual(self.files(), [])

    def test_places_where_none_can_stand(self) -> None:
        """a path at which no journal can be kept is told before the door opens, with status 4"""
        (self.folder / "plain").write_text("")
        rows: list[tuple[str | bytes, str]] = [
            ("", "no file is named"),
            (b"\xff", "no file is named"),
            (str(self.place.parent), "is a directory"),
            (f"{self.place}/", "is a directory"),
            ("/dev/null", "not a regular file"),
            (f"{self.folder}/none/journal", "No such file or directory (os error 2)"),
            (f"{self.folder}/plain/journal", "Not a directory (os error 20)"),
            (f"{self.place.parent}/{'j' * 250}", "File name too long (os error 36)"),
            (f"{self.place.parent}/{'j' * 256}", "File name too long (os error 36)"),
        ]
        for place, why in rows:
            ran = self.end(self.begin(place))
            named = "" if why == "no file is named" else f"{os.fsdecode(place)}: "
            self.assertEqual(ran, Ran(4, "", f"journal fault: {named}{why}\n"))
            self.assertFalse(self.socket.exists())
        self.assertEqual(self.files(), [])

    @unittest.skipIf(os.geteuid() == 0, "root may write everywhere")
    def test_folder_without_rights(self) -> None:
        """a folder that can't be written is told before the door opens, with status 4"""
        self.place.parent.chmod(0o500)
        ran = self.end(self.begin(self.place))
        self.assertEqual(ran, Ran(4, "", f"journal fault: {self.place}: Permission denied (os error 13)\n"))
        self.place.parent.chmod(0o700)
        self.assertEqual(self.files(), [])

    def test_what_stands_there(self) -> None:
        """what stands at the path stays until the journal is whole"""
        self.place.write_text("before\n")
        server = self.begin(self.place)
        self.ask("show .", "quit")
        self.assertEqual(self.end(server).status, 0)
        self.assertEqual(self.place.read_text().splitlines()[:2], ["journal", f"root {URL}"])
        self.place.write_text("before\n")
        server = self.begin(self.place, "--sessions", "2")
        self.ask("show .")
        self.assertEqual((self.place.read_text(), self.files()), ("before\n", ["journal"]))
        server.kill()
        self.end(server)
        self.assertEqual((self.place.read_text(), self.files()), ("before\n", ["journal"]))

    def test_full_disk(self) -> None:
        """a journal that can't be written to its end: one line, status 4, and what stood there stays"""
        self.place.write_text("before\n")
        server = self.begin(self.place, limit=300)
        self.ask("start session")
        told = f"journal fault: {self.place}: File too large (os error 27)\n"
        self.assertEqual(self.end(server), Ran(4, "", told))
        self.assertEqual((self.place.read_text(), self.files()), ("before\n", ["journal"]))

    def test_a_folder_meanwhile(self) -> None:
        """a path at which a folder stands at the end: one line, status 4"""
        server = self.begin(self.place, "--sessions", "2")
        self.ask("show .")
        self.place.mkdir()
        self.ask("show .")
        self.assertEqual(self.end(server), Ran(4, "", f"journal fault: {self.place}: is a directory\n"))
        self.assertEqual(self.files(), ["journal"])

    def test_closed_door(self) -> None:
        """where the socket is another server's the status is 5, and what stands at the path stays"""
        self.place.write_text("before\n")
        first = self.begin(None, "--sessions", "3")
        self.ask("show .")
        self.assertEqual(self.end(self.begin(self.place)), Ran(5, "", "door fault\n"))
        self.assertEqual((self.place.read_text(), self.files()), ("before\n", ["journal"]))
        self.let_go(first)
