"""The journals of the managers of a host: each is audited legal."""

from __future__ import annotations

import os
import re
import shutil
import signal
import subprocess
import unittest
from pathlib import Path

from cm_tools.host.front import writes_journals
from tests.hosting.trial import EXAMPLE, ROOT, TOOLS, Host, folder, lay, program

WRITES = writes_journals(program())


def audited(place: Path) -> str:
    """What the component manager says of a journal."""
    with open(place, "rb") as journal:
        return subprocess.run([program(), "audit"], stdin=journal, capture_output=True, text=True,
                              timeout=240).stdout.strip()


@unittest.skipUnless(WRITES, "this component manager writes no journal of what it served")
class Journals(unittest.TestCase):
    """What managers leave behind."""

    def setUp(self) -> None:
        self.base = folder()
        self.addCleanup(shutil.rmtree, self.base, True)

    def legal(self, host: Host, count: int) -> list[int]:
        """Looks at all journals of a host. How many entries each has."""
        found = sorted((host.run / "journals").iterdir(), key=lambda place: (len(place.name), place.name))
        self.assertEqual(len(found), count, found)
        told = [audited(place) for place in found]
        for verdict in told:
            self.assertRegex(verdict, r"\Alegal [1-9][0-9]*\Z")
        ended = {event["journal"]: event["bytes"] for event in host.events("manager-ended")
                 if event["journal"]}
        self.assertEqual(ended, {place.name: place.stat().st_size for place in found})
        return [int(verdict.split()[1]) for verdict in told]

    def test_demo(self) -> None:
        """the journals of the demo are legal, those of later managers too; a killed one has none"""
        host = Host(lay(self.base), run=self.base / "r")
        self.addCleanup(host.remove)
        host.ask("start client", "start shell", "start evil")
        host.wait(r"said      client \| next line has number")
        host.ask("start intruder")
        host.wait(r"said      shell \| shutdown @0 ->")
        host.own("replace")
        host.wait(r"^replaced ")
        host.ask("create . jobs j fuchsia-pkg://demo/store#meta/store.cm", "start jobs:j", "start reader")
        # The first one writes its journal meanwhile.
        host.wait_until(lambda: len(host.manager_pids()) == 1, "end of the first manager")
        os.kill(host.manager_pids()[0], signal.SIGKILL)
        host.wait(r"^replaced ", 2)
        host.ask("stop client", "destroy jobs:j")
        self.assertEqual(host.end(), 0)
        self.assertEqual(host.left(), [])
        entries = self.legal(host, 2)
        text = [place.read_text() for place in sorted((host.run / "journals").iterdir())]
        self.assertIn(" open ", text[0])
        self.assertIn("pick 0", text[-1])
        self.assertGreater(entries[0], 30)
        print(f"  journals of {' and '.join(map(str, entries))} entries are legal")

    def test_roll(self) -> None:
        """managers that are replaced by themselves leave a legal journal each"""
        host = Host(lay(self.base), run=self.base / "r", environment={"COMPONENT_HOST_ROLL_ENTRIES": "400"})
        self.addCleanup(host.remove)
        host.ask("start client")

        def is_replaced() -> bool:
            # Each one has to be asked so much: what the one before was asked doesn't count.
            host.ask(*["show ."] * 20)
            return len(re.findall("^replaced ", host.text(), re.M)) >= 2

        host.wait_until(is_replaced, "second replacement")
        self.assertEqual(host.end(), 0)
        managers = 1 + len(host.events("replaced"))
        self.legal(host, managers)

    def test_unwritable(self) -> None:
        """a folder that can't be written is told before the door opens, with status 4"""
        place = self.base / "none/x.journal"
        words = [program(), "serve", str(self.base / "cm"), "--root", ROOT, "--repo", str(EXAMPLE)]
        done = subprocess.run(words, env={**os.environ, "COMPONENT_JOURNAL": str(place)}, capture_output=True,
                              text=True, timeout=120)
        self.assertEqual(done.returncode, 4, done)
        self.assertIn(str(place), done.stderr)
        self.assertEqual(done.stderr.count("\n"), 1, done.stderr)
        self.assertFalse((self.base / "cm").exists())
        # The host tells the same, and ends.
        (self.base / "r/journals").mkdir(parents=True, mode=0o700)
        (self.base / "r").chmod(0o700)
        (self.base / "r/journals").chmod(0o500)
        host = Host(EXAMPLE, run=self.base / "r", tools=TOOLS, waits=False)
        self.addCleanup(host.remove)
        self.assertEqual(host.process.wait(240), 3)
        self.assertIn("journal fault", host.text())
        self.assertIn("doesn't serve", host.text())
        self.assertEqual(host.left(), [])
