"""A cgroup for each instance, where this user may make some: limits of memory, processes and processor."""

from __future__ import annotations

import os
import shutil
import unittest
from pathlib import Path

from tests.hosting.edits import changed
from tests.hosting.trial import TOOLS, Host, folder, package, root_of
from tests.hosting.user import GROUP, NO_GROUP

GROUPS = os.environ.get(GROUP, "")
WHY = os.environ.get(NO_GROUP, "root alone can hand a cgroup to a user, and this is another one")
EATS = """#!/usr/bin/python3
import os
held = []
while len(held) < 700:
    held.append(bytes(os.urandom(4096) * 256))
print("ate", len(held), flush=True)
os.read(os.pipe()[0], 1)
"""
SLEEP = "#!/bin/sh\necho up\nexec sleep 1000000\n"
P = '{program:{runner:"elf",binary:"bin/x"}}'
TOLD = "each instance has at most 536870912 bytes of memory and 128 processes"


def lay(base: Path) -> str:
    """A program that takes 700 MB, and one beside it. The root's URL."""
    package(base / "repo", "eats", P, EATS)
    package(base / "repo", "beside", P, SLEEP)
    return root_of(base / "repo", "eats", "beside")


@unittest.skipUnless(GROUPS, WHY)
class Groups(unittest.TestCase):
    """Hosts that may make groups."""

    def begin(self, name: str, tools: Path = TOOLS, options: tuple[str, ...] = (),
              before: tuple[str, ...] = ()) -> Host:
        base = folder()
        self.addCleanup(shutil.rmtree, base, True)
        self.group = Path(GROUPS) / name
        self.group.mkdir(exist_ok=True)
        host = Host(base / "repo", lay(base), run=base / "r", tools=tools, options=options, before=before)
        self.addCleanup(host.remove)
        return host

    def test_limits(self) -> None:
        """each instance has a group with its limits; who takes more memory is ended, others go on"""
        host = self.begin("limits", options=("--cgroup", str(Path(GROUPS) / "limits")))
        host.wait(TOLD)
        host.ask("start beside")
        number = host.events("launch")[-1]["instance"]
        group = self.group / f"instance-{number}"
        self.assertEqual({name: (group / name).read_text().strip() for name in (
            "memory.max", "pids.max", "cpu.weight")},
            {"memory.max": "536870912", "pids.max": "128", "cpu.weight": "100"})
        self.assertGreaterEqual(len((group / "cgroup.procs").read_text().split()), 2)
        host.ask("start eats")
        host.wait(r"^exited    eats")
        self.assertNotIn("ate", host.said("eats"))
        self.assertEqual(host.on(), ["beside"])
        self.assertEqual(host.end(), 0)
        self.assertEqual(host.left(), [])
        self.assertEqual([place for place in self.group.iterdir() if place.is_dir()], [])

    def test_own(self) -> None:
        """a host that is started in a group of its user's own finds it"""
        group = Path(GROUPS) / "own"
        enters = 'echo 0 > "$0/cgroup.procs" && exec "$@"'
        host = self.begin("own", before=("/bin/sh", "-c", enters, str(group)))
        host.wait(TOLD)
        host.ask("start beside")
        self.assertTrue((group / f"instance-{host.events('launch')[-1]['instance']}").is_dir())
        self.assertEqual(host.end(), 0)
        self.assertEqual(host.left(), [])

    def test_taken_away(self) -> None:
        """without the limit of memory the program takes all that it wants"""
        base = folder()
        self.addCleanup(shutil.rmtree, base, True)
        tools = changed(base, "no limit of memory",
                        [("cgroups.py", '"memory.max": str(512 << 20), "memory.swap.max": "0", ', "")])
        source = tools / "cm_tools/host/cgroups.py"
        source.write_text(source.read_text().replace('LIMITS["memory.max"], LIMITS["pids.max"]', '"0", "0"'))
        host = self.begin("away", tools, ("--cgroup", str(Path(GROUPS) / "away")))
        host.ask("start eats")
        host.wait(r"said      eats \| ate 700")
        self.assertEqual(host.end(), 0)
