"""Hosts whose parts are killed: nothing is left, and what is remembered comes back."""

from __future__ import annotations

import os
import re
import signal
import unittest

from tests.hosting.trial import Host, folder, lay, need_layers, package, root_of


PROVIDER = """#!/usr/bin/python3
import os, socket
door = socket.socket(socket.AF_UNIX)
door.bind("/out/svc/t.Door")
door.listen(8)
held = []
while True:
    held.append(door.accept()[0])
"""
HOLDS = """#!/usr/bin/python3
import os, socket
links = []
for count in range(5):
    links.append(socket.socket(socket.AF_UNIX))
    links[-1].connect("/svc/t.Door")
for count in 1, 3:
    links[count].close()
print("holds", flush=True)
os.read(os.pipe()[0], 1)
"""


class Opened(unittest.TestCase):
    """KILL to all of a host."""

    def test_open(self) -> None:
        """the log of a host that is killed tells which connections were open"""
        base = folder()
        repo = base / "repo"
        package(repo, "door", '{program:{runner:"elf",binary:"bin/x"},capabilities:[{protocol:"t.Door"}],'
                'expose:[{protocol:"t.Door",from:"self"}]}', PROVIDER)
        package(repo, "holds", '{program:{runner:"elf",binary:"bin/x"},use:[{protocol:"t.Door"}]}', HOLDS)
        root = root_of(repo, "door", "holds", more=',offer:[{protocol:"t.Door",from:"#door",to:"#holds"}]')
        host = Host(repo, root, run=base / "r")
        self.addCleanup(host.remove)
        host.ask("start holds")
        host.wait(r"said      holds \| holds")

        def told() -> set[int]:
            return ({one["connection"] for one in host.events("opened")}
                    - {one["connection"] for one in host.events("closed")})

        host.wait_until(lambda: len(host.events("opened")) == 5 and len(told()) == 3, "connections")
        host.kill()
        self.assertEqual(len(told()), 3)
        self.assertEqual(host.left(), [])


class Kills(unittest.TestCase):
    """KILL to the manager, to the runner, and to what stands in front."""

    def setUp(self) -> None:
        self.base = folder()
        self.host = Host(lay(self.base), run=self.base / "r")
        self.addCleanup(self.host.remove)
        need_layers(self.host.text())
        # The browser reads a page of the logger, which the client has crash.
        self.host.wait(r"said      browser +\| .*of the log")
        self.host.ask("start client")
        # What is started by connects is there.
        for name, line in ("client", "next line has number"), ("store", "up"):
            self.host.wait(rf"said      {name} +\| {line}")

    def test_manager(self) -> None:
        """a manager that is killed is followed by another, and no program is started again"""
        host = self.host
        before = sorted(host.sandboxes())
        running = host.on()
        os.kill(host.manager_pids()[0], signal.SIGKILL)
        host.wait(r"^replaced ")
        self.assertEqual(host.on(), running)
        self.assertEqual(sorted(host.sandboxes()), before)
        numbers = {event["moniker"]: event["inc"] for event in host.events("launch")}
        for event in host.events("adopt"):
            self.assertEqual(event["before"], numbers[event["moniker"]])
        adopted = [event["moniker"] for event in host.events("adopt") if event["moniker"] != "."]
        self.assertEqual(sorted(adopted), running)
        self.assertEqual(host.end(), 0)
        self.assertEqual(host.left(), [])

    def test_hanging_manager(self) -> None:
        """a manager that hangs is noticed, and followed by another"""
        host = self.host
        before = sorted(host.sandboxes())
        hanging = host.manager_pids()[0]
        os.kill(hanging, signal.SIGSTOP)
        host.wait(r"^replaced .*hangs")
        self.assertEqual(sorted(host.sandboxes()), before)
        self.assertNotIn(hanging, host.manager_pids())
        self.assertEqual(host.end(), 0)
        self.assertEqual(host.left(), [])

    def test_bytes(self) -> None:
        """a manager whose history is nearly full by its bytes is followed by another"""
        base = folder()
        host = Host(lay(base), run=base / "r", environment={"COMPONENT_HOST_ROLL_BYTES": "40000"})
        self.addCleanup(host.remove)
        for _ in range(100):
            host.ask(*["show ."] * 20)
            if re.search("^replaced .*planned", host.text(), re.M):
                break
        host.wait(r"^replaced .*planned")
        self.assertEqual(host.end(), 0)
        self.assertEqual(host.left(), [])

    def test_runner(self) -> None:
        """a runner that is killed leaves nothing, and another one comes back to the same tree"""
        host = self.host
        host.ask("create . jobs kept fuchsia-pkg://demo/store#meta/store.cm", "start jobs:kept",
                 "create . jobs idle fuchsia-pkg://demo/client#meta/client.cm",
                 "create . jobs gone fuchsia-pkg://demo/client#meta/client.cm", "destroy jobs:gone",
                 "shutdown reader", "stop browser")
        running, before = host.on(), host.sandboxes()
        os.kill(host.runner_pid(), signal.SIGKILL)
        host.wait(r"^resumed ")
        self.assertFalse(set(before) & set(host.below()), "programs of the killed runner")
        self.assertEqual(host.on(), running)
        rows = host.ask("survey .")[0]
        self.assertIn("jobs:idle", rows)
        self.assertNotIn("jobs:gone", rows)
        self.assertIn("refused 82", host.ask("start reader")[0])
        self.assertEqual(host.end(), 0)
        self.assertEqual(host.left(), [])

    def test_front(self) -> None:
        """a host that is killed leaves nothing but its log, which tells what ran, and the next one resumes"""
        host = self.host
        running = host.on()
        host.kill()
        self.assertEqual(host.left(), [])
        on: dict[int, str] = {}
        for event in host.events():
            if event["event"] == "launch" and event["answer"] == "running":
                on[event["instance"]] = event["moniker"]
            elif event["event"] in ("halt", "exited"):
                on.pop(event["instance"], None)
        self.assertEqual(sorted(on.values()), running)
        # In the place of the killed one its tree is resumed.
        again = Host(self.base / "repo", run=self.base / "r")
        self.addCleanup(again.remove)
        self.assertTrue(re.search("^resumed ", again.text(), re.M), again.text())
        self.assertEqual(again.on(), running)
        self.assertEqual(again.end(), 0)
        self.assertEqual(again.left(), [])
