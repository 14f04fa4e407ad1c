"""The example, run for real."""

from __future__ import annotations

import re
import unittest

from tests.hosting.trial import Host, folder, lay, need_layers


class Demo(unittest.TestCase):
    """The product from its start to its shutdown."""

    def setUp(self) -> None:
        self.base = folder()
        self.host = Host(lay(self.base), run=self.base / "r")
        self.addCleanup(self.host.remove)
        need_layers(self.host.text())

    def order(self, first: str, then: str) -> None:
        """One of the instances had ended before the other was asked to. On a machine that is busy one that
        heeds its stop may need longer than it has, and is killed."""
        halted = [one["moniker"] for one in self.host.events("halt")]
        self.assertLess(halted.index(first), halted.index(then), halted)

    def test_demo(self) -> None:
        """a product runs: providers start by a connect, crash and come back; children come and go"""
        host = self.host
        host.wait(r"said      browser \| .*line 1 of the log")
        host.ask("start client")
        host.wait(r"said      client \| next line has number")
        self.assertEqual(len([one for one in host.events("launch") if one["moniker"] == "logger"]), 2)
        host.ask("start reader")
        host.wait(r"said      reader \| .*Read-only|reader \| : Read-only")
        self.assertIn("written by client", host.said("reader"))
        host.ask("start shell")
        host.wait(r"said      shell \| shutdown @0 ->")
        self.assertIn("destroy tasks:one -> destroyed tasks:one", host.said("shell"))
        self.assertIn("the connection to the job is closed", host.said("shell"))
        self.assertIn("show . -> refused bad-command", host.said("shell"))
        self.assertIn("destroy tasks:one -> refused not-found", host.said("shell"))
        self.assertEqual(host.ask("create . jobs j fuchsia-pkg://demo/client#meta/client.cm", "start jobs:j",
                                  "destroy jobs:j", "start jobs:j")[2:], ["destroyed jobs:j",
                                                                         "refused 80 not-found in ."])
        self.assertEqual(host.end(), 0)
        self.assertEqual(host.left(), [])
        self.order("client", "logger")
        self.order("client", "store")
        self.order("reader", "store")
        self.assertIn("killed    reader", host.text())
        if "stopped   client" in host.text():
            self.assertIn("last words", host.said("client"))
        running = {}
        for event in host.events():
            if event["event"] == "launch" and event["answer"] == "running":
                running[event["instance"]] = event["moniker"]
            elif event["event"] in ("halt", "exited"):
                running.pop(event["instance"])
        self.assertEqual(running, {}, "what the log says that still runs")
        self.assertFalse((host.run / "tree").exists())
        # The log goes on where it ended, in the logger's storage.
        number = int(re.findall(r"line (\d+) of the log", host.said("browser"))[-1])
        again = Host(self.base / "repo", run=self.base / "r")
        self.addCleanup(again.remove)
        again.wait(r"said      browser \| .*of the log")
        later = int(re.findall(r"line (\d+) of the log", again.said("browser"))[-1])
        self.assertGreater(later, number)
        self.assertEqual(again.end(), 0)
        self.assertEqual(again.left(), [])
