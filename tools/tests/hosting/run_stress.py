"""Random starts, stops, crashes, lies, children and connections at once, also while managers are killed: at
the end what the manager counts as on is what runs."""

from __future__ import annotations

import os
import random
import signal
import threading
import time
import unittest
from pathlib import Path

from tests.hosting.trial import PATIENCE, Host, cmdline, folder, package

SECONDS = float(os.environ.get("COMPONENT_HOST_STRESS", "10"))
SERVER = """#!/usr/bin/python3
import os, random, signal, socket, threading, time
os.makedirs("/out/svc", exist_ok=True)
door = socket.socket(socket.AF_UNIX)
door.bind("/out/svc/p")
door.listen(16)
def use():
    while True:
        time.sleep(random.random() / 5)
        try:
            with socket.socket(socket.AF_UNIX) as link:
                link.settimeout(10)
                link.connect("/svc/next")
                link.sendall(b"x")
                link.recv(1)
        except OSError:
            pass
threading.Thread(target=use, daemon=True).start()
if random.random() < 0.3:
    signal.signal(signal.SIGTERM, signal.SIG_IGN)
while True:
    link = door.accept()[0]
    with link:
        link.recv(1)
        if random.random() < 0.02:
            os._exit(3)
        link.sendall(b"y")
"""
MANIFEST = (
    '{program:{runner:"elf",binary:"bin/x",lifecycle:{stop_event:"notify"}},'
    'capabilities:[{protocol:"p"},{directory:"d",path:"/d",rights:["rw*"]}],'
    'expose:[{protocol:"p",from:"self"},{directory:"d",from:"self"}],'
    'use:[{protocol:"next",dependency:"weak"},'
    '{directory:"d",path:"/data",rights:["r*"],dependency:"weak"}]}'
)
COUNT = 5
DEEDS = ("start", "start", "start", "stop", "exited", "create", "begin", "destroy", "open", "kill", "once")


def lay(repo: Path) -> str:
    """Components that use each other in a circle. The root's URL."""
    children, offers = [], []
    for number in range(COUNT):
        url = package(repo, f"c{number}", MANIFEST, SERVER, host="s")
        children.append(f'{{name:"c{number}",url:"{url}"}}')
        source, target = f'from:"#c{(number + 1) % COUNT}"', f'to:"#c{number}"'
        offers.append(f'{{protocol:"p",{source},{target},as:"next",dependency:"weak"}}')
        offers.append(f'{{directory:"d",{source},{target},dependency:"weak"}}')
    offers.append('{protocol:"p",from:"#c0",to:"#jobs",as:"next"}')
    return package(repo, "root", "{children:[" + ",".join(children) + '],collections:['
                   '{name:"jobs",durability:"transient"},{name:"once",durability:"single_run"}],'
                   'offer:[' + ",".join(offers) + "]}", host="s")


def line_of(what: str, number: int) -> str:
    """The command of a deed."""
    url = f"fuchsia-pkg://s/c{number}#meta/c{number}.cm"
    return {"start": f"start c{number}", "stop": f"stop c{number}", "exited": f"exited c{number}",
            "create": f"create . jobs j{number} {url}", "begin": f"start jobs:j{number}",
            "destroy": f"destroy jobs:j{number}", "once": f"create . once o{number} {url}",
            "open": f"open-exposed c{number} p"}[what]


def session(host: Host, seed: int, until: float, faults: list[str]) -> None:
    """Random commands over one console, and random kills of sandboxes."""
    rng = random.Random(seed)
    with host.link("cm") as link:
        lines = link.makefile("rw")
        while time.monotonic() < until:
            what = rng.choice(DEEDS)
            try:
                if what == "kill":
                    time.sleep(0.05)
                    os.kill(rng.choice(host.sandboxes()), signal.SIGKILL)
                    continue
                lines.write(line_of(what, rng.randrange(COUNT)) + "\n")
                lines.flush()
                if not lines.readline().endswith("\n"):
                    faults.append("a console was cut")
                    return
            except (ProcessLookupError, IndexError):
                continue
            except OSError as fault:
                faults.append(f"a console: {fault}")
                return


def running(host: Host) -> list[str]:
    """The instances that run, by the numbers of their folders: each has a bwrap outside and one inside."""
    found = []
    for pid in host.sandboxes():
        found += [word.split("/")[-2] for word in cmdline(pid) if "/i/" in word and word.endswith("/out")]
    return sorted(found)


def agrees(host: Host) -> bool:
    """Whether the manager, the runner and the system say that the same programs run, each once."""
    on = host.on()
    rows = [row for row in host.own("ps") if row["state"] == "on"]
    numbers = sorted(str(row["instance"]) for row in rows)
    return sorted(row["moniker"] for row in rows) == on and sorted(numbers + numbers) == running(host)


class Stress(unittest.TestCase):
    """Everything at once."""

    def stress(self, kills: bool) -> None:
        base = folder()
        host = Host(base / "repo", lay(base / "repo"), run=base / "r")
        self.addCleanup(host.remove)
        until, faults = time.monotonic() + SECONDS, list[str]()
        threads = [threading.Thread(target=session, args=(host, seed, until, faults)) for seed in range(4)]
        for thread in threads:
            thread.start()
        while time.monotonic() < until:
            time.sleep(2)
            for pid in host.manager_pids() if kills else ():
                os.kill(pid, signal.SIGKILL)
        for thread in threads:
            thread.join(PATIENCE)
            self.assertFalse(thread.is_alive(), "a console is stuck")
        self.assertEqual(faults, [])
        host.wait_until(lambda: agrees(host), "agreement of what counts as on and what runs")
        # What a program says of itself is its own affair.
        own = "\n".join(line for line in host.text().splitlines() if not line.startswith("said "))
        _, found, behind = own.partition("Traceback")
        self.assertEqual(found, "", behind[:2000])
        self.assertEqual(host.events("fault"), [])
        self.assertEqual(host.end(), 0)
        self.assertEqual(host.left(), [])
        print(f"  {len(host.events('launch'))} launches, {len(host.events('halt'))} halts, "
              f"{len(host.events('exited'))} exits, {len(host.events('replaced'))} managers replaced")

    def test_stress(self) -> None:
        """random starts, stops, kills, lies, children and connections: what counts as on runs, once"""
        self.stress(False)

    def test_stress_and_kills(self) -> None:
        """the same while managers are killed"""
        self.stress(True)
