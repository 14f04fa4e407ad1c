"""Managers that are ended under running programs: no program notices."""

from __future__ import annotations

import os
import random
import re
import signal
import threading
import time
import unittest
from pathlib import Path

from tests.hosting.trial import PATIENCE, Host, folder, package

COUNTER = """#!/usr/bin/python3
import os, socket, threading, time
os.makedirs("/out/svc", exist_ok=True)
door = socket.socket(socket.AF_UNIX)
door.bind("/out/svc/live.Count")
door.listen(64)
begun = time.monotonic()
print("up", flush=True)
def serve(link):
    try:
        while True:
            link.sendall(b"%.2f\\n" % (time.monotonic() - begun))
            time.sleep(0.1)
    except OSError:
        pass
    link.close()
while True:
    threading.Thread(target=serve, args=(door.accept()[0],), daemon=True).start()
"""
CLIENT = """#!/usr/bin/python3
import socket, threading, time
print("up", flush=True)
def hold():
    while True:
        link = socket.socket(socket.AF_UNIX)
        link.connect("/svc/live.Count")
        last = -1.0
        for line in link.makefile():
            if float(line) < last:
                print("COUNTER WENT BACK", last, line, flush=True)
            last = float(line)
        print("CUT at", last, flush=True)
threading.Thread(target=hold, daemon=True).start()
worst, count, said = 0.0, 0, time.monotonic()
while True:
    time.sleep(0.05)
    begun = time.monotonic()
    try:
        with socket.socket(socket.AF_UNIX) as link:
            link.connect("/svc/live.Count")
            if not link.recv(100):
                print("CONNECT CLOSED", flush=True)
    except OSError as fault:
        print("CONNECT FAILED", fault, flush=True)
    count, worst = count + 1, max(worst, time.monotonic() - begun)
    if time.monotonic() - said > 1:
        said = time.monotonic()
        print(f"worst {1000 * worst:.1f} ms of {count}", flush=True)
"""
MAKER = """#!/usr/bin/python3
import socket, time
print("up", flush=True)
link = socket.socket(socket.AF_UNIX)
link.connect("/svc/fuchsia.component.Realm")
lines = link.makefile("rw")
def ask(line):
    lines.write(line + "\\n")
    lines.flush()
    first = lines.readline().strip()
    for _ in range(int(first.split()[-1]) if first.startswith("children") else 0):
        first += " " + lines.readline().strip()
    return first
print("keep:", ask("create tasks keep fuchsia-pkg://live/client#meta/client.cm + protocol live.Count parent"),
      flush=True)
made = ask("create tasks source fuchsia-pkg://live/counter#meta/counter.cm")
print("reads:", made, ask("create tasks reads fuchsia-pkg://live/client#meta/client.cm "
                          "+ protocol live.Count #tasks:source"), flush=True)
print("goes:", ask("destroy tasks:source"), flush=True)
n = 0
while True:
    n += 1
    a = ask(f"create tasks t{n} fuchsia-pkg://live/sleeper#meta/sleeper.cm")
    time.sleep(0.2)
    b = ask(f"destroy tasks:t{n}")
    c = ask("list tasks")
    fine = (a == f"created tasks:t{n}" or "replaced" in a) and (
        b == f"destroyed tasks:t{n}" or "replaced" in b or "replaced" in a and "not-found" in b)
    if not fine:
        print("STRANGE", a, "|", b, "|", c, flush=True)
    if "keep" not in c and "replaced" not in c:
        print("KEEP IS GONE", c, flush=True)
"""
SLEEPER = "#!/bin/sh\necho up\nexec sleep 1000000\n"
WRITER = """#!/usr/bin/python3
import time
print("up", flush=True)
n = 0
while True:
    n += 1
    open("/data/n", "w").write(str(n))
    time.sleep(0.1)
"""
P = 'program:{runner:"elf",binary:"bin/x"},'
URL = "fuchsia-pkg://live/%s#meta/%s.cm"
CLIENTS = 3
FAULTS = ("CUT", "COUNTER WENT", "CONNECT CLOSED", "CONNECT FAILED", "STRANGE", "KEEP IS")
STAY = ("counter", "store", "writer", "maker", *(f"c{k}" for k in range(CLIENTS)), "jobs:fixed",
        "maker/tasks:keep")


def lay(repo: Path) -> None:
    """A product whose programs would notice a restart, a cut or a connect that fails."""
    def put(name: str, manifest: str, script: str) -> None:
        package(repo, name, "{" + manifest + "}", script, host="live")

    count = 'capabilities:[{protocol:"live.Count"}],expose:[{protocol:"live.Count",from:"self"}]'
    put("counter", P + count, COUNTER)
    put("client", P + 'use:[{protocol:"live.Count"}]', CLIENT)
    put("sleeper", P, SLEEPER)
    put("store", P + 'capabilities:[{directory:"data",path:"/data",rights:["rw*"]}],'
        'expose:[{directory:"data",from:"self"}]', SLEEPER)
    put("writer", P + 'use:[{directory:"data",path:"/data",rights:["rw*"]}]', WRITER)
    put("maker", P + 'collections:[{name:"tasks",durability:"transient",'
        'allowed_offers:"static_and_dynamic"}],'
        'use:[{protocol:"fuchsia.component.Realm",from:"framework"}]', MAKER)
    names = {name: name for name in ("counter", "store", "writer", "maker")}
    names.update({"drowsy": "sleeper"}, **{f"c{k}": "client" for k in range(CLIENTS)})
    rows = [f'{{name:"{name}",url:"{URL % (of, of)}"' + (',startup:"eager"}' if name == "drowsy" else "}")
            for name, of in names.items()]
    children = ",".join(rows)
    targets = ",".join([f'"#c{k}"' for k in range(CLIENTS)] + ['"#maker"', '"#jobs"'])
    put("root", "children:[" + children + '],collections:[{name:"jobs",durability:"transient"},'
        '{name:"once",durability:"single_run"}],'
        f'offer:[{{protocol:"live.Count",from:"#counter",to:[{targets}]}},'
        '{directory:"data",from:"#store",to:"#writer"}]', "")


class Console(threading.Thread):
    """Makes, starts, stops and destroys children of its own, and notes what it didn't expect."""

    def __init__(self, host: Host, number: int, stop: threading.Event) -> None:
        super().__init__()
        self.host, self.number, self.stop = host, number, stop
        self.strange: list[tuple[str, str, str]] = []
        self.believed: dict[str, str] = {}
        self.count = 0

    def run(self) -> None:
        rng = random.Random(self.number)
        with self.host.link("cm") as link:
            lines = link.makefile("rw")
            while not self.stop.is_set():
                name = f"k{self.number}n{rng.randrange(3)}"
                what = rng.choice(["create", "start", "destroy", "stop", "show"])
                line = f"create . jobs {name} " + URL % ("sleeper", "sleeper") if what == "create" \
                    else f"{what} jobs:{name}"
                lines.write(line + "\n")
                lines.flush()
                self.judge(name, what, line, lines.readline().strip())
                self.count += 1
                time.sleep(rng.random() * 0.1)

    def judge(self, name: str, what: str, line: str, reply: str) -> None:
        """Compares a reply with what it believes of that name."""
        state = self.believed.get(name, "no")
        if "replaced" in reply:
            self.believed[name] = "?"
            return
        there = not reply.startswith(("refused 80", "refused 81"))
        told = {"create": reply.startswith("created"), "destroy": reply.startswith("destroyed")}
        done = told.get(what, there)
        expected = {"create": state == "no"}.get(what, state == "yes")
        if state != "?" and done != expected:
            self.strange.append((state, line, reply))
        self.believed[name] = "yes" if what == "create" or what != "destroy" and there else "no"


class Live(unittest.TestCase):
    """Programs, connections and consoles, over managers that come and go."""

    def begin(self, **environment: str) -> Host:
        base = folder()
        lay(base / "repo")
        host = Host(base / "repo", URL % ("root", "root"), run=base / "r", environment=environment)
        self.addCleanup(host.remove)
        host.ask("start store", "start writer", *[f"start c{k}" for k in range(CLIENTS)], "stop drowsy",
                 "create . jobs fixed " + URL % ("client", "client"), "start jobs:fixed",
                 "create . once long " + URL % ("sleeper", "sleeper"), "start maker")
        host.wait(r"said      maker \| goes")
        host.ask("start maker/tasks:keep")
        for name in STAY:
            if name != "store":
                host.wait_until(lambda: "up" in host.said(name), f"start of {name}")
        self.stop = threading.Event()
        self.consoles = [Console(host, number, self.stop) for number in range(3)]
        for console in self.consoles:
            console.start()
        return host

    def finish(self, host: Host, replaced: int) -> None:
        """Looks at what the programs and consoles noticed, and ends all."""
        host.wait(r"^replaced ", replaced)
        time.sleep(1.5)
        self.stop.set()
        for console in self.consoles:
            console.join(PATIENCE)
            self.assertFalse(console.is_alive(), "a console is stuck")
            self.assertGreater(console.count, 5)
            self.assertEqual(console.strange, [])
        on = host.on()
        for name in STAY:
            self.assertIn(name, on)
            self.assertEqual(host.said(name).count("up\n"), 1, f"{name} was started again")
            for fault in FAULTS:
                self.assertNotIn(fault, host.said(name), name)
        self.assertNotIn("drowsy", on)
        self.assertIn("once:long", on)
        # One that is just being made has a further process for a moment.
        host.wait_until(lambda: len(host.sandboxes()) == 2 * len(on), "two processes for each that is on")
        held = [event["held_ms"] for event in host.events("replaced")]
        worst = max(float(one) for name in STAY for one in re.findall(r"worst ([\d.]+) ms", host.said(name)))
        print(f"  {len(held)} managers replaced, connects held at most {max(held):.0f} ms, the longest "
              f"connect {worst:.0f} ms")
        self.assertEqual(host.end(), 0)
        self.assertEqual(host.left(), [])

    def test_killed(self) -> None:
        """managers are killed under running programs: none is started again, no connection is cut"""
        host = self.begin()
        for count in range(4):
            time.sleep(1.5)
            for pid in host.manager_pids():
                os.kill(pid, signal.SIGKILL)
            host.wait(r"^replaced ", count + 1)
        self.finish(host, 4)

    def test_storm(self) -> None:
        """managers are killed so fast that some are hit in the middle of getting the tree"""
        host = self.begin()
        rng = random.Random(7)
        begun = time.monotonic()
        # A slow machine needs longer for each.
        while (passed := time.monotonic() - begun) < 6 or passed < 100 and len(host.events("replaced")) < 3:
            time.sleep(0.05 + rng.random() * 0.25 * max(1.0, passed / 6))
            for pid in host.manager_pids():
                try:
                    os.kill(pid, signal.SIGKILL)
                except ProcessLookupError:
                    pass
        self.finish(host, 3)

    def test_planned(self) -> None:
        """managers are replaced by request, and by themselves behind so many entries"""
        host = self.begin(COMPONENT_HOST_ROLL_ENTRIES="1500")
        for _ in range(2):
            time.sleep(1)
            host.own("replace")
        self.finish(host, 4)
