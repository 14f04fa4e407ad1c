"""The intruder of the example, and each of its attacks."""

from __future__ import annotations

import contextlib
import os
import shutil
import socket
import threading
import time
import unittest
from concurrent.futures import ThreadPoolExecutor
from pathlib import Path
from typing import Callable

from tests.hosting.edits import changed
from tests.hosting.trial import TOOLS, Host, folder, lay, need_layers, package, root_of

# What the intruder says where a defence holds, and one where it doesn't; by the word in front of the colon.
HOLDS = {
    "LogSink, which isn't offered": ("ConnectionResetError", "BrokenPipeError", "closed without a word"),
    "a friend's link to the manager": ("ConnectionResetError", "BrokenPipeError", "closed without a word"),
    "a friend's link to the host's root": ("FileNotFoundError",),
    "a friend's note": ("of a friend",),
    "a friend's socket in a read-only folder": ("ConnectionRefusedError",),
    "write to a read-only folder": ("OSError: [Errno 30]",),
    "connect to": ("FileNotFoundError",),
    "the host's files": ("[False, False, False, False, False, False]",),
    "processes": ("[1, 2]",),
    "descriptors": ("['0', '1', '2', '3']",),
    "core_pattern": ("PermissionError",),
    "an address on the network": ("ConnectionRefusedError",),
    "interfaces": ("['lo']",),
    "an abstract socket": ("ConnectionRefusedError",),
    "write to the root": ("OSError: [Errno 30]",),
    "write to /usr": ("OSError: [Errno 30]",),
    "write to /pkg": ("OSError: [Errno 30]",),
    "a user namespace": ("unshare: unshare failed",),
    "mount": ("Operation not permitted",),
    "watch another process": ("Operation not permitted", "another machine"),
    "a ring of the kernel": ("Operation not permitted", "another machine"),
    "keys of the kernel": ("Operation not permitted", "another machine"),
    "64 MB into its own memory": ("OSError: [Errno 28]",),
    "64 MB and more into /out": ("OSError: [Errno 27]",),
    "processes of a bomb": ("62 processes",),
}


def attacked(base: Path, tools: Path = TOOLS) -> dict[str, str]:
    """What the intruder says of each of its tries, with the host of these tools. Outside something listens
    at an address of the network, and at an abstract socket."""
    secret = f"host-secret-{os.getpid()}-{time.monotonic_ns()}"
    with socket.create_server(("127.0.0.1", 0)) as address, socket.socket(socket.AF_UNIX) as abstract:
        abstract.bind("\0" + secret)
        abstract.listen(1)
        return told_by_intruder(base, tools, address.getsockname()[1], secret)


def told_by_intruder(base: Path, tools: Path, port: int, abstract: str) -> dict[str, str]:
    """What the intruder says, for which this is an address and an abstract socket outside."""
    host = Host(lay(base, port, abstract), run=base / "r", tools=tools)
    try:
        need_layers(host.text())
        host.ask("start evil")
        host.wait(r"said      evil \| laid its links")
        host.ask("start intruder")
        host.wait(r"said      intruder \| processes of a bomb|exited    intruder")
        rows = [line.partition(": ") for line in host.said("intruder").splitlines()]
        return {row[0]: row[2] for row in rows}
    finally:
        host.remove()


def through(rows: dict[str, str]) -> list[str]:
    """The tries that came through, or that weren't told."""
    found = []
    for name, wanted in HOLDS.items():
        # There are several sockets to which it tries to connect.
        told = [text for row, text in rows.items() if row == name or row.startswith(f"{name} /")]
        if not told or not all(any(one in text for one in wanted) for text in told):
            found.append(name)
    return found


class Attacks(unittest.TestCase):
    """The intruder."""

    def test_attacks(self) -> None:
        """each attack of the intruder is refused"""
        base = folder()
        self.addCleanup(shutil.rmtree, base, True)
        rows = attacked(base)
        self.assertEqual(through(rows), [], rows)


PROVIDER = """#!/usr/bin/python3
import os, socket, threading
os.makedirs("/out/svc", exist_ok=True)
door = socket.socket(socket.AF_UNIX)
door.bind("/out/svc/t.Door")
door.listen(64)
print("up", flush=True)
def serve(link):
    with link:
        last = b""
        while True:
            data, given, _, _ = socket.recv_fds(link, 100, 4)
            if not data:
                print("closed behind", last.decode(), flush=True)
                return
            last = data
            print("descriptors", len(given), flush=True)
            link.sendall(b"answer\\n")
while True:
    threading.Thread(target=serve, args=(door.accept()[0],), daemon=True).start()
"""
SENDER = """#!/usr/bin/python3
import os, socket
with socket.socket(socket.AF_UNIX) as link:
    link.connect("/svc/t.Door")
    socket.send_fds(link, [b"take"], [os.open("/pkg", os.O_RDONLY)])
    print("sent", link.recv(100), flush=True)
os.read(os.pipe()[0], 1)
"""
MANY = """#!/usr/bin/python3
import socket
links = []
for count in range(200):
    link = socket.socket(socket.AF_UNIX)
    # Up to the limit each is answered, however slow the machine is.
    link.settimeout(240 if count < 32 else 15)
    try:
        link.connect("/svc/t.Door")
        link.sendall(b"x")
        if not link.recv(100):
            break
    except OSError as fault:
        break
    links.append(link)
print("held", len(links), flush=True)
import os
os.read(os.pipe()[0], 1)
"""
DAEMONS = """#!/bin/sh
trap '' TERM
for i in 1 2 3 4 5; do setsid sh -c "trap '' TERM; sleep 1000000" & done
echo up
while :; do sleep 1; done
"""
KEEPS = """#!/usr/bin/python3
import os, socket
link = socket.socket(socket.AF_UNIX)
link.connect("/svc/t.Door")
link.sendall(b"hold")
link.recv(100)
if os.fork() == 0:
    os.setsid()
else:
    print("keeps", flush=True)
os.read(os.pipe()[0], 1)
"""
FILLER = """#!/usr/bin/python3
import os
count = 0
try:
    while True:
        with open(f"/out/{count}", "wb") as file:
            file.write(bytes(32 << 20))
        count += 1
except OSError as fault:
    print("full behind", count, fault, flush=True)
os.read(os.pipe()[0], 1)
"""
MANY_FILES = """#!/usr/bin/python3
import os
count = 0
try:
    while count < 100000:
        if count % 1000 == 0:
            os.mkdir(f"/out/{count}")
            os.chdir(f"/out/{count}")
        os.close(os.open(str(count), os.O_CREAT | os.O_WRONLY))
        count += 1
except OSError as fault:
    print(fault, flush=True)
print("made", count, flush=True)
os.read(os.pipe()[0], 1)
"""
USES = '{program:{runner:"elf",binary:"bin/x"%s},use:[{protocol:"t.Door"}]}'
ALONE = '{program:{runner:"elf",binary:"bin/x"%s}}'
NOTIFY = ',lifecycle:{stop_event:"notify"}'


GROWS = """#!/usr/bin/python3
import os, socket
counts = {}
with socket.socket(socket.AF_UNIX) as link:
    link.connect("/svc/fuchsia.component.Realm")
    lines = link.makefile("rw")
    # All at once: one by one a slow machine might take them all, as time goes on.
    lines.write("destroy none\\n" * 900)
    lines.flush()
    for count in range(900):
        reply = lines.readline()
        counts[reply] = counts.get(reply, 0) + 1
print("busy" if any("at most" in reply for reply in counts) else "never busy", flush=True)
os.read(os.pipe()[0], 1)
"""


LAST = """#!/usr/bin/python3
import signal, socket, sys, time
def words(*_):
    try:
        with socket.socket(socket.AF_UNIX) as link:
            link.connect("/svc/t.Door")
            link.sendall(b"x")
            print("last words", link.recv(100), flush=True)
    except OSError as fault:
        print("last words", type(fault).__name__, flush=True)
signal.signal(signal.SIGTERM, words)
print("up", flush=True)
while True:
    time.sleep(0.1)
"""
AGAIN = """#!/usr/bin/python3
import socket, time
count = 0
while True:
    try:
        with socket.socket(socket.AF_UNIX) as link:
            link.connect("/svc/t.Door")
            link.sendall(b"x")
            if link.recv(100):
                count += 1
                print(f"connect {count} at {time.monotonic():.3f}", flush=True)
    except OSError:
        pass
    time.sleep(0.002)
"""
# Of each component its manifest and its program.
HOSTILE = {
    "sender": (USES % "", SENDER), "many": (USES % "", MANY), "other": (USES % "", SENDER),
    "again": (USES % "", AGAIN), "last": (USES % NOTIFY, LAST), "daemons": (ALONE % NOTIFY, DAEMONS),
    "filler": (ALONE % "", FILLER), "files": (ALONE % "", MANY_FILES),
    "late": (ALONE % "", DAEMONS), "keeps": (USES % "", KEEPS),
    "grows": ('{program:{runner:"elf",binary:"bin/x"},collections:[{name:"tasks",durability:"transient"}],'
              'use:[{protocol:"fuchsia.component.Realm",from:"framework"}]}', GROWS),
}


def lay_hostile(repo: Path) -> str:
    """Components that mean ill, and a provider. The root's URL."""
    package(repo, "door", '{program:{runner:"elf",binary:"bin/x"},capabilities:[{protocol:"t.Door"}],'
            'expose:[{protocol:"t.Door",from:"self"}]}', PROVIDER)
    for name, (manifest, script) in HOSTILE.items():
        package(repo, name, manifest, script)
    return root_of(repo, "door", *HOSTILE, more=',collections:[{name:"jobs",durability:"transient"}],'
                   'offer:[{protocol:"t.Door",from:"#door",'
                   'to:["#sender","#many","#other","#again","#keeps","#jobs"]}]')


def descriptors(host: Host) -> str:
    """How many descriptors come through a connection."""
    host.ask("start sender")
    host.wait(r"said      sender \| sent b'answer")
    return [line for line in host.said("door").splitlines() if line.startswith("descriptors")][-1]


def at_once(host: Host) -> str:
    """How many connections of one use are open at once, while another client is served."""
    host.ask("start many")
    host.wait(r"said      many \| held")
    # The one that holds all never lets go: another client doesn't wait for it.
    host.ask("start other")
    host.wait(r"said      other \| sent b'answer")
    return host.said("many").strip()


def daemons(host: Host) -> str:
    """How a program stops that heeds no TERM and has left daemons, and whether these end."""
    host.ask("start daemons")
    host.wait(r"said      daemons \| up")
    replies: list[str] = []

    def stop() -> None:
        with contextlib.suppress(AssertionError):
            replies.extend(host.ask("stop daemons"))

    asks = threading.Thread(target=stop, daemon=True)
    asks.start()
    asks.join(TO_STOP)
    if not replies:
        return "not stopped"
    until = time.monotonic() + TO_VANISH
    while (left := host.find("sleep", "1000000")) and time.monotonic() < until:
        time.sleep(0.02)
    return f"{'by force' if 'by-force' in replies[0] else replies[0]}, {'left' if left else 'none left'}"


def kept(host: Host) -> str:
    """Whether a connection ends with its program, also where a daemon of that holds it."""
    host.ask("start keeps")
    host.wait(r"said      keeps \| keeps")
    host.ask("stop keeps")
    until = time.monotonic() + TO_VANISH
    while (is_kept := "closed behind hold" not in host.said("door")) and time.monotonic() < until:
        time.sleep(0.02)
    return "kept" if is_kept else "cut"


def questions(host: Host) -> str:
    """Whether 900 questions to a realm are taken at once, as entries of the history."""
    before, begun = host.own("status")["entries"], time.monotonic()
    host.ask("start grows")
    host.wait(r"said      grows \| (never )?busy")
    entries = host.own("status")["entries"] - before
    # By an estimate of four entries for each question that the manager is asked.
    limit = 4 * (300 + 25 * (time.monotonic() - begun))
    return f"{host.said('grows').strip()} with {'few' if entries < limit else 'many'}"


def filled(host: Host) -> str:
    """How many files of 32 MB the folders of all instances take."""
    host.ask("start filler")
    host.wait(r"said      filler \| full behind [0-9]+ .*No space left")
    return "within 256 MB" if int(host.said("filler").split()[2]) <= 8 else "more than 256 MB"


def files(host: Host) -> str:
    """How many files the folders of all instances take."""
    host.ask("start files")
    host.wait(r"said      files \| made")
    made = int(host.said("files").split()[-1])
    host.ask("stop files")
    return "within 65,536" if made <= 65_536 else "more than 65,536"


def doomed(host: Host) -> str:
    """What a program reaches that is being destroyed. On a machine that is busy its time may be over before
    it has tried anything: then another one tries."""
    for count in range(10):
        name = f"jobs:d{count}"
        host.ask(f"create . jobs d{count} fuchsia-pkg://t/last#meta/last.cm", f"start {name}")
        host.wait(rf"said      {name} \| up")
        host.ask(f"destroy {name}")
        for event in host.events("refused"):
            if event["moniker"] == name:
                return str(event["why"])
        if "last words" in host.said(name):
            return "reached"
    return "nothing was tried"


def counted_off(host: Host) -> str:
    """What a program reaches that counts as off."""
    host.ask("start again")
    host.wait(r"said      again \| connect 1 ")
    host.ask("exited again")
    before = host.said("again").count("connect ")

    def refusals() -> list[str]:
        return [str(one["why"]) for one in host.events("refused") if one["moniker"] == "again"]

    # One may have been under way.
    host.wait_until(lambda: refusals() != [] or host.said("again").count("connect ") > before + 2,
                    "refusal or connect")
    return refusals()[0] if refusals() else "reached"


def a_hundred(host: Host) -> float:
    """How long 144 further connections of one use take, in seconds: 40 may come at once."""
    host.ask("start again")
    host.wait_until(lambda: "connect 145 at " in host.said("again"), "connects")
    at = {row.split()[1]: float(row.split()[3]) for row in host.said("again").splitlines()[:145]}
    return at["145"] - at["1"]


# How many hosts are tried beside each other: they wait for most of their time.
AT_ONCE = 3
# How long a program may take to be stopped by force, two seconds behind its stop, and its daemons to vanish.
TO_STOP, TO_VANISH = 60.0, 10.0
# A small host, so that few connections show it.
LIMITS = "CONNECTIONS, AT_ONCE, A_SECOND = 32, "
FEW = [("doors.py", LIMITS + "2000, 20", LIMITS + "40, 20")]
# Whom the manager refuses is connected all the same.
REFUSES = '                if not reply.startswith("opened "):\n'
REACHES = [("doors.py", REFUSES, """\
                if reply.startswith(("refused 81", "refused 85")):
                    number = next(one.inc for one in manager.instances.values() if one.moniker == "door")
                    reply = f"opened /svc/t.Door at door incarnation {number}"
""" + REFUSES)]
# What is tried, what holds, and changes of the sources with which it doesn't.
TRIES: dict[str, tuple[Callable[[Host], str], str, list[list[tuple[str, str, str]]]]] = {
    "descriptors are dropped": (descriptors, "descriptors 0", [[
        ("carried.py", "            count = self.link.recv_into(BUFFER, 0, NOW)\n",
         "            self.link.setblocking(False)\n"
         "            piece, given, _, _ = socket.recv_fds(self.link, 1 << 16, 4)\n"
         "            count, BUFFER[:len(piece)] = len(piece), piece\n"),
        ("carried.py", "            sent = self.other.link.send(BUFFER[:count], NOW)\n",
         "            sent = socket.send_fds(self.other.link, [BUFFER[:count]], given)\n")]]),
    "a use has 32 connections at once": (at_once, "held 32", [[
        ("doors.py", LIMITS, LIMITS.replace("32", "40"))]]),
    "who heeds no stop ends by force, and its daemons with it": (daemons, "by force, none left", [
        [("sandbox.py", "GRACE = 2.0", "GRACE = 1e6")],
        [("sandbox.py", '"--unshare-all", "--unshare-user",',
          '"--unshare-user", "--unshare-ipc", "--unshare-net", "--unshare-uts",')]]),
    "what a daemon holds is cut": (kept, "cut", [[
        ("sandbox.py", '"--unshare-all", "--unshare-user",',
         '"--unshare-user", "--unshare-ipc", "--unshare-net", "--unshare-uts",'),
        ("instance.py", "            task.cancel()\n", "            pass\n")]]),
    "a realm's questions are limited in a second": (questions, "busy with few", [[
        ("realm.py", "AT_ONCE, A_SECOND = 200, 20", "AT_ONCE, A_SECOND = 1000, 20")]]),
    "all folders together have 256 MB": (filled, "within 256 MB", [[
        ("front.py", "size=256m", "size=400m")]]),
    "what is destroyed reaches nothing": (doomed, "refused 81 gone incarnation", [REACHES]),
    "what counts as off reaches nothing": (counted_off, "refused 85 client-off", [REACHES]),
    # The last one: no further instance has room then.
    "all folders together have 65,536 files": (files, "within 65,536", [[
        ("front.py", "nr_inodes=65536", "nr_inodes=200000")]]),
}


class Hostile(unittest.TestCase):
    """Components that mean ill, beside others that don't."""

    def begin(self, tools: Path = TOOLS) -> Host:
        base = folder()
        self.addCleanup(shutil.rmtree, base, True)
        host = Host(base / "repo", lay_hostile(base / "repo"), run=base / "r", tools=tools)
        self.addCleanup(host.remove)
        return host

    def test_hostile(self) -> None:
        """descriptors are dropped, connections, questions and folders limited, daemons end with the rest"""
        host = self.begin()
        for name, (tries, holds, _) in TRIES.items():
            told = tries(host)
            self.assertTrue(told.startswith(holds), (name, told))
        self.assertIn("gate-failed", host.ask("start late")[0])
        host.wait(r"^failed    late: No space left on device")
        self.assertTrue(host.ask("show .")[0].startswith("shown"))
        self.assertEqual(host.end(), 0)
        self.assertEqual(host.left(), [])

    def test_taken_away(self) -> None:
        """without its defence each of these comes through"""
        edits = [(name, edit) for name, (_, _, found) in TRIES.items() for edit in found]
        with ThreadPoolExecutor(AT_ONCE) as pool:
            for (name, edit), told in zip(edits, pool.map(self.without, edits)):
                with self.subTest(name, edit=edit[0][0]):
                    self.assertFalse(told.startswith(TRIES[name][1]), told)

    def without(self, one: tuple[str, list[tuple[str, str, str]]]) -> str:
        """What comes of a try without its defence."""
        base = folder()
        self.addCleanup(shutil.rmtree, base, True)
        host = self.begin(changed(base, *one))
        try:
            return TRIES[one[0]][0](host)
        finally:
            host.remove()

    def test_a_second(self) -> None:
        """a use has 20 new connections in a second"""
        base = folder()
        self.addCleanup(shutil.rmtree, base, True)
        self.assertGreater(a_hundred(self.begin(changed(base, "a second", FEW))), 5.1)
