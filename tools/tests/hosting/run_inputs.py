"""Bad input: programs that can't be started or behave badly, folders and words that can't be used."""

from __future__ import annotations

import os
import shutil
import signal
import subprocess
import sys
import threading
import time
import unittest
from pathlib import Path

from cm_tools.host.reports import known_words
from cm_tools.host.sandbox import BARE
from tests.hosting.trial import (
    EXAMPLE, PATIENCE, ROOT, TOOLS, Host, folder, package, program, root_of,
)

P = '{program:{runner:"elf",binary:"bin/x"%s}}'
SLEEP = "#!/bin/sh\necho up\nexec sleep 1000000\n"
# Packages whose program is refused, and by which words.
REFUSED = {
    "nobinary": ('{program:{runner:"elf"}}', SLEEP, "the program has no binary"),
    "absent": ('{program:{runner:"elf",binary:"bin/y"}}', SLEEP, "the binary bin/y isn't there"),
    "outside": ('{program:{runner:"elf",binary:"../door/bin/x"}}', SLEEP, "is no path within the package"),
    "interpreter": (P % "", "#!/usr/bin/nosuch -x\n", "the interpreter of bin/x, /usr/bin/nosuch, isn't"),
    "field": (P % ',use_next_vdso:"true"', SLEEP, "field use_next_vdso isn't known"),
    "lifecycle": (P % ',lifecycle:{start_event:"x"}', SLEEP, "field lifecycle.start_event isn't known"),
    "stopevent": (P % ',lifecycle:{stop_event:"perhaps"}', SLEEP, "stop_event perhaps isn't known"),
    "environ": (P % ',environ:["X"]', SLEEP, "which isn't NAME=VALUE"),
    "arguments": (P % ",args:[1]", SLEEP, "args is no list of texts"),
    "runner": ('{program:{runner:"other",binary:"bin/x"}}', SLEEP,
               "no environment of runner registers the runner other"
               if "environments" in known_words(program()) else "the runner other isn't known here"),
    "reserved": ('{program:{runner:"elf",binary:"bin/x"},use:[{protocol:"a",path:"/usr/a"}]}', SLEEP,
                 "stands in a folder of the sandbox's own"),
    "stored": ('{program:{runner:"elf",binary:"bin/x"},use:[{storage:"s",path:"/s"}]}', SLEEP,
               "the storage at /s is refused: 101 no-storage-offer at ."
               if "storage" in known_words(program()) else "doesn't know the word storage"),
}
LATE = """#!/usr/bin/python3
import os, socket, time
os.makedirs("/out/svc", exist_ok=True)
time.sleep(1)
door = socket.socket(socket.AF_UNIX)
door.bind("/out/svc/t.Late")
door.listen(4)
while True:
    with door.accept()[0] as link:
        link.sendall(b"late\\n")
"""
ASKS = """#!/usr/bin/python3
import os, socket, time
for name in "t.Late", "t.Never", "t.Crash":
    begun = time.monotonic()
    try:
        with socket.socket(socket.AF_UNIX) as link:
            link.connect("/svc/" + name)
            got = link.recv(100)
    except OSError as fault:
        got = str(fault)
    print(name, got, flush=True)
os.read(os.pipe()[0], 1)
"""
LOUD = "#!/bin/sh\nhead -c 100000000 /dev/zero | tr '\\0' x\necho\necho done\nexec sleep 1000000\n"
ENDS = "#!/bin/sh\necho ends\nexit 3\n"
STUBBORN = "#!/bin/sh\ntrap '' TERM\necho up\nwhile :; do sleep 1; done\n"
PROVIDES = ('{program:{runner:"elf",binary:"bin/x"},capabilities:[{protocol:"%s"}],'
            'expose:[{protocol:"%s",from:"self"}]}')


class Programs(unittest.TestCase):
    """Programs that can't be started, and such as behave badly."""

    def test_refused(self) -> None:
        """what can't be started is refused by name, one line each"""
        base = folder()
        repo = base / "repo"
        for name, (manifest, script, _) in REFUSED.items():
            package(repo, name, manifest, script)
        package(repo, "unrunnable", P % "", SLEEP)
        (repo / "t/unrunnable/bin/x").chmod(0o644)
        package(repo, "coarse", '{program:{runner:"elf",binary:"bin/x"},use:[{directory:"d",path:"/d",'
                'rights:["read_bytes"]}]}', SLEEP)
        package(repo, "holder", '{program:{runner:"elf",binary:"bin/x"},capabilities:[{directory:"d",'
                'path:"/d",rights:["rw*"]}],expose:[{directory:"d",from:"self"}]}', SLEEP)
        root = root_of(repo, *REFUSED, "unrunnable", "coarse", "holder",
                       more=',offer:[{directory:"d",from:"#holder",to:"#coarse"}]')
        host = Host(repo, root, run=base / "r")
        self.addCleanup(host.remove)
        expected = {name: row[2] for name, row in REFUSED.items()}
        expected.update(unrunnable="the binary bin/x may not be executed",
                        coarse="the rights read_bytes at /d can't be kept here")
        for name, why in expected.items():
            self.assertIn("declined", host.ask(f"start {name}")[0], name)
            self.assertIn(why, next(one["why"] for one in host.events("launch") if one["moniker"] == name))
        self.assertEqual(host.sandboxes(), [])
        self.assertEqual(host.end(), 0)
        self.assertEqual(host.left(), [])

    def test_late_loud_and_short(self) -> None:
        """providers that listen late, never or end at once; a program that prints 100 MB; pauses"""
        base = folder()
        repo = base / "repo"
        for name, capability, script in ("late", "t.Late", LATE), ("never", "t.Never", SLEEP), \
                                        ("crash", "t.Crash", ENDS):
            package(repo, name, PROVIDES % (capability, capability), script)
        package(repo, "asks", '{program:{runner:"elf",binary:"bin/x"},'
                'use:[{protocol:["t.Late","t.Never","t.Crash"]}]}', ASKS)
        package(repo, "loud", P % "", LOUD)
        offers = ",".join(f'{{protocol:"{capability}",from:"#{name}",to:"#asks"}}' for name, capability
                          in (("late", "t.Late"), ("never", "t.Never"), ("crash", "t.Crash")))
        root = root_of(repo, "late", "never", "crash", "asks", "loud", more=f",offer:[{offers}]")
        host = Host(repo, root, run=base / "r")
        self.addCleanup(host.remove)
        host.ask("start asks")
        host.wait(r"said      asks \| t.Crash")
        self.assertIn("t.Late b'late", host.said("asks"))
        self.assertIn("nobody listens at /svc/t.Never of never", host.text())
        host.ask("start loud")
        host.wait_until(lambda: host.said("loud").endswith("done\n"), "the end of 100 MB")
        kept = sum(place.stat().st_size for place in (host.run / "log").glob("said-loud*"))
        self.assertLess(kept, 10 << 20)

        def is_put_off() -> bool:
            host.ask("start crash")
            return any("started again by a connect" in one.get("why", "") for one in host.events("launch"))

        host.wait_until(is_put_off, "start that is put off")
        host.wait(r"it can start again in")
        self.assertEqual(host.end(), 0)
        self.assertEqual(host.left(), [])


SMALL = ("unshare", "--user", "--map-current-user", "--keep-caps", "--mount", "--", "/bin/sh", "-c",
         'mkdir -m 700 "$0"; mount -t tmpfs -o size=1m,mode=700 small "$0" && exec "$@"')
WRITES = "#!/bin/sh\nhead -c 2000000 /dev/zero\necho done >&2\nexec sleep 1000000\n"


class Stops(unittest.TestCase):
    """A shutdown of programs that heed no stop, and directories whose rights are rounded."""

    def test_stubborn(self) -> None:
        """programs that ignore their stop are waited for together: of twenty more than four at each moment"""
        base = folder()
        names = [f"c{number}" for number in range(20)]
        for name in names:
            package(base / "repo", name, P % ',lifecycle:{stop_event:"notify"}', STUBBORN)
        host = Host(base / "repo", root_of(base / "repo", *names), run=base / "r")
        self.addCleanup(host.remove)
        host.ask(*[f"start {name}" for name in names])
        for name in names:
            host.wait_until(lambda: "up" in host.said(name), f"start of {name}")
        self.assertEqual(host.end(), 0)
        halts = [(one["at"], one["ms"] / 1000) for one in host.events("halt") if one["answer"] == "killed"]
        self.assertEqual(len(halts), 20)
        whole = max(at for at, _ in halts) - min(at - took for at, took in halts)
        self.assertGreater(sum(took for _, took in halts), 4 * whole)
        self.assertEqual(host.left(), [])

    def test_coarse(self) -> None:
        """a directory whose rights Linux can't say is bound with the next larger ones, where that is said"""
        base = folder()
        repo = base / "repo"
        package(repo, "coarse", '{program:{runner:"elf",binary:"bin/x"},use:[{directory:"d",path:"/d",'
                'rights:["read_bytes"]}]}', "#!/bin/sh\nls -d /d && echo is there\nexec sleep 1000000\n")
        package(repo, "holder", '{program:{runner:"elf",binary:"bin/x"},capabilities:[{directory:"d",'
                'path:"/d",rights:["rw*"]}],expose:[{directory:"d",from:"self"}]}', SLEEP)
        root = root_of(repo, "coarse", "holder", more=',offer:[{directory:"d",from:"#holder",to:"#coarse"}]')
        host = Host(repo, root, run=base / "r", options=("--coarse-rights",))
        self.addCleanup(host.remove)
        self.assertIn("started", host.ask("start coarse")[0])
        host.wait(r"said      coarse \| is there")
        self.assertEqual(host.end(), 0)
        self.assertEqual(host.left(), [])

    def test_dying(self) -> None:
        """a new child of a name that is still dying begins behind the end of the old one"""
        base = folder()
        url = package(base / "repo", "late", P % ',lifecycle:{stop_event:"notify"}', STUBBORN)
        host = Host(base / "repo", root_of(base / "repo", more=',collections:[{name:"jobs",'
                    'durability:"transient"}]'), run=base / "r")
        self.addCleanup(host.remove)
        host.ask(f"create . jobs j {url}", "start jobs:j")
        host.wait(r"said      jobs:j \| up")
        destroys = threading.Thread(target=host.ask, args=("destroy jobs:j",))
        destroys.start()
        host.wait_until(lambda: any("refused" not in reply for reply in host.ask(f"create . jobs j {url}")),
                        "second child")
        self.assertIn("started", host.ask("start jobs:j")[0])
        destroys.join()
        told = [(event["event"], event["instance"]) for event in host.events()
                if event["event"] in ("launch", "halt") and event["moniker"] == "jobs:j"]
        self.assertEqual([word for word, _ in told], ["launch", "halt", "launch"])
        self.assertEqual(told[0][1], told[1][1])
        self.assertNotEqual(told[0][1], told[2][1])
        self.assertEqual(host.end(), 0)
        self.assertEqual(host.left(), [])


ESCAPES = "#!/bin/sh\nprintf 'red \\033[31m\\n'\nexec sleep 1000000\n"


class Screens(unittest.TestCase):
    """Hosts at whose screens nobody reads."""

    def begin(self, screen: int) -> Host:
        base = folder()
        package(base / "repo", "prints", P % "", ESCAPES)
        host = Host(base / "repo", root_of(base / "repo", "prints"), run=base / "r", screen=screen)
        self.addCleanup(host.remove)
        self.assertIn("started", host.ask("start prints")[0])
        return host

    def test_full(self) -> None:
        """a screen that takes nothing holds nothing up; a program's line steers no terminal"""
        out, into = os.pipe()
        os.set_blocking(into, False)
        with self.assertRaises(BlockingIOError):
            while True:
                os.write(into, bytes(4096))
        os.set_blocking(into, True)
        host = self.begin(into)
        os.close(into)
        host.wait_until(lambda: host.said("prints") != "", "line")
        with open(out, "rb") as read:
            # What stands in the pipe is no line; behind it the screen takes lines again.
            read.read(64 << 10)
            host.ask("stop prints", "start prints")
            host.wait_until(lambda: host.said("prints").count("red") == 2, "second line")
            self.assertEqual(host.end(), 0)
            text = read.read().decode()
        self.assertIn("lines weren't taken here; the log has them", text)
        self.assertIn("prints | red ?[31m\n", text)
        self.assertEqual(host.left(), [])

    def test_closed(self) -> None:
        """a screen that is closed ends nothing, neither where the runner is killed, and the status is told"""
        out, into = os.pipe()
        os.close(out)
        host = self.begin(into)
        os.close(into)
        before = host.runner_pid()
        os.kill(before, signal.SIGKILL)
        host.wait_until(lambda: host.events("resumed") != [] and "started" in host.ask("start prints")[0],
                        "next runner")
        self.assertEqual(host.end(), 0)
        self.assertEqual(host.left(), [])


class Disk(unittest.TestCase):
    """A folder that is full, and a manager that can't be begun again."""

    def test_full_disk(self) -> None:
        """on a full disk nothing is launched or opened, it is told in one line, and all ends in order"""
        base = folder()
        repo, inside = base / "repo", base / "r"
        package(repo, "writes", P % "", WRITES)
        package(repo, "more", P % "", SLEEP)
        host = Host(repo, root_of(repo, "writes", "more"), run=inside, before=(*SMALL, str(inside), *BARE))
        self.addCleanup(host.remove)
        # Its folder is seen by its own mounts alone.
        host.run = Path(f"/proc/{host.process.pid}/root{inside}")
        host.ask("start writes")
        filler = host.run / "filler"
        with self.assertRaises(OSError), open(filler, "wb", buffering=0) as file:
            while file.write(bytes(4096)) == 4096:
                pass
            raise OSError("full")
        # The last block of the log has some room yet.
        host.wait_until(lambda: "declined" in host.ask("stop more", "start more")[1], "declined launch")
        host.wait("the log can't be written: No space left on device; nothing is launched or opened")
        self.assertEqual(host.text().count("the log can't be written"), 1)
        self.assertTrue(host.ask("show .")[0].startswith("shown"))
        filler.unlink()
        self.assertIn("started more", host.ask("start more")[0])
        self.assertEqual(host.end(), 0)
        self.assertEqual(host.left(), [])

    def test_no_manager(self) -> None:
        """a manager that can't be begun again is told, and the host ends with all that it ran"""
        base = folder()
        repo = base / "repo"
        package(repo, "more", P % "", SLEEP)
        copied = base / "component_manager"
        shutil.copy(program(), copied)
        copied.chmod(0o755)
        host = Host(repo, root_of(repo, "more"), run=base / "r",
                    environment={"COMPONENT_MANAGER": str(copied)})
        self.addCleanup(host.remove)
        host.ask("start more")
        copied.unlink()
        os.kill(host.manager_pids()[0], signal.SIGKILL)
        self.assertEqual(host.process.wait(PATIENCE), 5)
        self.assertIn("none could be begun", host.text())
        self.assertNotIn("Traceback", host.text())
        self.assertEqual(host.left(), [])


def run(*words: str, tools: Path = TOOLS) -> tuple[int, str]:
    """A run of the tool that ends by itself: its status, and what it says."""
    done = subprocess.run([sys.executable, str(tools / "host"), *words], capture_output=True, text=True,
                          timeout=PATIENCE)
    return done.returncode, done.stdout + done.stderr


class Words(unittest.TestCase):
    """What a host says of its words and of its folder."""

    def says(self, why: str, *words: str) -> None:
        status, text = run(*words)
        self.assertEqual(status, 2, text)
        self.assertIn(why, text)
        self.assertEqual(text.count("\n"), 1, text)

    def test_words(self) -> None:
        """folders, roots and words that can't be used: one line each, with status 2"""
        base = folder()
        run_at = str(base / "r")
        self.says("is no folder of packages", str(base / "none"), ROOT, "--run", run_at)
        self.says("can't be read: No such file", str(EXAMPLE), "fuchsia-pkg://demo/x#meta/x.cm", "--run",
                  run_at)
        self.says("names no manifest", str(EXAMPLE), "fuchsia-pkg://demo/root", "--run", run_at)
        self.says("no builtins", str(EXAMPLE), ROOT, "--run", run_at, "--builtin", "x")
        self.says("is too long", str(EXAMPLE), ROOT, "--run", str(base / ("x" * 100)))
        self.says("no host runs there", "ps", run_at)
        self.says("no server is there", "console", run_at, "show .")
        (base / "open").mkdir(mode=0o755)
        (base / "open").chmod(0o755)
        self.says("nobody else may look into it", str(EXAMPLE), ROOT, "--run", str(base / "open"))

    def test_two_hosts(self) -> None:
        """a second host in one folder is refused, and the first goes on"""
        host = Host(EXAMPLE)
        self.addCleanup(host.remove)
        self.says("another host runs in", str(EXAMPLE), ROOT, "--run", str(host.run))
        self.assertTrue(host.ask("show .")[0].startswith("shown"))
        self.assertEqual(host.end(), 0)
        self.assertEqual(host.left(), [])
