"""Tests of the parts of `host` that need no sandbox: what it reads, remembers, counts and writes."""

from __future__ import annotations

import asyncio
import contextlib
import functools
import io
import json
import os
import shutil
import signal
import socket
import struct
import subprocess
import sys
import tempfile
import time
import unittest
from pathlib import Path
from typing import Any, Callable, Coroutine
from unittest.mock import AsyncMock, Mock, patch

from cm_tools.console import Unusable
from cm_tools.host import doors, events as events_module, front, making, programs, seccomp, watching
from cm_tools.host.carried import Carried
from cm_tools.host.consoles import Consoles
from cm_tools.host.doors import OPENED, PUT_OFF, can_be_kept, connected_beneath
from cm_tools.host.events import EVENTS, Log, Said, place_of, told, written
from cm_tools.host.gate import Gate
from cm_tools.host.instance import Instance
from cm_tools.host.leftovers import remove, removed_few, removed_sockets
from cm_tools.host.programs import Repo, Unfit
from cm_tools.host.questions import Question
from cm_tools.host.realm import Room
from cm_tools.host.reports import TOP, Reports
from cm_tools.host.sandbox import Process
from cm_tools.host.screen import LONGEST, Screen
from cm_tools.host.sessions import Tally, count_of
from cm_tools.host.settings import Settings
from cm_tools.host.starts import UNSEEN, Begun, Starts
from cm_tools.host.storage import Storage, Used, counted
from cm_tools.host.succession import older
from cm_tools.host.tree import Tree, commands, created_part
from tests.support import SECONDS

PARENT = """{ // relaxed
    children: [ { name: 'a', url: '#meta/a.cm' }, { name: "b", url: "fuchsia-pkg://h/b#meta/b.cm" } ],
    collections: [ { name: "c", durability: "transient" }, { name: "once", durability: "single_run" } ],
}"""
ROOT = "fuchsia-pkg://h/r#meta/r.cm"


class InFolder(unittest.TestCase):
    """With a folder of its own."""

    def setUp(self) -> None:
        kept = tempfile.TemporaryDirectory()
        self.addCleanup(kept.cleanup)
        self.folder = Path(kept.name)

    def put(self, place: str, text: str, mode: int = 0o644) -> None:
        path = self.folder / place
        path.parent.mkdir(parents=True, exist_ok=True)
        path.write_text(text)
        path.chmod(mode)


class Replies(unittest.TestCase):
    """What the first line of a reply says."""

    def test_counts(self) -> None:
        """host: how many lines follow the first one of a reply"""
        for line, rows in (
            ("survey . 3", 3), ("doctor next 4", 4), ("children . coll 0", 0), ("events . 4 next 13", 4),
            ("events next 0 next 5", 0),
        ):
            self.assertEqual(count_of(line), rows, line)


class Programs(InFolder):
    """What is read of manifests."""

    def read(self, manifest: str) -> programs.Program:
        self.put("h/p/meta/p.cm", manifest)
        return programs.read(Repo.of(self.folder), "fuchsia-pkg://h/p#meta/p.cm")

    def test_read(self) -> None:
        """host: a program with its words, its environment, its stop and its uses is read"""
        self.put("h/p/bin/x", "#!/bin/sh\n", 0o755)
        read = self.read('{program:{runner:"elf",binary:"bin/x",args:["a b"],environ:["K=V=W"],'
                         'lifecycle:{stop_event:"notify"}},use:[{protocol:["p","q"]},'
                         '{directory:"d",path:"/d"},{protocol:"r",path:"/svc/s",from:"framework"}]}')
        self.assertEqual((read.binary, read.args, read.environ, read.notify),
                         ("bin/x", ("a b",), (("K", "V=W"),), True))
        self.assertEqual([(use.kind, use.path, use.source) for use in read.uses], [
            ("protocol", "/svc/p", "parent"), ("protocol", "/svc/q", "parent"),
            ("directory", "/d", "parent"), ("protocol", "/svc/s", "framework")])

    def test_digest(self) -> None:
        """host: manifests of the same bytes are told alike, however often written, and others apart"""
        repo, url = Repo.of(self.folder), "fuchsia-pkg://h/p#meta/p.cm"
        self.assertEqual(programs.digest(repo, url), programs.NOTHING)
        found = []
        for count, text in enumerate(("{}", "{ }", "{}", "{}  ")):
            self.put("h/p/meta/p.cm", text)
            os.utime(self.folder / "h/p/meta/p.cm", ns=(count, count))
            found.append(programs.digest(repo, url))
        self.assertEqual((found[0].size, found[0]), (2, found[2]))
        self.assertEqual(len(set(found)), 3)

    def test_links(self) -> None:
        """host: a binary that is a link out of its package is refused"""
        self.put("h/other", "#!/bin/sh\n", 0o755)
        (self.folder / "h/p/bin").mkdir(parents=True)
        (self.folder / "h/p/bin/x").symlink_to("../../other")
        with self.assertRaisesRegex(Unfit, "leads out of the package"):
            self.read('{program:{runner:"elf",binary:"bin/x"}}')

    def test_places(self) -> None:
        """host: a URL names a file below the repository, or none"""
        for url in ("fuchsia-pkg://h/../x#meta/x.cm", "fuchsia-pkg://h/p", "fuchsia-pkg://h/p#../x",
                    "fuchsia-pkg:///p#m", "x", "fuchsia-pkg://h//p#m", "http://[x/p#m"):
            with self.assertRaises(Unfit, msg=url):
                programs.place_of(Repo.of(self.folder), url)


class Remembered(InFolder):
    """The tree, as a further manager gets it."""

    def tree(self) -> Tree:
        self.put("h/r/meta/r.cm", PARENT)
        return Tree(ROOT, Repo.of(self.folder), self.folder / "tree")

    def test_commands(self) -> None:
        """host: children come back in their order, with those that a standing offer names"""
        tree = self.tree()
        tree.open()
        tree.created(".", "c", "gone", "#meta/a.cm", [])
        tree.created(".", "c", "one", "#meta/a.cm", ["+", "protocol", "p", "#c:gone"])
        tree.created("c:one", "d", "two", "#meta/a.cm", [])
        tree.created(".", "c", "alone", "#meta/a.cm", [])
        tree.destroyed("c:gone")
        tree.destroyed("c:alone")
        self.assertEqual(commands(tree.needed()), [
            "create . c gone #meta/a.cm", "create . c one #meta/a.cm + protocol p #c:gone",
            "create c:one d two #meta/a.cm", "destroy c:gone"])

    def test_resumed(self) -> None:
        """host: what is remembered is read again, also behind a cut, and not for another root"""
        tree = self.tree()
        self.assertFalse(tree.open())
        tree.created(".", "c", "one", "#meta/a.cm", [])
        for name in "a", "b", "c:one":
            tree.started(name)
        tree.off("b")
        tree.shut_down("a")
        with open(self.folder / "tree", "a", encoding="utf-8") as file:
            file.write('["created", "."')
        again = self.tree()
        self.assertTrue(again.open())
        self.assertEqual((list(again.children), list(again.on), again.shut), (["c:one"], ["c:one"], ["a"]))
        self.assertFalse(Tree(ROOT + "x", Repo.of(self.folder), self.folder / "tree").open())

    def test_stops(self) -> None:
        """host: a stop takes children of collections along, and what runs once goes itself"""
        tree = self.tree()
        tree.created(".", "once", "x", "#meta/a.cm", [])
        tree.created(".", "c", "y", "#meta/a.cm", [])
        self.assertEqual(tree.stopped("once:x"), ["once:x"])
        self.assertEqual(tree.stopped("."), ["c:y"])
        self.assertEqual(list(tree.children), [])
        self.assertTrue(tree.stands("a"))
        self.assertFalse(tree.stands("c:y/a"))

    def test_bounded(self) -> None:
        """host: the file of what is remembered doesn't grow with what has gone"""
        tree = self.tree()
        tree.open()
        for count in range(5000):
            tree.created(".", "c", f"x{count}", "#meta/a.cm", [])
            tree.destroyed(f"c:x{count}")
        self.assertLess((self.folder / "tree").stat().st_size, 200_000)
        self.assertLess(len(tree.steps), 200)

    def test_urls(self) -> None:
        """host: the URL of a child is found by manifests alone"""
        tree = self.tree()
        tree.created(".", "c", "y", "#meta/y.cm", [])
        self.assertEqual([tree.url_of(name) for name in (".", "a", "b", "c:y")], [
            ROOT, "fuchsia-pkg://h/r#meta/a.cm", "fuchsia-pkg://h/b#meta/b.cm",
            "fuchsia-pkg://h/r#meta/y.cm"])


class Asked(InFolder):
    """The scripts for the words `environments` and `storage`."""

    def setUp(self) -> None:
        super().setUp()
        self.put("h/r/meta/r.cm", PARENT)
        self.tree = Tree(ROOT, Repo.of(self.folder), self.folder / "tree")
        self.reports = Reports("/usr/bin/false", Repo.of(self.folder), self.tree, Starts())

    def test_script(self) -> None:
        """host: a script for a report brings what was created above an instance, and nothing else"""
        self.tree.created(".", "c", "gone", "#meta/a.cm", [])
        self.tree.created(".", "c", "one", "#meta/a.cm", ["+", "protocol", "p", "#c:gone"])
        self.tree.created(".", "c", "other", "#meta/a.cm", [])
        self.tree.destroyed("c:gone")
        self.tree.comes("c:one", "d", "two", "#meta/a.cm", [])
        self.assertEqual(self.reports.script(["c:one/d:two/x"]), [
            f"root {ROOT}", "0 create . c gone #meta/a.cm",
            "0 create . c one #meta/a.cm + protocol p #c:gone", "0 destroy c:gone",
            "0 create c:one d two #meta/a.cm", "0 resolve c:one/d:two/x"])
        self.assertEqual(self.reports.script_below_the_host(["c:other/x", "."], {})[-4:], [
            f"root {TOP}", "0 create root c other #meta/a.cm", "0 resolve root/c:other/x", "0 resolve root"])
        self.assertEqual(self.reports.words, frozenset())

    def test_births(self) -> None:
        """host: a child that is made again has another birth, also behind a further reading"""
        self.tree.open()
        self.tree.created(".", "c", "one", "#meta/a.cm", [])
        first = self.tree.children["c:one"].birth
        again = Tree(ROOT, Repo.of(self.folder), self.folder / "tree")
        self.assertTrue(again.open())
        self.assertEqual(again.children["c:one"].birth, first)
        again.destroyed("c:one")
        again.created(".", "c", "one", "#meta/a.cm", [])
        self.assertNotEqual(again.children["c:one"].birth, first)
        self.assertEqual([created_part(one) for one in (".", "a/b", "c:one", "c:one/a", "a/c:x/b/d:y/e")],
                         ["", "", "c:one", "c:one", "a/c:x/b/d:y"])

    def test_names(self) -> None:
        """host: folders of storage have names of their own for each place, and each birth"""
        self.tree.created(".", "c", "one", "#meta/a.cm", [])
        storage = Storage(Mock(tree=self.tree), self.reports)
        long = [storage.name("a", "fs /" + "x/" * 300 + end) for end in "ab"]
        names = [storage.name("a", "fs /m/a/data"), storage.name("a", "fs /m/a%2Fdata"),
                 storage.name("c:one", "fs /m/a/data"), *long]
        self.assertEqual(len(set(names)), len(names))
        self.assertTrue(all("/" not in name and len(name) < 200 for name in names))
        self.assertEqual(names[2].partition("~")[2], self.tree.children["c:one"].birth)

    def test_counted(self) -> None:
        """host: what lies in a storage is counted at any depth; what may not be looked at is told"""
        at = os.open(self.folder, os.O_RDONLY)
        for _ in range(1500):
            os.mkdir("deep", dir_fd=at)
            below = os.open("deep", os.O_RDONLY, dir_fd=at)
            os.close(at)
            at = below
        with open(os.open("file", os.O_CREAT | os.O_WRONLY, dir_fd=at), "wb") as file:
            file.write(bytes(1 << 20))
        os.close(at)
        used = self.counted(10_000)
        self.assertGreaterEqual(used.size, 1 << 20)
        self.assertEqual((used.files > 1500, used.is_whole), (True, True))
        self.assertGreater(self.counted(100).files, 100)
        subprocess.run(["rm", "-rf", str(self.folder / "deep")], check=True)

    def counted(self, most: int) -> Used:
        """What lies in the folder, looked at by a starter's process."""
        async def count() -> Used:
            starts = Starts()
            try:
                return await counted(starts, self.folder, most)
            finally:
                starts.close()

        return watching.run(count())


class Written(InFolder):
    """The log, and what programs print."""

    def test_log(self) -> None:
        """host: an event is a line of JSON and a line for a person, and a full disk is told once"""
        screen = io.StringIO()
        log = Log(self.folder, screen)
        why = "refused 87 no-offer at offer ."
        self.assertTrue(log.event("refused", moniker="a", path="/svc/p", why=why))
        line = json.loads((self.folder / EVENTS).read_text())
        self.assertEqual((line["event"], line["moniker"]), ("refused", "a"))
        self.assertEqual(screen.getvalue(), "refused   a /svc/p: 87 no-offer at offer .\n")
        with open("/dev/full", "wb") as full:
            log.file = full.fileno()
            self.assertFalse(log.event("launch", moniker="a", answer="running", ms=1))
            self.assertFalse(log.event("launch", moniker="a", answer="running", ms=1))
        self.assertEqual(screen.getvalue().count("the log can't be written"), 1)

    def test_snapshot(self) -> None:
        """host: a file of events that is put aside is followed by one that says what runs"""
        log = Log(self.folder, io.StringIO())
        log.snapshot = lambda: [{"event": "runs", "moniker": "a"}]
        log.size = 1 << 30
        log.event("ready")
        events = [json.loads(line)["event"] for line in (self.folder / EVENTS).read_text().splitlines()]
        self.assertEqual(events, ["runs", "ready"])
        self.assertTrue((self.folder / "events.1.jsonl").exists())

    def test_said(self) -> None:
        """host: what a program prints is shown by lines, few of them, and kept up to a size"""
        screen = io.StringIO()
        said = Said(Log(self.folder, screen), "a/b:c")
        said.take(b"one\ntw")
        said.take(b"o\nthree")
        said.end()
        self.assertEqual(screen.getvalue().splitlines(),
                         ["said      a/b:c | one", "said      a/b:c | two", "said      a/b:c | three"])
        begun = time.monotonic()
        for _ in range(200):
            said.take(b"x" * 65535 + b"\n")
        self.assertLess(len(screen.getvalue().splitlines()), 110 + 100 * (time.monotonic() - begun))
        self.assertLess(sum(place.stat().st_size for place in self.folder.glob("said-*")), 9 << 20)
        self.assertNotEqual(place_of(self.folder, "a/" * 200 + "b"), place_of(self.folder, "a/" * 200 + "c"))

    def test_told(self) -> None:
        """host: an event that has no form of its own is told by its fields"""
        self.assertEqual(told({"at": 1, "event": "shut", "manager": 1, "in_order": True}),
                         "shut       in_order True")


    def test_written(self) -> None:
        """host: a line of the log is JSON, whatever stands in it"""
        line = {"at": 1796039158.323985, "n": 7, "b": True, "none": None, "list": [1, "x"],
                "text": 'a "b"\n\\ \u00e9 \udc80'}
        self.assertEqual(json.loads(written(line)), line)
        self.assertEqual(written(line).count("\n"), 1)

    def test_closed(self) -> None:
        """host: that a connection is closed is written with the next event, before it, or by itself"""
        log, waits = Log(self.folder, io.StringIO()), list[Callable[[], None]]()
        log.call_later = lambda _, flush: waits.append(flush)
        for number in 1, 2:
            log.closed("a", number)
        self.assertEqual((self.folder / EVENTS).read_text(), "")
        log.note("opened", connection=3)
        log.closed("a", 3)
        # It is looked after them once, however many come meanwhile, and again behind that.
        self.assertEqual(len(waits), 1)
        waits.pop()()
        log.closed("a", 4)
        self.assertEqual(len(waits), 1)
        waits.pop()()
        events = [json.loads(line) for line in (self.folder / EVENTS).read_text().splitlines()]
        self.assertEqual([(one["event"], one["connection"]) for one in events],
                         [("closed", 1), ("closed", 2), ("opened", 3), ("closed", 3), ("closed", 4)])

    def test_opened(self) -> None:
        """host: that a connection is opened or closed is written as any other event is"""
        log = Log(self.folder, screen := io.StringIO())
        log.event("opened", moniker='a"', path="/\u00e9", manager=2, provider="b\\", connection=7)
        self.assertTrue(log.opened('a"', "/\u00e9", 2, "b\\", 7))
        log.show_opened('a"', "/\u00e9", "b\\")
        log.closed('a"', 7)
        log.note("closed", moniker='a"', connection=7)
        events = [json.loads(line) for line in (self.folder / EVENTS).read_text().splitlines()]
        for one in events:
            self.assertLess(abs(one.pop("at") - time.time()), SECONDS)
        self.assertEqual(events[0::2], events[1::2])
        one, other = screen.getvalue().splitlines()
        self.assertEqual(one, other)

    def test_gone(self) -> None:
        """host: of what instances printed that have gone the oldest goes, and that of no other"""
        log = Log(self.folder, io.StringIO())
        for count, name in enumerate(("known", "old", "older", "new", "newer")):
            for place in place_of(self.folder, name), place_of(self.folder, name).with_suffix(".1"):
                place.write_bytes(bytes(100))
                os.utime(place, (count, count))
        with patch.multiple(events_module, MOST_SAID=450, LOOK=2):
            log.gone(["known"])
            self.assertEqual(len(list(self.folder.glob("said-*"))), 10)
            log.gone(["known"])
        self.assertEqual(sorted(place.name for place in self.folder.glob("said-*")),
                         sorted(f"said-{name}{end}" for name in ("known", "new", "newer")
                                for end in (".1", ".log")))
        self.assertTrue((self.folder / EVENTS).exists())

    def test_journals(self) -> None:
        """host: the journals that were written last are kept"""
        for count in range(5):
            self.put(f"{count}.journal", "x")
            os.utime(self.folder / f"{count}.journal", (9 - count, 9 - count))
        self.assertEqual(sorted(place.name for place in older(self.folder, 3)), ["3.journal", "4.journal"])


class Consoled(unittest.TestCase):
    """What consoles name."""

    def test_numbers(self) -> None:
        """host: an instance that a console names by a number is looked up by one line, once"""
        ask = AsyncMock(side_effect=[["shown a/c:b incarnation 7 url x resolved on"], ["refused 81 gone"]])
        manager = Mock(monikers={0: "."}, asked=Mock(consoles=Mock(ask=ask)))

        async def look() -> list[str | None]:
            consoles, names = Consoles(Mock()), ("@7", "@7", "@0", "a/b", "@8", "@x")
            return [await consoles.moniker_of(manager, name) for name in names]

        self.assertEqual(asyncio.run(look()), ["a/c:b", "a/c:b", ".", "a/b", None, None])
        self.assertEqual([call.args for call in ask.call_args_list], [("show @7",), ("show @8",)])


class Sockets(InFolder):
    """Where providers listen, and what is left of the last start."""

    def provider(self) -> Instance:
        return Instance(1, "a", self.folder / "i")

    def listen(self, place: Path) -> socket.socket:
        door = socket.socket(socket.AF_UNIX)
        self.addCleanup(door.close)
        door.bind(str(place))
        door.listen(4)
        return door

    def meets(self, it: Instance, door: socket.socket, path: str = "/svc/p") -> bool:
        """Whether a connection to what the provider has there comes to this door."""
        with connected_beneath(it, path):
            door.setblocking(False)
            try:
                door.accept()[0].close()
                return True
            except BlockingIOError:
                return False

    def test_stands(self) -> None:
        """host: a provider is met where it listens now, also at a socket that took another one's place"""
        it = self.provider()
        place = it.out / "svc/p"
        with self.assertRaises(FileNotFoundError):
            connected_beneath(it, "/svc/p")
        first = self.listen(place)
        self.assertTrue(self.meets(it, first))
        self.assertTrue(self.meets(it, first))
        place.unlink()
        with self.assertRaises(FileNotFoundError):
            connected_beneath(it, "/svc/p")
        second = self.listen(it.out / "other")
        (it.out / "other").rename(place)
        self.assertTrue(self.meets(it, second))
        self.assertFalse(self.meets(it, first))
        second.close()
        with self.assertRaises(ConnectionRefusedError):
            connected_beneath(it, "/svc/p")
        self.assertEqual(it.listens, {})
        third = self.listen(it.out / "top")
        self.assertTrue(self.meets(it, third, "/top"))
        open_now = len(os.listdir("/proc/self/fd"))
        it.part()
        self.assertEqual(len(os.listdir("/proc/self/fd")), open_now - 2)

    def test_links(self) -> None:
        """host: no link leads to a socket, at no part of a path, and not behind a connection either"""
        it = self.provider()
        aside = self.listen(self.folder / "aside")
        (it.out / "svc/l").symlink_to(self.folder / "aside")
        (it.out / "up").symlink_to(self.folder)
        for path in "/svc/l", "/up/aside":
            with self.assertRaises(OSError):
                connected_beneath(it, path)
        inside = self.listen(it.out / "svc/p")
        self.assertTrue(self.meets(it, inside))
        (it.out / "svc/p").unlink()
        (it.out / "svc/p").symlink_to(self.folder / "aside")
        with self.assertRaises(OSError):
            connected_beneath(it, "/svc/p")
        (it.out / "svc/p").unlink()
        (it.out / "svc/p").write_text("x")
        with self.assertRaises(PermissionError):
            connected_beneath(it, "/svc/p")
        aside.setblocking(False)
        with self.assertRaises(BlockingIOError):
            aside.accept()

    def test_removed(self) -> None:
        """host: sockets of the last start are removed; files and what links lead to stay"""
        kept = self.folder / "kept"
        inside = self.folder / "out/svc"
        inside.mkdir(parents=True)
        for place in kept, inside / "p":
            with socket.socket(socket.AF_UNIX) as door:
                door.bind(str(place))
        (inside / "link").symlink_to(kept)
        (inside / "up").symlink_to(self.folder)
        (inside / "file").write_text("x")
        self.assertTrue(removed_sockets(self.folder / "out"))
        self.assertEqual(sorted(place.name for place in inside.iterdir()), ["file", "link", "up"])
        self.assertTrue(kept.is_socket())
        self.assertFalse(removed_sockets(self.folder / "out", 3))

    def test_removed_whole(self) -> None:
        """host: a folder with little in it is removed; what links lead to stays, and what is large or deep"""
        kept = self.folder / "kept"
        kept.mkdir()
        (kept / "file").write_text("x")
        for name, most, gone in ("few", 9, True), ("many", 3, False), ("deep", 99, False):
            folder = self.folder / name
            (folder / ("a/" * (12 if name == "deep" else 2))).mkdir(parents=True)
            (folder / "link").symlink_to(kept)
            (folder / "a/link").symlink_to(kept)
            (folder / "a/file").write_text("x")
            self.assertEqual((removed_few(folder, most), folder.exists()), (gone, not gone), name)

        async def removes() -> None:
            starts = Starts()
            (self.folder / "deep/a/a").chmod(0)
            await remove(starts, self.folder / "deep")
            starts.close()

        watching.run(removes())
        self.assertFalse((self.folder / "deep").exists())
        self.assertEqual((kept / "file").read_text(), "x")


class Started(InFolder):
    """Processes that the starter begins."""

    def started(self, work: Callable[[Starts], Coroutine[Any, Any, None]]) -> None:
        """Does something with a starter of its own."""
        async def works() -> None:
            starts = Starts()
            try:
                await work(starts)
            finally:
                starts.close()

        watching.run(asyncio.wait_for(works(), SECONDS))

    def test_words(self) -> None:
        """host: a process gets its words, streams and descriptors, and no others; its status is told"""
        async def work(starts: Starts) -> None:
            out, into = os.pipe()
            inner, far = os.pipe()
            script = "ls -l /proc/self/fd | wc -l; echo to the far one >&$1; echo no more >&2; exit 7"
            begun = await starts.begin(("sh", "-c", script, "-", 0), (far, into), (None, 1, 1))
            os.close(into)
            os.close(far)
            self.assertEqual(await begun.status, 7)
            os.close(begun.descriptor)
            # Three streams, the descriptor, and the one by which `ls` reads; and a line of its own.
            self.assertEqual(await watching.read_all(out), b"6\nno more\n")
            self.assertEqual(await watching.read_all(inner), b"to the far one\n")

        self.started(work)

    def test_many(self) -> None:
        """host: many processes begin at once; each tells its own status"""
        async def work(starts: Starts) -> None:
            ran = await asyncio.gather(*(starts.run("sh", "-c", f"exit {count}") for count in range(60)))
            self.assertEqual(ran, list(range(60)))
            self.assertEqual((starts.ordered, starts.running), ({}, {}))

        self.started(work)

    def test_room(self) -> None:
        """host: orders wait for room where the starter takes none, and none is lost"""
        async def work(starts: Starts) -> None:
            self.assertEqual(await starts.run("true"), 0)
            assert starts.starter is not None
            starts.starter.send_signal(signal.SIGSTOP)
            asked = [asyncio.ensure_future(starts.run("true")) for _ in range(400)]
            while len(starts.ordered) < 10:
                await asyncio.sleep(0.01)
            self.assertLess(len(starts.ordered), 400)
            starts.starter.send_signal(signal.SIGCONT)
            self.assertEqual(set(await asyncio.gather(*asked)), {0})

        self.started(work)

    def test_faults(self) -> None:
        """host: a program that isn't there is an error, and one that takes too long is killed"""
        async def work(starts: Starts) -> None:
            with self.assertRaises(FileNotFoundError):
                await starts.run(str(self.folder / "none"))
            self.assertEqual(await starts.said(("wc", "-c"), b"four", SECONDS), (b"4\n", 0))
            with self.assertRaises(asyncio.TimeoutError):
                await starts.said(("sleep", "1000000"), b"", 0.05)
            while starts.running:
                await asyncio.sleep(0.01)

        self.started(work)

    def test_lost(self) -> None:
        """host: where the starter is killed, what it began counts as ended, and another one goes on"""
        async def work(starts: Starts) -> None:
            begun = await starts.begin(("sleep", "1000000"))
            assert starts.starter is not None
            starts.starter.kill()
            self.assertEqual(await begun.status, UNSEEN)
            begun.kill()
            os.close(begun.descriptor)
            self.assertEqual(await starts.run("true"), 0)

        self.started(work)

    def test_who_has_gone(self) -> None:
        """host: who asks for a process and is gone before it is there leaves none behind"""
        async def work(starts: Starts) -> None:
            asked = asyncio.ensure_future(starts.begin(("sleep", "1000000")))
            await asyncio.sleep(0)
            asked.cancel()
            while starts.ordered or starts.running:
                await asyncio.sleep(0.01)

        self.started(work)


class Ended(unittest.TestCase):
    """The end of a sandbox."""

    def test_unbound(self) -> None:
        """host: where bwrap has ended the first process inside does, too, though not bound to its life yet"""
        async def ends(inside: subprocess.Popen[bytes]) -> bool:
            begun = Begun(inside.pid, os.pidfd_open(inside.pid))
            sandbox = Process(begun, -1)
            sandbox.inner = os.pidfd_open(inside.pid)
            begun.status.add_done_callback(sandbox._outer_ended)
            begun.end(-signal.SIGKILL)
            return await sandbox.ended(SECONDS)

        inside = subprocess.Popen(["sleep", "1000000"])
        self.addCleanup(inside.wait)
        self.addCleanup(inside.kill)
        self.assertTrue(watching.run(ends(inside)))


class Shown(unittest.TestCase):
    """Lines for a person."""

    def test_full(self) -> None:
        """host: a screen that takes nothing isn't waited for, and tells later how many lines it missed"""
        out, into = os.pipe()
        self.addCleanup(os.close, out)
        with open(into, "w", encoding="utf-8") as stream:
            screen, count = Screen(stream), 0
            while not screen.left_out:
                screen.show("\u00e9" * 2000)
                count += 1
            screen.show("missed")
            self.assertEqual(os.read(out, 1 << 20).decode(), ("\u00e9" * LONGEST + "\n") * (count - 1))
            screen.show("a\tb \x1b[31m")
            self.assertEqual(os.read(out, 1 << 20).decode().splitlines(),
                             ["host      2 lines weren't taken here; the log has them", "a?b ?[31m"])

    def test_closed(self) -> None:
        """host: a screen that is closed is written no more"""
        out, into = os.pipe()
        os.close(out)
        with open(into, "w", encoding="utf-8") as stream:
            screen = Screen(stream)
            screen.show("nobody reads this")
            self.assertTrue(screen.is_over)
            screen.show("nor this")
            os.dup2(os.open(os.devnull, os.O_WRONLY | os.O_CLOEXEC), into)


class Watched(InFolder):
    """What the loop calls."""

    def test_same_number(self) -> None:
        """host: what came for a socket that is closed isn't taken for that of another with its number"""
        called: list[str] = []

        async def work() -> None:
            one, other, far, farther = (*socket.socketpair(), *socket.socketpair())
            watches = [watching.watch(one), watching.watch(far)]
            fresh: list[tuple[int, int]] = []

            def close_the_other(name: int) -> None:
                called.append("first")
                for each in watches:
                    each.end()
                (far if name == 0 else one).close()
                fresh.append(os.pipe())
                watching.watch(fresh[0][0]).on_read(lambda: called.append("the pipe"))

            for name, each in enumerate(watches):
                each.on_read(functools.partial(close_the_other, name))
            other.send(b"x")
            farther.send(b"x")
            await asyncio.sleep(0.05)
            for each in one, other, far, farther:
                each.close()

        watching.run(work())
        self.assertEqual(called, ["first"])


class Looked(unittest.TestCase):
    def test_looks(self) -> None:
        """Behind something that came the loop looks again for a moment; then it waits, and looks no more"""
        selector, came = watching.Selector(), [(7, watching.READS)]
        selector.close()
        for case, answers, waits in (
                ("nothing had come", [[]], [5.0]),
                ("something comes while it waits", [came], [5.0]),
                ("the next comes within the moment", [[], [], came], [0, 0, 0]),
                ("nothing more comes within the moment, nor later", [[], []], [0, 5.0]),
                ("so it waits at once", [came], [5.0])):
            clock = iter(range(9)) if waits[-1] and len(waits) > 1 else iter([0.0] * 9)
            asked = Mock(side_effect=answers)
            selector.epoll = Mock(poll=asked)
            with self.subTest(case), patch.object(watching.time, "monotonic", lambda: next(clock) * 0.00006):
                self.assertEqual(selector._come(5.0), answers[-1])
                self.assertEqual([one.args[0] for one in asked.call_args_list], waits)

    def test_is_due(self) -> None:
        """What is due within the moment is waited for as long as that takes"""
        selector = watching.Selector()
        selector.close()
        selector.has_come = True
        for wait in (0.0, watching.A_MOMENT):
            asked = Mock(return_value=[])
            selector.epoll, selector.has_come = Mock(poll=asked), True
            with self.subTest(wait=wait):
                self.assertEqual(selector._come(wait), [])
                asked.assert_called_once_with(wait, watching.MOST)


class Kept(Carried):
    """A connection that is carried, and how it ended."""

    __slots__ = ("how",)

    def __init__(self, one: socket.socket, other: socket.socket, first: bytes = b"") -> None:
        super().__init__(watching.watcher(), one, other, first)
        self.how: list[OSError | None] = []

    def ended(self, fault: OSError | None) -> None:
        self.how.append(fault)


class Carries(unittest.TestCase):
    """What comes over a connection that is carried."""

    def carries(self, one: Callable[[socket.socket], bytes], other: Callable[[socket.socket], bytes],
                first: bytes = b"") -> tuple[bytes, bytes]:
        """What a client and a provider return, each in a thread, of which the runner has the other ends."""
        client, near = socket.socketpair()
        far, provider = socket.socketpair()

        async def work() -> tuple[bytes, bytes]:
            kept = Kept(near, far, first)
            kept.begin()
            both = await asyncio.gather(asyncio.to_thread(one, client), asyncio.to_thread(other, provider))
            while not kept.how:
                await asyncio.sleep(0.001)
            return both[0], both[1]

        with client, provider:
            found = watching.run(asyncio.wait_for(work(), SECONDS))
        self.assertEqual((near.fileno(), far.fileno()), (-1, -1))
        return found

    def test_half(self) -> None:
        """host: who has said all still hears, and all of it comes, before what came first and behind it"""
        def client(link: socket.socket) -> bytes:
            link.sendall(b"question")
            link.shutdown(socket.SHUT_WR)
            time.sleep(0.05)
            return all_of(link)

        def provider(link: socket.socket) -> bytes:
            asked = all_of(link)
            link.sendall(bytes(1 << 20))
            link.close()
            return asked

        self.assertEqual(self.carries(client, provider, b"first "), (bytes(1 << 20), b"first question"))

    def test_closed(self) -> None:
        """host: of one that closes all comes, and the other end is told, and takes nothing more"""
        def client(link: socket.socket) -> bytes:
            link.sendall(bytes(1 << 20))
            link.close()
            return b""

        def provider(link: socket.socket) -> bytes:
            time.sleep(0.05)
            said = all_of(link)
            with contextlib.suppress(OSError):
                for _ in range(1000):
                    link.sendall(bytes(1 << 20))
                return b"it takes for ever"
            return said

        self.assertEqual(self.carries(client, provider), (b"", bytes(1 << 20)))


    def test_gone(self) -> None:
        """host: a connection ends when its client has closed both ways, whatever the provider does, and also
        where that was before, or behind the end of what it said"""
        def client(link: socket.socket) -> bytes:
            link.shutdown(socket.SHUT_WR)
            time.sleep(self.pause)
            link.close()
            return b""

        def provider(link: socket.socket) -> bytes:
            # It closes nothing, and sees that it is alone when it can't send any more.
            with contextlib.suppress(OSError):
                for _ in range(100_000):
                    link.sendall(b"x")
                    time.sleep(0.001)
                return b"it takes for ever"
            return b"alone"

        for self.pause in 0.0, 0.05:
            self.assertEqual(self.carries(client, provider), (b"", b"alone"))
        (client_end, near), (far, provider_end) = socket.socketpair(), socket.socketpair()
        client_end.close()

        async def before() -> list[OSError | None]:
            kept = Kept(near, far)
            kept.begin()
            while not kept.how:
                await asyncio.sleep(0.001)
            return kept.how

        with provider_end:
            self.assertEqual(watching.run(asyncio.wait_for(before(), SECONDS)), [None])


def all_of(link: socket.socket) -> bytes:
    """What comes until the other end has said all."""
    read = b""
    while piece := link.recv(1 << 16):
        read += piece
    return read


class Asking(InFolder):
    """What a manager asks over its gate."""

    def asked(self, *lines: bytes, known: Any = None) -> tuple[Mock, list[bytes]]:
        """The manager behind a question, of which each piece comes by itself, and what was answered."""
        it, answers = Instance(1, "a", self.folder / "i"), list[bytes]()
        manager = Mock(over=False, monikers={}, instances={3: it}, launching=0, number=1)
        it.ends = Mock()

        async def never(*_: object) -> str:
            await asyncio.Future()
            return ""

        async def work() -> None:
            runner = Mock()
            gate = Gate(runner)
            gate.known, gate.launch, gate.halt = Mock(side_effect=[known]), never, never
            near, far = socket.socketpair()
            near.setblocking(False)
            with far:
                Question(gate, manager, near)
                for line in lines:
                    far.send(line)
                    await asyncio.sleep(0)
                    self.states.append((manager.launching, it.stopping))
                far.settimeout(0.1)
                with contextlib.suppress(OSError):
                    answers.append(far.recv(100))
            self.told = [call.kwargs for call in runner.log.event.call_args_list]
            near.close()

        self.states: list[tuple[int, bool]] = []
        watching.run(work())
        return manager, answers

    def test_at_once(self) -> None:
        """host: what a manager asks counts as begun before anything else is done, also in pieces"""
        manager, answers = self.asked(b"launch 7 3 elf", b" u a\n")
        self.assertEqual((manager.monikers, self.states, answers), ({3: "a"}, [(0, False), (1, False)], []))
        self.asked(b"halt 7 3 elf u a\n")
        self.assertEqual(self.states, [(0, True)])
        self.assertEqual(self.asked(b"launch 7 3 elf u a\n", known="declined")[1], [b"declined\n"])

    def test_faults(self) -> None:
        """host: where a question has no answer it is hung up on, and the fault is told"""
        full = OSError(28, "No space left on device")
        for line, known, why in ((b"begin 7 3 elf u a\n", None, "ValueError('begin is no question')"),
                                 (b"launch 7 3 elf u a\n", full, "No space left on device")):
            self.assertEqual(self.asked(line, known=known)[1], [b""])
            self.assertEqual([told["why"] for told in self.told], [why])


class Taken(InFolder):
    """The door of a use."""

    def taken(self, a_second: float, count: int) -> list[socket.socket]:
        """Of ten connections that come together, those that are taken behind so many, and 0.3 seconds."""
        taken: list[socket.socket] = []

        async def tries() -> None:
            link = socket.socket(socket.AF_UNIX)
            link.bind(str(self.folder / "use"))
            link.listen(16)
            link.setblocking(False)
            it = Instance(1, "a", self.folder / "i")
            clients = [socket.socket(socket.AF_UNIX) for _ in range(10)]
            door = doors.Door(Mock(watcher=watching.watcher()), it, "/svc/p", link)
            for client in clients:
                client.connect(str(self.folder / "use"))
            with patch.object(doors.Opening, "begin", lambda one: taken.append(one.client)):
                until = time.monotonic() + SECONDS
                while len(taken) < count and time.monotonic() < until:
                    await asyncio.sleep(0.01)
                await asyncio.sleep(0.3)
            door.cancel()
            for one in *clients, *taken:
                one.close()
            (self.folder / "use").unlink()

        with patch.multiple(doors, AT_ONCE=3, A_SECOND=a_second):
            watching.run(tries())
        return taken

    def test_a_second(self) -> None:
        """host: a use takes so many connections at once, and then so many in a second"""
        self.assertEqual(len(self.taken(1e-6, 3)), 3)
        self.assertEqual(len(self.taken(1e9, 10)), 10)


class Small(InFolder):
    """Rooms, rights, replies, filters, settings."""

    def test_replies(self) -> None:
        """host: replies of openings are read, and nothing else is taken for one"""
        found = OPENED.match("opened /svc/p at a/c:b incarnation 17")
        assert found is not None
        self.assertEqual(found.groups(), ("/svc/p", "a/c:b", "17", None))
        found = OPENED.match("route /d at a incarnation 1 rights read_bytes,traverse through use b")
        assert found is not None
        self.assertEqual(found[4], "read_bytes,traverse")
        for reply in ("refused 87 no-offer at offer .", "opened", "refused opened /svc/p at a incarnation 1"):
            self.assertIsNone(OPENED.match(reply))
        self.assertIsNotNone(PUT_OFF.match("refused 84 cannot-start action 12 declined"))

    def test_rights(self) -> None:
        """host: a mount says all reading, or all reading and writing"""
        reading = {"connect", "enumerate", "traverse", "read_bytes", "get_attributes"}
        writing = {"write_bytes", "modify_directory", "update_attributes"}
        for rights in reading, reading | {"execute"}, reading | writing:
            self.assertTrue(can_be_kept(rights), rights)
        for rights in {"read_bytes"}, writing, reading - {"enumerate"}, reading | {"write_bytes"}:
            self.assertFalse(can_be_kept(rights), rights)

    def test_room(self) -> None:
        """host: a realm takes 200 commands at once, and 20 in each second behind that"""
        with patch.object(time, "monotonic", return_value=100.0) as clock:
            room = Room()
            for now, count in (100.0, 200), (100.5, 10), (101.5, 20), (1000.0, 200):
                clock.return_value = now
                self.assertEqual([room.take() for _ in range(count)], [True] * count)
                self.assertFalse(room.take())

    def test_pauses(self) -> None:
        """host: a program that crashes again and again has pauses that double; one that ran long has none"""
        it = Instance(1, "a", self.folder / "i")
        it.since = 1e12
        self.assertEqual([round(it.note_crash(), 1) for _ in range(9)],
                         [0.0, 0.2, 0.4, 0.8, 1.6, 3.2, 6.4, 10.0, 10.0])
        it.since = -1e12
        self.assertEqual(it.note_crash(), 0.0)

    def test_filter(self) -> None:
        """host: the filter of system calls judges as its table says, on each machine that it knows"""
        for column, machine in enumerate(seccomp.MACHINES):
            steps = list(struct.iter_unpack("=HBBI", seccomp.program(machine)))
            judged = {number: judge(steps, seccomp.MACHINES[machine], number) for number in range(600)}
            refused = {calls[column] for calls in seccomp.REFUSED.values()} - {-1}
            self.assertEqual({number for number in judged if judged[number] == seccomp.EPERM}, refused)
            self.assertEqual(judge(steps, 1, 0), seccomp.KILL)
            self.assertEqual(judge(steps, seccomp.MACHINES[machine], 0x40000001), seccomp.EPERM)
        self.assertEqual(seccomp.program("vax"), b"")

    def test_tally(self) -> None:
        """host: entries and bytes are counted up with each command and each start"""
        tally = Tally()
        tally.count("open @1 /svc/p", ["opened /svc/p at a incarnation 1"])
        tally.count("start a", ["started a action 17"])
        before = tally.entries, tally.bytes
        self.assertEqual((tally.commands, tally.actions, tally.instances), (2, 17, 2))
        tally.started(18, 5, 1000)
        self.assertGreater(tally.entries, before[0])
        self.assertGreater(tally.bytes, before[1] + 1000)
        tally.count("show @1", ["refused 81 gone incarnation 1"])
        self.assertEqual((tally.commands, tally.actions, tally.instances), (3, 18, 6))

    def test_modules(self) -> None:
        """host: the runner takes no module from where it is started, nor from what the environment names"""
        for name in "json", "asyncio", "cm_tools", "sitecustomize":
            self.put(f"{name}.py", f"open({str(self.folder / 'taken')!r}, 'w')\n")
        environment = {**os.environ, "PYTHONPATH": str(self.folder)}
        words = [sys.executable, *front.RUNNER, "no settings", "-1", "-1"]
        ran = subprocess.run(words, cwd=self.folder, env=environment, capture_output=True, text=True,
                             stdin=subprocess.DEVNULL, timeout=SECONDS)
        self.assertEqual((ran.returncode, (self.folder / "taken").exists()), (4, False), ran.stderr)
        self.assertIn("cm_tools/host/runner.py", ran.stderr)

    def test_settings(self) -> None:
        """host: settings are one line, from which the same are read"""
        settings = Settings("p", "r e", "m", "u\"", "d", True, roll_entries=7)
        self.assertEqual(Settings.from_text(settings.to_text()), settings)

    def test_unit(self) -> None:
        """host: a unit quotes what its reader would take for something else"""
        self.assertIn('"50%% of $$x \\"y\\""', making.unit(Path("t"), "python3", "p", ['50% of $x "y"']))

    @unittest.skipUnless(shutil.which("systemd-analyze"), "systemd-analyze isn't here")
    def test_unit_is_read(self) -> None:
        """host: the reader of units finds nothing wrong with a unit, and something with a wrong one"""
        text = making.unit(Path(__file__), sys.executable, "p", ["50% of $x", "--run", str(self.folder)])
        for name, unit in ("right", text), ("wrong", text.replace('ExecStart="', 'ExecStart="no/')):
            self.put(f"{name}.service", unit)
            words = ["systemd-analyze", "--user", "verify", str(self.folder / f"{name}.service")]
            ran = subprocess.run(words, capture_output=True, text=True, timeout=SECONDS,
                                 env={**os.environ, "XDG_RUNTIME_DIR": str(self.folder)})
            self.assertEqual((ran.returncode, ran.stderr.strip()) == (0, ""), name == "right", ran.stderr)

    def test_new(self) -> None:
        """host: packages for one's own programs share a root, which offers what is provided and used"""
        making.make(self.folder, "gives", ["cat"], [], ["me.P"])
        lines = making.make(self.folder, "takes", ["cat", "-n"], ["me.P", "me.Q"], [])
        self.assertEqual(lines, ["takes can open:", "  /svc/me.P  of gives",
                                 "  /svc/me.Q  which nobody provides yet, so it is refused"])
        root = (self.folder / "local/root/meta/root.cm").read_text().partition("\n")[2]
        self.assertEqual(json.loads(root)["offer"],
                         [{"protocol": "me.P", "from": "#gives", "to": ["#takes"]}])
        self.put("local/root/meta/root.cm", "{}")
        with self.assertRaises(Unusable):
            making.make(self.folder, "more", ["cat"], [], [])

    def test_new_refused(self) -> None:
        """host: words from which no package can be made are refused, and nothing of it stays"""
        making.make(self.folder, "gives", ["cat"], ["me.Q"], ["me.P"])
        rows: list[tuple[str, list[str], list[str], list[str], str]] = [
            ("root", ["cat"], [], [], "root can't be the name"),
            ("A", ["cat"], [], [], "A can't be the name"),
            ("../x", ["cat"], [], [], "can't be the name"), ("\udcff", ["cat"], [], [], "can't be the name"),
            ("gives", ["cat"], [], [], "is there already"),
            ("x", ["no/such"], [], [], "no/such is no program"),
            ("x", ["cat", "\udcff"], [], [], "is no text of UTF-8"),
            ("x", ["cat"], ["a b"], [], "a b can't be the name of a protocol"),
            ("x", ["cat"], [], [""], " can't be the name of a protocol"),
            ("x", ["cat"], ["a"], ["a"], "a is said twice"),
            ("x", ["cat"], [], ["me.P"], "me.P is provided by gives already"),
            ("x", ["cat"], ["me.P"], ["me.Q"], "x and gives would depend on each other"),
            ("x", [str(self.folder / "y")], [], [], "the interpreter of bin/x, /no/such"),
        ]
        self.put("y", "#!/no/such\n", 0o755)
        before = (self.folder / "local/root/meta/root.cm").read_text()
        for name, command, uses, provides, why in rows:
            with self.subTest(why), self.assertRaisesRegex((Unusable, programs.Unfit), why):
                making.make(self.folder, name, command, uses, provides)
        self.assertEqual(sorted(os.listdir(self.folder / "local")), ["gives", "root"])
        self.assertEqual((self.folder / "local/root/meta/root.cm").read_text(), before)
        self.put("local/gives/meta/gives.cm", "{")
        with self.assertRaisesRegex(Unusable, "gives.cm can't be read"):
            making.make(self.folder, "x", ["cat"], [], [])

    def test_new_links(self) -> None:
        """host: a package has a copy of a program that no sandbox has, and a link to another is followed"""
        self.put("bin/tool", "#!/bin/sh\n", 0o755)
        (self.folder / "link").symlink_to("/usr/bin/cat")
        for name, place in ("copied", os.path.relpath(self.folder / "bin/tool")), \
                           ("linked", str(self.folder / "link")):
            making.make(self.folder, name, [place], [], [])
        self.assertEqual((self.folder / "local/copied/bin/copied").read_text(), "#!/bin/sh\n")
        words = ["cat", str(self.folder / "bin/tool"), "/usr/bin/env"]
        lines = making.make(self.folder, "reads", words, [], [])
        self.assertEqual([line.split(":")[0] for line in lines[2:]],
                         [f"{self.folder}/bin/tool isn't in its package"])
        self.assertIn("exec /usr/bin/cat ", (self.folder / "local/linked/bin/linked").read_text())


def judge(steps: list[tuple[int, int, int, int]], machine: int, number: int) -> int:
    """What a filter answers to a call."""
    place, loaded = 0, 0
    while True:
        code, yes, no, value = steps[place]
        place += 1
        if code == seccomp.LOAD:
            loaded = machine if value == 4 else number
        elif code == seccomp.ANSWER:
            return value
        else:
            holds = loaded == value if code == seccomp.EQUAL else loaded >= value
            place += yes if holds else no
