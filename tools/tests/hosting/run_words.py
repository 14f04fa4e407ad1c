"""What the words `storage` and `environments` of the component manager tell, as programs meet it; and shards.

Where the component manager doesn't know the words, what wants them is refused by name.
"""

from __future__ import annotations

import os
import shutil
import signal
import unittest
from concurrent.futures import ThreadPoolExecutor
from pathlib import Path

from cm_tools.host.reports import known_words
from tests.hosting.edits import STORED, changed
from tests.hosting.trial import TOOLS, Host, folder, package, program, root_of

P = '{program:{runner:"%s",binary:"bin/x"}%s}'
COUNTS = """#!/usr/bin/python3
import os
with open("/data/count", "a+") as file:
    file.write("x")
    file.seek(0)
    print("counts", len(file.read()), flush=True)
os.read(os.pipe()[0], 1)
"""
FILLS = """#!/usr/bin/python3
import time
print("fills", flush=True)
for count in range(200):
    with open(f"/data/{count % 64}", "wb") as file:
        file.write(bytes(1 << 20))
    time.sleep(0.05 if count > 64 else 0)
print("goes on", flush=True)
time.sleep(1000000)
"""
HIDES = """#!/usr/bin/python3
import os, time
print("hides", flush=True)
os.mkdir("/data/hidden")
with open("/data/hidden/x", "wb", buffering=0) as file:
    os.chmod("/data/hidden", 0)
    for count in range(40):
        file.write(bytes(1 << 20))
        time.sleep(0.2)
print("goes on", flush=True)
time.sleep(1000000)
"""
SLEEP = "#!/bin/sh\necho up\nexec sleep 1000000\n"
USES = ',use:[{storage:"data",path:"/data"}]'
STORES = ('capabilities:[{storage:"data",from:"#fs",backing_dir:"mem",subdir:"s",'
          'storage_id:"static_instance_id_or_moniker"}],')
MEM = ',capabilities:[{directory:"mem",path:"/mem",rights:["rw*"]}],expose:[{directory:"mem",from:"self"%s}]'
WORDS = known_words(program())


class Storage(unittest.TestCase):
    """Programs that keep something."""

    def lay(self, base: Path) -> str:
        repo = base / "repo"
        package(repo, "fs", P % ("elf", MEM % ""), SLEEP)
        package(repo, "weak", P % ("elf", MEM % ',rights:["r*"]'), SLEEP)
        for name, script in ("client", COUNTS), ("other", COUNTS), ("fills", FILLS), ("hides", HIDES), \
                            ("wants", COUNTS):
            package(repo, name, P % ("elf", USES), script)
        weak = STORES[:-2].replace('"data"', '"bad"').replace("#fs", "#weak") + "],"
        more = (',collections:[{name:"jobs",durability:"transient"}],' + STORES[:-2] + ","
                + weak.partition("[")[2]
                + 'offer:[{storage:"data",from:"self",to:["#client","#other","#fills","#hides","#jobs"]},'
                '{storage:"bad",from:"self",to:"#wants",as:"data"}]')
        return root_of(repo, "fs", "weak", "client", "other", "fills", "hides", "wants", more=more)

    def begin(self, base: Path, root: str, tools: Path = TOOLS) -> Host:
        host = Host(base / "repo", root, run=base / "r", tools=tools,
                    environment={"COMPONENT_HOST_STORAGE_BYTES": str(16 << 20)})
        self.addCleanup(host.remove)
        return host

    def test_places(self) -> None:
        """storage is kept behind a stop, an end of the host and a kill; a child made again begins anew"""
        base = folder()
        self.addCleanup(shutil.rmtree, base, True)
        host = self.begin(base, self.lay(base))
        url = "fuchsia-pkg://t/client#meta/client.cm"
        if "storage" not in WORDS:
            self.assertIn("declined", host.ask("start client")[0])
            self.assertIn("doesn't know the word storage", host.events("launch")[0]["why"])
            host.end()
            return
        host.ask("start client", "start other", "create . jobs j " + url, "start jobs:j")
        for name in "client", "other", "jobs:j":
            host.wait_until(lambda: "counts 1\n" in host.said(name), f"first count of {name}")
        host.ask("stop client", "start client", "destroy jobs:j", "create . jobs j " + url, "start jobs:j")
        host.wait_until(lambda: "counts 2\n" in host.said("client"), "second count")
        host.wait_until(lambda: host.said("jobs:j") == "counts 1\n" * 2, "first count of another child")
        stored = host.run / "storage"
        self.assertEqual((stored / "fs%20%2Fmem%2Fs%2Fclient%2Fdata/count").read_text(), "xx")
        os.kill(host.runner_pid(), signal.SIGKILL)
        host.wait(r"^resumed ")
        host.wait_until(lambda: "counts 3\n" in host.said("client"), "third count")
        host.wait_until(lambda: "counts 2\n" in host.said("jobs:j"), "second count of the child that stands")
        host.wait_until(lambda: len(list(stored.iterdir())) == 3, "end of the folder of the gone child")
        self.assertEqual(host.end(), 0)
        again = self.begin(base, "fuchsia-pkg://t/root#meta/root.cm")
        again.ask("start client")
        again.wait_until(lambda: "counts 4\n" in again.said("client"), "count of the next host")
        self.assertEqual(len(list(stored.iterdir())), 2)
        again.ask("start wants")
        self.assertIn("the storage at /data is refused: 109 backing-rights-too-weak",
                      [one.get("why", "") for one in again.events("launch") if one["moniker"] == "wants"])
        self.assertEqual(again.end(), 0)
        self.assertEqual(again.left(), [])

    @unittest.skipUnless("storage" in WORDS, "the component manager doesn't know the word storage")
    def test_full(self) -> None:
        """who has more in its storage than it may, or hides it, is ended, and starts again when it is less"""
        base = folder()
        self.addCleanup(shutil.rmtree, base, True)
        host = self.begin(base, self.lay(base))
        host.ask("start client", "start fills")
        host.wait(r"^storage-full fills")
        host.wait(r"^exited    fills")
        place = host.run / "storage/fs%20%2Fmem%2Fs%2Ffills%2Fdata"
        host.ask("start fills")
        host.wait(r"^declined  fills: the storage at /data is full")
        for file in place.iterdir():
            file.unlink()
        self.assertIn("started", host.ask("start fills")[0])
        host.ask("stop fills", "start hides")
        host.wait(r"^storage-full hides")
        self.assertIn("client", host.on())
        self.assertEqual(host.end(), 0)
        self.assertEqual(host.left(), [])


    @unittest.skipUnless("storage" in WORDS, "the component manager doesn't know the word storage")
    def test_taken_away(self) -> None:
        """who fills its storage, or hides what lies there, goes on where nobody looks"""
        with ThreadPoolExecutor(len(STORED)) as pool:
            for name, ended in zip(STORED, pool.map(self.without, STORED)):
                self.assertFalse(ended, name)

    def without(self, name: str) -> bool:
        """Whether this program is ended by a host without what ends it."""
        base = folder()
        self.addCleanup(shutil.rmtree, base, True)
        host = self.begin(base, self.lay(base), changed(base, name, STORED[name]))
        host.ask(f"start {name}")
        host.wait(rf"said      {name} \| goes on|^exited    {name}")
        goes_on = "goes on" in host.said(name)
        host.remove()
        return not goes_on


class Environments(unittest.TestCase):
    """Programs and the runners that their environments register."""

    def test_runners(self) -> None:
        """each start gets the runner that its environment registers, or is refused by name"""
        base = folder()
        self.addCleanup(shutil.rmtree, base, True)
        repo = base / "repo"
        inner = ('{program:{runner:"elf",binary:"bin/x"},'
                 'children:[{name:"in",url:"fuchsia-pkg://t/in#meta/in.cm",environment:"#own"}],'
                 'environments:[{name:"own",runners:[{runner:"elf",from:"parent",as:"native"}]}]}')
        for name in "plain", "denied", "foreign":
            package(repo, name, P % ("elf", ""), SLEEP)
        for name in "native", "in":
            package(repo, name, P % ("native", ""), SLEEP)
        for name in "may", "maynot":
            package(repo, name, inner, SLEEP)
        rows = [("plain", ""), ("native", "#alias"), ("denied", "#none"), ("foreign", "#foreign"),
                ("may", ""), ("maynot", "#none")]
        children = ",".join(f'{{name:"{name}",url:"fuchsia-pkg://t/{name}#meta/{name}.cm"'
                            + (f',environment:"{of}"}}' if of else "}") for name, of in rows)
        root = package(repo, "root", f'{{children:[{children}],environments:['
                       '{name:"alias",runners:[{runner:"elf",from:"parent",as:"native"}]},{name:"none"},'
                       '{name:"foreign",runners:[{runner:"elf",from:"#plain"}]}]}')
        host = Host(repo, root, run=base / "r")
        self.addCleanup(host.remove)
        self.assertIn("started", host.ask("start plain")[0])
        if "environments" not in WORDS:
            self.assertIn("declined", host.ask("start native")[0])
            host.wait("the runner native isn't known here")
            host.end()
            return
        for name in "native", "may", "may/in":
            self.assertIn("started", host.ask(f"start {name}")[0], name)
        for name, why in {
            "denied": "no environment of denied registers the runner elf",
            "foreign": "the runner elf of foreign is registered from #plain, and no runner of a component's "
                       "own is known here",
            "maynot/in": "no environment of maynot registers the runner elf",
        }.items():
            self.assertIn("declined", host.ask(f"start {name}")[0], name)
            self.assertIn(why, [one.get("why") for one in host.events("launch")
                                if one["moniker"] == name])
        manifest = repo / "t/root/meta/root.cm"
        manifest.write_text(manifest.read_text().replace('{name:"none"}', '{name:"none",extends:"realm"}'))
        host.own("replace")
        host.wait(r"^replaced ")
        self.assertIn("started", host.ask("start denied")[0])
        self.assertEqual(host.end(), 0)
        self.assertEqual(host.left(), [])


class Shards(unittest.TestCase):
    """Manifests whose shards are merged."""

    def test_shards(self) -> None:
        """manifests are taken with their shards, and without what is left out"""
        base = folder()
        self.addCleanup(shutil.rmtree, base, True)
        repo, shards = base / "repo", base / "shards"
        shards.mkdir()
        (shards / "elf.shard.cml").write_text('{program:{runner:"elf",binary:"bin/x"}}')
        package(repo, "whole", '{include:["elf.shard.cml"],use:[{service:"s"}]}', SLEEP)
        package(repo, "lacks", '{include:["none.shard.cml"]}', SLEEP)
        host = Host(repo, root_of(repo, "whole", "lacks"), run=base / "r",
                    options=("--include", str(shards), "--without", "service"))
        self.addCleanup(host.remove)
        self.assertIn("started", host.ask("start whole")[0])
        host.wait(r"said      whole \| up")
        self.assertRegex(host.ask("start lacks")[0], "cannot-resolve action [0-9]+ invalid 33 manifest 0")
        self.assertIn("lacks.cm: the shard none.shard.cml isn't there", host.text())
        self.assertEqual(host.end(), 0)
        self.assertEqual(host.left(), [])
