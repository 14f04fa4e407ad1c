"""Tests of `merge`, of manifests with shards in other tools, and of what isn't read here."""

from __future__ import annotations

import json
import tempfile
import unittest
from pathlib import Path

from cm_tools.features import ALL, features_of
from cm_tools.relaxed import read_relaxed
from tests.support import Ran, run

MAIN = """{
    include: [ 'inspect/client.shard.cml', '//lib/log.cml' ],
    program: { runner: 'elf', args: [ 'x' ] },
    children: [ { name: 'c', url: '#meta/c.cm' } ],
    use: [ { protocol: [ 'a', 'b' ] } ],
    offer: [ { protocol: 'a', from: 'parent', to: '#c' } ],
}
"""
INSPECT = "{ use: [ { protocol: [ 'b', 'inspect' ] } ], include: [ '//lib/log.cml' ] }"
LOG = """{
    program: { args: [ 'x', 'y' ] },
    use: [ { protocol: 'log' } ],
    offer: [ { protocol: [ 'a', 'log' ], from: 'parent', to: [ '#c' ] } ],
    facets: { 'a.b': { deep: 1 } },
}
"""


class MergeTests(unittest.TestCase):
    """Shards in two folders."""

    def setUp(self) -> None:
        folder = tempfile.TemporaryDirectory()
        self.addCleanup(folder.cleanup)
        self.folder = Path(folder.name)
        self.write("main.cml", MAIN)
        self.write("sdk/inspect/client.shard.cml", INSPECT)
        self.write("top/lib/log.cml", LOG)

    def write(self, name: str, text: str) -> None:
        path = self.folder / name
        path.parent.mkdir(parents=True, exist_ok=True)
        path.write_text(text, "utf-8")

    def merge(self, *words: str) -> Ran:
        folders = [one for name in ("sdk", "top") for one in ("--include", str(self.folder / name))]
        return run("merge", str(self.folder / "main.cml"), *folders, *words)

    def test_merged(self) -> None:
        """lists are joined without repeats, objects member by member, and each shard is read once"""
        ran = self.merge()
        self.assertEqual((ran.status, ran.err), (0, ""))
        self.assertEqual(json.loads(ran.out), {
            "program": {"runner": "elf", "args": ["x", "y"]},
            "children": [{"name": "c", "url": "#meta/c.cm"}],
            "use": [{"protocol": ["a", "b"]}, {"protocol": "inspect"}, {"protocol": "log"}],
            "offer": [{"protocol": "a", "from": "parent", "to": "#c"},
                      {"protocol": "log", "from": "parent", "to": "#c"}],
            "facets": {"a.b": {"deep": 1}},
        })

    def test_conflicts(self) -> None:
        """two values of one member are told with both files, and so is a member of an inner object"""
        self.write("sdk/inspect/client.shard.cml", "{ program: { runner: 'web' } }")
        ran = self.merge()
        self.assertEqual((ran.status, ran.out, ran.err.count("\n")), (2, "", 1))
        self.assertRegex(ran.err, r'conflict in program.runner: "elf" in .*main.cml, "web" in .*client')
        self.write("sdk/inspect/client.shard.cml", "{ facets: { 'a.b': { deep: 2 } } }")
        self.assertIn("conflict in facets.a.b.deep", self.merge().err)

    def test_rings_and_missing_files(self) -> None:
        """a ring, a shard that isn't there and one that can't be read are told with the chain of includes"""
        self.write("top/lib/log.cml", "{ include: [ 'inspect/client.shard.cml' ] }")
        ran = self.merge()
        self.assertRegex(ran.err, r"include each other: .*main.cml -> .*client.* -> .*log.cml -> .*client")
        self.assertEqual((ran.status, ran.err.count("\n")), (2, 1))
        (self.folder / "top/lib/log.cml").unlink()
        self.assertRegex(self.merge().err, r"shard //lib/log.cml isn't there: .*main.cml -> .*client.* \(")
        for text in ("{ use: [ }", "[]", "{ include: 'x' }"):
            self.write("top/lib/log.cml", text)
            ran = self.merge()
            self.assertEqual((ran.status, ran.out, ran.err.count("\n")), (2, "", 1), text)
        self.write("top/lib/log.cml", "\ufeff{}")
        self.assertRegex(self.merge().err, r"log.cml:1:1: .*a byte order mark \(BOM\), which isn't seen")

    def test_each_place_once(self) -> None:
        """a folder of --include that a file stands in is told once as a place where its shard isn't"""
        self.write("alone/main.cml", "{ include: [ 'none.cml' ] }")
        place = self.folder / "alone"
        ran = run("merge", str(place / "main.cml"), "--include", str(place))
        self.assertEqual((ran.status, ran.err.count("none.cml")), (2, 2))

    def test_left_out(self) -> None:
        """what isn't read here is left out by its names and listed, and an unknown name is told"""
        self.write("main.cml", """{ use: [ { service: 's' },
            { protocol: 'p', from: 'parent/d' }, { protocol: 'q' } ], config: { a: { type: 'bool' } },
            children: [ { name: 'c', url: '#c', on_terminate: 'reboot' } ] }""")
        ran = self.merge("--without", "service,on_terminate")
        self.assertEqual(json.loads(ran.out)["children"], [{"name": "c", "url": "#c"}])
        self.assertEqual(len(json.loads(ran.out)["use"]), 2)
        self.assertEqual(ran.err.count("merge: left out: "), 2)
        self.assertRegex(ran.err, r"main.cml:1:21: service: a service")
        ran = self.merge("--without", "all")
        children = [{"name": "c", "url": "#c"}]
        self.assertEqual(json.loads(ran.out), {"use": [{"protocol": "q"}], "children": children})
        self.assertEqual(self.merge("--without", "magic").status, 2)

    def test_features(self) -> None:
        """each feature that isn't read is found"""
        text = """{ disable: {}, config: {}, capabilities: [ { dictionary: 'd' }, { runner: 'r' },
            { resolver: 'r' }, { event_stream: 'e' }, { config: 'c' } ],
            use: [ { service: 's' }, { protocol: 'p', from: 'parent/d' } ],
            children: [ { on_terminate: 'reboot' } ], collections: [ { allow_long_names: true,
            persistent_storage: true } ], offer: [ { protocol: 'p', to: 'all', delivery: 'on_readable' },
            { protocol: 'p', from: [ '#a', '#b' ] } ], expose: [ { storage: 's' } ] }"""
        self.assertEqual({feature.name for feature in features_of(read_relaxed(text))}, set(ALL))

    def test_other_tools(self) -> None:
        """check-all reads a manifest with its shards, and tells a shard that is missing in the file's line"""
        program = self.folder / "program"
        refuses = "grep -q include && { echo invalid 33; exit 1; }"
        program.write_text(f"#!/bin/sh\n{refuses}\necho valid\n", "utf-8")
        program.chmod(0o755)
        words = (str(self.folder / "main.cml"), "--program", str(program))
        folders = ("--include", str(self.folder / "sdk"), "--include", str(self.folder / "top"))
        ran = run("check-all", *words, *folders)
        self.assertEqual((ran.status, ran.out), (0, f"{self.folder}/main.cml: valid\n"))
        ran = run("check-all", *words)
        self.assertEqual(ran.status, 1)
        self.assertIn("main.cml: the shard inspect/client.shard.cml isn't there", ran.out)


if __name__ == "__main__":
    unittest.main()
