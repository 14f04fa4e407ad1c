"""Tests of `doctor`, the verdict on a whole product. Most run the program that COMPONENT_MANAGER names."""

from __future__ import annotations

import json
import os
import re
import shutil
import tempfile
import unittest
from pathlib import Path

from cm_tools.console import Unusable
from cm_tools.policy import read_rules
from cm_tools.rights import deed_rights, rights_of, short_rights
from tests.support import ROOT, Ran, run

PACKAGES = ROOT / "examples" / "product" / "packages"
SCRIPT = str(ROOT / "examples" / "product" / "root.txt")
SESSION = "fuchsia.com/session/meta/session.cm"
PRODUCT = "fuchsia.com/product/meta/product.cm"
TERMINAL = "create session elements e1 fuchsia-pkg://fuchsia.com/terminal#meta/terminal.cm"
HAS_PROGRAM = "COMPONENT_MANAGER" in os.environ
# How long a verdict on 2,000 manifests may take, in seconds of this process and the program, on a machine
# that takes so long for a million steps of a plain loop; a slower one may take longer.
MOST_SECONDS, LOOP_SECONDS = 20, 0.05


class WordTests(unittest.TestCase):
    """What needs no program: rights, rules, words."""

    def test_rights(self) -> None:
        """words for rights, both ways"""
        for word in ("r*", "w*", "x*", "rw*", "rx*"):
            self.assertEqual(short_rights(rights_of(word)), word)
        self.assertEqual(short_rights(rights_of("read_bytes,connect")), "connect,read_bytes")
        self.assertEqual(deed_rights("write_bytes"), {"write_bytes"})
        self.assertIn("modify_directory", deed_rights("write") or ())
        self.assertIsNone(deed_rights("paint"))

    def test_rules(self) -> None:
        """rules are read, stars in monikers mean what they say, and other lines are told with their place"""
        rules = read_rules("f", "# a\n\nnobody but core/*, a/** reaches p.q\nonly data/* may write /data.\n"
                                "nobody reaches x\n")
        self.assertEqual([(rule.name, rule.deed, rule.place) for rule in rules],
                         [("p.q", "", ""), ("", "write", "/data"), ("x", "", "")])
        self.assertTrue(rules[0].allows("core/b") and rules[0].allows("a/b/c"))
        self.assertFalse(rules[0].allows("core/b/c") or rules[0].allows("core") or rules[2].allows("."))
        for text in ("", "somebody reaches x\n", "only a may paint /data\n", "only may write /x\n"):
            self.assertRaises(Unusable, read_rules, "f", text)

    def test_bad_words(self) -> None:
        """no folder, no root, a script without one, two questions: one line, status 2"""
        with tempfile.TemporaryDirectory() as folder:
            empty = Path(folder, "script.txt")
            empty.write_text("0 show .\n", "utf-8")
            for words in ((f"{folder}/none", "fuchsia-pkg://t/a#b"), (folder, "here"), (folder, str(empty)),
                          (folder, SCRIPT, "--json", "--sarif"), (folder,)):
                ran = run("doctor", *words, "--program", "/bin/false")
                self.assertEqual((ran.status, ran.out, ran.err.count("\n")), (2, "", 1), words)


@unittest.skipUnless(HAS_PROGRAM, "COMPONENT_MANAGER names no program")
class ProductTests(unittest.TestCase):
    """The small product, and what changes of its manifests do to it."""

    def setUp(self) -> None:
        folder = tempfile.TemporaryDirectory()
        self.addCleanup(folder.cleanup)
        self.folder = Path(folder.name, "packages")
        shutil.copytree(PACKAGES, self.folder)

    def change(self, file: str, old: str, new: str) -> None:
        """Writes something else into a manifest."""
        path = self.folder / file
        text = path.read_text("utf-8")
        self.assertIn(old, text)
        path.write_text(text.replace(old, new), "utf-8")

    def doctor(self, *words: str, root: str = SCRIPT) -> Ran:
        return run("doctor", str(self.folder), root, *words)

    def test_whole_product(self) -> None:
        """a product as it should be: each use in the table, what nobody uses and what nobody reaches"""
        ran = self.doctor()
        self.assertEqual((ran.status, ran.err), (0, ""))
        self.assertRegex(ran.out, r"(?m)^✓ +session +/data +required +minfs /data/session rw\*$")
        refused = r"(?m)^✗ +archivist +/svc/fuchsia.boot.Arguments +optional +no-offer at offer \.$"
        self.assertRegex(ran.out, refused)
        self.assertRegex(ran.out, r"(?m)^void +session +/svc/fuchsia.feedback.CrashReporter")
        self.assertIn("  archivist exposes protocol fuchsia.diagnostics.ArchiveAccessor from self\n", ran.out)
        self.assertNotIn("session exposes", ran.out)
        self.assertIn("/browser/meta/browser.cm\n", ran.out)
        self.assertIn("\nwhole: 7 instances, 0 without a manifest; 13 uses: 10 ✓, 1 ✗, 2 void;", ran.out)
        named = self.doctor("--builtin", "directory dev /dev rw*", root=str(self.folder / PRODUCT))
        self.assertEqual(named.out, ran.out)

    def test_wrong_roots(self) -> None:
        """a root that isn't there, one outside of the folder, and one without what stands above it"""
        ran = self.doctor(root="fuchsia-pkg://fuchsia.com/product#meta/prduct.cm")
        self.assertEqual(ran.status, 1)
        self.assertIn(": Did you mean fuchsia-pkg://fuchsia.com/product#meta/product.cm", ran.out)
        ran = self.doctor(root=str(ROOT / "examples" / "core.cml"))
        self.assertEqual((ran.status, ran.err.count("\n")), (2, 1))
        self.assertIn("isn't below", ran.err)
        ran = self.doctor(root=str(self.folder / PRODUCT))
        self.assertRegex(ran.out, r"minfs /dev/class/block .*say --builtin 'directory dev PATH RIGHTS'")

    def test_broken_product(self) -> None:
        """a required use that fails, manifests that are missing and not valid, and a cycle: status 1"""
        (self.folder / "fuchsia.com/dns-resolver/meta/dns-resolver.cm").unlink()
        self.change(SESSION, "directory: 'session-data', path", "directory: 'session-dat', path")
        self.change("fuchsia.com/minfs/meta/minfs.cm", "rights:", "right:")
        ran = self.doctor()
        self.assertEqual(ran.status, 1)
        where = re.escape(str(self.folder / SESSION))
        line = rf"(?m)^  session /data -> no-offer at offer \. \({where}:\d+:\d+\): did you mean session-data"
        self.assertRegex(ran.out, line)
        self.assertRegex(ran.out, r"others that lead nowhere \(\d\):\n  archivist /svc/fuchsia.boot.A")
        absent = r"(?m)^  dns-resolver: absent: fuchsia-pkg://fuchsia.com/dns-resolver#.*\(.*\)$"
        self.assertRegex(ran.out, absent)
        invalid = r"(?m)^  minfs: invalid 33 capabilities 0 right: .*minfs.cm:\d+:\d+\): Did you mean rights"
        self.assertRegex(ran.out, invalid)
        self.assertIn("\nbroken: ", ran.out)
        self.assertNotIn("LogSink from #archivist to #minfs", ran.out)
        shutil.rmtree(self.folder)
        shutil.copytree(PACKAGES, self.folder)
        self.change(PRODUCT, "            dependency: 'weak',\n", "")
        ran = self.doctor()
        self.assertEqual(ran.status, 1)
        self.assertRegex(ran.out, r"cycles \(1\):\n  \.: dns-resolver -> netstack -> dns-resolver \(.*\)\n")

    def test_questions(self) -> None:
        """who provides and reaches a capability, who may write, what lies between, what breaks"""
        ran = self.doctor("--capability", "fuchsia.logger.LogSink")
        self.assertEqual(ran.status, 0)
        self.assertIn("provided by (1):\n  archivist at /svc/fuchsia.logger.LogSink\n", ran.out)
        self.assertIn("reached by (5):\n", ran.out)
        ran = self.doctor("--capability", "fuchsia.logger.LogSin")
        self.assertEqual((ran.status, ran.out), (2, ""))
        self.assertIn("did you mean fuchsia.logger.LogSink", ran.err)
        for words in ("--who-can", "write", "/data"), ("--rights", "write_bytes", "data"):
            out = self.doctor(*words).out
            line = "  session /data -> minfs /data/session rw*"
            self.assertIn(f"{words[1]} {words[2]} (1):\n{line}\n", out)
            self.assertIn("aren't known may be offered it (1):\n  session offers directory", out)
        ran = self.doctor("--who-can", "write", "/dta")
        self.assertEqual((ran.status, ran.out), (2, ""))
        self.assertIn("no directory is /dta; did you mean /data", ran.err)
        self.assertEqual(self.doctor("--who-can", "execute", "/data").out, "execute /data (0):\n")
        self.assertIn("use session, offer ., expose minfs, capability minfs",
                      self.doctor("--between", "session", "minfs").out)
        self.assertEqual(self.doctor("--between", "session", "nobody").status, 2)
        ran = self.doctor("--reverse", "netstack")
        self.assertIn("breaks, since it is required (1):\n  dns-resolver ", ran.out)
        self.assertIn("(optional, weak)", self.doctor("--reverse", "dns-resolver").out)

    def test_added_children(self) -> None:
        """children of collections that a command creates are judged too, and a bad command is told"""
        ran = self.doctor("--add", TERMINAL)
        self.assertEqual((ran.status, ran.err), (0, ""))
        self.assertIn("session/elements:e1", ran.out)
        self.assertNotIn("/terminal/meta/terminal.cm\n", ran.out)
        for command in ("create session nothing e1 fuchsia-pkg://t/a#b", "paint ."):
            ran = self.doctor("--add", command)
            self.assertEqual((ran.status, ran.out, ran.err.count("\n")), (2, "", 1), command)
            self.assertIn(command, ran.err)

    def test_shards(self) -> None:
        """manifests with shards are merged, a shard that is missing is told, what isn't read is named"""
        library = self.folder.parent / "library"
        library.mkdir()
        (library / "log.shard.cml").write_text("{ use: [ { protocol: 'fuchsia.logger.LogSink' } ] }", "utf-8")
        old = "use: [\n        { protocol: [ 'fuchsia.logger.LogSink', "
        new = "include: [ 'log.shard.cml' ],\n use: [ { service: 's' }, { protocol: [ "
        self.change("fuchsia.com/dns-resolver/meta/dns-resolver.cm", old, new)
        ran = self.doctor("--include", str(library), "--without", "service")
        self.assertEqual((ran.status, ran.err), (0, ""))
        self.assertRegex(ran.out, r"(?m)^✓ +dns-resolver +/svc/fuchsia.logger.LogSink +required +archivist$")
        ran = self.doctor("--include", str(library))
        self.assertEqual(ran.status, 1)
        self.assertRegex(ran.out, r"dns-resolver: invalid 40 use .*It has a service, which isn't read here")
        ran = self.doctor()
        self.assertEqual((ran.status, ran.err.count("\n")), (1, 1))
        self.assertIn("the shard log.shard.cml isn't there", ran.err)
        self.assertRegex(ran.out, r"invalid 33 manifest 0 include: .*: It has shards: `tools/merge`")

    def test_policy(self) -> None:
        """rules that are kept, one that is broken with its route, and what children to come could reach"""
        rules = self.folder.parent / "rules"
        rules.write_text("nobody but minfs reaches dev\nonly session may write /data\n", "utf-8")
        ran = self.doctor("--policy", str(rules))
        self.assertEqual((ran.status, ran.out.count("kept: "), ran.out.count("broken")), (0, 2, 0))
        self.assertIn("  open: session offers directory session-data from parent to #jobs as data", ran.out)
        rules.write_text("nobody but session reaches fuchsia.net.name.Lookup\n", "utf-8")
        ran = self.doctor("--policy", str(rules))
        self.assertEqual(ran.status, 1)
        self.assertIn("broken: nobody but session reaches fuchsia.net.name.Lookup\n  netstack ", ran.out)
        rules.write_text("nobody reaches fuchsia.logger.LogSin\nnobody may read /dta\n", "utf-8")
        ran = self.doctor("--policy", str(rules))
        self.assertEqual((ran.status, ran.out.count("kept: ")), (0, 2))
        self.assertIn("  no capability is named fuchsia.logger.LogSin; did you mean fuchsia", ran.out)
        self.assertIn("  no directory is /dta; did you mean /data", ran.out)

    def test_difference(self) -> None:
        """what a change adds, takes away and widens"""
        self.change(SESSION, "path: '/data', rights: [ 'rw*' ]", "path: '/data', rights: [ 'r*' ]")
        self.change("fuchsia.com/dns-resolver/meta/dns-resolver.cm", "fuchsia.posix.socket.Provider", "other")
        words = ("--builtin", "directory dev /dev rw*", "--diff", str(self.folder))
        ran = run("doctor", str(PACKAGES), str(PACKAGES / PRODUCT), *words)
        self.assertEqual(ran.status, 0)
        self.assertEqual(ran.out, "+ dns-resolver /svc/fuchsia.posix.socket.Provider -> netstack\n"
                                  "~ session /data widened to rw*, was r*\n")
        ran = self.doctor("--diff", str(PACKAGES))
        gone = "- dns-resolver /svc/fuchsia.posix.socket.Provider -> netstack, which isn't used any more\n"
        self.assertIn(gone, ran.out)
        self.assertEqual(ran.status, 1)
        self.assertEqual(self.doctor("--diff", str(self.folder)).out, "no route is another one\n")

    def test_formats(self) -> None:
        """JSON and SARIF have each use and each place"""
        told = json.loads(self.doctor("--json").out)
        self.assertEqual((len(told["uses"]), len(told["instances"]), told["whole"]), (13, 7, True))
        self.change(SESSION, "directory: 'session-data', path", "directory: 'session-dat', path")
        ran = self.doctor("--sarif")
        results = json.loads(ran.out)["runs"][0]["results"]
        self.assertEqual(ran.status, 1)
        place = next(one for one in results if one["level"] == "error")["locations"][0]["physicalLocation"]
        self.assertTrue(place["artifactLocation"]["uri"].endswith(SESSION))
        self.assertGreater(place["region"]["startLine"], 1)

    def test_many_manifests(self) -> None:
        """a verdict on 2,000 manifests takes at most twenty seconds of processors"""
        folder = self.folder / "t/p/meta"
        folder.mkdir(parents=True)
        for number in range(2000):
            (folder / f"{number}.cm").write_text(json.dumps(many(number, 2000)), "utf-8")
        before, begun = loop_seconds(), used()
        ran = self.doctor(root="fuchsia-pkg://t/p#meta/0.cm")
        took = used() - begun
        self.assertEqual((ran.status, ran.err), (0, ""))
        self.assertIn("\nwhole: 2000 instances, 0 without a manifest; 3998 uses: 3998 ✓,", ran.out)
        self.assertLess(took, MOST_SECONDS * max(1.0, max(before, loop_seconds()) / LOOP_SECONDS))


# A product with storage and debug protocols: `fs` has the directory, `log` the protocol, `app` uses both.
STORED = {
    "root": """{ children: [ { name: 'fs', url: '#meta/fs.cm' }, { name: 'log', url: '#meta/log.cm' },
                     { name: 'app', url: '#meta/app.cm', environment: '#env' } ],
         environments: [ { name: 'env', extends: 'realm', debug: [ { protocol: 'd.Log', from: '#log' } ] } ],
         capabilities: [ { storage: 'data', from: '#fs', backing_dir: 'mem', subdir: 's',
                           storage_id: 'static_instance_id_or_moniker' } ],
         offer: [ { storage: 'data', from: 'self', to: '#app' },
                  { storage: 'cache', from: 'void', to: '#app' } ] }""",
    "fs": """{ capabilities: [ { directory: 'mem', path: '/mem', rights: [ 'rw*' ] } ],
         expose: [ { directory: 'mem', from: 'self' } ] }""",
    "log": "{ capabilities: [ { protocol: 'd.Log' } ], expose: [ { protocol: 'd.Log', from: 'self' } ] }",
    "app": """{ use: [ { storage: 'data', path: '/data' },
                { storage: 'cache', path: '/cache', availability: 'optional' },
                { storage: 'none', path: '/none', availability: 'optional' },
                { protocol: 'd.Log', from: 'debug' },
                { protocol: 'd.Other', from: 'debug', availability: 'optional' } ] }""",
}


@unittest.skipUnless(HAS_PROGRAM, "COMPONENT_MANAGER names no program")
class OutsideTests(unittest.TestCase):
    """Storage and debug protocols, which the program tells in its reports."""

    def setUp(self) -> None:
        folder = tempfile.TemporaryDirectory()
        self.addCleanup(folder.cleanup)
        self.folder = Path(folder.name, "new")
        self.put(self.folder, STORED)

    def put(self, folder: Path, manifests: dict[str, str]) -> None:
        """Writes the manifests into a folder."""
        place = folder / "t/p/meta"
        place.mkdir(parents=True, exist_ok=True)
        for name, text in manifests.items():
            (place / f"{name}.cm").write_text(text, "utf-8")

    def doctor(self, *words: str) -> Ran:
        return run("doctor", str(self.folder), "fuchsia-pkg://t/p#meta/root.cm", *words)

    def test_table(self) -> None:
        """uses of storage and debug protocols stand in the table, and what carries them isn't unused"""
        ran = self.doctor()
        self.assertEqual((ran.status, ran.err), (0, ""))
        for line in (
            r"✓ +app +/svc/d.Log +required +d.Log from #log, by an environment of \.",
            r"✗ +app +/svc/d.Other +optional +no environment registers it",
            r"✓ +app +/data +required +fs /mem/s/app/data rw\*",
            r"void +app +/cache +optional +void-storage at \.",
            r"✗ +app +/none +optional +no-storage-offer at \.",
        ):
            self.assertRegex(ran.out, f"(?m)^{line}$")
        self.assertNotIn("nobody uses", ran.out)
        self.assertIn("; 5 uses: 2 ✓, 2 ✗, 1 void;", ran.out)
        self.put(self.folder, {"app": STORED["app"].replace("path: '/none', availability: 'optional'",
                                                            "path: '/none'")})
        self.assertEqual(self.doctor().status, 1)

    def test_answers(self) -> None:
        """who may write, who depends on whom, by which way, and what is carried count them too"""
        line = "  app /data -> fs /mem/s/app/data rw*"
        self.assertEqual(self.doctor("--who-can", "write", "/mem").out, f"write /mem (1):\n{line}\n")
        self.assertEqual(self.doctor("--who-can", "write", "/meme").status, 2)
        self.assertIn(line, self.doctor("--rights", "write_bytes", "mem").out)
        self.assertIn("use app, offer ., capability ., expose fs, capability fs",
                      self.doctor("--between", "app", "fs").out)
        self.assertIn("use app, environment ., expose log, capability log",
                      self.doctor("--between", "app", "log").out)
        self.assertIn("breaks, since it is required (1):\n" + line, self.doctor("--reverse", "fs").out)
        ran = self.doctor("--capability", "d.Log")
        self.assertIn("reached by (1):\n  app /svc/d.Log -> d.Log from #log", ran.out)
        told = {use["path"]: use for use in json.loads(self.doctor("--json").out)["uses"]}
        self.assertEqual(told["/data"]["hops"][:2], ["use app", "offer ."])
        self.assertEqual(told["/svc/d.Log"]["environment_of"], ".")

    def test_changes(self) -> None:
        """what a change of storage, of a debug protocol, of what is open and of a manifest's fault makes"""
        old = self.folder.parent / "old"
        self.put(old, {**STORED, "root": STORED["root"].replace("subdir: 's',", "")})
        self.assertEqual(self.doctor("--diff", str(old)).out,
                         "~ app /data leads to fs /mem/s/app/data, was fs /mem/app/data\n")
        debug = "debug: [ { protocol: 'd.Log', from: '#log' } ]"
        self.put(old, {**STORED, "root": STORED["root"].replace(debug, "")})
        self.assertEqual(self.doctor("--diff", str(old)).out,
                         "+ app /svc/d.Log -> d.Log from #log, by an environment of .\n")
        collection = "collections: [ { name: 'jobs', durability: 'transient' } ], children:"
        offer = "offer: [ { protocol: 'd.Log', from: '#log', to: '#jobs' },"
        root = STORED["root"].replace("children:", collection).replace("offer: [", offer)
        self.put(self.folder, {"root": root, "log": STORED["log"] + "}"})
        self.put(old, {**STORED, "root": root.replace(offer, "offer: [")})
        ran = self.doctor("--diff", str(old))
        self.assertEqual(ran.status, 1)
        self.assertEqual(ran.out, "+ no manifest of log: invalid 31 manifest 0\n"
                         "+ . offers protocol d.Log from #log to #jobs, which isn't known\n")
        self.put(self.folder, {"app": "{ use: [ { protocol: 'x' } ] }"})
        told = self.doctor("--diff", str(old)).out
        self.assertIn("✗ app /svc/x -> no-offer at offer . (required)\n", told)


def many(number: int, count: int) -> dict[str, object]:
    """The manifest of one that has up to eight children, and uses what the root and its parent have."""
    children = [f"i{one}" for one in range(8 * number + 1, min(8 * number + 9, count))]
    parent = (number - 1) // 8
    offers = [("log", "parent" if number else "self"), (f"p.{number}", "self")]
    return {
        "children": [{"name": name, "url": f"#meta/{name[1:]}.cm"} for name in children],
        "capabilities": [{"protocol": f"p.{number}"}] + ([] if number else [{"protocol": "log"}]),
        "use": [{"protocol": "log"}, {"protocol": f"p.{parent}"}] if number else [],
        "offer": [{"protocol": name, "from": origin, "to": [f"#{one}" for one in children]}
                  for name, origin in offers if children],
    }


def loop_seconds() -> float:
    """The seconds of a processor for a million steps of a plain loop, here and now."""
    begun, count = used(), 0
    while count < 1_000_000:
        count += 1
    return used() - begun


def used() -> float:
    """The seconds of processors that this process and what it ran have taken."""
    times = os.times()
    return times.user + times.system + times.children_user + times.children_system


if __name__ == "__main__":
    unittest.main()
