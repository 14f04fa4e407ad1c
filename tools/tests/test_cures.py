"""Tests of what `explain` advises, and of transcripts."""

from __future__ import annotations

import re
import tempfile
import unittest
from pathlib import Path

from cm_tools.curing import FORMS
from tests.support import ROOT, run
from tests.test_session import Server

# A manifest, what the program says of it, and what is advised.
MANIFESTS = [
    ("{children:[{name:'client',url:'#c'}],offer:[{protocol:'p',from:'parent',to:'#cliemt'}]}",
     "invalid 51 offer 0", "Did you mean #client?"),
    ("{offer:[{protocol:'p',from:'#loger',to:'#a'}],children:[{name:'logger',url:'#l'},{name:'a',url:'#a'}]}",
     "invalid 51 offer 0", "Did you mean #logger?"),
    ("{capabilities:[{protocol:'a.Log'}],expose:[{protocol:'a.Lag',from:'self'}]}",
     "invalid 52 expose 0", "Did you mean a.Log?"),
    ("{use:[{protocol:'p',dependancy:'weak'}]}", "invalid 33 use 0 dependancy", "Did you mean dependency?"),
    ("{capabilites:[]}", "invalid 33 manifest 0 capabilites", "Did you mean capabilities?"),
    ("{include:['a.shard.cml']}", "invalid 33 manifest 0 include", "`tools/merge`"),
    ("{use:[{service:'s'}]}", "invalid 40 use 0", "It has a service, which isn't read here"),
    ("{use:[{dictionary:'d'}]}", "invalid 40 use 0", "`tools/merge --without dictionary`"),
    ("{config:{}}", "invalid 33 manifest 0 config", "--without config`"),
    ("{use:[{protocol:'p',from:'parent/d'}]}", "invalid 39 use 0 from", "a source within a dictionary"),
    ("{use:[{event_stream:'started'}]}", "invalid 40 use 0", "an event stream"),
    ("{use:[{protocol:'p',path:'svc/p'}]}", "invalid 37 use 0 path", "Did you mean /svc/p?"),
    ("{use:[{directory:'d',path:'/d',rights:['read_byte']}]}", "invalid 38 use 0 rights", "mean read_bytes"),
    ("{children:[{name:'a',url:'#a'}],expose:[{protocol:'p',from:'a'}]}", "invalid 39 expose 0 from",
     "Did you mean #a?"),
    ("\ufeff{}", "invalid 31 manifest 0", "a byte order mark (BOM)"),
]
HEAD = "root fuchsia-pkg://t/a#meta/root.cm\n"
NAMED = """manifest fuchsia-pkg://t/a#meta/root.cm
{children:[{name:'logger',url:'#meta/a.cm'}],collections:[{name:'jobs',durability:'transient'}],
 use:[{protocol:'a.Log'},{directory:'d',path:'/data',rights:['r*']}]}
%%
""" + HEAD
# A script, what the program says of it, and what is advised.
SCRIPTS = [
    (HEAD + "0 rote a /p\n", "line 2: 70 bad-command at 3", "It could have been: route T PATH"),
    (HEAD + "0 route a\n", "line 2: 70 bad-command at 9", "The form is: 0 route T PATH"),
    ("rot fuchsia-pkg://t/a#b\n", "line 1: 71 bad-lane", "Did you mean root?"),
    (HEAD + "start .\n", "line 2: 71 bad-lane", "Did you mean 0 start .?"),
    ("builtin protocl x\n", "line 1: 70 bad-command at 14", "Did you mean protocol?"),
    ("builtin directory x\n", "line 1: 70 bad-command at 19", "is: builtin directory NAME PATH RIGHTS"),
    ("root\n", "line 1: 70 bad-command at 4", "The form is: root URL"),
    (HEAD + "0 zzz\n", "line 2: 70 bad-command at 2", "The commands are: "),
    (HEAD + "0 show .\r\n", "line 2: 70 bad-command at 8", "carriage returns (CRLF)"),
    (HEAD + "0 create . c n #u + protocol p #x + protocol q self\n", "0 refused 63 bad-offer 1 52",
     "The group 1, counted from 0: + protocol q self\nIt has 52 not-declared"),
    (HEAD + "0 show .\n0 show a\n", "0 shown . x\n", "it has 2 commands"),
    (NAMED + "0 show loger\n", "0 refused 80 not-found in .\n", "Did you mean logger?"),
    (NAMED + "0 create . jobs one #meta/a.cm\n0 show jobs:ones\n",
     "0 created . jobs:one incarnation 2\n0 refused 80 not-found in .\n", "Did you mean jobs:one?"),
    (NAMED + "0 show logger/x\n", "0 refused 80 not-found in logger\n", "80 not-found in logger"),
    (NAMED + "0 show @7\n", "0 refused 81 gone\n", "81 "),
    (NAMED + "0 route . /svc/a.Lag\n", "0 refused 86 no-such-use\n", "Did you mean /svc/a.Log?"),
    (NAMED + "0 open . /x\n", "0 refused 86 no-such-use\n", "It uses /data, /svc/a.Log."),
    (NAMED + "0 list . job\n", "0 refused 60 collection-not-found\n", "Did you mean jobs?"),
    (NAMED + "0 list . x\n", "0 refused 60 collection-not-found\n", "Its collections are jobs."),
    (HEAD + "0 list . x\n", "0 refused 60 collection-not-found\n", "60 collection-not-found"),
]
ROUTED = """manifest fuchsia-pkg://t/a#meta/root.cm
{children:[{name:'a',url:'#meta/a.cm'},{name:'b',url:'#meta/b.cm'}],
 offer:[{protocol:['p','q'],from:'#b',to:'#a'},{directory:'d',from:'#b',to:'#a',rights:['r*']}]}
%%
manifest fuchsia-pkg://t/a#meta/a.cm
{use:[{protocol:'pp'},{protocol:'q'},{directory:'d',path:'/d',rights:['rw*']}]}
%%
manifest fuchsia-pkg://t/a#meta/b.cm
{capabilities:[{protocol:'q1'},{directory:'d',path:'/d',rights:['rw*']}],
 expose:[{protocol:'q1',from:'self'},{directory:'d',from:'self'}]}
%%
root fuchsia-pkg://t/a#meta/root.cm
0 route a /svc/pp
0 route a /svc/q
0 route a /d
"""


# A script whose report on storage refuses a place, and what is told of it.
STORAGES = [
    ("101-no-storage-offer.txt", "The way: use session -> offer . ✗\n"),
    ("105-no-backing.txt", "The way: use session -> offer . -> capability . -> capability . ✗\n"),
    ("107-backing-no-expose.txt", "The way: use session -> offer . -> capability . -> expose minfs ✗\n"),
    ("109-backing-rights.txt", " lacks modify_directory, update_attributes, write_bytes.\n"),
]


class CureTests(unittest.TestCase):
    """What is advised."""

    def explained(self, text: str, said: str) -> tuple[int, str]:
        with tempfile.TemporaryDirectory() as folder:
            path = Path(folder, "file")
            path.write_bytes(text.encode())
            ran = run("explain", str(path), data=said.encode())
        self.assertEqual(ran.err, "", said)
        return ran.status, ran.out

    def test_manifests(self) -> None:
        """names that are nearly right, paths and rights, and what isn't read here; the status is 1"""
        for text, said, told in MANIFESTS:
            status, out = self.explained(text, said)
            self.assertEqual(status, 1, said)
            self.assertIn(told, out, said)

    def test_scripts(self) -> None:
        """commands that are nearly right, carriage returns, the number within 63; another script's replies"""
        for text, said, told in SCRIPTS:
            status, out = self.explained(text, said if "shown" not in said else said * 3)
            self.assertEqual(status, 7 if said.startswith("line ") else 0, said)
            self.assertIn(told, out, said)
        _, out = self.explained(HEAD + "0 show .\n0 show a\n", "0 shown . incarnation 0\n")
        self.assertIn("it has 2 commands, and there is 1 reply; is it the script that was run?", out)

    def test_forms(self) -> None:
        """the forms of commands are those of the reference"""
        text = (ROOT / "docs" / "REFERENCE.md").read_text("utf-8")
        table = text.partition("\n## Commands\n")[2].partition("\n### ")[0]
        told = re.findall(r"^\| `([^`]+)`", table, re.M)
        self.assertEqual(sorted(told), sorted(FORMS.values()))

    def test_routes(self) -> None:
        """the hops with the one that fails, the nearest name there, and the rights that are missing"""
        said = ("0 refused 87 no-offer at offer .\n0 refused 87 no-expose at expose b\n"
                "0 refused 87 rights-too-weak at offer .\n")
        status, out = self.explained(ROUTED, said)
        self.assertEqual(status, 0)
        for told in ("The way: use a -> offer . ✗\n", "Did you mean p", "use a -> offer . -> expose b ✗\n",
                     "Did you mean q1?", "The offer of . lacks modify_directory, update_attributes, write"):
            self.assertIn(told, out)
        _, out = self.explained(ROUTED, said.replace("offer .", "offer c", 1))
        self.assertIn("is ", out)
        self.assertIn("the script that was run?", out)

    def test_manifest_on_the_way(self) -> None:
        """a fault of a manifest on the way to the target is told there, and not in the target's own"""
        text = ("manifest fuchsia-pkg://t/a#meta/root.cm\n{children:[{name:'a',url:'#meta/a.cm'}],"
                "offer:[{protocol:'p',from:'#b',to:'#a'}]}\n%%\nmanifest fuchsia-pkg://t/a#meta/a.cm\n"
                "{children:[{name:'c',url:'#c'}],offer:[{protocol:'p',from:'parent',to:'#c'}]}\n%%\n"
                f"{HEAD}0 start a\n")
        _, out = self.explained(text, "0 refused 83 cannot-resolve action 1 invalid 51 offer 0\n")
        self.assertIn("In the manifest fuchsia-pkg://t/a#meta/root.cm:", out)

    def test_storage(self) -> None:
        """a storage that can't be had: the way with the hop that fails or is missing, and rights that lack"""
        for file, told in STORAGES:
            text = (ROOT / "examples" / "faults" / file).read_text("utf-8")
            table = (ROOT / "examples" / "faults" / "expected.txt").read_text("utf-8")
            line = next(one for one in table.split("\n") if one.startswith(file))
            _, out = self.explained(text, line.rpartition(" | ")[2] + "\n")
            self.assertIn(told, out, file)

    def test_eager_children(self) -> None:
        """an eager child that failed is told from the journal, with the fault of its manifest"""
        children = "{children:[{name:'e',url:'#meta/e.cm',startup:'eager'}]}"
        text = (f"manifest fuchsia-pkg://t/a#meta/root.cm\n{children}\n"
                "%%\nmanifest fuchsia-pkg://t/a#meta/e.cm\n{use:[7]}\n%%\n" + HEAD + "0 start .\n")
        declared = '{"children":[{"name":"e","url":"#meta/e.cm","startup":"eager"}],"collections":[]}'
        journal = [
            "0 find . => found 0", "0 begin start 0 => need 0", "0 begin resolve 0 => begun 1",
            f"0 end 1 resolved fuchsia-pkg://t/a#meta/root.cm {declared} => ended resolved",
            "0 begin start 0 => begun 2", "0 end 2 started => ended started", "0 begin resolve 1 => begun 3",
            "0 end 3 invalid 35 use 0 => ended invalid 35 use 0",
        ]
        lines = [f"{number} {line}" for number, line in enumerate(journal, 1)]
        said = "\n".join(["0 started . action 2", "journal", HEAD.strip(), *lines]) + "\n"
        _, out = self.explained(text, said)
        self.assertIn("the eager child e failed: invalid 35 use 0", out)
        self.assertIn("35 wrong-type", out)

    def test_lines_with_files(self) -> None:
        """the lines of check-all, without a file"""
        path = ROOT / "examples" / "undeclared-child.cml"
        ran = run("explain", data=f"{path}: invalid 51 offer 0\na.cml: valid\n".encode())
        self.assertEqual((ran.status, ran.err), (1, ""))
        self.assertIn("Did you mean #client?", ran.out)
        self.assertEqual(run("explain", data=b"a.cml: valid\n").status, 0)

    def test_transcript(self) -> None:
        """a session's transcript has commands and replies with their times, and is explained"""
        with tempfile.TemporaryDirectory() as folder:
            path, kept = Path(folder, "s"), Path(folder, "kept")
            Server(path).start()
            ran = run("session", "--transcript", str(kept), str(path), "show .", "stop x", "quit")
            self.assertEqual(ran.status, 1)
            text = kept.read_text("utf-8")
            lines = re.sub(r"[0-9]+\.[0-9]{6}", "T", text).split("\n")
            asked = [line for line in lines if line.startswith("T > ")]
            self.assertEqual(asked, ["T > show .", "T > stop x", "T > quit"])
            self.assertEqual(text.count(" < "), 2)
            ran = run("explain", str(kept))
            self.assertEqual((ran.status, ran.err), (0, ""))
            self.assertRegex(ran.out, r"kept:[0-9]:1: 80 not-found in \.\n")
            told = run("session", "--transcript", folder, str(path), "show .")
            self.assertEqual((told.status, told.err), (2, f"session: {folder}: Is a directory\n"))
            lines = "0.1 > rote a /p\n0.2 < refused 70 bad-command at 1\n"
            kept.write_text(f"# transcript of a session at s\n{lines}", "utf-8")
            self.assertIn("It could have been: route T PATH", run("explain", str(kept)).out)

    def test_transcript_on_a_full_device(self) -> None:
        """a transcript that can't be written: the session is held, and then one line and status 2 tell it"""
        with tempfile.TemporaryDirectory() as folder:
            path = Path(folder, "s")
            Server(path).start()
            ran = run("session", "--transcript", "/dev/full", str(path), "show .", "show .", "quit")
            told = "session: /dev/full: No space left on device\n"
            self.assertEqual((ran.status, ran.out.count("shown"), ran.err), (2, 2, told))


if __name__ == "__main__":
    unittest.main()
