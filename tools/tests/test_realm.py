"""Tests of `realm`: the parser, the replay and each view."""

from __future__ import annotations

import json
import os
import re
import resource
import shutil
import subprocess
import sys
import tempfile
import unittest
from pathlib import Path

from cm_tools.entries import Journal
from cm_tools.html_view import PAGE, page_data
from cm_tools.instances import STATES
from cm_tools.journal import parse_journal
from cm_tools.world import replay
from tests.make_journal import make, make_sweeps
from tests.support import JOURNALS, ROOT, SECONDS, TESTS, TOOLS, quoted, run, run_process

TABLES = ROOT / "crates" / "cm_reply" / "specs" / "Tables.antt"
ROUTE = str(JOURNALS / "route.txt")
COMINGS = str(JOURNALS / "comings.txt")
SWEEPS = str(JOURNALS / "sweeps.txt")
HEAD = "journal\nroot fuchsia-pkg://t/a#meta/root.cm\n"

ROUTE_TREE = """\
root fuchsia-pkg://t/a#meta/root.cm, after entry 11 of 11
.          resolved    @0
├─ logger  resolved    @1
└─ client  resolved    @2
3 instances: 3 resolved
"""

ROUTE_ROUTES = """\
client /svc/fuchsia.logger.LogSink -> logger /svc/fuchsia.logger.LogSink  (entry 11)
  use client
    offer .
      expose logger
        capability logger
"""

COMINGS_TREE = """\
root fuchsia-pkg://t/a#meta/root.cm, after entry 34 of 34
.               resolved    @0
├─ eager        discovered  @1     failed: absent, eager
├─ elements:e1  destroyed   @2
└─ elements:e1  closing     @3
4 instances: 1 discovered, 1 resolved, 1 closing, 1 destroyed
"""

# What goes with an instance that stops, or that ended by itself, and nothing at a shutdown.
SWEEPS_TREE = """\
root fuchsia-pkg://t/a#meta/root.cm, after entry 61 of 61
.          shut        @0
├─ helper  shut        @1
├─ coll:x  destroyed   @2
├─ once:y  destroyed   @3
└─ once:z  shut        @4
5 instances: 3 shut, 2 destroyed
"""

SWEEPS_LINES = [
    "23   ●  exited once:y => left; doomed: once:y",
    "24   ●  reap once:y => reaping once:y",
    "27   ●  purge once:y => purged 1",
    "30   ●  end stop . (action 7) => ended stopped; doomed: coll:x",
    "31   ●  reap . => reaping coll:x",
    "56   ●  end stop once:z (action 12) => ended stopped",
]

# An incarnation, an entry, and the state behind it.
SWEEPS_STATES = [
    (3, 21, "started"), (3, 23, "doomed"), (3, 26, "doomed"), (3, 27, "destroyed"), (2, 29, "started"),
    (2, 30, "doomed"), (2, 33, "doomed"), (2, 36, "destroyed"), (4, 54, "started"), (4, 56, "stopped"),
    (4, 57, "shut"),
]

PRODUCT_TREE = [line.split() for line in """\
. resolved @0
core resolved @1
logger started @2
storage started @3
network resolved @4
netstack started @10
dns resolved @11
http started @12
session started @5
shell started @6
input started @7
settings shut @8
theme discovered @9
elements:mail destroyed @13
elements:editor stopped @14
elements:browser started @15
elements:mail discovered @16""".split("\n")]

PRODUCT_ROUTE = """\
  use core/session/elements:browser
    offer core/session
      offer core
        expose core/network
          expose core/network/http
            capability core/network/http
"""

# The state of the second instance `elements:e1` behind each of these entries.
COMINGS_STATES = [
    (15, "discovered"), (18, "resolving"), (19, "resolved"), (20, "starting"), (21, "started"),
    (22, "stopped"), (25, "starting"), (26, "started"), (27, "closing"), (28, "stopping"),
    (29, "closing"),
]

BAD_JOURNALS: list[tuple[bytes, str]] = [
    (b"", "the input is empty"),
    (b"\n\n", "the input is empty"),
    (b"0 started client action 3\n", "no line `journal`"),
    (b"\xff\xfe\x00\x01", "no line `journal`"),
    (b"{\"children\":[]}\n", "no line `journal`"),
    (b"line 1: 72 no-root\n", "no line `journal`"),
    (b"0 shut .\njourn", "cut short, before the journal began"),
    (b"journal\n", "cut before its root line"),
    (b"journal\nbuiltin protocol p\n", "cut before its root line"),
    (b"journal\nbuiltin service p\nroot u\n", "neither a builtin line nor the root line"),
    (HEAD.encode() + b"1 0 find . => fou", "cut short"),
    (HEAD.encode() + b"1 0 find . => found 0", "cut short"),
    (HEAD.encode() + b"1 0 find .\n", "no entry of a journal"),
    (HEAD.encode() + b"1 0 dance 0 => found 0\n", "no entry of a journal"),
    (HEAD.encode() + b"1 0 find . => danced\n", "no entry of a journal"),
    (HEAD.encode() + b"2 0 find . => found 0\n", "1 should follow"),
    (b"0 started . action 2\n" + HEAD.encode(), "cut after its root line"),
    (HEAD.encode() + b"1 0 begin resolve 0 => begun 1\n", "no end of action 1"),
    (HEAD.encode() + b"1 0 begin resolve 7 => begun 1\n", "incarnation 7, which was never made"),
    (HEAD.encode() + b"1 0 end 3 started => ended started\n", "action 3, which was never begun"),
    (HEAD.encode() + b"1 0 reap 0 => reaping x\n", "no entry of a journal"),
    (HEAD.encode() + b"1 0 reap 0 => reaping 7\n", "incarnation 7, which was never made"),
    (HEAD.encode() + b"1 0 reap 0 => reaping 0\n", "incarnation 0, which isn't doomed"),
    (HEAD.encode() + b"1 0 route 0 /svc/p => given nonsense\n", "no route that can be read"),
    (HEAD.encode() + b"1 0 begin resolve 0 => begun 1\n2 0 end 1 resolved u {} => ended resolved\n",
     "no declaration that can be read"),
    (HEAD.encode() + b"1 0 begin resolve 0 => begun 1\n2 0 end 1 resolved u " + b"[" * 100_000
     + b" => ended resolved\n", "no declaration that can be read"),
    (HEAD.encode() + b"1 0 show " + b"9" * 5000 + b" => shown resolved off\n", "no entry of a journal"),
]


class RealmTests(unittest.TestCase):
    """What `realm` shows of small journals."""

    def test_tree(self) -> None:
        """the tree of three journals, letter by letter"""
        self.assertEqual(run("realm", ROUTE).out, ROUTE_TREE)
        self.assertEqual(run("realm", "--tree", COMINGS).out, COMINGS_TREE)
        self.assertEqual(run("realm", SWEEPS).out, SWEEPS_TREE)

    def test_standard_input(self) -> None:
        """a journal on the standard input"""
        data = Path(ROUTE).read_bytes()
        self.assertEqual(run("realm", data=data).out, ROUTE_TREE)
        self.assertEqual(run_process("realm", "--tree", "-", data=data).out, ROUTE_TREE)

    def test_routes(self) -> None:
        """routes as indented hops, and refused ones with their reason"""
        self.assertEqual(run("realm", "--routes", ROUTE).out, ROUTE_ROUTES)
        refused = "elements:e1 /svc/q -> refused: no-offer at offer .  (entry 31, asked 2 times)\n"
        self.assertEqual(run("realm", "--routes", COMINGS).out, refused)

    def test_timeline(self) -> None:
        """the timeline, with a column for each caller"""
        lines = run("realm", "--timeline", COMINGS).out.split("\n")
        self.assertEqual(lines[0].split("(")[0].split(), ["0", "1"])
        self.assertEqual(lines[5], " 5   ●  ·  create . elements e1 #meta/x.cm + protocol p parent as=q"
                                   " weak => created elements:e1")
        self.assertEqual(lines[6], " 6   ·  ●  find elements:e1 => found elements:e1")
        self.assertEqual(len(lines), 36)

    def test_states(self) -> None:
        """each state of an instance, behind each entry that makes it so (--at)"""
        for number, state in COMINGS_STATES:
            shown = json.loads(run("realm", "--json", "--at", str(number), COMINGS).out)
            self.assertEqual(shown["instances"][3]["state"], state, number)
        doomed = run("realm", "--at", "12", COMINGS).out
        self.assertIn("elements:e1  doomed", doomed)
        self.assertIn("@0\n1 instance: 1 discovered", run("realm", "--at", "0", COMINGS).out)
        self.assertEqual({state for _, state in COMINGS_STATES} - set(STATES), set())

    def test_sweeps(self) -> None:
        """what goes with an instance that stops, ends by itself or is shut down, and its reaps"""
        lines = run("realm", "--timeline", SWEEPS).out.split("\n")
        self.assertEqual([line for line in SWEEPS_LINES if line not in lines], [])
        world = replay(parse_journal(Path(SWEEPS).read_bytes()))
        self.assertEqual(world.doomed, {23: (3,), 30: (2,)})
        for incarnation, number, state in SWEEPS_STATES:
            shown = json.loads(run("realm", "--json", "--at", str(number), SWEEPS).out)
            self.assertEqual(shown["instances"][incarnation]["state"], state, (incarnation, number))
        shown = json.loads(run("realm", "--json", SWEEPS).out)
        self.assertEqual([one["runs_once"] for one in shown["instances"]], [False, False, False, True, True])
        timeline = shown["timeline"]
        self.assertEqual([timeline[number - 1]["instances"] for number in (23, 24, 30, 31)],
                         [[3], [3], [0, 2], [0, 2]])
        self.assertIn("coll:x  doomed      @2     still runs\n", run("realm", "--at", "30", SWEEPS).out)
        self.assertIn('label="coll:x\\ndestroyed"', run("realm", "--dot", SWEEPS).out)
        self.assertIn("once:z<br/>shut", run("realm", "--mermaid", SWEEPS).out)

    def test_nothing_is_reaped(self) -> None:
        """a reap that finds nothing left"""
        self.assertIn("1   ●  reap . => reaping nothing\n",
                      run("realm", "--timeline", data=(HEAD + "1 0 reap 0 => reaping\n").encode()).out)

    def test_json(self) -> None:
        """the JSON, with instances, actions, routes and the timeline"""
        shown = json.loads(run("realm", "--json", ROUTE).out)
        self.assertEqual([one["moniker"] for one in shown["instances"]], [".", "logger", "client"])
        self.assertEqual([one["outcome"] for one in shown["actions"]], ["resolved"] * 3)
        self.assertEqual(shown["routes"][0]["provider"], 1)
        self.assertEqual([hop["step"] for hop in shown["routes"][0]["hops"]],
                         ["use", "offer", "expose", "capability"])
        self.assertEqual([one["number"] for one in shown["timeline"]], list(range(1, 12)))
        self.assertEqual(shown["timeline"][10]["instances"], [2, 1])

    def test_graphs(self) -> None:
        """the graphs for Graphviz and Mermaid"""
        dot = run("realm", "--dot", ROUTE).out
        self.assertTrue(dot.startswith("digraph realm {\n") and dot.endswith("}\n"))
        self.assertIn('  i1 [label="logger\\nresolved"', dot)
        self.assertIn("  i0 -> i2;\n", dot)
        label = re.search(r'  (r\d+) \[label="/svc/fuchsia.logger.LogSink", shape=plaintext', dot)
        assert label is not None
        self.assertIn(f"  i2 -> {label[1]} [", dot)
        self.assertIn(f'  {label[1]} -> i1 [color="#2563eb"];\n', dot)
        mermaid = run("realm", "--mermaid", ROUTE).out
        self.assertTrue(mermaid.startswith("flowchart LR\n"))
        self.assertIn('  i2 ==>|"/svc/fuchsia.logger.LogSink"| i1\n', mermaid)

    def test_parts_of_graphs(self) -> None:
        """one instance's part of a graph, one capability's, and refused routes as dashed ones"""
        dot = run("realm", "--dot", COMINGS).out
        self.assertIn('[label="✗ no-offer at offer ."', dot)
        self.assertRegex(dot, r'-> e\d+ \[color="#dc2626", style=dashed\];')
        self.assertIn('-.->|"/svc/q"| r0\n', run("realm", "--mermaid", COMINGS).out)
        product = str(JOURNALS / "product.txt")
        whole = run("realm", "--dot", product).out
        part = run("realm", "--dot", "--only", "core/session/shell", product).out
        self.assertLess(part.count("\n"), whole.count("\n") // 2)
        self.assertIn('label="shell', part)
        self.assertNotIn('label="input', part)
        part = run("realm", "--dot", "--capability", "fuchsia.crash.Reporter", product).out
        self.assertIn("fuchsia.crash.Reporter", part)
        self.assertNotIn("/svc/fuchsia.logger.LogSink", part)
        # A capability is known by the name of the use, too, whatever its paths are.
        used = '{"children":[],"collections":[],"use":[{"directory":"store","path":"/<d>"}]}'
        text = (f"{HEAD}1 0 begin resolve 0 => begun 1\n2 0 end 1 resolved u {used} => ended resolved\n"
                "3 0 route 0 /<d> => failed no-builtin at builtin .\n")
        named = run("realm", "--mermaid", "--capability", "store", data=text.encode()).out
        self.assertIn('i0 -.->|"/#lt;d#gt;"| r0\n', named)
        bad = (("--only", "core/nobody", "--dot"), ("--capability", "none", "--dot"), ("--only", "core"))
        for words in bad:
            ran = run("realm", *words, product)
            self.assertEqual((ran.status, ran.out, ran.err.count("\n")), (2, "", 1), words)
        told = run("realm", "--dot", "--capability", "fuchsia.logger.LogSin", product).err
        self.assertIn("did you mean fuchsia.logger.LogSink", told)
        told = run("realm", "--dot", "--only", "core/netwrk", product).err
        self.assertIn("did you mean core/network", told)

    @unittest.skipUnless(shutil.which("dot"), "Graphviz isn't here: no graph is laid out")
    def test_labels(self) -> None:
        """laid out by Graphviz, no label of a graph lies on another or on an instance"""
        for words in ((), ("--only", "core/session"), ("--capability", "fuchsia.logger.LogSink")):
            graph = run("realm", "--dot", *words, str(JOURNALS / "product.txt")).out
            laid = subprocess.run(["dot", "-Tplain"], input=graph.encode(), capture_output=True, check=True,
                                  timeout=SECONDS).stdout.decode()
            rows = [line.split()[2:6] for line in laid.split("\n") if line.startswith("node ")]
            boxes = [tuple(map(float, row)) for row in rows]
            self.assertGreater(len(boxes), 10)
            for index, (x, y, width, height) in enumerate(boxes):
                for left, top, wide, high in boxes[:index]:
                    apart = abs(x - left) * 2 >= width + wide or abs(y - top) * 2 >= height + high
                    self.assertTrue(apart, (words, x, y, left, top))

    def test_page(self) -> None:
        """the page: its data is the realm's, and nothing in it asks for a network"""
        text = run("realm", "--html", COMINGS).out
        data = re.search(r'<script id="data" type="application/json">(.*?)</script>', text, re.DOTALL)
        assert data is not None
        journal = parse_journal(Path(COMINGS).read_bytes())
        expected = json.loads(json.dumps(page_data(journal, replay(journal))))
        self.assertEqual(json.loads(data[1]), expected)
        frame = "".join((PAGE / name).read_text("utf-8") for name in ("page.html", "page.css", "page.js"))
        for word in ("http:", "https:", "src=", "href=", "@import", "url(", "fetch(", "XMLHttp"):
            self.assertNotIn(word, frame)
        self.assertEqual(text.count("<script"), 2)

    def test_page_is_safe(self) -> None:
        """a text that looks like the end of a script stays inside the page's data"""
        line = "1 0 find </script><script>alert(1)</script> => not-found .\n"
        text = run("realm", "--html", data=(HEAD + line).encode()).out
        self.assertEqual(text.count("</script>"), 2)

    def test_output_file(self) -> None:
        """a view written to a file"""
        with tempfile.TemporaryDirectory() as folder:
            path = Path(folder) / "tree"
            ran = run("realm", ROUTE, "-o", str(path))
            self.assertEqual((ran.status, ran.out), (0, ""))
            self.assertEqual(path.read_text("utf-8"), ROUTE_TREE)

    def test_words_of_the_sources(self) -> None:
        """each event and each reply in the table that the program's texts are proved to meet"""
        events, replies = quoted(TABLES, "event_texts"), quoted(TABLES, "reply_texts")
        self.assertGreaterEqual(len(events), 19)
        self.assertGreaterEqual(len(replies), 37)
        pairs = [(event, "done") for event in events] + [("pick 0", reply) for reply in replies]
        text = HEAD + "".join(
            f"{number} 0 {event} => {reply}\n" for number, (event, reply) in enumerate(pairs, 1)
        )
        self.assertEqual(len(parse_journal(text.encode()).entries), len(pairs))


class ProductTests(unittest.TestCase):
    """A product's journal, as the program printed it."""

    def test_product(self) -> None:
        """the tree of a product's journal, and the way of a route of six hops"""
        tree = run("realm", str(JOURNALS / "product.txt")).out.split("\n")
        told = [line.lstrip("│├└─ ").split()[:3] for line in tree[1:-2]]
        self.assertEqual(told, PRODUCT_TREE)
        routes = run("realm", "--routes", str(JOURNALS / "product.txt")).out
        self.assertIn(PRODUCT_ROUTE, routes)

    def printed(self, script: str, more: str = "") -> bytes:
        """What the program prints of a script with more behind it, and the journal of that."""
        program = os.environ.get("COMPONENT_MANAGER")
        if not program:
            self.skipTest("COMPONENT_MANAGER names no program")
        data = (TESTS / "scripts" / script).read_bytes() + more.encode()
        ran = subprocess.run([program, "run", "--journal"], input=data, capture_output=True)
        self.assertEqual(ran.returncode, 0)
        return ran.stdout

    def test_journal(self) -> None:
        """a run in which instances go prints the journal that the tests read (where COMPONENT_MANAGER is)"""
        self.assertEqual(self.printed("sweeps.txt"), Path(SWEEPS).read_bytes())

    def test_program(self) -> None:
        """the replays of runs against the program's own surveys (where COMPONENT_MANAGER is)"""
        for script, count in (("product.txt", 16), ("sweeps.txt", 3)):
            self.compare(parse_journal(self.printed(script, "sync\n0 survey .\n")), count)

    def compare(self, journal: Journal, count: int) -> None:
        """Compares the tree that a journal leaves with the survey at the end of its replies."""
        surveyed = journal.replies[journal.replies.index(f"0 survey . {count}") + 1 :]
        world = replay(journal)
        shown = [
            f"  {one.moniker} incarnation {one.incarnation}"
            f" {'resolved' if one.is_resolved else 'unresolved'} {'on' if one.is_on else 'off'}"
            f"{' shut' if one.is_shut else ''}"
            for one in world.instances.values() if not one.is_destroyed
        ]
        self.assertEqual(sorted(surveyed), sorted(shown))


class BadInputTests(unittest.TestCase):
    """What `realm` says where it can't go on."""

    def test_bad_journals(self) -> None:
        """a journal that is cut, is something else or is nothing: one line, status 2"""
        for data, told in BAD_JOURNALS:
            ran = run("realm", data=data)
            self.assertEqual((ran.status, ran.out), (2, ""), data)
            self.assertTrue(ran.err.startswith("realm: ") and ran.err.count("\n") == 1, ran.err)
            self.assertIn(told, ran.err)
        ran = run_process("realm", data=b"nothing of the kind")
        self.assertEqual((ran.status, ran.out, ran.err.count("\n")), (2, "", 1))

    def test_every_front(self) -> None:
        """each front of a journal is shown or refused in one line"""
        data = Path(COMINGS).read_bytes()
        for size in range(0, len(data), 131):
            ran = run("realm", data=data[:size])
            self.assertEqual(ran.status, 2, size)
            self.assertEqual(ran.err.count("\n"), 1, ran.err)

    def test_partial(self) -> None:
        """--partial reads a journal that is cut up to its last whole line"""
        data = Path(COMINGS).read_bytes()
        ran = run("realm", "--partial", data=data[: data.index(b"19 0 end") + 20])
        self.assertEqual(ran.status, 0)
        self.assertIn("after entry 18 of 18", ran.out)
        self.assertIn("elements:e1  resolving   @3", ran.out)

    def test_words(self) -> None:
        """a file that isn't there, an entry that isn't there, an unknown option"""
        self.assertEqual(run("realm", "no-such-file").err, "realm: no-such-file: No such file or directory\n")
        self.assertEqual(run("realm", "--at", "12", ROUTE).err,
                         "realm: there is no entry 12; the journal has 11\n")
        self.assertEqual(run("realm", "--colour", ROUTE).status, 2)

    def test_closed_output(self) -> None:
        """an output that is closed early, as by head, ends quietly"""
        data = make(300, 3000).encode()
        command = [sys.executable, str(TOOLS / "realm"), "--timeline"]
        with subprocess.Popen(command, stdin=subprocess.PIPE, stdout=subprocess.PIPE,
                              stderr=subprocess.PIPE) as tool:
            assert tool.stdin and tool.stdout and tool.stderr
            tool.stdin.write(data)
            tool.stdin.close()
            tool.stdout.readline()
            tool.stdout.close()
            self.assertEqual(tool.stderr.read(), b"")


class LargeTests(unittest.TestCase):
    """Journals of 2,000 instances and of 100,000 entries."""

    def seconds(self, view: str, data: bytes) -> float:
        """Runs the tool on the data, and gives the seconds of the processor that it took."""
        before = resource.getrusage(resource.RUSAGE_CHILDREN)
        ran = run_process("realm", view, "-o", "/dev/null", data=data)
        after = resource.getrusage(resource.RUSAGE_CHILDREN)
        self.assertEqual((ran.status, ran.err), (0, ""))
        return after.ru_utime + after.ru_stime - before.ru_utime - before.ru_stime

    def compare(self, view: str, small: bytes, large: bytes) -> None:
        """Ten times the entries take at most thirty times the seconds. The square would take a hundred.

        Both are timed by one machine in one test, so that a slow one doesn't fail it.
        """
        self.assertLess(self.seconds(view, large), 30 * self.seconds(view, small), view)

    def test_many_instances(self) -> None:
        """a journal of 2,000 instances: the tree, and the page's data"""
        data = make(2000, 0)
        ran = run("realm", data=data.encode())
        self.assertEqual(ran.out.count("\n"), 2003)
        self.assertTrue(ran.out.endswith("2001 instances: 2000 started, 1 destroyed\n"))
        page = run("realm", "--html", data=data.encode()).out
        self.assertLess(len(page), 4_000_000)

    def test_many_entries(self) -> None:
        """a journal of 100,000 entries beside one of 10,000: the tree, the JSON, the page"""
        small, large = make(200, 10_000).encode(), make(2000, 100_000).encode()
        for view in ("--tree", "--json", "--html"):
            self.compare(view, small, large)

    def test_many_sweeps(self) -> None:
        """100,000 entries in which 10,000 children go with a parent that stops: the tree, the timeline"""
        large = make_sweeps(100_000)
        told = run("realm", data=large.encode()).out.rsplit("\n", 2)[-2]
        self.assertRegex(told, r"^\d+ instances: 1 (started|stopped|resolved), \d+ destroyed$")
        for view in ("--tree", "--timeline"):
            self.compare(view, make_sweeps(10_000).encode(), large.encode())
