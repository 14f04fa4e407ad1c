"""Tests of `explain`, of the table of numbers, and of `check-all`."""

from __future__ import annotations

import os
import re
import tempfile
import unittest
from pathlib import Path

from cm_tools.numbers import NUMBERS, REASONS
from cm_tools.relaxed import SpellingFault, read_relaxed
from cm_tools.rows import rows_of
from cm_tools.scripts import looks_like_script
from tests.support import JOURNALS, ROOT, TESTS, quoted, run

EXAMPLES = ROOT / "examples"
MANIFESTS = TESTS / "manifests"
PRODUCT = TESTS / "scripts" / "product.txt"
FAULTS = EXAMPLES / "faults"
FAULTY = TESTS / "scripts" / "faulty.txt"
TABLES = ROOT / "crates" / "cm_reply" / "specs" / "Tables.antt"

# A manifest below tests/manifests, what the program says of it, the place and the number that are
# told, and what is pointed at.
MANIFEST_CASES: list[tuple[str, str, str, str]] = [
    ("rows.cml", "invalid 51 offer 4", "12:17: 51 unknown-ref", "row 4 of `offer`, which is item 1"),
    ("rows.cml", "invalid 53 offer 1", "10:56: 53 target-is-source", "row 1 of `offer`, which is item 0"),
    ("rows.cml", "invalid 54 offer 3 offer 2", "10:27: 54 repeated-target", "against row 2 of `offer`"),
    ("rows.cml", "invalid 55 use 2 use 0", "7:46: 55 repeated-path", "protocol p2"),
    ("rows.cml", "invalid 57 expose 1", "15:71: 57 required-void", "protocol x"),
    ("rows.cml", "invalid 50 children 1 children 0", "4:17: 50 repeated-name", "'b'"),
    ("rows.cml", "invalid 52 offer 0", "10:39: 52 not-declared", "protocol p to #a"),
    ("rows.cml", "invalid 58 graph 0 a b a", "10:39: 58 strong-cycle", "a depends on b by item 0"),
    ("items.cml", "invalid 33 manifest 0 extra", "2:5: 33 unknown-field", "extra"),
    ("items.cml", "invalid 33 children 1 colour", "5:48: 33 unknown-field", "colour"),
    ("items.cml", "invalid 34 children 0 url", "5:9: 34 missing", "which has no `url`"),
    ("items.cml", "invalid 34 program 0 runner", "3:14: 34 missing", "`program`"),
    ("items.cml", "invalid 35 use 0 protocol", "8:21: 35 wrong-type", "7"),
    ("items.cml", "invalid 36 use 1 protocol", "9:30: 36 bad-name", "'-bad'"),
    ("items.cml", "invalid 37 use 2 path", "10:32: 37 bad-path", "'svc'"),
    ("items.cml", "invalid 39 offer 0 to", "13:56: 39 unknown-word", "'b'"),
    ("items.cml", "invalid 40 expose 0", "14:15: 40 kind-count", "item 0 of `expose`"),
    ("items.cml", "invalid 42 use 3 path", "11:39: 42 not-with-many", "'/svc/x'"),
    ("items.cml", "invalid 43 use 0", "7:5: 43 too-many-rows", "the section `use`"),
    ("sources.cml", "invalid 51 offer 1", "9:77: 51 unknown-ref", "row 1 of `offer`"),
    ("sources.cml", "invalid 51 offer 2", "11:32: 51 unknown-ref", "item 3"),
    ("sources.cml", "invalid 57 expose 0", "18:15: 57 required-void", "protocol p"),
    ("sources.cml", "invalid 50 capabilities 1 capabilities 0", "5:22: 50 repeated-name", "which is item 2"),
    ("cut.cml", "invalid 31 manifest 0", "3:18: 31 not-json", "this string isn't closed"),
    ("bytes.cml", "invalid 30 manifest 0", "2:8: 30 not-utf8", "0x80"),
]

# Texts that aren't in the relaxed spelling, and where the first fault of each stands.
SPELLINGS: list[tuple[str, int]] = [
    ("", 0), ("{", 1), ("{a}", 2), ("{a:1 b:2}", 5), ("{a-b:1}", 1), ("[1,,2]", 3), ("[,]", 1),
    ("{'a':'b}", 5), ("/* x", 0), ("[1] 2", 4), ("[01]", 1), ("[yes]", 1), ("{a:#}", 3),
    ('["\\q"]', 2), ('["\\ud800"]', 2), ('["\\ud800\\u0041"]', 2), ('["a\nb"]', 1),
    ("{1:2}", 1), ("[" * 128 + "]" * 128, 127),
]
RIGHT_SPELLINGS = [
    "{}", "{a:1,}", "// c\n{'a':[1,2,],/* d */b:\"x\"}", "[1.5e-3,-0,true,false,null]",
    "['it\\'s', '\"', \"\\u0041\\ud83d\\ude00\"]", "[" * 127 + "]" * 127,
]

# What the program says of tests/scripts/faulty.txt, and what is told.
SCRIPT_CASES: list[tuple[str, str, str]] = [
    ("line 7: 70 bad-command at 14", "faulty.txt:7:15: 70 bad-command", "0 route client"),
    ("line 8: 71 bad-lane", "faulty.txt:8:1: 71 bad-lane", "route client /a"),
    ("line 9: 74 too-many-lanes", "faulty.txt:9:1: 74 too-many-lanes", "16 show ."),
    ("line 2: 77 bad-manifest-url", "faulty.txt:2:10: 77 bad-manifest-url", "fuchsia-pkg://t/a"),
    ("line 5: 72 no-root", "faulty.txt:5:1: 72 no-root", "0 show ."),
    ("line 10: 73 unclosed-manifest", "faulty.txt:10:1: 73 unclosed-manifest", "manifest x"),
    ("line 12: 72 no-root", "faulty.txt:12: 72 no-root", "the end of the script"),
]


class ExplainTests(unittest.TestCase):
    """What `explain` says of manifests, scripts and refusals."""

    def test_manifests(self) -> None:
        """each fault of a manifest: line, column, name, and what is pointed at"""
        for name, said, place, told in MANIFEST_CASES:
            ran = run("explain", str(MANIFESTS / name), said)
            self.assertEqual((ran.status, ran.err), (1, ""), said)
            first = ran.out.split("\n")[0]
            self.assertEqual(first, f"{MANIFESTS / name}:{place}", said)
            self.assertIn(told, ran.out)
            self.assertIn("\nHint: ", ran.out)

    def test_carets(self) -> None:
        """the caret stands below what is meant"""
        ran = run("explain", str(EXAMPLES / "undeclared-child.cml"), "invalid 51 offer 0")
        lines = ran.out.split("\n")
        start = lines[2].index("^")
        self.assertEqual(lines[1][start : lines[2].rindex("^") + 1], "'#cliemt'")

    def test_rows(self) -> None:
        """an item with several names and targets makes names times targets rows"""
        root = read_relaxed("{offer:[{protocol:['p','q'],from:'self',to:['#a','#b','#c']},"
                            "{directory:'d',from:'self',to:'#a'}]}")
        rows = rows_of(root, "offer", 51)
        told = [(row.item_index, row.told()) for row in rows]
        self.assertEqual(told[:4], [(0, "protocol p to #a"), (0, "protocol p to #b"),
                                    (0, "protocol p to #c"), (0, "protocol q to #a")])
        self.assertEqual(told[6:], [(1, "directory d to #a")])

    def test_spelling(self) -> None:
        """where a text leaves the relaxed spelling, and texts that don't"""
        for text, place in SPELLINGS:
            with self.assertRaises(SpellingFault, msg=text) as caught:
                read_relaxed(text)
            self.assertEqual(caught.exception.place, place, text)
        for text in RIGHT_SPELLINGS:
            read_relaxed(text)
        for path in sorted(EXAMPLES.glob("*.cml")):
            self.assertEqual(read_relaxed(path.read_text("utf-8")).kind, "object")

    def test_scripts(self) -> None:
        """each fault of a script: line, column, name"""
        for said, first, told in SCRIPT_CASES:
            ran = run("explain", str(FAULTY), said)
            self.assertEqual((ran.status, ran.err), (7, ""), said)
            self.assertTrue(ran.out.split("\n")[0].endswith(first), ran.out)
            self.assertIn(told, ran.out)

    def test_refusals(self) -> None:
        """each refusal of a whole run, by its command and the item at which the route fails"""
        ran = run("explain", str(PRODUCT), data=(JOURNALS / "product.txt").read_bytes())
        self.assertEqual((ran.status, ran.err), (0, ""))
        for told in (
            "product.txt:180:1: 87 no-offer at offer core/session",
            "core/session offers no protocol fuchsia.ui.Focus to input",
            "product.txt:181:1: 83 cannot-resolve action 22 absent",
            "no manifest is found for core/session/theme: fuchsia-pkg://example.com/core#meta/theme.cm",
            "product.txt:183:1: 88 void at offer core",
            "product.txt: core/session/shell /svc/fuchsia.crash.Reporter: 88 void at offer core",
        ):
            self.assertIn(told, ran.out)
        self.assertEqual(ran.out.count("Hint: "), 5)

    def test_reports(self) -> None:
        """a line of the report on storage, with the advice for its reason; a script is needed for it"""
        script = str(FAULTS / "107-backing-no-expose.txt")
        told = "session storage /data refused 107 backing no-expose at expose minfs"
        shown = run("explain", script, told)
        self.assertIn("session storage /data: 107 backing no-expose at expose minfs", shown.out)
        self.assertIn(f"Hint: {REASONS['no-expose']}", shown.out)
        digits = run("explain", script, "5 storage /data refused 109 backing-rights-too-weak")
        self.assertIn("5 storage /data: 109 backing-rights-too-weak", digits.out)
        self.assertIn("is a manifest", run("explain", str(FAULTS / "52-not-declared.cml"), told).err)

    def test_unseen(self) -> None:
        """what can't be seen where a script's line can't go on: its end, a carriage return, a space, a tab"""
        with tempfile.TemporaryDirectory() as folder:
            path = Path(folder) / "script"
            for line, place, told in (
                ("0 show", 6, "The line ends there"), ("0 show .\r", 8, "A carriage return"),
                ("0 show . ", 8, "A space stands there"), ("0 show\t.", 6, "A tab stands there"),
            ):
                path.write_bytes(f"root u\n{line}\n".encode())
                ran = run("explain", str(path), f"line 2: 70 bad-command at {place}")
                self.assertIn(told, ran.out, line)

    def test_one_refusal(self) -> None:
        """one refusal alone, whose command is told where only one can be meant"""
        one = run("explain", str(PRODUCT), "3 refused 87 no-offer at offer core/session")
        self.assertIn("It can be the reply to one of the lines 166, 180", one.out)
        one = run("explain", str(PRODUCT), "2 refused 68 not-dynamic")
        self.assertIn("product.txt:186:1: 68 not-dynamic", one.out)

    def test_bad_input(self) -> None:
        """what can't be explained: one line, status 2"""
        valid = str(EXAMPLES / "core.cml")
        for words, told in (
            ((valid, "nonsense"), "nothing that is refused"),
            ((valid, "invalid 51 offer 99"), "is it the file that was checked?"),
            ((valid, "0 refused 85 client-off"), "is a manifest; give the script"),
            ((str(PRODUCT), "invalid 51 offer 0"), "is a script, which `run` takes"),
            ((valid, "line 1: 71 bad-lane"), "is a manifest, which `check` takes"),
            ((valid, "invalid 99 offer 0"), "no fault of a manifest has the number 99"),
            ((str(FAULTY), "line 99: 71 bad-lane"), "has 11 lines"),
            ((str(FAULTY), "line 7: 70 bad-command at 15"), "line 7 of"),
            (("--repo", valid, str(PRODUCT), "1 refused 85 client-off"), "is no folder"),
            (("--number", "x"), "invalid int value"),
            (("--colour", valid), "unrecognized arguments"),
            (("no-such-file", "invalid 31 manifest 0"), "No such file"),
            ((valid,), "the program said nothing"),
            ((), "name the manifest or the script"),
            (("--number", "12"), "there is no number 12"),
        ):
            ran = run("explain", *words)
            self.assertEqual((ran.status, ran.out), (2, ""), words)
            self.assertTrue(ran.err.startswith("explain: ") and ran.err.count("\n") == 1, ran.err)
            self.assertIn(told, ran.err)

    def test_odd_files(self) -> None:
        """any file with any fault: an explanation or one line, never a traceback"""
        said = ["invalid 31 manifest 0", "invalid 54 offer 3 offer 1", "line 1: 70 bad-command at 9",
                "0 refused 83 cannot-resolve action 1 invalid 34 program 0 runner"]
        with tempfile.TemporaryDirectory() as folder:
            path = Path(folder) / "odd"
            for data in (b"", b"\xff\x00", b"[]", b"manifest", b"{offer:7,use:[1]}", b"root x\n0 \n0"):
                path.write_bytes(data)
                for line in said:
                    ran = run("explain", str(path), line)
                    self.assertIn(ran.status, (0, 1, 2, 7), (data, line))
                    self.assertNotIn("Traceback", ran.err)


class NumberTests(unittest.TestCase):
    """The table of numbers against the program's sources."""

    def test_numbers_of_the_reader(self) -> None:
        """the numbers of the manifest reader, with their names"""
        source = (ROOT / "crates" / "cm_read" / "src" / "number.rt").read_text("utf-8")
        found = re.findall(r"pub const ([A-Z0-9_]+): u8 = (\d+);", source)
        self.assertEqual(len(found), 14)
        for name, number in found:
            self.assertEqual(NUMBERS[int(number)].name, name.lower().replace("_", "-"))

    def test_numbers_of_the_validator(self) -> None:
        """each number that the validator's documentation lists"""
        source = (ROOT / "crates" / "cm_valid" / "src" / "fault.rt").read_text("utf-8")
        numbers = {int(number) for number in re.findall(r"/// - (\d+):", source)}
        self.assertTrue(numbers and numbers <= set(NUMBERS))

    def test_numbers_of_refusals(self) -> None:
        """the words of refusals and of reasons, as the program prints them"""
        texts = quoted(TABLES, "refusal_texts")
        self.assertGreaterEqual(len(texts), 20)
        for text in texts:
            words = text.split(" ")
            if words[1].isdecimal() and words[1] != "87":
                self.assertEqual(NUMBERS[int(words[1])].name, words[2])
        self.assertEqual(set(quoted(TABLES, "reason_words")), set(REASONS))

    def test_numbers_of_scripts(self) -> None:
        """the words of the faults of scripts, as the program prints them"""
        lower = (ROOT / "crates" / "cm_command" / "src" / "fault.rt").read_text("utf-8")
        upper = (ROOT / "crates" / "cm_program" / "src" / "fault.rt").read_text("utf-8")
        for number in range(70, 77):
            self.assertIn(f'"{NUMBERS[number].name}"', lower)
        for number in (77, 78):
            self.assertIn(f'"{number} {NUMBERS[number].name}"', upper)

    def test_numbers_of_the_reference(self) -> None:
        """each number of the reference, with the name that it has there"""
        text = (ROOT / "docs" / "REFERENCE.md").read_text("utf-8")
        entries = re.findall(r"^- \*\*(\d+)\*\* ([^:\n]*):", text, re.M)
        self.assertEqual({int(number) for number, _ in entries}, set(NUMBERS))
        for number, named in entries:
            words = re.findall(r"`(\w[\w-]*)", named)
            names = {re.sub(r"(?<=[a-z0-9])(?=[A-Z])", "-", word).lower() for word in words}
            if "HOP" not in named:
                self.assertIn(NUMBERS[int(number)].name, names, number)

    def test_hints(self) -> None:
        """each number has a name of its own kind, a reason and advice (--number)"""
        for number, known in NUMBERS.items():
            self.assertRegex(known.name, r"^[a-z0-9]+(-[a-z0-9]+)*$")
            self.assertTrue(known.comes and known.hint.endswith("."), number)
        shown = run("explain", "--number", "51").out
        self.assertTrue(shown.startswith("51 unknown-ref\nIt comes where "))

    def test_printed(self) -> None:
        """each number says where it is printed, and the reference calls none of them planned"""
        self.assertEqual({known.printed for known in NUMBERS.values()},
                         {"check", "script", "reply", "report", "never"})
        text = (ROOT / "docs" / "REFERENCE.md").read_text("utf-8")
        self.assertNotRegex(text, r"Planned\.|Not\s+printed\s+yet\.")


class CheckAllTests(unittest.TestCase):
    """`check-all` over a program that stands in for the component manager."""

    def test_check_all(self) -> None:
        """each manifest of a folder, and the status"""
        with tempfile.TemporaryDirectory() as folder:
            program, below = Path(folder) / "program", Path(folder) / "manifests" / "deep"
            program.write_text('#!/bin/sh\nif grep -q bad; then echo "invalid 40 use 0"; exit 1; fi\n'
                               "echo valid\n")
            program.chmod(0o755)
            below.mkdir(parents=True)
            (below / "a.cm").write_text("{}")
            (below.parent / "b.cml").write_text("{bad}")
            (below / "notes.txt").write_text("bad")
            words = (str(below.parent), "--program", str(program))
            ran = run("check-all", *words)
            self.assertEqual((ran.status, ran.err), (1, ""))
            self.assertEqual(ran.out, f"{below.parent}/b.cml: invalid 40 use 0\n{below}/a.cm: valid\n")
            self.assertEqual(run("check-all", str(below), *words[1:]).status, 0)
            for other in ("echo broken >&2; exit 6", "true", "echo hello", "exit 1", "echo valid; exit 1"):
                program.write_text(f"#!/bin/sh\n{other}\n")
                ran = run("check-all", *words)
                self.assertEqual((ran.status, ran.out, ran.err.count("\n")), (2, "", 1), other)

    def test_bad_folders(self) -> None:
        """no folder, no manifests, no program: one line, status 2"""
        with tempfile.TemporaryDirectory() as folder:
            for words in ((folder, "--program", "/bin/true"), (f"{folder}/none", "--program", "/bin/true"),
                          (folder, "--program", folder)):
                ran = run("check-all", *words)
                self.assertEqual((ran.status, ran.out, ran.err.count("\n")), (2, "", 1))


class EditorTests(unittest.TestCase):
    """The completion and the editors' files."""

    def test_commands_are_known(self) -> None:
        """each command that the program reads is a word of both syntax files"""
        source = (ROOT / "crates" / "cm_command" / "src" / "command.rt").read_text("utf-8")
        commands = set(re.findall(r"/// `([a-z-]+) T", source))
        self.assertGreaterEqual(len(commands), 14)
        vim = (ROOT / "tools" / "editor" / "component-script.vim").read_text("utf-8")
        for command in commands:
            self.assertRegex(vim, rf"[|(]{command}\\[|)]", command)

    def test_options_are_known(self) -> None:
        """each option of the tools is completed"""
        completion = (ROOT / "tools" / "completion.bash").read_text("utf-8")
        for tool in ("realm", "explain", "check-all", "session", "doctor", "merge"):
            shown = run(tool, "--help").out
            for option in set(re.findall(r"--[a-z-]+", shown.partition("options:")[2])):
                self.assertIn(option, completion)

    def test_scripts_are_known(self) -> None:
        """a script is told from a manifest by its first line"""
        self.assertTrue(looks_like_script(PRODUCT.read_text("utf-8")))
        for path in EXAMPLES.glob("*.cml"):
            self.assertFalse(looks_like_script(path.read_text("utf-8")), path)
        self.assertTrue(os.access(ROOT / "tools" / "realm", os.X_OK))
