"""Tests of the page's script: the past, search, the address, the keyboard, the graph of routes. They run it
over a stand-in for a browser where node is, and in a browser of three widths where chromium is.
"""

from __future__ import annotations

import json
import shutil
import subprocess
import tempfile
import unittest
from pathlib import Path
from typing import Any

from cm_tools.html_view import PAGE, page_data
from cm_tools.journal import parse_journal
from cm_tools.world import replay
from tests.support import JOURNALS, SECONDS, TESTS, run

DECLARED = json.dumps({
    "children": [{"name": "a", "url": "#meta/a.cm"}], "collections": [],
    "offer": [{"protocol": "x.Log", "from": "self", "to": "#a", "as": "x.Log"}],
})
USER = json.dumps({"children": [], "collections": [], "use": [{"protocol": "x.Log", "path": "/svc/x.Log"}]})
# A route that is refused at entry 4, and given at entry 5 and 7.
JOURNAL = f"""journal
root fuchsia-pkg://t/a#meta/root.cm
1 0 begin resolve 0 => begun 1
2 0 end 1 resolved fuchsia-pkg://t/a#meta/root.cm {DECLARED} => ended resolved
3 0 begin resolve 1 => begun 2
4 0 route 1 /svc/x.Log => failed no-offer at offer .
5 0 route 1 /svc/x.Log => given /svc/x.Log at . incarnation 0 through use a, offer ., capability .
6 0 end 2 resolved fuchsia-pkg://t/a#meta/a.cm {USER} => ended resolved
7 0 route 1 /svc/x.Log => given /svc/x.Log at . incarnation 0 through use a, offer ., capability .
"""
BOTH = json.dumps({
    "children": [{"name": "a", "url": "#meta/a.cm"}, {"name": "b", "url": "#meta/b.cm"}], "collections": [],
})
# The child a fails first; its route leads to b, then it is refused, and then it leads to b again.
CHANGES = f"""journal
root fuchsia-pkg://t/a#meta/root.cm
1 0 begin resolve 0 => begun 1
2 0 end 1 resolved fuchsia-pkg://t/a#meta/root.cm {BOTH} => ended resolved
3 0 begin resolve 1 => begun 2
4 0 end 2 absent => ended absent
5 0 find a => found 1
6 0 begin resolve 1 => begun 3
7 0 end 3 resolved fuchsia-pkg://t/a#meta/a.cm {USER} => ended resolved
8 0 find a => found 1
9 0 route 1 /svc/x.Log => given /svc/x.Log at b incarnation 2 through use a, offer ., expose b, capability b
10 0 route 1 /svc/x.Log => failed no-offer at offer .
11 0 route 1 /svc/x.Log => given /svc/x.Log at b incarnation 2 through use a, offer ., expose b, capability b
"""
FAILED, ABSOLUTE = "failedabsent", "fuchsia-pkg://t/a#meta/a.cm"
COLLECTED = json.dumps({"children": [], "collections": [{"name": "k", "durability": "transient"}]})
# A child that is destroyed, and another one of its name.
AGAIN = f"""journal
root fuchsia-pkg://t/a#meta/root.cm
1 0 begin resolve 0 => begun 1
2 0 end 1 resolved fuchsia-pkg://t/a#meta/root.cm {COLLECTED} => ended resolved
3 0 create 0 k x #meta/x.cm => created 1
4 0 mark doomed 1 => marked
5 0 purge 1 => purged 0
6 0 create 0 k x #meta/x.cm => created 2
"""
GIVEN, REFUSED = "→. /svc/x.Log", "refused: no-offer at offer ."
WIDTHS = ("360,640", "820,1180", "1440,900")


def seen(journal: str, steps: list[tuple[str, str]], address: str = "") -> list[dict[str, Any]]:
    """What the page shows after each step."""
    parsed = parse_journal(journal.encode())
    with tempfile.TemporaryDirectory() as folder:
        data, done = Path(folder, "data"), Path(folder, "steps")
        data.write_text(json.dumps(page_data(parsed, replay(parsed))), "utf-8")
        done.write_text(json.dumps([["look", ""], *steps]), "utf-8")
        words = ["node", TESTS / "page_stub.js", PAGE / "page.js", data, done, address]
        ran = subprocess.run(words, capture_output=True, timeout=SECONDS, check=False)
    if ran.returncode:
        raise AssertionError(ran.stderr.decode())
    return [json.loads(line) for line in ran.stdout.decode().split("\n")[:-1]]


@unittest.skipUnless(shutil.which("node"), "node isn't here")
class ScriptTests(unittest.TestCase):
    """The page's script."""

    def test_past(self) -> None:
        """each moment shows its own routes, whatever was told of them later"""
        steps = [("move", str(number)) for number in (3, 4, 5, 7)]
        shown = seen(JOURNAL, steps, "#m=a")[1:]
        self.assertEqual([REFUSED in one["details"] for one in shown], [False, True, False, False])
        self.assertEqual([GIVEN in one["details"] for one in shown], [False, False, True, True])
        self.assertIn("entry 5", shown[2]["details"])
        self.assertEqual([(one["refused"], one["given"]) for one in shown], [(0, 0), (1, 0), (0, 1), (0, 1)])
        provider = seen(JOURNAL, [("move", "4"), ("move", "5")], "#m=.")
        self.assertEqual(["Routes that lead to it" in one["details"] for one in provider[1:]], [False, True])

    def test_other_past(self) -> None:
        """each moment shows an instance's failure, manifest, URL and the routes that led to it then"""
        steps = [("move", str(number)) for number in (3, 5, 6, 8, 11)]
        shown = [one["details"] for one in seen(CHANGES, steps, "#m=a")[1:]]
        self.assertEqual([FAILED in one for one in shown], [False, True, True, False, False])
        self.assertEqual(["declaration" in one for one in shown], [False, False, False, True, True])
        self.assertEqual([ABSOLUTE in one for one in shown], [False, False, False, True, True])
        steps = [("move", str(number)) for number in (0, 9, 10, 11)]
        shown = [one["details"] for one in seen(CHANGES, steps, "#m=b")[1:]]
        self.assertIn("It isn't there yet: it comes by entry 2.", shown[0])
        self.assertEqual(["Routes that lead to it" in one for one in shown], [False, True, False, True])

    def test_moniker_of_then(self) -> None:
        """a moniker in the address is that of the instance which has it at that moment"""
        shown = seen(AGAIN, [("go", "#m=k:x&n=3"), ("go", "#m=k:x"), ("go", "#m=k:x&n=1"), ("move", "6")])
        self.assertEqual([f"incarnation{number}" in one["details"] for one, number in zip(shown[1:3], "12")],
                         [True, True])
        self.assertIn("It isn't there yet: it comes by entry 3.", shown[3]["details"])
        self.assertEqual([one["hash"] for one in shown[1:]],
                         ["#m=k%3Ax&n=3", "#m=k%3Ax", "#m=k%3Ax&n=1", "#i=1"])

    def test_search(self) -> None:
        """search finds monikers and capabilities of that moment, and says when nothing is found"""
        shown = seen(JOURNAL, [("search", "x.lo"), ("move", "5"), ("search", "zzz"), ("search", "")])
        self.assertEqual(shown[1]["found"], "2 of 2 instances")
        self.assertIn("use x.Log", shown[1]["tree"])
        self.assertEqual(shown[2]["found"], "1 of 2 instances")
        self.assertEqual(shown[3]["found"], "nothing is found for “zzz”")
        self.assertEqual(shown[4]["found"], "2 instances")

    def test_moment(self) -> None:
        """a number can be typed, and one that is none is told"""
        shown = seen(JOURNAL, [("type", "4"), ("type", "99"), ("type", "x")])
        self.assertEqual([str(one["now"]) for one in shown], ["7", "4", "4", "4"])
        self.assertEqual([bool(one["wrong"]) for one in shown], [False, False, True, True])
        self.assertIn("no entry 99 of 7", shown[2]["wrong"])

    def test_address(self) -> None:
        """the address changes what is shown, is kept, and nonsense in it is answered in words"""
        addresses = ("#m=a&n=4", "#m=nobody&n=x&colour=red&theme=pink", "#i=0", "#q=x.log", "%%%#&&=")
        shown = seen(JOURNAL, [("go", address) for address in addresses])
        self.assertIn(REFUSED, shown[1]["details"])
        self.assertEqual(shown[1]["hash"], "#m=a&n=4")
        for told in ("no instance nobody", "no entry x of 7", "“colour” is no word", "no theme pink"):
            self.assertIn(told, shown[2]["wrong"])
        self.assertEqual((shown[3]["wrong"], shown[3]["details"][:3]), ("", ". ("))
        self.assertEqual(shown[4]["found"], "2 of 2 instances")

    def test_keyboard(self) -> None:
        """what can be followed is reached by the keyboard"""
        self.assertGreaterEqual(seen(JOURNAL, [], "#m=a")[0]["links"], 5)

    def test_large_journal(self) -> None:
        """the product's journal, at each of its moments"""
        text = (JOURNALS / "product.txt").read_text("utf-8")
        count = len(parse_journal(text.encode()).entries)
        steps = [("move", str(number)) for number in range(0, count + 1, 7)]
        shown = seen(text, steps, "#m=core/session/shell")
        self.assertEqual({one["wrong"] for one in shown}, {""})


@unittest.skipUnless(shutil.which("chromium"), "chromium isn't here: no picture of the page is looked at")
class PictureTests(unittest.TestCase):
    """The page as a picture, with the slider in the past."""

    def test_widths(self) -> None:
        """three widths give three pictures that aren't empty"""
        # What is left of chromium may still write there.
        with tempfile.TemporaryDirectory(ignore_cleanup_errors=True) as folder:
            page = Path(folder, "page.html")
            run("realm", "--html", "-o", str(page), str(JOURNALS / "product.txt"))
            for size in WIDTHS:
                picture = Path(folder, f"{size}.png")
                words = ["chromium", "--headless", "--no-sandbox", "--disable-gpu",
                         f"--user-data-dir={folder}/kept", f"--screenshot={picture}",
                         f"--window-size={size}", f"{page.as_uri()}#m=core/session/shell&n=90"]
                subprocess.run(words, capture_output=True, timeout=SECONDS, check=False)
                self.assertTrue(picture.is_file() and picture.stat().st_size > 5000, size)


if __name__ == "__main__":
    unittest.main()
