"""Tests of the walk along routes beside the program's own, over drawn realms."""

from __future__ import annotations

import os
import random
import tempfile
import unittest
from collections import Counter
from pathlib import Path

from cm_tools.hops import Stop
from cm_tools.outside_routes import add_uses
from cm_tools.scripts import Sketch, read_script
from cm_tools.surveying import Realm, Runner, Use, realm_of
from cm_tools.tracing import trace
from cm_tools.wiring import Wiring

REALMS = 500
MONIKERS = (".", "a", "b", "a/c", "a/d", "b/e")
CREATED = "k:x"
KINDS = {"p": "protocol", "q": "protocol", "d": "directory"}
# What a command may offer to its child alone, by its name there.
GROUPS = {
    "p": ("+ protocol p #a", "+ protocol q parent as=p weak"),
    "q": ("+ protocol p #b as=q optional", "+ protocol q #a"),
    "d": ("+ directory d #b", "+ directory d #a rights=r*", "+ directory d parent"),
}
RIGHTS = ("", "", ",rights:['r*']", ",rights:['rw*']")
# What the walks have to come to somewhere among the realms.
OUTCOMES = {
    "route", "no-offer", "no-expose", "no-builtin", "rights-too-weak", "availability-too-weak", "void",
    "place", "no-storage-offer", "void-storage", "no-backing", "backing",
}


class Drawing:
    """A realm that is drawn: its manifests, what stands above it, and the command that creates a child."""

    def __init__(self, source: random.Random) -> None:
        self.draw, self.collected = source, set[str]()
        lines: list[str] = []
        for moniker in (*MONIKERS, CREATED):
            lines += [f"manifest {url_of(moniker)}", self._manifest(moniker), "%%"]
        lines += ["builtin protocol p"] if source.random() < 0.3 else []
        lines += ["builtin directory d /d rw*"] if source.random() < 0.3 else []
        self.header = [*lines, f"root {url_of('.')}"]
        # Nothing is offered twice by one name.
        free = [name for name in KINDS if name not in self.collected and self._chance(0.6)]
        groups = [source.choice(GROUPS[name]) for name in free]
        self.create = " ".join([f"create . k x {url_of(CREATED)}", *groups])

    def _chance(self, share: float) -> bool:
        return self.draw.random() < share

    def _manifest(self, moniker: str) -> str:
        """It uses all, may have it, and offers and exposes it from here and there."""
        children = children_of(moniker)
        own = [name for name in KINDS if self._chance(0.6)]
        ends = {"protocol": "}", "directory": ",path:'/d',rights:['rw*']}"}
        capabilities = [f"{{{KINDS[name]}:'{name}'{ends[KINDS[name]]}" for name in own]
        if moniker == ".":
            origin = self.draw.choice(["self" if "d" in own else "#a", "#a", "#b", "parent"])
            place = "backing_dir:'d',storage_id:'static_instance_id_or_moniker'"
            capabilities.append(f"{{storage:'s',from:'{origin}',{place}}}")
        exposes = [] if moniker == "." else self._given(own, children, "")
        offers = [row for child in children for row in self._given(own, children, child)]
        offers += self._storages(moniker, children)
        listed = ",".join(f"{{name:'{one}',url:'{url_of(_inside(moniker, one))}'}}" for one in children)
        sections = {"children": listed, "capabilities": ",".join(capabilities), "use": self._uses(moniker),
                    "offer": ",".join(offers), "expose": ",".join(exposes)}
        if moniker == ".":
            kept = "durability:'transient',allowed_offers:'static_and_dynamic'"
            sections["collections"] = f"{{name:'k',{kept}}}"
            sections["offer"] += "," + ",".join(self._given(own, children, "k"))
        return "{" + ",".join(f"{name}:[{text.strip(',')}]" for name, text in sections.items()) + "}"

    def _uses(self, moniker: str) -> str:
        if moniker == ".":
            return ""
        availability = ",availability:'optional'" if self._chance(0.4) else ""
        rights = self.draw.choice(["r*", "rw*"])
        return (f"{{protocol:'p',dependency:'weak'{availability}}},{{protocol:'q',dependency:'weak'}},"
                f"{{directory:'d',path:'/d',dependency:'weak',rights:['{rights}']{availability}}},"
                "{storage:'s',path:'/s'}")

    def _given(self, own: list[str], children: list[str], target: str) -> list[str]:
        """Offers to a target, or exposes where none is named."""
        rows = []
        for name, kind in KINDS.items():
            kept = name if kind == "directory" else self.draw.choice("pq")
            origins = [*(f"#{one}" for one in children if one != target), "self", "void"]
            origins += ["framework"] if kind == "protocol" and self._chance(0.2) else []
            origin = self.draw.choice([*origins, "parent", "parent"] if target else origins)
            if self._chance(0.2) or (origin == "self" and kept not in own):
                continue
            self.collected |= {name} if target == "k" else set()
            words = f"{kind}:'{kept}',from:'{origin}',as:'{name}'"
            words += f",to:'#{target}',dependency:'weak'" if target else ""
            words += self.draw.choice(RIGHTS) if kind == "directory" else ""
            is_weak = origin == "void" or self._chance(0.1)
            rows.append(f"{{{words}" + (",availability:'optional'}" if is_weak else "}"))
        return rows

    def _storages(self, moniker: str, children: list[str]) -> list[str]:
        origin = "self" if moniker == "." else "parent"
        return [
            f"{{storage:'s',from:'{'void' if self._chance(0.1) else origin}',to:'#{child}'}}"
            for child in children if self._chance(0.8)
        ]


def children_of(moniker: str) -> list[str]:
    """The names of the children that an instance declares."""
    front = "" if moniker == "." else f"{moniker}/"
    names = [one.removeprefix(front) for one in MONIKERS if one != "." and one.startswith(front)]
    return [name for name in names if "/" not in name]


def _inside(moniker: str, name: str) -> str:
    return name if moniker == "." else f"{moniker}/{name}"


def url_of(moniker: str) -> str:
    """The URL of the manifest of an instance."""
    return f"fuchsia-pkg://t/p#meta/{moniker.replace('/', '-').replace(':', '-')}.cm"


@unittest.skipUnless("COMPONENT_MANAGER" in os.environ, "COMPONENT_MANAGER names no program")
class WalkTests(unittest.TestCase):
    """The walk along a route beside the program's."""

    def test_walks(self) -> None:
        """over 500 drawn realms both walks end at the hop that the program names, or go its way"""
        source, outcomes = random.Random(7), Counter[str]()
        with tempfile.TemporaryDirectory() as folder:
            for number in range(REALMS):
                drawing = Drawing(source)
                realm = surveyed(Path(folder), drawing, number % 5 == 0)
                script = "\n".join([*drawing.header, f"0 {drawing.create}", ""])
                sketch, wiring = Sketch(read_script("script", script)), Wiring(realm)
                for use in realm.uses:
                    outcomes[outcome_of(use)] += 1
                    # By the manifests as they are written, and by their rows as the program read them.
                    self.compare(use, trace(sketch, use.client, use.path), script)
                    self.compare(use, wiring.walk(use), script)
        self.assertLessEqual(OUTCOMES, set(outcomes), outcomes)

    def compare(self, use: Use, stops: list[Stop], script: str) -> None:
        """Compares a walk with what the program says of the use."""
        places = [(stop.step, stop.moniker) for stop in stops]
        told = f"{use.client} {use.path} {use.route or use.why}: {places}\n{script}"
        if use.route is not None and use.route.hops:
            self.assertEqual(places, [(hop.step, hop.moniker) for hop in use.route.hops], told)
        elif use.route is not None:
            self.assertEqual(places[-1][1], use.route.moniker or ".", told)
        elif use.step and " too-weak " not in use.why.replace("-too-weak", " too-weak "):
            self.assertEqual(places[-1], (use.step, use.moniker), told)
        elif use.step:
            self.assertIn((use.step, use.moniker), places, told)


def surveyed(folder: Path, drawing: Drawing, has_storage: bool) -> Realm:
    """The realm that the program tells."""
    runner = Runner(Path(os.environ["COMPONENT_MANAGER"]), folder, drawing.header, [drawing.create])
    resolves = [f"resolve {moniker}" for moniker in (*MONIKERS, CREATED)]
    realm = realm_of(runner.run(resolves, True), (folder, folder), {}, [drawing.create])
    if has_storage:
        add_uses(realm, lambda word: runner.report(word, resolves))
    return realm


def outcome_of(use: Use) -> str:
    """What becomes of a use, in one word."""
    if use.route is not None:
        return "route" if use.route.hops else "place"
    return use.why.split(" ")[0]


if __name__ == "__main__":
    unittest.main()
