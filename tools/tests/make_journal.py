#!/usr/bin/env python3
"""Makes large journals for the tests and for trying the page.

    make_journal.py INSTANCES ENTRIES
    make_journal.py sweeps ENTRIES

Instance k has the parent (k - 1) / 4, uses its parent's protocol, and declares one of its own, which
it offers to its children. Four callers start all instances in turn. Then they open their uses until
there are as many entries as asked for. A collection of the root has a child that comes and goes.

With `sweeps` there is a root alone, which is started and stopped again and again: each time children of
its collection come, and go with it.
"""

from __future__ import annotations

import json
import sys

LANES = 4
CHILDREN = 4
ROOT_URL = "fuchsia-pkg://gen/p#meta/0.cm"


class Maker:
    """Writes entries as the program does, for the one shape of realm that stands above."""

    def __init__(self, instances: int) -> None:
        self.instances = instances
        self.lines: list[str] = []
        self.actions = 0
        self.made = 1
        self.incarnation = {0: 0}
        self.rows: dict[int, int] = {0: 0}
        self.started: set[int] = set()

    def add(self, caller: int, event: str, reply: str) -> None:
        """One entry more."""
        self.lines.append(f"{len(self.lines) + 1} {caller} {event} => {reply}")

    def moniker(self, k: int) -> str:
        """The moniker of instance k."""
        parts = []
        while k:
            parts.append(f"i{k}")
            k = (k - 1) // CHILDREN
        return "/".join(reversed(parts)) or "."

    def children(self, k: int) -> list[int]:
        """The children of instance k."""
        first = CHILDREN * k + 1
        return list(range(first, min(first + CHILDREN, self.instances)))

    def declaration(self, k: int) -> str:
        """The text of the manifest of instance k."""
        children = self.children(k)
        name = f"p.{k}"
        value = {
            "capabilities": [{"path": f"/svc/{name}", "protocol": name}],
            "children": [
                {"name": f"i{c}", "startup": "lazy", "url": f"#meta/{c}.cm"} for c in children
            ],
            "collections": [
                {"allowed_offers": "static_only", "durability": "transient", "name": "coll"}
            ] if k == 0 else [],
            "expose": [],
            "offer": [
                {
                    "as": name, "availability": "required", "dependency": "strong",
                    "from": "self", "protocol": name, "to": f"#i{c}",
                }
                for c in children
            ],
            "program": {"runner": "gen"},
            "use": [
                {
                    "availability": "required", "dependency": "strong", "from": "parent",
                    "path": self.used(k), "protocol": self.used(k)[5:],
                }
            ] if k else [],
        }
        return json.dumps(value, sort_keys=True, separators=(",", ":"))

    def used(self, k: int) -> str:
        """The path of the one use of instance k."""
        return f"/svc/p.{(k - 1) // CHILDREN}"

    def resolve(self, caller: int, k: int) -> None:
        """Resolves instance k, whose parent is resolved."""
        self.actions += 1
        self.add(caller, f"begin resolve {self.incarnation[k]}", f"begun {self.actions}")
        url = f"fuchsia-pkg://gen/p#meta/{k}.cm"
        event = f"end {self.actions} resolved {url} {self.declaration(k)}"
        self.add(caller, event, "ended resolved")
        for child in self.children(k):
            self.incarnation[child] = self.made
            self.made += 1

    def start(self, caller: int, k: int) -> None:
        """Finds, resolves and starts instance k."""
        self.add(caller, f"find {self.moniker(k)}", f"found {self.incarnation[k]}")
        number = self.incarnation[k]
        self.add(caller, f"begin start {number}", f"need {number}")
        self.resolve(caller, k)
        self.act(caller, "start", number, "started")

    def open(self, caller: int, k: int) -> None:
        """Opens what instance k uses."""
        parent = (k - 1) // CHILDREN
        client, source = self.moniker(k), self.moniker(parent)
        hops = f"use {client}, offer {source}, capability {source}"
        reply = f"opened {self.used(k)} at {source} incarnation {self.incarnation[parent]} through {hops}"
        self.add(caller, f"open {self.incarnation[k]} {self.used(k)}", reply)

    def come_and_go(self, caller: int) -> None:
        """A child of the collection is created, shut down and destroyed."""
        number = self.made
        self.made += 1
        self.add(caller, "create 0 coll guest #meta/guest.cm", f"created {number}")
        self.add(caller, f"mark doomed {number}", "marked")
        self.add(caller, f"pick {number}", f"shutdown {number}")
        self.add(caller, f"pick {number}", "done")
        self.add(caller, f"purge {number}", "purged 1")

    def sweep(self, caller: int, guests: int) -> None:
        """The root is started, children of the collection come, and it stops, and they go with it."""
        self.act(caller, "start", 0, "started")
        come = [self.made + k for k in range(guests)]
        self.made += guests
        for number in come:
            self.add(caller, f"create 0 coll guest{number} #meta/guest.cm", f"created {number}")
        self.act(caller, "stop", 0, "stopped")
        self.add(caller, "reap 0", " ".join(["reaping", *map(str, come)]))
        for number in come:
            self.add(caller, f"pick {number}", f"shutdown {number}")
            self.add(caller, f"pick {number}", "done")
            self.add(caller, f"purge {number}", "purged 1")

    def act(self, caller: int, kind: str, incarnation: int, outcome: str) -> None:
        """A start or a stop, begun and ended."""
        self.actions += 1
        self.add(caller, f"begin {kind} {incarnation}", f"begun {self.actions}")
        self.add(caller, f"end {self.actions} {outcome}", f"ended {outcome}")

    def text(self) -> str:
        """All that the program would print, with one reply in front."""
        head = f"0 started . action 2\njournal\nroot {ROOT_URL}\n"
        return head + "".join(line + "\n" for line in self.lines)


def make(instances: int, entries: int) -> str:
    """A journal with so many instances and at least so many entries."""
    maker = Maker(instances)
    for k in range(instances):
        maker.start(k % LANES, k)
    maker.come_and_go(0)
    x = 1
    while len(maker.lines) < entries:
        x = (x * 1103515245 + 12345) % 2**31
        k = (x // 65536) % instances
        if k:
            maker.open(x % LANES, k)
        else:
            maker.add(0, "show 0", "shown resolved on")
    return maker.text()


def make_sweeps(entries: int) -> str:
    """A journal with at least so many entries, in which ten children go with their parent each time."""
    maker = Maker(1)
    maker.resolve(0, 0)
    while len(maker.lines) < entries:
        maker.sweep(len(maker.lines) % LANES, 10)
    return maker.text()


def main(kind: str, entries: str) -> None:
    """Writes the journal that the two words ask for."""
    sys.stdout.write(make_sweeps(int(entries)) if kind == "sweeps" else make(int(kind), int(entries)))


if __name__ == "__main__":
    main(*sys.argv[1:])
