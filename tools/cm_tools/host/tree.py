"""What a runner remembers of the tree, so that a further manager can be given the same.

Each event is a line of a file before it is answered. An instance is named by its moniker, since incarnations
are the manager's and begin again with the next one.
"""

from __future__ import annotations

import json
import os
import secrets
from dataclasses import dataclass, field
from pathlib import Path
from typing import Any, Iterable

from cm_tools.host import programs
from cm_tools.host.programs import Repo, Unfit

# A file with more lines than so many for each thing that is remembered is written anew.
LINES_FOR_EACH, FEWEST_LINES = 8, 512


def parent_of(moniker: str) -> str:
    """The moniker of the instance above; that of the root is the root's own."""
    return moniker.rpartition("/")[0] or "."


def child_of(parent: str, name: str) -> str:
    """The moniker of a child."""
    return name if parent == "." else f"{parent}/{name}"


def is_within(moniker: str, top: str) -> bool:
    """Whether an instance is another one or below it."""
    return top == "." or moniker == top or moniker.startswith(top + "/")


@dataclass(eq=False)
class Child:
    """A child that was created: by what words, and which others have to be there before it.

    No other one, before or after, has its `birth`, whatever it is called.
    """

    parent: str
    coll: str
    name: str
    url: str
    groups: list[str]
    needs: list[Child] = field(default_factory=list)
    birth: str = field(default_factory=lambda: secrets.token_hex(8))

    @property
    def moniker(self) -> str:
        """Where it stands in the tree."""
        return child_of(self.parent, f"{self.coll}:{self.name}")

    def command(self, parent: str = "") -> str:
        """The command that creates it, also where its parent is called otherwise."""
        return " ".join(["create", parent or self.parent, self.coll, self.name, self.url, *self.groups])


class Tree:
    """The children that were created, what is on in the order of its last start, and what is shut.

    `steps` are creations and destructions in their order, as far as the children that stand may need them.
    A child is `coming` while its creation isn't answered: its program may be launched by then.
    """

    def __init__(self, root: str, repo: Repo, place: Path) -> None:
        self.root, self.repo, self.place = root, repo, place
        self.steps: list[tuple[str, Child]] = []
        self.children: dict[str, Child] = {}
        self.coming: dict[str, Child] = {}
        self.on: dict[str, None] = {}
        self.shut: list[str] = []
        self.file = -1
        self.lines = 0
        self.is_lost = False

    # The file.

    def open(self) -> bool:
        """Reads what stands in the file, and goes on behind it. Whether there was something of this root."""
        found = self._read()
        self._write_anew()
        return found

    def _read(self) -> bool:
        try:
            lines = self.place.read_text("utf-8").split("\n")[:-1]
        except (OSError, ValueError):
            return False
        events = []
        for line in lines:
            try:
                events.append(json.loads(line))
            except ValueError:
                break
        if not events or events[0] != ["root", self.root]:
            return False
        for word, *rest in events[1:]:
            self._take(word, rest)
        return bool(self.children or self.on or self.shut)

    def _take(self, word: str, rest: list[Any]) -> None:
        if word == "created":
            self.created(*rest)
        elif word == "destroyed":
            self.destroyed(*rest)
        elif word == "on":
            self.started(*rest)
        elif word == "off":
            self.off(*rest)
        elif word == "shut":
            self.shut_down(*rest)

    def _write_anew(self) -> None:
        """Writes a file of what is remembered, and puts it into the place of the last one."""
        self.steps = self.needed()
        rows: list[list[Any]] = [["root", self.root]]
        for what, child in self.steps:
            words = [child.parent, child.coll, child.name, child.url, child.groups, child.birth]
            rows.append(["created", *words] if what == "create" else ["destroyed", child.moniker])
        rows += [["on", name] for name in self.on] + [["shut", name] for name in self.shut]
        fresh = self.place.with_suffix(".new")
        data = "".join(json.dumps(row) + "\n" for row in rows).encode()
        file = os.open(fresh, os.O_WRONLY | os.O_CREAT | os.O_TRUNC | os.O_CLOEXEC, 0o600)
        if os.write(file, data) < len(data):
            os.close(file)
            raise OSError(28, "No space left on device")
        os.replace(fresh, self.place)
        if self.file >= 0:
            os.close(self.file)
        self.file, self.lines = file, len(rows)

    def _write(self, *words: Any) -> None:
        if self.file < 0:
            return
        data = json.dumps(words).encode() + b"\n"
        try:
            self.is_lost = os.write(self.file, data) < len(data)
            self.lines += 1
            kept = len(self.children) + len(self.on) + len(self.shut)
            if self.is_lost or self.lines > max(FEWEST_LINES, LINES_FOR_EACH * kept):
                self._write_anew()
        except OSError:
            # A full disk. What goes on is right; only a killed runner would come back to less.
            self.is_lost = True

    def close(self, keep: bool) -> None:
        """Ends the file, and removes it where the realm was shut down in order."""
        if self.file >= 0:
            os.close(self.file)
            self.file = -1
        if not keep:
            self.place.unlink(missing_ok=True)

    # Where a manifest is, by files alone.

    def url_of(self, moniker: str) -> str:
        """The whole URL of an instance, or `Unfit`."""
        if moniker == ".":
            return self.root
        base = self.url_of(parent_of(moniker))
        name = moniker.rpartition("/")[2]
        if ":" in name:
            child = self.child(moniker)
            url = child.url if child is not None else ""
        else:
            url = programs.declared(self.repo, base).children.get(name, "")
        return base.partition("#")[0] + url if url.startswith("#") else url

    def runs_once(self, moniker: str) -> bool:
        """Whether it is a child of a collection whose children run once."""
        coll, colon, _ = moniker.rpartition("/")[2].partition(":")
        if not colon:
            return False
        try:
            collections = programs.declared(self.repo, self.url_of(parent_of(moniker))).collections
        except Unfit:
            return False
        return collections.get(coll) == "single_run"

    # What came about.

    def child(self, moniker: str) -> Child | None:
        """The child that was created, or is being created, at a moniker."""
        return self.children.get(moniker) or self.coming.get(moniker)

    def comes(self, parent: str, coll: str, name: str, url: str, groups: list[str]) -> str:
        """A child is being created. Its moniker."""
        base = "" if parent == "." else parent + "/"
        needs = [self.children[base + word[1:]] for word in groups
                 if word[:1] == "#" and base + word[1:] in self.children]
        if parent in self.children:
            needs.append(self.children[parent])
        child = Child(parent, coll, name, url, list(groups), needs)
        self.coming[child.moniker] = child
        return child.moniker

    def created(self, parent: str, coll: str, name: str, url: str, groups: list[str], birth: str = "") -> str:
        """A child was created. Its moniker."""
        moniker = child_of(parent, f"{coll}:{name}")
        if moniker not in self.coming:
            self.comes(parent, coll, name, url, groups)
        child = self.coming.pop(moniker)
        child.birth = birth or child.birth
        self.children[moniker] = child
        self.steps.append(("create", child))
        self._write("created", parent, coll, name, url, list(groups), child.birth)
        return moniker

    def destroyed(self, moniker: str) -> None:
        """It and all below it are gone."""
        for name in [one for one in self.children if is_within(one, moniker)]:
            self.steps.append(("destroy", self.children.pop(name)))
        for name in [one for one in self.on if is_within(one, moniker)]:
            del self.on[name]
        self.shut = [one for one in self.shut if not is_within(one, moniker)]
        if len(self.steps) > 64 and len(self.steps) > 4 * len(self.children):
            self.steps = self.needed()
        self._write("destroyed", moniker)

    def started(self, moniker: str) -> None:
        """It is on."""
        if moniker not in self.on:
            self.on[moniker] = None
            self._write("on", moniker)

    def off(self, moniker: str) -> None:
        """Its program isn't there any more; what goes with it is another step."""
        if moniker in self.on:
            del self.on[moniker]
            self._write("off", moniker)

    def stopped(self, moniker: str) -> list[str]:
        """It was stopped or ended by itself, so what goes with it goes. What has gone, by monikers."""
        self.off(moniker)
        if self.runs_once(moniker):
            gone = [moniker]
        else:
            gone = [name for name, child in self.children.items() if child.parent == moniker]
        for name in gone:
            if name in self.children:
                self.destroyed(name)
        return gone

    def shut_down(self, moniker: str) -> None:
        """It and all below it are off for good."""
        for name in [one for one in self.on if is_within(one, moniker)]:
            del self.on[name]
        if moniker not in self.shut:
            self.shut.append(moniker)
        self._write("shut", moniker)

    # What to do again.

    def stands(self, moniker: str) -> bool:
        """Whether all created children on the way to it, and it, are still there."""
        parts = moniker.split("/")
        return all(":" not in part or "/".join(parts[:place + 1]) in self.children
                   for place, part in enumerate(parts))

    def needed(self) -> list[tuple[str, Child]]:
        """The steps that bring the children back: those that stand, and those that an offer of one that
        stands names."""
        return self._with_needs(list(self.children.values()))

    def needed_by(self, monikers: list[str]) -> list[tuple[str, Child]]:
        """The steps that bring back what was created at and above instances."""
        more: list[Child] = []
        coming: list[Child] = []
        for moniker in monikers:
            while above := created_part(moniker):
                child = self.child(above)
                if child is not None:
                    more.append(child)
                    coming += [child] if above not in self.children else []
                moniker = parent_of(above)
        return self._with_needs(more) + [("create", child) for child in dict.fromkeys(coming)]

    def _with_needs(self, more: list[Child]) -> list[tuple[str, Child]]:
        keep: set[Child] = set()
        while more:
            child = more.pop()
            if child not in keep:
                keep.add(child)
                more += child.needs
        return [step for step in self.steps if step[1] in keep] if keep else []


def created_part(moniker: str) -> str:
    """The moniker of the lowest instance at or above one that was created; empty where there is none."""
    parts = moniker.split("/")
    while parts and ":" not in parts[-1]:
        parts.pop()
    return "/".join(parts)


def commands(steps: Iterable[tuple[str, Child]]) -> list[str]:
    """The commands of such steps."""
    return [child.command() if what == "create" else f"destroy {child.moniker}" for what, child in steps]
