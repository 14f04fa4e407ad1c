"""Random realms and commands, for programs that try the component manager on many of them.

A `Case` is a realm's manifests, what stands above its root, and the lines of a script: each a lane and a
command, or `sync`. The same generator of random numbers makes the same case. Most manifests are valid and
most commands name what is there, so that much is granted, and some aren't and don't.
"""

import json
import os
from dataclasses import dataclass, replace

PACKAGE = "fuchsia-pkg://t/a#meta/"
PROTOCOLS = ("p", "q", "r")
DIRECTORIES = ("d", "e")
RIGHTS = (["r*"], ["rw*"], ["connect", "read_bytes"], ["rx*"], ["w*"], ["connect"])
WORDS = "optional", "transitional", "same_as_target"
# The most instances of a realm that commands name by their monikers.
KNOWN = 40


@dataclass(frozen=True)
class Case:
    """Manifests by the last part of their URL, the lines of builtins, and those of commands."""

    manifests: dict
    builtins: tuple
    lines: tuple

    def commands(self, lane=None):
        """The commands of a lane in order, or those of all lanes."""
        pairs = (line.split(" ", 1) for line in self.lines if line != "sync")
        return [command for number, command in pairs if lane in (None, int(number))]

    def script(self, brings_manifests=True):
        """The script's text, with its manifests or without."""
        blocks = [f"manifest {PACKAGE}{name}\n{text}\n%%\n" for name, text in self.manifests.items()]
        head = [*self.builtins, f"root {PACKAGE}m0.cm"]
        return "".join(blocks if brings_manifests else []) + "\n".join([*head, *self.lines]) + "\n"

    def write(self, folder):
        """Writes the manifests into a folder of packages."""
        place = os.path.join(folder, "t", "a", "meta")
        os.makedirs(place, exist_ok=True)
        for name, text in self.manifests.items():
            with open(os.path.join(place, name), "w", encoding="utf-8") as file:
                file.write(text)

    def in_one_lane(self):
        """The same commands, all in lane 0, with nothing above the root: as a session has them."""
        lines = tuple(f"0 {command}" for command in self.commands())
        return replace(self, builtins=(), lines=lines)


def random_case(random, lanes, commands):
    """A realm with so many commands, spread over so many lanes."""
    count = random.randint(2, 9)
    manifests = [Manifest(random, number, count) for number in range(count)]
    names = Names(random, manifests)
    lines = []
    for _ in range(commands):
        lines.append(f"{random.randrange(lanes)} {names.command()}")
        if lanes > 1 and random.random() < 0.05:
            lines.append("sync")
    builtins = [f"builtin protocol {name}" for name in PROTOCOLS if random.random() < 0.4]
    if random.random() < 0.3:
        builtins.append("builtin directory d /above/d r*")
    texts = {f"m{it.number}.cm": it.text() for it in manifests}
    if random.random() < 0.2:
        texts.pop(f"m{random.randrange(1, count)}.cm")
    return Case(texts, tuple(builtins), tuple(lines))


class Manifest:
    """One manifest of a realm: its children have manifests of higher numbers, so that no realm is endless."""

    def __init__(self, random, number, count):
        self.random, self.number = random, number
        # The root's manifest is always valid, so that there is a realm.
        self.is_rash = number > 0 and random.random() < 0.15
        below = range(number + 1, count)
        self.children = {
            name: random.choice(below) for name in "abc"[: random.randint(0, 3)] if len(below) > 0
        }
        kinds = ("transient", "single_run")
        self.collections = {name: random.choice(kinds) for name in "kl"[: random.randint(0, 2)]}
        self.protocols = [name for name in PROTOCOLS if random.random() < 0.5]
        self.directories = [name for name in DIRECTORIES if random.random() < 0.4]
        self.has_storage = bool(self.directories) and random.random() < 0.4
        self.has_environment = random.random() < 0.4
        self.uses = self._uses()

    def text(self):
        """The manifest's text; some are no manifest at all."""
        if self.is_rash and self.random.random() < 0.2:
            return "{"
        sections = {
            "children": self._children(),
            "collections": self._collections(),
            "capabilities": self._capabilities(),
            "use": [row for row, _ in self.uses],
            "offer": self._offers(),
            "expose": self._exposes(),
            "environments": self._environments(),
        }
        value = {name: rows for name, rows in sections.items() if rows}
        if self.random.random() < 0.8:
            value["program"] = {"runner": "elf"}
        return json.dumps(value, indent=self.random.choice((None, 1)))

    def paths(self):
        """The paths of its uses."""
        return [path for _, path in self.uses]

    def _environment(self):
        has = self.has_environment and self.random.random() < 0.5
        return {"environment": "#env"} if has else {}

    def _children(self):
        urls = {name: f"#meta/m{number}.cm" for name, number in self.children.items()}
        if self.is_rash:
            urls = {name: self.random.choice((url, "x", f"{PACKAGE}none.cm")) for name, url in urls.items()}
        eager = lambda: {"startup": "eager"} if self.random.random() < 0.3 else {}
        return [{"name": name, "url": url, **eager(), **self._environment()} for name, url in urls.items()]

    def _collections(self):
        words = ("static_only", "static_and_dynamic", "static_and_dynamic")
        offers = lambda: {"allowed_offers": self.random.choice(words), **self._environment()}
        return [{"name": name, "durability": kind, **offers()} for name, kind in self.collections.items()]

    def _capabilities(self):
        rows = [{"protocol": name} for name in self.protocols]
        rows += [
            {"directory": name, "path": f"/data/{name}", "rights": self.random.choice(RIGHTS)}
            for name in self.directories
        ]
        if self.has_storage:
            ids = ("static_instance_id", "static_instance_id_or_moniker")
            row = {"storage": "s", "from": "self", "backing_dir": self.directories[0]}
            rows.append({**row, "storage_id": self.random.choice(ids)})
        return rows

    def _uses(self):
        """What is used, each with its path."""
        found = []
        for name in PROTOCOLS:
            if self.random.random() < 0.5:
                found.append(({"protocol": name, **self._used_from(name)}, f"/svc/{name}"))
        for name in DIRECTORIES:
            if self.random.random() < 0.4:
                row = {"directory": name, "path": f"/in/{name}", "rights": self.random.choice(RIGHTS)}
                found.append((row, f"/in/{name}"))
        if self.random.random() < 0.3:
            found.append(({"storage": "s", "path": "/store"}, "/store"))
        return found

    def _used_from(self, name):
        """Where a protocol is used from, so that nothing needs itself."""
        choices = [{}, {}, {}, {"availability": "optional"}, {"dependency": "weak"}, {"from": "framework"}]
        choices += [{"from": f"#{child}", "dependency": "weak"} for child in self.children]
        choices += [{"from": "self"}] if name in self.protocols else []
        choices += [{"from": "debug"}] if self.has_environment else []
        choices += [{"from": "#nobody"}, {"path": "/svc/p"}] if self.is_rash else []
        return self.random.choice(choices)

    def _offers(self):
        """What is offered to children and collections; among children from the earlier to the later ones."""
        rows = []
        targets = [*self.children, *self.collections]
        for place, target in enumerate(targets):
            for kind, names in (("protocol", PROTOCOLS), ("directory", DIRECTORIES)):
                for name in names:
                    if self.random.random() < 0.6:
                        declared = name in (*self.protocols, *self.directories)
                        row = {kind: name, "to": f"#{target}"}
                        rows.append({**row, **self._offered_from(kind, declared, targets[:place])})
            if self.random.random() < 0.4:
                source = "self" if self.has_storage else "parent"
                rows.append({"storage": "s", "from": source, "to": f"#{target}"})
        return rows

    def _offered_from(self, kind, declared, earlier):
        choices = [{"from": "parent"}, {"from": "void", "availability": "optional"}]
        choices += [{"from": "self"}] * 4 if declared else [{"from": "parent"}] * 3
        choices += [{"from": f"#{child}"} for child in earlier if child in self.children]
        choices += [{"from": "framework"}] if kind == "protocol" else []
        choices += [{"from": "#nobody"}, {"from": "self"}] if self.is_rash else []
        found = self.random.choice(choices)
        if "availability" not in found and self.random.random() < 0.15:
            found = {**found, "availability": self.random.choice(WORDS)}
        if kind == "directory" and self.random.random() < 0.2:
            found = {**found, "rights": self.random.choice(RIGHTS), "subdir": "sub"}
        return {**found, "dependency": "weak"} if self.random.random() < 0.2 else found

    def _exposes(self):
        rows = []
        for kind, names, own in (
            ("protocol", PROTOCOLS, self.protocols),
            ("directory", DIRECTORIES, self.directories),
        ):
            for name in names:
                sources = ["self"] * 3 if name in own else []
                sources += [f"#{child}" for child in self.children]
                if sources and self.random.random() < 0.6:
                    rows.append({kind: name, "from": self.random.choice(sources)})
        return rows

    def _environments(self):
        if not self.has_environment:
            return []
        runners = [{"runner": "elf", "from": "parent", "as": "other"}]
        debug = [{"protocol": name, "from": "self"} for name in self.protocols[:1]]
        extends = self.random.choice(("none", "realm"))
        return [{"name": "env", "extends": extends, "runners": runners, "debug": debug}]


class Names:
    """Commands about a realm: what it has by its manifests, and what was created."""

    def __init__(self, random, manifests):
        self.random, self.manifests = random, manifests
        self.places = [("", manifests[0])]
        self.started = []
        for moniker, manifest in self.places:
            for name, number in manifest.children.items():
                self._add(f"{moniker}/{name}" if moniker else name, number)

    def _add(self, moniker, number):
        if len(self.places) < KNOWN and all(moniker != known for known, _ in self.places):
            self.places.append((moniker, self.manifests[number]))

    def _target(self):
        """An instance as a command names it, and what its manifest may be."""
        moniker, manifest = self.random.choice(self.places)
        chance = self.random.random()
        if chance < 0.08:
            return f"@{self.random.randrange(14)}", manifest
        if chance < 0.11:
            return f"{moniker}/none".lstrip("/"), manifest
        if chance < 0.16:
            return f"/{moniker}", manifest
        return moniker or ".", manifest

    def command(self):
        """A random command."""
        weights = {
            "start": 14, "show": 8, "open": 14, "open-exposed": 7, "route": 12, "create": 14, "destroy": 7,
            "list": 5, "stop": 7, "exited": 5, "resolve": 6, "survey": 3, "doctor": 3, "events": 8,
            "shutdown": 1,
        }
        word = self.random.choices([*weights], [*weights.values()])[0]
        target, manifest = self._target_of(word)
        if word == "start":
            self.started.append((target, manifest))
        return " ".join([word, target, *self._further(word, target, manifest)])

    def _target_of(self, word):
        """An instance that a command is mostly about: what was created is destroyed, and what runs opens."""
        created = [(moniker, manifest) for moniker, manifest in self.places if ":" in moniker.split("/")[-1]]
        if word == "destroy" and created and self.random.random() < 0.8:
            return self.random.choice(created)
        if word == "open" and self.started and self.random.random() < 0.8:
            return self.random.choice(self.started)
        return self._target()

    def _further(self, word, target, manifest):
        """The words of a command behind its target."""
        pick = self.random.choice
        if word in ("open", "route"):
            return [pick([*manifest.paths() * 4, "/svc/p", "/in/d", "/none"])]
        if word == "open-exposed":
            return [pick(PROTOCOLS + DIRECTORIES)]
        if word == "list":
            return [pick([*manifest.collections] * 4 + ["k"])]
        if word == "events":
            return [str(self.random.choice((0, 0, self.random.randrange(80))))]
        return self._created(target, manifest) if word == "create" else []

    def _created(self, target, manifest):
        """A child that is to be created: the collection, its name and URL, and what it is offered."""
        coll = self.random.choice([*manifest.collections] * 6 + ["k"])
        name, number = f"c{self.random.randrange(4)}", self.random.randrange(1, len(self.manifests))
        if coll in manifest.collections and not target.startswith("@"):
            self._add(f"{target.strip('./')}/{coll}:{name}".lstrip("/"), number)
        words = [coll, name, f"#meta/m{number}.cm"]
        for _ in range(self.random.choice((0, 0, 1, 2))):
            words += self._group(manifest)
        return words

    def _group(self, manifest):
        sources = ["parent", "self", "framework", "void", *(f"#{child}" for child in manifest.children)]
        words = ["+", "protocol", self.random.choice(PROTOCOLS), self.random.choice(sources)]
        words += ["weak"] if self.random.random() < 0.3 else []
        return words + (["optional"] if words[3] == "void" or self.random.random() < 0.1 else [])
