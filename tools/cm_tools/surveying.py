"""All that a folder of manifests makes of a realm, as the program tells it.

The program is run on a script that resolves every instance that is known, again and again until it tells of
no further one; then it is asked for all routes. Nothing here decides a route: the rows of a manifest are
those of the journal, and what a use comes to is the program's own line.
"""

from __future__ import annotations

import re
import subprocess
from dataclasses import dataclass, field
from pathlib import Path
from typing import Any, Callable

from cm_tools.console import Unusable
from cm_tools.entries import Route
from cm_tools.hops import parent_of
from cm_tools.journal import parse_journal, parse_route
from cm_tools.said import Refusal, read_said
from cm_tools.world import replay

KINDS = ("protocol", "directory", "storage")
SURVEYED = re.compile(r"  (\S+) incarnation [0-9]+ (resolved|unresolved) ")
ROUTED = re.compile(r"  (\S+) (\S+) route (.*)")
UNRESOLVABLE = re.compile(r"0 refused 83 cannot-resolve action [0-9]+ (.*)")
REPLY = re.compile(r"0 [a-z]")
# More rounds than a realm within the program's limits can need.
ROUNDS = 65_536
# What is left out on purpose: a route, a storage, and the directory behind a storage.
VOID_ROUTE = 88
VOIDS = frozenset({VOID_ROUTE, 103, 108})

Row = dict[str, Any]


@dataclass(slots=True)
class Part:
    """An instance: its moniker, the URL of its manifest, and what that declares, or why it can't be read."""

    moniker: str
    url: str
    declared: dict[str, list[Row]] = field(default_factory=dict)
    failure: str = ""


@dataclass(slots=True)
class Use:
    """A use: who uses what at which path, its row, and what the program says of its route.

    `route` is there where it leads somewhere; else `why` is the reason and `step` and `moniker` the hop at
    which it fails, if the program names one. `number` is 0, or that of the refusal. Of a use from `debug` no
    route is told: `registered` has the instance whose manifest registers the protocol, from where, and by
    which name.
    """

    client: str
    path: str
    row: Row
    route: Route | None
    number: int
    why: str
    step: str
    moniker: str
    registered: tuple[str, str, str] | None = None

    @property
    def kind(self) -> str:
        """What is used: `protocol`, `directory` or `storage`."""
        return kind_of(self.row)

    @property
    def name(self) -> str:
        """The name that the client uses it by."""
        return str(self.row.get(self.kind, "")) or self.path

    @property
    def is_required(self) -> bool:
        """Whether the client can't do without it."""
        return self.row.get("availability", "required") == "required"

    @property
    def is_debug(self) -> bool:
        """Whether it is of a debug protocol, of the client's environment."""
        return self.row.get("from") == "debug"

    @property
    def is_given(self) -> bool:
        """Whether it leads somewhere."""
        return self.route is not None or self.registered is not None

    @property
    def is_void(self) -> bool:
        """Whether it is left out on purpose, and the client can do without it."""
        return self.number in VOIDS and (self.number == VOID_ROUTE or not self.is_required)


@dataclass(slots=True)
class Realm:
    """The instances by their monikers, and the uses, in the program's order; the folder and the root.

    `read` is the folder that the program reads: a copy where shards are merged. `commands` are those by which
    children were created.
    """

    folder: Path
    read: Path
    root: str
    commands: list[str]
    parts: dict[str, Part] = field(default_factory=dict)
    uses: list[Use] = field(default_factory=list)

    def file(self, url: str) -> Path:
        """Where the manifest of a URL stands, or would."""
        return self.folder / _path_of(url)

    def read_file(self, url: str) -> Path:
        """The file that the program reads of it."""
        return self.read / _path_of(url)


def _path_of(url: str) -> Path:
    front, _, fragment = url.partition("#")
    return Path(front.partition("://")[2].strip("/"), fragment)


def url_of(path: Path) -> str | None:
    """The URL of a manifest by its path in the folder: its fragment begins at `meta`; None where it has none.
    """
    parts = path.parts
    if "meta" not in parts[1:]:
        return None
    at = parts.index("meta", 1)
    return f"fuchsia-pkg://{'/'.join(parts[:at])}#{'/'.join(parts[at:])}"


def kind_of(row: Row) -> str:
    """What a row is about."""
    return next((kind for kind in KINDS if kind in row), "")


def surveyed(
    program: Path, folders: tuple[Path, Path], header: list[str], commands: list[str]
) -> tuple[Realm, Callable[[str], list[str]]]:
    """The realm of a folder under the lines of a script's header, behind further commands such as creates;
    and what gives the lines of one of the program's reports on it.

    The second folder is the one that the program reads, the first one itself or a copy.
    """
    runner = Runner(program, folders[1], header, commands)
    known, failures = ["."], {}
    for _ in range(ROUNDS):
        told = runner.run([f"resolve {moniker}" for moniker in known if moniker not in failures], False)
        failures.update(told.failures)
        fresh = [moniker for moniker in told.unresolved if moniker not in failures]
        known = told.monikers
        if not fresh:
            break
    resolves = [f"resolve {moniker}" for moniker in known if moniker not in failures]
    realm = realm_of(runner.run(resolves, True), folders, failures, commands)
    return realm, lambda word: runner.report(word, resolves)


@dataclass(slots=True)
class _Told:
    """What one run told."""

    monikers: list[str]
    unresolved: list[str]
    failures: dict[str, str]
    checked: list[str]
    text: bytes


class Runner:
    """Runs the program on scripts over one folder."""

    def __init__(self, program: Path, folder: Path, header: list[str], commands: list[str]) -> None:
        self.program, self.folder = program, folder
        self.header, self.commands = header, commands

    def run(self, resolves: list[str], is_last: bool) -> _Told:
        """Runs the commands, and a report on all; the last time with all routes and the journal too."""
        asked = [*resolves[:1], *self.commands, *resolves[1:]]
        lines = [*self.header, *(f"0 {command}" for command in asked), "0 survey ."]
        lines += ["0 doctor ."] if is_last else []
        return _read(self._ran(["run", "--journal"] if is_last else ["run"], lines), asked)

    def report(self, word: str, resolves: list[str]) -> list[str]:
        """The lines of one of the program's reports, behind the commands."""
        asked = [*resolves[:1], *self.commands, *resolves[1:]]
        told = self._ran([word], [*self.header, *(f"0 {command}" for command in asked)])
        return told.decode("utf-8", "replace").split("\n")

    def _ran(self, words: list[str], lines: list[str]) -> bytes:
        """What the program prints of a script of these lines."""
        command: list[str | Path] = [self.program, *words, "--repo", self.folder]
        script = "".join(line + "\n" for line in lines).encode()
        ran = subprocess.run(command, input=script, capture_output=True, check=False)
        if ran.returncode:
            raise Unusable(_refused(ran, lines))
        return ran.stdout


def _refused(ran: subprocess.CompletedProcess[bytes], lines: list[str]) -> str:
    """Why the program didn't run the script: its own line, with the script's."""
    told = ran.stderr.decode("utf-8", "replace").strip().split("\n")[-1]
    line = re.match(r"line ([0-9]+): ", told)
    at = int(line[1]) if line else 0
    shown = f" ({lines[at - 1]})" if 0 < at <= len(lines) else ""
    return f"the program ended with status {ran.returncode}: {told}{shown}"


def _read(text: bytes, asked: list[str]) -> _Told:
    """The replies of a run: one for each command, then the report, and all routes where they were asked."""
    told = _Told([], [], {}, [], text)
    count = -1
    for line in text.decode("utf-8", "replace").split("\n"):
        if line == "journal":
            break
        if REPLY.match(line):
            count += 1
        refused = UNRESOLVABLE.match(line)
        if refused and 0 <= count < len(asked) and asked[count].startswith("resolve "):
            told.failures[asked[count].split(" ")[1]] = refused[1]
        elif line.startswith("0 refused ") and count < len(asked):
            raise Unusable(f"{asked[count]}: {line[2:]}")
        elif line.startswith("  ") and count == len(asked):
            found = SURVEYED.match(line)
            if found:
                told.monikers.append(found[1])
                told.unresolved += [found[1]] if found[2] == "unresolved" else []
        elif line.startswith("  ") and count > len(asked):
            told.checked.append(line)
    return told


def realm_of(
    told: _Told, folders: tuple[Path, Path], failures: dict[str, str], commands: list[str]
) -> Realm:
    """The realm of the last run."""
    journal = parse_journal(told.text)
    world = replay(journal)
    realm = Realm(*folders, journal.root, commands)
    for instance in world.instances.values():
        if not instance.is_destroyed:
            url = instance.absolute or _absolute(instance.url, realm, instance.moniker)
            part = Part(instance.moniker, url, instance.declared(), failures.get(instance.moniker, ""))
            realm.parts[instance.moniker] = part
    for line in told.checked:
        use = _use(line, realm)
        if use is not None:
            realm.uses.append(use)
    return realm


def _absolute(url: str, realm: Realm, moniker: str) -> str:
    """The URL of an instance that isn't resolved; one that begins with `#` is one of its parent's package."""
    above = realm.parts.get(parent_of(moniker))
    return above.url.partition("#")[0] + url if url.startswith("#") and above else url


def _use(line: str, realm: Realm) -> Use | None:
    """What a line of the check of all routes says; None where it is of an instance that isn't resolved."""
    said, found = read_said(line), ROUTED.fullmatch(line)
    if isinstance(said, Refusal) and said.client:
        row = _row(realm, said.client, said.path)
        return Use(said.client, said.path, row, None, said.number, said.words, said.step, said.moniker)
    if found is None:
        return None
    client, path, route = found[1], found[2], parse_route(found[3])
    return Use(client, path, _row(realm, client, path), route, 0, "" if route else found[3], "", "")


def _row(realm: Realm, client: str, path: str) -> Row:
    """The row of a use by its path."""
    rows = realm.parts[client].declared.get("use", []) if client in realm.parts else []
    return next((row for row in rows if row.get("path") == path), {})
