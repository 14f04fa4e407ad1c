"""What a runner reads of a manifest: the program, and at which paths something is used.

Nothing that is granted rests on this reading: each connection and each directory is asked for at the
manager, which has read the manifest itself. Only what is executed comes from here.
"""

from __future__ import annotations

import functools
import hashlib
import os
import re
from dataclasses import dataclass
from pathlib import Path
from typing import NamedTuple
from urllib.parse import urlsplit

from cm_tools.relaxed import Node, SpellingFault, read_relaxed

# What stands in each sandbox, where no use may stand.
RESERVED = ("usr", "bin", "sbin", "lib", "lib64", "proc", "dev", "tmp", "pkg", "out")
KINDS = ("protocol", "directory", "storage")
FIELDS = ("runner", "binary", "args", "environ", "lifecycle")
STOP_EVENTS = ("notify", "ignore")
LONGEST_MANIFEST = 1 << 20
PORT = re.compile(r":\d*\Z")


class Unfit(Exception):
    """The program can't be started; the text says why, in one line."""


@dataclass(frozen=True)
class Use:
    """What a component uses, and at which path. `source` is the word of `from`."""

    kind: str
    path: str
    source: str


@dataclass(frozen=True)
class Program:
    """A program that can be started: its package's folder, its words, and what it uses.

    `notify` says that it is told of a stop by TERM, and has two seconds then; else it is killed at once.
    """

    package: Path
    binary: str
    args: tuple[str, ...]
    environ: tuple[tuple[str, str], ...]
    notify: bool
    uses: tuple[Use, ...]


@dataclass(frozen=True)
class Declared:
    """What the tree has to know of a manifest: children with URLs, collections with their durability."""

    children: dict[str, str]
    collections: dict[str, str]


@dataclass(frozen=True)
class Repo:
    """Two folders of one form: that of the packages, and that of their manifests as the component manager
    reads them, with their shards. It is the same folder where there are none.
    """

    packages: Path
    manifests: Path

    @staticmethod
    def of(packages: str | Path, manifests: str | Path = "") -> Repo:
        """A folder of packages, with its own manifests where none are named."""
        return Repo(Path(packages), Path(manifests or packages))


@functools.lru_cache(maxsize=4096)
def place_of(repo: Repo, url: str) -> tuple[Path, Path]:
    """The package's folder and the manifest's file."""
    try:
        parts = urlsplit(url)
    except ValueError:
        raise Unfit(f"{url} is no URL") from None
    path, host = parts.path.removeprefix("/"), PORT.sub("", parts.netloc.rpartition("@")[2])
    if any(part in ("", ".", "..") for part in f"{host}/{path}/{parts.fragment}".split("/")):
        raise Unfit(f"{url} names no manifest")
    return repo.packages / host / path, repo.manifests / host / path / parts.fragment


@dataclass(frozen=True)
class Manifest:
    """A manifest as a value, and what the tree has to know of it. A parent's is asked for with each child."""

    node: Node
    declared: Declared


class Digest(NamedTuple):
    """How many bytes a manifest has, and what tells them from others."""

    size: int
    sum: bytes


class Known:
    """Manifests by their files as they were read, so that none is read again before its file has changed.
    They are let go where the files have more than so many bytes together."""

    MOST_BYTES, MOST_DIGESTS = 16 << 20, 20_000

    def __init__(self) -> None:
        self.manifests: dict[tuple[Path, int, int], Manifest] = {}
        self.digests: dict[tuple[Path, int, int], Digest] = {}
        self.bytes = 0

    def take(self, place: Path) -> Manifest | None:
        """The manifest of a file; None where the file is too large."""
        state = os.stat(place)
        key = place, state.st_mtime_ns, state.st_size
        found = self.manifests.get(key)
        if found is None and state.st_size <= LONGEST_MANIFEST:
            if self.bytes > self.MOST_BYTES:
                self.manifests.clear()
                self.bytes = 0
            node = read_relaxed(place.read_text("utf-8"))
            found = self.manifests[key] = Manifest(node, _declared(node))
            self.bytes += state.st_size
        return found


    def digest(self, place: Path) -> Digest:
        """What tells the bytes of a file from others."""
        state = os.stat(place)
        key = place, state.st_mtime_ns, state.st_size
        found = self.digests.get(key)
        if found is None:
            if len(self.digests) > self.MOST_DIGESTS:
                self.digests.clear()
            read = place.read_bytes()
            found = self.digests[key] = Digest(len(read), hashlib.sha256(read).digest())
        return found


NOTHING = Digest(0, b"")
_known = Known()


def _manifest(repo: Repo, url: str) -> tuple[Path, Manifest]:
    """A manifest, and its package's folder."""
    package, place = place_of(repo, url)
    try:
        found = _known.take(place)
        if found is None:
            raise Unfit(f"{url} is too large")
        return package, found
    except SpellingFault as fault:
        raise Unfit(f"{url} can't be read: {fault}") from None
    except (OSError, ValueError) as fault:
        raise Unfit(f"{url} can't be read: {getattr(fault, 'strerror', None) or fault}") from None


def digest(repo: Repo, url: str) -> Digest:
    """What tells a manifest from others; one without bytes where it can't be read."""
    try:
        return _known.digest(place_of(repo, url)[1])
    except (Unfit, OSError):
        return NOTHING


def manifest(repo: Repo, url: str) -> Node:
    """A manifest as a value; `Unfit` where it can't be read."""
    return _manifest(repo, url)[1].node


def declared(repo: Repo, url: str) -> Declared:
    """The children and collections that a manifest declares."""
    return _manifest(repo, url)[1].declared


def _declared(found: Node) -> Declared:
    return Declared({one.text("name"): one.text("url") for one in _items(found, "children")},
                    {one.text("name"): one.text("durability") for one in _items(found, "collections")})


def read(repo: Repo, url: str) -> Program:
    """The program of a manifest, or `Unfit`."""
    package, known = _manifest(repo, url)
    found = known.node
    program = found.get("program")
    if program is None or program.kind != "object":
        raise Unfit("the manifest has no program")
    for member in program.members:
        if member.key.value not in FIELDS:
            raise Unfit(f"the program's field {member.key.value} isn't known")
    binary = _text(program, "binary")
    if not binary:
        raise Unfit("the program has no binary")
    if binary.startswith("/") or any(part in ("", ".", "..") for part in binary.split("/")):
        raise Unfit(f"the binary {binary} is no path within the package")
    uses = tuple(_uses(found))
    check_paths(uses)
    check_binary(package, binary)
    return Program(package, binary, _texts(program, "args"), _environ(program), _notify(program), uses)


def check_paths(uses: tuple[Use, ...]) -> None:
    """`Unfit` where a use stands in a folder that each sandbox has, or can't be given at all."""
    for use in uses:
        if use.path.split("/")[1] in RESERVED:
            raise Unfit(f"the use at {use.path} stands in a folder of the sandbox's own")


def check_binary(package: Path, binary: str) -> None:
    """`Unfit` where the binary isn't there, can't be executed, or has an interpreter that isn't there."""
    place = package / binary
    if not place.resolve().is_relative_to(package.resolve()):
        raise Unfit(f"the binary {binary} is a link that leads out of the package")
    if not place.is_file():
        raise Unfit(f"the binary {binary} isn't there")
    if not os.access(place, os.X_OK):
        raise Unfit(f"the binary {binary} may not be executed")
    try:
        with open(place, "rb") as file:
            first = file.read(256).split(b"\n")[0]
    except OSError as fault:
        raise Unfit(f"the binary {binary} can't be read: {fault.strerror}") from None
    if first.startswith(b"#!"):
        words = first[2:].decode(errors="replace").split()
        if not words or not _stands_inside(words[0], package):
            raise Unfit(f"the interpreter of {binary}, {' '.join(words[:1]) or 'none'}, isn't in the sandbox")


def _stands_inside(path: str, package: Path) -> bool:
    """Whether a sandbox has a file there: below /usr and what leads there, or in its package."""
    if path.startswith("/pkg/"):
        return (package / path[5:]).is_file()
    return path.split("/")[1:2] != [] and path.split("/")[1] in ("usr", "bin", "sbin", "lib", "lib64") \
        and Path(path).is_file()


def _items(manifest: Node, section: str) -> list[Node]:
    node = manifest.get(section)
    return [one for one in node.items if one.kind == "object"] if node is not None else []


def _uses(manifest: Node) -> list[Use]:
    found = []
    for item in _items(manifest, "use"):
        for kind in KINDS:
            names = item.get(kind)
            if names is None:
                continue
            for name in names.items if names.kind == "list" else [names]:
                path = item.text("path") or f"/svc/{name.value}"
                found.append(Use(kind, path, item.text("from") or "parent"))
    return [use for use in found if use.path.startswith("/")]


def _text(node: Node, key: str) -> str:
    found = node.get(key)
    if found is not None and found.kind != "text":
        raise Unfit(f"the program's {key} is no text")
    return found.value if found is not None else ""


def _texts(node: Node, key: str) -> tuple[str, ...]:
    found = node.get(key)
    if found is None:
        return ()
    if found.kind != "list" or any(one.kind != "text" or "\0" in one.value for one in found.items):
        raise Unfit(f"the program's {key} is no list of texts")
    return tuple(one.value for one in found.items)


def _environ(program: Node) -> tuple[tuple[str, str], ...]:
    pairs = []
    for text in _texts(program, "environ"):
        name, equals, value = text.partition("=")
        if not name or not equals:
            raise Unfit(f"the program's environ has {text!r}, which isn't NAME=VALUE")
        pairs.append((name, value))
    return tuple(pairs)


def _notify(program: Node) -> bool:
    lifecycle = program.get("lifecycle")
    if lifecycle is None:
        return False
    if lifecycle.kind != "object":
        raise Unfit("the program's lifecycle is no object")
    for member in lifecycle.members:
        if member.key.value != "stop_event":
            raise Unfit(f"the program's field lifecycle.{member.key.value} isn't known")
    word = _text(lifecycle, "stop_event")
    if word not in ("", *STOP_EVENTS):
        raise Unfit(f"the program's stop_event {word} isn't known")
    return word == "notify"
