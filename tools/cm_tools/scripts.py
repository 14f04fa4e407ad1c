"""Scripts, read as far as an explanation needs them: manifests, the root, commands, each with its line."""

from __future__ import annotations

from dataclasses import dataclass, field
from pathlib import Path
from urllib.parse import urlsplit

from cm_tools.pointing import Document
from cm_tools.relaxed import Node, SpellingFault, read_relaxed
from cm_tools.rows import items_of

HEADERS = frozenset({"manifest", "builtin", "root"})


@dataclass(frozen=True, slots=True)
class Command:
    """A command line: its number, its lane, and its words."""

    line: int
    lane: int
    words: tuple[str, ...]


@dataclass(slots=True)
class Script:
    """A script: its text and lines, the manifests by their URL as written, the root's URL, the commands."""

    label: str
    text: str
    lines: list[str]
    manifests: dict[str, Document] = field(default_factory=dict)
    root: str = ""
    commands: list[Command] = field(default_factory=list)


def looks_like_script(text: str) -> bool:
    """Whether the first line that counts begins as a script's does."""
    for line in text.split("\n"):
        if line and not line.startswith("#"):
            word = line.split(" ")[0]
            return word in HEADERS or word.isdecimal() or word == "sync"
    return False


def read_script(label: str, text: str) -> Script:
    """The script, leniently: lines that aren't understood are read over."""
    script = Script(label, text, text.split("\n"))
    index = 0
    while index < len(script.lines):
        line = script.lines[index]
        if line.startswith("manifest "):
            index = _read_block(script, index)
        elif line.startswith("root "):
            script.root = line[5:].strip()
        else:
            _read_command(script, index)
        index += 1
    return script


def _read_block(script: Script, index: int) -> int:
    """Keeps the block that begins at this line, and gives the index of the line that closes it."""
    end = next((at for at in range(index + 1, len(script.lines)) if script.lines[at] == "%%"), None)
    stop = len(script.lines) if end is None else end
    text = "".join(line + "\n" for line in script.lines[index + 1 : stop])
    url = script.lines[index][len("manifest ") :]
    script.manifests.setdefault(url, Document(script.label, text, index + 2))
    return stop


def _read_command(script: Script, index: int) -> None:
    words = script.lines[index].split(" ")
    if len(words) > 1 and words[0].isdecimal():
        script.commands.append(Command(index + 1, int(words[0]), tuple(words[1:])))


class Sketch:
    """The realm that a script's manifests describe, as far as it can be told without running it."""

    def __init__(self, script: Script, repo: str | None = None) -> None:
        self.script = script
        self.repo = Path(repo) if repo else None
        self._values: dict[str, Node | None] = {}

    def document(self, url: str) -> Document | None:
        """The manifest of an absolute URL: from the script, or from the folder."""
        found = self.script.manifests.get(url)
        if found is not None or self.repo is None:
            return found
        parts = urlsplit(url)
        path = self.repo / parts.netloc / parts.path.lstrip("/") / parts.fragment
        try:
            return Document(str(path), path.read_text("utf-8"))
        except (OSError, UnicodeDecodeError):
            return None

    def value(self, url: str) -> Node | None:
        """The manifest's value; None where it is missing or can't be read."""
        if url not in self._values:
            document = self.document(url)
            try:
                self._values[url] = read_relaxed(document.text) if document else None
            except SpellingFault:
                self._values[url] = None
        return self._values[url]

    def url(self, moniker: str) -> str | None:
        """The absolute URL of an instance; None where the way to it can't be told."""
        url, here = self.script.root, "."
        for name in [] if moniker in (".", "/") else moniker.strip("/").split("/"):
            child = self._child_url(url, here, name)
            if child is None:
                return None
            url = url.partition("#")[0] + child if child.startswith("#") else child
            here = name if here == "." else f"{here}/{name}"
        return url

    def creation(self, parent: str, name: str) -> Command | None:
        """The command that creates the child `COLLECTION:NAME` of the parent."""
        wanted = tuple(name.split(":", 1))
        for command in self.script.commands:
            words = command.words
            if words[0] == "create" and len(words) >= 5 and words[2:4] == wanted and words[1] == parent:
                return command
        return None

    def _child_url(self, url: str, here: str, name: str) -> str | None:
        if ":" in name:
            command = self.creation(here, name)
            return command.words[4] if command else None
        root = self.value(url)
        children = items_of(root, "children") if root else []
        return next((one.text("url") for one in children if one.text("name") == name), None)
