"""What the words `environments` and `storage` of the component manager tell of an instance.

Whose runner a start gets, and where a storage lies, are the manager's rules alone. It is asked by a script
that resolves the instance with all above it. That happens in a world of its own: nothing is launched there.
"""

from __future__ import annotations

import asyncio
import subprocess
from typing import TYPE_CHECKING, Iterable

from cm_tools.host import programs
from cm_tools.host.programs import Repo, Unfit
from cm_tools.host.starts import Starts, plain_environment
from cm_tools.host.tree import child_of
from cm_tools.relaxed import Node
from cm_tools.values import value_of, written

if TYPE_CHECKING:
    from cm_tools.host.tree import Tree

# Above the root stands the host. Its environment has the runner that the host has.
TOP = "fuchsia-pkg://host.invalid/top#meta/top.cm"
RUNNERS = ("elf",)
# How long an answer may take, in seconds.
PATIENCE = 60.0


class Reports:
    """Asks for reports on scripts. `words` are those that the component manager knows."""

    def __init__(self, program: str, repo: Repo, tree: Tree, starts: Starts) -> None:
        self.program, self.repo, self.tree, self.starts = program, repo, tree, starts
        self.words = known_words(program)

    def knows(self, word: str) -> bool:
        """Whether the component manager has the report of this word."""
        return word in self.words

    async def lines(self, word: str, script: Iterable[str]) -> list[str]:
        """The lines of a report on a script; `Unfit` where there is none."""
        text = "".join(line + "\n" for line in script).encode()
        words = (self.program, word, "--repo", str(self.repo.manifests))
        try:
            told, status = await self.starts.said(words, text, PATIENCE)
        except asyncio.TimeoutError:
            raise Unfit(f"the component manager's word {word} doesn't answer") from None
        if status:
            raise Unfit(f"the component manager's word {word} ends with status {status}")
        return told.decode("utf-8", "replace").splitlines()

    def script(self, monikers: Iterable[str]) -> list[str]:
        """A script that resolves instances, with all above them."""
        names = list(monikers)
        lines = [f"root {self.tree.root}"]
        for what, child in self.tree.needed_by(names):
            lines.append("0 " + (child.command() if what == "create" else f"destroy {child.moniker}"))
        return lines + [f"0 resolve {name}" for name in names]

    def script_below_the_host(self, monikers: Iterable[str], changed: dict[str, str]) -> list[str]:
        """The same below the environment of the host, as `beneath` names them; with these manifests in the
        place of others, by their URLs."""
        names = list(monikers)
        blocks = {TOP: top_manifest(self.tree.root), **changed}
        lines = [line for url, text in blocks.items()
                 for line in (f"manifest {url}", *text.splitlines(), "%%")]
        lines.append(f"root {TOP}")
        for what, child in self.tree.needed_by(names):
            lines.append("0 " + (child.command(beneath(child.parent)) if what == "create"
                                 else f"destroy {beneath(child.moniker)}"))
        return lines + [f"0 resolve {beneath(name)}" for name in names]


def known_words(program: str) -> frozenset[str]:
    """The words that a component manager's usage line tells."""
    try:
        told = subprocess.run([program], stdin=subprocess.DEVNULL, capture_output=True, timeout=PATIENCE,
                              env=plain_environment(), check=False)
    except (OSError, subprocess.TimeoutExpired):
        return frozenset()
    text = (told.stdout + told.stderr).decode("utf-8", "replace").partition("\n")[0]
    return frozenset(text.removeprefix("usage: ").split(", ")) if text.startswith("usage: ") else frozenset()


def top_manifest(root: str) -> str:
    """The manifest of the host, whose child is the root."""
    runners = [{"runner": name, "from": "parent"} for name in RUNNERS]
    return written({"children": [{"name": "root", "url": root, "environment": "#host"}],
                    "environments": [{"name": "host", "runners": runners}]})


def beneath(moniker: str) -> str:
    """The moniker of an instance where the host stands above the root."""
    return "root" if moniker == "." else child_of("root", moniker)


def with_runner(manifest: Node, name: str) -> str:
    """A manifest with a program that wants this runner, in the place of its own."""
    value = value_of(manifest)
    value["program"] = {"runner": name}
    return written(value)


def manifest_with_runner(repo: Repo, url: str, name: str) -> str:
    """The manifest of a URL with a program that wants this runner."""
    return with_runner(programs.manifest(repo, url), name)
