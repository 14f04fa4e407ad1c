"""Packages for somebody's own program, and a unit that starts a host."""

from __future__ import annotations

import json
import os
import re
import shlex
import shutil
from pathlib import Path
from typing import Any

from cm_tools.console import Unusable
from cm_tools.host import programs
from cm_tools.relaxed import SpellingFault, read_relaxed

NAME = re.compile(r"[a-z0-9][a-z0-9_.-]{0,99}\Z")
PROTOCOL = re.compile(r"[A-Za-z0-9_][A-Za-z0-9_.-]{0,254}\Z")
WRITTEN = "// Written by `tools/host new`, which writes it anew with each further package.\n"
HOST = "local"


def url_of(name: str) -> str:
    """The URL of a package that was written here."""
    return f"fuchsia-pkg://{HOST}/{name}#meta/{name}.cm"


def make(repo: Path, name: str, command: list[str], uses: list[str], provides: list[str]) -> list[str]:
    """Writes a package for a command, and the root of all packages here. What is told of it. Where it can't
    be written nothing of it stays."""
    check_words(name, command, uses, provides)
    root, package = repo / HOST / "root/meta/root.cm", repo / HOST / name
    if root.exists() and not root.read_text("utf-8", "replace").startswith(WRITTEN):
        raise Unusable(f"{root} wasn't written by this tool")
    if package.exists():
        raise Unusable(f"{package} is there already: remove it, or take another name")
    program = _program(command[0])
    try:
        _write(package, name, program, command[1:], uses, provides)
        programs.read(programs.Repo.of(repo), url_of(name))
        return told(name, uses, provides, write_root(repo, name)) + missing(package, command[1:])
    except BaseException:
        shutil.rmtree(package, ignore_errors=True)
        raise


def check_words(name: str, command: list[str], uses: list[str], provides: list[str]) -> None:
    """Refuses words from which no manifest can be made."""
    if not NAME.match(name) or name == "root":
        raise Unusable(f"{_shown(name)} can't be the name of a component: that is small letters, digits and "
                       "_ . -, at most 100, and not root")
    for one in (*uses, *provides):
        if not PROTOCOL.match(one):
            raise Unusable(f"{_shown(one)} can't be the name of a protocol: that is letters, digits and "
                           "_ . -, at most 255")
        if (*uses, *provides).count(one) > 1:
            raise Unusable(f"{one} is said twice: a protocol is used or provided once, and not both")
    for word in command:
        if _shown(word) != word:
            raise Unusable(f"{_shown(word)} is no text of UTF-8, so no manifest can have it")


def _shown(word: str) -> str:
    """A word as it can be printed."""
    return word.encode("utf-8", "replace").decode()


def _write(package: Path, name: str, program: Path, words: list[str], uses: list[str],
           provides: list[str]) -> None:
    (package / "meta").mkdir(parents=True)
    (package / "bin").mkdir()
    _put(package / "bin" / name, program)
    manifest: dict[str, Any] = {"program": {"runner": "elf", "binary": f"bin/{name}", "args": words,
                                            "lifecycle": {"stop_event": "notify"}}}
    if uses:
        manifest["use"] = [{"protocol": one} for one in uses]
    if provides:
        manifest["capabilities"] = [{"protocol": one} for one in provides]
        manifest["expose"] = [{"protocol": one, "from": "self"} for one in provides]
    (package / "meta" / f"{name}.cm").write_text(json.dumps(manifest, indent=4) + "\n", "utf-8")


def told(name: str, uses: list[str], provides: list[str], sources: dict[str, str]) -> list[str]:
    """What a person has to know of a new package."""
    lines = [f"{name} can open:"]
    for one in uses:
        where = f"of {sources[one]}" if one in sources else "which nobody provides yet, so it is refused"
        lines.append(f"  /svc/{one}  {where}")
    if not uses:
        lines.append("  nothing, but its package /pkg, its own folder /out, /usr and its own memory in /tmp")
    for one in provides:
        lines.append(f"others reach it as {one}, for which it listens at /out/svc/{one}")
    return lines


def missing(package: Path, words: list[str]) -> list[str]:
    """A line for each word that names a file here which the program won't see."""
    return [f"{word} isn't in its package: copy it to {package}, where the program runs, as /pkg"
            for word in words if os.path.isfile(word) and not _is_everywhere(Path(os.path.abspath(word)))]


def _program(word: str) -> Path:
    """The program that a command names."""
    found = shutil.which(word)
    if found is None:
        raise Unusable(f"{word} is no program that can be run")
    place = Path(os.path.abspath(found))
    # No sandbox has /etc/alternatives, to which some lead.
    leads_to = Path(os.path.abspath(place.parent / place.readlink())) if place.is_symlink() else place
    return place if _is_everywhere(place) and _is_everywhere(leads_to) else place.resolve()


def _is_everywhere(place: Path) -> bool:
    """Whether each sandbox has it."""
    return place.parts[1:2] != () and place.parts[1] in ("usr", "bin", "sbin", "lib", "lib64")


def _put(place: Path, program: Path) -> None:
    """Puts a program into a package: a copy, or a script that starts what each sandbox has."""
    if _is_everywhere(program):
        place.write_text(f"#!/bin/sh\nexec {shlex.quote(str(program))} \"$@\"\n", "utf-8")
    else:
        shutil.copyfile(program, place)
    place.chmod(0o755)


def write_root(repo: Path, new: str) -> dict[str, str]:
    """Writes the root of all packages, one of which is new: a child each, and an offer of what each uses and
    another provides. Who provides what."""
    names = sorted(place.parent.parent.name for place in (repo / HOST).glob("*/meta/*.cm")
                   if place.stem == place.parent.parent.name != "root")
    uses = {name: _protocols(repo, name, "use") for name in names}
    sources: dict[str, str] = {}
    for name in sorted(names, key=lambda name: (name == new, name)):
        for one in _protocols(repo, name, "expose"):
            if name == new and one in sources:
                raise Unusable(f"{one} is provided by {sources[one]} already")
            sources.setdefault(one, name)
    check_circle(new, uses, sources)
    targets = {one: [f"#{name}" for name in names if one in uses[name] and name != source]
               for one, source in sources.items()}
    root = {"children": [{"name": name, "url": url_of(name)} for name in names],
            "offer": [{"protocol": one, "from": f"#{sources[one]}", "to": found}
                      for one, found in sorted(targets.items()) if found]}
    place = repo / HOST / "root/meta/root.cm"
    place.parent.mkdir(parents=True, exist_ok=True)
    place.write_text(WRITTEN + json.dumps(root, indent=4) + "\n", "utf-8")
    return sources


def _protocols(repo: Path, name: str, section: str) -> list[str]:
    """The protocols that a manifest uses or exposes."""
    place = repo / HOST / name / "meta" / f"{name}.cm"
    try:
        node = read_relaxed(place.read_text("utf-8")).get(section)
    except (SpellingFault, ValueError) as fault:
        raise Unusable(f"{place} can't be read: {fault}") from None
    found = [item.text("protocol") for item in node.items] if node is not None else []
    return [one for one in found if one]


def check_circle(new: str, uses: dict[str, list[str]], sources: dict[str, str]) -> None:
    """Refuses a new component with which some depend on each other in a circle: no manager takes such a
    root."""
    seen, more = {new}, [new]
    while more:
        name = more.pop()
        for one in uses[name]:
            source = sources.get(one, name)
            if source == new != name:
                raise Unusable(f"{new} and {name} would depend on each other, in a circle that no root may "
                               f"have: {name} uses {one}")
            if source not in seen:
                seen.add(source)
                more.append(source)


def unit(tool: Path, python: str, program: str, words: list[str]) -> str:
    """A unit for `systemd --user`, which starts a host with these words."""
    command = " ".join(_quoted(word) for word in (python, str(tool), *words))
    return f"""[Unit]
Description=Components in sandboxes

[Service]
Type=exec
Environment={_quoted(f"COMPONENT_MANAGER={program}")}
ExecStart={command}
# An end in order takes as long as the programs that don't heed their stop.
KillMode=mixed
TimeoutStopSec=200
Restart=on-failure
# A cgroup for each instance.
Delegate=memory pids cpu

[Install]
WantedBy=default.target
"""


def _quoted(word: str) -> str:
    """A word as a unit has it: a percent sign and a dollar would be read."""
    return '"' + word.replace("\\", "\\\\").replace('"', '\\"').replace("%", "%%").replace("$", "$$") + '"'
