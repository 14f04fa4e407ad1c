"""What the runs of a host share: a folder of packages, a host in a process of its own, and what it left."""

from __future__ import annotations

import contextlib
import json
import os
import re
import shutil
import signal
import socket
import subprocess
import sys
import tempfile
import time
import unittest
from pathlib import Path
from typing import Any, Callable

from cm_tools.host.front import RUNNER
from cm_tools.meeting import connected

TOOLS = Path(__file__).resolve().parent.parent.parent
EXAMPLE = TOOLS.parent / "examples/host"
ROOT = "fuchsia-pkg://demo/root#meta/root.cm"
# A folder below this one has sockets in it, whose paths may not be long.
LONGEST_PLACE = 60
# All waits are that patient, in seconds: other work may fill the machine.
PATIENCE = 240.0


def program() -> str:
    """The component manager that the runs take."""
    return os.environ["COMPONENT_MANAGER"]


def folder() -> Path:
    """A new folder with a short path, for this user alone."""
    usual = tempfile.gettempdir()
    return Path(tempfile.mkdtemp(prefix="host-", dir=usual if len(usual) <= LONGEST_PLACE else "/tmp"))


def package(repo: Path, name: str, manifest: str, script: str = "", host: str = "t") -> str:
    """Writes a package of one manifest and one program, `bin/x`. Its URL."""
    place = repo / host / name
    (place / "meta").mkdir(parents=True, exist_ok=True)
    (place / "bin").mkdir(exist_ok=True)
    (place / "meta" / f"{name}.cm").write_text(manifest)
    if script:
        (place / "bin/x").write_text(script)
        (place / "bin/x").chmod(0o755)
    return f"fuchsia-pkg://{host}/{name}#meta/{name}.cm"


def root_of(repo: Path, *names: str, more: str = "", host: str = "t") -> str:
    """Writes a root with these packages as its children. Its URL."""
    rows = [f'{{name:"{name}",url:"fuchsia-pkg://{host}/{name}#meta/{name}.cm"}}' for name in names]
    children = ",".join(rows)
    return package(repo, "root", f"{{children:[{children}]{more}}}", host=host)


def lay(base: Path, port: int = 22, abstract: str = "host-secret") -> Path:
    """A copy of the example, in which the intruder is told where the manager's sockets are, and an address
    and an abstract socket of this system."""
    repo = base / "repo"
    shutil.copytree(EXAMPLE, repo)
    for manifest in repo.glob("demo/*/meta/*.cm"):
        text = manifest.read_text()
        if "HOST_SOCKET" in text:
            manifest.chmod(0o644)
            sockets = f'"{base}/r/cm"'
            if "intruder" in manifest.name:
                sockets += f', "{base}/r/live/m1/manager"'
            for old, new in (('"HOST_SOCKET"', sockets), ("PORT=22", f"PORT={port}"),
                             ("ABSTRACT=host-secret", f"ABSTRACT={abstract}")):
                text = text.replace(old, new)
            manifest.write_text(text)
    return repo


class Host:
    """A host that runs, with the folder that it keeps."""

    def __init__(self, repo: Path, root: str = ROOT, run: Path | None = None, options: tuple[str, ...] = (),
                 tools: Path = TOOLS, environment: dict[str, str] | None = None, waits: bool = True,
                 before: tuple[str, ...] = (), screen: int | None = None) -> None:
        self.base = run.parent if run else folder()
        self.run = run or self.base / "r"
        self.screen = self.base / f"screen-{time.monotonic_ns()}"
        words = [*before, sys.executable, str(tools / "host"), str(repo), root, "--run", str(self.run),
                 *options]
        with open(self.screen, "wb") as out:
            self.process = subprocess.Popen(
                words, stdout=out if screen is None else screen, stderr=out, stdin=subprocess.DEVNULL,
                env={**os.environ, **(environment or {})}, start_new_session=True)
        try:
            if waits and screen is None:
                self.wait(r"^(root|resumed) ")
        except BaseException:
            self.remove()
            raise

    def text(self) -> str:
        """What it showed so far."""
        return self.screen.read_text(errors="replace")

    def events(self, word: str = "") -> list[dict[str, Any]]:
        """Its log so far, or the events of one word."""
        found = []
        # The last line may be in the middle of being written.
        for line in (self.run / "log/events.jsonl").read_text().split("\n")[:-1]:
            event = json.loads(line)
            if word in ("", event["event"]):
                found.append(event)
        return found

    def said(self, moniker: str) -> str:
        """What an instance printed."""
        place = self.run / "log" / f"said-{moniker.replace('/', '%2F')}.log"
        try:
            return place.read_text(errors="replace")
        except FileNotFoundError:
            # It printed nothing yet, or its file is just put aside.
            return ""

    def wait(self, pattern: str, times: int = 1, seconds: float = PATIENCE) -> None:
        """Waits for so many such lines on its screen."""
        self.wait_until(lambda: len(re.findall(pattern, self.text(), re.M)) >= times,
                        f"{pattern!r} on the screen", seconds)

    def wait_until(self, holds: Callable[[], bool], what: str, seconds: float = PATIENCE) -> None:
        """Waits until something holds."""
        until = time.monotonic() + seconds
        while not holds():
            if time.monotonic() > until or self.process.poll() is not None and not holds():
                raise AssertionError(f"no {what}; its screen:\n{self.text()[-3000:]}")
            time.sleep(0.02)

    def link(self, name: str) -> socket.socket:
        """A connection to a socket in its folder."""
        return connected(str(self.run / name), PATIENCE, self.process.poll, PATIENCE)

    def ask(self, *lines: str) -> list[str]:
        """The replies to commands, each with its further lines."""
        try:
            with self.link("cm") as link:
                link.sendall("".join(line + "\n" for line in (*lines, "quit")).encode())
                text = link.makefile().read()
        except OSError as fault:
            why = f"no reply to {lines}: {fault}"
            raise AssertionError(f"{why}; its screen:\n{self.text()[-3000:]}") from None
        return [one for one in re.split(r"\n(?! )", text) if one]

    def on(self) -> list[str]:
        """The monikers that the manager counts as on, but for the root."""
        rows = self.ask("survey .")[0].split("\n")[1:]
        return sorted(row.split()[0] for row in rows if row.split()[4] == "on" and row.split()[0] != ".")

    def own(self, words: str) -> Any:
        """What the runner itself answers."""
        with self.link("host") as link:
            link.sendall(words.encode() + b"\n")
            return json.loads(link.makefile().readline())

    def below(self) -> list[int]:
        """All processes below it."""
        return below(self.process.pid)

    def find(self, *words: str) -> list[int]:
        """The processes below it whose command line has all these words."""
        return [pid for pid in self.below() if set(words) <= set(cmdline(pid))]

    def manager_pids(self) -> list[int]:
        """The processes of managers."""
        return [pid for pid in self.below() if cmdline(pid)[1:2] == ["serve"]]

    def runner_pid(self) -> int:
        """The process of the runner."""
        return next(pid for pid in self.below() if cmdline(pid)[1:4] == list(RUNNER[:3]))

    def sandboxes(self) -> list[int]:
        """The processes in sandboxes, bwrap's own among them; each sandbox has two or more."""
        return [pid for pid in self.below() if any("bwrap" in word for word in cmdline(pid)[:1])]

    def end(self, seconds: float = PATIENCE) -> int:
        """Ends it in order. Its status."""
        if self.process.poll() is None:
            self.process.send_signal(signal.SIGINT)
        try:
            return self.process.wait(seconds)
        except subprocess.TimeoutExpired:
            self.kill()
            raise AssertionError(f"it doesn't end; its screen:\n{self.text()[-3000:]}") from None

    def kill(self) -> None:
        """Ends it by force, with all below it."""
        self.process.kill()
        self.process.wait()

    def left(self) -> list[str]:
        """What it left behind that it shouldn't: processes, mounts, sockets."""
        found = [f"process {pid} {' '.join(cmdline(pid))[:80]}" for pid in still_there(str(self.base))]
        if str(self.run) in Path("/proc/self/mountinfo").read_text():
            found.append("a mount")
        return found

    def remove(self) -> None:
        """Ends it if it still runs, and removes its folder."""
        if self.process.poll() is None:
            self.kill()
        shutil.rmtree(self.base, ignore_errors=True)


def need_layers(screen: str) -> None:
    """Leaves a test out that needs read-only folders, where a host tells that the system lays no layers."""
    if "no layers over folders" in screen:
        raise unittest.SkipTest("this system lays no layers over folders")


def cmdline(pid: int) -> list[str]:
    """The words of a process; none where it has ended."""
    try:
        return Path(f"/proc/{pid}/cmdline").read_bytes().decode(errors="replace").split("\0")[:-1]
    except OSError:
        return []


def below(top: int) -> list[int]:
    """All processes below one."""
    parents: dict[int, list[int]] = {}
    for entry in Path("/proc").iterdir():
        if entry.name.isdigit():
            try:
                rest = (entry / "stat").read_text().rpartition(")")[2].split()
            except OSError:
                continue
            if rest[0] != "Z":
                parents.setdefault(int(rest[1]), []).append(int(entry.name))
    found, more = [], [top]
    while more:
        for pid in parents.get(more.pop(), []):
            found.append(pid)
            more.append(pid)
    return found


def mine(base: str) -> list[int]:
    """Processes of this user that have this folder in a word of theirs."""
    found = []
    for entry in Path("/proc").iterdir():
        if entry.name.isdigit() and int(entry.name) != os.getpid():
            try:
                if entry.stat().st_uid != os.getuid() or "State:\tZ" in (entry / "status").read_text():
                    continue
            except OSError:
                continue
            if any(base in word for word in cmdline(int(entry.name))):
                found.append(int(entry.name))
    return found


def still_there(base: str) -> list[int]:
    """Processes with this folder in a word of theirs that don't end, as it is waited for."""
    until = time.monotonic() + PATIENCE
    while (found := mine(base)) and time.monotonic() < until:
        time.sleep(0.02)
    return found


def kill_all(base: str) -> None:
    """Ends all processes with this folder in a word of theirs."""
    for pid in mine(base):
        with contextlib.suppress(ProcessLookupError):
            os.kill(pid, signal.SIGKILL)
