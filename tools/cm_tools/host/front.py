"""What stands in front of a runner: it looks whether a host can run here, begins it, and ends it in order."""

from __future__ import annotations

import fcntl
import json
import os
import select
import shutil
import signal
import socket
import subprocess
import sys
import time
from pathlib import Path
from types import FrameType
from typing import Any

from cm_tools.console import Unusable
from cm_tools.host import programs
from cm_tools.host.programs import Unfit
from cm_tools.host.sandbox import BARE
from cm_tools.host.screen import Screen
from cm_tools.host.settings import Places, Settings
from cm_tools.merging import Sources
from cm_tools.program import chosen_program

TOOLS = Path(__file__).resolve().parent.parent.parent
NAMESPACES = ("unshare", "--user", "--map-current-user", "--keep-caps", "--mount", "--pid", "--fork",
              "--kill-child", "--mount-proc", "--")
# What lies in memory: of all instances together. Beside the runner stands who lays layers, which keeps the
# right to mount.
BEFORE = (
    "exec 2>&{error} {error}>&-; "
    'mount -t tmpfs -o size=256m,nr_inodes=65536,mode=700,nosuid,nodev live "$0" || exit 4; '
    'mkdir "$0/empty"; '
    '"$1" -I -S "$2" {helper} "$0/empty" {own}>&- & shift 2; exec "$@"'
)
LAYERS = str(Path(__file__).resolve().parent / "layers.py")
# Behind Python's own name: the runner, which takes no module from the folder in which the host was started,
# nor from what the environment names.
RUNNER = ("-I", "-B", "-c", f"import sys; sys.path.insert(0, {str(TOOLS)!r}); "
          "from cm_tools.host.runner import main; sys.exit(main())")
NEEDED = {"bwrap": "bubblewrap", "unshare": "util-linux", "setpriv": "util-linux", "prlimit": "util-linux"}
LONGEST_SOCKET = 107
# How long a first sandbox may take, in seconds.
TO_TRY = 120
# A runner that ends so soon, in seconds, so many times isn't begun again.
TOO_SOON, TIMES = 2.0, 5
# How long an end in order may take, in seconds.
TO_END = 180.0
# How often it looks up while a runner runs, in seconds.
LOOKS_UP = 1.0
# What `unshare` ends with where its child was killed: some versions fail to do as the child did.
KILLED = (1, -signal.SIGKILL, 128 + signal.SIGKILL)


def check_user() -> None:
    """Refuses root."""
    if os.getuid() == 0:
        raise Unusable("as root a sandboxed program could write what the kernel lets root write, as "
                       "/proc/sys/kernel/core_pattern; run it as a user of its own, as by setpriv --reuid")


def check_tools() -> None:
    """Refuses a system without what makes sandboxes."""
    if not sys.platform.startswith("linux"):
        raise Unusable("sandboxes are made by Linux alone")
    for tool, package in NEEDED.items():
        if shutil.which(tool) is None:
            raise Unusable(f"{tool} isn't here: apt-get install {package}")


def check_sandbox() -> None:
    """Refuses a system that makes no sandbox for this user, with the system's reason."""
    words = [*NAMESPACES, *BARE, "bwrap", "--unshare-all", "--unshare-user", "--disable-userns",
             "--ro-bind", "/usr", "/usr", "--symlink", "usr/lib", "/lib", "--symlink", "usr/lib64", "/lib64",
             "--proc", "/proc", "--dev", "/dev", "/usr/bin/true"]
    try:
        tried = subprocess.run(words, capture_output=True, text=True, timeout=TO_TRY,
                               stdin=subprocess.DEVNULL)
    except subprocess.TimeoutExpired:
        raise Unusable(f"this system made no sandbox for this user within {TO_TRY} s") from None
    if tried.returncode != 0:
        why = (tried.stderr.strip().splitlines() or ["no reason was given"])[-1]
        raise Unusable(f"this system makes no sandbox for this user: {why}")


def find_program() -> str:
    """The component manager that all tools take, which has to know a runner."""
    program = chosen_program()
    data = program.read_bytes()
    if data[:4] == b"\x7fELF" and b"COMPONENT_RUNNER" not in data:
        raise Unusable(f"{program} knows no COMPONENT_RUNNER: it is older than this tool")
    return str(program.resolve())


def writes_journals(program: str) -> bool:
    """Whether the component manager writes the history of a served realm where COMPONENT_JOURNAL says it."""
    return b"COMPONENT_JOURNAL" in Path(program).read_bytes()


def check_root(repo: Path, root: str) -> None:
    """Refuses a root without a manifest."""
    if not repo.is_dir():
        raise Unusable(f"{repo} is no folder of packages")
    try:
        programs.declared(programs.Repo.of(repo), root)
    except Unfit as fault:
        raise Unusable(str(fault)) from None


def merged_manifests(repo: Path, sources: Sources, place: Path) -> Path:
    """The folder whose manifests the component manager reads: that of the packages, or a copy at the place,
    with their shards."""
    shutil.rmtree(place, ignore_errors=True)
    return sources.copied(repo, place)


def make_run(run: Path) -> None:
    """Makes the folder that is kept, for this user alone."""
    if len(os.fsencode(run / "host")) > LONGEST_SOCKET:
        raise Unusable(f"{run} is too long: a socket in it may have a path of {LONGEST_SOCKET} bytes")
    try:
        run.mkdir(mode=0o700, parents=True, exist_ok=True)
        (run / "live").mkdir(exist_ok=True)
    except OSError as fault:
        raise Unusable(f"{run}: {fault.strerror}") from None
    state = run.stat()
    if state.st_uid != os.getuid() or state.st_mode & 0o077:
        raise Unusable(f"{run} has to belong to this user, and nobody else may look into it (chmod 700)")


def take_lock(place: Path) -> int:
    """Holds the folder for this host alone, as long as the descriptor is open."""
    lock = os.open(place, os.O_RDWR | os.O_CREAT | os.O_CLOEXEC, 0o600)
    try:
        fcntl.flock(lock, fcntl.LOCK_EX | fcntl.LOCK_NB)
    except BlockingIOError:
        raise Unusable(f"another host runs in {place.parent}, process {os.read(lock, 20).decode()}") from None
    os.ftruncate(lock, 0)
    os.write(lock, str(os.getpid()).encode())
    return lock


def own_cgroup() -> str:
    """The cgroup of this process, where this user may make groups in it; else nothing.

    A group whose children have limits may have no process itself, so this one moves below.
    """
    try:
        folder = _cgroup_of_this_process()
        if folder is None or not os.access(folder / "cgroup.procs", os.W_OK):
            return ""
        if not {"memory", "pids"} <= set((folder / "cgroup.controllers").read_text().split()):
            return ""
        (folder / "host").mkdir(exist_ok=True)
        (folder / "host/cgroup.procs").write_text("0")
        return str(folder)
    except OSError:
        return ""


def _cgroup_of_this_process() -> Path | None:
    mounts = [line.split() for line in Path("/proc/mounts").read_text().splitlines()]
    tops = [parts[1] for parts in mounts if parts[2] == "cgroup2"]
    for line in Path("/proc/self/cgroup").read_text().splitlines():
        if line.startswith("0::") and tops:
            return Path(tops[0] + line[3:])
    return None


def connected(run: Path) -> socket.socket:
    """A connection to the runner in a folder."""
    link = socket.socket(socket.AF_UNIX)
    try:
        link.connect(str(Places(run).control))
        return link
    except OSError:
        link.close()
        raise Unusable(f"{run}: no host runs there") from None


def ask(run: Path, words: str) -> Any:
    """What the runner in a folder answers to its own words."""
    with connected(run) as link:
        try:
            link.settimeout(30)
            link.sendall(words.encode() + b"\n")
            with link.makefile("r") as answer:
                return json.loads(answer.readline())
        except (OSError, ValueError):
            raise Unusable(f"{run}: the host there doesn't answer") from None


def _status(process: subprocess.Popen[bytes]) -> int:
    """Waits for the end of a process. A signal that comes right before it begins to wait is seen when it
    looks up."""
    ended = os.pidfd_open(process.pid)
    while not select.select([ended], [], [], LOOKS_UP)[0]:
        pass
    os.close(ended)
    return process.wait()


class Front:
    """Begins runners in one folder, one behind the other where one is killed, and ends the last in order."""

    def __init__(self, settings: Settings) -> None:
        self.settings = settings
        self.process: subprocess.Popen[bytes] | None = None
        self.asked = 0

    def run(self) -> int:
        """Runs until it is told to end. The status of the last runner."""
        for number in (signal.SIGINT, signal.SIGTERM, signal.SIGHUP):
            signal.signal(number, self._on_signal)
        soon, screen = 0, Screen(sys.stdout)
        while True:
            begun = time.monotonic()
            status = self._begin()
            if self.asked or status not in KILLED:
                # At its own end this process takes no alarm any more, and would be killed by one.
                signal.setitimer(signal.ITIMER_REAL, 0)
                return status if status >= 0 else 128 - status
            soon = soon + 1 if time.monotonic() - begun < TOO_SOON else 0
            if soon >= TIMES:
                print(f"host: the runner ended {soon} times at once", file=sys.stderr)
                return 1
            screen.show("host: the runner was killed, and its programs with it; another one begins")

    def _begin(self) -> int:
        places, error = Places(self.settings.run), os.dup(2)
        own, helper = socket.socketpair(socket.AF_UNIX, socket.SOCK_SEQPACKET)
        numbers = {"error": error, "own": own.fileno(), "helper": helper.fileno()}
        words = ["setpriv", "--pdeathsig", "KILL", *NAMESPACES, "/bin/sh", "-c", BEFORE.format_map(numbers),
                 str(places.live), sys.executable, LAYERS, *BARE, sys.executable, *RUNNER,
                 self.settings.to_text(), str(own.fileno()), str(helper.fileno())]
        with own, helper:
            # What `unshare` says of a killed child is no news.
            self.process = subprocess.Popen(words, stdin=subprocess.DEVNULL, stderr=subprocess.DEVNULL,
                                            pass_fds=tuple(numbers.values()), start_new_session=True)
        os.close(error)
        return _status(self.process)

    def _on_signal(self, _number: int, _frame: FrameType | None) -> None:
        """Asks for an end in order; asked twice, it ends all at once."""
        self.asked += 1
        if self.asked == 1:
            signal.signal(signal.SIGALRM, self._on_alarm)
            signal.setitimer(signal.ITIMER_REAL, 0.01, 0.2)
            self.until = time.monotonic() + TO_END
        elif self.process is not None:
            self.process.kill()

    def _on_alarm(self, _number: int, _frame: FrameType | None) -> None:
        """Tells the runner to end, as soon as it listens."""
        try:
            ask(Path(self.settings.run), "end")
            signal.setitimer(signal.ITIMER_REAL, 0)
        except Unusable:
            if time.monotonic() > self.until and self.process is not None:
                self.process.kill()
