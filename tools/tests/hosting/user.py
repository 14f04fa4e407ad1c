"""Running a script again as a user that isn't root."""

from __future__ import annotations

import contextlib
import os
import shutil
import signal
import subprocess
import sys
import tempfile
from pathlib import Path
from typing import Iterator

from cm_tools.console import Unusable
from cm_tools.host.front import NEEDED, find_program

# In which cgroup the other user may make groups, or why there is none.
GROUP, NO_GROUP = "COMPONENT_HOST_CGROUP", "COMPONENT_HOST_NO_CGROUP"

OTHER_USER = "64321"
# Behind the shell: `setpriv` itself has root's rights until it has become another program.
OTHER = ("setpriv", "--pdeathsig", "KILL", "--reuid", OTHER_USER, "--regid", OTHER_USER, "--clear-groups",
         "--", "/bin/sh", "-c", 'exec "$0" "$@"')
# What the programs of the example and of the tests are written for.
INTERPRETER = "/usr/bin/python3"
# A folder below this one has sockets in it, whose paths may not be long.
LONGEST_PLACE = 32
# What the shell ends with where it can't become a program.
CANT_RUN = (126, 127)
# How long the other user has for a word that does nothing, and for all that a script does, in seconds.
A_MOMENT, FOR_ALL = 60, 7200
# How long it has to say where it stands, in seconds.
TO_SAY = 2


def reason_to_skip() -> str:
    """Why no host can run here; nothing where one can."""
    if sys.version_info < (3, 10):
        return "the tools need Python 3.10 or a later one"
    if not os.environ.get("COMPONENT_MANAGER"):
        return "COMPONENT_MANAGER names no program"
    for tool in NEEDED:
        if shutil.which(tool) is None:
            return f"{tool} isn't here"
    if not os.access(INTERPRETER, os.X_OK):
        return f"{INTERPRETER} isn't here"
    if os.getuid() == 0:
        if not is_run("true"):
            return "root can't become another user here"
        if not python_of_other():
            return "no Python that another user can run is 3.10 or a later one"
    return ""


def can_host() -> bool:
    """Whether a host can run here; where none can, it is told why."""
    why = reason_to_skip()
    if why:
        print(f"skipped: a host can't run here, since {why}")
    return not why


def is_run(*words: str) -> bool:
    """Whether the other user runs something with success, in a moment."""
    try:
        return subprocess.run([*OTHER, *words], stdin=subprocess.DEVNULL, stdout=subprocess.DEVNULL,
                              stderr=subprocess.DEVNULL, timeout=A_MOMENT).returncode == 0
    except subprocess.TimeoutExpired:
        return False


def python_of_other() -> str:
    """A Python for the other user: one of root's own may stand where nobody else looks. Nothing where there
    is none."""
    new_enough = "import sys; sys.exit(sys.version_info < (3, 10))"
    found = (one for one in (sys.executable, INTERPRETER) if is_run(one, "-c", new_enough))
    return next(found, "")


def as_another_user(script: str) -> int:
    """Runs a script again, with the same words, as a user that isn't root. Its status. By Ctrl-C and
    TERM all ends that it has begun."""
    for number in signal.SIGINT, signal.SIGTERM:
        signal.signal(number, lambda number, _: sys.exit(128 + number))
    base = folder_of_other(find_program())
    try:
        script, python = _copied(script, os.path.join(base, "copy")), python_of_other()
        # Compiled once, since hosts and tools are started many times.
        is_run(python, "-m", "compileall", "-q", os.path.join(base, "copy/tools/cm_tools"))
        with delegated_group() as group:
            environment = {**os.environ, **group, "HOME": base, "TMPDIR": base, "PATH": "/usr/bin:/bin",
                           "COMPONENT_MANAGER": os.path.join(base, "component_manager")}
            return followed([*OTHER, python, script, *sys.argv[1:]], environment)
    finally:
        end_all(base)
        subprocess.run(["rm", "-rf", base])


def followed(words: list[str], environment: dict[str, str]) -> int:
    """The status of a run. Where it takes too long, or this process is told to end, it is told to, so that it
    says where it stands, and killed a moment later."""
    process = subprocess.Popen(words, env=environment, stdin=subprocess.DEVNULL)
    try:
        return process.wait(FOR_ALL)
    except subprocess.TimeoutExpired:
        print(f"the run of another user took more than {FOR_ALL} s", flush=True)
        return 1
    finally:
        process.terminate()
        with contextlib.suppress(subprocess.TimeoutExpired):
            process.wait(TO_SAY)
        process.kill()
        process.wait()


def folder_of_other(program: str) -> str:
    """A new folder of the other user, with a copy of the program that runs in it."""
    for place in tempfile.gettempdir(), "/tmp", "/var/tmp":
        if len(place) > LONGEST_PLACE or not os.path.isdir(place):
            continue
        base = tempfile.mkdtemp(prefix="host-", dir=place)
        copied = os.path.join(base, "component_manager")
        shutil.copy(program, copied)
        os.chmod(copied, 0o755)
        os.chown(base, int(OTHER_USER), int(OTHER_USER))
        # Without a word it refuses its words.
        if subprocess.run([*OTHER, copied], stdin=subprocess.DEVNULL, capture_output=True,
                          timeout=A_MOMENT).returncode not in CANT_RUN:
            return base
        shutil.rmtree(base)
    raise Unusable("no folder for temporary files with a short path lets another user run a program")


def end_all(base: str) -> None:
    """Ends what the other user has left, as where the run was killed: all with this folder in a word."""
    for place in Path("/proc").glob("[0-9]*"):
        with contextlib.suppress(OSError):
            words = (place / "cmdline").read_bytes()
            if place.stat().st_uid == int(OTHER_USER) and base.encode() in words:
                os.kill(int(place.name), signal.SIGKILL)


@contextlib.contextmanager
def delegated_group() -> Iterator[dict[str, str]]:
    """A cgroup in which the other user may make groups, and in a group of which this process is meanwhile;
    told by the environment, or why there is none."""
    tops = [line.split()[1] for line in Path("/proc/mounts").read_text().splitlines()
            if line.split()[2] == "cgroup2"]
    if not tops:
        yield {NO_GROUP: "no cgroups of the second version are mounted"}
        return
    top = Path(tops[0])
    group = top / f"host-{os.getpid()}"
    before = own_group(top)
    try:
        have = (top / "cgroup.controllers").read_text().split()
        missing = [name for name in ("memory", "pids") if name not in have]
        if missing:
            yield {NO_GROUP: f"{top} has no controller {' and '.join(missing)}"}
            return
        wanted = " ".join("+" + name for name in ("memory", "pids", "cpu") if name in have)
        (top / "cgroup.subtree_control").write_text(wanted)
        (group / "runs").mkdir(parents=True)
        (group / "cgroup.subtree_control").write_text(wanted)
        for place in group, group / "cgroup.procs", group / "cgroup.subtree_control":
            os.chown(place, int(OTHER_USER), int(OTHER_USER))
        (group / "runs/cgroup.procs").write_text("0")
    except OSError as fault:
        remove_group(group)
        yield {NO_GROUP: f"{fault.filename}: {fault.strerror}"}
        return
    try:
        yield {GROUP: str(group)}
    finally:
        (before / "cgroup.procs").write_text("0")
        remove_group(group)


def own_group(top: Path) -> Path:
    """The cgroup of this process, below the top of the mount."""
    for line in Path("/proc/self/cgroup").read_text().splitlines():
        if line.startswith("0::"):
            return top / line[3:].strip("/")
    return top


def remove_group(group: Path) -> None:
    """Removes a cgroup with all below it, in which no process is left."""
    for place in sorted(group.rglob("*"), reverse=True):
        if place.is_dir():
            with contextlib.suppress(OSError):
                place.rmdir()
    with contextlib.suppress(OSError):
        group.rmdir()


def _copied(script: str, copy: str) -> str:
    """Copies what a script needs for another user, who may not read it where it is. Where it is then."""
    place = os.path.abspath(script)
    top = os.path.dirname(os.path.dirname(place))
    for name in "tools", "examples", "docs", ".ci", "bench":
        shutil.copytree(os.path.join(top, name), os.path.join(copy, name), symlinks=True,
                        ignore=shutil.ignore_patterns("__pycache__"))
    subprocess.run(["chown", "-R", f"{OTHER_USER}:{OTHER_USER}", copy], check=True)
    return os.path.join(copy, os.path.relpath(place, top))
