"""Where an unproved program is made, and where it is kept."""

from __future__ import annotations

import hashlib
import os
import re
import shutil
import subprocess
import sys
import tempfile
from pathlib import Path

from cm_tools.sources import NAME, TOP

# The bytes that have to be free where a program is made: some 110 MB are written.
ROOM = 300 << 20
# The same where it is kept.
KEPT_ROOM = 8 << 20
# The kilobytes of memory that the making takes.
MEMORY = 2_700_000
# How many programs of other sources are kept.
KEPT = 4


class Unmade(Exception):
    """Why there is no program, in one line."""


def say(text: object) -> None:
    """A line on the error stream."""
    print(f"{NAME}: {text}", file=sys.stderr, flush=True)


def places() -> list[Path]:
    """The folders for what is made, the better one first."""
    cache = Path(os.environ.get("XDG_CACHE_HOME") or Path.home() / ".cache")
    return [TOP / "out" / "quick", cache / NAME / _short_sum(str(TOP))]


def program_of(crate: str, total: str) -> Path | None:
    """The program of the sources with that sum, if it is there."""
    found = (place / total / crate for place in places())
    return next((path for path in found if os.access(path, os.X_OK)), None)


def usable_place() -> Path:
    """The first folder in which a program can be kept, and run."""
    place = next(filter(is_usable, places()), None)
    if place is None:
        raise Unmade(f"no program can be written and run in {' or '.join(map(str, places()))}")
    if place != places()[0]:
        say(f"{places()[0]} can't be used, so it stands in {place}")
    return place


def is_usable(place: Path) -> bool:
    """Whether a program can be written there, and run from there."""
    try:
        place.mkdir(parents=True, exist_ok=True)
        with tempfile.TemporaryDirectory(prefix="look-", dir=place) as folder:
            script = Path(folder, "look")
            write_script(script, "#!/bin/sh\nexit 0\n")
            return subprocess.run([script], check=False).returncode == 0
    except OSError:
        return False


def write_script(path: Path, text: str) -> None:
    """Writes a file that can be run."""
    path.write_text(text, "utf-8")
    path.chmod(0o755)


def new_workshop(place: Path, total: str) -> Path:
    """A new folder in which a program is made, behind what a run that was killed left of it.

    It isn't below the checkout, where the gate refuses any link. Under the lock nobody else makes this one.
    """
    if shutil.disk_usage(place).free < KEPT_ROOM:
        raise Unmade(f"{place} has less than {KEPT_ROOM >> 20} MB left")
    prefix = f"{NAME}-{_short_sum(str(place))}-{total}-"
    candidates = [Path(tempfile.gettempdir()), Path("/var/tmp"), *places()[1:]]
    _sweep(candidates, prefix)
    for folder in candidates:
        if is_usable(folder) and shutil.disk_usage(folder).free >= ROOM:
            return Path(tempfile.mkdtemp(prefix=prefix, dir=folder))
    told = ", ".join(map(str, candidates))
    raise Unmade(f"none of {told} has {ROOM >> 20} MB left and lets programs run; TMPDIR names another")


def keep(made: Path, folder: Path, crate: str) -> None:
    """Puts a program into its folder, which is there with the whole program or not at all."""
    part = folder.with_name(f"{folder.name}.part")
    shutil.rmtree(part, ignore_errors=True)
    part.mkdir(parents=True)
    try:
        shutil.copy(made, part / crate)
        shutil.rmtree(folder, ignore_errors=True)
        part.replace(folder)
    finally:
        shutil.rmtree(part, ignore_errors=True)


def drop_old(place: Path, crate: str, total: str) -> None:
    """Removes the crate's programs of other sources but for the latest."""
    old = [folder for folder in place.iterdir() if folder.name != total and (folder / crate).exists()]
    for folder in sorted(old, key=os.path.getmtime, reverse=True)[KEPT - 1 :]:
        shutil.rmtree(folder, ignore_errors=True)


def free_memory() -> int:
    """How many kilobytes of memory are free; enough where the system doesn't tell."""
    try:
        room = re.search(r"^MemAvailable: +(\d+)", Path("/proc/meminfo").read_text("ascii"), re.MULTILINE)
    except OSError:
        return MEMORY
    return int(room[1]) if room else MEMORY


def _sweep(folders: list[Path], prefix: str) -> None:
    """Removes what runs that were killed left there."""
    for folder in filter(Path.is_dir, folders):
        for path in folder.iterdir():
            if path.name.startswith(prefix) and path.lstat().st_uid == os.geteuid():
                shutil.rmtree(path, ignore_errors=True)


def _short_sum(text: str) -> str:
    return hashlib.sha256(text.encode()).hexdigest()[:8]
