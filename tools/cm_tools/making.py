"""The making of an unproved program, once for each sum of its sources."""

from __future__ import annotations

import contextlib
import fcntl
import os
import shutil
import subprocess
import sys
import time
from pathlib import Path
from typing import Any

from cm_tools.linked_kit import COMPILES, LINKS, MADE, kit_folder, make_kit
from cm_tools.sources import NAME, TOP, crates_below, sum_of_sources
from cm_tools.workshops import (
    MEMORY, Unmade, drop_old, free_memory, keep, new_workshop, program_of, say, usable_place,
)

STEPS = ("reads the sources of {crates} crates", "compiles", "links")
MANIFEST = b"{}"
# How long the new program may take to judge that one, in seconds.
PATIENCE = 60


def program_made(crate: str = NAME) -> Path:
    """The crate's program, or that of its tests, which is made where it isn't there."""
    total = sum_of_sources(crate)
    found = program_of(crate, total)
    if found:
        return found
    place = usable_place()
    with open(place / f"{total}.lock", "w", encoding="utf-8") as lock:
        try:
            fcntl.flock(lock, fcntl.LOCK_EX | fcntl.LOCK_NB)
        except BlockingIOError:
            say("another call makes it, and this one waits")
            fcntl.flock(lock, fcntl.LOCK_EX)
        if not program_of(crate, total):
            _make_in(place, crate, total, lock.fileno())
    found = program_of(crate, total)
    if not found:
        raise Unmade("the program that was made is gone")
    return found


def stop(run: subprocess.Popen[Any]) -> None:
    """Ends a program, which ends what it started."""
    run.terminate()
    try:
        run.wait(10)
    except subprocess.TimeoutExpired:
        run.kill()
        run.wait()


class Progress:
    """Says which step runs: on a terminal in one line that is written over each second."""

    def __init__(self, crate: str) -> None:
        self.begun, self.crate = time.monotonic(), crate
        self.steps = [step.format(crates=len(crates_below(crate))) for step in STEPS]
        # The tests of several crates are made at the same time, so they don't share a line.
        self.step, self.is_seen = -1, sys.stderr.isatty() and crate == NAME

    def seconds(self) -> int:
        """How long it has taken so far."""
        return int(time.monotonic() - self.begun)

    def tell(self, step: int) -> None:
        """Tells the step, where that is new."""
        text = f"{self.crate}: step {step + 1} of {len(self.steps)}: {self.steps[step]}, {self.seconds()} s"
        if self.is_seen:
            print(f"\r\033[K{text}", end="", file=sys.stderr, flush=True)
        elif step != self.step:
            print(text, file=sys.stderr, flush=True)
        self.step = step

    def end(self) -> None:
        """Takes the line away."""
        if self.is_seen:
            print("\r\033[K", end="", file=sys.stderr, flush=True)


def _make_in(place: Path, crate: str, total: str, lock: int) -> None:
    """Makes the program of the sources, and puts it into a folder of its name at the end."""
    kit = kit_folder()
    work = new_workshop(place, total)
    try:
        if crate == NAME:
            say("no program of these sources is here: makes an unproved one, in two to three minutes")
        if free_memory() < MEMORY:
            say(f"it takes {MEMORY // 1000} MB of memory, and {free_memory() // 1000} are free")
        progress = Progress(crate)
        said = _compile_in(work, make_kit(kit, work), lock, progress)
        made = work / MADE
        if not made.exists():
            sys.stderr.write(said)
            raise Unmade(f"{crate} was not made; what rt said stands above")
        if crate == NAME and not _is_sound(made):
            raise Unmade("the unproved program was made, and doesn't work: it finds `{}` no valid manifest")
        keep(made, place / total, crate)
        print(f"{crate}: made, in {progress.seconds()} s", file=sys.stderr, flush=True)
    finally:
        shutil.rmtree(work, ignore_errors=True)
    drop_old(place, crate, total)


def _compile_in(work: Path, kit: Path, lock: int, progress: Progress) -> str:
    """Runs rt try until a program is linked, and gives what it wrote."""
    words = ["--", "check"] if progress.crate == NAME else ["--test"]
    (work / "tmp").mkdir()
    with open(work / "log", "w+b") as log:
        # A session of its own, since rt ends its whole group. It holds the lock too, so that none begins
        # while it goes on without this process.
        run = subprocess.Popen(
            [kit / "bin" / "rt", "try", *words],
            cwd=TOP / "crates" / progress.crate, env={**os.environ, "TMPDIR": str(work / "tmp")},
            stdin=subprocess.DEVNULL, stdout=log, stderr=log, start_new_session=True, pass_fds=(lock,),
        )
        try:
            while run.poll() is None and not (work / MADE).exists():
                progress.tell(_step_of(work))
                with contextlib.suppress(subprocess.TimeoutExpired):
                    run.wait(1)
        finally:
            stop(run)
            progress.end()
        log.seek(0)
        return log.read().decode("utf-8", "replace")


def _step_of(work: Path) -> int:
    return 2 if (work / LINKS).exists() else 1 if (work / COMPILES).exists() else 0


def _is_sound(program: Path) -> bool:
    """Whether the program says of a manifest that it is valid."""
    try:
        ran = subprocess.run(
            [program, "check"], input=MANIFEST, capture_output=True, timeout=PATIENCE, check=False
        )
    except (OSError, subprocess.TimeoutExpired):
        return False
    return (ran.returncode, ran.stdout) == (0, b"valid\n")
