"""The log of a host: JSON lines that outlive it, and lines for a person."""

from __future__ import annotations

import contextlib
import functools
import hashlib
import json
import os
import sys
import time
from json.encoder import encode_basestring_ascii as quoted
from pathlib import Path
from typing import Any, Callable, Iterable, TextIO

from cm_tools.host.screen import Screen

# A file of events that has grown so far is put aside, and so many of these are kept.
LARGEST_LOG = 32 << 20
KEPT_LOGS = 4
# Of what instances printed that have gone so many bytes are kept, in so many files. It is looked for more
# behind so many that have gone.
MOST_SAID, MOST_FILES, LOOK = 256 << 20, 1000, 16
# How long an event may wait for the next one, in seconds.
A_MOMENT = 0.1
EVENTS = "events.jsonl"
PLAIN = ("at", "event", "moniker", "manager")
ENCODER = json.JSONEncoder(separators=(",", ":"))


class Room:
    """How many lines may still be shown: so many at once, and so many a second."""

    def __init__(self, a_second: int) -> None:
        self.a_second = a_second
        self.room, self.since, self.left_out = float(a_second), time.monotonic(), 0

    def take(self) -> bool:
        """Takes the room of one line, if there is any; else counts it as left out."""
        now = time.monotonic()
        self.room, self.since = min(self.a_second, self.room + self.a_second * (now - self.since)), now
        if self.room < 1:
            self.left_out += 1
            return False
        self.room -= 1
        return True

    def missed(self) -> int:
        """How many were left out since it was asked last."""
        missed, self.left_out = self.left_out, 0
        return missed


class Log:
    """Writes each event as a JSON line before it is answered, and shows it.

    `snapshot` gives the events that say what runs, with which each further file begins.
    """

    def __init__(self, folder: Path, screen: TextIO = sys.stdout, quiet: bool = False) -> None:
        folder.mkdir(mode=0o700, parents=True, exist_ok=True)
        self.folder, self.screen, self.quiet = folder, Screen(screen), quiet
        self.snapshot: Callable[[], list[dict[str, Any]]] = list
        self.is_full, self.count_gone = False, 0
        # Lines that are written with the next one; and what has that done where none comes.
        self.behind: list[str] = []
        self.is_due = False
        self.call_later: Callable[[float, Callable[[], None]], object] = lambda _, flush: flush()
        self.rooms = {word: Room(50) for word in ("opened", "refused", "broken")}
        self._open()

    def event(self, word: str, **fields: Any) -> bool:
        """Writes and shows an event. False where it can't be written."""
        line = {"at": round(time.time(), 6), "event": word, **fields}
        done = self._write(written(line))
        self._tell(line)
        return done

    def note(self, word: str, **fields: Any) -> bool:
        """Writes an event, and doesn't show it."""
        return self._write(written({"at": round(time.time(), 6), "event": word, **fields}))

    def opened(self, moniker: str, path: str, manager: int, provider: str, connection: int) -> bool:
        """Writes that a connection is opened. False where that can't be written."""
        fixed = opening(moniker, path, manager, provider)
        return self._write(f'{{"at":{time.time():.6f},{fixed}{connection}}}\n')

    def show_opened(self, moniker: str, path: str, provider: str) -> None:
        """Shows that a connection is opened, which is written already."""
        if not self.quiet:
            self._tell({"event": "opened", "moniker": moniker, "path": path, "provider": provider})

    def closed(self, moniker: str, connection: int) -> None:
        """Has it written that a connection is closed, together with the next event, or a moment later."""
        self.behind.append(f'{{"at":{time.time():.6f},"event":"closed","moniker":{quoted(moniker)},'
                           f'"connection":{connection}}}\n')
        if not self.is_due:
            self.is_due = True
            self.call_later(A_MOMENT, self.flush)

    def gone(self, known: Iterable[str]) -> None:
        """An instance has gone for good. Now and then the oldest of what such instances printed goes, too;
        what those printed that are known by these monikers stays."""
        self.count_gone += 1
        if self.count_gone % LOOK == 0:
            for place in surplus(self.folder, {place_of(self.folder, one) for one in known}):
                with contextlib.suppress(OSError):
                    place.unlink()

    def flush(self) -> None:
        """Writes the events that wait. What others had written since needs no further moment for each."""
        self.is_due = False
        if self.behind:
            self._write("")

    def show(self, text: str) -> None:
        """Shows a line to the person who looks on."""
        if not self.quiet:
            self.screen.show(text)

    def _tell(self, line: dict[str, Any]) -> None:
        """Shows an event, where there is room for one of its word."""
        room = self.rooms.get(line["event"])
        if not self.quiet and (room is None or room.take()):
            missed = room.missed() if room is not None else 0
            self.show(told(line) + (f" (and {missed} {line['event']} before, which the log has)" if missed
                                    else ""))

    def _open(self) -> None:
        how = os.O_WRONLY | os.O_APPEND | os.O_CREAT | os.O_CLOEXEC
        self.file = os.open(self.folder / EVENTS, how, 0o600)
        self.size = os.fstat(self.file).st_size

    def _write(self, line: str) -> bool:
        """Writes a line, behind those that wait. False where it can't be written."""
        if self.behind:
            line = "".join(self.behind) + line
            self.behind.clear()
        data = line.encode()
        try:
            if self.size > LARGEST_LOG:
                self._turn()
            done = os.write(self.file, data)
            if done < len(data):
                os.write(self.file, b"\n")
                raise OSError(28, "No space left on device")
            self.size += done
            self.is_full = False
            return True
        except OSError as fault:
            if not self.is_full:
                self.is_full = True
                self.show(f"host: the log can't be written: {fault.strerror}; nothing is launched or opened")
            return False

    def _turn(self) -> None:
        """Puts the file aside, and begins another with what runs."""
        base = self.folder / EVENTS
        for number in range(KEPT_LOGS - 1, 0, -1):
            older = base.with_suffix(f".{number}.jsonl")
            if older.exists():
                older.replace(base.with_suffix(f".{number + 1}.jsonl"))
        base.replace(base.with_suffix(".1.jsonl"))
        os.close(self.file)
        self._open()
        for line in self.snapshot():
            self._write(written({"at": round(time.time(), 6), **line}))


@functools.lru_cache(maxsize=4096)
def opening(moniker: str, path: str, manager: int, provider: str) -> str:
    """What stands in the line of an opening between its time and the number of the connection. A use is
    opened again and again."""
    return (f'"event":"opened","moniker":{quoted(moniker)},"path":{quoted(path)},"manager":{manager},'
            f'"provider":{quoted(provider)},"connection":')


def written(line: dict[str, Any]) -> str:
    """A line of the log."""
    return ENCODER.encode(line) + "\n"


def surplus(folder: Path, kept: set[Path]) -> list[Path]:
    """The oldest files of what was printed, as far as all have too many bytes together, or are too many. None
    is among those that are kept, and the two halves of one are two files."""
    found = []
    for entry in os.scandir(folder):
        place = folder / entry.name
        if entry.name.startswith("said-") and place.with_suffix(".log") not in kept:
            with contextlib.suppress(OSError):
                found.append((entry.stat().st_mtime_ns, entry.stat().st_size, place))
    found.sort(reverse=True)
    left, size = [], 0
    for count, (_, more, place) in enumerate(found):
        size += more
        if size > MOST_SAID or count >= MOST_FILES:
            left.append(place)
    return left


def told(line: dict[str, Any]) -> str:
    """An event as a line for a person: a word, whose it is, and what else it says."""
    form = FORMS.get(str(line["event"]))
    if form is None:
        rest = " ".join(f"{key} {value}" for key, value in line.items() if key not in PLAIN)
        return f"{line['event']:9} {line.get('moniker', '')} {rest}".rstrip()
    word, rest = form(line)
    return f"{word:9} {line.get('moniker', '')}{rest}"


def _launch(line: dict[str, Any]) -> tuple[str, str]:
    if line["answer"] == "running":
        return "started", f" in {line['ms']} ms"
    return line["answer"], f": {line.get('why', '')}"


def _halt(line: dict[str, Any]) -> tuple[str, str]:
    return line["answer"], f" behind {line['ms']} ms"


def _exited(line: dict[str, Any]) -> tuple[str, str]:
    pause = line.get("again_behind_s")
    again = f"; it can start again in {pause} s" if pause else ""
    return "exited", f" with status {line['status']}{again}"


def _opened(line: dict[str, Any]) -> tuple[str, str]:
    rights = f" with {line['rights']}" if line.get("rights") else ""
    return "opened", f" {line['path']} at {line['provider']}{rights}"


def _refused(line: dict[str, Any]) -> tuple[str, str]:
    why = str(line["why"]).removeprefix("refused").lstrip(": ")
    return "refused", f" {line['path']}: {why}"


def _broken(line: dict[str, Any]) -> tuple[str, str]:
    return "broken", f" {line['path']}: {line['why']}"


FORMS: dict[str, Callable[[dict[str, Any]], tuple[str, str]]] = {
    "launch": _launch, "halt": _halt, "exited": _exited, "opened": _opened, "refused": _refused,
    "broken": _broken,
}


class Said:
    """What one instance prints: in a file that is kept, of which at most two times `LARGEST` stands.

    A person is shown at most `A_SECOND` lines of it in a second.
    """

    LARGEST = 4 << 20
    A_SECOND = 50

    def __init__(self, log: Log, moniker: str) -> None:
        self.log, self.moniker, self.place = log, moniker, place_of(log.folder, moniker)
        self.room = Room(self.A_SECOND)
        self.behind = b""

    def take(self, piece: bytes) -> None:
        """Keeps and shows a piece. A line that isn't ended yet waits, up to 4,096 bytes of it."""
        self._keep(piece)
        *lines, self.behind = (self.behind + piece).split(b"\n")
        if len(self.behind) > 4096:
            lines.append(self.behind)
            self.behind = b""
        for line in lines:
            self._show(line.decode(errors="replace"))

    def end(self) -> None:
        """Shows what stands behind the last line end."""
        if self.behind:
            self._show(self.behind.decode(errors="replace"))
            self.behind = b""

    def _keep(self, piece: bytes) -> None:
        try:
            if self.place.exists() and self.place.stat().st_size > self.LARGEST:
                self.place.replace(self.place.with_suffix(".1"))
            with open(self.place, "ab") as file:
                file.write(piece)
        except OSError:
            # A full disk: what a program prints is the first to be left out.
            pass

    def _show(self, line: str) -> None:
        if not self.room.take():
            return
        missed = self.room.missed()
        if missed:
            self.log.show(f"said      {self.moniker} .. and {missed} lines before, which the log has")
        self.log.show(f"said      {self.moniker} | {line[:500]}")


def place_of(folder: Path, moniker: str) -> Path:
    """The file of what an instance prints; its name is the moniker's, as far as a file may be named so."""
    name = moniker.replace("/", "%2F") if moniker != "." else "root"
    if len(name) > 200:
        name = f"{name[:160]}-{hashlib.sha256(moniker.encode()).hexdigest()[:16]}"
    return folder / f"said-{name}.log"
