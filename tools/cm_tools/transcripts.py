"""What a client of a session saw: its commands and the replies, each line with its time.

A line is `SECONDS > COMMAND` or `SECONDS < LINE OF A REPLY`, where the seconds are since the session began.
The first line says that it is a transcript, and of which socket.
"""

from __future__ import annotations

import re
import threading
import time
from io import RawIOBase

FIRST = b"# transcript of a session at "
LINE = re.compile(r"[0-9]+\.[0-9]+ ([<>]) (.*)")


class Transcript:
    """Writes down what is sent and what comes, from two threads, line by line.

    Where the file takes no more, nothing more is written, the session goes on, and `fault` says why.
    """

    def __init__(self, file: RawIOBase, path: str) -> None:
        self._file, self._begun, self._lock = file, time.monotonic(), threading.Lock()
        self.fault: OSError | None = None
        self._write(FIRST + path.encode("utf-8", "surrogateescape") + b"\n")

    def note(self, mark: bytes, line: bytes) -> None:
        """Notes a line behind its mark, `>` or `<`."""
        seconds = time.monotonic() - self._begun
        with self._lock:
            self._write(b"%.6f %s %s\n" % (seconds, mark, line.rstrip(b"\n")))

    def _write(self, line: bytes) -> None:
        try:
            while line and self.fault is None:
                line = line[self._file.write(line) or 0:]
        except OSError as fault:
            self.fault = fault


def is_transcript(data: bytes) -> bool:
    """Whether these bytes are a transcript's."""
    return data.startswith(FIRST)


def parts_of(text: str) -> tuple[list[tuple[int, str]], list[str]]:
    """The commands of a transcript, each with its line number, and the lines of the replies. A `quit` has no
    reply, and isn't among the commands.
    """
    commands, replies = [], []
    for number, line in enumerate(text.split("\n"), 1):
        found = LINE.fullmatch(line)
        if found and found[1] == ">" and found[2] != "quit":
            commands.append((number, found[2]))
        elif found and found[1] == "<":
            replies.append(found[2])
    return commands, replies
