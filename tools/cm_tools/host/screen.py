"""Lines for a person who looks on."""

from __future__ import annotations

import select
from typing import TextIO

from cm_tools.console import drop_output

# Of a line so many characters are shown, with what goes before it fewer bytes than a pipe that takes anything
# takes at once.
LONGEST = 1000


class Screen:
    """Shows lines, as far as they are taken. Nothing waits for a person: what a terminal that was stopped, or
    a pipe that is full, doesn't take is left out. Nothing is shown where nobody reads it any more."""

    def __init__(self, stream: TextIO) -> None:
        self.stream, self.is_over, self.left_out = stream, False, 0
        self.room: select.poll | None = select.poll()
        try:
            self.room.register(stream.fileno(), select.POLLOUT)
        except (OSError, ValueError):
            # It stands for a stream, and takes all.
            self.room = None

    def show(self, text: str) -> None:
        """Shows a line."""
        if self.is_over:
            return
        if self.room is not None and not self.room.poll(0):
            self.left_out += 1
            return
        if self.left_out:
            self._write(f"host      {self.left_out} lines weren't taken here; the log has them")
            self.left_out = 0
        self._write(printable(text[:LONGEST]))

    def _write(self, text: str) -> None:
        try:
            self.stream.write(text + "\n")
            self.stream.flush()
        except (OSError, ValueError):
            self.is_over = True
            drop_output()


def printable(text: str) -> str:
    """A line without what steers a terminal, which a program may have printed."""
    return text if text.isprintable() else "".join(one if one.isprintable() else "?" for one in text)
