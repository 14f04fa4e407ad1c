"""Lines of a file with a caret below what is meant."""

from __future__ import annotations

from dataclasses import dataclass

SHOWN_WIDTH = 100


@dataclass(frozen=True, slots=True)
class Document:
    """A text with the name of its file and the number of its first line there."""

    label: str
    text: str
    first_line: int = 1

    def line_and_column(self, place: int) -> tuple[int, int]:
        """The line in the file and the column, both counted from 1."""
        line = self.text.count("\n", 0, place)
        column = place - (self.text.rfind("\n", 0, place) + 1)
        return self.first_line + line, column + 1

    def position(self, place: int) -> str:
        """The place as `FILE:LINE:COLUMN`."""
        line, column = self.line_and_column(place)
        return f"{self.label}:{line}:{column}"

    def pointed(self, start: int, end: int) -> str:
        """The line that has the place, with carets below it."""
        line, column = self.line_and_column(start)
        begin = self.text.rfind("\n", 0, start) + 1
        stop = self.text.find("\n", begin)
        shown = self.text[begin : len(self.text) if stop < 0 else stop].rstrip("\r")
        width = max(1, min(end - start, len(shown) - (column - 1)))
        return _pointed(shown, line, column - 1, width)


def _pointed(shown: str, line: int, column: int, width: int) -> str:
    """A long line is cut on both sides of what is meant."""
    cut = max(0, column - SHOWN_WIDTH // 2) if len(shown) > SHOWN_WIDTH else 0
    front = "..." if cut else ""
    part = shown[cut : cut + SHOWN_WIDTH]
    back = "..." if cut + SHOWN_WIDTH < len(shown) else ""
    width = max(1, min(width, SHOWN_WIDTH - (column - cut)))
    gap = "".join("\t" if one == "\t" else " " for one in shown[cut:column])
    number = f"{line:>5} | "
    below = " " * (len(number) - 2) + "| " + " " * len(front) + gap + "^" * width
    return f"{number}{front}{part}{back}\n{below}"
