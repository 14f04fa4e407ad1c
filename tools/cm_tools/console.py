"""How each tool begins and ends: what it reads, what it writes, and its one line where it can't."""

from __future__ import annotations

import argparse
import contextlib
import gc
import os
import sys
from typing import Callable, NoReturn

UNUSABLE_STATUS = 2
INTERRUPTED_STATUS = 130


class Unusable(Exception):
    """The input can't be used; the text says why, in one line."""


class Words(argparse.ArgumentParser):
    """The parser of a tool's words, which refuses them as anything else that can't be used."""

    def error(self, message: str) -> NoReturn:
        """Says what is wrong with the words, in one line."""
        raise Unusable(f"{message.replace(chr(10), ' ')} (--help tells the words)")


def run_tool(name: str, main: Callable[[list[str]], int]) -> int:
    """Runs a tool on the words of its command line and gives its status.

    What can't be used is told in one line on the error stream, with status 2; so is an output that can't
    be written. An output that is closed early, as by `head`, ends the tool quietly, and Ctrl-C with 130.
    """
    # A tool keeps nearly all that it makes until it ends, so looking for garbage finds none.
    gc.disable()
    _open_streams()
    try:
        status = main(sys.argv[1:])
        sys.stdout.flush()
        return status
    except Unusable as fault:
        _say(name, str(fault))
    except BrokenPipeError:
        drop_output()
        return 0
    except KeyboardInterrupt:
        drop_output()
        return INTERRUPTED_STATUS
    except OSError as fault:
        drop_output()
        _say(name, f"{fault.filename or 'the output'}: {fault.strerror or fault}")
    return UNUSABLE_STATUS


def _open_streams() -> None:
    """Opens what the caller has closed, so that nothing that is opened later takes its place."""
    for number, name in enumerate(("stdin", "stdout", "stderr")):
        if getattr(sys, name) is None:
            setattr(sys, name, os.fdopen(_nothing_at(number), "w" if number else "r", encoding="utf-8"))


def _nothing_at(number: int) -> int:
    """The number of a stream, at which nothing is read and nothing kept."""
    opened = os.open(os.devnull, os.O_RDWR)
    if opened != number:
        os.dup2(opened, number)
        os.close(opened)
    return number


def drop_output() -> None:
    """Lets what is left in the buffers go: it would be written again at the end, and fail again."""
    for stream in (sys.stdout, sys.stderr):
        try:
            stream.flush()
        except (OSError, ValueError):
            with contextlib.suppress(OSError, ValueError):
                _nothing_at(stream.fileno())


def _say(name: str, text: str) -> None:
    """One line on the error stream, if that takes one."""
    with contextlib.suppress(OSError, ValueError):
        print(f"{name}: {text}", file=sys.stderr, flush=True)


def read_bytes(path: str) -> bytes:
    """The bytes of a file, or of the standard input for `-`."""
    try:
        if path == "-":
            return sys.stdin.buffer.read()
        with open(path, "rb") as file:
            return file.read()
    except OSError as fault:
        raise Unusable(f"{path}: {fault.strerror or fault}") from None


def write_text(path: str | None, text: str) -> None:
    """Writes the text to a file, or to the standard output where no file is named."""
    data = text.encode("utf-8", "surrogateescape")
    if path is None or path == "-":
        sys.stdout.buffer.write(data)
        return
    try:
        with open(path, "wb") as file:
            file.write(data)
    except OSError as fault:
        raise Unusable(f"{path}: {fault.strerror or fault}") from None
