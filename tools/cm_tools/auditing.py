"""Asks the program, where one is at hand, whether a journal is legal, and what it says of a manifest."""

from __future__ import annotations

import subprocess

from cm_tools.console import Unusable
from cm_tools.program import program_at_hand

LEGAL, OTHER = 0, 1


def require_legal(data: bytes) -> None:
    """Refuses a journal of which the program says that it isn't legal.

    Where there is no program, or one that doesn't know the word, nothing is refused.
    """
    verdict = verdict_on(data)
    if verdict is not None and not verdict.startswith("legal "):
        raise Unusable(f"the journal isn't legal: {verdict}")


def verdict_on(data: bytes) -> str | None:
    """What the program says of the journal, without its line feed; None where it can't be asked."""
    return _verdict("audit", data)


def check_verdict(text: str) -> str | None:
    """What the program says of a manifest; None where it can't be asked."""
    return _verdict("check", text.encode("utf-8", "surrogateescape"))


def _verdict(word: str, data: bytes) -> str | None:
    program = program_at_hand()
    if program is None:
        return None
    try:
        ran = subprocess.run([program, word], input=data, capture_output=True)
    except OSError:
        return None
    if ran.returncode not in (LEGAL, OTHER):
        return None
    return ran.stdout.decode("utf-8", "replace").rstrip("\n")
