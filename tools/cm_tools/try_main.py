"""The command line of `try`."""

from __future__ import annotations

import os
import shutil
import signal
from types import FrameType

from cm_tools.console import Unusable
from cm_tools.crate_tests import run_tests
from cm_tools.making import program_made
from cm_tools.sources import NAME
from cm_tools.workshops import Unmade, places, say

PROVE = "./component_manager prove makes the proved one"
UNPROVED = f"unproved: this program was made without any proof ({PROVE})"
HELP = """\
Runs the component manager without any proof, and makes it first where the sources have no program yet.

    tools/try WORDS..    runs the unproved program with these words
    tools/try --make     makes it, and says how long that took
    tools/try --where    makes it if need be, and prints where it is
    tools/try --tests [CRATE..]    makes the tests of these crates, or of all that have some, and runs them
    tools/try --clean    removes all that was made

The program stands in a folder that is named by a sum of its sources, out/quick/SUM/component_manager, and a
change of a source makes another one. Where nothing can be written or run there, the folder is one of the
user's cache. Its checks are those of the proved one: an index out of range, an overflow and the like end it
with status 132.

The status is the program's own, or 1 where a test fails; 126 where it could not be made, and 130 where Ctrl-C
ended its making.
"""
NOT_MADE = 126


def main(words: list[str]) -> int:
    """Does what the first word asks for; it doesn't return where it becomes the program."""
    for number in (signal.SIGTERM, signal.SIGHUP):
        signal.signal(number, _stopped)
    if not words:
        raise Unusable("no words are given (--help tells the words)")
    if words[0] == "--help":
        print(HELP, end="")
        return 0
    if words[0] == "--clean":
        for place in places():
            shutil.rmtree(place, ignore_errors=True)
        return 0
    try:
        return _answered(words)
    except KeyboardInterrupt as fault:
        say("stopped; nothing is kept of what was being made, and the next call begins it anew")
        return 128 + (fault.args[0] if fault.args else signal.SIGINT)
    except (Unmade, OSError) as fault:
        say(fault)
        return NOT_MADE


def _answered(words: list[str]) -> int:
    if words[0] == "--tests":
        return run_tests(words[1:])
    program = program_made(words[1] if words[0] == "--make" and len(words) == 2 else NAME)
    if words[0] == "--where":
        print(program)
    if words[0] in ("--where", "--make"):
        return 0
    say(UNPROVED)
    for number in (signal.SIGTERM, signal.SIGHUP, signal.SIGINT):
        signal.signal(number, signal.SIG_DFL)
    os.execv(program, [str(program), *words])


def _stopped(number: int, _: FrameType | None) -> None:
    raise KeyboardInterrupt(number)
