#!/usr/bin/env python3
"""Compares what the script at the top makes of words with what the program makes of them.

    .ci/words.py PROGRAM

Each list of words of the table below is given to both, with an empty input. The program ends with status 2
exactly where the words ask for nothing. There the script has to end so too, by itself and with a line that
says why; and where the program takes the words the script has to hand them on as they are. The words for
help, for the version and for files to check are the script's own, and the program refuses them. Without any
words both write the same usage line. What differs is printed, a line each, with status 1.
"""

import os
import subprocess
import sys
import tempfile

TOP = os.path.dirname(os.path.dirname(os.path.abspath(__file__)))
SCRIPT = os.path.join(TOP, "component_manager")
# How long anything may take, in seconds.
PATIENCE = 600
# No socket can be made there, so that a server ends at once.
NOWHERE = "/nowhere/at/all"
SERVED = ["serve", NOWHERE, "--root", "fuchsia-pkg://t/a#meta/r.cm", "--repo", "."]
# What the words are to be: the program's, the script's own, or words that ask for nothing.
RUNS, OWN, NOTHING = "runs", "own", "nothing"
TABLE = [
    (NOTHING, []),
    (NOTHING, ["frobnicate"]),
    (NOTHING, [""]),
    (NOTHING, ["--journal"]),
    (OWN, ["help"]),
    (OWN, ["--help"]),
    (OWN, ["help", "serve"]),
    (OWN, ["run", "--help"]),
    (OWN, ["serve", "-h"]),
    (OWN, ["--version"]),
    (NOTHING, ["--version", "run"]),
    (NOTHING, ["--where", "run"]),
    (NOTHING, ["help", "run", "serve"]),
    (RUNS, ["check"]),
    (RUNS, ["check", "--"]),
    (OWN, ["check", "examples/core.cml"]),
    (NOTHING, ["check", "--journal"]),
    (RUNS, ["run"]),
    (RUNS, ["run", "--journal"]),
    (RUNS, ["run", "--repo", "examples", "--journal"]),
    (RUNS, ["run", "--repo=examples"]),
    (RUNS, ["run", "--repo="]),
    (RUNS, ["run", "--repo", "-"]),
    (RUNS, ["run", "--"]),
    (NOTHING, ["run", "--journal", "--journal"]),
    (NOTHING, ["run", "--journal=yes"]),
    (NOTHING, ["run", "--repo"]),
    (NOTHING, ["run", "--repo", "--journal"]),
    (NOTHING, ["run", "--repo", "a", "--repo", "b"]),
    (NOTHING, ["run", "--journals"]),
    (NOTHING, ["run", "examples/logger-route.txt"]),
    (NOTHING, ["run", "--", "--journal"]),
    (RUNS, ["generate", "1", "2"]),
    (RUNS, ["generate", "+1", "002"]),
    (RUNS, ["generate", "--", "1", "2"]),
    (RUNS, ["generate", "2147483647", "1"]),
    (NOTHING, ["generate", "2147483648", "1"]),
    (NOTHING, ["generate", "1", "0"]),
    (NOTHING, ["generate", "1", "10001"]),
    (NOTHING, ["generate", "1"]),
    (NOTHING, ["generate", "1", "2", "3"]),
    (NOTHING, ["generate", "-1", "2"]),
    (NOTHING, ["generate", "one", "2"]),
    (RUNS, ["environments"]),
    (RUNS, ["environments", "--repo", "examples"]),
    (NOTHING, ["environments", "--journal"]),
    (NOTHING, ["environments", "examples/logger-route.txt"]),
    (RUNS, ["storage", "--repo=examples"]),
    (RUNS, ["storage", "--"]),
    (NOTHING, ["storage", "--repo"]),
    (NOTHING, ["storage", "--repo", "a", "--repo", "b"]),
    (NOTHING, ["environment"]),
    (RUNS, ["audit"]),
    (NOTHING, ["audit", "journal.txt"]),
    (NOTHING, ["audit", "--repo", "examples"]),
    (RUNS, SERVED),
    (RUNS, [*SERVED, "--sessions=4096", "--workers", "+16"]),
    (NOTHING, [*SERVED, "--sessions", "4097"]),
    (NOTHING, [*SERVED, "--workers=0"]),
    (NOTHING, [*SERVED, "--root", "twice"]),
    (NOTHING, SERVED[:4]),
    (NOTHING, ["serve", *SERVED[2:]]),
    (NOTHING, ["serve"]),
]


def program_refuses(program, words):
    """Whether the program says that the words ask for nothing."""
    done = subprocess.run([program, *words], stdin=subprocess.DEVNULL, capture_output=True, cwd=TOP,
                          timeout=PATIENCE, check=False)
    return done.returncode == 2


def usage_of(program):
    """The usage line that a program or the script writes where no words are given."""
    done = subprocess.run([program], stdin=subprocess.DEVNULL, capture_output=True, cwd=TOP, timeout=PATIENCE,
                          check=False)
    return [line for line in done.stderr.decode().split("\n") if line.startswith("usage:")]


def script_gives(stand_in, words):
    """The words that the script hands on to a program that prints them; its status and its error stream."""
    given = {**os.environ, "COMPONENT_MANAGER_PROGRAM": stand_in}
    done = subprocess.run([SCRIPT, *words], stdin=subprocess.DEVNULL, capture_output=True, cwd=TOP, env=given,
                          timeout=PATIENCE, check=False)
    # Where the script reads what the program prints, as for files to check, no mark comes through.
    handed = done.stdout.decode().split("\0")[:-1] if done.stdout.endswith(b"\0") else None
    return handed, done.returncode, done.stderr.decode()


def differences(program, stand_in, kind, words):
    """What is wrong with one list of words."""
    handed, status, told = script_gives(stand_in, words)
    if program_refuses(program, words) == (kind == RUNS):
        yield f"the program {'refuses' if kind == RUNS else 'takes'} them"
    if (handed is not None) != (kind == RUNS):
        yield f"the script {'hands them on' if handed is not None else 'keeps them'}"
    if handed is not None and handed != words:
        yield f"the script hands on {handed}"
    if kind == NOTHING and (status != 2 or not told.strip()):
        yield f"the script ends with status {status}"
    if kind == OWN and status == 2:
        yield "the script refuses its own words"


def main(words):
    if len(words) != 1:
        print("usage: words.py PROGRAM", file=sys.stderr)
        return 2
    wrong = 0
    own, usage = usage_of(SCRIPT), usage_of(os.path.abspath(words[0]))
    if own != usage:
        print(f"words: the script writes {own}, the program {usage}")
        wrong += 1
    with tempfile.TemporaryDirectory(prefix="words-") as folder:
        stand_in = os.path.join(folder, "program")
        with open(stand_in, "w", encoding="utf-8") as file:
            file.write("#!/bin/sh\n[ $# -eq 0 ] || printf '%s\\0' \"$@\"\nexit 77\n")
        os.chmod(stand_in, 0o755)
        for kind, row in TABLE:
            for told in differences(os.path.abspath(words[0]), stand_in, kind, row):
                print(f"words: {' '.join(row) or '(none)'}: {told}")
                wrong += 1
    print(f"words: {len(TABLE)} lists of words, {wrong} differences")
    return 1 if wrong else 0


if __name__ == "__main__":
    sys.exit(main(sys.argv[1:]))
