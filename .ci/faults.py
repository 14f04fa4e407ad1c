#!/usr/bin/env python3
"""Runs each file of examples/faults as its table says, and compares the status and the line.

    .ci/faults.py [--program PATH]

A line of the table expected.txt has a file, the words for the program, its exit status and the expected line,
parted by `|`. At status 0 and 1 that line is the last one of the output, at any other the last one of the
error stream. Every file of the folder has to be in the table. The status is 0 where all is as the table says,
and 1 where something isn't.
"""

import argparse
import os
import subprocess
import sys

TOP = os.path.dirname(os.path.dirname(os.path.abspath(__file__)))
FAULTS = os.path.join(TOP, "examples", "faults")
TABLE = os.path.join(FAULTS, "expected.txt")
# How long one file may take, in seconds.
PATIENCE = 600


def rows():
    """The rows of the table, each with its line number, file, words, status and expected line."""
    with open(TABLE, encoding="utf-8") as lines:
        for number, line in enumerate(lines, 1):
            if line.strip() and not line.startswith("#"):
                file, words, status, expected = (cell.strip() for cell in line.split("|", 3))
                yield number, file, words.split(), int(status), expected


def told(done):
    """The line that counts of what a program printed."""
    stream = done.stderr if done.returncode > 1 else done.stdout
    return stream.decode("utf-8", "replace").rstrip("\n").rsplit("\n", 1)[-1]


def is_as_said(program, number, file, words, status, expected):
    """Whether a file's run is as its row says; a difference is printed."""
    with open(os.path.join(FAULTS, file), "rb") as given:
        done = subprocess.run([program, *words], stdin=given, capture_output=True, cwd=TOP, timeout=PATIENCE,
                              check=False)
    if (done.returncode, told(done)) == (status, expected):
        return True
    print(f"examples/faults/expected.txt:{number}: {file}")
    print(f"  expected: status {status}, {expected}")
    print(f"  printed:  status {done.returncode}, {told(done)}")
    return False


def main():
    parser = argparse.ArgumentParser(description="Runs the files of examples/faults and compares the lines.")
    parser.add_argument("--program", metavar="PATH", default=os.path.join(TOP, "component_manager"),
                        help="the program in the place of ./component_manager")
    program = os.path.abspath(parser.parse_args().program)
    table = list(rows())
    left_out = sorted(set(os.listdir(FAULTS)) - {row[1] for row in table} - {"expected.txt"})
    for file in left_out:
        print(f"examples/faults/{file} isn't in the table")
    count = sum(not is_as_said(program, *row) for row in table) + len(left_out)
    print(f"{len(table)} faults, {count} differ")
    return 0 if table and not count else 1


if __name__ == "__main__":
    sys.exit(main())
