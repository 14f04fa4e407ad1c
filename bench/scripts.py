#!/usr/bin/env python3
"""Runs the program on scripts of 4, 16 and 64 MiB, and prints time and memory for each, and their
growth.

The largest has 1,000 manifests besides the example's, of about 62 KiB each, and 100,000 command
lines; the others have a sixteenth and a quarter of both. The memory that is told is never less than
that of this script, of which each run begins as a copy; the example alone shows it. Then it tries
the limit itself: a script of 64 MiB has no root line, and one with a line more is too large. Run it
from anywhere: bench/scripts.py [PROGRAM]
"""
import os
import subprocess
import sys
import tempfile

HERE = os.path.dirname(os.path.abspath(__file__))
PROGRAM = sys.argv[1] if len(sys.argv) > 1 else os.path.join(HERE, "..", "component_manager")
EXAMPLE = os.path.join(HERE, "..", "examples", "logger-route.txt")
LIMIT = 1 << 26


def manifest(number, size):
    """A block of about that size, and of no more."""
    head = 'manifest fuchsia-pkg://bench/p#meta/m%d.cm\n{"children":[' % number
    child = '{"name":"child-%d","url":"#meta/child-%d.cm"}'
    parts, length, k = [], len(head) + len("]}\n%%\n"), 0
    while length + len(child % (k, k)) + 1 <= size:
        parts.append(child % (k, k))
        length += len(parts[-1]) + 1
        k += 1
    return head + ",".join(parts) + "]}\n%%\n"


def script(path, size):
    """Writes a script of that size or a little less; the example has the root, the client and its line."""
    with open(EXAMPLE) as example:
        end = example.read()
    question = [line for line in end.splitlines(keepends=True) if line.startswith("0 ")][-1]
    lines = 100000 * size // LIMIT
    blocks = 1000 * size // LIMIT
    room = (size - len(end) - lines * len(question)) // blocks
    with open(path, "w") as file:
        for number in range(blocks):
            file.write(manifest(number, room))
        file.write(end)
        file.write(question * lines)


def measure(path):
    """Seconds, the most KiB of memory, and the status of one run in a process of its own."""
    child = os.fork()
    if child:
        _, status, usage = os.wait4(child, 0)
        return usage.ru_utime + usage.ru_stime, usage.ru_maxrss, os.waitstatus_to_exitcode(status)
    with open(path) as source, open(os.devnull, "w") as nothing:
        os.dup2(source.fileno(), 0)
        os.dup2(nothing.fileno(), 1)
        os.execv(PROGRAM, [PROGRAM, "run"])


def refusal(path):
    """The status of a run, and its line on the error stream."""
    with open(path) as source:
        ran = subprocess.run([PROGRAM, "run"], stdin=source, stdout=subprocess.DEVNULL,
                             stderr=subprocess.PIPE, text=True)
    return ran.returncode, ran.stderr


def limits():
    """Whether the largest script is read to its end, and one that is larger is refused for that."""
    line = "#" * 65535 + "\n"
    for lines, told in ((1024, "line 1025: 72 no-root\n"), (1025, "line 1025: 76 too-large\n")):
        with tempfile.NamedTemporaryFile("w", suffix=".txt") as file:
            file.write(line * lines)
            file.flush()
            found = refusal(file.name)
        if found != (7, told):
            sys.exit("%d bytes: %r" % (lines * len(line), found))
        print("%9d bytes: %s" % (lines * len(line), told), end="")


def main():
    with open(EXAMPLE) as source:
        subprocess.run([PROGRAM, "run"], stdin=source, stdout=subprocess.DEVNULL, check=True)
    _, kib, _ = measure(EXAMPLE)
    print("the example alone: %.1f MiB of memory" % (kib / 1024))
    earlier = None
    for size in (LIMIT // 16, LIMIT // 4, LIMIT):
        with tempfile.NamedTemporaryFile("w", suffix=".txt") as file:
            script(file.name, size)
            seconds, kib, status = measure(file.name)
            whole = os.path.getsize(file.name)
        if status != 0:
            sys.exit("the program ended with status %d" % status)
        growth = "" if earlier is None else "  %.2f times the time of a quarter" % (seconds / earlier)
        print("%9d bytes: %6.2f s  %7.1f MiB of memory, %.2f times the size%s"
              % (whole, seconds, kib / 1024, kib * 1024 / whole, growth))
        earlier = seconds
    limits()


if __name__ == "__main__":
    main()
