#!/usr/bin/env python3
"""Runs the same 16,000 commands from 1, 4 and 16 lanes over a realm of 100 instances, and prints
commands per second, and bytes of memory for each entry of the history.

The commands show, start and route in turns. Each command makes two entries or three: it looks for
the instance, and then makes its own event. Run it from anywhere: bench/lanes.py [PROGRAM]
"""
import os
import sys
import tempfile
import time

HERE = os.path.dirname(os.path.abspath(__file__))
PROGRAM = sys.argv[1] if len(sys.argv) > 1 else os.path.join(HERE, "..", "component_manager")
INSTANCES = 100
COMMANDS = 16000

ROOT = (
    'manifest fuchsia-pkg://bench/p#meta/root.cm\n{"children":[%s],"capabilities":[{"protocol":"p"}],'
    '"offer":[{"protocol":"p","from":"self","to":[%s]}]}\n%%%%\n'
)
LEAF = (
    'manifest fuchsia-pkg://bench/p#meta/leaf.cm\n'
    '{"program":{"runner":"elf"},"use":[{"protocol":"p"}]}\n%%\n'
)


def script(path, lanes, commands):
    """Writes a script with so many lanes, which have the commands in turns."""
    names = ["i%d" % number for number in range(1, INSTANCES)]
    children = ",".join('{"name":"%s","url":"#meta/leaf.cm"}' % name for name in names)
    targets = ",".join('"#%s"' % name for name in names)
    with open(path, "w") as file:
        file.write(ROOT % (children, targets))
        file.write(LEAF)
        file.write("root fuchsia-pkg://bench/p#meta/root.cm\n")
        for number in range(commands):
            name = names[number % len(names)]
            line = ("show %s", "start %s", "route %s /svc/p")[number % 3] % name
            file.write("%d %s\n" % (number % lanes, line))


def measure(path, out):
    """Seconds of the clock and of the processor, the most KiB of memory, and the status of one run.

    It runs in a process of its own.
    """
    begin = time.monotonic()
    child = os.fork()
    if child:
        _, status, usage = os.wait4(child, 0)
        clock, processor = time.monotonic() - begin, usage.ru_utime + usage.ru_stime
        return clock, processor, usage.ru_maxrss, os.waitstatus_to_exitcode(status)
    with open(path) as source, open(out, "w") as lines:
        os.dup2(source.fileno(), 0)
        os.dup2(lines.fileno(), 1)
        os.execv(PROGRAM, [PROGRAM, "run", "--journal"])


def entries(out):
    """How many entries the journal has."""
    with open(out) as lines:
        return sum(1 for line in lines if " => " in line)


def run(lanes, commands):
    """One run, and how many entries it made."""
    with tempfile.TemporaryDirectory() as folder:
        path, out = os.path.join(folder, "script.txt"), os.path.join(folder, "out.txt")
        script(path, lanes, commands)
        clock, processor, memory, status = measure(path, out)
        if status:
            sys.exit("%d lanes: status %d" % (lanes, status))
        return clock, processor, memory, entries(out)


def main():
    _, _, base, few = run(1, COMMANDS // 16)
    print("lanes, commands each second, processor seconds, entries, bytes of memory for each further entry")
    for lanes in (1, 4, 16):
        clock, processor, memory, made = run(lanes, COMMANDS)
        each = (memory - base) * 1024 / (made - few)
        print("%d, %d, %.2f, %d, %.0f" % (lanes, COMMANDS / clock, processor, made, each))


if __name__ == "__main__":
    main()
