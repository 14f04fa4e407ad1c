#!/usr/bin/env python3
"""Times the workloads `generate 7 1000` and `generate 7 10000`, and prints their seconds and the ratio.

It makes the draws itself, and ends where a workload's line counts otherwise. Run it from anywhere:
bench/generate.py [PROGRAM]
"""
import os
import subprocess
import sys
import time

HERE = os.path.dirname(os.path.abspath(__file__))
PROGRAM = sys.argv[1] if len(sys.argv) > 1 else os.path.join(HERE, "..", "component_manager")
SEED = 7
SIZES = (1000, 10000)


def line_of(seed, size):
    """The line of a workload: all are started, the root is shown whenever it is drawn, and an instance
    that is drawn again is answered by what was kept."""
    shown = 0
    drawn = set()
    for _ in range(size):
        seed = (seed * 1103515245 + 12345) % 2**31
        instance = seed // 65536 % size
        shown += instance == 0
        drawn.add(instance)
    opened = size - shown
    kept = opened - len(drawn - {0})
    return "instances %d started %d opened %d shown %d kept %d\n" % (size, size, opened, shown, kept)


def seconds(size):
    """Seconds of the clock of one run."""
    words = [PROGRAM, "generate", str(SEED), str(size)]
    begin = time.monotonic()
    run = subprocess.run(words, stdin=subprocess.DEVNULL, capture_output=True, text=True)
    clock = time.monotonic() - begin
    if run.returncode or run.stdout != line_of(SEED, size):
        sys.exit("generate %d %d: status %d, %r" % (SEED, size, run.returncode, run.stdout))
    return clock


def main():
    clocks = [seconds(size) for size in SIZES]
    for size, clock in zip(SIZES, clocks):
        print("generate %d %d: %.2f seconds" % (SEED, size, clock))
    print("ratio: %.1f" % (clocks[1] / clocks[0]))


if __name__ == "__main__":
    main()
