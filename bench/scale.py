#!/usr/bin/env python3
"""Prints how the time and memory of a run grow with the realm, beside those of another program.

Each case is a script whose run is measured less that of its base: what the realm takes to be made is
measured by a script without the commands, and taken off. Times are the processor's seconds of the least
of three runs (--runs), or of one where that takes more than ten; with --instructions they are counted by
valgrind (millions), which is the same each time. The other program, if one is named, has to run the same
scripts (`PROGRAM run < SCRIPT`, `PROGRAM check < MANIFEST`). A run that takes more of the processor's seconds
than --seconds is ended and shown as `time`, and larger ones of its kind aren't tried (`-`). One that ends for
want of the address space that it may have (--gigabytes) is shown as `memory`.

Usage: bench/scale.py [--instructions] [--runs N] [--seconds N] [--gigabytes N] [--only WORD]
                      [PROGRAM [OTHER]]
"""
import argparse
import math
import os
import re
import resource
import shutil
import signal
import subprocess
import sys
import tempfile
import time
from dataclasses import dataclass, field

HERE = os.path.dirname(os.path.abspath(__file__))
BUILT = os.path.join(HERE, "..", "component_manager")
PACKAGE = "fuchsia-pkg://bench/p#meta/"
# A run is made once where it takes longer than so many seconds.
LONG = 10
# How many times its processor's seconds a run may take by the clock.
CLOCK = 30
# What the bases of cases took: several cases have one.
BASES = {}


@dataclass
class Case:
    """A kind of work at one size: the script, and the one whose cost is taken off."""

    kind: str
    size: int
    script: str
    base: str = ""
    words: tuple = ("run",)
    commands: int = 1


@dataclass
class Cost:
    """What a run took: seconds (or millions of instructions), and megabytes at its highest; or why it has no
    number."""

    work: float
    megabytes: float = field(default=0.0)
    lacks: str = ""


def manifest(name, text):
    return f"manifest {PACKAGE}{name}.cm\n{text}\n%%\n"


def moniker(number):
    """Where the instance of this number stands in a tree by fours."""
    names = []
    while number:
        names.append(f"i{number}")
        number = (number - 1) // 4
    return "/".join(reversed(names)) or "."


def by_fours(instances):
    """A tree by fours: each instance offers its own protocol to its children, which use it."""
    texts = []
    for number in range(instances):
        below = range(4 * number + 1, min(4 * number + 5, instances))
        children = ",".join(f'{{"name":"i{it}","url":"#meta/{it}.cm"}}' for it in below)
        targets = ",".join(f'"#i{it}"' for it in below)
        text = f'{{"program":{{"runner":"gen"}},"capabilities":[{{"protocol":"p.{number}"}}]'
        if below:
            text += f',"children":[{children}]'
            text += f',"offer":[{{"protocol":"p.{number}","from":"self","to":[{targets}]}}]'
        if number:
            text += f',"use":[{{"protocol":"p.{(number - 1) // 4}"}}]'
        texts.append(manifest(number, text + "}"))
    return "".join(texts) + f"root {PACKAGE}0.cm\n"


def generated(instances, lanes):
    """The workload of `generate 7 N` as a script: each instance is started, and as many uses are opened."""
    lines = [by_fours(instances)]
    lines += [f"{it % lanes} start {moniker(it)}\n" for it in range(instances)]
    lines.append("sync\n")
    drawn = 7
    for turn in range(instances):
        drawn = (drawn * 1103515245 + 12345) % 2**31
        number = drawn // 65536 % instances
        lane = turn % lanes
        opened = f"open {moniker(number)} /svc/p.{(number - 1) // 4}" if number else "show ."
        lines.append(f"{lane} {opened}\n")
    return "".join(lines)


def flat(instances):
    """A root with groups of about 1,024 instances below it, so that each stands at one depth."""
    leaves, groups = instances - 1, max(1, (instances - 1) // 1024)
    names = [f"g{it}" for it in range(groups)]
    shares = [leaves // groups + (it < leaves % groups) - 1 for it in range(groups)]
    children = ",".join(f'{{"name":"{it}","url":"#meta/{it}.cm"}}' for it in names)
    offers = ",".join(f'"#{it}"' for it in names)
    offer = '"offer":[{"protocol":"p","from":"%s","to":[%s]}]'
    root = f'{{"children":[{children}],"capabilities":[{{"protocol":"p"}}],{offer % ("self", offers)}}}'
    text, where = manifest("root", root), ["."]
    for name, share in zip(names, shares):
        kids = [f"{name}c{it}" for it in range(share)]
        inside = ",".join(f'{{"name":"{it}","url":"#meta/leaf.cm"}}' for it in kids)
        targets = ",".join(f'"#{it}"' for it in kids)
        text += manifest(name, f'{{"children":[{inside}],{offer % ("parent", targets)}}}')
        where += [f"{name}/{it}" for it in kids]
    text += manifest("leaf", '{"program":{"runner":"gen"},"use":[{"protocol":"p"}]}')
    return text + f"root {PACKAGE}root.cm\n", where[1:]


def each_command(size, commands=20000):
    """Commands of each kind on the instances of a realm of this size, in turns."""
    text, where = flat(size)
    started = text + "".join(f"0 start {it}\n" for it in where)
    for kind, line in (("show", "show {}"), ("find @", "show @{}"), ("route", "route {} /svc/p"),
                       ("open", "open {} /svc/p")):
        chosen = [it * 7919 % len(where) for it in range(commands)]
        asked = "".join(f"0 {line.format(it + 1 if '@' in kind else where[it])}\n" for it in chosen)
        yield Case(kind, size, started + asked, started, commands=commands)


def shutdowns(size):
    text = by_fours(size)
    started = text + "".join(f"0 start {moniker(it)}\n" for it in range(size))
    yield Case("shutdown by fours", size, started + "0 shutdown .\n", started, commands=size)
    text, where = flat(size)
    started = text + "".join(f"0 start {it}\n" for it in where)
    yield Case("shutdown flat", size, started + "0 shutdown .\n", started, commands=size)


def children(size):
    """So many children of one collection are created, started and destroyed, one by one."""
    text = manifest("root", '{"collections":[{"name":"k","durability":"transient"}]}')
    text += manifest("x", '{"program":{"runner":"gen"}}') + f"root {PACKAGE}root.cm\n0 start .\n"
    made = text + "".join(f"0 create . k x{it} #meta/x.cm\n" for it in range(size))
    made += "".join(f"0 start k:x{it}\n" for it in range(size))
    yield Case("create and start", size, made, text, commands=size)
    destroyed = "".join(f"0 destroy k:x{it}\n" for it in range(size))
    yield Case("destroy", size, made + destroyed, made, commands=size)


def large_manifest():
    rows = ("children", '{"name":"c%d","url":"#meta/c%d.cm"}'), ("capabilities", '{"protocol":"q%d"}'), \
           ("use", '{"directory":"d%d","rights":["r*"],"path":"/data/d%d"}'), \
           ("expose", '{"protocol":"q%d","from":"self"}')
    size = 6300
    parts = [f'"{name}":[{",".join(it.replace("%d", str(k)) for k in range(size))}]' for name, it in rows]
    yield Case("check", 1, '{"program":{"runner":"elf"},' + ",".join(parts) + "}", words=("check",))


def cases():
    for size in (1000, 2000, 10000):
        for lanes in (1, 4):
            yield Case(f"generate, lanes {lanes}", size, generated(size, lanes), commands=2 * size)
    for size in (1000, 8000, 65536):
        yield from each_command(size)
    for size in (250, 500, 1000, 10000, 65536):
        yield from shutdowns(size)
    for size in (1000, 20000):
        yield from children(size)
    yield from large_manifest()


def run(program, words, text, options):
    """The cost of one run of a program over a text."""
    with tempfile.TemporaryDirectory() as folder:
        path, counted = os.path.join(folder, "in"), os.path.join(folder, "counted")
        with open(path, "w") as file:
            file.write(text)
        command = [program, *words]
        if options.instructions:
            command = ["valgrind", "--tool=cachegrind", "--cache-sim=no", "--cachegrind-out-file=/dev/null",
                       f"--log-file={counted}", *command]
        with open(path) as source:
            child = subprocess.Popen(command, stdin=source, stdout=subprocess.DEVNULL,
                                     stderr=subprocess.PIPE, preexec_fn=lambda: bounded(options))
            found = ended(child, options.seconds)
        if not found.lacks and options.instructions:
            with open(counted) as file:
                told = re.search(r"I *refs: *([\d,]+)", file.read())
            found.work = int(told[1].replace(",", "")) / 1e6
        return found


def bounded(options):
    """Of a child, before its program: what it may have, and no file of what it was when it was killed."""
    size, seconds = int(options.gigabytes * 2**30), math.ceil(options.seconds)
    if not options.instructions:
        resource.setrlimit(resource.RLIMIT_AS, (size, size))
        resource.setrlimit(resource.RLIMIT_CPU, (seconds, seconds))
    resource.setrlimit(resource.RLIMIT_CORE, (0, 0))


def memory(pid):
    """The most megabytes that a process has held so far, or nothing where it has ended."""
    try:
        with open(f"/proc/{pid}/status") as file:
            told = re.search(r"VmHWM:\s*(\d+)", file.read())
    except OSError:
        return 0.0
    return int(told[1]) / 1024 if told else 0.0


def ended(child, seconds):
    """What a process used when it has ended; it is ended where it takes too long, by the clock too, as
    where it waits for something that doesn't come."""
    begun, highest, passed = time.monotonic(), 0.0, 0.0
    with child.stderr:
        while passed < CLOCK * seconds:
            highest = max(highest, memory(child.pid))
            pid, status, usage = os.wait4(child.pid, os.WNOHANG)
            if pid:
                child.returncode = os.waitstatus_to_exitcode(status)
                return Cost(usage.ru_utime + usage.ru_stime, peak(usage, highest), lack(child))
            passed = time.monotonic() - begun
            time.sleep(min(0.005, 0.0005 + passed / 20))
        child.kill()
        child.wait()
    return Cost(0, highest, "time")


def peak(usage, seen):
    """The most megabytes of a child that has ended. The system counts what this process had when the child
    began, so where that isn't less, what was seen from time to time counts."""
    told = usage.ru_maxrss / 1024
    return told if told > resource.getrusage(resource.RUSAGE_SELF).ru_maxrss / 1024 else seen


def lack(child):
    """Why a child that has ended has no number, if it hasn't: its memory ran out."""
    if child.returncode == 0:
        return ""
    if child.returncode in (2, 7):
        sys.exit(f"{child.args[0]} refuses its words or its script: {child.stderr.read(200).decode()}")
    if child.returncode in (-signal.SIGXCPU, -signal.SIGKILL):
        return "time"
    return "memory" if child.returncode in (6, -signal.SIGABRT) else f"status {child.returncode}"


def least(program, words, text, options):
    """The cheapest of some runs, or the first one where that has no number or took long."""
    found = []
    while len(found) < (1 if options.instructions else options.runs):
        found.append(run(program, words, text, options))
        if found[-1].lacks or found[-1].work > LONG:
            break
    return min(found, key=lambda it: (bool(it.lacks), it.work))


def cost(program, case, options):
    """What the case costs above its base, and its highest memory."""
    whole = least(program, case.words, case.script, options)
    if whole.lacks or not case.base:
        return whole
    key = program, case.words, hash(case.base)
    if key not in BASES:
        BASES[key] = least(program, case.words, case.base, options)
    return Cost(whole.work - BASES[key].work, whole.megabytes, BASES[key].lacks)


def shown(found, case):
    if found.lacks:
        return f"{found.lacks:>10} {'-':>10} {found.megabytes:>8.0f}"
    each = found.work / case.commands * 1e6
    return f"{found.work:>10.3f} {each:>10.1f} {found.megabytes:>8.0f}"


def options_of(text):
    """What the words of the command line ask for, and the programs; prints the head of the table."""
    parser = argparse.ArgumentParser(description=text.split("\n", maxsplit=1)[0])
    parser.add_argument("--instructions", action="store_true", help="count instructions, with valgrind")
    parser.add_argument("--runs", type=int, default=3, help="of which the cheapest counts")
    parser.add_argument("--seconds", type=float, default=60, help="the most processor seconds of a run")
    parser.add_argument("--gigabytes", type=float, default=8, help="the most address space of a run")
    parser.add_argument("--only", default="", help="cases of which the kind has this word")
    parser.add_argument("programs", nargs="*", metavar="PROGRAM")
    options = parser.parse_args()
    if options.instructions and not shutil.which("valgrind"):
        sys.exit("scale: valgrind isn't here")
    unit = "million instructions, instructions" if options.instructions else "seconds, microseconds"
    print(f"for each program: {unit} a command, megabytes; load {os.getloadavg()[0]:.1f}")
    return options, options.programs or [BUILT]


def measured(program, case, too_long, options):
    """What the case costs a program, unless a smaller one of its kind took too long."""
    if (program, case.kind) in too_long:
        return Cost(0, 0, "-")
    found = cost(program, case, options)
    if found.lacks:
        too_long.add((program, case.kind))
    return found


def ratio_of(found):
    """How often the second cost goes into the first one; nothing where one of them has no number."""
    if len(found) < 2 or any(it.lacks for it in found) or found[1].work <= 0:
        return None
    return found[0].work / found[1].work


def main():
    options, programs = options_of(__doc__)
    too_long = set()
    for case in cases():
        if options.only not in case.kind:
            continue
        found = [measured(it, case, too_long, options) for it in programs]
        ratio = ratio_of(found)
        row = " |".join(shown(it, case) for it in found)
        told = "" if ratio is None else f"{ratio:>8.1f}"
        print(f"{case.kind:<20} {case.size:>6} |{row} |{told}", flush=True)


if __name__ == "__main__":
    main()
