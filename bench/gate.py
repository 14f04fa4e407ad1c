#!/usr/bin/env python3
"""Prints what the merge gate costs from nothing, crate by crate.

Runs `rt ci` on a copy of the checkout, looks at the prover's processes while it goes, and prints
for each crate the processor time of its proof, of its tests and of its must-fail edits, with the
greatest memory that one process took; then the longest chain of proofs, the machine's load, and
last a line `total N processor minutes`. With names of crates the copy has only these and those below
them, which is not the gate. `-` in the place of a time says that there is no such part.

Some kits keep on the machine what earlier runs proved: there it is `rt ci --anew`. In the others
`rt ci` proves everything from nothing by itself. It starts as many checks at once as there are
processors, unless RT_JOBS says another number: by itself the kit plans with more memory than the
checks take, and leaves processors idle.

What edits cost has two parts: one more whole proof of their crate (for all of them together, where
it has more than one), and a check of what each changes.

Usage: bench/gate.py [--kept] [NAME..]
With --kept what earlier runs on this machine proved is not proved again, where the kit keeps it, so
the table shows what was left to do. Stopped by Ctrl-C it prints what was done until then.
"""
import os
import re
import resource
import shutil
import subprocess
import sys
import tempfile
import time
from collections import defaultdict
from dataclasses import dataclass, field

TOP = os.path.dirname(os.path.dirname(os.path.abspath(__file__)))
TICKS = os.sysconf("SC_CLK_TCK")
PARTS = ("proof", "tests", "edits")
# How often the processes are looked at, in seconds. The end of each is missed by half of this on the average.
EVERY = 0.25


@dataclass
class Process:
    """A process of the prover: for which part of which crate it works, and what it has used so far."""

    crate: str
    part: str
    seconds: float = 0.0
    megabytes: float = 0.0


@dataclass
class Cost:
    """What the parts of a crate cost: processor seconds, and the most megabytes of one process."""

    seconds: dict = field(default_factory=lambda: dict.fromkeys(PARTS, 0.0))
    megabytes: dict = field(default_factory=lambda: dict.fromkeys(PARTS, 0.0))


def text_of(path):
    """The text of a file of /proc, or nothing where its process has ended."""
    try:
        with open(path, "rb") as file:
            return file.read().decode(errors="replace")
    except OSError:
        return ""


def parent_of(number):
    """The parent of a process and the ticks that it has used, or None where it has ended."""
    fields = text_of(f"/proc/{number}/stat").rpartition(")")[2].split()
    return (int(fields[1]), int(fields[11]) + int(fields[12])) if len(fields) > 12 else None


def descendants(root):
    """The processes below a process, with the ticks that each has used."""
    found = {int(name): parent_of(name) for name in os.listdir("/proc") if name.isdigit()}
    found = {number: it for number, it in found.items() if it}
    below, grown = {root}, True
    while grown:
        more = {number for number, (parent, _) in found.items() if parent in below and number not in below}
        below, grown = below | more, bool(more)
    return {number: found[number][1] for number in below if number in found}


def kind_of(number):
    """The crate and the part for which a process works, or None where it is none of the prover's."""
    words = text_of(f"/proc/{number}/cmdline").split("\0")
    if "--crate-name" not in words:
        return None
    crate = words[words.index("--crate-name") + 1]
    try:
        folder = os.readlink(f"/proc/{number}/cwd")
    except OSError:
        return None
    if "/rt-edit-" in folder:
        return crate, "edits"
    return crate, "tests" if "--test" in words else "proof"


def look(root, processes):
    """Notes what the prover's processes below the root have used so far."""
    for number, ticks in descendants(root).items():
        if number not in processes:
            kind = kind_of(number)
            if not kind:
                continue
            processes[number] = Process(*kind)
        process = processes[number]
        process.seconds = max(process.seconds, ticks / TICKS)
        peak = re.search(r"VmHWM:\s+(\d+)", text_of(f"/proc/{number}/status"))
        process.megabytes = max(process.megabytes, int(peak[1]) / 1024 if peak else 0)


def watched(command, folder, log):
    """Runs the command; returns its status, the prover's processes, its processor time and the mean load."""
    processes, loads = {}, []
    jobs = {"RT_JOBS": str(os.cpu_count()), **os.environ}
    with open(log, "w", encoding="utf-8") as out:
        streams = {"stdin": subprocess.DEVNULL, "stdout": out, "stderr": subprocess.STDOUT}
        ran = subprocess.Popen(command, cwd=folder, env=jobs, **streams)
        try:
            while ran.poll() is None:
                look(ran.pid, processes)
                loads.append(os.getloadavg()[0])
                time.sleep(EVERY)
        except KeyboardInterrupt:
            print("gate.py: stopped early; this is what was done until then", file=sys.stderr)
            ran.terminate()
            ran.wait()
    used = resource.getrusage(resource.RUSAGE_CHILDREN)
    load = sum(loads) / max(len(loads), 1)
    return ran.returncode, list(processes.values()), used.ru_utime + used.ru_stime, load


def crates_of(folder):
    """The crates of crates.txt with those that each uses, in the file's order."""
    lines = [line.partition("#")[0] for line in open(f"{folder}/crates.txt", encoding="utf-8")]
    pairs = [line.split(":") for line in lines if ":" in line]
    names = [head.split()[0] for head, _ in pairs]
    return {head.split()[0]: [it for it in rest.split() if it in names] for head, rest in pairs}


def with_those_below(names, crates):
    """These crates and all that they stand on."""
    found = set(names)
    while more := {below for name in found for below in crates[name]} - found:
        found |= more
    return found


def keeps_proofs():
    """Whether `rt ci` of this kit goes on from what earlier runs proved, so that it has the word --anew."""
    streams = {"stdin": subprocess.DEVNULL, "stdout": subprocess.PIPE, "stderr": subprocess.STDOUT}
    return b"--anew" in subprocess.run(["rt", "help"], check=False, **streams).stdout


def copy_of(room, wanted):
    """A copy of the checkout with the wanted crates alone, and without what runs leave."""
    folder = f"{room}/copy"

    def unwanted(path, names):
        if path == os.path.join(TOP, "crates"):
            return [name for name in names if name not in wanted]
        return [name for name in names if name in ("out", ".git")]

    shutil.copytree(TOP, folder, ignore=unwanted)
    write_list(folder, wanted)
    return folder


def write_list(folder, wanted):
    """Writes the crates.txt of a copy that has the wanted crates alone."""
    with open(f"{TOP}/crates.txt", encoding="utf-8") as file:
        lines = [line for line in file if line.partition(":")[0].split()[:1] in [[it] for it in wanted]]
    with open(f"{folder}/crates.txt", "w", encoding="utf-8") as file:
        file.writelines(lines)


def costs_of(processes):
    """What each crate cost."""
    costs = defaultdict(Cost)
    for it in processes:
        costs[it.crate].seconds[it.part] += it.seconds
        costs[it.crate].megabytes[it.part] = max(costs[it.crate].megabytes[it.part], it.megabytes)
    return costs


def longest_chain(crates, costs):
    """The chain of crates, each of which uses the one before it, whose proofs took longest together.

    Crates that weren't proved in this run are left out.
    """
    proved, chains = [name for name in crates if costs[name].seconds["proof"]], {}

    def chain_to(name):
        if name not in chains:
            below = max((chain_to(it) for it in crates[name] if it in proved), default=(0.0, []))
            chains[name] = (below[0] + costs[name].seconds["proof"], [*below[1], name])
        return chains[name]

    return max((chain_to(name) for name in proved), default=(0.0, ["none"]))


def count_of_edits(folder, crate):
    """How many must-fail edits a crate has."""
    edits = f"{folder}/crates/{crate}/must-fail"
    return len([it for it in os.listdir(edits) if it.endswith(".edit")]) if os.path.isdir(edits) else 0


def print_table(folder, crates, costs):
    """Prints a row for each crate that cost something, and one of sums."""
    shown = lambda number: f"{number:.0f}" if number else "-"
    print("| crate | proof | tests | edits (number) | most memory |")
    print("|---|---|---|---|---|")
    sums = dict.fromkeys(PARTS, 0.0)
    for name in crates:
        cost = costs[name]
        if not any(cost.seconds.values()):
            continue
        sums = {part: sums[part] + cost.seconds[part] for part in PARTS}
        proof, tests, edits = (shown(cost.seconds[part]) for part in PARTS)
        peak = max(cost.megabytes.values())
        print(f"| {name} | {proof} | {tests} | {edits} ({count_of_edits(folder, name)}) | {peak:.0f} MB |")
    print(f"| all | {shown(sums['proof'])} | {shown(sums['tests'])} | {shown(sums['edits'])} | |")


def main():
    """Runs the gate and prints what it cost."""
    is_kept, keeps, known = "--kept" in sys.argv[1:], keeps_proofs(), crates_of(TOP)
    names = [it for it in sys.argv[1:] if it != "--kept"]
    unknown = [it for it in names if it not in known]
    if unknown or is_kept and not keeps:
        what = f"no crate is named {unknown[0]}" if unknown else "rt ci of this kit keeps nothing"
        print(f"gate.py: {what}\nusage: bench/gate.py [--kept] [NAME..]", file=sys.stderr)
        return 2
    command = ["rt", "ci", *(["--anew"] if keeps and not is_kept else [])]
    with tempfile.TemporaryDirectory(prefix="gate-") as room:
        folder = copy_of(room, with_those_below(names or known, known))
        log = f"{room}/log"
        began = time.time()
        status, processes, total, load = watched(command, folder, log)
        crates, costs = crates_of(folder), costs_of(processes)
        print_table(folder, crates, costs)
        seconds, chain = longest_chain(crates, costs)
        print(f"\nlongest chain of proofs: {seconds:.0f} s of processor time: {', '.join(chain)}")
        minutes = (time.time() - began) / 60
        print(f"mean load {load:.1f} on {os.cpu_count()} processors, {minutes:.0f} minutes by the clock")
        lines = text_of(log).rstrip().split("\n")
        print(f"the gate's last line: {lines[-1]}")
        if status:
            print("\n".join(lines[-40:-1]), file=sys.stderr)
        print(f"total {total / 60:.0f} processor minutes")
        return 1 if status else 0


if __name__ == "__main__":
    sys.exit(main())
