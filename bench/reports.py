#!/usr/bin/env python3
"""Measures what reports on a whole realm cost, each beside the most that it may, and a reader of events.

- `environments` and `storage` of a script that resolves instances, less the script under `run`: at most
  twice what a `survey .` at its end adds. The trees have 10,000 instances in groups of 100, all below one
  parent, on three levels and by fours, 301 below one parent, and a chain of 200.
- 1,000 calls `events . NEXT`, each from where the last one ended, over a history that grows to 1,000,000
  entries: together at most twice one `events . 0` at the end.
- `show` of another session of a server, asked for right behind such a call: at most 1 ms in 99 of 100.

The first two are counted in instructions, by valgrind, and are the same each time; the last is by the
clock. The program is that of the argument, else that of COMPONENT_MANAGER, else the built one. Each line
says what was measured and its bound; the status is 1 where one is missed, and else 0.

Usage: bench/reports.py [--instances N] [--entries N] [--calls N] [--only WORD] [--shape WORD] [--word WORD]
           [PROGRAM]
"""
import argparse
import math
import os
import re
import shutil
import subprocess
import sys
import tempfile
import time

HERE = os.path.dirname(os.path.abspath(__file__))
sys.dont_write_bytecode = True
sys.path.insert(0, os.path.join(HERE, "..", "tools"))

from cm_tools.meeting import connected

BUILT = os.environ.get("COMPONENT_MANAGER", os.path.join(HERE, "..", "component_manager"))
PACKAGE = "fuchsia-pkg://bench/p#meta/"
# An `events` from here tells nothing: no history is as long.
NOWHERE = 2**64 - 1
# How many times the bounds are what a cost is compared with.
TIMES = 2
# The most milliseconds that a `show` may take, in 99 of 100.
MILLISECONDS = 1.0
# How many seconds the server gets for what has to come.
PATIENCE = 60
# How many stand below one parent in the smaller of two such trees, and how long the chain is.
FEW, DEEP = 300, 200


# What the root of a tree has.
ROOT = (
    '"environments":[{"name":"env","extends":"realm","runners":[{"runner":"elf","from":"parent"}]}],'
    '"capabilities":[{"directory":"mem","path":"/mem","rights":["rw*"]},{"storage":"data","from":"self",'
    '"backing_dir":"mem","storage_id":"static_instance_id_or_moniker"}]'
)


def manifest(name, text):
    return f"manifest {PACKAGE}{name}.cm\n{text}\n%%\n"


def tree(fans):
    """A script that resolves a tree with so many children a row, level by level, and the number of instances.
    All but the root have a runner from the root's environment, and a place in its storage. Each child has a
    line of its own, since a script's lines have an end."""
    use = '"program":{"runner":"elf"},"use":[{"storage":"data","path":"/data"}]'
    text, where, instances = "", [[]], 1
    for level, fan in enumerate(fans):
        names = [f"c{it}" for it in range(fan)]
        about = "" if level else ',"environment":"#env"'
        rows = ",\n".join(f'{{"name":"{it}","url":"#meta/{level + 1}.cm"{about}}}' for it in names)
        offer = f'{{"storage":"data","from":"{"parent" if level else "self"}","to":[{targets(names)}]}}'
        text += manifest(level, f'{{{use if level else ROOT},"children":[{rows}],"offer":[{offer}]}}')
        where = [above + [it] for above in where for it in names]
        instances += len(where)
    text += manifest(len(fans), f"{{{use}}}") + f"root {PACKAGE}0.cm\n"
    return text + "".join(f"0 resolve {'/'.join(it)}\n" for it in where), instances


def targets(names):
    return ",\n".join(f'"#{it}"' for it in names)


PAIR = "0 start i\n0 stop i\n"
ONE = (
    manifest("root", '{"children":[{"name":"i","url":"#meta/leaf.cm"}]}')
    + manifest("leaf", '{"program":{"runner":"gen"}}')
    + f"root {PACKAGE}root.cm\n"
)


def followed(pairs, froms):
    """A script with so many starts and stops before each `events`, and from where each of these reads."""
    return ONE + "".join(PAIR * pairs + ("" if it is None else f"0 events . {it}\n") for it in froms)


def ended(program, words, text, counted=False):
    """What a run of the program writes, and how many instructions it takes if they are counted."""
    with tempfile.TemporaryDirectory() as folder:
        source, told = os.path.join(folder, "in"), os.path.join(folder, "told")
        with open(source, "w") as file:
            file.write(text)
        command = [program, *words]
        if counted:
            command = ["valgrind", "--tool=cachegrind", "--cache-sim=no", "--cachegrind-out-file=/dev/null",
                       f"--log-file={told}", *command]
        with open(source) as given:
            done = subprocess.run(command, stdin=given, stdout=subprocess.PIPE, check=False)
        if done.returncode:
            sys.exit(f"reports: {' '.join(words)} ended with status {done.returncode}")
        if not counted:
            return done.stdout.decode(), 0
        with open(told) as file:
            found = re.search(r"I *refs: *([\d,]+)", file.read())
        return done.stdout.decode(), int(found[1].replace(",", ""))


def cost(program, words, text):
    return ended(program, words, text, counted=True)[1]


def tell(what, found, compared, unit):
    """Prints a measure and its bound; whether it is kept."""
    bound = TIMES * compared
    kept = found <= bound
    print(f"{what}: {found / 1e6:.1f} {unit}, bound {bound / 1e6:.1f}, "
          f"{found / max(compared, 1):.2f} times {'' if kept else '- MISSED'}".rstrip(), flush=True)
    return kept


def shapes(instances):
    """The trees, by what they are called: how many children a row has on each level."""
    groups, fan = max(1, (instances - 1) // 101), max(1, round(instances ** (1 / 3)))
    return {
        "in groups": (groups, min(100, instances)),
        "few below one parent": (min(FEW, instances),),
        "all below one parent": (instances,),
        "on three levels": (fan, fan, fan),
        "by fours": (4,) * max(1, math.ceil(math.log(instances, 4))),
        "in a chain": (1,) * min(DEEP, instances),
    }


def reports(program, options):
    """The two reports beside a survey, of each of the trees."""
    kept = [beside_survey(program, shape, options.word, *tree(fans))
            for shape, fans in shapes(options.instances).items() if options.shape in shape]
    return all(kept)


def beside_survey(program, shape, chosen, script, instances):
    """The two reports beside a survey of the same realm."""
    survey, _ = ended(program, ["run"], script + "0 survey .\n")
    if survey.count(" resolved off\n") != instances or f"0 survey . {instances}\n" not in survey:
        sys.exit("reports: the script doesn't resolve its instances")
    plain = cost(program, ["run"], script)
    added = cost(program, ["run"], script + "0 survey .\n") - plain
    kept = True
    for word, line in (("environments", r".* runner elf from parent elf at \.\n"),
                       ("storage", r".* storage /data at /mem/.* in \. incarnation 0\n")):
        if chosen not in word:
            continue
        text, _ = ended(program, [word], script)
        if len(re.findall(line, text)) != instances - 1 or text.count("\n") != instances - 1:
            sys.exit(f"reports: {word} doesn't tell of each instance: {text[:200]}")
        found = cost(program, [word], script) - plain
        about = f"{word} of {instances} instances {shape}, less run"
        kept &= tell(about, found, added, "million instructions")
    return kept


def places(program, pairs, calls):
    """From where each of so many calls has to read, so that it goes on where the one before ended."""
    text, _ = ended(program, ["run"], followed(pairs, [NOWHERE] * calls))
    nexts = [int(it) for it in re.findall(r"events \. 0 next (\d+)\n", text)]
    if len(nexts) != calls:
        sys.exit("reports: not every call of events was answered")
    return [0] + nexts[:-1], nexts[-1]


def readers(program, options):
    """One who follows, beside one pass at the end."""
    _, short = places(program, 10, 1)
    _, longer = places(program, 20, 1)
    pairs = max(1, round((options.entries / options.calls - 2) * 10 / (longer - short)))
    froms, entries = places(program, pairs, options.calls)
    if entries < 0.98 * options.entries:
        sys.exit(f"reports: the history has {entries} entries")
    silent = followed(pairs, [None] * options.calls)
    going, once = followed(pairs, froms), silent + "0 events . 0\n"
    lines = re.findall(r"(?m)^  .*$", ended(program, ["run"], going + "0 events . 0\n")[0])
    half = len(lines) // 2
    if half < 2 * pairs * options.calls or lines[:half] != lines[half:]:
        sys.exit("reports: who follows isn't told what one pass tells")
    base = cost(program, ["run"], silent)
    found, compared = (cost(program, ["run"], it) - base for it in (going, once))
    return tell(f"{options.calls} calls of events over {entries} entries, beside one pass",
                found, compared, "million instructions")


class Link:
    """A session of the server, as soon as it listens."""

    def __init__(self, path, server):
        self.link = connected(path, PATIENCE, server.poll, PATIENCE)
        self.read = self.link.makefile("rb")

    def say(self, text):
        self.link.sendall(text.encode())

    def lines(self, count):
        return [self.read.readline().decode() for _ in range(count)]


def served(program, folder):
    """A server over the realm of one child, and the path at which it serves."""
    place = os.path.join(folder, "repo", "bench", "p", "meta")
    os.makedirs(place)
    for name, text in (("root.cm", '{"children":[{"name":"i","url":"#meta/leaf.cm"}]}'),
                       ("leaf.cm", '{"program":{"runner":"gen"}}')):
        with open(os.path.join(place, name), "w") as file:
            file.write(text)
    path = os.path.join(folder, "s")
    words = ["serve", path, "--root", PACKAGE + "root.cm", "--repo", os.path.join(folder, "repo")]
    words += ["--sessions", "2", "--workers", "2"]
    return subprocess.Popen([program, *words], stdin=subprocess.DEVNULL), path


def shown_behind(reader, other, pairs, calls):
    """The milliseconds of each `show` that another session asks for right behind a call of `events`."""
    took, start = [], 0
    for _ in range(calls):
        reader.say(PAIR.replace("0 ", "") * pairs)
        reader.lines(2 * pairs)
        reader.say(f"events . {start}\n")
        begun = time.perf_counter()
        other.say("show .\n")
        shown = other.lines(1)[0]
        took.append((time.perf_counter() - begun) * 1e3)
        head = reader.lines(1)[0].split()
        if not shown.startswith("shown . ") or head[:2] != ["events", "."]:
            sys.exit(f"reports: the server says {shown!r} and {' '.join(head)!r}")
        reader.lines(int(head[2]))
        start = int(head[4])
    return took, start


def sessions(program, options):
    """Another caller's `show` while one follows."""
    with tempfile.TemporaryDirectory() as folder:
        server, path = served(program, folder)
        try:
            reader, other = Link(path, server), Link(path, server)
            pairs = max(1, round((options.entries / options.calls - 2) / 7))
            took, entries = shown_behind(reader, other, pairs, options.calls)
        finally:
            server.kill()
            server.wait()
    took.sort()
    late = took[max(0, len(took) - 1 - len(took) // 100)]
    kept, half = late <= MILLISECONDS, took[len(took) // 2]
    print(f"show behind {len(took)} calls of events, up to {entries} entries: "
          f"99 of 100 within {late:.3f} ms, bound {MILLISECONDS:.3f}; half within {half:.3f}, "
          f"load {os.getloadavg()[0]:.1f}{'' if kept else ' - MISSED'}", flush=True)
    return kept


def main():
    parser = argparse.ArgumentParser(description=__doc__.split("\n", maxsplit=1)[0])
    parser.add_argument("--instances", type=int, default=10_000, help="how many are resolved")
    parser.add_argument("--entries", type=int, default=1_000_000, help="how long the history gets")
    parser.add_argument("--calls", type=int, default=1_000, help="how many calls of events there are")
    parser.add_argument("--only", default="", help="measures of which the name has this word")
    parser.add_argument("--shape", default="", help="trees of which the name has this word")
    parser.add_argument("--word", default="", help="the report of which the name has this word")
    parser.add_argument("program", nargs="?", default=BUILT)
    options = parser.parse_args()
    if not shutil.which("valgrind"):
        sys.exit("reports: valgrind isn't here")
    program = os.path.abspath(options.program)
    measures = {"reports": reports, "readers": readers, "sessions": sessions}
    chosen = [measure for name, measure in measures.items() if options.only in name]
    kept = [measure(program, options) for measure in chosen]
    sys.exit(0 if kept and all(kept) else 1)


if __name__ == "__main__":
    main()
