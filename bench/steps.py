#!/usr/bin/env python3
"""Prints the time of a step of a realm, as it grows with the realm: of 10,000 commands that show an
instance among 250, 1,000 and 4,000, of 100 commands that walk a route of 250, 500 and 1,000 hops,
of the picks of a shutdown of 50, 100 and 200 instances, and of the stop of an instance with 1,000 and
10,000 children in a collection, which go with it.

Each command that shows or routes makes two entries of the history: it looks for the instance, and
then makes its own event. What the realm takes to be made is measured by a run with one such
command, and taken off. In a shutdown each instance is off, and is shut by one pick. A stop has two
entries, a third names the children that went with the instance, and behind it each of them is shut,
found done and removed: three entries a child. Run it from anywhere: bench/steps.py [PROGRAM]
"""
import os
import sys
import tempfile

HERE = os.path.dirname(os.path.abspath(__file__))
PROGRAM = sys.argv[1] if len(sys.argv) > 1 else os.path.join(HERE, "..", "component_manager")

FIRST = (
    'manifest fuchsia-pkg://bench/p#meta/first.cm\n{"children":[{"name":"c","url":"#meta/link.cm"}],'
    '"capabilities":[{"protocol":"p"}],"offer":[{"protocol":"p","from":"self","to":"#c"}]}\n%%\n'
)
LINK = (
    'manifest fuchsia-pkg://bench/p#meta/link.cm\n{"children":[{"name":"c","url":"#meta/link.cm"}],'
    '"use":[{"protocol":"p"}],"offer":[{"protocol":"p","from":"parent","to":"#c"}]}\n%%\n'
)


def wide(instances, commands):
    """A root with so many instances below it, which are shown in turns."""
    children = ",\n".join('{"name":"i%d","url":"#meta/leaf.cm"}' % number for number in range(1, instances))
    yield 'manifest fuchsia-pkg://bench/p#meta/wide.cm\n{"children":[%s]}\n%%%%\n' % children
    yield "root fuchsia-pkg://bench/p#meta/wide.cm\n"
    for number in range(commands):
        yield "0 show i%d\n" % (1 + number % (instances - 1))


def deep(hops, commands):
    """A chain of instances; the last uses what the first has, over so many hops."""
    yield FIRST + LINK + "root fuchsia-pkg://bench/p#meta/first.cm\n"
    client = "/".join(["c"] * (hops - 2))
    for _ in range(commands):
        yield "0 route %s /svc/p\n" % client


def closing(instances, shutdowns):
    """A root with so many instances below it, which is shut down, or not."""
    for line in wide(instances, 1):
        yield line
    for _ in range(shutdowns):
        yield "0 shutdown .\n"


def stopping(children, stops):
    """A root that runs, with so many children in a collection, which is stopped, or not."""
    yield 'manifest fuchsia-pkg://bench/p#meta/root.cm\n'
    yield '{"collections":[{"name":"k","durability":"transient"}]}\n%%\n'
    yield "root fuchsia-pkg://bench/p#meta/root.cm\n0 start .\n"
    for number in range(children):
        yield "0 create . k c%d #meta/leaf.cm\n" % number
    for _ in range(stops):
        yield "0 stop .\n0 list . k\n"


def seconds(lines):
    """The processor's seconds of one run of this script in a process of its own, and its last line."""
    with tempfile.TemporaryDirectory() as folder:
        path, out = os.path.join(folder, "script.txt"), os.path.join(folder, "out.txt")
        with open(path, "w") as file:
            file.writelines(lines)
        child = os.fork()
        if not child:
            with open(path) as source, open(out, "w") as answers:
                os.dup2(source.fileno(), 0)
                os.dup2(answers.fileno(), 1)
                os.execv(PROGRAM, [PROGRAM, "run"])
        _, status, usage = os.wait4(child, 0)
        if os.waitstatus_to_exitcode(status):
            sys.exit("status %d" % os.waitstatus_to_exitcode(status))
        with open(out) as answers:
            return usage.ru_utime + usage.ru_stime, answers.readlines()[-1]


def each(script, size, commands):
    """Microseconds of the processor for each command, and how many hops the last answer tells."""
    base, _ = seconds(script(size, 1))
    whole, answer = seconds(script(size, commands + 1))
    return (whole - base) / commands * 1e6, answer.count(",") + 1


def main():
    print("instances, microseconds for each command that shows one")
    for instances in (250, 1000, 4000):
        print("%d, %.1f" % (instances, each(wide, instances, 10000)[0]))
    print("hops, microseconds for each command that walks a route")
    for hops in (250, 500, 1000):
        micros, told = each(deep, hops, 100)
        if told != hops:
            sys.exit("%d hops are told, and not %d" % (told, hops))
        print("%d, %.1f" % (hops, micros))
    print("instances, microseconds for each pick of a shutdown")
    for instances in (50, 100, 200):
        base, _ = seconds(closing(instances, 0))
        whole, answer = seconds(closing(instances, 1))
        if answer != "0 shut .\n":
            sys.exit("told is: " + answer)
        print("%d, %.1f" % (instances, (whole - base) / instances * 1e6))
    print("children in a collection, seconds for the stop of their parent, microseconds for each of them")
    for children in (1000, 10000):
        base, _ = seconds(stopping(children, 0))
        whole, answer = seconds(stopping(children, 1))
        if answer != "0 children . k 0\n":
            sys.exit("told is: " + answer)
        print("%d, %.3f, %.1f" % (children, whole - base, (whole - base) / children * 1e6), flush=True)


if __name__ == "__main__":
    main()
