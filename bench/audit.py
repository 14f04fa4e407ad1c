#!/usr/bin/env python3
"""Prints what an audit costs beside the run that wrote the journal: the processor's seconds of both, the
audit's for a MiB, and its memory by the entry.

The journals come to 4, 16 and 64 MiB with the answers in front of them, and are those of

- the scripts of workloads (`generate`): 1,000, 4,000 and 10,000 instances are started, and then drawn as
  often as it takes;
- shutdowns of flat realms of 4,096, 16,384 and 65,536 instances, which were created and started before: for
  each there is a pick to stop it, and one to shut it.

Then come flat realms of 1,024, 4,096 and 16,384 instances that a manifest declares and nobody started, a pick
for each; what picks cost that stand in another order than the one that the program takes; and the limit
itself. Where an audit says another thing than it has to, or takes more than twice its run's time, this ends
with that and status 1; picks in another order are held to no bound. Run it from anywhere:
bench/audit.py [PROGRAM]
"""
import os
import resource
import subprocess
import sys
import tempfile

HERE = os.path.dirname(os.path.abspath(__file__))
PROGRAM = sys.argv[1] if len(sys.argv) > 1 else os.path.join(HERE, "..", "component_manager")
MEBIBYTE = 1 << 20
LIMIT = 1 << 28
PACKAGE = "fuchsia-pkg://b/p#meta/"
# Instances of a workload, and the MiB that its journal comes to.
WORKLOADS = ((1000, 4), (4000, 16), (10000, 64))
STARTED = (4096, 16384, 65536)
DECLARED = (1024, 4096, 16384)
TURNED = (256, 512, 1024)
# How often the time of its run an audit may take.
TIMES = 2
# Seconds below which times say nothing.
LEAST = 0.05


def manifest(name, text):
    """The block of a manifest."""
    return "manifest %s%s\n%s\n%%%%\n" % (PACKAGE, name, text)


def workload(instances, draws, lanes=4):
    """The script of a workload, with so many draws: an instance opens what it uses, or the root is shown."""
    monikers = ["."]
    for k in range(1, instances):
        parent = monikers[(k - 1) // 4]
        monikers.append("i%d" % k if parent == "." else "%s/i%d" % (parent, k))
    for k in range(instances):
        below = range(4 * k + 1, min(4 * k + 5, instances))
        children = ",".join('{"name":"i%d","url":"#meta/%d.cm"}' % (it, it) for it in below)
        to = ",".join('"#i%d"' % it for it in below)
        offer = '{"protocol":"p.%d","from":"self","to":[%s]}' % (k, to) if to else ""
        use = '{"protocol":"p.%d"}' % ((k - 1) // 4) if k else ""
        text = '{"program":{"runner":"gen"},"children":[%s],"capabilities":[{"protocol":"p.%d"}],'
        yield manifest("%d.cm" % k, (text + '"offer":[%s],"use":[%s]}') % (children, k, offer, use))
    yield "root %s0.cm\n" % PACKAGE
    for k in range(instances):
        yield "%d start %s\n" % (k % lanes, monikers[k])
    yield "sync\n"
    drawn = 1
    for j in range(draws):
        drawn = (drawn * 1103515245 + 12345) % 2**31
        k = drawn // 65536 % instances
        line = "open %s /svc/p.%d" % (monikers[k], (k - 1) // 4) if k else "show ."
        yield "%d %s\n" % (j % lanes, line)


def started(instances):
    """A script that creates children of the root, starts them, and shuts all down."""
    uses = ",".join('{"protocol":"a.protocol.that.is.used.%d"}' % number for number in range(3))
    yield manifest("root.cm", '{"collections":[{"name":"k","durability":"transient"}]}')
    yield manifest("leaf.cm", '{"program":{"runner":"gen"},"use":[%s]}' % uses)
    yield "root %sroot.cm\n0 start .\n" % PACKAGE
    for number in range(1, instances):
        yield "0 create . k c%d #meta/leaf.cm\n0 start k:c%d\n" % (number, number)
    yield "0 shutdown .\n"


def declared(instances):
    """A script that shuts down a realm whose root's manifest declares all others."""
    children = ",\n".join('{name:"i%d",url:"#meta/leaf.cm"}' % number for number in range(1, instances))
    yield manifest("root.cm", "{children:[%s]}" % children)
    yield "root %sroot.cm\n0 resolve .\n0 shutdown .\n" % PACKAGE


def turn_picks(journal):
    """Puts the picks of the root's children into the opposite order: they may be shut in any."""
    with open(journal) as file:
        lines = file.read().split("\n")
    places = [at for at, line in enumerate(lines) if " pick 0 => shutdown " in line][:-1]
    replies = [lines[at].rpartition(" ")[2] for at in places]
    for at, reply in zip(places, reversed(replies)):
        lines[at] = "%s %s" % (lines[at].rpartition(" ")[0], reply)
    with open(journal, "w") as file:
        file.write("\n".join(lines))


def spent(words, source, target):
    """The processor's seconds and the most memory, in bytes, of a process with these files."""
    child = os.fork()
    if not child:
        with open(source, "rb") as given, open(target, "wb") as written:
            os.dup2(given.fileno(), 0)
            os.dup2(written.fileno(), 1)
            os.execv(PROGRAM, [PROGRAM, *words])
    _, status, usage = os.wait4(child, 0)
    code = os.waitstatus_to_exitcode(status)
    if code not in (0, 1):
        sys.exit("%s: status %d" % (" ".join(words), code))
    return usage.ru_utime + usage.ru_stime, usage.ru_maxrss * 1024


def audited(folder, lines, change=None):
    """What a run of the script and the audit of its journal take: the journal's bytes, its entries, the
    seconds of both, and the memory of the audit."""
    script, journal, verdict = (os.path.join(folder, name) for name in ("script", "journal", "verdict"))
    with open(script, "w") as file:
        file.writelines(lines)
    ran, _ = spent(["run", "--journal"], script, journal)
    if change:
        change(journal)
    took, memory = spent(["audit"], journal, verdict)
    with open(journal, "rb") as file:
        entries = sum(b" => " in line for line in file)
    with open(verdict) as file:
        said = file.read()
    if said != "legal %d\n" % entries:
        sys.exit("the audit of %d entries: %s" % (entries, said.rstrip("\n")))
    return os.path.getsize(journal), entries, ran, took, memory


def tell(name, measured, is_bound=True):
    """Prints a line of what was measured, and ends where the audit takes too long."""
    size, entries, ran, took, memory = measured
    print("%s: %.1f MiB, %d entries" % (name, size / MEBIBYTE, entries), end="; ")
    print("run %.2f s, audit %.2f s" % (ran, took), end="")
    if took > LEAST:
        print(", %.2f times, %.0f ms a MiB" % (took / ran, took * 1000 / (size / MEBIBYTE)), end="")
    print("; %.0f MiB, %d bytes an entry" % (memory / MEBIBYTE, memory // entries), flush=True)
    if is_bound and took > max(LEAST, TIMES * ran):
        sys.exit("the audit takes more than %d times its run" % TIMES)


def draws_for(folder, instances, size):
    """How many draws a workload has whose journal has so many bytes."""
    few, more = (audited(folder, workload(instances, draws))[0] for draws in (1000, 11000))
    return max(0, int((size - few) / ((more - few) / 10000)) + 1000)


def verdict_on(pieces):
    """The status of an audit of these pieces, each so often, and its line."""
    process = subprocess.Popen([PROGRAM, "audit"], stdin=subprocess.PIPE, stdout=subprocess.PIPE)
    try:
        for piece, times in pieces:
            for _ in range(times):
                process.stdin.write(piece)
        process.stdin.close()
    except BrokenPipeError:
        pass  # What passes the limit isn't read to its end.
    line = process.stdout.read().decode()
    return process.wait(), line.rstrip("\n")


def limits():
    """Whether a journal of as many bytes as there may be is read to its end, and what is told of more."""
    filled, end = b"#" * (MEBIBYTE - 1) + b"\n", b"journal\nroot u\n1 0 show 9 => gone 9\n"
    line = b"#" * (MEBIBYTE - len(end) - 1) + b"\n"
    wholes = LIMIT // MEBIBYTE - 1
    behind = b"2 0 show 9 => gone "
    for what, pieces, wanted in (
        ("%d bytes" % LIMIT, [(filled, wholes), (line, 1), (end, 1)], (0, "legal 1")),
        ("one more", [(filled, wholes), (b"#" + line, 1), (end, 1)], (1, "bad-text %d" % (wholes + 4))),
        ("a last line too long", [(end, 1), (behind, 1), (b"9" * MEBIBYTE, wholes + 1)], (1, "bad-text 4")),
        ("an entry before it", [(end.replace(b"gone 9", b"found 9"), 1), (filled, wholes + 1)],
         (1, "illegal 1 given found 9 expected gone 9")),
    ):
        found = verdict_on(pieces)
        if found != wanted:
            sys.exit("%s: %r in place of %r" % (what, found, wanted))
        print("%s: %s" % (what, wanted[1]), flush=True)


def main():
    resource.setrlimit(resource.RLIMIT_CORE, (0, 0))
    with tempfile.TemporaryDirectory() as folder:
        for instances, size in WORKLOADS:
            draws = draws_for(folder, instances, size * MEBIBYTE)
            tell("workload of %d" % instances, audited(folder, workload(instances, draws)))
        for instances in STARTED:
            tell("shutdown of %d that were started" % instances, audited(folder, started(instances)))
        for instances in DECLARED:
            tell("shutdown of %d that are declared" % instances, audited(folder, declared(instances)))
        for instances in TURNED:
            turned = audited(folder, declared(instances), turn_picks)
            tell("shutdown of %d in another order" % instances, turned, is_bound=False)
    limits()


if __name__ == "__main__":
    main()
