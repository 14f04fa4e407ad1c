#!/usr/bin/env python3
"""Prints what realms cost that are as bad as the limits let them be, at one or two sizes each.

A realm that is filled until it is refused, a history filled to its last entry, chains of instances, a
manifest with itself as an eager child, once and twice, a survey of monikers that are longer than one that is
read may be, offers from the parent through many levels, siblings that are each given something of the one
before, a name of 255 bytes below each of many parents, names that differ in their last bytes alone, sections
with as many rows as they may have, a child that is created and destroyed again and again, and a wide realm
that is told again and again.

Of each program a row has what the case costs above its base, in seconds and in microseconds a command, and
the most megabytes that the whole run held. Behind them stands how often the second program's cost goes into
that of the first, with a `!` where that is more than three times, or a `?` where the second's is less than a
hundredth of a second, and the same of the megabytes. The last column says how often the cost of a command at
the smaller size goes into that at the larger one: 1.0 where the work grows with what it goes over. Where one
command goes over the whole realm, each instance, row or level counts as one. A manifest with itself as an
eager child fills the realm, so it has one size.

The options are those of bench/scale.py. A run that takes longer than --seconds is ended: `time`. One whose
address space (--gigabytes) is too small for it: `memory`.

Usage: bench/hostile.py [--instructions] [--runs N] [--seconds N] [--gigabytes N] [--only WORD]
                        [PROGRAM [OTHER]]
"""

import os

import scale
from scale import PACKAGE, Case, manifest, measured, ratio_of, shown

LONG = 255
# How many times the other program's cost is marked, and how many seconds are too few to say so.
TIMES, LITTLE = 3, 0.01
LEAF = '{"program":{"runner":"gen"}}'
COLLECTION = '{"collections":[{"name":"k","durability":"transient"}]}'
EXPOSING = '{"capabilities":[{"protocol":"p"}],"expose":[{"protocol":"p","from":"self"}]}'
EAGER = '{"name":"%s","url":"#meta/%s.cm","startup":"eager"}'


def root(text, *others):
    """A script's beginning: the root's manifest, a leaf's, and others by their names."""
    manifests = [manifest("root", text), manifest("x", LEAF), *(manifest(*it) for it in others)]
    return "".join(manifests) + f"root {PACKAGE}root.cm\n"


def numbered(number):
    """A name of the greatest length, which differs from the others in its last bytes alone."""
    return f"{number}".rjust(LONG, "n")


def full_realm(size):
    """Children are created until the realm is full, and then some more, each of which is refused."""
    text = root(COLLECTION) + "0 start .\n"
    lines = "".join(f"0 create . k c{it} #meta/x.cm\n" for it in range(size))
    yield Case("create to the limit", size, text + lines, text, commands=size)


def refused_creations(size):
    """The realm is full: each creation is refused."""
    text = root(COLLECTION) + "0 start .\n"
    text += "".join(f"0 create . k c{it} #meta/x.cm\n" for it in range(65535))
    lines = "".join(f"0 create . k d{it} #meta/x.cm\n" for it in range(size))
    yield Case("create in a full one", size, text + lines, text, commands=size)


def full_history(size):
    """So many entries, two for a command, up to the last one that there may be."""
    text = root(LEAF) + "0 start .\n"
    lines = "0 show .\n" * (size // 2)
    yield Case("fill the history", size, text + lines, text, commands=size // 2)


def chain(size):
    """One instance below the other: the last is started, all is surveyed, and shut down."""
    below = '{"children":[{"name":"a","url":"#meta/%d.cm"}],"program":{"runner":"gen"}}'
    others = [(f"{it}", below % (it + 1)) for it in range(size)] + [(f"{size}", LEAF)]
    text = root(below % 0, *others)
    last = "/".join(["a"] * size)
    yield Case("start the last of a chain", size, text + f"0 start {last}\n", text, commands=size)
    started = text + f"0 start {last}\n"
    yield Case("survey a chain", size, started + "0 survey .\n", started, commands=size)
    yield Case("shut a chain down", size, started + "0 shutdown .\n", started, commands=size)


def filled(what, size, again):
    """A realm that a start fills by one manifest, and its shutdown."""
    text = root(again, ("a", again))
    started = text + "0 start .\n"
    yield Case(f"{what}: start", size, started, text, commands=size)
    yield Case(f"{what}: shutdown", size, started + "0 shutdown .\n", started, commands=size)


def itself(size):
    """A manifest with itself as an eager child: a start fills the realm with one chain."""
    again = f'{{"children":[{EAGER % ("c", "a")}],"program":{{"runner":"gen"}}}}'
    yield from filled("itself", size, again)
    text = root(COLLECTION, ("a", again)) + "0 start .\n0 create . k c #meta/a.cm\n0 start k:c\n"
    yield Case("itself: destroy", size, text + "0 destroy k:c\n", text, commands=size)


def long_chain(size):
    """One instance below the other, each eager, by names of a byte: the deeper ones have monikers longer than
    one that is read may be, and their texts come to the square of the depth."""
    others = [(f"{it}", f'{{"children":[{EAGER % ("c", it + 1)}],"program":{{"runner":"gen"}}}}')
              for it in range(size)]
    started = root(others[0][1], *others[1:], (f"{size}", LEAF)) + "0 start .\n"
    yield Case("a long chain: survey", size, started + "0 survey .\n", started, commands=size)
    yield Case("a long chain: shutdown", size, started + "0 shutdown .\n", started, commands=size)


def whole_chain(size):
    """The same of a chain that fills the realm, of one manifest: its survey has four gigabytes."""
    again = f'{{"children":[{EAGER % ("c", "root")}],"program":{{"runner":"gen"}}}}'
    started = manifest("root", again) + f"root {PACKAGE}root.cm\n0 start .\n"
    yield Case("itself: survey", size, started + "0 survey .\n", started, commands=size)


def itself_twice(size):
    """A manifest with itself as two eager children: a start fills the realm."""
    again = f'{{"children":[{EAGER % ("c", "a")},{EAGER % ("d", "a")}],"program":{{"runner":"gen"}}}}'
    yield from filled("itself twice", size, again)


def long_monikers(size):
    """Eager children one below the other, most of whose monikers are longer than one that is read may be."""
    below = f'{{"children":[{EAGER % ("n" * 20, "%d")}],"program":{{"runner":"gen"}}}}'
    others = [(f"{it}", below % (it + 1)) for it in range(size)] + [(f"{size}", LEAF)]
    started = root(below % 0, *others) + "0 start .\n"
    yield Case("survey long monikers", size, started + "0 survey .\n", started, commands=size)
    yield Case("doctor of long monikers", size, started + "0 doctor .\n", started, commands=size)


def offered_on(size):
    """What the parent offers is offered on by each level of a chain of eager children, more than a moniker
    that is read can name, and used by each: the last one's use is asked for by its number."""
    text = '{"children":[%s],"offer":[%s],"use":[{"protocol":"p"}],"program":{"runner":"gen"}}'
    offer = '{"protocol":"p","from":"parent","to":"#c"}'
    others = [(f"{it}", text % (EAGER % ("c", it + 1), offer)) for it in range(size)]
    others.append((f"{size}", text % ("", "")))
    started = "builtin protocol p\n" + root(others[0][1], *others[1:]) + "0 start .\n"
    yield Case("offers: route", size, started + f"0 route @{size} /svc/p\n" * 8, started, commands=8 * size)
    yield Case("offers: open", size, started + f"0 open @{size} /svc/p\n" * 100, started,
               commands=100 * size)


def levels(size):
    """Offers from the parent through so many levels of a chain that nothing starts by itself: the last one is
    started by its moniker, all are surveyed, and the last one's use is opened."""
    offer = '"offer":[{"protocol":"p","from":"parent","to":"#c"}],"use":[{"protocol":"p"}]'
    text = f'{{"children":[{{"name":"c","url":"#meta/root.cm"}}],{offer},"program":{{"runner":"gen"}}}}'
    text = manifest("root", text) + f"builtin protocol p\nroot {PACKAGE}root.cm\n"
    last = "/".join(["c"] * size)
    started = text + f"0 start {last}\n"
    yield Case("levels: start the last", size, started, text, commands=size)
    yield Case("levels: survey", size, started + "0 survey .\n" * 10, started, commands=10 * size)
    yield Case("levels: open", size, started + f"0 open {last} /svc/p\n" * 100, started,
               commands=100 * size)


def siblings(size):
    """Children that are each given something of the one before: created, shut down, destroyed in turns."""
    text = root(COLLECTION.replace("}]", ',"allowed_offers":"static_and_dynamic"}]'), ("y", EXPOSING))
    text += "0 start .\n"
    given = "0 create . k c%d #meta/y.cm + protocol p #k:c%d as=q\n"
    made = text + "0 create . k c0 #meta/y.cm\n" + "".join(given % (it, it - 1) for it in range(1, size))
    yield Case("create siblings given", size, made, text, commands=size)
    made += "".join(f"0 start k:c{it}\n" for it in range(size))
    yield Case("shut siblings down", size, made + "0 shutdown .\n", made, commands=size)
    chosen = [it * 7919 % size for it in range(0, size, 8)]
    lines = "".join(f"0 destroy k:c{it}\n" for it in chosen)
    yield Case("destroy among siblings", size, made + lines, made, commands=len(chosen))
    lines = "".join(f"0 destroy k:c{it}\n" for it in range(size))
    yield Case("destroy siblings in order", size, made + lines, made, commands=size)
    rings = made + "0 destroy k:c0\n"
    refused = given % (0, size - 1) * 20
    yield Case("rings of siblings", size, rings + refused, rings, commands=20 * size)


def told(what, children, times):
    """A realm with so many children is told again and again: what is kept of each reply shows in the
    megabytes."""
    text = root(COLLECTION) + "0 start .\n"
    text += "".join(f"0 create . k c{it} #meta/x.cm\n" for it in range(children))
    for command in ("survey .", "list . k", "doctor ."):
        lines = f"0 {command}\n" * times
        yield Case(f"{what}: {command}", times, text + lines, text, commands=children * times)


def wide(times):
    """A realm that is as wide as it may be."""
    yield from told("wide", 65535, times)


def often(times):
    """A realm of 4,096, told more often."""
    yield from told("told often", 4095, times)


def namesakes(size):
    """A child of the same long name below each of so many parents is shown."""
    name = numbered(0)
    parents = ",\n".join(f'{{"name":"p{it}","url":"#meta/parent.cm"}}' for it in range(size))
    parent = f'{{"children":[{{"name":"{name}","url":"#meta/x.cm"}}]}}'
    text = root(f'{{"children":[{parents}]}}', ("parent", parent))
    text += "".join(f"0 resolve p{it}\n" for it in range(size))
    lines = "".join(f"0 show p{it}/{name}\n" for it in range(size))
    yield Case("show namesakes", size, text + lines, text, commands=size)


def alike(size):
    """Children whose long names differ in their last bytes alone are created, shown and listed."""
    text = root(COLLECTION) + "0 start .\n"
    made = "".join(f"0 create . k {numbered(it)} #meta/x.cm\n" for it in range(size))
    yield Case("create children alike", size, text + made, text, commands=size)
    lines = "".join(f"0 show k:{numbered(it * 7919 % size)}\n" for it in range(size))
    yield Case("show children alike", size, text + made + lines, text + made, commands=size)
    yield Case("list children alike", size, text + made + "0 list . k\n", text + made, commands=size)


def rows(size):
    """A leaf with so many uses, each offered to it: all are routed by a doctor, and the last by itself."""
    uses = ",\n".join(f'{{"protocol":"p{it}"}}' for it in range(size))
    offers = ",\n".join(f'"p{it}"' for it in range(size))
    given = '"offer":[{"protocol":[%s],"from":"self","to":"#c"}],"capabilities":[{"protocol":[%s]}]'
    parent = '{"children":[{"name":"c","url":"#meta/c.cm"}],' + given % (offers, offers) + "}"
    text = root(parent, ("c", f'{{"program":{{"runner":"gen"}},"use":[{uses}]}}'))
    started = text + "0 start c\n"
    yield Case("start with many rows", size, started, text, commands=size)
    yield Case("a doctor of many rows", size, started + "0 doctor .\n", started, commands=size)
    last = f"0 route c /svc/p{size - 1}\n" * 1000
    yield Case("route the last row", size, started + last, started, commands=1000)


def again(size):
    """One child is created and destroyed again and again."""
    text = root(COLLECTION) + "0 start .\n"
    lines = "0 create . k c #meta/x.cm\n0 destroy k:c\n" * size
    yield Case("create and destroy again", size, text + lines, text, commands=2 * size)


KINDS = (
    (full_realm, (8192, 66000)),
    (refused_creations, (1000, 8000)),
    (full_history, (524288, 4194304)),
    (chain, (250, 2000)),
    (itself, (65536,)),
    (whole_chain, (65536,)),
    (itself_twice, (65536,)),
    (long_chain, (2048, 8192)),
    (long_monikers, (250, 2000)),
    (offered_on, (512, 4096)),
    (levels, (500, 2000)),
    (siblings, (8000, 64000)),
    (namesakes, (1000, 8000)),
    (alike, (1000, 8000)),
    (rows, (2048, 16384)),
    (again, (12500, 100000)),
    (often, (100, 1000)),
    (wide, (5, 50)),
)


def cases():
    """The cases of each kind, the smaller size before the larger one."""
    for kind, sizes in KINDS:
        for pair in zip(*(list(kind(size)) for size in sizes)):
            yield from pair


def marked(found, options):
    """How often the second program's cost and memory go into the first one's, with a mark where the cost does
    so too often."""
    ratio = ratio_of(found)
    if ratio is None:
        return " " * 14
    mark = "!" if ratio > TIMES else " "
    if not options.instructions and found[1].work < LITTLE:
        mark = "?"
    held = found[0].megabytes / found[1].megabytes if found[1].megabytes else 0
    return f"{ratio:>6.1f}{mark}{held:>6.1f} "


def main():
    options, programs = scale.options_of(__doc__)
    print(f"a run may take {options.seconds:.0f} s and {options.gigabytes:g} GB of address space; behind: "
          f"the ratios of cost, marked (!) above {TIMES}, and of megabytes, and the growth")
    smaller, too_long = {}, set()
    for case in cases():
        if options.only not in case.kind:
            continue
        found = [measured(it, case, too_long, options) for it in programs]
        growth = ""
        if not found[0].lacks:
            each = found[0].work / case.commands
            if smaller.get(case.kind, 0) > 0:
                growth = f"{each / smaller[case.kind]:.1f}"
            smaller[case.kind] = each
        row = " |".join(shown(it, case) for it in found)
        print(f"{case.kind:<29} {case.size:>7} |{row} |{marked(found, options)}|{growth:>6}", flush=True)
    print(f"the load of the last minute: {os.getloadavg()[0]:.1f} on {os.cpu_count()} processors")


if __name__ == "__main__":
    main()
