#!/usr/bin/env python3
"""Makes each of some runs again and again with less address space than it takes: the scripts of
bench/allocations.py, a wide realm that is surveyed often, a workload, a report, an audit, and servers that
keep their journals, with one client and with four at once. Half of the sizes lie between the one with which
the program only just begins and one with which the run goes through, the others between that one and half a
gigabyte: with more address space a run may begin threads, and so have less for other things.

A run must end with status 0 and the whole text, or with status 6, `want of memory` on the error stream, and a
prefix of the text or another one, in which lines are answered `refused want-of-memory`. The text of a session
may have that in its last line alone. In a journal that was printed or kept each action that was begun must
have its end, and `audit` of the same program, without a limit, must find it legal.

Prints how many runs had each status, and from which size on, and each run that broke a rule. Run it from
anywhere: bench/limits.py [--seconds N] [PROGRAM [RUN..]]. It ends after about so many seconds, 20 where that
isn't said, but tries six sizes of each run. The status is 1 where a rule was broken, and 2 where the words
are wrong.
"""

import argparse
import collections
import itertools
import os
import resource
import subprocess
import sys
import tempfile
import threading
import time
from dataclasses import dataclass

import allocations
import journals
from allocations import EXAMPLES, PATIENCE, PRODUCT, REALM, ROOT, SCRIPTS, broken, open_actions, read, spread

HERE = os.path.dirname(os.path.abspath(__file__))
PACKAGES = os.path.join(PRODUCT, "packages")
PAGE = resource.getpagesize()
# The most address space that a run gets, in pages, and how many sizes are told apart between two bounds.
MOST, PARTS = (1 << 29) // PAGE, 1 << 10
# With how many sizes each run is made, whatever time is left.
LEAST = 6
WANTING = "refused want-of-memory\n"
SAID = "want of memory\n"
# How many children the wide realm has, and how often it is surveyed.
WIDE, OFTEN = 200, 100
# What each client of a server asks for, and how often.
ASKED, ROUNDS = "start session\nsurvey .\nevents . 0\nstop session\nexited netstack\n", 25


@dataclass
class Told:
    """What came of a run: its status, what it printed or sent, its error stream, its journal's text, and what
    each of the clients was sent, where it served some."""

    status: int
    out: str
    err: str
    journal: str = ""
    sent: tuple = ()


def limited(pages):
    """Before a program begins: how much address space it may have; without a number as much as it likes."""
    size = resource.RLIM_INFINITY if pages is None else pages * PAGE

    def limit():
        resource.setrlimit(resource.RLIMIT_AS, (size, size))
        resource.setrlimit(resource.RLIMIT_CORE, (0, 0))
    return limit


class Script:
    """A run over an input."""

    def __init__(self, program, words, text):
        self.words, self.text = [program, *words], text
        self.lanes = 2 if "\n1 " in text or words[0] == "generate" else 1

    def come(self, pages):
        done = subprocess.run(self.words, input=self.text.encode(), capture_output=True, timeout=PATIENCE,
                              preexec_fn=limited(pages), check=False)
        out = done.stdout.decode()
        _, head, journal = out.partition("\njournal\n")
        return Told(done.returncode, out, done.stderr.decode(), head + journal)


class Served:
    """A run that serves clients at once."""

    def __init__(self, program, clients):
        self.program, self.lanes = program, clients

    def come(self, pages):
        with tempfile.TemporaryDirectory() as folder:
            path, kept = os.path.join(folder, "s"), os.path.join(folder, "journal")
            words = [self.program, "serve", path, "--root", ROOT, "--repo", PACKAGES]
            words += ["--sessions", str(self.lanes), "--workers", str(self.lanes)]
            with subprocess.Popen(words, stdin=subprocess.DEVNULL, stderr=subprocess.PIPE,
                                  env={**os.environ, "COMPONENT_JOURNAL": kept},
                                  preexec_fn=limited(pages)) as process:
                try:
                    sent = self.clients(path, process)
                    err = process.communicate(timeout=PATIENCE)[1]
                except BaseException:
                    process.kill()
                    raise
            journal = read(kept) if os.path.exists(kept) else ""
        # Who keeps the journal says it, too, where there is no memory for that either.
        said = SAID if err.decode() == 2 * SAID and not journal else err.decode()
        return Told(process.returncode, "".join(sent), said, journal, sent)

    def clients(self, path, process):
        """What each of the clients is sent."""
        sent = [b""] * self.lanes

        def ask(place):
            sent[place] = allocations.session_at(path, process, ASKED * ROUNDS + "quit\n")

        threads = [threading.Thread(target=ask, args=(place,)) for place in range(self.lanes)]
        for thread in threads:
            thread.start()
        for thread in threads:
            thread.join()
        return tuple(text.decode() for text in sent)


def wide():
    """The script of a realm with many children, which is surveyed, and shut down at the end."""
    made = "".join(f"0 create . coll x{number} #meta/logger.cm\n" for number in range(WIDE))
    surveys = "0 survey .\n" * OFTEN
    return f"{REALM}0 start .\n{made}{surveys}0 shutdown .\n"


def runs(program):
    """All runs, by their names."""
    journal = ["run", "--journal"]
    scripts = {name: Script(program, journal, REALM + lines) for name, lines in SCRIPTS.items()}
    return scripts | {
        "a whole realm": Script(program, journal, read(os.path.join(EXAMPLES, "whole-realm.txt"))),
        "the product": Script(program, [*journal, "--repo", PACKAGES],
                              read(os.path.join(PRODUCT, "product.txt"))),
        "a wide realm": Script(program, journal, wide()),
        "a workload": Script(program, ["generate", "1", "300"], ""),
        "a report": Script(program, ["storage", "--repo", PACKAGES],
                           read(os.path.join(PRODUCT, "product.txt"))),
        "an audit": Script(program, ["audit"], Script(program, journal, wide()).come(None).journal),
        "a session": Served(program, 1),
        "four sessions": Served(program, 4),
    }


def odd_journal(program, text):
    """What is wrong with a journal, if anything: it has to be whole and legal."""
    left = open_actions(text)
    if left:
        return f"open actions {', '.join(left)}"
    done = subprocess.run([program, "audit"], input=text.encode(), capture_output=True, timeout=PATIENCE,
                          check=False)
    if done.returncode or not done.stdout.startswith(b"legal "):
        return f"the audit says {done.stdout.decode().strip()[:200]}"
    return None


def odd_sessions(told):
    """What is wrong with the texts of sessions, if anything."""
    for text in told.sent:
        head, _, _ = text.rpartition(WANTING) if text.endswith(WANTING) else (text, "", "")
        if WANTING in head:
            return "a session goes on behind what it had no memory for"
        if told.status == 0 and len(journals.replies_of(text)) != ASKED.count("\n") * ROUNDS:
            return f"a session has {len(journals.replies_of(text))} replies"
    return None


def rule_broken(program, told, whole, lanes):
    """The rule that a run broke, if any."""
    if told.status == 0 and WANTING in told.out:
        return "status 0, and a line that had no memory"
    odd = broken(told.status, told.out, told.err, whole, lanes) or odd_sessions(told)
    return odd or (odd_journal(program, told.journal) if told.journal else None)


def least(below, above, is_enough):
    """The smallest number above the first one that is enough, where the second one is."""
    while above - below > 1:
        middle = (below + above) // 2
        below, above = (below, middle) if is_enough(middle) else (middle, above)
    return above


def begins(program, pages):
    """Whether the program itself says how it ends, with so much address space."""
    told = Script(program, ["check"], "{}").come(pages)
    return (told.status, told.out, told.err) in ((0, "valid\n", ""), (6, "", SAID))


def enough(made, first):
    """A size with which a run goes through: so many pages above the first one as need be, each time twice as
    many."""
    sizes = (min(MOST, first + (1 << power)) for power in itertools.count())
    return next(pages for pages in sizes if pages == MOST or made.come(pages).status == 0)


def sizes(first, last):
    """The sizes to try: from the first one to the last, each page, and from there on, in turns."""
    near = (first + number - 1 for number in spread(last - first))
    far = (int(last * (MOST / last) ** (number / PARTS)) for number in spread(PARTS))
    for pair in itertools.zip_longest(near, far):
        yield from (pages for pages in pair if pages is not None)


def try_all(program, name, made, first, seconds):
    """Makes a run with sizes from the first one on, and says how many of them broke a rule."""
    end = time.monotonic() + seconds
    whole = made.come(None)
    if whole.status != 0:
        sys.exit(f"{name}: without a limit: status {whole.status}, {whole.err}")
    last = enough(made, first)
    failures, counts = 0, collections.Counter()
    for pages in sizes(first, last):
        told = made.come(pages)
        counts[told.status] += 1
        rule = rule_broken(program, told, whole.out, made.lanes)
        if rule:
            failures += 1
            print(f"{name}, {pages * PAGE // 1024} KiB: {rule}", flush=True)
        if time.monotonic() > end and counts.total() >= LEAST:
            break
    between = f"from {first * PAGE // 1024} KiB on, enough with {last * PAGE // 1024}"
    print(f"{name}: {counts.total()} runs, {between}, by status {dict(counts)}", flush=True)
    return failures


def words():
    """The words that the script was given."""
    parser = argparse.ArgumentParser(description="Makes runs with less address space than they take.")
    parser.add_argument("--seconds", type=float, default=20, help="end after about so many; by default 20")
    parser.add_argument("program", nargs="?", default=os.path.join(HERE, "..", "component_manager"))
    parser.add_argument("runs", nargs="*", help="which runs; all where none is named")
    return parser.parse_args()


def main():
    given = words()
    program = os.path.abspath(given.program)
    known = runs(program)
    wanted = given.runs or list(known)
    unknown = [name for name in wanted if name not in known]
    if unknown:
        print(f"limits.py: no run is named {unknown[0]}; there are {', '.join(known)}", file=sys.stderr)
        return 2
    first = least(0, MOST, lambda pages: begins(program, pages))
    share = given.seconds / len(wanted)
    return 1 if sum(try_all(program, name, known[name], first, share) for name in wanted) else 0


if __name__ == "__main__":
    sys.exit(main())
