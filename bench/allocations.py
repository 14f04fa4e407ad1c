#!/usr/bin/env python3
"""Makes each of some runs again and again: three short scripts, the realm of examples/whole-realm.txt, the
day of the product in examples/product, a workload that is generated, and a session over a Unix socket. In
each run one request for memory is refused: the first, the second, and so on, until a run makes no such
request.

A run must end with status 0 and the whole text, or with status 6, `want of memory` on the error
stream, and a front of the text or another text, in which lines may be answered `refused
want-of-memory`. Where a journal was written, each action that was begun must have its end in it. Where
a stop was cut, the destroy behind it must have removed what was to go with it.
Prints how many runs had each status, and each run that broke a rule. Needs a C compiler. Run it
from anywhere: bench/allocations.py [--seconds N] [PROGRAM [RUN..]]. With --seconds it ends after about so
many: the requests that are refused until then are spread over all.
"""
import argparse
import collections
import itertools
import os
import re
import subprocess
import sys
import tempfile
import time

HERE = os.path.dirname(os.path.abspath(__file__))
sys.dont_write_bytecode = True
sys.path.insert(0, os.path.join(HERE, "..", "tools"))

from cm_tools.meeting import connected

# How many seconds anything is waited for.
PATIENCE = 600

# Stands before the C library: the request of the number REFUSED finds no memory.
REFUSE = r"""
#define _GNU_SOURCE
#include <dlfcn.h>
#include <errno.h>
#include <stdatomic.h>
#include <stdlib.h>
#include <unistd.h>

static atomic_long made;
static long refused = -1;

static int refuses(void) {
    if (refused < 0) {
        const char *number = getenv("REFUSED");
        refused = number ? atol(number) : 0;
    }
    if (atomic_fetch_add(&made, 1) + 1 != refused) return 0;
    /* Tells the caller of the program that a request was refused. */
    const char *tell = getenv("TELL");
    ssize_t told = write(tell ? atoi(tell) : 2, "x", 1);
    (void)told;
    errno = ENOMEM;
    return 1;
}

extern void *__libc_malloc(size_t);
extern void *__libc_calloc(size_t, size_t);
extern void *__libc_realloc(void *, size_t);
extern void *__libc_memalign(size_t, size_t);

void *malloc(size_t size) { return refuses() ? NULL : __libc_malloc(size); }
void *calloc(size_t count, size_t size) { return refuses() ? NULL : __libc_calloc(count, size); }
void *realloc(void *old, size_t size) { return refuses() ? NULL : __libc_realloc(old, size); }
void *aligned_alloc(size_t align, size_t size) { return refuses() ? NULL : __libc_memalign(align, size); }
int posix_memalign(void **place, size_t align, size_t size) {
    if (refuses()) return ENOMEM;
    *place = __libc_memalign(align, size);
    return *place ? 0 : ENOMEM;
}
"""

REALM = """manifest fuchsia-pkg://t/a#meta/root.cm
{"children":[{"name":"logger","url":"#meta/logger.cm"},{"name":"client","url":"#meta/client.cm"}],
"collections":[{"name":"coll","durability":"transient"}],
"offer":[{"protocol":"fuchsia.logger.LogSink","from":"#logger","to":"#client"}]}
%%
manifest fuchsia-pkg://t/a#meta/logger.cm
{"program":{"runner":"elf"},"capabilities":[{"protocol":"fuchsia.logger.LogSink"}],
"expose":[{"protocol":"fuchsia.logger.LogSink","from":"self"}]}
%%
manifest fuchsia-pkg://t/a#meta/client.cm
{"program":{"runner":"elf"},"use":[{"protocol":"fuchsia.logger.LogSink"}]}
%%
root fuchsia-pkg://t/a#meta/root.cm
"""

SCRIPTS = {
    "one lane": "0 route client /svc/fuchsia.logger.LogSink\n",
    "two lanes": "0 start client\n1 start client\n0 open client /svc/fuchsia.logger.LogSink\n"
                 "1 show logger\nsync\n0 stop logger\n1 open-exposed logger x\n1 exited client\n",
    "a stop that removes": "0 start .\n0 create . coll x #meta/logger.cm\n0 start coll:x\n0 stop .\n"
                           "0 destroy @3\n0 show @3\n",
}


ROOT = "fuchsia-pkg://fuchsia.com/product#meta/product.cm"
EXAMPLES = os.path.join(HERE, "..", "examples")
PRODUCT = os.path.join(EXAMPLES, "product")
# The lines of a session over the product.
SESSION = (
    "resolve .\nstart session\nopen session /data\nfoo\n"
    "route netstack /svc/fuchsia.net.name.Lookup\nquit\n"
)


class Script:
    """A run over an input."""

    def __init__(self, program, words, text):
        self.words, self.text = [program, *words], text
        self.lanes = 2 if "\n1 " in text or words[0] == "generate" else 1

    def come(self, environment, told):
        """The status and both outputs of a run; `told` is a descriptor that it gets."""
        done = subprocess.run(
            self.words,
            input=self.text.encode(), capture_output=True, env=environment, pass_fds=[told], timeout=PATIENCE,
        )
        return done.returncode, done.stdout.decode(), done.stderr.decode()


class Session:
    """A run that serves one client."""

    lanes = 1

    def __init__(self, program):
        self.program = program

    def come(self, environment, told):
        """The status, what was sent to the client, and what stands on the error stream."""
        with tempfile.TemporaryDirectory() as folder:
            path = os.path.join(folder, "s")
            words = ["serve", path, "--root", ROOT, "--repo", os.path.join(PRODUCT, "packages")]
            with subprocess.Popen(
                [self.program, *words], stdin=subprocess.DEVNULL, stderr=subprocess.PIPE,
                env=environment, pass_fds=[told],
            ) as process:
                try:
                    sent = session_at(path, process)
                    err = process.communicate(timeout=PATIENCE)[1]
                except BaseException:
                    process.kill()
                    raise
        return process.returncode, sent.decode(), err.decode()


def session_at(path, process, lines=SESSION):
    """All that a server sends to one client with these lines, or nothing where it ends before."""
    try:
        link = connected(path, PATIENCE, process.poll, PATIENCE)
    except (FileNotFoundError, ConnectionRefusedError):
        return b""
    with link:
        try:
            link.sendall(lines.encode())
            return b"".join(iter(lambda: link.recv(65536), b""))
        except (BrokenPipeError, ConnectionResetError):
            return b""


def read(path):
    """The text of a file."""
    with open(path, encoding="utf-8") as file:
        return file.read()


def runs(program):
    """All runs, by their names."""
    folder = os.path.join(PRODUCT, "packages")
    product = read(os.path.join(PRODUCT, "product.txt"))
    journal = ["run", "--journal"]
    scripts = {name: Script(program, journal, REALM + lines) for name, lines in SCRIPTS.items()}
    return scripts | {
        "a whole realm": Script(program, journal, read(os.path.join(EXAMPLES, "whole-realm.txt"))),
        "the product": Script(program, [*journal, "--repo", folder], product),
        "a workload": Script(program, ["generate", "1", "5"], ""),
        "a session": Session(program),
    }


def run(shim, made, number):
    """One run whose request of that number is refused: whether it was, and the status and both outputs."""
    told, tell = os.pipe()
    environment = dict(os.environ, LD_PRELOAD=shim, REFUSED=str(number), TELL=str(tell))
    status, out, err = made.come(environment, tell)
    os.close(tell)
    was = os.read(told, 1) == b"x"
    os.close(told)
    return was, status, out, err


def open_actions(text):
    """The actions of a journal that were begun and have no end."""
    begun = set(re.findall(r"=> (?:begun|stopping \d+) (\d+)", text))
    ended = set(re.findall(r"\bend (\d+) ", text))
    return sorted(begun - ended)


def leaves_child(text):
    """Whether a stop of the script `a stop that removes` was refused, and the child is there behind it."""
    answers = text.split("\njournal")[0].splitlines()
    refused = len(answers) == 6 and answers[3] == "0 refused want-of-memory"
    return refused and answers[5] != "0 refused 81 gone incarnation 3"


def broken(status, out, err, whole, lanes):
    """The rule that a run broke, if any."""
    if status not in (0, 6):
        return "status %d" % status
    if (err == "want of memory\n") != (status == 6):
        return "error stream %r" % err
    if status == 0 and lanes == 1 and out != whole:
        return "another text"
    if status == 6 and lanes == 1 and not front_or_wanting(out, whole):
        return "neither a front nor a line that was answered so"
    if "\njournal" in out and open_actions(out):
        return "open actions %s" % ", ".join(open_actions(out))
    if "coll:x" in whole and leaves_child(out):
        return "the stop's child is left"
    return None


def front_or_wanting(out, whole):
    """Whether a text is a front of the whole one, or has a line that was answered so."""
    return whole.startswith(out) or "refused want-of-memory" in out


def count_requests(shim, made):
    """How many requests a run makes: the last one that is refused."""
    below, above = 0, 1
    while run(shim, made, above)[0]:
        below, above = above, 2 * above
    while above - below > 1:
        middle = (below + above) // 2
        if run(shim, made, middle)[0]:
            below = middle
        else:
            above = middle
    return below


def spread(last):
    """The numbers from 1 to the last one, of which the first few are spread over all."""
    step = 1 << last.bit_length()
    while step:
        yield from range(step, last + 1, 2 * step)
        step //= 2


def requests(shim, made, seconds):
    """The requests to refuse: one after another without end, or those for which the seconds are enough."""
    if seconds is None:
        yield from itertools.count(1)
        return
    numbers = spread(count_requests(shim, made))
    end = time.monotonic() + seconds
    for number in numbers:
        yield number
        if time.monotonic() > end:
            return


def try_all(shim, name, made, seconds):
    """Makes a run with each of the requests refused in turn, and says how many of them broke a rule."""
    _, status, whole, err = run(shim, made, 0)
    if status != 0:
        sys.exit("%s: without a refused request: status %d, %s" % (name, status, err))
    failures, counts = 0, collections.Counter()
    for number in requests(shim, made, seconds):
        was, status, out, err = run(shim, made, number)
        if not was:
            # A run of two lanes makes a few requests more or less from time to time.
            if seconds is None:
                break
            continue
        counts[status] += 1
        rule = broken(status, out, err, whole, made.lanes)
        if rule:
            failures += 1
            print("%s, request %d: %s" % (name, number, rule))
    print("%s: %d runs, by status %s" % (name, counts.total(), dict(counts)), flush=True)
    if not counts.total():
        sys.exit("%s: no request was refused" % name)
    return failures


def words():
    """The words that the script was given."""
    parser = argparse.ArgumentParser(description="Refuses requests for memory, one in each run.")
    parser.add_argument("--seconds", type=float, help="end after about so many seconds")
    parser.add_argument("program", nargs="?", default=os.path.join(HERE, "..", "component_manager"))
    parser.add_argument("runs", nargs="*", help="which runs; all where none is named")
    return parser.parse_args()


def main():
    """Makes the wanted runs; the status is 1 where one broke a rule, and 2 where no run has that name."""
    given = words()
    known = runs(given.program)
    wanted = given.runs or list(known)
    unknown = [name for name in wanted if name not in known]
    if unknown:
        names = ", ".join(known)
        print("allocations.py: no run is named %s; there are %s" % (unknown[0], names), file=sys.stderr)
        return 2
    share = None if given.seconds is None else given.seconds / len(wanted)
    with tempfile.TemporaryDirectory() as folder:
        source, shim = os.path.join(folder, "refuse.c"), os.path.join(folder, "refuse.so")
        with open(source, "w", encoding="utf-8") as file:
            file.write(REFUSE)
        subprocess.run(["cc", "-shared", "-fPIC", "-O1", "-o", shim, source], check=True)
        failures = sum(try_all(shim, name, known[name], share) for name in wanted)
    return 1 if failures else 0


if __name__ == "__main__":
    sys.exit(main())
