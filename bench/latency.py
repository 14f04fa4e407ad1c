#!/usr/bin/env python3
"""Prints how long a `show` takes over a session while another caller keeps the server busy, beside the same
without the other caller, in the same run and over the same realm.

    bench/latency.py [--rounds N] [--shows N] [--seconds N] [--only WORD] PROGRAM LOAD

What the other caller does in a session of its own:

surveys    surveys a realm of 65,536 instances, again and again
shutdowns  shuts down 10,000 instances that were started, and then the next 10,000, six times
follows    polls `events` over a history of 10,000 starts, each time from where the last poll ended
rereads    polls `events` over the same history, each time from its first entry on

A row has how many shows one client asked for beside the other caller, one at a time, and the microseconds
within which half of them, 99 of 100, 999 of 1,000 and all were answered: alone, and beside the other caller.
There are as many as come in about --seconds, at most --shows. Each number is the middle one of the rounds, of
which each has a server of its own. Behind them stands how often a second the other caller was answered. Who
asks for the next show when the last was answered asks for few while nobody is answered: the slowest one tells
of that.

LOAD is the path of a native client, which is called with the words `SOCKET CLIENTS COUNT AT-ONCE LINES
COMMAND` and prints `N commands/s, p50 N us, p99 N us, p99.9 N us, max N us`: what half of the commands took,
and so on. The status is 1 where a server or a client fails, and 2 where the words are wrong.
"""

import argparse
import contextlib
import os
import re
import signal
import socket
import statistics
import subprocess
import sys
import tempfile
import threading
import time
from dataclasses import dataclass

HERE = os.path.dirname(os.path.abspath(__file__))
sys.dont_write_bytecode = True
sys.path.insert(0, os.path.join(HERE, "..", "tools"))

from cm_tools.meeting import connected

ROOT = "fuchsia-pkg://bench/p#meta/root.cm"
# The most instances of a realm, and how many a group has with its parent.
FULL, GROUP = 65_536, 10_000
GROUPS = [f"g{number}" for number in range(6)]
# What is shown: two names are looked for, and one step each is made.
SHOW = "show w"
NUMBER = r" ([\d.]+) us"
TOLD = re.compile(rf"(\d+) commands/s, p50{NUMBER}, p99{NUMBER}, p99\.9{NUMBER}, max{NUMBER}")
# How many commands a caller sends at once, how many shows tell how long one takes, and how many seconds
# anything is waited for.
AT_ONCE, PROBE, PATIENCE = 500, 200, 600
# How many shows are asked for beside what is done once, and how often half as many are tried, where that was
# done before them.
ONCE, TRIES = 8_000, 5


class Fails(Exception):
    """A server or a client fails, as the text tells."""


def manifests():
    """The files of the realm: a child that is shown, groups of children that start with it, a collection."""
    row = '{{"name":"{}","url":"#meta/{}.cm"{}}}'.format
    eager = ',"startup":"eager"'
    inside = ",\n".join(row(f"i{it}", "leaf", eager) for it in range(GROUP - 1))
    children = ",".join([row("w", "leaf", ""), *(row(name, "group", "") for name in GROUPS)])
    collection = '"collections":[{"name":"k","durability":"transient"}]'
    program = '{"program":{"runner":"elf"}'
    return {"leaf": program + "}", "group": f'{program},"children":[{inside}]}}',
            "root": f'{{"children":[{children}],{collection}}}'}


class Server:
    """A server over the realm, which is ended with the `with` block."""

    def __init__(self, program, folder):
        place = os.path.join(folder, "repo", "bench", "p", "meta")
        os.makedirs(place)
        for name, text in manifests().items():
            with open(os.path.join(place, f"{name}.cm"), "w", encoding="utf-8") as file:
                file.write(text)
        self.path = os.path.join(folder, "s")
        words = ["serve", self.path, "--root", ROOT, "--repo", os.path.join(folder, "repo")]
        words += ["--sessions", "4096", "--workers", "4"]
        self.process = subprocess.Popen([program, *words], stdin=subprocess.DEVNULL)

    def __enter__(self):
        return self

    def __exit__(self, *what):
        self.process.kill()
        self.process.wait()

    def session(self):
        """A session, as soon as the server listens."""
        return Session(connected(self.path, PATIENCE, self.process.poll, PATIENCE))


class Session:
    """A caller's link to the server, and what came and wasn't read yet."""

    def __init__(self, link):
        self.link = link

    def ask(self, commands):
        """Asks for commands that are answered by a line each."""
        for at in range(0, len(commands), AT_ONCE):
            part = commands[at : at + AT_ONCE]
            self.link.sendall("".join(f"{it}\n" for it in part).encode())
            self.pass_over(len(part))

    def pass_over(self, lines):
        """Reads so many lines."""
        while lines > 0:
            lines -= self.piece().count(b"\n")

    def piece(self):
        """What has come."""
        piece = self.link.recv(1 << 20)
        if not piece:
            raise Fails("the server ended a session")
        return piece

    def told(self, command):
        """The first line of a report whose third word says how many lines are behind it, which are passed
        over."""
        self.link.sendall(f"{command}\n".encode())
        text = b""
        while b"\n" not in text:
            text += self.piece()
        head, _, rest = text.partition(b"\n")
        words = head.decode().split()
        if len(words) < 3 or not words[2].isdigit():
            raise Fails(f"`{command}` was answered with {head.decode()}")
        self.pass_over(int(words[2]) - rest.count(b"\n"))
        return words


# ---- what the other caller does: each gives a value whenever it was answered


def surveys(session):
    while True:
        yield session.told("survey .")


def shutdowns(session):
    for name in GROUPS:
        yield session.ask([f"shutdown {name}"])


def follows(session):
    place = 0
    while True:
        place = session.told(f"events . {place}")[-1]
        yield place


def rereads(session):
    while True:
        yield session.told("events . 0")


@dataclass
class Case:
    """What the other caller does, the commands before it, and whether it begins anew with each round alone,
    so that nothing can be tried before."""

    work: object
    before: list
    is_once: bool = False


CASES = (
    Case(surveys, [f"create . k c{it} #meta/leaf.cm" for it in range(FULL - 2 - len(GROUPS))]),
    Case(shutdowns, [f"start {name}" for name in GROUPS], is_once=True),
    Case(follows, [f"start {GROUPS[0]}"]),
    Case(rereads, [f"start {GROUPS[0]}"]),
)


class Other(threading.Thread):
    """The other caller, which goes on until the `with` block ends or its work is done."""

    def __init__(self, work, session, first):
        super().__init__(daemon=True)
        self.work, self.session, self.first = work, session, first
        self.answers, self.fault, self.is_stopped = 0, None, False
        self.is_busy, self.began = threading.Event(), time.monotonic()

    def run(self):
        try:
            for _ in self.work(self.session):
                self.answers += 1
                self.is_busy.set()
        except (Fails, OSError, ValueError) as fault:
            self.fault = None if self.is_stopped else fault
        self.is_busy.set()

    def __enter__(self):
        self.start()
        # A work that is done once is measured from its first moment on.
        if self.first and not self.is_busy.wait(PATIENCE):
            raise Fails("the other caller isn't answered")
        self.began, self.answers = time.monotonic(), 0
        return self

    def __exit__(self, *what):
        self.is_stopped = True
        with contextlib.suppress(OSError):
            self.session.link.shutdown(socket.SHUT_RDWR)
        self.join(PATIENCE)
        self.session.link.close()

    def rate(self):
        """How often a second it was answered; nothing where it was done before."""
        if self.fault:
            raise Fails(f"the other caller: {self.fault}")
        return self.answers / (time.monotonic() - self.began) if self.is_alive() else None


# ---- what is measured


def shown(load, server, count):
    """How many shows of so many were answered a second, and within how many microseconds half of them, 99 of
    100, 999 of 1,000, and all."""
    words = [load, server.path, "1", str(count), "1", "1", SHOW]
    try:
        done = subprocess.run(words, capture_output=True, timeout=PATIENCE, check=False)
    except subprocess.TimeoutExpired:
        raise Fails(f"{count} shows take more than {PATIENCE} s") from None
    found = TOLD.search(done.stdout.decode("utf-8", "replace"))
    if done.returncode or not found:
        raise Fails(f"{load} ended with {done.returncode}: {done.stderr.decode('utf-8', 'replace').strip()}")
    return [float(it) for it in found.groups()]


def fitting(load, server, options):
    """How many shows fit into the seconds, by what a few take, and then some more."""
    rate = shown(load, server, PROBE)[0]
    rate = shown(load, server, max(PROBE, int(options.seconds / 10 * rate)))[0]
    return max(PROBE, min(options.shows, int(options.seconds * rate)))


def measured(case, options, shows):
    """One round: how many shows, what they take alone and beside, and how often the other was answered;
    nothing where it was done before them."""
    with tempfile.TemporaryDirectory() as folder, Server(options.program, folder) as server:
        server.session().ask(["start w", *case.before])
        alone = shown(options.load, server, fitting(options.load, server, options))
        with Other(case.work, server.session(), not case.is_once) as other:
            count = shows if case.is_once else fitting(options.load, server, options)
            beside = shown(options.load, server, count)
            rate = other.rate()
    return None if rate is None else (count, *alone[1:], *beside[1:], rate)


def round_of(case, options):
    """One round; with fewer shows, where the other caller was done before them."""
    shows = min(ONCE, options.shows)
    for _ in range(TRIES):
        found = measured(case, options, shows)
        if found:
            return found
        shows //= 2
    raise Fails("the other caller is done before the shows are")


def tell(case, options):
    """Prints a case's row, of which each number is the middle one of all rounds."""
    rounds = [round_of(case, options) for _ in range(options.rounds)]
    count, *times, rate = (statistics.median(column) for column in zip(*rounds))
    alone, beside = ("".join(f"{it:>10.0f}" for it in part) for part in (times[:4], times[4:]))
    print(f"{case.work.__name__:<10}{count:>7.0f} |{alone} |{beside} |{rate:>10.1f}", flush=True)


def options_of():
    """What the words ask for."""
    parser = argparse.ArgumentParser(description="Prints what a show takes beside a busy caller.")
    parser.add_argument("--rounds", type=int, default=3, help="of which the middle counts; by default 3")
    parser.add_argument("--shows", type=int, default=200_000, help="the most of a row; by default 200000")
    parser.add_argument("--seconds", type=float, default=10, help="for how long; by default 10")
    parser.add_argument("--only", default="", help="rows of which the name has this word")
    parser.add_argument("program", metavar="PROGRAM", help="the built program")
    parser.add_argument("load", metavar="LOAD", help="the native client")
    options = parser.parse_args()
    for path in (options.program, options.load):
        if not os.path.isfile(path) or not os.access(path, os.X_OK):
            parser.error(f"{path} is no program")
    if options.rounds < 1 or options.shows < PROBE or options.seconds <= 0:
        parser.error(f"at least a round, {PROBE} shows and a second are needed")
    if not any(options.only in case.work.__name__ for case in CASES):
        parser.error(f"no row is named {options.only}")
    options.program, options.load = os.path.abspath(options.program), os.path.abspath(options.load)
    return options


def main():
    options = options_of()
    for number in (signal.SIGTERM, signal.SIGHUP):
        signal.signal(number, lambda it, _: sys.exit(128 + it))
    print(f"microseconds, the middle of {options.rounds}; the load before: {os.getloadavg()[0]:.1f} on "
          f"{os.cpu_count()} processors")
    head = "".join(f"{it:>10}" for it in ("half", "99 of 100", "999", "all"))
    print(f"{'beside':<10}{'shows':>7} |{head} |{head} |{'a second':>10}")
    try:
        for case in CASES:
            if options.only in case.work.__name__:
                tell(case, options)
    except (Fails, OSError) as fault:
        print(f"latency: {fault}", file=sys.stderr)
        return 1
    print(f"the load behind: {os.getloadavg()[0]:.1f}")
    return 0


if __name__ == "__main__":
    sys.exit(main())
