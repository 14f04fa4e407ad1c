#!/usr/bin/env python3
"""Tries the built program on random realms and commands, for as long as one likes, and compares what it tells
with what it has to.

    bench/soak.py [--seconds N] [--seed S] [--cases N] [--only KIND] [--shrink SECONDS] [PROGRAM]

Each seed gives a case of each kind:

one_lane         one lane of a script, and the same commands in a session: the answers are the same bytes
eight_lanes      a script of eight lanes: each line is answered, and each answer is decided by an entry of its
                 lane, in order
eight_sessions   eight sessions at once over one realm: each line is answered
killed_clients   sessions beside clients that are killed: who isn't killed is answered
killed_server    a server that is killed: what it had sent is a front of the answers, and the next server at
                 its path begins anew

Each journal has to be legal, with as many entries as it has lines for them, and with one number changed it
has to be refused at that entry. That of a served realm is there where the program knows the variable
COMPONENT_JOURNAL: each session's replies are then decided by the entries of one worker. Where it doesn't,
this is said to be left out.

The first difference ends it, with status 1: it prints the seed, the kind, what differs, and the smallest
script that still fails. Then it has tried to leave out commands, and then manifests. Without a difference the
last line says what was tried, with status 0.
"""

import argparse
import contextlib
import os
import random
import re
import signal
import socket
import subprocess
import sys
import tempfile
import threading
import time
from collections import Counter
from dataclasses import replace

import journals
import realms
from served import Served

HERE = os.path.dirname(os.path.abspath(__file__))
sys.dont_write_bytecode = True
sys.path.insert(0, os.path.join(HERE, "..", "tools"))

from cm_tools.meeting import connected

SESSION = os.path.join(HERE, "..", "tools", "session")
VARIABLE = "COMPONENT_JOURNAL"
LANES = 8
# How many clients of a case are killed.
KILLED = 3
# How many seconds anything is waited for.
PATIENCE = 600
# How many commands a case has.
SIZES = (10, 30, 30, 80, 80, 200)
# How often a smaller script is tried: what differs may do so in one order of the lanes alone.
TRIES = 3


class Odd(Exception):
    """Something differs, which the text tells."""


def check(got, wanted, what):
    """Tells a difference, from the first place on at which there is one."""
    if got == wanted:
        return
    if isinstance(got, (bytes, str)) and isinstance(wanted, type(got)):
        at = len(os.path.commonprefix([got, wanted]))
        at = max(0, at - 30)
        raise Odd(f"{what}, from byte {at} on: {got[at:at + 80]!r} in place of {wanted[at:at + 80]!r}")
    raise Odd(f"{what}: {got!r} in place of {wanted!r}")


def built(program):
    """The path of a program; of the script at the top it is that of the program that it runs."""
    with open(program, "rb") as file:
        text = file.read(65536)
    if text[:2] != b"#!" or b"--where" not in text:
        return os.path.abspath(program)
    told = subprocess.run([program, "--where"], stdin=subprocess.DEVNULL, stdout=subprocess.PIPE, check=True)
    return os.fsdecode(told.stdout.rstrip(b"\n"))


class Soak:
    """The program that is tried, and what was tried so far."""

    def __init__(self, program):
        self.program = built(program)
        self.tried = Counter()
        with open(self.program, "rb") as file:
            self.keeps_journals = VARIABLE.encode() in file.read()

    def ran(self, words, text):
        """What the program writes of a text. It has to end with 0, or an audit with 1."""
        try:
            done = subprocess.run([self.program, *words], input=text, capture_output=True, timeout=PATIENCE,
                                  check=False)
        except subprocess.TimeoutExpired:
            raise Odd(f"{words[0]} takes more than {PATIENCE} seconds") from None
        if done.returncode not in (0, *([1] if words == ["audit"] else [])):
            raise Odd(f"{words[0]} ends with {done.returncode} and {done.stderr!r}")
        return done.stdout

    def legal(self, told):
        """The entries of the journal behind what was told; it has to be legal."""
        text = told.decode("utf-8")
        entries = journals.entries_of(text[text.index("journal\n") :])
        check(self.ran(["audit"], told), b"legal %d\n" % len(entries), "the audit")
        self.tried["journals audited legal"] += 1
        self.tried["entries"] += len(entries)
        self.tried["of them behind one of another caller"] += sum(
            one[1] != other[1] for one, other in zip(entries, entries[1:])
        )
        if entries:
            self._refused(text, random.Random(len(text)).choice(entries))
        return entries

    def _refused(self, text, entry):
        """The journal with the number of an entry changed is refused there."""
        number, caller, event, reply = entry
        head = text.index("\nroot ")
        at = text.index(f"\n{number} {caller} {event}{journals.ARROW}", head) + 1
        changed = f"{text[:at]}{number + 7}{text[at + len(str(number)) :]}"
        wanted = f"illegal {number + 7} given {reply} expected number {number}\n"
        check(self.ran(["audit"], changed.encode()).decode(), wanted, "the audit of a changed number")
        self.tried["changed ones refused"] += 1

    def answered(self, told, case):
        """The answers of a run by their lanes, each lane's as many as its commands, and its journal."""
        text, _, journal = told.partition(b"journal\n")
        entries = self.legal(b"journal\n" + journal)
        replies = journals.replies_of(text.decode("utf-8"))
        lanes = [int(line.split(" ", 1)[0]) for line in case.lines if line != "sync"]
        got = [lines[0].split(" ", 1)[0] for lines in replies]
        check(got, [str(lane) for lane in lanes], "the lanes of the answers")
        for lane in sorted(set(lanes)):
            mine = [[it[0].split(" ", 1)[1], *it[1:]] for it, of in zip(replies, lanes) if of == lane]
            self.decided(mine, entries, lane)
        self.tried["commands"] += len(lanes)
        return entries

    def decided(self, replies, entries, caller):
        """Each reply of a caller is decided by an entry of it."""
        own = [entry for entry in entries if entry[1] == caller]
        odd = journals.odd_reply(replies, own) or journals.odd_happening(replies, entries)
        if odd:
            raise Odd(f"no entry of caller {caller} decides {odd!r}")

    def check_served(self, folder, sessions):
        """Where the program keeps it, the journal of the realm that was served, and the sessions' replies."""
        if not self.keeps_journals:
            self.tried["journals of served realms left out"] += 1
            return
        with open(os.path.join(folder, "journal"), "rb") as file:
            entries = self.legal(file.read())
        callers = {entry[1] for entry in entries}
        own = {caller: [it for it in entries if it[1] == caller] for caller in callers | {0}}
        fitting = []
        for text in sessions:
            replies = journals.replies_of(text.decode("utf-8"))
            odd = journals.odd_happening(replies, entries)
            fit = {caller for caller in own if not journals.odd_reply(replies, own[caller])}
            if odd or not fit:
                raise Odd(f"no worker's entries decide the replies of a session: {odd or text[:60]!r}")
            fitting.append(fit)
        if not can_part(fitting):
            raise Odd("two sessions' replies are decided by one worker's entries alone")


def can_part(fitting):
    """Whether each set of callers can give one of them, all different."""
    given = {}

    def gives(place, seen):
        for caller in fitting[place] - seen:
            seen.add(caller)
            if caller not in given or gives(given[caller], seen):
                given[caller] = place
                return True
        return False

    return all(gives(place, set()) for place in range(len(fitting)))


# ---- a server, and who asks it


class Server(Served):
    """A server of a case's realm at a path in a folder, which is ended with the `with` block."""

    def __init__(self, soak, folder, case, sessions, workers):
        path = os.path.join(folder, "s")
        repository = os.path.join(folder, "repo")
        case.write(repository)
        words = ["serve", path, "--root", f"{realms.PACKAGE}m0.cm", "--repo", repository]
        words += ["--sessions", str(sessions), "--workers", str(workers)]
        environment = {**os.environ, VARIABLE: os.path.join(folder, "journal")}
        process = subprocess.Popen([soak.program, *words], env=environment, stdin=subprocess.DEVNULL,
                                   stdout=subprocess.PIPE, stderr=subprocess.PIPE)
        super().__init__(path, process)

    def ready(self):
        """Waits until the server is there."""
        if not self.is_there(PATIENCE):
            raise Odd(f"the server isn't there: status {self.process.poll()}")
        return self

    def connect(self):
        """A link, as soon as the server listens: before that the socket's file may be that of another."""
        try:
            return connected(self.path, PATIENCE, self.process.poll, PATIENCE)
        except OSError as fault:
            raise Odd(f"nobody listens: {fault}") from None

    def ask(self, commands):
        """What a session replies to commands."""
        with self.connect() as link:
            sender = threading.Thread(target=send, args=(link, lines_of(commands)), daemon=True)
            sender.start()
            got = rest_of(link)
            sender.join()
        return got

    def ends(self):
        """Waits for the end of the server, which has had its sessions."""
        try:
            out, told = self.process.communicate(timeout=PATIENCE)
        except subprocess.TimeoutExpired:
            raise Odd("the server doesn't end") from None
        check((self.process.returncode, out, told), (0, b"", b""), "the server's end")


def lines_of(commands):
    return "".join(f"{command}\n" for command in commands).encode()


def send(link, text):
    """Sends a text, and then no more; the server may be gone before."""
    with contextlib.suppress(OSError):
        link.sendall(text)
        link.shutdown(socket.SHUT_WR)


def rest_of(link):
    """All that comes up to the end of a link."""
    pieces = []
    with contextlib.suppress(ConnectionResetError):
        while piece := link.recv(65536):
            pieces.append(piece)
    return b"".join(pieces)


def at_once(works):
    """Does works beside each other, and gives what each gave; the first that is odd is told."""
    results, odd = [None] * len(works), []

    def do(place):
        try:
            results[place] = works[place]()
        except (Odd, OSError, ValueError, threading.BrokenBarrierError) as fault:
            odd.append(fault)

    threads = [threading.Thread(target=do, args=(place,)) for place in range(len(works))]
    for thread in threads:
        thread.start()
    for thread in threads:
        thread.join()
    if odd:
        # Who waits for one that failed is told of it, maybe before it is noted what failed.
        first = next((it for it in odd if not isinstance(it, threading.BrokenBarrierError)), odd[0])
        raise Odd(f"a session: {first}")
    return results


class Asking:
    """A session that begins with a line of its own, so that each of several has a worker before all go on."""

    def __init__(self, server, commands, gate):
        self.server, self.commands, self.gate = server, commands, gate

    def __call__(self):
        try:
            return self._ask()
        except BaseException:
            # The others don't wait for this one.
            self.gate.abort()
            raise

    def _ask(self):
        with self.server.connect() as link:
            link.sendall(b"show .\n")
            first = b""
            while not first.endswith(b"\n"):
                piece = link.recv(4096)
                if not piece:
                    raise Odd(f"an end behind {first!r}")
                first += piece
            self.gate.wait(PATIENCE)
            sender = threading.Thread(target=send, args=(link, lines_of(self.commands)), daemon=True)
            sender.start()
            text = first + rest_of(link)
            sender.join()
        count = len(journals.replies_of(text.decode("utf-8")))
        check(count, len(self.commands) + 1, "the replies of a session")
        return text


# ---- the kinds of cases, each with what it does in a folder of its own


def one_lane(soak, case, folder, _chance):
    case = case.in_one_lane()
    told = soak.ran(["run", "--journal"], case.script().encode())
    soak.answered(told, case)
    answers, _, journal = told.partition(b"journal\n")
    with Server(soak, folder, case, 1, 1).ready() as server:
        got = server.ask([*case.commands(), "quit"])
        server.ends()
    check(got, without_lanes(answers), "a session beside a lane")
    soak.check_served(folder, [got])
    if soak.keeps_journals:
        with open(os.path.join(folder, "journal"), "rb") as file:
            check(file.read(), b"journal\n" + journal, "the journal of a session beside that of a lane")


def without_lanes(answers):
    """The answers of lane 0 as a session tells them."""
    lines = answers.split(b"\n")
    return b"\n".join(line if line.startswith(b"  ") else line[2:] for line in lines)


def eight_lanes(soak, case, folder, _chance):
    case.write(os.path.join(folder, "repo"))
    script = case.script(brings_manifests=False).encode()
    told = soak.ran(["run", "--journal", "--repo", os.path.join(folder, "repo")], script)
    soak.answered(told, case)


def eight_sessions(soak, case, folder, _chance):
    with Server(soak, folder, case, LANES, LANES).ready() as server:
        gate = threading.Barrier(LANES)
        sessions = at_once([Asking(server, case.commands(lane), gate) for lane in range(LANES)])
        server.ends()
    soak.tried["commands"] += len(case.commands())
    soak.check_served(folder, sessions)


def killed_clients(soak, case, folder, chance):
    """Some lanes are clients that are killed, each in a process of its own, behind a reply."""
    with Server(soak, folder, case, LANES + 1, LANES).ready() as server:
        lanes = range(LANES)
        gate = threading.Barrier(LANES - KILLED)
        works = [Asking(server, case.commands(lane), gate) for lane in lanes[KILLED:]]
        works += [Killed(server, case.commands(lane), chance.random()) for lane in lanes[:KILLED]]
        sessions = at_once(works)[: LANES - KILLED]
        check(server.ask(["show .", "quit"])[:6], b"shown ", "the session behind them")
        server.ends()
    soak.tried["clients killed"] += KILLED
    soak.check_served(folder, sessions)


class Killed:
    """A client in a process of its own, which is killed at a place of its commands."""

    def __init__(self, server, commands, part):
        self.server, self.commands, self.part = server, commands, part

    def __call__(self):
        words = [sys.executable, SESSION, "--wait", str(PATIENCE), self.server.path]
        process = subprocess.Popen(words, stdin=subprocess.PIPE, stdout=subprocess.PIPE,
                                   stderr=subprocess.DEVNULL)
        try:
            # Behind its first reply it is a session, and is counted as one.
            process.stdin.write(b"show .\n")
            process.stdin.flush()
            process.stdout.readline()
            text = lines_of(self.commands)
            with contextlib.suppress(BrokenPipeError):
                process.stdin.write(text[: int(len(text) * self.part)])
                process.stdin.flush()
            time.sleep(self.part / 100)
        finally:
            process.kill()
            process.communicate()


def killed_server(soak, case, folder, chance):
    case = case.in_one_lane()
    answers = soak.ran(["run"], case.script().encode())
    wanted = without_lanes(answers)
    with Server(soak, folder, case, 3, 2).ready() as server:
        with server.connect() as link:
            sender = threading.Thread(target=send, args=(link, lines_of(case.commands())), daemon=True)
            sender.start()
            got = some_of(link, int(len(wanted) * chance.random()))
            server.process.send_signal(signal.SIGKILL)
            got += rest_of(link)
            sender.join()
        server.process.wait(PATIENCE)
    check(got, wanted[: len(got)], "what a server had sent that was killed")
    soak.tried["servers killed"] += 1
    if soak.keeps_journals:
        check(os.path.exists(os.path.join(folder, "journal")), False, "a journal of a server that was killed")
    with Server(soak, folder, case, 1, 1) as server:
        got = server.ask([*case.commands(), "quit"])
        server.ends()
    check(got, wanted, "the next server")
    soak.check_served(folder, [got])


def some_of(link, count):
    """The first bytes that come, at least so many if there are."""
    got = b""
    while len(got) < count and (piece := link.recv(65536)):
        got += piece
    return got


ALL = (one_lane, eight_lanes, eight_sessions, killed_clients, killed_server)
KINDS = {kind.__name__: kind for kind in ALL}


def tried(soak, name, seed, case):
    """What differs of a case of a kind, as a text; None where nothing does."""
    with tempfile.TemporaryDirectory() as folder:
        try:
            KINDS[name](soak, case, folder, random.Random(f"{seed} {name}"))
        except (Odd, OSError, ValueError, subprocess.SubprocessError) as differs:
            return str(differs) or type(differs).__name__
    return None


# ---- the smallest case that still fails


def smallest(case, fails, seconds):
    """A case that still fails and has no line, builtin or manifest to spare, if there is time enough."""
    end = time.monotonic() + seconds
    for field in ("lines", "manifests", "builtins"):
        case = without_needless(case, field, lambda less: time.monotonic() < end and fails(less))
    return case


def without_needless(case, field, fails):
    """The case without the items of a field that it still fails without: first many together, then each."""
    items = list(getattr(case, field).items() if field == "manifests" else getattr(case, field))
    size = max(1, len(items) // 2)
    at = 0
    while size:
        fewer = items[:at] + items[at + size :]
        if at < len(items) and fails(replaced(case, field, fewer)):
            items = fewer
        else:
            at += size
        if at >= len(items):
            at, size = 0, size // 2
    return replaced(case, field, items)


def replaced(case, field, items):
    """The case with these items in place of those of the field."""
    return replace(case, **{field: dict(items) if field == "manifests" else tuple(items)})


def sort_of(differs):
    """The words of a difference in front of what it quotes and counts: a smaller script has to fail alike."""
    return differs and re.split(r"[\d'\",:]", differs)[0]


def tell(soak, name, seed, case, differs, options):
    """Prints what fails, and the smallest script that still does."""
    print(f"seed {seed}, {name}: {differs}", flush=True)
    fails = lambda less: any(sort_of(tried(soak, name, seed, less)) == sort_of(differs) for _ in range(TRIES))
    least = smallest(case, fails, options.shrink)
    again = f"bench/soak.py --seed {seed} --cases 1 --only {name} {options.program}"
    print(f"again by: {again}")
    print(f"the smallest script that still fails, of {len(least.commands())} commands:")
    print(least.script(), end="", flush=True)


def case_of(seed, name):
    """The case of a kind that a seed gives."""
    chance = random.Random(f"{seed} {name} case")
    return realms.random_case(chance, LANES, chance.choice(SIZES))


def options_of():
    parser = argparse.ArgumentParser(description="tries the built program on random realms and commands")
    parser.add_argument("--seconds", type=float, default=60.0, help="how long; by default 60")
    parser.add_argument("--seed", type=int, help="the first seed; by default the time")
    parser.add_argument("--cases", type=int, help="how many seeds at most")
    parser.add_argument("--only", choices=[*KINDS], help="this kind alone")
    parser.add_argument("--shrink", type=float, default=60.0,
                        help="how many seconds a smaller script is looked for; by default 60")
    parser.add_argument("program", metavar="PROGRAM", nargs="?",
                        default=os.path.join(HERE, "..", "component_manager"))
    return parser.parse_args()


def main():
    options = options_of()
    soak = Soak(options.program)
    first = int(time.time()) if options.seed is None else options.seed
    kinds = [options.only] if options.only else [*KINDS]
    end, seed = time.monotonic() + options.seconds, first
    if not soak.keeps_journals:
        print(f"soak: left out the journals of served realms, since the program doesn't know {VARIABLE}")
    while time.monotonic() < end and (options.cases is None or seed - first < options.cases):
        for name in kinds:
            case = case_of(seed, name)
            differs = tried(soak, name, seed, case)
            soak.tried["cases"] += 1
            if differs:
                tell(soak, name, seed, case, differs, options)
                sys.exit(1)
        seed += 1
    told = ", ".join(f"{count:,} {what}" for what, count in soak.tried.items())
    print(f"soak: nothing differs; {seed - first} seeds from {first} on: {told}")


if __name__ == "__main__":
    main()
