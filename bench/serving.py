#!/usr/bin/env python3
"""Starts the built program as a server at Unix sockets, tries each bad input on it, and compares what it
answers with what it has to.

    bench/serving.py [PROGRAM [CASE..]]

Lines that are cut anywhere, bytes that are no text, lines that are too long or too many; clients that close
in the middle of a reply or at once, that say nothing, that never read, or that are too many; paths that are
too long, taken or not to be had, and socket files that a killed server left. Each case is a function, which
tells what differs; without names of cases all are tried. The case of socat is skipped where socat isn't
there. The status is 0 where nothing differs, and else 1.
"""

import os
import resource
import shutil
import signal
import socket
import stat
import subprocess
import sys
import tempfile
import threading
import time

HERE = os.path.dirname(os.path.abspath(__file__))
sys.dont_write_bytecode = True
sys.path.insert(0, os.path.join(HERE, "..", "tools"))

from cm_tools.meeting import connected
from served import Served

PROGRAM = os.path.abspath(sys.argv[1] if len(sys.argv) > 1 else os.path.join(HERE, "..", "component_manager"))
ROOT = "fuchsia-pkg://t/a#meta/root.cm"
MANIFEST = '{"children":[{"name":"leaf","url":"#meta/leaf.cm"}]}'
LEAF = '{"program":{"runner":"elf"}}'
SHOWN = b"shown . incarnation 0 url " + ROOT.encode() + b" unresolved off\n"
BAD = b"refused 70 bad-command at 0\n"
LONG = b"refused 75 line-too-long\n"
FAULT = b"door fault\n"
# The most lines of a session.
LINES = 1_048_576
# The longest path of a socket that the system takes.
LONGEST_PATH = 107
# How many seconds a case waits for what has to come.
PATIENCE = 600
PIECE = 65536
# How long something is waited for that must not come, in seconds.
SILENCE = 2.0


class Odd(Exception):
    """Something differs, which the text tells."""


class Skipped(Exception):
    """What a case needs isn't here."""


def check(got, wanted, what):
    """Tells a difference."""
    if got != wanted:
        raise Odd(f"{what}: {shortened(got)} in place of {shortened(wanted)}")


def shortened(value):
    text = repr(value)
    return text if len(text) <= 160 else f"{text[:100]}.. ({len(text)} characters)"


def manifests(folder):
    """A folder with the manifests of the root and of its child."""
    place = os.path.join(folder, "repo", "t", "a", "meta")
    os.makedirs(place, exist_ok=True)
    for name, text in (("root.cm", MANIFEST), ("leaf.cm", LEAF)):
        with open(os.path.join(place, name), "w", encoding="utf-8") as file:
            file.write(text)
    return os.path.join(folder, "repo")


def crowd(folder, children):
    """The root has so many children in place of one, so that a report on all is long."""
    rows = ",".join(f'{{"name":"leaf{number}","url":"#meta/leaf.cm"}}' for number in range(children))
    with open(os.path.join(manifests(folder), "t/a/meta/root.cm"), "w", encoding="utf-8") as file:
        file.write(f'{{"children":[{rows}]}}')


class Server(Served):
    """A server at a path, which is ended with the case."""

    def __init__(self, folder, sessions=1, workers=1, path=None, repository=None, before=None):
        path = os.path.join(folder, "s") if path is None else path
        words = ["serve", path, "--root", ROOT, "--repo", repository or manifests(folder)]
        words += ["--sessions", str(sessions), "--workers", str(workers)]
        process = subprocess.Popen(
            [PROGRAM, *words],
            stdin=subprocess.DEVNULL,
            stdout=subprocess.PIPE,
            stderr=subprocess.PIPE,
            preexec_fn=before,
        )
        super().__init__(path, process)

    def ready(self):
        """Waits until the server is there."""
        if not self.is_there(PATIENCE):
            raise Odd(f"the server isn't there: status {self.process.poll()}, {self.said()}")
        return self

    def said(self):
        """What a server that has ended wrote on its streams."""
        return self.process.communicate()[1] if self.process.poll() is not None else "it goes on"

    def client(self):
        """A link, as soon as the server listens: before that the socket's file may be that of another."""
        return connected(self.path, PATIENCE, self.process.poll, PATIENCE)

    def ask(self, *pieces, pause=0.0):
        """Sends pieces and then no more, and reads all that comes back."""
        with self.client() as link:
            try:
                for piece in pieces:
                    link.sendall(piece)
                    time.sleep(pause)
                link.shutdown(socket.SHUT_WR)
            except (BrokenPipeError, ConnectionResetError):
                pass  # The session is over before all was sent.
            return rest_of(link)

    def ends(self, status=0, err=b""):
        """Waits for the end of the server."""
        try:
            out, told = self.process.communicate(timeout=PATIENCE)
        except subprocess.TimeoutExpired:
            raise Odd("the server doesn't end") from None
        check((self.process.returncode, out, told), (status, b"", err), "the end")


def rest_of(link):
    """All that the server sends up to its end."""
    pieces = []
    while True:
        try:
            piece = link.recv(65536)
        except ConnectionResetError:
            piece = b""
        if not piece:
            return b"".join(pieces)
        pieces.append(piece)


def first_of(link, count):
    """The first bytes that the server sends, so many."""
    got = b""
    while len(got) < count:
        piece = link.recv(count - len(got))
        if not piece:
            raise Odd(f"an end behind {shortened(got)}")
        got += piece
    return got


def send_all(link, text):
    """Sends what the server takes of a text, piece by piece, each in its time: the session may be over
    before all is sent."""
    try:
        for at in range(0, len(text), PIECE):
            link.sendall(text[at : at + PIECE])
    except OSError:
        pass


# ---- what a link gives


def lines_cut_anywhere(folder):
    """Three lines, cut in two at each place, and sent byte by byte."""
    text = b"show .\nfoo\nquit\n"
    with Server(folder, len(text) + 2, 4).ready() as server:
        for at in range(len(text) + 1):
            check(server.ask(text[:at], text[at:], pause=0.002), SHOWN + BAD, f"cut at {at}")
        pieces = [text[at : at + 1] for at in range(len(text))]
        check(server.ask(*pieces, pause=0.001), SHOWN + BAD, "byte by byte")
        server.ends()


def last_line_unended(folder):
    """A last line needs no line feed; a line that is nearly `quit` is no command."""
    with Server(folder, 3).ready() as server:
        check(server.ask(b"show ."), SHOWN, "unended")
        check(server.ask(b"quit \nquit\r\n\n# x\nquit"), BAD * 4, "nearly quit")
        check(server.ask(b""), b"", "nothing")
        server.ends()


def no_text(folder):
    """Bytes that are no text are no command, and the session goes on."""
    lines = [b"\xff\xfe\n", b"\x00\n", b"\xef\xbb\xbfshow .\n", b"\x80show .\n", b"SHOW .\n"]
    behind = b"refused 70 bad-command at 5\n"
    with Server(folder, 1).ready() as server:
        check(server.ask(*lines, b"show \xff\n", b"show .\n"), BAD * 5 + behind + SHOWN, "bytes")
        server.ends()


def long_lines(folder):
    """65,536 bytes are a line, and one more are too long, with a line feed or without; so are ten million."""
    with Server(folder, 4, 2).ready() as server:
        check(server.ask(b"a" * 65536 + b"\nshow .\n"), BAD + SHOWN, "65,536 bytes")
        check(server.ask(b"a" * 65537 + b"\nshow .\n"), LONG + SHOWN, "65,537 bytes")
        check(server.ask(b"a" * 65537), LONG, "65,537 bytes without a line feed")
        check(server.ask(b"a" * 10_000_000 + b"\nshow .\n"), LONG + SHOWN, "ten million bytes")
        server.ends()


def very_many_lines(folder):
    """A session has 1,048,576 lines. What stands behind them is lost, and the next session is served."""
    with Server(folder, 2).ready() as server:
        with server.client() as link:
            sender = threading.Thread(target=send_all, args=(link, b"\n" * (LINES + 1000)), daemon=True)
            sender.start()
            check(rest_of(link), BAD * LINES, "the lines of a session")
            sender.join()
        check(server.ask(b"show .\n"), SHOWN, "the next session")
        server.ends()


def quit_ends(folder):
    """`quit` ends a session though its client sends no end, and nothing behind it is served."""
    with Server(folder, 2).ready() as server:
        with server.client() as link:
            link.sendall(b"show .\nquit\nshow .\n")
            check(rest_of(link), SHOWN, "quit")
        check(server.ask(b"show ."), SHOWN, "the next session")
        server.ends()


def one_realm(folder):
    """All sessions are over one realm, whose manifests stand in the folder."""
    with Server(folder, 3).ready() as server:
        check(server.ask(b"resolve .\n"), b"resolved . action 1\n", "first")
        again = b"resolved . already\nstarted leaf action 3\n"
        check(server.ask(b"resolve .\nstart leaf\n"), again, "second")
        leaf = b"shown leaf incarnation 1 url #meta/leaf.cm resolved on\n"
        check(server.ask(b"show leaf\n"), leaf, "third")
        server.ends()


def no_such_folder(folder):
    """Where the folder of the manifests isn't there, or is a file, each resolve is refused, and no more."""
    absent = b"".join(b"refused 83 cannot-resolve action %d absent\n" % action for action in (1, 2))
    plain = os.path.join(folder, "plain")
    with open(plain, "w", encoding="utf-8") as file:
        file.write("kept")
    for repository in (os.path.join(folder, "none"), plain):
        with Server(folder, repository=repository).ready() as server:
            text = b"show .\nresolve .\nstart .\nshow .\n"
            check(server.ask(text), SHOWN + absent + SHOWN, repository)
            server.ends()


# ---- clients that go away or stay


def closes_without_reading(folder):
    """A client that closes without reading ends its own session alone."""
    with Server(folder, 6, 1).ready() as server:
        for _ in range(5):
            with server.client() as link:
                link.sendall(b"show .\n" * 5000)
        check(server.ask(b"show .\n"), SHOWN, "the next session")
        server.ends()


def closes_in_a_reply(folder):
    """A reply is longer than a socket holds, and its client closes behind its first bytes."""
    with Server(folder, 3, 1).ready() as server:
        crowd(folder, 10_000)
        for _ in range(2):
            with server.client() as link:
                link.sendall(b"resolve .\nsurvey .\n")
                text = first_of(link, 100)
                check(text[:10], b"resolved .", "the first bytes")
        rows = server.ask(b"survey .\n").splitlines()
        check(len(rows), 10_002, "the lines of the whole reply")
        server.ends()


def writes_and_never_reads(folder):
    """A client that never reads holds its own worker, until it goes, and no other session."""
    with Server(folder, 4, 2).ready() as server:
        with server.client() as deaf:
            fill(deaf)
            for number in range(2):
                check(server.ask(b"show .\nquit\n"), SHOWN, f"session {number} beside it")
            fill(deaf)
        check(server.ask(b"show .\n"), SHOWN, "the session behind it")
        server.ends()


def fill(link):
    """Sends lines until the server has taken none for a while: it waits for its replies to be read."""
    link.settimeout(SILENCE)
    try:
        while True:
            link.send(b"show .\n" * 1000)
    except socket.timeout:
        pass


def closes_at_once(folder):
    """A client that says nothing and goes is a session all the same."""
    with Server(folder, 3, 2).ready() as server:
        for _ in range(2):
            server.client().close()
        check(server.ask(b"show .\n"), SHOWN, "the next session")
        server.ends()


def says_nothing(folder):
    """A silent client holds one worker, and nobody else where there is another."""
    with Server(folder, 3, 2).ready() as server:
        with server.client() as silent:
            check(server.ask(b"show .\n"), SHOWN, "beside a silent client")
            with server.client() as other:
                other.sendall(b"show .\n")
                check(other.recv(4096), SHOWN, "a second one beside it")
            silent.sendall(b"show .\n")
            check(silent.recv(4096), SHOWN, "the silent client, later")
        server.ends()


def holds_the_only_worker(folder):
    """With one worker a silent client holds the server, until it goes."""
    with Server(folder, 2, 1).ready() as server:
        with server.client() as silent, server.client() as other:
            other.sendall(b"show .\n")
            other.settimeout(SILENCE)
            try:
                raise Odd(f"served beside the silent client: {other.recv(4096)!r}")
            except socket.timeout:
                pass
            silent.close()
            other.settimeout(PATIENCE)
            check(other.recv(4096), SHOWN, "behind the silent client")
        server.ends()


def beyond_the_sessions(folder):
    """Clients beyond the number of sessions are never served: they see the end with the server."""
    with Server(folder, 1, 2).ready() as server:
        with server.client() as first:
            first.sendall(b"show .\n")
            check(first.recv(4096), SHOWN, "the one session")
            others = [server.client() for _ in range(3)]
            for other in others:
                other.sendall(b"show .\n")
            first.sendall(b"show .\n")
            check(first.recv(4096), SHOWN, "the one session beside them")
        server.ends()
        for other in others:
            check(rest_of(other), b"", "a client too many")
            other.close()
        try:
            server.client().close()
        except FileNotFoundError:
            return
        raise Odd("somebody listens behind the end")


def all_at_once(folder):
    """Sixteen workers serve sixteen clients at once, and 64 sessions in all, whoever comes first."""
    with Server(folder, 64, 16).ready() as server:
        got = []
        ask = lambda: got.append(server.ask(b"show .\nstart leaf\nfoo\nquit\n"))
        clients = [threading.Thread(target=ask) for _ in range(64)]
        for client in clients:
            client.start()
        for client in clients:
            client.join()
        server.ends()
        check(len(got), 64, "the sessions")
        # The first start resolves the root, which others see before, while it lasts, and behind it.
        pending = SHOWN.replace(b"off", b"off pending resolve")
        shown = (SHOWN, pending, SHOWN.replace(b"unresolved", b"resolved"))
        for text in got:
            first, second, third = text.splitlines(keepends=True)
            check((first in shown, third), (True, BAD), "the first and the last line")
            check(second[:12], b"started leaf", "the second line")


def more_than_descriptors(folder):
    """More sessions than the process may have descriptors: each is closed at its end."""
    few = lambda: resource.setrlimit(resource.RLIMIT_NOFILE, (40, 40))
    with Server(folder, 200, 2, before=few).ready() as server:
        for number in range(200):
            check(server.ask(b"show .\nquit\n"), SHOWN, f"session {number}")
        server.ends()


# ---- paths


def only_its_user(folder):
    """The socket file has the mode 0600 whatever the mask is, and is gone behind the end."""
    for mask in (0, 0o022, 0o277):
        with Server(folder, before=lambda: os.umask(mask)).ready() as server:
            check(stat.S_IMODE(os.stat(server.path).st_mode), 0o600, f"the mode under {mask:o}")
            check(server.ask(b"show .\n"), SHOWN, f"under {mask:o}")
            server.ends()
            check(os.path.exists(server.path), False, "the socket file at the end")


def longest_path(folder):
    """A path of 107 bytes is served, and one of 108 isn't."""
    path = os.path.join(folder, "a" * (LONGEST_PATH - len(folder) - 1))
    with Server(folder, path=path).ready() as server:
        check(server.ask(b"show .\n"), SHOWN, "107 bytes")
        server.ends()
    refused_at(folder, f"{path}a", "108 bytes")


def refused_at(folder, path, what):
    """A server at this path ends at once."""
    with Server(folder, path=path) as server:
        try:
            server.ends(5, FAULT)
        except Odd as odd:
            raise Odd(f"{what}: {odd}") from None


def paths_not_to_be_had(folder):
    """Paths that are too long, empty, in no folder or below a file, and places where nobody may write."""
    refused_at(folder, os.path.join(folder, "a" * 200), "200 bytes")
    refused_at(folder, "", "an empty path")
    refused_at(folder, os.path.join(folder, "none", "s"), "no such folder")
    refused_at(folder, os.path.join(manifests(folder), "t", "a", "meta", "root.cm", "s"), "below a file")
    refused_at(folder, "/proc/component_manager_socket", "/proc")
    if os.geteuid() != 0:
        locked = os.path.join(folder, "locked")
        os.mkdir(locked, 0o500)
        refused_at(folder, os.path.join(locked, "s"), "a folder without leave to write")


def other_files_stay(folder):
    """A plain file, a folder, a pipe, and links to a file and to nothing are no sockets, and stay so."""
    names = ("plain", "inside", "pipe", "link", "loose")
    plain, inside, pipe, link, loose = paths = [os.path.join(folder, name) for name in names]
    with open(plain, "w", encoding="utf-8") as file:
        file.write("kept")
    os.mkdir(inside)
    os.mkfifo(pipe)
    os.symlink(plain, link)
    os.symlink(os.path.join(folder, "none"), loose)
    before = [os.lstat(path) for path in paths]
    for path in paths:
        refused_at(folder, path, path)
    with open(plain, encoding="utf-8") as file:
        check(file.read(), "kept", "the plain file")
    for path, was in zip(paths, before):
        now = os.lstat(path)
        check((now.st_ino, now.st_mode), (was.st_ino, was.st_mode), path)


def living_server_stays(folder):
    """A second server at a path gets none, and the first goes on. Its look is a session without a line."""
    with Server(folder, 2).ready() as server:
        refused_at(folder, server.path, "the second server")
        check(server.ask(b"show .\n"), SHOWN, "the first server")
        server.ends()
        check(os.path.exists(server.path), False, "the socket file at the end")


def killed_server_is_replaced(folder):
    """The socket file of a server that was killed, or ended by a signal, is taken over."""
    for end in (signal.SIGKILL, signal.SIGTERM):
        with Server(folder).ready() as server, server.client() as link:
            link.sendall(b"show .\n")
            check(link.recv(4096), SHOWN, "the server that is to be killed")
            server.process.send_signal(end)
            server.process.wait(PATIENCE)
            check(rest_of(link), b"", "the end of its session")
            check(os.path.exists(server.path), True, "the socket file of the killed server")
        with Server(folder) as server:
            check(server.ask(b"show .\n"), SHOWN, "the next server")
            server.ends()
            check(os.path.exists(server.path), False, "the socket file at the end")


def one_of_two_replaces(folder):
    """Of two servers that come to a dead one's socket file at once, one serves and the other ends with 5."""
    for _ in range(5):
        with Server(folder).ready() as dead:
            dead.process.kill()
            dead.process.wait(PATIENCE)
        with Server(folder, 3) as one, Server(folder, 3) as other:
            end = time.monotonic() + PATIENCE
            while one.process.poll() is None and other.process.poll() is None and time.monotonic() < end:
                time.sleep(0.005)
            lost, kept = (other, one) if one.process.poll() is None else (one, other)
            lost.ends(5, FAULT)
            check(kept.ask(b"show .\nquit\n"), SHOWN, "the server that is left")
            check(kept.process.poll(), None, "its status")
        os.unlink(os.path.join(folder, "s"))


def by_socat(folder):
    """socat sees each reply, and the end behind a `quit` and behind its own last line, while the server goes
    on."""
    if shutil.which("socat") is None:
        raise Skipped("socat isn't here")
    with Server(folder, 4).ready() as server:
        for text in (b"show .\nquit\n", b"show .\nquit\nshow .\n", b"show .\n", b"show ."):
            words = ["socat", "-t", str(PATIENCE), "-", f"UNIX-CONNECT:{server.path}"]
            done = subprocess.run(words, input=text, capture_output=True, timeout=PATIENCE, check=False)
            check((done.returncode, done.stdout), (0, SHOWN), repr(text))
        server.ends()


def words_are_checked(folder):
    """Words that `serve` doesn't take."""
    path, repo = os.path.join(folder, "s"), manifests(folder)
    whole = ["serve", path, "--root", ROOT, "--repo", repo]
    for words in (whole[:1], whole[:4], [*whole, "--sessions", "0"], [*whole, "--sessions", "4097"],
                  [*whole, "--workers", "17"], [*whole, "--workers", "many"], [*whole, path]):
        done = subprocess.run([PROGRAM, *words], stdin=subprocess.DEVNULL, capture_output=True, check=False,
                              timeout=PATIENCE)
        usage = b"usage: run, check, serve, audit, generate, environments, storage\n"
        what = " ".join(words[6:]) or "few words"
        check((done.returncode, done.stdout, done.stderr), (2, b"", usage), what)
    check(os.path.exists(path), False, "a socket file")


CASES = (
    lines_cut_anywhere,
    last_line_unended,
    no_text,
    long_lines,
    very_many_lines,
    quit_ends,
    one_realm,
    no_such_folder,
    closes_without_reading,
    closes_in_a_reply,
    writes_and_never_reads,
    closes_at_once,
    says_nothing,
    holds_the_only_worker,
    beyond_the_sessions,
    all_at_once,
    more_than_descriptors,
    by_socat,
    only_its_user,
    longest_path,
    paths_not_to_be_had,
    other_files_stay,
    living_server_stays,
    killed_server_is_replaced,
    one_of_two_replaces,
    words_are_checked,
)


def tried(case):
    """Tries a case in a folder of its own, and tells what came of it; whether it is as it has to be."""
    with tempfile.TemporaryDirectory() as folder:
        try:
            case(folder)
        except Skipped as lacks:
            print(f"{case.__name__}: skipped, since {lacks}", flush=True)
        except (Odd, OSError, ValueError, subprocess.SubprocessError) as differs:
            print(f"{case.__name__}: {differs}", flush=True)
            return False
        else:
            print(f"{case.__name__}: as it has to be", flush=True)
    return True


def main():
    names = sys.argv[2:]
    cases = [case for case in CASES if not names or case.__name__ in names]
    unknown = set(names) - {case.__name__ for case in cases}
    if unknown:
        sys.exit(f"no such case: {', '.join(sorted(unknown))}")
    results = [tried(case) for case in cases]
    sys.exit(0 if all(results) else 1)


if __name__ == "__main__":
    main()
