"""The command line of `session`: a client of a component manager that serves a Unix socket."""

from __future__ import annotations

import argparse
import contextlib
import os
import re
import select
import socket
import sys
import threading
from typing import Iterable, Iterator

from cm_tools.console import Unusable, Words
from cm_tools.meeting import connected
from cm_tools.transcripts import Transcript

QUIT = b"quit"
REFUSED = b"refused "
# What begins each further line of a reply.
FURTHER = b"  "
# What each first line of a reply begins with.
REPLY = re.compile(
    rb"(?:resolved|started|stopped|shut|created|destroyed|children|opened|route|shown|survey|doctor|events"
    rb"|exited|refused) "
)
PIECE = 65536
# How often it looks up while nothing comes, in seconds.
LOOKS_UP = 0.5


def main(words: list[str]) -> int:
    """Has one session; 0 where no command was refused, else 1."""
    options = _parser().parse_args(words)
    lines = [_line(command) for command in options.commands]
    with contextlib.ExitStack() as stack:
        # A path that can't be written costs the server no session.
        transcript = _transcript(options, stack)
        link = stack.enter_context(_connected(options.socket, options.wait))
        sender = Sender(link, lines or _lines_of_input(), transcript)
        sender.start()
        replies = Replies(transcript)
        replies.take_all(link)
    if not sender.is_through or replies.count < sender.asked:
        told = f"{replies.count} whole {'reply' if replies.count == 1 else 'replies'}"
        raise Unusable(f"the session ended early, behind {told}")
    if transcript and transcript.fault:
        raise Unusable(f"{options.transcript}: {transcript.fault.strerror}")
    return 1 if replies.refused else 0


def _parser() -> Words:
    parser = Words(
        prog="session",
        description="Sends commands to a component manager that serves SOCKET, and prints the replies. "
        "Without COMMAND the commands are the lines of the standard input, each sent as it comes.",
        epilog="The status is 0 where no command was refused, and 1 where one was.",
    )
    parser.add_argument("--wait", metavar="SECONDS", type=float, default=0.0,
                        help="how long to wait for a server that isn't there yet; by default not at all")
    parser.add_argument("--transcript", metavar="FILE",
                        help="write commands and replies with their times to a file, which explain reads")
    parser.add_argument("socket", metavar="SOCKET", help="the path that it serves")
    parser.add_argument("commands", metavar="COMMAND", nargs="*", help="a line each, as 'start .'")
    return parser


def _transcript(options: argparse.Namespace, stack: contextlib.ExitStack) -> Transcript | None:
    """The transcript, where one is wanted."""
    if options.transcript is None:
        return None
    try:
        return Transcript(stack.enter_context(open(options.transcript, "wb", buffering=0)), options.socket)
    except OSError as fault:
        raise Unusable(f"{options.transcript}: {fault.strerror}") from None


def _line(command: str) -> bytes:
    if "\n" in command:
        raise Unusable(f"a command is one line, and this one has a line end in it: {ascii(command)}")
    return f"{command}\n".encode("utf-8", "surrogateescape")


def _lines_of_input() -> Iterator[bytes]:
    """The lines of the standard input, each as it comes.

    They aren't taken from its buffer: a thread that waits for a buffer keeps the tool from ending.
    """
    try:
        number = sys.stdin.fileno()
    except OSError:
        yield from sys.stdin.buffer
        return
    behind = b""
    while piece := os.read(number, PIECE):
        *lines, behind = (behind + piece).split(b"\n")
        yield from (line + b"\n" for line in lines)
    if behind:
        yield behind


def _connected(path: str, seconds: float) -> socket.socket:
    """A connection to the server at the path, for which it waits so many seconds."""
    try:
        return connected(path, seconds)
    except (FileNotFoundError, ConnectionRefusedError) as fault:
        raise Unusable(f"{path}: no server is there ({fault.strerror})") from None
    except OSError as fault:
        raise Unusable(f"{path}: {fault.strerror or fault}") from None


class Sender(threading.Thread):
    """Sends the lines beside the replies that come, and then tells that no more follow.

    `asked` is how many of the lines so far have a reply to come: all but a `quit`. It `is_through` when no
    further line is sent.
    """

    def __init__(self, link: socket.socket, lines: Iterable[bytes], transcript: Transcript | None) -> None:
        super().__init__(daemon=True)
        self.transcript = transcript
        self.link = link
        self.lines = lines
        self.asked = 0
        self.is_through = False

    def run(self) -> None:
        try:
            for line in self.lines:
                self.is_through = line.rstrip(b"\n") == QUIT
                self.asked += not self.is_through
                if self.transcript:
                    self.transcript.note(b">", line)
                self.link.sendall(line)
                if self.is_through:
                    break
            self.is_through = True
            self.link.shutdown(socket.SHUT_WR)
        except OSError:
            # The session has ended. How many replies there were tells whether it was too early.
            pass


class Replies:
    """What came of a session so far: the number of replies, and whether one is a refusal."""

    def __init__(self, transcript: Transcript | None = None) -> None:
        self.transcript = transcript
        self.count = 0
        self.refused = False
        self._behind = b""

    def take_all(self, link: socket.socket) -> None:
        """Prints what comes, until the session ends."""
        while True:
            try:
                # A Ctrl-C that comes right before it begins to wait is seen when it looks up.
                while not select.select([link], [], [], LOOKS_UP)[0]:
                    pass
                piece = link.recv(PIECE)
            except ConnectionResetError:
                # The other side went away with lines that it hadn't read.
                return
            except OSError as fault:
                raise Unusable(f"the session broke off: {fault.strerror or fault}") from None
            if not piece:
                return
            sys.stdout.buffer.write(piece)
            sys.stdout.buffer.flush()
            self._take(piece)

    def _take(self, piece: bytes) -> None:
        """Counts the lines that a piece ends. A reply that is cut has no line end, and isn't counted."""
        *lines, self._behind = (self._behind + piece).split(b"\n")
        for line in lines if self.transcript else ():
            self.transcript.note(b"<", line)
        firsts = [line for line in lines if not line.startswith(FURTHER)]
        for line in firsts:
            if not REPLY.match(line):
                raise Unusable(f"what answers there is no component manager: {ascii(line[:60])[1:]}")
        self.count += len(firsts)
        self.refused = self.refused or any(line.startswith(REFUSED) for line in firsts)
