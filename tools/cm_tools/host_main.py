"""The command line of `host`."""

from __future__ import annotations

import json
import os
import socket
import sys
import threading
import time
from pathlib import Path
from typing import Callable, Iterator

from cm_tools import session_main
from cm_tools.console import Unusable, Words
from cm_tools.host import front, making
from cm_tools.host.events import EVENTS, place_of, told
from cm_tools.host.listing import listing
from cm_tools.host.programs import Unfit
from cm_tools.host.settings import Places, Settings
from cm_tools.merge_main import add_words, features
from cm_tools.merging import Sources


def main(words: list[str]) -> int:
    """Runs a host, or asks one that runs."""
    if words and words[0] in ASKED:
        return ASKED[words[0]](words[1:])
    return _run(words)


def _default_run() -> str:
    state = os.environ.get("XDG_STATE_HOME") or os.path.join(os.path.expanduser("~"), ".local/state")
    return os.path.join(state, "component_manager/host")


def _run(words: list[str]) -> int:
    options = _parser().parse_args(words)
    front.check_user()
    front.check_tools()
    if options.builtin:
        raise Unusable(f"{options.builtin[0]}: a served realm has no builtins, so none can be given")
    repo, run = Path(options.repo).resolve(), Path(options.run).resolve()
    sources = Sources([Path(one) for one in options.include], features(options.without))
    front.check_root(repo, options.root)
    front.check_sandbox()
    front.make_run(run)
    # It may have to be made, which takes minutes: what can't be used is told before.
    program = front.find_program()
    lock = front.take_lock(Places(run).lock)
    try:
        manifests = front.merged_manifests(repo, sources, Places(run).manifests)
        settings = Settings(program, str(repo), str(manifests), options.root, str(run), options.coarse_rights,
                            options.quiet,
                            cgroup=options.cgroup if options.cgroup is not None else front.own_cgroup(),
                            plain=options.plain_directories,
                            writes_journals=front.writes_journals(program), **_limits())
        return front.Front(settings).run()
    finally:
        os.close(lock)


def _parser() -> Words:
    parser = Words(
        prog="host",
        description="Runs the component manager with the packages in REPO and the root ROOT, and the "
        "programs of its components in sandboxes. Ctrl-C shuts all down in order.",
        epilog="Further: host console DIR [COMMAND ..], host ps DIR, host logs DIR [MONIKER], "
        "host open DIR MONIKER NAME, host status DIR, host replace DIR, host end DIR, "
        "host new NAME -- COMMAND .., host unit REPO ROOT ... DIR is what --run named.",
    )
    parser.add_argument("repo", metavar="REPO", help="the folder of packages")
    parser.add_argument("root", metavar="ROOT", help="the URL of the root's manifest")
    parser.add_argument("--run", metavar="DIR", default=_default_run(), help="the folder of this host, which "
                        "is kept: its sockets, its log, what it remembers; by default %(default)s")
    parser.add_argument("--builtin", metavar="NAME", action="append", default=[],
                        help="refused: a served realm has no builtins")
    parser.add_argument("--coarse-rights", action="store_true", help="bind a directory whose rights Linux "
                        "can't say, with the next larger ones, instead of refusing its client")
    parser.add_argument("--plain-directories", action="store_true", help="bind read-only directories without "
                        "a layer that refuses sockets in them, where the system lays none")
    parser.add_argument("--cgroup", metavar="DIR", help="the cgroup in which instances get theirs")
    parser.add_argument("--quiet", action="store_true", help="show nothing; the log has it")
    add_words(parser)
    return parser


def _limits() -> dict[str, int]:
    """When a manager is replaced and a storage is full, where the environment says it: for trying it."""
    found = {}
    for name in ("roll_entries", "roll_bytes", "storage_bytes", "storage_files"):
        value = os.environ.get(f"COMPONENT_HOST_{name.upper()}", "")
        if value.isdigit():
            found[name] = int(value)
    return found


def _console(words: list[str]) -> int:
    """A session with the manager of a host."""
    if not words:
        raise Unusable("console DIR [COMMAND ..]")
    return session_main.main([str(Places(words[0]).console), *words[1:]])


def _ps(words: list[str]) -> int:
    """What runs."""
    if len(words) != 1:
        raise Unusable("ps DIR")
    rows = front.ask(Path(words[0]), "ps")
    for line in listing(Path(words[0]), rows):
        print(line)
    return 0


def _logs(words: list[str]) -> int:
    """What an instance printed, or what came about in the host."""
    if len(words) not in (1, 2):
        raise Unusable("logs DIR [MONIKER]")
    folder = Places(words[0]).log
    if len(words) == 1:
        return _events(folder)
    place = place_of(folder, words[1].strip("/") or ".")
    if not place.exists():
        raise Unusable(f"{words[1]} has printed nothing in {words[0]}")
    for file in (place.with_suffix(".1"), place):
        if file.exists():
            with open(file, "rb") as source:
                while piece := source.read(1 << 16):
                    sys.stdout.buffer.write(piece)
    sys.stdout.buffer.flush()
    return 0


def _events(folder: Path) -> int:
    try:
        with open(folder / EVENTS, encoding="utf-8") as file:
            for line in file:
                try:
                    event = json.loads(line)
                except ValueError:
                    continue
                at = time.strftime("%Y-%m-%d %H:%M:%S", time.localtime(event["at"]))
                print(f"{at}.{int(event['at'] * 1000) % 1000:03} {told(event)}")
    except OSError as fault:
        raise Unusable(f"{folder / EVENTS}: {fault.strerror}") from None
    return 0


def _open(words: list[str]) -> int:
    """A connection to what an instance exposes: what is read here goes there, what comes is written."""
    if len(words) != 3:
        raise Unusable("open DIR MONIKER NAME")
    with front.connected(Path(words[0])) as link:
        link.sendall(f"open {words[1]} {words[2]}\n".encode())
        with link.makefile("rb", buffering=0) as replies:
            answer = json.loads(replies.readline() or b'{"refused": "the host hung up"}')
        if "refused" in answer:
            print(answer["refused"])
            return 1
        Sender(link, iter(lambda: sys.stdin.buffer.read1(1 << 16), b"")).start()
        while piece := link.recv(1 << 16):
            sys.stdout.buffer.write(piece)
            sys.stdout.buffer.flush()
    return 0


class Sender(threading.Thread):
    """Sends what comes beside what is received, and then tells that no more follows."""

    def __init__(self, link: socket.socket, pieces: Iterator[bytes]) -> None:
        super().__init__(daemon=True)
        self.link, self.pieces = link, pieces

    def run(self) -> None:
        try:
            for piece in self.pieces:
                self.link.sendall(piece)
            self.link.shutdown(socket.SHUT_WR)
        except OSError:
            # The other side has ended the connection, which is seen where it is received.
            pass


def _new(words: list[str]) -> int:
    """Writes a package for a command."""
    parser = Words(prog="host new", description="Writes a package for a program, and the root of all "
                   "packages that were written so, and says what the program can open.")
    parser.add_argument("--repo", metavar="DIR", default="components", help="by default %(default)s")
    parser.add_argument("--uses", metavar="PROTOCOL", action="append", default=[])
    parser.add_argument("--provides", metavar="PROTOCOL", action="append", default=[])
    parser.add_argument("name", metavar="NAME")
    parser.add_argument("command", metavar="COMMAND", nargs="+", help="the program and its words, behind --")
    options = parser.parse_args(words)
    repo = Path(options.repo)
    try:
        lines = making.make(repo, options.name, options.command, options.uses, options.provides)
    except Unfit as fault:
        raise Unusable(str(fault)) from None
    for line in lines:
        print(line)
    print(f"start it: tools/host {repo} {making.url_of('root')}, and in its console: start {options.name}")
    return 0


def _unit(words: list[str]) -> int:
    """Prints a unit for `systemd --user`."""
    options = _parser().parse_args(words)
    repo, run = Path(options.repo).resolve(), Path(options.run).resolve()
    front.check_root(repo, options.root)
    whole = [str(repo), options.root, "--run", str(run)]
    for name in "coarse_rights", "plain_directories", "quiet":
        whole += ["--" + name.replace("_", "-")] if getattr(options, name) else []
    for name in "cgroup", "without":
        whole += [f"--{name}", getattr(options, name)] if getattr(options, name) else []
    for one in options.include:
        whole += ["--include", str(Path(one).resolve())]
    print(making.unit(front.TOOLS / "host", sys.executable, front.find_program(), whole), end="")
    return 0


def _word(word: str) -> Callable[[list[str]], int]:
    def ask(words: list[str]) -> int:
        if len(words) != 1:
            raise Unusable(f"{word} DIR")
        print(json.dumps(front.ask(Path(words[0]), word)))
        return 0

    return ask


ASKED: dict[str, Callable[[list[str]], int]] = {
    "console": _console, "ps": _ps, "logs": _logs, "status": _word("status"), "replace": _word("replace"),
    "end": _word("end"), "open": _open, "new": _new, "unit": _unit,
}
