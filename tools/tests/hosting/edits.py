"""Changes of a host's sources, each of which takes one defence away. The attack has to come through then."""

from __future__ import annotations

import shutil
from pathlib import Path

from tests.hosting.trial import TOOLS

# What is replaced by what in which file, and the tries of the intruder that come through.
NO_FILTER = ("sandbox.py", "if filter_at is not None:\n        told", "if False:\n        told")
EDITS: dict[str, tuple[list[tuple[str, str, str]], tuple[str, ...]]] = {
    "a refusal is taken for an opening": (
        [("doors.py", 'if not reply.startswith("opened "):',
          'if reply.startswith("refused 87"):\n'
          '                    await manager.asked.consoles.ask("start logger")\n'
          '                    reply = "opened /svc/demo.LogSink at logger incarnation 1"\n'
          '                if not reply.startswith("opened "):')], ("LogSink, which isn't offered",)),
    "links are followed": (
        [("beneath.py", "O_PATH | os.O_NOFOLLOW | os.O_CLOEXEC | kind", "O_PATH | os.O_CLOEXEC | kind")],
        ("a friend's link to the manager", "a friend's link to the host's root")),
    "no layer over read-only folders": (
        [("doors.py", "if not may_write and not self.runner.settings.plain:", "if False:")],
        ("a friend's socket in a read-only folder",)),
    "read-only folders are bound for writing": (
        [("doors.py", "may_write = bool(rights & WRITES)", "may_write = True")],
        ("write to a read-only folder",)),
    "the network is shared": (
        [("sandbox.py", '"--unshare-all",', '"--unshare-all", "--share-net",')],
        ("interfaces", "an address on the network", "an abstract socket")),
    "processes are shared": (
        [("sandbox.py", '"--unshare-all", "--unshare-user",',
          '"--unshare-user", "--unshare-ipc", "--unshare-net", "--unshare-uts",')], ("processes",)),
    "user namespaces may be made": (
        [("sandbox.py", '"--disable-userns",', ""), NO_FILTER], ("a user namespace",)),
    "rights are left": (
        [("sandbox.py", '"--disable-userns",', ""),
         ("sandbox.py", '"--cap-drop", "ALL",', '"--cap-add", "ALL",'),
         ("sandbox.py", '"--uid", "1000", "--gid", "1000"', '"--uid", "0", "--gid", "0"'), NO_FILTER],
        ("mount",)),
    "the root can be written": (
        [("sandbox.py", '["--remount-ro", "/", "--chdir"', '["--chdir"')], ("write to the root",)),
    "the package can be written": (
        [("sandbox.py", '"--ro-bind", str(program.package)', '"--bind", str(program.package)')],
        ("write to /pkg",)),
    "/usr is no mount for reading alone": (
        [("sandbox.py", '"--ro-bind", "/usr", "/usr", "--symlink"', '"--bind", "/usr", "/usr", "--symlink"')],
        ("write to /usr",)),
    "the host's sockets are shown": (
        [("sandbox.py", '"--bind", str(plan.out), "/out"]',
          '"--bind", str(plan.out), "/out", "--bind", *2 * [str(plan.out.parents[3])]]')], ("connect to",)),
    "no filter of system calls": ([NO_FILTER], ("a ring of the kernel", "keys of the kernel")),
    "more processes": ([("sandbox.py", '"--nproc=64"', '"--nproc=200"')], ("processes of a bomb",)),
    "files of any size": (
        [("sandbox.py", "--fsize=67108864", "--fsize=unlimited")], ("64 MB and more into /out",)),
    "temporary files of any size": (
        [("sandbox.py", '"--size", TEMPORARY,', "")], ("64 MB into its own memory",)),
    "a descriptor is left open": (
        [("sandbox.py", "for place, path in plan.sockets:",
          "told += ['--setenv', 'LEFT', bound_at + sum(not one.layer for one in plan.bound)]\n"
          "    for place, path in plan.sockets:"),
         ("sandbox.py", "        try:\n            self = cls(",
          "        passed.append(os.open('/', os.O_RDONLY))\n        try:\n            self = cls(")],
        ("descriptors",)),
    "the host's files are shown": (
        [("sandbox.py", '"--ro-bind", "/usr", "/usr", "--symlink"',
          '"--ro-bind", "/usr", "/usr", "--ro-bind", "/etc", "/etc", "--symlink"')], ("the host's files",)),
}
# What is replaced by what so that a program goes on that fills its storage, or hides what lies there.
STORED: dict[str, list[tuple[str, str, str]]] = {
    "fills": [("storage.py", "if it.lives() and (full or is_short):", "if False:")],
    "hides": [("storage.py", " or not used.is_whole", "")],
}
# Of each row of the page's table of attacks, what is changed so that one of them comes through.
ROWS = {
    "a use that isn't offered; the host's sockets; the network; abstract sockets": (
        "a refusal is taken for an opening", "the host's sockets are shown", "the network is shared"),
    "a provider's link to a socket or a folder of the host": ("links are followed",),
    "a provider's socket in a folder that may only be read": ("no layer over read-only folders",),
    "to hand a descriptor over a connection": ("descriptors are dropped", "a descriptor is left open"),
    "`/proc`, mounts, namespaces, `/usr`, `/pkg`, `/`": (
        "processes are shared", "rights are left", "user namespaces may be made", "the root can be written",
        "the package can be written", "/usr is no mount for reading alone", "the host's files are shown",
        "read-only folders are bound for writing"),
    "calls that no program needs: `ptrace`, `bpf`, rings, keys": ("no filter of system calls",),
    "many processes, many files, large files, a full `/tmp`": (
        "more processes", "all folders together have 65,536 files", "files of any size",
        "temporary files of any size", "all folders together have 256 MB"),
    "to fill the disk by its storage, or to hide what lies there": ("fills", "hides"),
    "to ignore TERM, to leave daemons, to hold a stop up": (
        "who heeds no stop ends by force, and its daemons with it",),
    "to connect while it is destroyed, or counts as off": (
        "what is destroyed reaches nothing", "what counts as off reaches nothing"),
    "to keep a connection behind its end": ("what a daemon holds is cut",),
    "many connections, many questions to its realm": (
        "a use has 32 connections at once", "a realm's questions are limited in a second"),
}


def changed(base: Path, name: str, edits: list[tuple[str, str, str]] | None = None) -> Path:
    """A copy of the tools with one of these changes, or with others."""
    tools = base / "tools"
    shutil.copytree(TOOLS, tools, ignore=shutil.ignore_patterns("tests"))
    for file, old, new in edits if edits is not None else EDITS[name][0]:
        place = tools / "cm_tools/host" / file
        text = place.read_text()
        if text.count(old) != 1:
            raise AssertionError(f"{name}: {file} has {text.count(old)} times what is to be changed")
        place.write_text(text.replace(old, new))
    return tools
