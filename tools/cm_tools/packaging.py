"""The package: a `.deb` and a tarball of one built program with what belongs to it.

All that is written depends on the commit and the program alone: two packages of them are the same bytes.
"""

from __future__ import annotations

import gzip
import hashlib
import io
import subprocess
import tarfile
import time
from dataclasses import dataclass
from pathlib import Path

from cm_tools.console import Unusable

TOP = Path(__file__).resolve().parent.parent.parent
NAME = "component-manager"
LIBRARY, DOCUMENTS = f"lib/{NAME}", f"share/doc/{NAME}"
TOOLS = ("check-all", "doctor", "explain", "host", "merge", "realm", "session")
MACHINES = {62: "amd64", 183: "arm64"}
UNIT = """\
# A host of components: `systemctl --user start component-host@NAME`, where the file
# ~/.config/component-host/NAME has the lines REPO=FOLDER and ROOT=URL.
[Unit]
Description=Components of %i in sandboxes

[Service]
Type=exec
EnvironmentFile=%h/.config/component-host/%i
ExecStart=component_manager-host --run %t/component-host-%i ${REPO} ${ROOT}
# An end in order takes as long as the programs that don't heed their stop.
KillMode=mixed
TimeoutStopSec=100
Restart=on-failure
# A cgroup for each instance.
Delegate=memory pids cpu

[Install]
WantedBy=default.target
"""


@dataclass(frozen=True, slots=True)
class Entry:
    """A file of the package with its bytes, or a link to another one."""

    data: bytes
    is_program: bool = False
    link: str = ""


@dataclass(frozen=True, slots=True)
class Build:
    """What is packed: the program, and what the receipt says of it."""

    program: bytes
    commit: str
    seconds: int
    kit: str
    sources: str
    gate: str
    is_proved: bool

    @property
    def version(self) -> str:
        """The day of the commit, and the commit."""
        return f"{time.strftime('%Y%m%d', time.gmtime(self.seconds))}+g{self.commit[:9]}"

    @property
    def machine(self) -> str:
        """The machine that the program is for, by Debian's word."""
        kind = int.from_bytes(self.program[18:20], "little")
        if self.program[:4] != b"\x7fELF" or kind not in MACHINES:
            raise Unusable("the program is none that is known here")
        return MACHINES[kind]

    def receipt(self) -> str:
        """What the program was made of, and what the gate said."""
        return (
            f"component_manager {self.version}\ncommit {self.commit}\nkit {self.kit}\n"
            f"sources sha256 {self.sources}\nprogram sha256 {hashlib.sha256(self.program).hexdigest()}\n"
            f"gate: {self.gate}\n"
        )


def build_of(program: Path, gate: str, is_proved: bool) -> Build:
    """What is known of a program that was built from this checkout."""
    changed = _said("git", "status", "--porcelain", "--untracked-files=no")
    if changed:
        raise Unusable(f"the checkout has changes that aren't committed: {changed.split(chr(10))[0].strip()}")
    commit, seconds = _said("git", "log", "-1", "--format=%H %ct").split(" ")
    try:
        data = program.read_bytes()
    except OSError as fault:
        raise Unusable(f"{program}: {fault.strerror}") from None
    return Build(data, commit, int(seconds), _kit(), _sum_of_tree(), gate, is_proved)


def entries_of(build: Build) -> dict[str, Entry]:
    """All files of the package, by their paths below `usr`."""
    found = {
        f"{LIBRARY}/program": Entry(build.program, True),
        f"{LIBRARY}/RECEIPT": Entry(build.receipt().encode()),
        "bin/component_manager": Entry(b"", link=f"../{LIBRARY}/component_manager"),
        "share/man/man1/component_manager.1.gz": Entry(_zipped(_read("docs/component_manager.1"))),
        f"share/bash-completion/completions/{NAME}": Entry(_read("tools/completion.bash")),
        "share/bash-completion/completions/component_manager": Entry(b"", link=NAME),
    }
    names = _said("git", "ls-files").split("\n")
    tools = [name for name in TOOLS if f"tools/{name}" in names]
    for name in names:
        place = _place(name, tools)
        if place:
            found[place] = Entry(_read(name), bool((TOP / name).stat().st_mode & 0o100))
    for tool in tools:
        command = f"component_manager-{tool}"
        found[f"bin/{command}"] = Entry(b"", link=f"../{LIBRARY}/tools/{tool}")
        found[f"share/bash-completion/completions/{command}"] = Entry(b"", link=NAME)
    if "host" in tools:
        found["lib/systemd/user/component-host@.service"] = Entry(UNIT.encode())
    return found


def tarball(build: Build, entries: dict[str, Entry]) -> bytes:
    """The tarball, whose folder can stand anywhere."""
    front = f"{NAME}-{build.version}/"
    return _zipped(_tar({front + path: entry for path, entry in entries.items()}, build.seconds))


def debian(build: Build, entries: dict[str, Entry]) -> bytes:
    """The `.deb`, whose files stand below /usr."""
    data = {f"./usr/{path}": entry for path, entry in entries.items()}
    size = sum(len(entry.data) for entry in entries.values()) // 1024 + 1
    control = (
        f"Package: {NAME}\nVersion: {build.version}\nArchitecture: {build.machine}\n"
        "Maintainer: the owner of the repository\nSection: utils\nPriority: optional\n"
        f"Installed-Size: {size}\nDepends: libc6, python3 (>= 3.10)\n"
        "Recommends: bash-completion, bubblewrap\n"
        f"Description: a component manager{', proved' if build.is_proved else ' without any proof'}\n"
        " It checks component manifests, and runs the commands of scripts, or of clients\n"
        " of a Unix socket, over a realm of components.\n"
    )
    sums = "".join(
        f"{hashlib.md5(entry.data, usedforsecurity=False).hexdigest()}  usr/{path}\n"
        for path, entry in sorted(entries.items()) if not entry.link
    )
    told = {"./control": Entry(control.encode()), "./md5sums": Entry(sums.encode())}
    members = [
        ("debian-binary", b"2.0\n"), ("control.tar.gz", _zipped(_tar(told, build.seconds))),
        ("data.tar.gz", _zipped(_tar(data, build.seconds))),
    ]
    return b"!<arch>\n" + b"".join(_member(name, data, build.seconds) for name, data in members)


def _place(name: str, tools: list[str]) -> str:
    """Where a file of the checkout stands in the package; nowhere for most of them."""
    top, _, rest = name.partition("/")
    if name in ("component_manager", "CHANGELOG.md") or name.startswith("docs/help/"):
        return f"{LIBRARY}/{name}"
    if top == "tools" and (rest in tools or rest.startswith(("cm_tools/", "editor/"))):
        return f"{LIBRARY}/{name}"
    if top == "examples" or name == "README.md" or (top == "docs" and rest in (
            "REFERENCE.md", "WALKTHROUGH.md", "EDITORS.md", "HOST.md", "PROVED.md", "ASSUMPTIONS.md",
            "realm.png")):
        return f"{DOCUMENTS}/{name}"
    return f"{DOCUMENTS}/{name}" if name == "tools/README.md" else ""


def _tar(entries: dict[str, Entry], seconds: int) -> bytes:
    """The entries as a tar, each folder before what is in it, with one time and no names of users."""
    out = io.BytesIO()
    folders = {str(above) for path in entries for above in Path(path).parents if str(above) != "."}
    with tarfile.open(fileobj=out, mode="w", format=tarfile.GNU_FORMAT) as tar:
        for path in sorted({*entries, *folders}, key=lambda one: one.removeprefix("./").split("/")):
            told = tarfile.TarInfo(path)
            told.mtime = seconds
            entry = entries.get(path)
            if entry is None:
                told.type, told.mode = tarfile.DIRTYPE, 0o755
            elif entry.link:
                told.type, told.linkname, told.mode = tarfile.SYMTYPE, entry.link, 0o777
            else:
                told.size, told.mode = len(entry.data), 0o755 if entry.is_program else 0o644
            tar.addfile(told, io.BytesIO(entry.data if entry else b""))
    return out.getvalue()


def _member(name: str, data: bytes, seconds: int) -> bytes:
    """A member of an archive of `ar`."""
    head = f"{name:<16}{seconds:<12}{0:<6}{0:<6}{100644:<8}{len(data):<10}`\n".encode("ascii")
    return head + data + (b"\n" if len(data) % 2 else b"")


def _zipped(data: bytes) -> bytes:
    return gzip.compress(data, 9, mtime=0)


def _read(name: str) -> bytes:
    return (TOP / name).read_bytes()


def _sum_of_tree() -> str:
    """The checksum of all files of the commit, by their names and their own checksums."""
    return hashlib.sha256(_said("git", "ls-tree", "-r", "HEAD").encode()).hexdigest()


def _kit() -> str:
    """The kit that is here, which built the program."""
    try:
        return _said("rt", "version")
    except Unusable:
        return "unknown: rt is not on the path"


def _said(*words: str) -> str:
    """What a command says."""
    try:
        ran = subprocess.run(words, cwd=TOP, capture_output=True, check=False)
    except OSError as fault:
        raise Unusable(f"{words[0]}: {fault.strerror}") from None
    if ran.returncode:
        raise Unusable(f"{' '.join(words)}: {ran.stderr.decode('utf-8', 'replace').strip()}")
    return ran.stdout.decode("utf-8").strip()
