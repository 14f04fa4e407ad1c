#!/usr/bin/env python3
"""Makes the package twice, unpacks it, and has the first look with it where no kit is.

    .ci/package.py PROGRAM

Both packages have to be the same bytes. What is unpacked is used by a shell whose path has neither rt nor
this checkout: the words that need no program, a run with its journal, and each tool. What differs is printed,
a line each, with status 1. It is skipped where dpkg-deb isn't here or the checkout has changes that aren't
committed, since a receipt names a commit.
"""

import os
import pathlib
import shutil
import subprocess
import sys
import tempfile

TOP = pathlib.Path(__file__).resolve().parent.parent
# How long anything may take, in seconds.
PATIENCE = 600
# What the package needs of a system.
SYSTEM = (
    "python3", "sh", "cat", "dirname", "readlink", "find", "head", "sed", "awk", "grep", "man", "env", "tail",
)
# A look, its status, and a part of what it prints. They run in the folder of the documents.
LOOKS = [
    ("component_manager help", 0, "./component_manager check FILE.."),
    ("component_manager --version", 0, "program sha256 "),
    ("component_manager check examples/core.cml", 0, "valid"),
    ("component_manager check examples/undeclared-child.cml", 1, "invalid 51 offer 0"),
    ("component_manager run --journal < examples/product/inline.txt > journal.txt", 0, ""),
    ("grep '^2 route' journal.txt", 0, "through use netstack, offer ., expose dns-resolver"),
    ("component_manager-explain examples/product/inline.txt < journal.txt", 0, "87 no-offer at offer ."),
    ("component_manager-realm journal.txt", 0, "elements:terminal"),
    ("component_manager-realm --html journal.txt", 0, "<html"),
    ("component_manager-check-all examples/product/packages", 0, "valid"),
    ("component_manager-doctor examples/product/packages examples/product/root.txt", 0, "whole: 7 instances"),
    ("component_manager-merge examples/core.cml", 0, '"children"'),
    ("component_manager-session --help", 0, "--transcript"),
    ("component_manager prove", 1, ""),
]


def made(folder, program):
    """The files of a package that is made in the folder."""
    given = {**os.environ, "COMPONENT_MANAGER": program}
    done = subprocess.run([TOP / "tools" / "package", folder, "--unproved"], env=given, capture_output=True,
                          text=True, timeout=PATIENCE, check=False)
    if done.returncode:
        print(f"package: {done.stderr.strip()}")
    return sorted(pathlib.Path(folder).iterdir())


def differences(folder, program):
    """What is wrong with the package."""
    one, other = made(f"{folder}/one", program), made(f"{folder}/other", program)
    if [it.name for it in one] != [it.name for it in other] or len(one) != 2:
        yield f"the files are {[it.name for it in one]} and {[it.name for it in other]}"
        return
    changed = [a.name for a, b in zip(one, other) if a.read_bytes() != b.read_bytes()]
    yield from (f"{name} isn't the same twice" for name in changed)
    unpacked = pathlib.Path(folder, "debian")
    deb = next(it for it in one if it.suffix == ".deb")
    subprocess.run(["dpkg-deb", "-x", deb, unpacked], check=True)
    yield from looked(unpacked / "usr", folder)
    tarball = next(it for it in one if it.suffix == ".gz")
    subprocess.run(["tar", "-xzf", tarball, "-C", folder], check=True)
    yield from looked(pathlib.Path(folder, tarball.name.removesuffix(".tar.gz")), folder)


def looked(usr, folder):
    """What is wrong with the looks at what was unpacked."""
    tools = pathlib.Path(folder, "system")
    tools.mkdir(exist_ok=True)
    for name in SYSTEM:
        found = shutil.which(name)
        if found and not (tools / name).exists():
            (tools / name).symlink_to(found)
    given = {"PATH": f"{usr}/bin:{tools}", "HOME": folder, "LC_ALL": "C.UTF-8"}
    for command, status, part in LOOKS:
        done = subprocess.run(["sh", "-c", command], cwd=usr / "share/doc/component-manager", env=given,
                              stdin=subprocess.DEVNULL, capture_output=True, timeout=PATIENCE, check=False)
        text = done.stdout.decode("utf-8", "replace")
        if done.returncode != status or part not in text:
            yield f"{command}: status {done.returncode}: {(text + done.stderr.decode())[-300:]}"


def main(words):
    if len(words) != 1:
        print("usage: package.py PROGRAM", file=sys.stderr)
        return 2
    changed = subprocess.run(["git", "status", "--porcelain", "--untracked-files=no"], cwd=TOP,
                             capture_output=True, check=False)
    if not shutil.which("dpkg-deb") or changed.returncode or changed.stdout:
        print("package: skipped: dpkg-deb isn't here, or the checkout isn't a commit's")
        return 0
    with tempfile.TemporaryDirectory(prefix="package-") as folder:
        wrong = list(differences(folder, os.path.abspath(words[0])))
    for it in wrong:
        print(f"package: {it}")
    print(f"package: {len(LOOKS)} looks at a .deb and a tarball without the kit, {len(wrong)} differences")
    return 1 if wrong else 0


if __name__ == "__main__":
    sys.exit(main(sys.argv[1:]))
