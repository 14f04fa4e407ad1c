"""Tests of `package`: what stands in it and in its receipt. `.ci/package.py` unpacks and uses one."""

from __future__ import annotations

import gzip
import io
import os
import tarfile
import tempfile
import unittest
import zlib
from dataclasses import replace
from pathlib import Path
from unittest import mock

from cm_tools.console import Unusable
from cm_tools.package_main import _last_line, _proved
from cm_tools.packaging import Build, Entry, debian, tarball
from cm_tools.sources import newer_source

PROGRAM = b"\x7fELF" + bytes(14) + b"\x3e\x00" + b"program"
BUILD = Build(PROGRAM, "0123456789abcdef", 1_750_000_000, "kit 1", "sum", "34 of 34 crates ok", True)
ENTRIES = {
    "lib/x/program": Entry(PROGRAM, True), "bin/x": Entry(b"", link="../lib/x/program"),
    "share/doc/x/a.txt": Entry(b"text\n"),
}


class PackageTests(unittest.TestCase):
    """A package of few files."""

    def test_receipt(self) -> None:
        """the receipt names the commit, the kit, both checksums and the gate's last line"""
        lines = BUILD.receipt().split("\n")
        self.assertEqual(lines[:4], [
            "component_manager 20250615+g012345678", "commit 0123456789abcdef", "kit kit 1",
            "sources sha256 sum",
        ])
        self.assertRegex(lines[4], r"^program sha256 [0-9a-f]{64}$")
        self.assertEqual(lines[5], "gate: 34 of 34 crates ok")

    def test_tarball(self) -> None:
        """the tarball has each folder before its files, one time, and nobody's names"""
        with tarfile.open(fileobj=io.BytesIO(gzip.decompress(tarball(BUILD, ENTRIES)))) as tar:
            members = tar.getmembers()
        names = [member.name for member in members]
        self.assertEqual(names[0], "component-manager-20250615+g012345678")
        self.assertLess(names.index(f"{names[0]}/lib/x"), names.index(f"{names[0]}/lib/x/program"))
        told = {(member.mtime, member.uid, member.uname) for member in members}
        self.assertEqual(told, {(1_750_000_000, 0, "")})
        modes = {member.name.rpartition("/")[2]: member.mode for member in members}
        self.assertEqual((modes["program"], modes["a.txt"]), (0o755, 0o644))

    def test_same_bytes(self) -> None:
        """two packages are the same bytes, and an archive of `ar`"""
        self.assertEqual(debian(BUILD, ENTRIES), debian(BUILD, dict(reversed(ENTRIES.items()))))
        self.assertEqual(tarball(BUILD, ENTRIES), tarball(BUILD, dict(reversed(ENTRIES.items()))))
        self.assertTrue(debian(BUILD, ENTRIES).startswith(b"!<arch>\ndebian-binary   1750000000"))
        self.assertRaises(Unusable, lambda: Build(b"#!/bin/sh" + bytes(20), "", 0, "", "", "", True).machine)

    def test_description(self) -> None:
        """the description of a package says where its program is unproved"""
        for build, is_told in (BUILD, False), (replace(BUILD, is_proved=False), True):
            # Behind the head of the archive, its first member, and the head of the second one.
            told = zlib.decompressobj(31).decompress(debian(build, ENTRIES)[132:]).decode("utf-8", "replace")
            self.assertEqual("Description: a component manager without any proof\n" in told, is_told)
            self.assertEqual("Description: a component manager, proved\n" in told, not is_told)

    def test_old_program(self) -> None:
        """a proved program that is older than a source makes no package"""
        with tempfile.TemporaryDirectory() as folder:
            program = Path(folder, "program")
            program.write_bytes(PROGRAM)
            self.assertIsNone(newer_source(program))
            os.utime(program, (1, 1))
            self.assertEqual(newer_source(program), Path("crates.txt"))
            with mock.patch("cm_tools.package_main.PROVED", program):
                self.assertRaisesRegex(Unusable, "crates.txt is newer than the proved program", _proved)

    def test_gate(self) -> None:
        """a gate that didn't pass makes no package"""
        with tempfile.TemporaryDirectory() as folder:
            path = Path(folder, "gate")
            path.write_text("== summary\n34 of 34 crates ok\n", "utf-8")
            self.assertEqual(_last_line(str(path)), "34 of 34 crates ok")
            for text in ("", "33 of 34 crates ok\n", "34 of 34 crates ok\nstopped\n"):
                path.write_text(text, "utf-8")
                self.assertRaises(Unusable, _last_line, str(path))
            self.assertRaises(Unusable, _last_line, folder + "/none")


if __name__ == "__main__":
    unittest.main()
