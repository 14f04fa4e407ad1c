"""Tests of `try`, of the choice of a program and of the build of a library, over a kit that stands in."""

from __future__ import annotations

import os
import shutil
import signal
import subprocess
import sys
import tempfile
import unittest
from pathlib import Path
from unittest import mock

from cm_tools import program, workshops
from cm_tools.console import Unusable
from cm_tools.linked_kit import MADE, NEEDED, make_kit
from cm_tools.sources import crates_below, has_tests, sum_of_sources
from tests.support import ROOT, SECONDS, TOOLS, heeds_interrupts

# A compiler and a linker that note their words, and a linker that makes what it was asked for.
NOTES = '#!/bin/sh\nprintf "%s\\n" "$@" > "$0.words"\n'
MAKES = NOTES + 'while [ "$1" != -o ]; do shift; done\necho made > "$2"\n'
# What a copy of the checkout goes without.
LEFT_OUT = ("out", ".git", "proofs", "bench", "__pycache__")
LINKED = ["-o", "out", "a.o", "--whole-archive", "input-4", "--no-whole-archive", "-lc"]


class KitTests(unittest.TestCase):
    """The kit of links: which words reach the kit's own compiler and linker."""

    def setUp(self) -> None:
        self.folder = Path(self.enterContext(tempfile.TemporaryDirectory(prefix="a kit ")))
        self.kit, self.work = self.folder / "kit", self.folder / "it's work"
        for part in NEEDED:
            path = self.kit / part
            path.parent.mkdir(parents=True, exist_ok=True)
            workshops.write_script(path, MAKES if part.endswith("ld.lld") else NOTES)
        self.work.mkdir()
        self.own = make_kit(self.kit, self.work)

    def enterContext(self, context: tempfile.TemporaryDirectory[str]) -> str:
        """The folder, which is removed at the end (older Pythons have no such method)."""
        self.addCleanup(context.cleanup)
        return context.name

    def called(self, tool: str, *words: str) -> list[str]:
        """The words that reach the kit's tool where rt calls it with these, without an environment."""
        subprocess.run([self.own / "toolchain/bin" / tool, *words], cwd=self.folder, env={}, check=True)
        return (self.kit / "toolchain/bin" / f"{tool}.words").read_text("utf-8").split("\n")[:-1]

    def test_words_of_the_tools(self) -> None:
        """the compiler optimises and the linker leaves the sanitiser out, and keeps what it linked"""
        self.assertEqual(self.called("clang", "-c", "x y", "-o", "o"), ["-c", "x y", "-o", "o"])
        self.assertEqual(self.called("ld.lld", *LINKED), LINKED)
        (self.work / MADE).unlink()
        compiled = self.called("clang", "-c", "x y", "-O0", "-fsanitize=address", "-o", "o")
        self.assertEqual(compiled, ["-c", "x y", "-O1", "-o", "o"])
        self.assertEqual(self.called("ld.lld", *LINKED), ["-o", "out", "a.o", "-lc"])
        self.assertEqual((self.work / MADE).read_text("utf-8"), "made\n")


class SourceTests(unittest.TestCase):
    """What a program is made of, where it is kept, and which one a tool takes."""

    def test_sums(self) -> None:
        """crates, their tests and the sum of their sources"""
        self.assertIn("cm_names", crates_below("component_manager"))
        self.assertNotIn("program_tests", crates_below("component_manager"))
        self.assertTrue(has_tests("program_tests"))
        self.assertFalse(has_tests("cm_names"))
        self.assertNotEqual(sum_of_sources("cm_names"), sum_of_sources("cm_io"))
        self.assertEqual(sum_of_sources("cm_io"), sum_of_sources("cm_io"))

    def test_kept_programs(self) -> None:
        """a program is kept whole, and the oldest of other sources go"""
        with tempfile.TemporaryDirectory() as folder:
            place = Path(folder)
            for number in range(6):
                made = place / "made"
                made.write_text(f"{number}", "utf-8")
                workshops.keep(made, place / f"sum{number}", "p")
                os.utime(place / f"sum{number}", (number, number))
            workshops.drop_old(place, "p", "sum0")
            left = sorted(path.name for path in place.iterdir() if path.is_dir())
            self.assertEqual(left, ["sum0", "sum3", "sum4", "sum5"])
            self.assertEqual((place / "sum5/p").read_text("utf-8"), "5")

    def test_choice_of_a_program(self) -> None:
        """which program a tool takes: the named one, the variable's, or what the script tells"""
        with tempfile.TemporaryDirectory() as folder:
            script, other = Path(folder, "component_manager"), Path(folder, "other")
            workshops.write_script(other, "#!/bin/sh\n")
            workshops.write_script(script, f'#!/bin/sh\n[ "$1" = --where ] && echo "{other}"\n')
            with mock.patch.object(program, "BESIDE", script), mock.patch.dict(os.environ):
                os.environ.pop(program.VARIABLE, None)
                self.assertEqual(program.chosen_program(), other)
                self.assertEqual(program.chosen_program("/bin/sh"), Path("/bin/sh"))
                os.environ[program.VARIABLE] = "/bin/cat"
                self.assertEqual(program.chosen_program(), Path("/bin/cat"))
                for wrong in ("/", "/nowhere"):
                    self.assertRaises(Unusable, program.chosen_program, wrong)

    def test_without_a_kit(self) -> None:
        """without the kit's rt no program is made, with status 126, and words are still answered"""
        with tempfile.TemporaryDirectory() as folder:
            for tool in ("python3", "sh", "dirname", "readlink", "find", "head", "cat", "sed", "awk", "env"):
                found = sys.executable if tool == "python3" else shutil.which(tool)
                Path(folder, tool).symlink_to(found or "")
            given = {**os.environ, "PATH": folder, "XDG_CACHE_HOME": folder, "COMPONENT_MANAGER_PROGRAM": ""}
            copy = Path(folder, "checkout")
            shutil.copytree(ROOT, copy, ignore=shutil.ignore_patterns(*LEFT_OUT))
            for words, status in (["run"], 126), (["--where"], 126), (["help"], 0), (["run", "x"], 2):
                ran = subprocess.run([copy / "component_manager", *words], env=given, capture_output=True,
                                     stdin=subprocess.DEVNULL, timeout=SECONDS, check=False)
                self.assertEqual(ran.returncode, status, ran.stderr)
            ran = subprocess.run([copy / "tools/try", "check"], env=given, capture_output=True,
                                 timeout=SECONDS, check=False)
            told = "component_manager: the kit's tool rt, which makes the program, is not on the path\n"
            self.assertEqual((ran.returncode, ran.stderr.decode()), (126, told))


# What stands for the kit's rt: it calls the two tools as rt try does, runs the program for a while, and
# refuses a source that has an error in it.
RT = """#!/bin/sh
here=$(cd "$(dirname "$(readlink -f "$0")")/.." && pwd)
if [ "$1" = doc ]; then echo "$here/doc.md"; exit 0; fi
if grep -q WRONG src/main.rt; then echo "error: src/main.rt:1:1" >&2; exit 1; fi
"$here/toolchain/bin/clang" -c module.bc -O0 -fsanitize=address || exit
"$here/toolchain/bin/ld.lld" -o "$TMPDIR/linked" --whole-archive input-4 --no-whole-archive || exit
exec sleep ${SLEEPS-0}
"""
PROGRAM = "#!/bin/sh\ncat > /dev/null\necho valid"
LINKS = f"""#!/bin/sh
[ "$1" = -o ] && printf '{PROGRAM}' > "$2" && chmod +x "$2"
"""


class MakingTests(unittest.TestCase):
    """The making of a program in a checkout of two crates, by a kit that stands in."""

    def setUp(self) -> None:
        folder = tempfile.TemporaryDirectory(prefix="a checkout ")
        self.addCleanup(folder.cleanup)
        self.folder = Path(folder.name)
        self.checkout, kit = self.folder / "checkout", self.folder / "kit"
        ignored = shutil.ignore_patterns("tests", "__pycache__")
        shutil.copytree(TOOLS, self.checkout / "tools", ignore=ignored)
        (self.checkout / "crates.txt").write_text("below:\ncomponent_manager: below\n", "utf-8")
        for name in ("below", "component_manager"):
            source = self.checkout / "crates" / name / "src/main.rt"
            source.parent.mkdir(parents=True)
            source.write_text(name, "utf-8")
        for part in NEEDED:
            text = {"bin/rt": RT, "toolchain/bin/ld.lld": LINKS}.get(part, "#!/bin/sh\n")
            (kit / part).parent.mkdir(parents=True, exist_ok=True)
            workshops.write_script(kit / part, text)
        for name in ("work", "home"):
            (self.folder / name).mkdir()
        self.given = {
            **os.environ, "PATH": f"{kit}/bin:{os.environ['PATH']}", "TMPDIR": str(self.folder / "work"),
            "HOME": str(self.folder / "home"), "XDG_CACHE_HOME": str(self.folder / "home"),
        }

    def words(self, *words: str) -> list[str]:
        return [sys.executable, str(self.checkout / "tools/try"), *words]

    def tried(self, *words: str) -> subprocess.CompletedProcess[bytes]:
        return subprocess.run(self.words(*words), env=self.given, capture_output=True, timeout=SECONDS,
                              stdin=subprocess.DEVNULL, check=False)

    def left(self) -> list[str]:
        """What is left of workshops."""
        return [path.name for path in (self.folder / "work").iterdir()]

    def test_making(self) -> None:
        """a program is made once for each state of the sources, kept, and found again"""
        made = self.tried("--where")
        self.assertEqual(made.returncode, 0, made.stderr)
        self.assertIn(b"component_manager: made, in ", made.stderr)
        program = Path(made.stdout.decode().strip())
        self.assertTrue(program.is_relative_to(self.checkout / "out/quick") and os.access(program, os.X_OK))
        again = self.tried("--where")
        self.assertEqual((again.stdout, again.stderr), (made.stdout, b""))
        ran = self.tried("check")
        self.assertEqual((ran.returncode, ran.stdout), (0, b"valid\n"))
        self.assertTrue(ran.stderr.startswith(b"component_manager: unproved: "))
        (self.checkout / "crates/below/src/main.rt").write_text("other", "utf-8")
        self.assertNotEqual(self.tried("--where").stdout, made.stdout)
        self.assertEqual(self.left(), [])
        self.assertEqual(self.tried("--clean").returncode, 0)
        self.assertFalse((self.checkout / "out/quick").exists())

    def test_error(self) -> None:
        """where no program can be made the kit's words stand on the error stream, with status 126"""
        (self.checkout / "crates/component_manager/src/main.rt").write_text("WRONG", "utf-8")
        ran = self.tried("check")
        self.assertEqual((ran.returncode, ran.stdout), (126, b""))
        told = b"error: src/main.rt:1:1\ncomponent_manager: component_manager was not made"
        self.assertIn(told, ran.stderr)
        self.assertEqual(self.left(), [])

    def test_two_at_once(self) -> None:
        """a second call waits for the first, and makes nothing"""
        calls = [
            subprocess.Popen(self.words("--where"), env=self.given, stdout=subprocess.PIPE,
                             stderr=subprocess.PIPE)
            for _ in range(2)
        ]
        told = [call.communicate(timeout=SECONDS) for call in calls]
        self.assertEqual(told[0][0], told[1][0])
        self.assertEqual((told[0][1] + told[1][1]).count(b"made, in "), 1)

    def test_interrupted(self) -> None:
        """Ctrl-C while a program is made leaves nothing of it, with status 130"""
        # It links until the folder of the test is removed.
        links = "#!/bin/sh\nwhile [ -e \"$0\" ]; do sleep 0.1; done\n"
        workshops.write_script(self.folder / "kit/toolchain/bin/ld.lld", links)
        with subprocess.Popen(self.words("--where"), env=self.given, stdout=subprocess.PIPE,
                              stderr=subprocess.PIPE, preexec_fn=heeds_interrupts) as call:
            assert call.stderr
            told = b""
            while b"step 3" not in told:
                told = call.stderr.readline()
                self.assertTrue(told, "it ended before it links")
            call.send_signal(signal.SIGINT)
            self.assertEqual(call.wait(SECONDS), 130)
            self.assertIn(b"stopped; nothing is kept", call.stderr.read())
        self.assertEqual(self.left(), [])


class BuildTests(unittest.TestCase):
    """The build of one library beside others."""

    def test_build_beside(self) -> None:
        """a library is built in a copy that isn't below the checkout, and put there whole"""
        with tempfile.TemporaryDirectory() as folder:
            checkout, cache = Path(folder, "checkout"), Path(folder, "cache")
            (checkout / "tools").mkdir(parents=True)
            shutil.copy(TOOLS / "build-crate", checkout / "tools/build-crate")
            for name in ("a", "b"):
                (checkout / "crates" / name / "src").mkdir(parents=True)
            for name in ("crates.txt", "HANDLES"):
                (checkout / name).write_text("", "utf-8")
            tools = Path(folder, "bin")
            tools.mkdir()
            built = "#!/bin/sh\nmkdir -p out/rlib && pwd > out/rlib/stamp\n"
            workshops.write_script(tools / "rt", built)
            given = {**os.environ, "PATH": f"{tools}:{os.environ['PATH']}", "XDG_CACHE_HOME": str(cache)}
            ran = subprocess.run([checkout / "tools/build-crate", "0", "2", "1", "a"], env=given,
                                 capture_output=True, timeout=SECONDS, check=False)
            self.assertEqual(ran.returncode, 0, ran.stderr)
            self.assertIn(b"1 of 2 crates built", ran.stderr)
            place = (checkout / "crates/a/out/rlib/stamp").read_text("utf-8")
            self.assertTrue(place.startswith(str(cache)), place)
            self.assertEqual(list((checkout / "crates/b").iterdir()), [checkout / "crates/b/src"])
            self.assertEqual([it for it in cache.rglob("*") if it.is_file()], [])


# What stands for rt where it proves: a library is a stamp, and the program says that a script is refused.
PROVES = """#!/bin/sh
case $1 in
lib) mkdir -p out/rlib && echo > out/rlib/stamp ;;
run)
    [ -e ../below/out/rlib/stamp ] || exit 1
    mkdir -p out && printf '#!/bin/sh\necho proved\n' > out/component_manager
    chmod +x out/component_manager
    exit 7
    ;;
*) exit 1 ;;
esac
"""


class ProveTests(unittest.TestCase):
    """The script at the top in a checkout of two crates, over a kit that stands in."""

    def setUp(self) -> None:
        folder = tempfile.TemporaryDirectory(prefix="a checkout ")
        self.addCleanup(folder.cleanup)
        self.top = Path(folder.name, "checkout")
        (self.top / "tools").mkdir(parents=True)
        shutil.copy(ROOT / "component_manager", self.top)
        shutil.copy(TOOLS / "build-crate", self.top / "tools")
        workshops.write_script(self.top / "tools/try", "#!/bin/sh\nexit 126\n")
        for name in ("below", "component_manager"):
            (self.top / "crates" / name / "src").mkdir(parents=True)
            (self.top / "crates" / name / "src/main.rt").write_text(name, "utf-8")
        (self.top / "crates.txt").write_text("below:\ncomponent_manager: below\n", "utf-8")
        (self.top / "HANDLES").write_text("", "utf-8")
        bin_folder = Path(folder.name, "bin")
        bin_folder.mkdir()
        workshops.write_script(bin_folder / "rt", PROVES)
        path = f"{bin_folder}:{os.environ['PATH']}"
        self.given = {**os.environ, "PATH": path, "XDG_CACHE_HOME": folder.name,
                      "COMPONENT_MANAGER_PROGRAM": ""}

    def called(self, *words: str) -> subprocess.CompletedProcess[bytes]:
        return subprocess.run([self.top / "component_manager", *words], env=self.given, capture_output=True,
                              timeout=SECONDS, stdin=subprocess.DEVNULL, check=False)

    def test_prove(self) -> None:
        """the proved program is taken once it is there, and not behind a change of a source"""
        ran = self.called("prove")
        self.assertEqual((ran.returncode, ran.stdout), (0, b""), ran.stderr)
        self.assertIn(b"1 of 2 crates built", ran.stderr)
        self.assertIn(b"component_manager: built, in ", ran.stderr)
        ran = self.called("run")
        self.assertEqual((ran.returncode, ran.stdout, ran.stderr), (0, b"proved\n", b""))
        self.assertIn(b"no source is newer", self.called("prove").stderr)
        os.utime(self.top / "crates/below/src/main.rt", (4_000_000_000, 4_000_000_000))
        ran = self.called("run")
        self.assertEqual((ran.returncode, ran.stdout), (126, b""))
        self.assertIn(b"crates/below/src/main.rt is newer than the proved program", ran.stderr)

    def test_failed_proof(self) -> None:
        """a proof that fails is told, with status 1, and leaves no program"""
        workshops.write_script(self.top.parent / "bin/rt", "#!/bin/sh\necho no proof\nexit 1\n")
        ran = self.called("prove")
        self.assertEqual((ran.returncode, ran.stdout), (1, b""))
        self.assertIn(b"no proof\ncomponent_manager: the program was not built\n", ran.stderr)


if __name__ == "__main__":
    unittest.main()
