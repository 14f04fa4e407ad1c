"""What the tests share: where things stand, and a run of a tool."""

from __future__ import annotations

import contextlib
import gc
import io
import signal
import subprocess
import sys
from dataclasses import dataclass
from pathlib import Path
from unittest import mock

from cm_tools.check_all_main import main as check_all
from cm_tools.console import run_tool
from cm_tools.doctor_main import main as doctor
from cm_tools.explain_main import main as explain
from cm_tools.merge_main import main as merge
from cm_tools.realm_main import main as realm
from cm_tools.session_main import main as session

TESTS = Path(__file__).resolve().parent
TOOLS = TESTS.parent
ROOT = TOOLS.parent
JOURNALS = TESTS / "journals"
# How long anything is waited for, in seconds: the machine may be slow, and others may fill it.
SECONDS = 600
MAINS = {
    "realm": realm, "explain": explain, "check-all": check_all, "session": session, "doctor": doctor,
    "merge": merge,
}


@dataclass(frozen=True)
class Ran:
    """What came of a run of a tool."""

    status: int
    out: str
    err: str


def heeds_interrupts() -> None:
    """Of a child, before its program: Ctrl-C is heard. A shell ignores it for what it runs in the background,
    and so for the tests and for all that they start."""
    signal.signal(signal.SIGINT, signal.SIG_DFL)


def run(tool: str, *words: str, data: bytes = b"", audited: bool = False) -> Ran:
    """Runs a tool within this process on these words and this standard input.

    Journals that are made by hand to show something aren't legal: the program is asked only where it is said.
    """
    if not audited:
        with mock.patch("cm_tools.auditing.verdict_on", return_value=None):
            return run(tool, *words, data=data, audited=True)
    out, err = io.TextIOWrapper(io.BytesIO(), "utf-8"), io.StringIO()
    source = io.TextIOWrapper(io.BytesIO(data), "utf-8")
    kept = sys.argv, sys.stdin
    sys.argv, sys.stdin = [tool, *words], source
    try:
        with contextlib.redirect_stdout(out), contextlib.redirect_stderr(err):
            status = run_tool(tool, MAINS[tool])
    except SystemExit as ended:
        status = int(ended.code or 0)
    finally:
        sys.argv, sys.stdin = kept
        gc.enable()
    out.flush()
    assert isinstance(out.buffer, io.BytesIO)
    return Ran(status, out.buffer.getvalue().decode("utf-8"), err.getvalue())


def run_process(tool: str, *words: str, data: bytes = b"") -> Ran:
    """Runs a tool as a program of its own."""
    command = [sys.executable, str(TOOLS / tool), *words]
    ran = subprocess.run(command, input=data, capture_output=True, timeout=SECONDS)
    return Ran(ran.returncode, ran.stdout.decode("utf-8"), ran.stderr.decode("utf-8"))


def quoted(source: Path, name: str) -> list[str]:
    """The texts of a table of `codes "..."` in a file of specifications, behind its name.

    A line that begins with `++` goes on with the text of the line before it.
    """
    found: list[str] = []
    lines = iter(source.read_text("utf-8").split("\n"))
    for line in lines:
        if line == f"{name} =":
            break
    for line in lines:
        if 'codes "' not in line:
            return found
        text = line.partition('codes "')[2].rpartition('"')[0]
        if line.strip().startswith("++"):
            found[-1] += text
        else:
            found.append(text)
    return found
