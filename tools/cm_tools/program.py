"""The program that a tool runs, chosen once."""

from __future__ import annotations

import os
import subprocess
from pathlib import Path

from cm_tools.console import Unusable

BESIDE = Path(__file__).resolve().parent.parent.parent / "component_manager"
PROVED = BESIDE.parent / "crates/component_manager/out/component_manager"
VARIABLE = "COMPONENT_MANAGER"
HELP = f"the component manager; by default what {VARIABLE} names, or the one beside tools/"


def chosen_program(named: str | None = None) -> Path:
    """The program that is named, or that the variable names, or else the one beside the tools.

    In a checkout that one is a script, which tells the proved program where that is there and no source is
    newer, and else the unproved one, which it makes where it has to; it says so on the error stream.
    """
    program = Path(named or os.environ.get(VARIABLE) or BESIDE).absolute()
    if program.is_dir() or not os.access(program, os.X_OK):
        raise Unusable(f"{program} is no program that can be run; name it with --program")
    return _program_of_script(program) if program == BESIDE and _is_script(program) else program


def program_at_hand() -> Path | None:
    """The program that the variable names, or else the proved one of this checkout; none is made for it."""
    program = Path(os.environ.get(VARIABLE) or PROVED).absolute()
    return program if os.access(program, os.X_OK) and not program.is_dir() else None


def _is_script(program: Path) -> bool:
    with open(program, "rb") as file:
        return file.read(2) == b"#!"


def _program_of_script(script: Path) -> Path:
    ran = subprocess.run([script, "--where"], stdin=subprocess.DEVNULL, stdout=subprocess.PIPE, check=False)
    if ran.returncode:
        raise Unusable("there is no program, and none was made")
    return Path(os.fsdecode(ran.stdout.rstrip(b"\n")))
