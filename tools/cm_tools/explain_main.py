"""The command line of `explain`."""

from __future__ import annotations

import argparse
import os
import re
import sys

from cm_tools.auditing import require_legal
from cm_tools.console import Unusable, Words, read_bytes, write_text
from cm_tools.explaining import (
    advice, command_of, explain_manifest, explain_no_place, explain_refusal, explain_script, heading,
)
from cm_tools.instances import Instance
from cm_tools.numbers import NUMBERS
from cm_tools.pointing import Document
from cm_tools.said import ManifestFault, NoPlace, Refusal, ScriptFault, is_reply, read_said
from cm_tools.scripts import Command, Script, Sketch, looks_like_script, read_script
from cm_tools.transcripts import is_transcript, parts_of
from cm_tools.world import World, replay_partly

NOT_UTF8 = 30
NAMED = re.compile(r"(.+): (valid|invalid [0-9]+ .*)")
WANT_OF_MEMORY = " refused want-of-memory"


def main(words: list[str]) -> int:
    """Explains each line of what the program said that refuses something."""
    options = _parser().parse_args(words)
    if options.number is not None:
        write_text(None, "\n".join(_number_lines(options.number)) + "\n")
        return 0
    if options.file is None:
        return _explain_named()
    if options.repo is not None and not os.path.isdir(options.repo):
        raise Unusable(f"{options.repo} is no folder")
    data = read_bytes(options.file)
    if is_transcript(data):
        write_text(None, _explained_session(options, data.decode("utf-8", "surrogateescape")) + "\n")
        return 0
    said = _said_lines(options.said)
    write_text(None, _explained(options.file, data, said, options.repo) + "\n")
    return status_of(said)


def status_of(said: list[str]) -> int:
    """The status with which the program said that: a tool behind a pipe keeps it."""
    faults = [read_said(line) for line in said]
    if any(line.endswith(WANT_OF_MEMORY) for line in said):
        return 6
    if any(isinstance(fault, ScriptFault) for fault in faults):
        return 7
    return 1 if any(isinstance(fault, ManifestFault) for fault in faults) else 0


def _explain_named() -> int:
    """Explains lines that name their files, as those of `check-all` and of `check FILE..` do."""
    text = sys.stdin.buffer.read().decode("utf-8", "surrogateescape")
    found = [match for match in map(NAMED.fullmatch, text.split("\n")) if match]
    if not found:
        raise Unusable("name the manifest or the script that the program was given")
    parts = []
    for path, line in ((match[1], match[2]) for match in found if match[2] != "valid"):
        parts.append(_explained(path, read_bytes(path), [line], None))
    write_text(None, "\n\n".join(parts or ["all manifests are valid"]) + "\n")
    return 1 if parts else 0


def _explained_session(options: argparse.Namespace, text: str) -> str:
    """Explains each refusal of a session's transcript, by its command."""
    commands, replies = parts_of(text)
    script = Script(options.file, text, text.split("\n"), {}, options.root or "")
    script.commands = [Command(line, 0, tuple(words.split(" "))) for line, words in commands]
    said = [one if one.startswith("  ") else f"0 {one}" for one in replies]
    parts = _explain_run(script, said, options.repo)
    return "\n\n".join("\n".join(part) for part in parts)


def _parser() -> Words:
    parser = Words(
        prog="explain",
        description="Explains what component_manager said of a manifest or a script.",
        epilog="Pipe both streams of the program into it: component_manager run < FILE 2>&1 |"
        " explain FILE. Without a file it takes the lines of check-all. The status is the program's.",
    )
    parser.add_argument("file", nargs="?", help="the manifest, the script or a session's transcript")
    parser.add_argument(
        "said", nargs="*", help="what the program said, as one argument; else it is read from"
        " the standard input",
    )
    parser.add_argument("--repo", metavar="DIR", help="the folder that `run` was given by --repo")
    parser.add_argument("--root", metavar="URL", help="the root of a session's realm, for its transcript")
    parser.add_argument("--number", type=int, metavar="N", help="only say what the number N means")
    return parser


def _number_lines(number: int) -> list[str]:
    if number not in NUMBERS:
        raise Unusable(f"there is no number {number}")
    return [f"{number} {NUMBERS[number].name}"] + advice(number)


def _said_lines(words: list[str]) -> list[str]:
    text = " ".join(words) if words else sys.stdin.buffer.read().decode("utf-8", "replace")
    lines = [line for line in text.split("\n") if line.strip()]
    if not lines:
        raise Unusable("the program said nothing; give it as an argument or on the standard input")
    return lines


def _explained(path: str, data: bytes, said: list[str], repo: str | None) -> str:
    try:
        text = data.decode("utf-8")
    except UnicodeDecodeError as fault:
        if not looks_like_script(data.decode("utf-8", "replace")):
            return "\n".join(_not_utf8(path, data, fault.start))
        text = data.decode("utf-8", "surrogateescape")
    is_script = any(isinstance(read_said(line), ScriptFault) for line in said)
    if is_script or looks_like_script(text):
        parts = _explain_run(read_script(path, text), said, repo)
    else:
        parts = _explain_check(Document(path, text), said)
    if not parts:
        raise Unusable(f"nothing that is refused is found in: {said[0]}")
    return "\n\n".join("\n".join(part) for part in parts)


def _not_utf8(path: str, data: bytes, place: int) -> list[str]:
    line = data.count(b"\n", 0, place) + 1
    column = place - (data.rfind(b"\n", 0, place) + 1) + 1
    told = f"The byte 0x{data[place]:02X} at byte {column} of line {line} is no UTF-8."
    return [heading(NOT_UTF8, f"{path}:{line}:{column}"), told] + advice(NOT_UTF8)


def _explain_check(document: Document, said: list[str]) -> list[list[str]]:
    parts = []
    for line in said:
        fault = read_said(line)
        if isinstance(fault, ManifestFault):
            parts.append(explain_manifest(document, fault))
        elif isinstance(fault, Refusal | NoPlace):
            raise Unusable(f"{document.label} is a manifest; give the script that was run")
        elif line == "valid":
            parts.append([f"{document.label}: the manifest is valid"])
    return parts


def _explain_run(script: Script, said: list[str], repo: str | None) -> list[list[str]]:
    if "journal" in said:
        require_legal("".join(f"{line}\n" for line in said).encode("utf-8", "replace"))
    sketch = Sketch(script, repo)
    parts, replies, command = [], 0, None
    lanes = [line.split(" ")[0] for line in _before_journal(said) if is_reply(line)]
    are_whole = lanes == [str(command.lane) for command in script.commands]
    if not are_whole and len(lanes) > 1 and script.commands:
        parts.append([_disagreement(script, lanes)])
    for line in _before_journal(said):
        if is_reply(line):
            command = script.commands[replies] if are_whole else None
            replies += 1
        fault = read_said(line)
        if line.endswith(WANT_OF_MEMORY):
            parts.append([f"{script.label}: memory ran out while this line was answered: {line}"])
        elif isinstance(fault, Refusal):
            parts.append(_refused(sketch, fault, command, are_whole))
        elif isinstance(fault, NoPlace):
            parts.append(explain_no_place(sketch, fault))
        elif isinstance(fault, ScriptFault):
            parts.append(explain_script(script, fault))
        elif isinstance(fault, ManifestFault):
            told = f"{script.label} is a script, which `run` takes"
            raise Unusable(f"{told}; give the manifest that was checked")
    parts += _failed_children(sketch, said)
    if not parts and are_whole:
        parts.append([f"{script.label}: nothing was refused"])
    elif not parts and lanes and script.commands:
        parts.append([_disagreement(script, lanes)])
    return parts


def _disagreement(script: Script, lanes: list[str]) -> str:
    """That a script and replies don't belong together."""
    if len(lanes) != len(script.commands):
        replies = "is 1 reply" if len(lanes) == 1 else f"are {len(lanes)} replies"
        plural = "" if len(script.commands) == 1 else "s"
        told = f"it has {len(script.commands)} command{plural}, and there {replies}"
    else:
        told = "the replies are those of other lanes"
    return f"{script.label}: {told}; is it the script that was run?"


def _failed_children(sketch: Sketch, said: list[str]) -> list[list[str]]:
    """The eager children that failed, which no reply tells: the journal does."""
    if "journal" not in said:
        return []
    world = replay_partly("\n".join(said) + "\n")
    failed = [one for one in world.instances.values() if one.eager and one.failure] if world else []
    return [_failed_child(sketch, world, one) for one in failed if world]


def _failed_child(sketch: Sketch, world: World, child: Instance) -> list[str]:
    """Why an eager child failed, with the fault of its manifest where that is it."""
    above = world.instances.get(-1 if child.parent is None else child.parent)
    base = above.absolute.partition("#")[0] if above else ""
    url = child.absolute or (base + child.url if child.url.startswith("#") else child.url)
    lines = [f"{sketch.script.label}: the eager child {child.moniker} failed: {child.failure} ({url})"]
    fault, document = read_said(child.failure), sketch.document(url)
    if isinstance(fault, ManifestFault) and document is not None:
        lines += explain_manifest(document, fault)
    return lines


def _before_journal(said: list[str]) -> list[str]:
    return said[: said.index("journal")] if "journal" in said else said


def _refused(
    sketch: Sketch, refusal: Refusal, command: Command | None, is_known: bool
) -> list[str]:
    if refusal.client:
        return explain_refusal(sketch, refusal, None)
    if is_known:
        return explain_refusal(sketch, refusal, command)
    candidates = command_of(sketch.script, refusal)
    if len(candidates) == 1:
        return explain_refusal(sketch, refusal, candidates[0])
    lines = explain_refusal(sketch, refusal, None)
    if candidates:
        numbers = ", ".join(str(one.line) for one in candidates[:8])
        told = f"It can be the reply to one of the lines {numbers}; give all that was printed to know."
        lines.insert(1, told)
    return lines
