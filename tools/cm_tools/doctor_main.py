"""The command line of `doctor`: a verdict on a whole product."""

from __future__ import annotations

import argparse
import tempfile
from pathlib import Path

from cm_tools.asking import between_text, capability_text, reverse_text, who_can_text
from cm_tools.comparing import difference_text
from cm_tools.console import Unusable, Words, read_bytes, write_text
from cm_tools.doctor_formats import json_verdict, sarif_verdict
from cm_tools.merge_main import add_words, features
from cm_tools.merging import SUFFIXES, Sources
from cm_tools.outside_routes import add_uses
from cm_tools.places import add_availability
from cm_tools.policy import Rule, policy_text, read_rules
from cm_tools.program import HELP, chosen_program
from cm_tools.surveying import Realm, surveyed, url_of
from cm_tools.verdict import Verdict, judged, verdict_text

FORMATS = {"text": verdict_text, "json": json_verdict, "sarif": sarif_verdict}
BUILTINS = "'protocol NAME' or 'directory NAME PATH RIGHTS'"


def main(words: list[str]) -> int:
    """Gives the verdict or answers the question; 1 where the verdict is bad or a rule is broken."""
    options = _parser().parse_args(words)
    rules = read_rules(options.policy, read_bytes(options.policy).decode("utf-8")) if options.policy else []
    with tempfile.TemporaryDirectory(prefix="doctor-") as place:
        return _told(options, rules, Path(place))


def _told(options: argparse.Namespace, rules: list[Rule], place: Path) -> int:
    """The verdict or the answer; copies of manifests with their shards stand in the place."""
    folders = [Path(options.folder), *([Path(options.diff)] if options.diff else [])]
    for folder in folders:
        if not folder.is_dir():
            raise Unusable(f"{folder} is no folder")
    header = _header(options.root, folders[0], options.builtin)
    # What can't be used is told before a program is looked for, which may have to be made.
    program = chosen_program(options.program)
    realm = _surveyed(options, program, header, folders[0], place / "new")
    verdict = judged(program, realm)
    if options.diff:
        old = judged(program, _surveyed(options, program, header, folders[1], place / "old"))
        write_text(options.output, difference_text(old, verdict))
        return 0 if verdict.is_whole else 1
    if options.policy:
        text, are_kept = policy_text(verdict, rules)
        write_text(options.output, text)
        return 0 if are_kept else 1
    answer = _answer(verdict, options)
    if answer is not None:
        write_text(options.output, answer)
        return 0
    write_text(options.output, FORMATS[options.format](verdict))
    return 0 if verdict.is_whole else 1


def _surveyed(
    options: argparse.Namespace, program: Path, header: list[str], folder: Path, place: Path
) -> Realm:
    sources = Sources([Path(one) for one in options.include], features(options.without))
    realm, report = surveyed(program, (folder, sources.copied(folder, place)), header, options.add)
    add_uses(realm, report)
    add_availability(realm)
    return realm


def _answer(verdict: Verdict, options: argparse.Namespace) -> str | None:
    """The answer to a question; None where none is asked."""
    if options.capability:
        return capability_text(verdict, options.capability)
    if options.who_can or options.rights:
        return who_can_text(verdict, *(options.who_can or options.rights))
    if options.between:
        return between_text(verdict, *options.between)
    return reverse_text(verdict, options.reverse) if options.reverse else None


def _parser() -> Words:
    parser = Words(
        prog="doctor",
        description="Gives a verdict on a whole product: each use of each instance that the manifests below"
        " DIR make, with where it leads.",
        epilog="The status is 1 where a required use leads nowhere, a manifest can't be had, or a rule is"
        " broken; a question that is answered has 0.",
    )
    parser.add_argument("folder", metavar="DIR", help="the manifests: DIR/HOST/PATH/FRAGMENT")
    parser.add_argument(
        "root", metavar="ROOT",
        help="the root's URL, or its manifest below DIR, or a script whose header names it",
    )
    parser.add_argument("--builtin", metavar="WORDS", action="append", default=[],
                        help=f"what stands above the root: {BUILTINS}")
    parser.add_argument("--add", metavar="CREATE", action="append", default=[],
                        help="a command that creates a child, as 'create core elements e1 URL'")
    add_words(parser)
    asked = parser.add_mutually_exclusive_group()
    asked.add_argument("--capability", metavar="NAME",
                       help="who provides it, what carries it, who reaches it")
    asked.add_argument("--who-can", nargs=2, metavar=("DEED", "PLACE"),
                       help="who may read, write or execute at a path of a provider, as 'write /data'")
    asked.add_argument("--rights", nargs=2, metavar=("RIGHTS", "DIRECTORY"),
                       help="who has one of these rights to a directory of that name")
    asked.add_argument("--between", nargs=2, metavar=("A", "B"), help="each route by which A reaches B")
    asked.add_argument("--reverse", metavar="M", help="who depends on M, and what breaks when it stops")
    asked.add_argument("--policy", metavar="FILE", help="whether the rules of a file are kept")
    asked.add_argument("--diff", metavar="OLD", help="what DIR makes other than the folder OLD")
    for name, told in (("json", "everything as JSON"), ("sarif", "what is wrong, as SARIF")):
        asked.add_argument(f"--{name}", dest="format", action="store_const", const=name, default="text",
                           help=told)
    parser.add_argument("--program", metavar="FILE", help=HELP)
    parser.add_argument("-o", "--output", metavar="FILE", help="write to a file")
    return parser


def _header(root: str, folder: Path, builtins: list[str]) -> list[str]:
    """The header of the scripts: what stands above the root, and its URL."""
    above = [f"builtin {words}" for words in builtins]
    if "://" in root:
        return [*above, f"root {root}"]
    path = Path(root)
    if not path.is_file():
        raise Unusable(f"{root} is no URL and no file")
    if folder.resolve() in path.resolve().parents:
        url = url_of(path.resolve().relative_to(folder.resolve()))
        if url is None:
            raise Unusable(f"{path} isn't HOST/PATH/meta/NAME below {folder}, so give the root by its URL")
        return [*above, f"root {url}"]
    if path.suffix in SUFFIXES:
        raise Unusable(f"the manifest {path} isn't below {folder}, so it has no URL there")
    return [*above, *_header_of(path)]


def _header_of(script: Path) -> list[str]:
    """The header of a script, with the manifests that it brings along."""
    lines, is_inside = [], False
    for line in script.read_text("utf-8").split("\n"):
        word = line.partition(" ")[0]
        if not is_inside and (word.isdecimal() or word == "sync"):
            break
        is_inside = word == "manifest" or (is_inside and line != "%%")
        lines.append(line)
    if not any(line.startswith("root ") for line in lines):
        raise Unusable(f"{script} has no line `root URL` before its commands")
    return lines
