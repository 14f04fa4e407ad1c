"""The verdict on a realm: each use with where it leads, and what of the manifests is wrong or of no use."""

from __future__ import annotations

import subprocess
from collections import Counter
from dataclasses import dataclass, field
from pathlib import Path

from cm_tools.console import Unusable
from cm_tools.curing import manifest_cures, nearest
from cm_tools.explaining import explain_manifest
from cm_tools.merging import SUFFIXES
from cm_tools.places import position_of_use
from cm_tools.pointing import Document
from cm_tools.relaxed import SpellingFault, read_relaxed
from cm_tools.rights import rights_of, short_rights
from cm_tools.said import ManifestFault, read_said
from cm_tools.surveying import Part, Realm, Row, Use, kind_of, url_of
from cm_tools.wiring import Wiring

GOOD, BAD, VOID = "✓", "✗", "void"
CYCLE = 58
ABSENT = "absent"
# URLs have much in common, so another one has to be nearly the same.
OF_URLS = 0.9


@dataclass(slots=True)
class Broken:
    """A part whose manifest can't be had: why, and where one that isn't valid has its fault or its cycle."""

    part: Part
    why: str
    position: str = ""
    cycle: tuple[str, ...] = ()
    cure: str = ""


@dataclass(slots=True)
class Verdict:
    """What is to say of a realm."""

    realm: Realm
    wiring: Wiring
    broken: list[Broken] = field(default_factory=list)
    unused: list[tuple[str, str, Row]] = field(default_factory=list)
    unreached: list[Path] = field(default_factory=list)

    @property
    def is_whole(self) -> bool:
        """Whether each manifest can be had and each required use leads somewhere."""
        return not self.broken and not any(map(fails, self.realm.uses))


def fails(use: Use) -> bool:
    """Whether a use that is required leads nowhere."""
    return use.is_required and not use.is_given


def judged(program: Path, realm: Realm) -> Verdict:
    """The verdict on a realm; the program says again what is wrong with a manifest that isn't valid."""
    verdict = Verdict(realm, Wiring(realm))
    files = [path for path in realm.folder.rglob("*") if path.suffix in SUFFIXES and path.is_file()]
    urls = {url for path in files if (url := url_of(path.relative_to(realm.folder)))}
    for part in realm.parts.values():
        if part.failure:
            verdict.broken.append(_broken(program, realm, part, urls))
        verdict.unused += [(part.moniker, *one) for one in _unused(verdict, part)]
    reached = {realm.file(part.url).resolve() for part in realm.parts.values()}
    verdict.unreached = sorted(path for path in files if path.resolve() not in reached)
    return verdict


def _unused(verdict: Verdict, part: Part) -> list[tuple[str, Row]]:
    """The offers and exposes of a part that no use passes, and that don't lead out of what is known."""
    return [
        (section, row) for section in ("offer", "expose") for row in part.declared.get(section, [])
        if row.get("from") != "void" and not verdict.wiring.is_needed(row)
    ]


def _broken(program: Path, realm: Realm, part: Part, urls: set[str]) -> Broken:
    """Why a part's manifest can't be had, with its place where the program finds a fault in it, or the URL
    that was probably meant.
    """
    path = realm.read_file(part.url)
    if part.failure == ABSENT:
        return Broken(part, part.failure, cure=nearest(part.url, urls, OF_URLS))
    if not part.failure.startswith("invalid") or not path.is_file():
        return Broken(part, part.failure)
    data = path.read_bytes()
    ran = subprocess.run([program, "check"], input=data, capture_output=True, check=False)
    said = ran.stdout.decode("utf-8", "replace").strip()
    fault = read_said(said)
    if not isinstance(fault, ManifestFault):
        return Broken(part, part.failure)
    # The lines of a copy are others than those of the file.
    position = _position(path, data, fault) if realm.read == realm.folder else str(realm.file(part.url))
    return Broken(part, said, position, fault.cycle if fault.number == CYCLE else (), _cure(data, fault))


def _cure(data: bytes, fault: ManifestFault) -> str:
    """What helps against a manifest's fault, if that can be told."""
    try:
        return " ".join(manifest_cures(read_relaxed(data.decode("utf-8")), fault))
    except (UnicodeDecodeError, SpellingFault):
        return ""


def _position(path: Path, data: bytes, fault: ManifestFault) -> str:
    """Where a fault stands, as FILE:LINE:COLUMN, or the file alone."""
    try:
        document = Document(str(path), data.decode("utf-8"))
        return explain_manifest(document, fault)[0].rpartition(": ")[0]
    except (UnicodeDecodeError, Unusable):
        return str(path)


# ---- as text


def verdict_text(verdict: Verdict) -> str:
    """The whole verdict: the table of uses, what is wrong, what is of no use, and one line at the end."""
    realm = verdict.realm
    lines = [f"{realm.folder}, root {realm.root}", *uses_table(realm.uses)]
    lines += _section("cycles", [_cycle_line(one) for one in verdict.broken if one.cycle])
    lines += _section("manifests that can't be had",
                      [_broken_line(one, realm) for one in verdict.broken if not one.cycle])
    failing = [use for use in realm.uses if not use.is_given and not use.is_void]
    for title, wanted in ("required uses that lead nowhere", True), ("others that lead nowhere", False):
        lines += _section(title, [_failing_line(verdict, use) for use in failing if fails(use) == wanted])
    lines += _section("offers and exposes that nobody uses", [row_line(*one) for one in verdict.unused])
    lines += _section("manifests that nobody reaches", [str(path) for path in verdict.unreached])
    return "\n".join([*lines, "", _summary(verdict)]) + "\n"


def uses_table(uses: list[Use]) -> list[str]:
    """A line for each use: its mark, the client, the path, how it is needed, where it leads or why not."""
    rows = [(mark(use), use.client, use.path, need(use), leads_to(use)) for use in uses]
    widths = [max((len(row[column]) for row in rows), default=0) for column in range(4)]
    return [
        "  ".join([*(cell.ljust(width) for cell, width in zip(row, widths)), row[4]]) for row in rows
    ]


def mark(use: Use) -> str:
    """Whether it leads somewhere, nowhere, or is left out on purpose."""
    return GOOD if use.is_given else VOID if use.is_void else BAD


def need(use: Use) -> str:
    """How strongly the client needs it."""
    return str(use.row.get("availability", "required"))


def leads_to(use: Use) -> str:
    """The provider with the path there and the rights, or the reason why there is none."""
    if use.registered is not None:
        owner, origin, name = use.registered
        return f"{name} from {origin}, by an environment of {owner}"
    if use.route is None:
        return use.why
    where = use.route.moniker or use.route.source
    path = "" if use.route.path == use.path and not use.route.rights else f" {use.route.path}"
    rights = f" {short_rights(rights_of(use.route.rights))}" if use.route.rights else ""
    return f"{where}{path}{rights}"


def use_line(use: Use) -> str:
    """A use with where it leads, in one line."""
    return f"{use.client} {use.path} -> {leads_to(use)}"


def _failing_line(verdict: Verdict, use: Use) -> str:
    """A use that leads nowhere, with its place and the name that was probably meant."""
    name, known = verdict.wiring.names_at_failure(use)
    cure = nearest(name, known)
    if use.step == "builtin":
        more = " PATH RIGHTS" if use.kind == "directory" else ""
        cure = f"where the root has it from above, say --builtin '{use.kind} {name}{more}'"
    told = f"{use_line(use)} ({position_of_use(verdict.realm, use)})"
    return f"{told}: {cure[0].lower()}{cure[1:]}" if cure else told


def row_line(moniker: str, section: str, row: Row) -> str:
    """An offer or an expose, as `. offers protocol p from #a to #b as q`."""
    kind = kind_of(row)
    name = str(row.get(kind, ""))
    renamed = "" if row.get("as", name) == name else f" as {row['as']}"
    target = f" to {row['to']}" if "to" in row else ""
    return f"{moniker} {section}s {kind} {name} from {row.get('from', '')}{target}{renamed}"


def _section(title: str, lines: list[str]) -> list[str]:
    return ["", f"{title} ({len(lines)}):", *(f"  {line}" for line in lines)] if lines else []


def _cycle_line(broken: Broken) -> str:
    return f"{broken.part.moniker}: {' -> '.join(broken.cycle)} ({broken.position})"


def _broken_line(broken: Broken, realm: Realm) -> str:
    """Which manifest, and what is wrong with it; for one that is absent the file where it would stand."""
    where = broken.position or str(realm.file(broken.part.url))
    told = f"{broken.part.moniker}: {broken.why}: {broken.part.url} ({where})"
    return f"{told}: {broken.cure}" if broken.cure else told


def _summary(verdict: Verdict) -> str:
    """The numbers, and the verdict in one word."""
    realm = verdict.realm
    counts = Counter(map(mark, realm.uses))
    wrong = sum(map(fails, realm.uses))
    told = ", ".join(f"{counts[one]} {one}" for one in (GOOD, BAD, VOID))
    count = len(verdict.wiring.open)
    more = f"; {count} offers to children that aren't known" if count else ""
    word = "whole" if verdict.is_whole else "broken"
    return (
        f"{word}: {len(realm.parts)} instances, {len(verdict.broken)} without a manifest;"
        f" {len(realm.uses)} uses: {told}; {wrong} required ones lead nowhere{more}"
    )
