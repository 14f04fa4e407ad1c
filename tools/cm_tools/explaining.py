"""Explanations: what the program said, with the lines that it is about and what to do."""

from __future__ import annotations

from cm_tools.auditing import check_verdict
from cm_tools.console import Unusable
from cm_tools.curing import (
    builtin_cures, chain_line, command_cures, group_lines, line_cures, manifest_cures, missing_rights,
    nearest_name, text_cures,
)
from cm_tools.hops import Stop
from cm_tools.locating import locate
from cm_tools.naming import name_cures
from cm_tools.numbers import NUMBERS, advice_words
from cm_tools.pointing import Document
from cm_tools.relaxed import SpellingFault, read_relaxed
from cm_tools.said import ManifestFault, NoPlace, Refusal, ScriptFault
from cm_tools.scripts import Command, Script, Sketch, looks_like_script
from cm_tools.tracing import trace, trace_exposed

SPELLING = 31
NO_BACKING, WEAK_BACKING = 105, 109
BYTES_LIMITS = frozenset({30, 41})
LINE_SHOWN = 60
# What stands behind a front of a line, and what it says.
UNSEEN = {
    "\r": "A carriage return stands there: save the file with line feeds alone.",
    " ": "A space stands there: words are parted by exactly one, and a line has none at its end.",
    "\t": "A tab stands there: words are parted by exactly one space.",
}
WEAK_FIELDS = {"rights-too-weak": "rights", "availability-too-weak": "availability"}

# Which commands a refusal can come of, where it isn't all of them.
COMMANDS_OF: dict[int, frozenset[str]] = {
    60: frozenset({"create", "list"}),
    61: frozenset({"create"}),
    62: frozenset({"create"}),
    63: frozenset({"create"}),
    64: frozenset({"create"}),
    65: frozenset({"create"}),
    68: frozenset({"destroy"}),
    84: frozenset({"start", "open", "open-exposed"}),
    85: frozenset({"open"}),
    86: frozenset({"open", "route"}),
    87: frozenset({"open", "route", "open-exposed"}),
    88: frozenset({"open", "route", "open-exposed"}),
    89: frozenset({"open", "open-exposed"}),
}


def heading(number: int, position: str) -> str:
    """The first line: where, and the number with its name."""
    known = NUMBERS.get(number)
    name = f" {known.name}" if known else ""
    return f"{position}: {number}{name}"


def advice(number: int, words: str = "") -> list[str]:
    """When the number comes, and what to do; the words are those behind a refusal's number."""
    known = NUMBERS.get(number)
    if known is None:
        return ["This number isn't known here."]
    return [f"It comes where {known.comes}.", f"Hint: {advice_words(number, words)}"]


# ---- manifests


def explain_manifest(document: Document, fault: ManifestFault) -> list[str]:
    """The lines that explain a manifest's fault."""
    if fault.number not in NUMBERS:
        raise Unusable(f"no fault of a manifest has the number {fault.number}")
    try:
        root = read_relaxed(document.text)
    except SpellingFault as spelling:
        return _explain_spelling(document, fault, spelling)
    if fault.number == SPELLING or fault.number in BYTES_LIMITS:
        told = [f"No such fault is found in {document.label}; is it the file that was checked?"]
        return [heading(fault.number, document.label)] + told + advice(fault.number)
    places = locate(root, fault)
    if not places:
        raise Unusable(
            f"{document.label} has no {fault.section} {fault.index} that could have fault"
            f" {fault.number}; is it the file that was checked?"
        )
    lines = [heading(fault.number, document.position(places[0].start))]
    for place in places:
        lines += [document.pointed(place.start, place.end), f"      {place.note}"]
    if fault.cycle:
        lines.append("The circle: " + " -> ".join(fault.cycle))
    return lines + manifest_cures(root, fault) + advice(fault.number)


def _explain_spelling(document: Document, fault: ManifestFault, spelling: SpellingFault) -> list[str]:
    place = spelling.place
    lines = [heading(fault.number, document.position(place)), document.pointed(place, place + 1)]
    if fault.number != SPELLING:
        lines.append("The manifest can't be read here, so the place of the fault isn't found.")
    line, column = document.line_and_column(place)
    told = [f"Line {line}, column {column}: {spelling.why}."]
    return lines + told + text_cures(document.text) + advice(fault.number)


# ---- scripts


def explain_script(script: Script, fault: ScriptFault) -> list[str]:
    """The lines that explain a script's fault."""
    if not looks_like_script(script.text) and _is_manifest(script.text):
        raise Unusable(f"{script.label} is a manifest, which `check` takes; `run` takes a script")
    # Behind the last line feed stands no line.
    count = len(script.lines) - (not script.lines[-1])
    if fault.line > count + 1:
        raise Unusable(f"{script.label} has {count} lines; is it the script that was run?")
    if fault.line > count:
        return [
            heading(fault.number, f"{script.label}:{fault.line}"),
            f"{fault.line:>5} | (the end of the script)",
        ] + advice(fault.number)
    text = script.lines[fault.line - 1]
    length = len(text.encode("utf-8", "surrogateescape"))
    if fault.at > length:
        told = f"line {fault.line} of {script.label} has {length} bytes"
        raise Unusable(f"{told}; is it the script that was run?")
    document = Document(script.label, text, fault.line)
    start, end = _script_stretch(text, fault)
    lines = [heading(fault.number, document.position(start)), document.pointed(start, end)]
    beside = _stopped_at(text, start) if fault.number == 70 and fault.at else _earlier(script, text, fault)
    # At 0 the line stands in the wrong place.
    cures = line_cures(text) if fault.number == 71 or (fault.number == 70 and fault.at) else []
    return lines + beside + cures + text_cures(script.text) + advice(fault.number)


def _is_manifest(text: str) -> bool:
    """Whether the text is an object in the spelling of manifests."""
    try:
        return read_relaxed(text).kind == "object"
    except SpellingFault:
        return False


def _script_stretch(text: str, fault: ScriptFault) -> tuple[int, int]:
    """What of the line is meant. Positions of the program count bytes."""
    if fault.number == 70:
        front = text.encode("utf-8", "surrogateescape")[: fault.at]
        place = len(front.decode("utf-8", "surrogateescape"))
        return place, place + 1
    if fault.number in (77, 78):
        return len("manifest "), len(text)
    return 0, len(text.split(" ")[0]) or 1


def _stopped_at(text: str, place: int) -> list[str]:
    """How far the line could go on, and what stands there where that can't be seen."""
    there = text[place : place + 1]
    told = [f"So far it could go on: {text[:place][-LINE_SHOWN:]!r}"]
    if not there:
        return told + ["The line ends there, and more is needed."]
    return told + ([UNSEEN[there]] if there in UNSEEN else [])


def _earlier(script: Script, text: str, fault: ScriptFault) -> list[str]:
    if fault.number == 78:
        earlier = script.lines.index(text) + 1
        return [f"The earlier one stands at line {earlier}."] if earlier != fault.line else []
    return []


# ---- refusals


def explain_refusal(sketch: Sketch, refusal: Refusal, command: Command | None) -> list[str]:
    """The lines that explain a refused command, or a refused line of a check of all routes."""
    script = sketch.script
    if command is None:
        use = f" {refusal.client} {refusal.path}:" if refusal.client else ""
        lines = [f"{script.label}:{use} {refusal.number} {refusal.words}"]
    else:
        text = script.lines[command.line - 1]
        document = Document(script.label, text, command.line)
        lines = [f"{document.position(0)}: {refusal.number} {refusal.words}"]
        lines.append(document.pointed(len(text.split(" ")[0]) + 1, len(text)))
    if refusal.fault is not None:
        return lines + _inner_fault(sketch, refusal.fault, command)
    told = _absent_lines if refusal.words.endswith(" absent") else _route_lines
    lines += told(sketch, refusal, command) + group_lines(refusal, command)
    lines += name_cures(sketch, refusal, command)
    if refusal.number == 70 and command is not None:
        lines += command_cures(f"{command.lane} {' '.join(command.words)}")
    return lines + advice(refusal.number, refusal.words)


def explain_no_place(sketch: Sketch, fault: NoPlace) -> list[str]:
    """The lines that explain why an instance has no place in a storage that it uses."""
    told = f"{sketch.script.label}: {fault.moniker} storage {fault.path}: {fault.number} {fault.words}"
    stops, failing = trace(sketch, fault.moniker, fault.path), (fault.step, fault.at)
    if fault.number == NO_BACKING and stops and stops[-1].given is None:
        failing = stops[-1].step, stops[-1].moniker
    lines = _failing_lines(sketch, stops, failing, WEAK_FIELDS.get(fault.weak, ""))
    if fault.number == WEAK_BACKING:
        lines = chain_line(stops, None) + missing_rights(stops, "rw*")
    return [told, *lines, *advice(fault.number, fault.words)]


def command_of(script: Script, refusal: Refusal) -> list[Command]:
    """The commands that can have been refused so, where only the refusal is known."""
    kinds = COMMANDS_OF.get(refusal.number)
    return [
        command
        for command in script.commands
        if refusal.lane in (None, command.lane) and (kinds is None or command.words[0] in kinds)
    ]


def _route_lines(sketch: Sketch, refusal: Refusal, command: Command | None) -> list[str]:
    """The hop at which the route fails, in the manifest that states it or lacks it."""
    stops, failing = _stops(sketch, refusal, command), (refusal.step, refusal.moniker)
    weak = WEAK_FIELDS.get(refusal.words.split(" ")[0], "")
    told = _failing_lines(sketch, stops, failing, weak)
    if not told and stops and refusal.step:
        return [f"The manifests that are given have no such hop on the way; is {sketch.script.label} the"
                " script that was run?"]
    return told


def _failing_lines(sketch: Sketch, stops: list[Stop], failing: tuple[str, str], weak: str) -> list[str]:
    """The hop of the way that fails, with the way and what helps there. What is missing is the last one."""
    found = [stop for stop in stops if (stop.step, stop.moniker) == failing]
    if not found:
        return []
    stop = found[-1] if found[-1].given is None else found[0]
    cures = missing_rights(stops) if weak == "rights" else nearest_name(sketch, stop)
    return _stop_lines(sketch, stop, weak) + chain_line(stops, stop) + cures


def _absent_lines(sketch: Sketch, refusal: Refusal, command: Command | None) -> list[str]:
    """Which manifest is absent: the target's, or that of an instance on the route."""
    target = refusal.client or (command.words[1] if command and len(command.words) > 1 else "")
    monikers = [target] + [stop.moniker for stop in _stops(sketch, refusal, command)]
    for moniker in monikers:
        url = sketch.url(moniker) if moniker and not moniker.startswith("@") else None
        if url is not None and sketch.document(url) is None:
            return [f"      no manifest is found for {moniker}: {url}"]
    return []


def _stops(sketch: Sketch, refusal: Refusal, command: Command | None) -> list[Stop]:
    if refusal.client:
        return trace(sketch, refusal.client, refusal.path)
    words = command.words if command else ()
    if len(words) < 3 or words[1].startswith("@"):
        return []
    if words[0] in ("open", "route"):
        return trace(sketch, words[1], words[2])
    return trace_exposed(sketch, words[1], words[2]) if words[0] == "open-exposed" else []


def _stop_lines(sketch: Sketch, stop: Stop, weak: str) -> list[str]:
    """The item of the hop, by its field that is too weak where one is; or what is missing, and where."""
    if stop.command is not None:
        text = sketch.script.lines[stop.command.line - 1]
        shown = Document(sketch.script.label, text, stop.command.line)
        return [shown.pointed(0, len(text)), "      the offer of this command"]
    if stop.step == "builtin":
        return [f"      {stop.wish}", *builtin_cures(sketch, stop)]
    url = sketch.url(stop.moniker)
    document = sketch.document(url) if url else None
    root = sketch.value(url) if url else None
    if document is None or root is None:
        return []
    if stop.item is not None:
        node = stop.item.get(weak) or stop.item
        position = document.position(node.start)
        told = f"      the {stop.step} of {stop.moniker} at which it fails ({position})"
        return [document.pointed(node.start, node.end), told]
    section = root.member({"offer": "offer", "expose": "expose"}.get(stop.step, "capabilities"))
    start, end = (section.key.start, section.key.end) if section else (root.start, root.start + 1)
    return [document.pointed(start, end), f"      {stop.wish} ({document.position(start)})"]


def _inner_fault(sketch: Sketch, fault: ManifestFault, command: Command | None) -> list[str]:
    """The fault of the manifest that was to be resolved: one on the way to the target, or another one.

    The program says which manifest has it, where it is at hand.
    """
    target = command.words[1] if command and len(command.words) > 1 else ""
    way = [] if target.startswith("@") else _way_to(target)
    urls = [url for moniker in way if (url := sketch.url(moniker))]
    documents = {one: sketch.document(one) for one in dict.fromkeys([*urls, *sketch.script.manifests])}
    may = {one: it for one, it in documents.items() if it is not None and _may_have(it, fault)}
    said = f"invalid {fault.number} {fault.section} {fault.index}"
    # An answer may have words behind these; a number that is longer is another one.
    has = [one for one, it in may.items() if f"{check_verdict(it.text)} ".startswith(f"{said} ")]
    for one in has or may:
        return [f"In the manifest {one}:"] + explain_manifest(may[one], fault)
    return advice(fault.number)


def _way_to(target: str) -> list[str]:
    """The monikers from the root down to a target."""
    names = target.strip("/").split("/") if target.strip("/.") else []
    return [".", *("/".join(names[:count]) for count in range(1, len(names) + 1))]


def _may_have(document: Document, fault: ManifestFault) -> bool:
    try:
        root = read_relaxed(document.text)
    except SpellingFault:
        return fault.number == SPELLING
    if fault.number == SPELLING or fault.number in BYTES_LIMITS:
        return False
    return bool(locate(root, fault))
