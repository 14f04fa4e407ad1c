"""Cures: what was probably meant, what is missing at which hop, and what isn't read here at all."""

from __future__ import annotations

from difflib import get_close_matches

from cm_tools.features import features_of
from cm_tools.hops import Stop
from cm_tools.numbers import NUMBERS
from cm_tools.relaxed import Node
from cm_tools.rights import ALL, SHORT, rights_of
from cm_tools.rows import items_of, many, rows_of
from cm_tools.said import ManifestFault, Refusal
from cm_tools.schema import SECTIONS, fields_of
from cm_tools.scripts import Command, Sketch

MARK = "✗"
SUGGESTED = 3
LIKENESS = 0.6
# The commands, with what stands behind each.
FORMS = {
    "resolve": "resolve T", "start": "start T", "stop": "stop T", "list": "list T COLL",
    "open": "open T PATH", "open-exposed": "open-exposed T NAME", "route": "route T PATH",
    "doctor": "doctor T", "show": "show T", "survey": "survey T", "events": "events T FROM",
    "exited": "exited T",
    "shutdown": "shutdown T", "create": "create T COLL NAME URL GROUPS", "destroy": "destroy T",
}
# The lines of a script's header, and what a builtin can be.
BUILTINS = {"protocol": "builtin protocol NAME", "directory": "builtin directory NAME PATH RIGHTS"}
HEADERS = {"manifest": "manifest URL", "builtin": " or ".join(BUILTINS.values()), "root": "root URL"}
BYTE_ORDER_MARK = "\ufeff"


def nearest(word: str, known: set[str], likeness: float = LIKENESS) -> str:
    """The known words that are most like this one, as a question; nothing where none is."""
    found = get_close_matches(word, sorted(known), SUGGESTED, likeness)
    return f"Did you mean {' or '.join(found)}?" if found else ""


# ---- manifests


def manifest_cures(root: Node, fault: ManifestFault) -> list[str]:
    """What helps against a manifest's fault, beside the advice for its number."""
    told = _unread_lines(root, fault)
    if fault.number == 33 and not told:
        known = set(SECTIONS) if fault.section == "manifest" else fields_of(fault.section)
        told.append(nearest(fault.field, known))
    if fault.number in (37, 38, 39):
        told.append(_value_cure(root, fault))
    if fault.number in (51, 52):
        told.append(_reference_cure(root, fault))
    return [line for line in told if line]


def _unread_lines(root: Node, fault: ManifestFault) -> list[str]:
    """What of the fault's section or item isn't read here at all."""
    if fault.number not in (33, 35, 36, 39, 40):
        return []
    items = items_of(root, fault.section)
    item = items[fault.index] if fault.index < len(items) else None
    found = [
        feature for feature in features_of(root)
        if (feature.section == fault.field if feature.item is None else feature.item is item)
    ]
    if fault.field == "include" and fault.section == "manifest":
        return ["It has shards: `tools/merge` prints the manifest with them, which can be checked."]
    return [
        f"It has {one.told()}, which isn't read here; `tools/merge --without {one.name}` leaves it out."
        for one in found[:1]
    ]


def _value_cure(root: Node, fault: ManifestFault) -> str:
    """The value that was probably meant."""
    items = items_of(root, fault.section)
    item = items[fault.index] if fault.index < len(items) else None
    values = [node.value for node in many(item.get(fault.field))] if item is not None else []
    if fault.number == 37 and values:
        is_path = fault.field != "subdir"
        if is_path and not values[0].startswith("/"):
            return f"A path begins with `/`. Did you mean /{values[0]}?"
        return "A subdirectory has no `/` in front." if values[0].startswith("/") and not is_path else ""
    if fault.number == 38:
        known = {*ALL, *SHORT}
        return next((told for one in values if one not in known and (told := nearest(one, known))), "")
    names = _names(root, "children") | _names(root, "collections")
    return next((f"Did you mean #{one}?" for one in values if one in names), "")


def _reference_cure(root: Node, fault: ManifestFault) -> str:
    """The child, the collection or the capability that was probably meant."""
    rows = rows_of(root, fault.section, fault.number)
    if fault.index >= len(rows):
        return ""
    row = rows[fault.index]
    if fault.number == 52:
        kinds = ("protocol", "directory", "storage")
        known = {name.value for item in items_of(root, "capabilities") for kind in kinds
                 for name in many(item.get(kind))}
        return nearest(row.name.value, known) if row.name else ""
    known = {f"#{name}" for name in _names(root, "children") | _names(root, "collections")}
    told = [row.item.text("from"), row.target.value if row.target else ""]
    return next((nearest(one, known) for one in told if one.startswith("#") and one not in known), "")


def _names(root: Node, section: str) -> set[str]:
    return {item.text("name") for item in items_of(root, section)}


# ---- routes


def chain_line(stops: list[Stop], failing: Stop | None) -> list[str]:
    """The hops from the use on, with the one marked at which the route fails."""
    words = [f"{stop.step} {stop.moniker}" + (f" {MARK}" if stop is failing else "") for stop in stops]
    return [f"The way: {' -> '.join(words)}"] if len(words) > 1 else []


def missing_rights(stops: list[Stop], wanted: str = "") -> list[str]:
    """Which of the rights that the use asks for, or that are wanted, are missing at which hop."""
    asked = rights_of(wanted) or (_rights_at(stops[0]) if stops else frozenset())
    lines = []
    for stop in stops[1:]:
        stated = _rights_at(stop)
        missing = sorted(asked - stated) if stated else []
        if missing:
            lines.append(f"The {stop.step} of {stop.moniker} lacks {', '.join(missing)}.")
    return lines


def nearest_name(sketch: Sketch, stop: Stop) -> list[str]:
    """What an instance that lacks an offer or expose has by a name that is much like it."""
    url = sketch.url(stop.moniker)
    root = sketch.value(url) if url else None
    section = {"offer": "offer", "expose": "expose", "capability": "capabilities"}.get(stop.step, "")
    if root is None or stop.given is not None or not section:
        return []
    known = set()
    for item in items_of(root, section):
        names = {name.value for name in many(item.get(stop.kind))}
        known |= {item.text("as")} if names and item.text("as") else names
    told = nearest(stop.name, known - {stop.name})
    elsewhere = ["It has that name for others: look at its `to`."] if stop.name in known else []
    return elsewhere or ([told] if told else [])


def builtin_cures(sketch: Sketch, stop: Stop) -> list[str]:
    """What stands above the root by a name that is much like it."""
    lines = [line.split(" ") for line in sketch.script.lines if line.startswith("builtin ")]
    told = nearest(stop.name, {words[2] for words in lines if len(words) > 2})
    return [told] if told else []


def _rights_at(stop: Stop) -> frozenset[str]:
    """The rights that a hop states; none where it states none."""
    node = stop.item.get("rights") if stop.item is not None else None
    return rights_of(",".join(one.value for one in many(node)))


# ---- commands


def line_cures(text: str) -> list[str]:
    """What a line that is neither of the header nor a command could have been."""
    words = text.split(" ")
    if words[0] in HEADERS:
        kind = words[1] if words[0] == "builtin" and words[1:] else ""
        if kind in BUILTINS:
            return [f"The form is: {BUILTINS[kind]}"]
        told = nearest(kind, set(BUILTINS)) if kind else ""
        return [told or f"The form is: {HEADERS[words[0]]}"]
    if words[0].isdecimal():
        return command_cures(text)
    if words[0] in FORMS:
        return [f"Did you mean 0 {text}?"]
    told = nearest(words[0], {*HEADERS, "sync"})
    return [told] if told else []


def command_cures(text: str) -> list[str]:
    """The commands that a line that is none could have been."""
    words = text.split(" ")
    if len(words) < 2 or not words[0].isdecimal() or not words[1]:
        return []
    if words[1] in FORMS:
        return [f"The form is: {words[0]} {FORMS[words[1]]}"]
    likely = get_close_matches(words[1], sorted(FORMS), SUGGESTED, LIKENESS)
    likely = likely or sorted(one for one in FORMS if words[1] and one.startswith(words[1]))
    if likely:
        return [f"It could have been: {', '.join(FORMS[one] for one in likely)}"]
    return [f"The commands are: {', '.join(sorted(FORMS))}"]


def group_lines(refusal: Refusal, command: Command | None) -> list[str]:
    """What the number within a refusal 63 means, with the group that has it."""
    words = refusal.words.split(" ")
    if refusal.number != 63 or len(words) < 3 or not all(word.isdecimal() for word in words[1:3]):
        return []
    index, number = int(words[1]), int(words[2])
    known = NUMBERS.get(number)
    groups = " ".join(command.words[5:]).split("+ ")[1:] if command else []
    shown = f": + {groups[index].strip()}" if index < len(groups) else ""
    lines = [f"The group {index}, counted from 0{shown}"]
    return lines + ([f"It has {number} {known.name}: {known.comes}."] if known else [])


def text_cures(text: str) -> list[str]:
    """What of a file as a whole can't be seen: a byte order mark, and carriage returns."""
    lines = []
    if text.startswith(BYTE_ORDER_MARK):
        lines.append("The file begins with a byte order mark (BOM), which isn't seen: save it without.")
    if "\r\n" in text:
        lines.append("Its lines end in carriage returns (CRLF): save it with line feeds alone.")
    return lines
