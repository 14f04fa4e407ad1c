"""The views of a realm as plain text: the tree, the routes, the timeline."""

from __future__ import annotations

from collections import Counter

from cm_tools.entries import Journal
from cm_tools.instances import STATES, Instance, RouteNote
from cm_tools.telling import entry_words, hop_words, outcome_words
from cm_tools.world import World


def tree_text(journal: Journal, world: World) -> str:
    """The tree, a line for each instance: its name, its state, its incarnation, what is to note."""
    rows = [(front + instance.name, instance) for front, instance in _branches(world)]
    width = max(len(name) for name, _ in rows)
    lines = [f"root {journal.root}, after entry {world.applied} of {len(journal.entries)}"]
    for name, instance in rows:
        number = f"@{instance.incarnation}"
        line = f"{name:<{width}}  {instance.state:<10}  {number:<5}{_note(instance)}"
        lines.append(line.rstrip())
    lines.append(_counts(world))
    return "\n".join(lines) + "\n"


def routes_text(world: World) -> str:
    """Each route that was asked for, as it was last told, with its hops one below the other."""
    if not world.routes:
        return "no route was asked for\n"
    return "".join(_route_text(note, world) for note in world.routes.values())


def timeline_text(journal: Journal, world: World) -> str:
    """The entries in order, with a mark in the column of the caller that made each."""
    callers = journal.callers()
    columns = {caller: index for index, caller in enumerate(callers)}
    width = len(str(max(world.applied, 1)))
    head = " ".join(f"{caller:>2}" for caller in callers)
    lines = [f"{'':>{width}}  {head}  (a column for each caller)"]
    for entry in journal.entries[: world.applied]:
        marks = [" ·"] * len(callers)
        marks[columns[entry.caller]] = " ●"
        lines.append(f"{entry.number:>{width}}  {' '.join(marks)}  {entry_words(entry, world)}")
    return "\n".join(lines) + "\n"


def _branches(world: World) -> list[tuple[str, Instance]]:
    """Each instance behind its parent, with the lines that lead to it."""
    found: list[tuple[str, Instance]] = []
    waiting: list[tuple[str, str, Instance]] = [("", "", world.instances[0])]
    while waiting:
        own, below, instance = waiting.pop()
        found.append((own, instance))
        for index, child in enumerate(reversed(instance.children)):
            is_last = index == 0
            front = below + ("└─ " if is_last else "├─ ")
            waiting.append((front, below + ("   " if is_last else "│  "), world.instances[child]))
    return found


def _note(instance: Instance) -> str:
    notes = []
    if instance.failure:
        notes.append(f"failed: {instance.failure}")
    if instance.state in ("closing", "doomed") and instance.is_on:
        notes.append("still runs")
    if instance.eager:
        notes.append("eager")
    return "  " + ", ".join(notes) if notes else ""


def _counts(world: World) -> str:
    counts = Counter(instance.state for instance in world.instances.values())
    total = len(world.instances)
    told = ", ".join(f"{counts[state]} {state}" for state in STATES if counts[state])
    return f"{total} instance{'' if total == 1 else 's'}: {told}"


def _route_text(note: RouteNote, world: World) -> str:
    times = f", asked {note.times} times" if note.times > 1 else ""
    lines = [
        f"{world.moniker(note.client)} {note.asked} -> {outcome_words(note, world)}"
        f"  (entry {note.entry}{times})"
    ]
    for depth, hop in enumerate(note.route.hops if note.route else ()):
        lines.append("  " * (depth + 1) + hop_words(hop))
    return "\n".join(lines) + "\n"
