"""The realm as a graph, for Graphviz and for Mermaid: the tree, and over it the routes."""

from __future__ import annotations

from dataclasses import dataclass

from cm_tools.console import Unusable
from cm_tools.curing import nearest
from cm_tools.instances import Instance, RouteNote
from cm_tools.surveying import kind_of
from cm_tools.world import World

MERMAID_ESCAPES = {"#": "#35;", '"': "#quot;", "<": "#lt;", ">": "#gt;", "&": "#amp;"}
# Fill and border of each state, readable on white with black text.
COLOURS: dict[str, tuple[str, str]] = {
    "discovered": ("#f4f4f5", "#a1a1aa"),
    "resolving": ("#e0f2fe", "#0284c7"),
    "resolved": ("#e0f2fe", "#0284c7"),
    "starting": ("#dcfce7", "#16a34a"),
    "started": ("#dcfce7", "#16a34a"),
    "stopping": ("#fef3c7", "#d97706"),
    "stopped": ("#fef3c7", "#d97706"),
    "closing": ("#ede9fe", "#7c3aed"),
    "shut": ("#ede9fe", "#7c3aed"),
    "doomed": ("#fee2e2", "#dc2626"),
    "destroyed": ("#fee2e2", "#dc2626"),
}


@dataclass(frozen=True, slots=True)
class Graph:
    """What a graph shows: instances, and routes as they were last told."""

    instances: list[Instance]
    notes: list[RouteNote]


def graph_of(world: World, only: str | None, capability: str | None) -> Graph:
    """All of a realm, or what one instance and those above it have to do with, or one capability's routes."""
    notes = list(world.routes.values())
    if capability is not None:
        names = _Names(world)
        notes = [note for note in notes if capability in names.of(note)]
        if not notes:
            known = set().union(*map(names.of, world.routes.values()))
            raise Unusable(f"no route of {capability} was asked for{_meant(capability, known)}")
    if only is not None:
        moniker = only.lstrip("/") or "."
        chosen = {one.incarnation for one in world.instances.values() if one.moniker == moniker}
        if not chosen:
            known = {one.moniker for one in world.instances.values()}
            raise Unusable(f"no instance is named {only}{_meant(moniker, known)}")
        notes = [note for note in notes if chosen & _ends(note)]
    if only is None and capability is None:
        return Graph(list(world.instances.values()), notes)
    shown = set().union(*map(_ends, notes)) if notes else set()
    if only is not None:
        shown |= chosen
    shown = {above for one in shown if one in world.instances for above in _above(world, one)}
    return Graph([one for one in world.instances.values() if one.incarnation in shown], notes)


def dot_text(graph: Graph) -> str:
    """The graph for Graphviz: a box for each instance, and over the tree the routes, each with a label of its
    own between its ends, so that none lies on another. Refused ones are dashed.
    """
    lines = [
        "digraph realm {",
        "  rankdir=LR; nodesep=0.25; ranksep=0.6;",
        '  node [shape=box, style="rounded,filled", fontname="sans-serif", fontsize=11];',
        '  edge [color="#71717a", fontname="sans-serif", fontsize=9];',
    ]
    for one in graph.instances:
        fill, border = COLOURS[one.state]
        label = f"{_dot(one.name)}\\n{one.state}"
        lines.append(f'  i{one.incarnation} [label="{label}", fillcolor="{fill}", color="{border}"];')
    lines.extend(f"  i{parent} -> i{child};" for parent, child in _tree(graph))
    lines.extend(f'  {name} [label="{name}", shape=ellipse];' for name in _outsiders(graph))
    for (client, end, is_refused), paths in _bundles(graph).items():
        lines += _dot_route(len(lines), f"i{client}", end, is_refused, paths)
    lines.append("}")
    return "\n".join(lines) + "\n"


def mermaid_text(graph: Graph) -> str:
    """The graph for Mermaid."""
    lines = ["flowchart LR"]
    for one in graph.instances:
        label = f"{_mermaid(one.name)}<br/>{one.state}"
        lines.append(f'  i{one.incarnation}["{label}"]:::{one.state}')
    lines.extend(f"  i{parent} --- i{child}" for parent, child in _tree(graph))
    lines.extend(f'  {name}(["{name}"])' for name in _outsiders(graph))
    for number, ((client, end, is_refused), paths) in enumerate(_bundles(graph).items()):
        told = "<br/>".join(map(_mermaid, paths))
        if is_refused:
            lines.append(f'  r{number}(["✗ {_mermaid(end)}"]):::refused')
            lines.append(f'  i{client} -.->|"{told}"| r{number}')
        else:
            lines.append(f'  i{client} ==>|"{told}"| {end}')
    for state in dict.fromkeys(one.state for one in graph.instances):
        fill, border = COLOURS[state]
        lines.append(f"  classDef {state} fill:{fill},stroke:{border},color:#18181b")
    if any(is_refused for _, _, is_refused in _bundles(graph)):
        lines.append("  classDef refused fill:#fee2e2,stroke:#dc2626,color:#18181b")
    return "\n".join(lines) + "\n"


def _tree(graph: Graph) -> list[tuple[int, int]]:
    """Each instance with each of its children, where both are shown."""
    shown = {one.incarnation for one in graph.instances}
    return [(one.incarnation, child) for one in graph.instances for child in one.children if child in shown]


def _dot_route(number: int, client: str, end: str, is_refused: bool, paths: list[str]) -> list[str]:
    """A bundle of routes: its label as a node of its own, and where it is refused the reason as another."""
    colour = "#dc2626" if is_refused else "#2563eb"
    look = f'color="{colour}"' + (", style=dashed" if is_refused else "")
    told = "\\n".join(map(_dot, paths))
    lines = [f'  r{number} [label="{told}", shape=plaintext, style="", fontsize=9, fontcolor="{colour}"];']
    if is_refused:
        lines.append(f'  e{number} [label="✗ {_dot(end)}", shape=ellipse, style="", color="{colour}"];')
        end = f"e{number}"
    return [*lines, f"  {client} -> r{number} [{look}, arrowhead=none];", f"  r{number} -> {end} [{look}];"]


def _bundles(graph: Graph) -> dict[tuple[int, str, bool], list[str]]:
    """The paths of the routes between two ends, and of those that fail for one reason."""
    found: dict[tuple[int, str, bool], list[str]] = {}
    for note in graph.notes:
        end = _end(note) if note.route is not None else _reason(note)
        found.setdefault((note.client, end, note.route is None), []).append(note.asked)
    return found


def _end(note: RouteNote) -> str:
    """The node that a route leads to."""
    route = note.route
    if route is None:
        return ""
    return f"i{route.incarnation}" if route.source == "instance" else route.source


def _reason(note: RouteNote) -> str:
    """Why a route leads nowhere."""
    hop = f" at {note.hop.step} {note.hop.moniker}" if note.hop else ""
    return f"{note.why or note.outcome}{hop}"


def _ends(note: RouteNote) -> set[int]:
    """The instances at the ends of a route."""
    provider = note.route.incarnation if note.route is not None else None
    return {note.client} if provider is None else {note.client, provider}


class _Names:
    """The names by which a route's capability is known: at its ends, as it is exposed, and as its client's
    manifest has it.
    """

    def __init__(self, world: World) -> None:
        self._world = world
        self._used: dict[int, dict[str, str]] = {}

    def of(self, note: RouteNote) -> set[str]:
        """The paths, the last parts of them, and the name of the use."""
        paths = {note.asked.removeprefix("exposed "), note.route.path if note.route else ""}
        ends = {path.rpartition("/")[2] for path in paths}
        return (paths | ends | {self._uses(note.client).get(note.asked, "")}) - {""}

    def _uses(self, incarnation: int) -> dict[str, str]:
        """The names of what an instance uses, by the paths."""
        if incarnation not in self._used:
            client = self._world.instances.get(incarnation)
            rows = client.declared().get("use", []) if client else []
            self._used[incarnation] = {row.get("path", ""): row.get(kind_of(row), "") for row in rows}
        return self._used[incarnation]


def _meant(word: str, known: set[str]) -> str:
    """What was probably meant."""
    told = nearest(word, known)
    return f"; {told[0].lower()}{told[1:]}" if told else ""


def _above(world: World, incarnation: int) -> list[int]:
    """An instance and all above it."""
    found, one = [incarnation], world.instances[incarnation]
    while one.parent is not None:
        found.append(one.parent)
        one = world.instances[one.parent]
    return found


def _outsiders(graph: Graph) -> list[str]:
    """What provides and is no instance: `builtin` and `framework`, where a route leads there."""
    providers = {_end(note) for note in graph.notes}
    return [name for name in ("builtin", "framework") if name in providers]


def _dot(text: str) -> str:
    return text.replace("\\", "\\\\").replace('"', '\\"')


def _mermaid(text: str) -> str:
    return "".join(MERMAID_ESCAPES.get(one, one) for one in text)
