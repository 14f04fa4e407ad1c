"""The command line of `realm`."""

from __future__ import annotations

from cm_tools.auditing import require_legal
from cm_tools.console import Unusable, Words, read_bytes, write_text
from cm_tools.entries import Journal
from cm_tools.graph_views import dot_text, graph_of, mermaid_text
from cm_tools.html_view import html_text
from cm_tools.journal import parse_journal
from cm_tools.json_view import json_text
from cm_tools.text_views import routes_text, timeline_text, tree_text
from cm_tools.world import World, replay

VIEWS = {
    "tree": ("the tree of instances with their states (the default)", tree_text),
    "timeline": ("the entries in order, with a column for each caller", timeline_text),
    "routes": ("the routes, with their hops indented", lambda _, world: routes_text(world)),
    "json": ("everything as JSON", json_text),
    "dot": ("a graph for Graphviz", None),
    "mermaid": ("a graph for Mermaid", None),
    "html": ("one page to look at in a browser, which needs no network", html_text),
}


GRAPHS = {"dot": dot_text, "mermaid": mermaid_text}


def main(words: list[str]) -> int:
    """Reads the journal, replays it, and writes the view that was asked for."""
    options = _parser().parse_args(words)
    data = read_bytes(options.file)
    journal = parse_journal(data, options.partial)
    if not options.partial:
        require_legal(data)
    world = replay(journal, options.at)
    if options.at is None and not options.partial:
        _require_whole(journal, world)
    name = options.view or "tree"
    if name in GRAPHS:
        text = GRAPHS[name](graph_of(world, options.only, options.capability))
    elif options.only is not None or options.capability is not None:
        raise Unusable("--only and --capability are for --dot and --mermaid")
    else:
        text = VIEWS[name][1](journal, world)
    write_text(options.output, text)
    return 0


def _parser() -> Words:
    parser = Words(
        prog="realm",
        description="Shows the realm that a journal leaves: what `component_manager run --journal`"
        " prints, from a file or the standard input.",
    )
    parser.add_argument("file", nargs="?", default="-", help="the journal; `-` is standard input")
    views = parser.add_mutually_exclusive_group()
    for name, (told, _) in VIEWS.items():
        views.add_argument(f"--{name}", dest="view", action="store_const", const=name, help=told)
    parser.add_argument("--only", metavar="MONIKER",
                        help="in a graph: this instance, what is above it, and its routes")
    parser.add_argument("--capability", metavar="NAME", help="in a graph: the routes of this capability")
    parser.add_argument("--at", type=int, metavar="N", help="the state after entry N, 0 for the start")
    parser.add_argument("--partial", action="store_true", help="read a journal that is cut, too")
    parser.add_argument("-o", "--output", metavar="FILE", help="write to a file")
    return parser


def _require_whole(journal: Journal, world: World) -> None:
    """Refuses a journal of which lines are lost, as far as it shows that: a run that answered something
    has entries, and ends every action that it begins.
    """
    if journal.replies and not journal.entries:
        raise Unusable("the journal is cut after its root line (--partial reads it all the same)")
    left = world.pending()
    if left:
        numbers = ", ".join(str(action.number) for action in left[:5])
        raise Unusable(
            f"the journal is cut after entry {len(journal.entries)}: no end of action {numbers}"
            " (--partial reads it all the same)"
        )
