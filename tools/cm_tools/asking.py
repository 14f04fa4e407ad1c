"""Questions on a realm: who provides, carries and reaches a capability, who may do what, who needs whom."""

from __future__ import annotations

from difflib import get_close_matches

from cm_tools.console import Unusable
from cm_tools.rights import deed_rights, rights_of
from cm_tools.surveying import Realm, Use, kind_of
from cm_tools.verdict import Verdict, need, row_line, use_line
from cm_tools.hops import Stop
from cm_tools.wiring import row_at

SECTIONS = ("offer", "expose")


def capability_text(verdict: Verdict, name: str) -> str:
    """Who provides a capability, every hop that carries it, and who can reach it and who can't."""
    asking = [use for use in verdict.realm.uses if name in names_of(verdict, use)]
    provided, carried = _providers(verdict, name), _carriers(verdict, name)
    if not asking and not provided and not carried:
        raise Unusable(unknown_name(verdict, name)[0].strip())
    parts = [
        ("provided by", provided),
        ("carried by", carried),
        ("reached by", [use_line(use) for use in asking if use.is_given]),
        ("not reached by", [use_line(use) for use in asking if not use.is_given]),
    ]
    return "".join(_listed(title, lines) for title, lines in parts)


def who_can_text(verdict: Verdict, deed: str, place: str) -> str:
    """Who may do what with a directory: by its path at the provider where that begins with `/`, else by its
    name.
    """
    found = who_can(verdict, deed, place)
    for line in [] if found else unknown_place(verdict, place):
        raise Unusable(line.strip())
    told = _listed(f"{deed} {place}", [use_line(use) for use in found])
    lines = [line for line, _ in open_to(verdict, place, deed)]
    return told + (_listed("children that aren't known may be offered it", lines) if lines else "")


def who_can(verdict: Verdict, deed: str, place: str) -> list[Use]:
    """The uses by which somebody may do that."""
    rights = deed_rights(deed)
    if rights is None:
        raise Unusable(f"{deed} is neither read, write or execute nor a word for rights")
    return [
        use for use in verdict.realm.uses
        if use.route is not None and rights & rights_of(use.route.rights) and _is_at(verdict, use, place)
    ]


def open_to(verdict: Verdict, wanted: str, deed: str = "") -> list[tuple[str, str]]:
    """The offers to children that aren't known of a capability of that name, or of a directory at that place
    by which one could do the deed; each with the moniker of such a child.
    """
    rights = deed_rights(deed) if deed else None
    found = []
    for chain in verdict.wiring.open:
        first, rows = chain[0], [row_at(stop) or {} for stop in chain]
        stated = [rights_of(",".join(row["rights"])) for row in rows if row.get("rights")]
        path = str(rows[-1].get("path", ""))
        is_it = wanted in {stop.name for stop in chain} or (wanted.startswith("/") and _touches(path, wanted))
        if is_it and (rights is None or (stated and all(rights & one for one in stated))):
            target = str(rows[0].get("to", ""))[1:]
            child = target if first.moniker == "." else f"{first.moniker}/{target}"
            child += "" if child in verdict.realm.parts else ":x"
            found.append((row_line(first.moniker, "offer", rows[0]), child))
    return found


def between_text(verdict: Verdict, client: str, source: str) -> str:
    """Each route by which an instance, or one below it, reaches another, or one below that, hop by hop."""
    for moniker in (client, source):
        require_instance(verdict.realm, moniker)
    found = [
        use for use in verdict.realm.uses
        if is_below(use.client, client) and is_below(verdict.wiring.provider_of(use), source)
    ]
    lines = [f"{use_line(use)} through {hops_words(verdict, use)}" for use in found]
    return _listed(f"{client} reaches {source} by", lines)


def reverse_text(verdict: Verdict, moniker: str) -> str:
    """Who uses something of an instance or of one below it, and what breaks, step by step, when it stops."""
    require_instance(verdict.realm, moniker)
    direct = [use for use in verdict.realm.uses if _depends(verdict, use, {moniker})]
    broken, lines = {moniker}, []
    while True:
        fresh = [
            use for use in verdict.realm.uses
            if use.is_required and _depends(verdict, use, broken)
            and not any(is_below(use.client, one) for one in broken)
        ]
        if not fresh:
            break
        lines += [use_line(use) for use in fresh]
        broken |= {use.client for use in fresh}
    told = [f"{use_line(use)} ({need(use)}{_weak_words(verdict, use)})" for use in direct]
    return _listed(f"uses of {moniker}", told) + _listed("breaks, since it is required", lines)


def names_of(verdict: Verdict, use: Use) -> set[str]:
    """The names that a use's capability has along its route."""
    return {link.name for link in links_of(verdict, use)}


def links_of(verdict: Verdict, use: Use) -> list[Stop]:
    """The hops of a use, with their rows."""
    return verdict.wiring.links_of(use)


def is_below(moniker: str, top: str) -> bool:
    """Whether it is that instance or stands below it."""
    return moniker == top or (bool(moniker) and top == ".") or moniker.startswith(f"{top}/")


def hops_words(verdict: Verdict, use: Use) -> str:
    """The hops of a use, as the program writes those of a route."""
    return ", ".join(f"{link.step} {link.moniker}" for link in links_of(verdict, use))


def known_names(verdict: Verdict) -> set[str]:
    """All names of capabilities in the realm."""
    found = {use.name for use in verdict.realm.uses}
    for part in verdict.realm.parts.values():
        for section in ("capabilities", *SECTIONS):
            for row in part.declared.get(section, []):
                found |= {str(row.get(kind_of(row), "")), str(row.get("as", ""))}
    return found - {""}


def unknown_name(verdict: Verdict, name: str) -> list[str]:
    """That no capability has a name, with the names that are like it."""
    known = known_names(verdict)
    return [] if name in known else [f"  no capability is named {name}{_nearest(name, known)}"]


def unknown_place(verdict: Verdict, place: str) -> list[str]:
    """That no directory is at a place or has that name, with those that are like it."""
    known = known_names(verdict) | _paths(verdict)
    if place in known or any(_is_at(verdict, use, place) for use in verdict.realm.uses):
        return []
    return [f"  no directory is {place}{_nearest(place, known)}"]


def require_instance(realm: Realm, moniker: str) -> None:
    """Refuses a moniker that no instance has."""
    if moniker not in realm.parts:
        raise Unusable(f"no instance is named {moniker}{_nearest(moniker, set(realm.parts))}")


def _providers(verdict: Verdict, name: str) -> list[str]:
    found = [
        f"{part.moniker} at {row.get('path', '')}"
        for part in verdict.realm.parts.values() for row in part.declared.get("capabilities", [])
        if row.get(kind_of(row)) == name
    ]
    ends = {(links[-1].step, links[-1].moniker) for links in verdict.wiring.links if links[-1].name == name}
    above = [step if step == "builtin" else f"{step} of {moniker}" for step, moniker in sorted(ends)
             if step in ("builtin", "framework")]
    return found + above


def _carriers(verdict: Verdict, name: str) -> list[str]:
    return [
        row_line(part.moniker, section, row)
        for part in verdict.realm.parts.values() for section in SECTIONS
        for row in part.declared.get(section, []) if name in (row.get(kind_of(row)), row.get("as"))
    ]


def _is_at(verdict: Verdict, use: Use, place: str) -> bool:
    """Whether a use's directory is that place, inside it or around it."""
    if not place.startswith("/"):
        return place in names_of(verdict, use)
    return use.route is not None and bool(use.route.rights) and _touches(use.route.path, place)


def _touches(path: str, place: str) -> bool:
    """Whether one of two paths is the other one, inside it or around it."""
    return bool(path) and (path == place or path.startswith(f"{place}/") or place.startswith(f"{path}/"))


def _paths(verdict: Verdict) -> set[str]:
    """The paths of all directories at their providers."""
    return {
        str(row["path"]) for part in verdict.realm.parts.values()
        for row in part.declared.get("capabilities", []) if "directory" in row and "path" in row
    }


def _depends(verdict: Verdict, use: Use, monikers: set[str]) -> bool:
    provider = verdict.wiring.provider_of(use)
    return bool(provider) and any(is_below(provider, one) for one in monikers)


def _weak_words(verdict: Verdict, use: Use) -> str:
    """That a hop is weak, so that the client needn't stop first."""
    rows = [row_at(link) or {} for link in links_of(verdict, use)]
    return ", weak" if any(row.get("dependency") == "weak" for row in rows) else ""


def _nearest(word: str, known: set[str]) -> str:
    found = get_close_matches(word, sorted(known), 3, 0.6)
    return f"; did you mean {' or '.join(found)}?" if found else ""


def _listed(title: str, lines: list[str]) -> str:
    return "\n".join([f"{title} ({len(lines)}):", *(f"  {line}" for line in lines)]) + "\n"
