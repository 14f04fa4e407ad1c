"""What a change of manifests makes of the routes of a realm."""

from __future__ import annotations

from cm_tools.rights import rights_of, short_rights
from cm_tools.surveying import Realm, Use
from cm_tools.verdict import Verdict, fails, leads_to, need, row_line, use_line
from cm_tools.wiring import row_at

Key = tuple[str, str]


def difference_text(old: Verdict, new: Verdict) -> str:
    """What is added (+), taken away (-) or changed (~): manifests that can't be had, instances, routes, what
    is offered to children that aren't known or exposed at the root; and new uses that lead nowhere (✗).
    """
    before, after = _routes(old.realm), _routes(new.realm)
    lines = _appeared(_broken(old), _broken(new))
    lines += _appeared(_instances(old.realm), _instances(new.realm))
    lines += [f"+ {use_line(use)}" for key, use in after.items() if key not in before]
    lines += [f"- {use_line(use)}, {_now(new, key)}" for key, use in before.items() if key not in after]
    for key, use in after.items():
        if key in before:
            lines += [f"~ {use.client} {use.path} {told}" for told in _changes(before[key], use)]
    lines += _failing(old.realm, new.realm)
    lines += _appeared(_open(old), _open(new))
    return "\n".join(lines or ["no route is another one"]) + "\n"


def _appeared(old: list[str], new: list[str]) -> list[str]:
    """What is new, and what isn't there any more."""
    had, has = set(old), set(new)
    return [f"+ {line}" for line in new if line not in had] + [f"- {line}" for line in old if line not in has]


def _instances(realm: Realm) -> list[str]:
    return [f"instance {moniker}" for moniker in realm.parts]


def _broken(verdict: Verdict) -> list[str]:
    """The manifests that can't be had."""
    return [f"no manifest of {one.part.moniker}: {one.why}" for one in verdict.broken]


def _routes(realm: Realm) -> dict[Key, Use]:
    """The uses that lead somewhere."""
    return {(use.client, use.path): use for use in realm.uses if use.is_given}


def _now(new: Verdict, key: Key) -> str:
    """Why a use has no route any more."""
    use = next((use for use in new.realm.uses if (use.client, use.path) == key), None)
    if use is not None:
        return f"now {use.why}"
    part = new.realm.parts.get(key[0])
    if part is None:
        return f"as {key[0]} isn't there any more"
    return f"as {key[0]} has no manifest" if part.failure else "which isn't used any more"


def _changes(old: Use, new: Use) -> list[str]:
    """How a route is another one than before."""
    found = []
    before, after = _place(old), _place(new)
    if before != after:
        found.append(f"leads to {after}, was {before}")
    had, has = _rights(old), _rights(new)
    if had != has:
        word = "widened" if has > had else "narrowed" if has < had else "changed"
        found.append(f"{word} to {short_rights(has)}, was {short_rights(had)}")
    if need(old) != need(new):
        found.append(f"is {need(new)}, was {need(old)}")
    if old.route and new.route and old.route.hops != new.route.hops and before == after:
        found.append("goes by another way")
    return found


def _place(use: Use) -> str:
    """Who provides it, and where."""
    return f"{use.route.moniker or use.route.source} {use.route.path}" if use.route else leads_to(use)


def _rights(use: Use) -> frozenset[str]:
    return rights_of(use.route.rights) if use.route else frozenset()


def _failing(old: Realm, new: Realm) -> list[str]:
    """The uses that lead nowhere and that weren't there, or could be done without."""
    known = {(use.client, use.path): use for use in old.uses}
    found = []
    for use in new.uses:
        before = known.get((use.client, use.path))
        is_new = before is None or (not before.is_given and fails(use) and not fails(before))
        if is_new and not use.is_given and not use.is_void:
            found.append(f"✗ {use_line(use)} ({need(use)})")
    return found


def _open(verdict: Verdict) -> list[str]:
    """What is offered to children that aren't known, and what the root exposes."""
    wiring = verdict.wiring
    told = [("offer", chain[0], ", which isn't known") for chain in wiring.open]
    told += [("expose", chain[0], "") for chain in wiring.outward]
    return [f"{row_line(stop.moniker, step, row_at(stop) or {})}{more}" for step, stop, more in told]
