"""The verdict for other programs: as JSON, and as SARIF for editors and reviews."""

from __future__ import annotations

import json
from typing import Any

from cm_tools.places import Place, place_of_row
from cm_tools.surveying import Use
from cm_tools.verdict import Broken, Verdict, fails, mark, need, row_line, use_line

MARKS = {"✓": "given", "✗": "refused", "void": "void"}
SARIF_SCHEMA = "https://json.schemastore.org/sarif-2.1.0.json"
RULES = {
    "use-refused": "A use leads nowhere.",
    "manifest-refused": "The manifest of an instance can't be had or isn't valid.",
    "row-unused": "No use passes an offer or an expose.",
}


def json_verdict(verdict: Verdict) -> str:
    """Everything as one JSON object."""
    realm = verdict.realm
    told = {
        "folder": str(realm.folder), "root": realm.root, "whole": verdict.is_whole,
        "instances": [
            {"moniker": part.moniker, "url": part.url, "failure": part.failure}
            for part in realm.parts.values()
        ],
        "uses": [_use(verdict, use) for use in realm.uses],
        "broken": [_broken(one) for one in verdict.broken],
        "unused": [{"moniker": it, "section": section, "row": row} for it, section, row in verdict.unused],
        "unreached": [str(path) for path in verdict.unreached],
    }
    return json.dumps(told, indent=1, ensure_ascii=False) + "\n"


def sarif_verdict(verdict: Verdict) -> str:
    """What is wrong, as results with their places."""
    realm = verdict.realm
    results = [
        _result("use-refused", "error" if fails(use) else "note", use_line(use),
                place_of_row(realm, use.client, "use", use.row))
        for use in realm.uses if not use.is_given and not use.is_void
    ]
    results += [_broken_result(verdict, one) for one in verdict.broken]
    results += [
        _result("row-unused", "note", f"nobody uses it: {row_line(moniker, section, row)}",
                place_of_row(realm, moniker, section, row))
        for moniker, section, row in verdict.unused
    ]
    rules = [{"id": name, "shortDescription": {"text": text}} for name, text in RULES.items()]
    driver = {"name": "component_manager doctor", "rules": rules}
    runs = [{"tool": {"driver": driver}, "results": results}]
    told = {"$schema": SARIF_SCHEMA, "version": "2.1.0", "runs": runs}
    return json.dumps(told, indent=1, ensure_ascii=False) + "\n"


def _use(verdict: Verdict, use: Use) -> dict[str, Any]:
    told: dict[str, Any] = {
        "client": use.client, "path": use.path, "kind": use.kind, "name": use.name,
        "availability": need(use), "outcome": MARKS[mark(use)],
    }
    if use.registered is not None:
        owner, origin, name = use.registered
        return {**told, "environment_of": owner, "from": origin, "registered_as": name}
    if use.route is None:
        return {**told, "number": use.number, "why": use.why, "hop": f"{use.step} {use.moniker}".strip()}
    hops = [f"{link.step} {link.moniker}" for link in verdict.wiring.links_of(use)]
    rights = use.route.rights.split(",") if use.route.rights else []
    source = {"source": use.route.source, "provider": use.route.moniker, "at": use.route.path}
    return {**told, **source, "rights": rights, "hops": hops}


def _broken(broken: Broken) -> dict[str, Any]:
    return {
        "moniker": broken.part.moniker, "url": broken.part.url, "why": broken.why,
        "position": broken.position, "cycle": list(broken.cycle),
    }


def _broken_result(verdict: Verdict, broken: Broken) -> dict[str, Any]:
    numbers = [int(word) for word in broken.position.split(":")[-2:] if word.isdecimal()]
    line, column = numbers if len(numbers) == 2 else (1, 1)
    place = (verdict.realm.file(broken.part.url), line, column)
    return _result("manifest-refused", "error", f"{broken.part.moniker}: {broken.why}", place)


def _result(rule: str, level: str, text: str, place: Place | None) -> dict[str, Any]:
    told: dict[str, Any] = {"ruleId": rule, "level": level, "message": {"text": text}}
    if place is not None:
        path, line, column = place
        region = {"startLine": line, "startColumn": column}
        where = {"artifactLocation": {"uri": path.as_posix()}, "region": region}
        told["locations"] = [{"physicalLocation": where}]
    return told
