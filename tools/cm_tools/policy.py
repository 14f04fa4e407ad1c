"""Rules on a realm, a line each, and whether they are kept.

    nobody reaches NAME                            the capability of that name
    nobody but MONIKERS reaches NAME
    only MONIKERS reaches NAME
    nobody may DEED PLACE                          a directory, by its path at the provider or its name
    nobody but MONIKERS may DEED PLACE
    only MONIKERS may DEED PLACE

MONIKERS are joined by commas; in one, `*` stands for any part of one name, and `**` for any names. DEED is
`read`, `write`, `execute` or a word for rights. Lines that begin with `#` are skipped.
"""

from __future__ import annotations

import re
from dataclasses import dataclass

from cm_tools.asking import hops_words, names_of, open_to, unknown_name, unknown_place, who_can
from cm_tools.console import Unusable
from cm_tools.rights import deed_rights
from cm_tools.surveying import Use
from cm_tools.verdict import Verdict, use_line

RULE = re.compile(
    r"(?:nobody(?: but (?P<but>\S.*?))?|only (?P<only>\S.*?))"
    r" (?:reach(?:es)? (?P<name>\S+)|may (?P<deed>\S+) (?P<place>\S+))"
)


@dataclass(frozen=True, slots=True)
class Rule:
    """A rule: its text, who may, and either the name that is reached, or the deed and its place."""

    text: str
    allowed: tuple[re.Pattern[str], ...]
    name: str
    deed: str
    place: str

    def allows(self, moniker: str) -> bool:
        """Whether the instance may."""
        return any(pattern.fullmatch(moniker) for pattern in self.allowed)


def read_rules(label: str, text: str) -> list[Rule]:
    """The rules of a text; `Unusable` says which line is none."""
    found = []
    for number, line in enumerate(text.split("\n"), 1):
        words = " ".join(line.split())
        if words and not words.startswith("#"):
            found.append(_rule(f"{label}:{number}", words))
    if not found:
        raise Unusable(f"{label} has no rule")
    return found


def policy_text(verdict: Verdict, rules: list[Rule]) -> tuple[str, bool]:
    """Each rule, kept or broken with the routes that break it, and whether all are kept."""
    lines, are_kept = [], True
    for rule in rules:
        breaking = _breaking(verdict, rule)
        are_kept = are_kept and not breaking
        lines.append(f"{'broken' if breaking else 'kept'}: {rule.text}")
        lines += [f"  {use_line(use)} through {hops_words(verdict, use)}" for use in breaking]
        lines += [f"  open: {told}" for told in _open(verdict, rule)]
        lines += unknown_place(verdict, rule.place) if rule.deed else unknown_name(verdict, rule.name)
    return "\n".join(lines) + "\n", are_kept


def _rule(place: str, words: str) -> Rule:
    match = RULE.fullmatch(words.rstrip("."))
    if match is None:
        raise Unusable(f"{place}: no rule: {words} (as 'nobody but core/* reaches NAME' or"
                       " 'only core/* may write PATH')")
    deed = match["deed"] or ""
    if deed and deed_rights(deed) is None:
        raise Unusable(f"{place}: {deed} is neither read, write or execute nor a word for rights")
    told = match["but"] or match["only"] or ""
    allowed = tuple(_pattern(one.strip()) for one in told.split(",") if one.strip())
    return Rule(words, allowed, match["name"] or "", deed, match["place"] or "")


def _pattern(text: str) -> re.Pattern[str]:
    """The monikers that a text with stars means."""
    parts = re.split(r"(\*\*|\*)", text)
    meant = {"**": ".*", "*": "[^/]*"}
    return re.compile("".join(meant.get(part, re.escape(part)) for part in parts))


def _breaking(verdict: Verdict, rule: Rule) -> list[Use]:
    """The uses that the rule doesn't allow."""
    if rule.deed:
        found = who_can(verdict, rule.deed, rule.place)
    else:
        found = [
            use for use in verdict.realm.uses if use.is_given and rule.name in names_of(verdict, use)
        ]
    return [use for use in found if not rule.allows(use.client)]


def _open(verdict: Verdict, rule: Rule) -> list[str]:
    """The offers to children that aren't known, by which one of them would reach it."""
    told = open_to(verdict, rule.name or rule.place, rule.deed)
    return [f"{line}, which isn't known" for line, child in told if not rule.allows(child)]
