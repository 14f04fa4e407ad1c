"""The words for rights of directories, as manifests write them and as routes tell them."""

from __future__ import annotations

READ = frozenset({"connect", "enumerate", "traverse", "read_bytes", "get_attributes"})
WRITE = frozenset({
    "connect", "enumerate", "traverse", "write_bytes", "modify_directory", "update_attributes",
})
EXECUTE = frozenset({"connect", "enumerate", "traverse", "execute"})
SHORT = {
    "r*": READ, "w*": WRITE, "x*": EXECUTE, "rw*": READ | WRITE, "rx*": READ | EXECUTE,
}
ALL = READ | WRITE | EXECUTE
# What somebody does who may do it: one of these rights is enough.
DEEDS = {
    "read": frozenset({"read_bytes"}),
    "write": frozenset({"write_bytes", "modify_directory", "update_attributes"}),
    "execute": frozenset({"execute"}),
}


def rights_of(text: str) -> frozenset[str]:
    """The rights of a list of words joined by commas."""
    return frozenset().union(*(SHORT.get(word, {word}) for word in text.split(",") if word))


def short_rights(rights: frozenset[str]) -> str:
    """The rights by a short word where they are those of one, else all of them by their names."""
    return next((word for word, meant in SHORT.items() if meant == rights), ",".join(sorted(rights)))


def deed_rights(word: str) -> frozenset[str] | None:
    """The rights of which one lets somebody do what the word says; None for a word that is none."""
    if word in DEEDS:
        return DEEDS[word]
    meant = rights_of(word)
    return meant if meant and meant <= ALL else None
