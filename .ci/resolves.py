#!/usr/bin/env python3
"""Looks at whether each import of definitions and lemmas leads somewhere.

    .ci/resolves.py

Of each `use Rattle.CRATE...` of a crate of this repository the module has to be a file, a type or a function,
and each name that it takes a definition, a constructor, a field, a variant or a constant there. A name behind
a module's alias has to stand in that module, and a lemma that a source names (`crate::proofs::..`) in its
file. A file of lemmas that another crate takes from has to be `pub mod` there, in each folder. It proves
nothing, and takes seconds, so it tells what a renaming or a moved definition forgot before a proof begins.
What leads nowhere is printed, with status 1.
"""

import pathlib
import re
import sys

import house

TOP = pathlib.Path(__file__).resolve().parent.parent
# The modules that the prover makes of a function, a type or a loop.
MADE = {"Goals", "Given", "TheVariants", "TheConstants", "TheInside", "TheOwn", "Inside", "TheSendSync",
        "TheLaws", "TheKnot", "TheImpl", "TheOpen", "the_lemmas"}


def names_of(path):
    """All that a file of .antt defines: definitions, and what is indented with a type, as fields are."""
    text = path.read_text(encoding="utf-8")
    found = {it.name for it in house.definitions_in(text, "", "")}
    found |= set(re.findall(r"^\s+(?:pub )?([^\s:(){}]+)(?: [^\n]*?)? : ", text, re.M))
    found |= set(re.findall(r"^\s+(?:pub )?([^\s:(){}|]+)(?: \([^\n]*)?$", text, re.M))
    for _, names, _, _, _ in house.imports_in("\n".join(re.findall(r"(?m)^\s*pub (use [^\n]*)", text))):
        found |= set(names)
    return found


class Places:
    """Where names may lead: the modules of definitions and lemmas, and the words of the sources."""

    def __init__(self):
        self.crates = house.crates_of(TOP)
        self.modules, self.texts = {}, {}
        for part in ("specs", "proofs"):
            for crate, path, module in house.antt_files(TOP, part):
                self.modules[crate, module] = names_of(path)
                self.texts[crate, module] = path.read_text(encoding="utf-8")
        self.words = {crate: words_of(TOP / "crates" / crate / "src") for crate in self.crates}

    def is_made(self, crate, name):
        """Whether a name is of the sources, or of a type and a trait behind it, or the prover's own.

        A variant of a type that reaches itself through a pointer is the prover's with a prime behind it. Of
        a type T that holds values of itself it makes `fold-T`, and `T-F` for one level.
        """
        words = self.words[crate]
        name = name.removesuffix("'").removeprefix("fold-").removesuffix("-F")
        pairs = (name[:n] in words and name[n:] in words for n in range(1, len(name)))
        return name in words or name in MADE or name in ("declared", "contracts", "laws") or any(pairs)

    def lost(self, parts, names):
        """The names of an import that lead nowhere. What a goal is called isn't looked at."""
        crate = parts[1]
        ends = (n for n in range(len(parts), 2, -1) if (crate, ".".join(parts[2:n])) in self.modules)
        end = next(ends, None)
        if end is None or parts[3:4] == ["declared"]:
            is_goal = parts[2] == "proofs" and not MADE.isdisjoint(parts)
            return [it for it in [*parts[3:], *([] if is_goal else names)] if not self.is_made(crate, it)]
        have = self.modules[crate, ".".join(parts[2:end])]
        return [it for it in [*parts[end:], *names] if it not in have]

    def kept_inside(self, crate, parts):
        """The part of a path into another crate's lemmas that isn't public there."""
        if parts[1] == crate or parts[2] != "proofs" or (parts[1], ".".join(parts[2:])) not in self.modules:
            return []
        folder = TOP / "crates" / parts[1] / "proofs"
        node = folder / "Lib.antt"
        for part in parts[3:]:
            if f"pub mod {part}" not in node.read_text(encoding="utf-8").split("\n"):
                return [part]
            node, folder = folder / f"{part}.antt", folder / part
        return []

    def lost_in_source(self, crate, text):
        """The lemmas that a source names for the search and that don't stand in their file."""
        said = re.findall(r"\bcrate::proofs::([\w:]+)::([\w\-]+)", text)
        places = [((crate, f"proofs.{path.replace('::', '.')}"), it) for path, it in said]
        return [it for place, it in places if it not in self.modules.get(place, ())
                and f"ruleset {it} " not in self.texts.get(place, "")]

    def lost_by_alias(self, text, parts, alias):
        """The names behind a module's alias that don't stand in the module."""
        there = self.texts.get((parts[1], ".".join(parts[2:])))
        if there is None:
            return []
        said = re.findall(rf"(?<![\w.]){re.escape(alias)}\.([^\W\d]\w*'*)", text)
        return [it for it in sorted(set(said)) if not re.search(rf"(?<!\w){re.escape(it)}(?!\w)", there)]


def words_of(folder):
    """The names of a crate's sources, and those of its files."""
    found = set()
    for path in folder.rglob("*.rt"):
        text = house.without_comments(path.read_text(encoding="utf-8"), False)
        found |= {path.stem, *house.NAME.findall(text)}
    return found


def main():
    places = Places()
    lost, inside, looked = [], [], 0
    for path in sorted((TOP / "crates").rglob("*")):
        if path.suffix not in (".rt", ".antt") or "out" in path.relative_to(TOP).parts:
            continue
        text = path.read_text(encoding="utf-8")
        bare = house.without_comments(text, path.suffix == ".antt")
        crate = path.relative_to(TOP).parts[1]
        lost += [f"{path.relative_to(TOP)}: nothing is called {it}"
                 for it in places.lost_in_source(crate, bare)]
        for there, names, alias, _, _ in house.imports_in(text):
            parts = there.split(".")
            if parts[0] != "Rattle" or len(parts) < 3 or parts[1] not in places.crates:
                continue
            looked += 1
            missing = places.lost(parts, list(names.values()))
            inside += [f"{path.relative_to(TOP)}: {there}: {it} isn't public"
                       for it in places.kept_inside(path.relative_to(TOP).parts[1], parts)]
            if not names:
                missing += places.lost_by_alias(bare, parts, alias or parts[-1])
            lost += [f"{path.relative_to(TOP)}: {there}: nothing is called {it}" for it in missing]
    for it in lost + inside:
        print(f"resolves: {it}")
    print(f"resolves: {looked} imports, {len(lost) + len(inside)} names that lead nowhere")
    sys.exit(1 if lost or inside else 0)


if __name__ == "__main__":
    main()
