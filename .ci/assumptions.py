#!/usr/bin/env python3
"""Makes the lists of docs/ASSUMPTIONS.md from the sources, or compares them.

    .ci/assumptions.py            whether the page's lists are those of the sources
    .ci/assumptions.py --write    writes them anew

What counts are the crates that `component_manager` stands on, by crates.txt. The lists are: each `unsafe`;
each file that takes a module of std by which the outside is reached; where threads are begun, and which
crates wait; and the kit's crates, with the files of their statements that definitions and clauses cite. A
list stands between two marks of the page. Besides, no crate may declare a function of C or an axiom, or
write `unsafe` outside of a block: then nothing is made, and the status is 1. What differs is printed, with
status 1.
"""

import pathlib
import re
import sys
import textwrap

from telling import told

TOP = pathlib.Path(__file__).resolve().parent.parent
CRATES = TOP / "crates"
PAGE = TOP / "docs" / "ASSUMPTIONS.md"
MARKED = re.compile(r"(<!-- made: (\w+) -->\n).*?(<!-- end -->)", re.S)
# The modules of std by which a program reaches the outside.
OUTSIDE = ("env", "fs", "io", "net", "os", "process", "rt", "time")
USE = re.compile(r"^use std::(\{[^}]*\}|\w+)", re.M)
MADE = re.compile(r"^impl(?:<.*?>)? (\w+)(?:<.*?>)? for (\w+)", re.M)
# What every type may have, and says nothing of the outside.
COMMON = {"Clone", "Debug", "Display", "Drop", "From", "Model", "Plain"}
CITED = re.compile(r"\bRattle\.([a-z]\w*)\.specs\.(\w+)")


def stands_on():
    """For each crate of crates.txt the libraries that it names."""
    lines = (TOP / "crates.txt").read_text(encoding="utf-8").split("\n")
    halves = (line.partition("#")[0].partition(":") for line in lines)
    return {head.split()[0]: below.split() for head, _, below in halves if head.split()}


def reached(name, below, found):
    """The crates of the repository that this one stands on, with itself, the lowest first."""
    for it in below[name]:
        if it in below and it not in found:
            reached(it, below, found)
    found.append(name)
    return found


def sources(crates):
    """The source files of these crates: their paths below `crates`, each with its text."""
    for crate in crates:
        for path in sorted((CRATES / crate / "src").rglob("*.rt")):
            yield str(path.relative_to(CRATES)), path.read_text(encoding="utf-8")


def definitions(crates):
    """The same of the files of definitions and of proofs."""
    for crate in crates:
        for path in sorted((CRATES / crate).glob("*/**/*.antt")):
            name = str(path.relative_to(CRATES))
            if "/out/" not in name:
                yield name, path.read_text(encoding="utf-8")


def without_comments(text):
    """The lines of a text without what stands in comments."""
    return [line.partition("//")[0] for line in text.split("\n")]


def item(text):
    """An entry of a list, in lines of 110 columns; what stands in code isn't broken."""
    whole = re.sub(r"`[^`]*`", lambda it: it[0].replace(" ", "\0"), text)
    lines = textwrap.wrap(whole, 110, initial_indent="- ", subsequent_indent="  ", break_long_words=False,
                          break_on_hyphens=False)
    return "\n".join(lines).replace("\0", " ")


def in_code(names):
    return ", ".join(f"`{it}`" for it in names)


def unsafe_list(crates):
    """Each `unsafe`, with the function in which it stands and the comment in front of it."""
    found = []
    for name, text in sources(crates):
        comments = [line.strip() for line in text.split("\n")]
        lines = without_comments(text)
        for at, line in enumerate(lines):
            if re.search(r"\bunsafe\b", line):
                functions = re.findall(r"\bfn (\w+)", "\n".join(lines[:at + 1]))
                why = comments[at - 1].lstrip("/ ") if comments[at - 1].startswith("//") else "No word why."
                found.append(item(f"`{name}`, in `{functions[-1]}`: `{line.strip()}`. {why}"))
    return found or ["- None."]


def outside_of(text):
    """The modules of std in a text by which the outside is reached."""
    words = {word for use in USE.findall(text) for word in re.findall(r"\w+", use)}
    return sorted(words & set(OUTSIDE))


def outside_list(crates):
    """Each file that reaches the outside: what it is, by which modules, and what is made there."""
    found = []
    for name, text in sources(crates):
        modules = outside_of(text)
        if modules:
            what = " ".join(re.findall(r"^//! (.*)", text.partition("\n\n")[0], re.M)).partition(". ")[0]
            made = [f"`{who}` as `{trait}`" for trait, who in MADE.findall(text) if trait not in COMMON]
            made = f" It gives {', '.join(dict.fromkeys(made))}." if made else ""
            modules = in_code(f"std::{it}" for it in modules)
            found.append(item(f"`{name}`: {what.rstrip('.')}. By {modules}.{made}"))
    return found


def threads_list(crates):
    """Where threads are begun, what their handles are, and which crates wait."""
    begun = [name for name, text in sources(crates) if re.search(r"\bthread::(?:for_each|scope|spawn)", text)]
    heads = (TOP / "crates.txt").read_text(encoding="utf-8").split("\n")
    waits = [head.split()[0] for head in heads if "may_wait=" in head and head.split()[0] in crates]
    handles = (TOP / "HANDLES").read_text(encoding="utf-8").strip().partition(": ")[2].rstrip(".")
    return [
        item(f"Threads are begun in {in_code(begun)}."),
        item(f"The handles that the program may have: {handles}."),
        item(f"Crates with functions that may wait: {in_code(waits)}."),
    ]


def cited(crates):
    """For each library the modules of its statements that definitions and clauses cite."""
    found = {}
    texts = [text for name, text in definitions(crates) if "/specs/" in name]
    for text in texts + [text for _, text in sources(crates)]:
        for library, module in CITED.findall(text):
            if module != "declared":
                found.setdefault(library, set()).add(module)
    return found


def kit_list(crates, below):
    """The kit's crates that these stand on: who does, and which of their statements are cited."""
    statements = cited(crates)
    found = [item(f"`std`: all crates. Of its statements: {in_code(sorted(statements['std']))}.")]
    kit = sorted({it for crate in crates for it in below[crate]} - set(below))
    for library in kit:
        users = [crate for crate in crates if library in below[crate]]
        modules = in_code(sorted(statements.get(library, ())))
        said = f"Of its statements: {modules}." if modules else "What its functions promise, alone."
        found.append(item(f"`{library}`: {in_code(users)}. {said}"))
    return found


def forbidden(crates):
    """What a crate may not declare: functions of C, axioms, and `unsafe` that is no block."""
    for name, text in sources(crates):
        code = "\n".join(without_comments(text))
        if re.search(r'\bextern\s+"|\bextern\s*\{', code):
            yield f"{name} declares a function of C"
        if re.search(r"\bunsafe\s+(?!\{)", code):
            yield f"{name} has an `unsafe` that is no block"
    for name, text in definitions(crates):
        if re.search(r"^[ \t]*(?:\w+ )*axiom\b", text, re.M):
            yield f"{name} declares an axiom"


def lists():
    """The lists of the page, by their names."""
    below = stands_on()
    crates = reached("component_manager", below, [])
    return {
        "unsafe": unsafe_list(crates),
        "outside": outside_list(crates),
        "threads": threads_list(crates),
        "kit": kit_list(crates, below),
    }


def main(words):
    if words not in ([], ["--write"]):
        print("usage: assumptions.py [--write]", file=sys.stderr)
        return 2
    wrong = list(forbidden(stands_on()))
    made, page = lists(), PAGE.read_text(encoding="utf-8")
    marks = [name for _, name, _ in MARKED.findall(page)]
    wrong += [f"docs/ASSUMPTIONS.md has no list `{name}`" for name in made if marks.count(name) != 1]
    wrong += [f"docs/ASSUMPTIONS.md has a list `{name}` of nothing" for name in marks if name not in made]
    if not wrong:
        anew = MARKED.sub(lambda it: it[1] + "\n".join(made[it[2]]) + "\n" + it[3], page)
        if words:
            PAGE.write_text(anew, encoding="utf-8")
        elif anew != page:
            wrong.append("docs/ASSUMPTIONS.md is old: run .ci/assumptions.py --write")
    entries = sum(len(it) for it in made.values())
    return told("assumptions", wrong, f"ok, {entries} entries are those of the sources")


if __name__ == "__main__":
    sys.exit(main(sys.argv[1:]))
