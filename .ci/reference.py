#!/usr/bin/env python3
"""Compares docs/REFERENCE.md with the sources that it speaks of, and with it the manual page, the completion
of words and the syntax for an editor.

    .ci/reference.py

It prints what is missing or wrong, a line each, and ends with status 1; else one line says what was compared.
"""
import pathlib
import re
import runpy
import sys

from telling import told

TOP = pathlib.Path(__file__).resolve().parent.parent
CRATES = TOP / "crates"
REFERENCE = "docs/REFERENCE.md"
LAST_NUMBER = 109
WIDTH = 110

# An entry of a number, as `- **33** ...` or `- **12 to 19** ...`, up to the next item or paragraph.
ENTRY = re.compile(r"^- \*\*(\d+)(?: to (\d+))?\*\* (.*(?:\n  .*)*)", re.M)
TEXTS = re.compile(r'codes "((?:[^"\\]|\\.)*)"')


def read(path):
    return (TOP / path).read_text(encoding="utf-8")


def specs(crate, *names):
    """The definitions of these modules of a crate."""
    return "\n".join(read(f"crates/{crate}/specs/{name}.antt") for name in names)


def kebab(name):
    """`RepeatedName` and `repeated_name` as `repeated-name`."""
    return re.sub(r"(?<=[a-z0-9])(?=[A-Z])", "-", name).replace("_", "-").lower()


# ---- what the sources say


def printed_numbers():
    """The numbers that stand with their words in a text that some crate prints."""
    found = {}
    for file in sorted(CRATES.glob("*/specs/*.antt")):
        if file.stem in ("Tables", "Examples"):
            continue
        for text in TEXTS.findall(file.read_text(encoding="utf-8")):
            number = re.match(r"(\d+)(?: ([a-z-]+))?", text)
            if number:
                found[int(number[1])] = number[2]
    return found


def numbered_faults():
    """The numbers of a manifest's faults: those of its reader and those of the rules."""
    reader = re.findall(r"abbrev pub (\w+) : ℕ\n\1 = (\d+)", specs("cm_read", "Numbers"))
    rules = re.findall(r"number_of (\w+) = (\d+)", specs("cm_decl", "Rules"))
    cycle = re.findall(r"record { number = (\d+)", specs("cm_decl", "Valid"))
    found = {int(number): kebab(name) for name, number in reader + rules if not name.startswith("max_")}
    found.update((int(number), None) for number in cycle)
    return found


def script_faults():
    """The numbers of a script's faults, with the words that are printed."""
    text = specs("cm_command", "FaultText")
    words = dict(re.findall(r'fault_word (\w+) = codes "([^"]+)"', text))
    return {int(number): words[name] for name, number in re.findall(r"number_of (\w+) = (\d+)", text)}


def numbers():
    """All numbers that the sources name, each with its word where it has one."""
    return {**printed_numbers(), **numbered_faults(), **script_faults()}


def literals(*texts):
    """The words within the literals of definitions, without numbers and marks."""
    found = set()
    for text in texts:
        for literal in TEXTS.findall(text):
            found.update(it for it in re.sub(r"\\.", " ", literal).split() if re.search(r"[a-z]", it))
    return found


def words_and_options():
    """The words behind the program's name, and its options."""
    text = specs("cm_call", "Calls")
    names = re.findall(r'long = Some \(codes "([^"]+)"\)', text)
    # Rules that are made of a name which is their option too.
    for rule in re.findall(r"^(\w+) name\b[^=]*=\s+record [^}]*long = Some name", text, re.M):
        names += re.findall(rf'\b{rule} \(codes "([^"]+)"\)', text)
    options = {f"--{it}" for it in names}
    return options | set(re.findall(r'bytes_eq word \(codes "([^"]+)"\)', text))


def grammar():
    """The words of scripts, commands, groups, origins and rights."""
    names = ("Grammar", "Words", "Scripts")
    return literals(*(specs("cm_command", name) for name in names)) | {"%%", "+"}


def commands():
    """The first words of commands."""
    return set(re.findall(r'CommandWords \(codes "([^"]+)"', specs("cm_command", "Grammar")))


def replies():
    """The words of replies, refusals and the journal."""
    names = ("Answers", "Events", "Journal", "Lists", "Refusals", "Replies", "Routes", "States")
    return literals(*(specs("cm_reply", name) for name in names)) | {"=>"}


def manifest_words():
    """The sections, fields and listed words of manifests."""
    names = ("Items", "Environments", "Words", "Manifest")
    kinds = literals(specs("cm_decl", "Words"))
    return literals(*(specs("cm_read", name) for name in names)) | kinds


def sections():
    """The names of a manifest's sections."""
    names = re.search(r"^section_names =\n((?: .*\n)+)", specs("cm_read", "Manifest"), re.M)
    return literals(names[1])


def error_lines():
    """The lines that the program writes on standard error."""
    sources = [read(f"crates/cm_program/src/{name}.rt") for name in ("ran", "run")]
    return {it for text in sources for it in re.findall(r'b"([^"]+)\\n"', text)}


def statuses():
    return set(re.findall(r"^ +/// - (\d): ", read("crates/cm_program/src/ran.rt"), re.M))


def limits():
    """The limits, as the reference writes them."""
    found = re.findall(r"max_\w+ = (\d+)", specs("cm_read", "Numbers"))
    found += re.findall(r"_limit = (\d+)", specs("cm_command", "Scripts"))
    stock = read("crates/cm_program/src/stock.rt")
    found += [it.replace("_", "") for it in re.findall(r"(?:rows|entries): ([\d_]+),", stock)]
    return {f"{int(it):,}" for it in found}


# ---- what the reference says


def code_of(text):
    """All that stands in code: fenced and indented blocks, and spans."""
    fenced = re.findall(r"^```.*?^```$", text, re.M | re.S)
    plain = re.sub(r"^```.*?^```$", "", text, flags=re.M | re.S)
    return "\n".join([*fenced, *re.findall(r"^    .*", plain, re.M), *re.findall(r"`([^`]+)`", plain)])


def stands_in(word, code):
    """Whether the word stands there on its own. One that ends in `=` or `*` may go on."""
    behind = r"(?![\w-])" if word[-1].isalnum() else ""
    return re.search(rf"(?<![\w-]){re.escape(word)}{behind}", code) is not None


def section(text, title):
    """The lines below a heading of the second level."""
    return re.search(rf"^## {title}\n(.*?)(?=^## |\Z)", text, re.M | re.S)[1]


def entries(text):
    """For each entry of a number: the first, the last and what is said."""
    return [(int(first), int(last or first), said) for first, last, said in ENTRY.findall(text)]


# ---- what is wrong


def missing(what, words, code):
    return [f"{what} `{it}` isn't in {REFERENCE}" for it in sorted(words) if not stands_in(it, code)]


def miscounted(found):
    """Numbers that no entry has, or more than one."""
    times = {}
    for first, last, _ in found:
        for number in range(first, last + 1):
            times[number] = times.get(number, 0) + 1
    wrong = [f"number {n} has no entry" for n in range(1, LAST_NUMBER + 1) if n not in times]
    return wrong + [f"number {n} has {count} entries" for n, count in sorted(times.items()) if count > 1]


def misnamed(found, named):
    """Numbers of the sources whose entry hasn't their word, or says that they don't come yet."""
    said = {first: text for first, last, text in found if first == last}
    wrong = [f"number {n} of the sources has no entry of its own" for n in sorted(named) if n not in said]
    for number, word in sorted(named.items()):
        text = said.get(number, "")
        if word and not stands_in(word, code_of(text)):
            wrong.append(f"the entry of number {number} hasn't its word `{word}`")
        if "Planned." in text:
            wrong.append(f"the entry of number {number} says that it is planned, and the sources have it")
    return wrong


def variants(crate):
    """The names of the variants that the sources of a crate have."""
    texts = [it.read_text(encoding="utf-8") for it in (CRATES / crate / "src").glob("*.rt")]
    return set(re.findall(r"^    ([A-Z]\w+)[,(]", "\n".join(texts), re.M))


def unfounded(found):
    """Names of entries below 30 that no fault of the crates for names, spellings and URLs has."""
    known = variants("cm_names") | variants("cm_text") | variants("cm_repo")
    wrong = []
    for first, _, said in found:
        names = re.findall(r"`([A-Z]\w+)`", said) if first < 30 else []
        wrong += [f"number {first}: no fault is called `{name}`" for name in names if name not in known]
    return wrong


def unadvised(found):
    """Entries without advice."""
    lacking = [it for it in found if "**Do**" not in it[2] and "no number" not in it[2]]
    return [f"number {first} has no advice" for first, _, _ in lacking]


def unlinked(text):
    """Links to headings that aren't there."""
    heads = re.findall(r"^#+ (.*)$", text, re.M)
    known = {re.sub(r"[^\w -]", "", it).lower().replace(" ", "-") for it in heads}
    return [f"no heading for the link #{it}" for it in re.findall(r"\]\(#([^)]+)\)", text) if it not in known]


def too_wide(text):
    plain = re.sub(r"^```.*?^```$", lambda it: "\n" * it[0].count("\n"), text, flags=re.M | re.S)
    lines = enumerate(plain.split("\n"), 1)
    return [f"{REFERENCE} line {n} has {len(line)} columns" for n, line in lines if len(line) > WIDTH]


def outdated(text):
    """Whether the manual page is that of the reference."""
    made = runpy.run_path(str(TOP / "tools" / "make-man"))["made"]
    is_same = read("docs/component_manager.1") == made(text)
    return [] if is_same else ["docs/component_manager.1 is old: run tools/make-man"]


def rows_of_script():
    """The words of each command in the table of the script at the top."""
    table = read("component_manager").partition("commands() {\n    cat <<'END'\n")[2].partition("\nEND\n")[0]
    return {row.split()[0]: row.split()[1:] for row in table.split("\n")}


def unanswered():
    """Words that the table of the script at the top lacks, or the pages of help."""
    rows, words = rows_of_script(), words_and_options()
    known = set(rows).union(*map(options_of, rows.values()))
    wrong = [f"component_manager has no row or option for `{it}`" for it in sorted(words - known)]
    wrong += [f"component_manager has `{it}`, which is no word" for it in sorted(known - words)]
    page = read("docs/help/help.txt")
    wrong += [f"docs/help/help.txt lacks `{it}`" for it in sorted(words) if not stands_in(it, page)]
    for name in sorted(rows):
        path = f"docs/help/{name}.txt"
        page = read(path) if (TOP / path).exists() else ""
        words = (name, *options_of(rows[name]))
        wrong += [f"{path} lacks `{it}`" for it in words if not stands_in(it, page)]
    return wrong


def options_of(row):
    """The options in a row of that table."""
    return [it.partition("=")[0] for it in row if it.startswith("--")]


def unshown():
    """Words that the completion or the syntax for Vim lacks."""
    syntax, completion = read("tools/editor/component-script.vim"), read("tools/completion.bash")
    additions = {it.rstrip("=") for it in literals(specs("cm_command", "Additions", "Grammar"))}
    shown = sorted(commands() | sections() | additions)
    wrong = [f"tools/editor/component-script.vim lacks `{it}`" for it in shown if not stands_in(it, syntax)]
    words = sorted(words_and_options())
    return wrong + [f"tools/completion.bash lacks `{it}`" for it in words if not stands_in(it, completion)]


def other_commands(text):
    """Commands that have no row in the table of commands, and rows for which there is no command."""
    listed = set(re.findall(r"^\| `([a-z-]+) T", section(text, "Commands"), re.M))
    wrong = sorted(commands() ^ listed)
    return [f"the command `{it}` is only in the table or only in the grammar" for it in wrong]


def other_limits(text):
    told = section(text, "Limits")
    return [f"the limit {it} isn't in the table of limits" for it in sorted(limits()) if it not in told]


def other_statuses(text):
    rows = set(re.findall(r"^\| (\d) \|", section(text, "Statuses"), re.M))
    return [f"status {it} isn't in the table of statuses" for it in sorted(statuses() - rows)]


def faults(text):
    """All that is wrong with the reference."""
    code, found = code_of(text), entries(text)
    wrong = miscounted(found) + misnamed(found, numbers()) + unfounded(found) + unadvised(found)
    wrong += missing("the word", words_and_options(), code)
    wrong += missing("the grammar's word", grammar(), code)
    wrong += missing("the reply's word", replies(), code)
    wrong += missing("the manifest's word", manifest_words(), code)
    wrong += missing("the line", error_lines(), code)
    wrong += other_commands(text) + other_limits(text) + other_statuses(text) + unshown() + unanswered()
    return wrong + unlinked(text) + too_wide(text) + outdated(text)


def main():
    wrong = faults(read(REFERENCE))
    count = len(grammar() | replies() | manifest_words())
    fine = f"ok, {len(numbers())} numbers and {count} words of the sources stand in it"
    return told("reference", wrong, fine)


if __name__ == "__main__":
    sys.exit(main())
