"""What the checks of names share: the files of a repository of crates, their definitions, their imports."""

import collections
import pathlib
import re

# An identifier of either language. Dashes join names in .antt (`length-drop`), dots lead into modules and
# records; each part between them is a name of its own.
NAME = re.compile(r"[^\W\d]\w*'*")

MARKS = r"(?:(?:pattern|unfoldable|abbrev|opaque|axiom|pub) )*"
DEFINED = re.compile(rf"^({MARKS})(?:(record|data) )?((?![\d:=|])[^\s(){{}}.;,@\"«»]+)(.*)$")
KEYWORDS = {
    "use", "mod", "module", "open", "mutual", "infix", "infixl", "infixr", "where", "deriving", "ruleset",
    "package", "elim", "let", "in", "do", "unfolding", "unfold", "as", "_", "|", "]", "[", "--", "×", "→",
}
IMPORT = re.compile(
    r"^[ \t]*(?:ghost |pub )*use ([A-Za-z_][\w:.]*?)(?:(?:\.|::)\{([^}]*)\})?(?: as (\w+))?;?$", re.M)
RUST_ITEM = re.compile(
    r"^(?P<indent> *)(?P<vis>pub(?:\([^)]*\))? )?(?:const |unsafe )*"
    r"(?P<kind>fn|struct|enum|trait|type|const|static|mod) (?P<name>\w+)", re.M)


class Definition:
    """A definition of a file of .antt: where it stands, what it is, its words and its text."""

    def __init__(self, crate, module, name, kind, public, line, words, text, above):
        self.crate, self.module, self.name, self.kind = crate, module, name, kind
        self.public, self.line, self.words, self.text = public, line, words, text
        self.above = above  # the lines of words above it
        self.key = f"Rattle.{crate}.{module}.{name}"


def crates_of(top):
    """The crates of crates.txt, in its order, each with the list of those that it names."""
    found = {}
    for line in (top / "crates.txt").read_text(encoding="utf-8").split("\n"):
        head, _, below = line.partition("#")[0].partition(":")
        if head.split():
            found[head.split()[0]] = below.split()
    return found


def module_of(path, crate_folder):
    """The module of a file below a crate's folder, as `specs.Run` or `proofs.texts.Marks`."""
    parts = list(path.relative_to(crate_folder).with_suffix("").parts)
    return ".".join(parts)


def without_comments(text, antt):
    """The text with each comment and each quoted text as spaces, so that places stay."""
    mark = r"(?<![^\s(){}\[\];,])--[^\n]*|\{-.*?-\}" if antt else r"//[^\n]*|/\*.*?\*/"
    quoted = r'b?"(?:[^"\\\n]|\\.|\\\n)*"'
    char = "" if antt else r"|b?'(?:[^'\\\n]|\\[^\n]+?)'"
    return re.sub(f"{quoted}{char}|{mark}", lambda m: re.sub(r"[^\n]", " ", m[0]), text, flags=re.S)


def definitions_in(text, crate, module):
    """The definitions of a text of .antt, in order; those of `mutual` and `module` blocks among them."""
    found, words, seen, depth, opening = [], [], set(), 0, None
    for number, line in enumerate(text.split("\n"), 1):
        if not line.strip():
            words = []
            continue
        indent = (len(line) - len(line.lstrip())) // 2
        body = line.lstrip()
        if indent < depth:
            depth = indent
        if indent == depth and re.match(r"((abbrev|unfoldable) )*mutual$|module .* where$", body):
            depth += 1
            words = []
            continue
        if indent == depth and body.startswith("module _") and not body.endswith(" where"):
            opening = depth  # a module whose parameters take several lines
            words = []
            continue
        if opening is not None:
            if body.endswith(" where"):
                depth, opening = opening + 1, None
            words = []
            continue
        if body.startswith("-- ") and indent <= depth:
            words.append(body[3:])
            continue
        match = DEFINED.match(body) if indent == depth else None
        is_line_of_head = body.startswith(("use ", "mod ", "pub mod ", "pub use "))
        if match and match[3] not in KEYWORDS and not is_line_of_head:
            marks, kind, name, rest = match[1], match[2], match[3], match[4]
            fresh = kind or re.match(r"(?: *\{[^}]*\})? *:(?: |$)", rest)
            if fresh and name not in seen:
                seen.add(name)
                kind = kind or ("axiom" if "axiom" in marks else "abbrev" if "abbrev" in marks else "def")
                found.append(Definition(
                    crate, module, name, kind, "pub" in marks, number, " ".join(words), [line], len(words)))
                words = []
                continue
            owner = next((it for it in reversed(found) if it.name == name), found[-1] if found else None)
            if owner:
                owner.text.append(line)
        elif found and not body.startswith(("use ", "mod ", "pub mod ", "pub use ")):
            found[-1].text.append(line)
        words = []
    return found


def imports_in(text):
    """The imports of a text: (path, {local name: name there}, alias of the module, start, end)."""
    found = []
    for match in IMPORT.finditer(text):
        names = {}
        for item in (match[2] or "").replace("\n", " ").split(","):
            it = item.split()
            if len(it) == 3 and it[1] == "as":
                names[it[2]] = it[0]
            elif len(it) == 1:
                names[it[0]] = it[0]
        found.append((match[1], names, match[3], match.start(), match.end()))
    return found


def antt_files(top, part):
    """All files of .antt of this part (`specs` or `proofs`): (crate, path, module)."""
    for crate in crates_of(top):
        folder = top / "crates" / crate
        for path in sorted((folder / part).rglob("*.antt")):
            yield crate, path, module_of(path, folder)


def all_definitions(top, part="specs"):
    """Each definition of the specs (or proofs) of all crates."""
    for crate, path, module in antt_files(top, part):
        yield from definitions_in(path.read_text(encoding="utf-8"), crate, module)


def rust_types(top):
    """The types and traits of the sources: name -> {(crate, file, public)}."""
    found = collections.defaultdict(set)
    for crate in crates_of(top):
        folder = top / "crates" / crate
        for path in sorted((folder / "src").rglob("*.rt")):
            text = without_comments(path.read_text(encoding="utf-8"), False)
            for item in RUST_ITEM.finditer(text):
                if item["kind"] in ("struct", "enum", "trait", "type"):
                    found[item["name"]].add((crate, str(path.relative_to(folder)), bool(item["vis"])))
    return found
