"""Which definitions a contract reaches, for promised.py.

A definition is reached where a clause names it, or a definition, a type or a trait that is reached does.
Names are resolved by the imports of their file (`use`, `ghost use`, aliases of modules, a type's own ghost
imports), then by its own definitions. Of a type its fields, its `Model` and its ghost fields count; of a
trait, which a bound names, its ghost members and the clauses of its methods. A name that a binder hides is
counted all the same, so that nothing that is reached is ever missed.
"""

import collections
import pathlib
import re
import sys

import house

# A name with what it is reached by; one behind a dot is a field, unless a module's alias stands before it.
TOKEN = re.compile(
    r"(?<![\w'.◌])[^\W\d]\w*'*(?:\.[^\W\d]\w*'*)*|[◌][^\s(){}.;,@\"]*[◌]|[^\s\w(){}.;,@\"\[\]λ×→≡]+")
PREAMBLE = re.compile(r"^\s*(?:ghost |pub )*use [^;]*?(?:\{[^}]*\})?[^;\n]*;", re.M)


class Spec:
    """A file of specs: what its imports bind, and its definitions."""

    def __init__(self, crate, module, text):
        self.crate, self.module = crate, module
        self.names, self.aliases = bindings(text, crate)
        self.definitions = {it.name: it for it in house.definitions_in(text, crate, module)}
        # the parameters of its blocks, which each definition in them may name
        self.has_blocks = re.search(r"^(?:module _|(?:\w+ )*mutual$)", text, re.M) is not None
        bare = house.without_comments(text, True)
        self.heads = " ".join(re.findall(r"^module _.*?where$", bare, re.M | re.S))


class Source:
    """A file of Rust: its items by name, and what its ghost imports bind."""

    def __init__(self, crate, path, text):
        self.crate, self.path = crate, path
        self.text = text
        self.bare = house.without_comments(text, False)
        self.names, self.aliases = bindings(top_level(self.bare), crate)
        self.rust = rust_bindings(self.bare, crate)
        self.items = items_in(self.bare)


def bindings(text, crate):
    """What the imports of definitions bind: name -> (path, name there), and alias -> path."""
    names, aliases = {}, {}
    for there, found, alias, _, _ in house.imports_in(text):
        if not there.startswith("Rattle."):
            continue
        if alias:
            aliases[alias] = there
        elif not found:
            aliases[there.split(".")[-1]] = there
        for local, name in found.items():
            names[local] = (there, name)
    return names, aliases


def rust_bindings(text, own):
    """What the imports of Rust bind: name -> the crate that it comes from."""
    found = {}
    for there, names, alias, _, _ in house.imports_in(text):
        if there.startswith("Rattle."):
            continue
        parts = there.split("::")
        crate = own if parts[0] in ("crate", "self", "super") else parts[0]
        for local in names or {alias or parts[-1]: 0}:
            found[local] = (crate, names.get(local, parts[-1]))
    return found


def top_level(text):
    """The lines of a file of Rust that stand at its margin."""
    return "\n".join(line for line in text.split("\n") if line[:1] not in (" ", "\t"))


def block_at(text, start):
    """The text of an item from its start: up to the `}` that closes it, or to its `;`."""
    depth, place = 0, start
    while place < len(text):
        char = text[place]
        if char in "{([":
            depth += 1
        elif char in "})]":
            depth -= 1
            goes_on = re.match(r"\s*(ensures|requires|where|[×⊎→∧])", text[place + 1:])
            if depth == 0 and char == "}" and not goes_on:
                return text[start:place + 1]
        elif char == ";" and depth == 0:
            return text[start:place + 1]
        place += 1
    return text[start:]


def items_in(text):
    """The items of a file: ('struct', name), ('impl', name, trait), ('fn', name) .. -> list of texts."""
    found = collections.defaultdict(list)
    head = re.compile(
        r"^(?P<indent> *)(?P<vis>pub(?:\([^)]*\))? )?(?:const |unsafe )*"
        r"(?:(?P<kind>struct|enum|trait|fn) (?P<name>\w+)|(?P<impl>impl)\b(?P<rest>[^{]*)\{)", re.M)
    owner, until = None, 0
    for it in head.finditer(text):
        if it["impl"]:
            body = block_at(text, it.start())
            rest = re.sub(r"<[^<>]*(?:<[^<>]*>[^<>]*)*>", "", it["rest"]).split(" where")[0].split()
            name = rest[-1].split("::")[-1] if rest else ""
            trait = rest[0].split("::")[-1] if "for" in rest else ""
            found["impl", name, trait].append((body, bool(it["vis"])))
            owner, until = (name, trait), it.start() + len(body)
        elif it["kind"] == "fn":
            inside = owner if it.start() < until else None
            found["fn", it["name"], inside].append((block_at(text, it.start()), bool(it["vis"])))
        else:
            found["type", it["name"], it["kind"]].append((block_at(text, it.start()), bool(it["vis"])))
            if it["kind"] == "trait":
                body = found["type", it["name"], "trait"][-1][0]
                owner, until = (it["name"], "trait"), it.start() + len(body)
    return found


def contract_of(text):
    """A function's signature and clauses, without its body."""
    clauses = re.split(r"\b(?=(?:requires|ensures)\*?\b)", text)
    signature = clauses[0]
    if len(clauses) == 1:
        return signature.split("{")[0]
    done = [signature]
    for clause in clauses[1:]:
        start = clause.find("{")
        depth = 0
        for place in range(start, len(clause)):
            depth += clause[place] == "{"
            depth -= clause[place] == "}"
            if depth == 0:
                done.append(clause[start:place + 1])
                break
    return "\n".join(done)


class Repository:
    def __init__(self, top):
        self.top = top
        self.crates = house.crates_of(top)
        self.specs = {}
        for crate, path, module in house.antt_files(top, "specs"):
            self.specs[crate, module] = Spec(crate, module, path.read_text(encoding="utf-8"))
        self.sources = {}
        self.types = collections.defaultdict(list)
        for crate in self.crates:
            folder = top / "crates" / crate / "src"
            for path in sorted(folder.rglob("*.rt")):
                source = Source(crate, str(path.relative_to(top)), path.read_text(encoding="utf-8"))
                self.sources[source.path] = source
                for key in source.items:
                    if key[0] == "type":
                        self.types[crate, key[1]].append(source)
        self.reached, self.why, self.queue, self.lost = {}, {}, [], set()

    # ---- what a name leads to

    def add(self, key, why):
        if key not in self.reached:
            self.reached[key] = True
            self.why[key] = why
            self.queue.append(key)

    def path(self, there, name, why):
        """What stands at a path of the prover's, as `Rattle.cm_a.specs.B` and `c`."""
        parts = there.split(".")
        if len(parts) < 3 or parts[1] not in self.crates or parts[2] != "specs":
            return
        crate = parts[1]
        if len(parts) > 3 and parts[3] == "declared":
            for it in reversed(parts[4:] + [name]):
                if (crate, it) in self.types:
                    self.add(("type", crate, it), why)
                    return
            if parts[-1] != "TheConstants" and "TheConstants" not in parts:
                self.lost.add((there, name, why))
            return
        for end in range(len(parts), 3, -1):
            module = ".".join(parts[2:end])
            spec = self.specs.get((crate, module))
            if not spec:
                continue
            inner = parts[end:] + [name]
            for it in inner:
                if it in spec.definitions:
                    self.add(("spec", crate, module, it), why)
                    return
            pattern = re.compile(rf"(?:^|[|\s(])(?:pub )?{re.escape(name)}(?:\s|$)")
            for definition in spec.definitions.values():
                if definition.kind in ("data", "record") and any(map(pattern.search, definition.text[1:])):
                    self.add(("spec", crate, module, definition.name), why)
                    return
            if name in spec.names:
                self.path(*spec.names[name], why)
                return
        self.lost.add((there, name, why))

    def names_in(self, text, names, aliases, own, rust, crate, why):
        """Adds all that the names of a text lead to."""
        for match in TOKEN.finditer(text):
            first, *rest = match[0].split(".") if match[0][0] != "◌" else [match[0]]
            if first in names:
                self.path(*names[first], why)
            elif rest and first in aliases:
                self.path(aliases[first], rest[0], why)
            elif own and first in own.definitions:
                self.add(("spec", own.crate, own.module, first), why)
            elif rust is not None and first in rust:
                there, name = rust[first]
                if (there, name) in self.types:
                    self.add(("type", there, name), why)
            elif rust is not None and (crate, first) in self.types:
                self.add(("type", crate, first), why)
        # an operator by its parts: `a ⊓ b` for `◌⊓◌`
        for local, (there, name) in names.items():
            if "◌" in local and all(part in text for part in local.split("◌") if part):
                self.path(there, name, why)
        if own:
            for name in own.definitions:
                if "◌" in name and all(part in text for part in name.split("◌") if part):
                    self.add(("spec", own.crate, own.module, name), why)

    def in_source(self, source, text, why):
        """What a piece of a file of Rust names, with the imports that stand in the piece."""
        inner, aliases = bindings(text, source.crate)
        text = PREAMBLE.sub("", text)
        self.names_in(text, {**source.names, **inner}, {**source.aliases, **aliases}, None,
                      source.rust, source.crate, why)

    def from_function(self, crate, module, name, why=None):
        found = 0
        for source in self.sources.values():
            if source.crate != crate:
                continue
            stem = "::".join(pathlib.PurePath(source.path).with_suffix("").parts[3:])
            if module is not None and stem != module.replace(".", "::"):
                continue
            for key, texts in source.items.items():
                if key[0] == "fn" and key[1] == name:
                    for text, _ in texts:
                        found += 1
                        self.in_source(source, contract_of(text), why or f"{crate}::{module}::{name}")
        if not found:
            sys.exit(f"promised: no function {crate}::{module}::{name}")

    def from_crate(self, crate):
        """All public contracts of a crate: of its functions, methods, traits and types."""
        for source in self.sources.values():
            if source.crate != crate:
                continue
            for key, texts in source.items.items():
                for text, public in texts:
                    if key[0] == "fn" and (public or (key[2] and key[2][1])):
                        self.in_source(source, contract_of(text), f"{source.path} {key[1]}")
                    elif key[0] == "type" and public:
                        self.add(("type", crate, key[1]), source.path)

    def close(self):
        while self.queue:
            key = self.queue.pop()
            if key[0] == "spec":
                _, crate, module, name = key
                spec = self.specs[crate, module]
                text = house.without_comments("\n".join(spec.definitions[name].text), True)
                self.names_in(text + spec.heads, spec.names, spec.aliases, spec, None, crate,
                              f"{crate}.{module}.{name}")
            else:
                _, crate, name = key
                for source in self.types[crate, name]:
                    why = f"{crate} {name}"
                    for item, texts in source.items.items():
                        if item[0] == "type" and item[1] == name:
                            for text, _ in texts:
                                self.in_source(source, text, why)
                        if item[0] == "impl" and item[1] == name and item[2] == "Model":
                            for text, _ in texts:
                                self.in_source(source, text, why)

    # ---- what is told

    def definitions(self):
        return {key[1:] for key in self.reached if key[0] == "spec"}
