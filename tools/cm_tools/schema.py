"""The JSON schema of manifests, for editors that know JSON5: what is read, with the reference's words."""

from __future__ import annotations

import json
import re
from pathlib import Path
from typing import Any

from cm_tools.rights import ALL, SHORT

TOP = Path(__file__).resolve().parent.parent.parent
REFERENCE = TOP / "docs" / "REFERENCE.md"
FILE = TOP / "tools" / "editor" / "manifest.schema.json"

Schema = dict[str, Any]

NAME = {"type": "string", "pattern": r"^[A-Za-z0-9_][A-Za-z0-9_.-]{0,254}$"}
REFERENCE_NAME = {"type": "string", "pattern": r"^#[A-Za-z0-9_][A-Za-z0-9_.-]{0,254}$"}
PATH = {"type": "string", "pattern": r"^(/(?!\.{1,2}(/|$))[!-.0-~]+)+$", "maxLength": 4096}
SUBDIR = {"type": "string", "pattern": r"^(?!\.{1,2}(/|$))[!-.0-~]+(/(?!\.{1,2}(/|$))[!-.0-~]+)*$"}
URL = {"type": "string", "pattern": r"^[!-~]+$", "maxLength": 4096}
ANY: Schema = {}


def _words(*words: str) -> Schema:
    return {"enum": list(words)}


def _several(one: Schema) -> Schema:
    """One of these, or a list with at least one in it."""
    return {"anyOf": [one, {"type": "array", "items": one, "minItems": 1}]}


def _from(*words: str) -> Schema:
    """A source: one of the words, or a reference."""
    return {"anyOf": [_words(*words), REFERENCE_NAME]}


RIGHTS = {"type": "array", "items": _words(*SHORT, *sorted(ALL)), "minItems": 1, "uniqueItems": True}
DEPENDENCY, SOURCE = _words("strong", "weak"), _words("required", "unknown")
USED = _words("required", "optional", "transitional")
GIVEN = _words("required", "optional", "transitional", "same_as_target")
TARGETS = _several(REFERENCE_NAME)
PROTOCOL_USE = {"from": _from("parent", "self", "framework", "debug"), "path": PATH, "dependency": DEPENDENCY,
                "availability": USED}
DIRECTORY_USE = {**PROTOCOL_USE, "from": _from("parent", "self", "framework"), "rights": RIGHTS,
                 "subdir": SUBDIR}
OFFERED = {"from": _from("parent", "self", "framework", "void"), "to": TARGETS, "as": NAME,
           "dependency": DEPENDENCY, "availability": GIVEN, "source_availability": SOURCE}
OF_DIRECTORY = {"rights": RIGHTS, "subdir": SUBDIR}
EXPOSED = {"from": _from("self", "framework", "void"), "to": _words("parent"), "as": NAME,
           "availability": GIVEN, "source_availability": SOURCE}
REGISTERED = {"from": _from("parent", "self"), "as": NAME}


def _items(*forms: tuple[Schema, tuple[str, ...]]) -> Schema:
    """A list of objects of one of these forms, each with its fields and those that have to be there."""
    made = [_object(fields, required) for fields, required in forms]
    return {"type": "array", "items": made[0] if len(made) == 1 else {"anyOf": made}}


def _object(fields: Schema, required: tuple[str, ...]) -> Schema:
    return {
        "type": "object", "properties": fields, "required": list(required), "additionalProperties": False,
    }


Form = tuple[Schema, tuple[str, ...]]


def _named(kind: str, name: Schema, fields: Schema, *required: str) -> Form:
    """An item of a kind: its name and its fields."""
    return {kind: name, **fields}, (kind, *required)


def _one_or_many(kind: str, fields: Schema, single: str, *required: str) -> list[Form]:
    """An item with one name, and one with several, which hasn't the field that is for one alone."""
    several = {key: value for key, value in fields.items() if key != single}
    names = {"type": "array", "items": NAME, "minItems": 1}
    one = {"type": "array", "items": NAME, "minItems": 1, "maxItems": 1}
    return [
        _named(kind, {"anyOf": [NAME, one]}, fields, *required), _named(kind, names, several, *required),
    ]


SECTIONS: dict[str, Schema] = {
    "program": {"type": "object", "properties": {"runner": NAME}, "required": ["runner"]},
    "children": _items(({"name": NAME, "url": URL, "startup": _words("lazy", "eager"),
                         "environment": REFERENCE_NAME}, ("name", "url"))),
    "collections": _items(({"name": NAME, "durability": _words("transient", "single_run"),
                            "allowed_offers": _words("static_only", "static_and_dynamic"),
                            "environment": REFERENCE_NAME}, ("name", "durability"))),
    "capabilities": _items(
        *_one_or_many("protocol", {"path": PATH}, "path"),
        _named("directory", NAME, {"path": PATH, "rights": RIGHTS}, "path", "rights"),
        _named("storage", NAME, {
            "from": _from("parent", "self"), "backing_dir": NAME, "subdir": SUBDIR,
            "storage_id": _words("static_instance_id", "static_instance_id_or_moniker"),
        }, "from", "backing_dir", "storage_id"),
    ),
    "use": _items(
        *_one_or_many("protocol", PROTOCOL_USE, "path"),
        _named("directory", NAME, DIRECTORY_USE, "path", "rights"),
        _named("storage", NAME, {"from": _words("parent"), "path": PATH, "availability": USED}, "path"),
    ),
    "offer": _items(
        *_one_or_many("protocol", OFFERED, "as", "from", "to"),
        *_one_or_many("directory", {**OFFERED, **OF_DIRECTORY}, "as", "from", "to"),
        *_one_or_many("storage", {"from": _words("parent", "self", "void"), "to": TARGETS, "as": NAME,
                                  "availability": GIVEN}, "as", "from", "to"),
    ),
    "expose": _items(
        *_one_or_many("protocol", EXPOSED, "as", "from"),
        *_one_or_many("directory", {**EXPOSED, **OF_DIRECTORY}, "as", "from"),
    ),
    "facets": ANY,
    "environments": _items(({
        "name": NAME, "extends": _words("none", "realm"),
        "runners": _items(({"runner": NAME, **REGISTERED}, ("runner", "from"))),
        "debug": _items(*_one_or_many("protocol", REGISTERED, "as", "from")),
        "resolvers": ANY, "__stop_timeout_ms": ANY,
    }, ("name",))),
}


def made_schema() -> str:
    """The schema as JSON, each field with what the reference says of it."""
    told = told_fields(REFERENCE.read_text("utf-8"))
    sections = {name: _described(name, schema, told) for name, schema in SECTIONS.items()}
    schema = {
        "$schema": "http://json-schema.org/draft-07/schema#",
        "title": "A component's manifest, as the component manager reads it",
        "type": "object", "properties": sections, "additionalProperties": False,
    }
    return json.dumps(schema, indent=1) + "\n"


def told_fields(text: str) -> dict[tuple[str, str], str]:
    """What the reference's table of fields says of each section's fields."""
    table = text.partition("\n### What is read\n")[2].partition("\n- A **name**")[0]
    found: dict[tuple[str, str], str] = {}
    section = ""
    for line in table.split("\n"):
        cells = [cell.strip() for cell in line.strip("|").split("|")]
        if not line.startswith("| ") or len(cells) != 3:
            continue
        section = cells[0].strip("`") or section
        for field in re.findall(r"`([^`]+)`", cells[1]):
            found.setdefault((section, field), cells[2])
    return found


def fields_of(section: str) -> set[str]:
    """The fields that some item of a section may have, or a section's own."""
    schema = SECTIONS[section]
    forms = schema.get("items", schema)
    return {name for form in forms.get("anyOf", [forms]) for name in form.get("properties", {})}


def _described(section: str, schema: Schema, told: dict[tuple[str, str], str]) -> Schema:
    """A section's schema, with the reference's words at each field."""
    if "properties" in schema:
        properties = {
            name: _with_words(one, told.get((section, name))) for name, one in schema["properties"].items()
        }
        return {**schema, "properties": properties}
    if "anyOf" in schema:
        return {**schema, "anyOf": [_described(section, one, told) for one in schema["anyOf"]]}
    if "items" in schema:
        return {**schema, "items": _described(section, schema["items"], told)}
    return schema


def _with_words(schema: Schema, words: str | None) -> Schema:
    return {**schema, "description": words.replace("`", "")} if words else schema
