"""Tests of the schema of manifests: on all examples, on all faults, and against the reference."""

from __future__ import annotations

import json
import re
import unittest
from pathlib import Path
from typing import Any

from cm_tools.relaxed import SpellingFault, read_relaxed
from cm_tools.schema import FILE, REFERENCE, SECTIONS, fields_of, made_schema, told_fields
from cm_tools.values import value_of
from tests.support import ROOT

TYPES = {"object": dict, "array": list, "string": str}
# The faults that a schema can tell: of single items and fields.
TOLD = {"32", "33", "34", "35", "36", "37", "38", "39", "40", "42"}
# What stands in the reference's table for the registrations of an environment.
OF_REGISTRATIONS = {"from"}


def fits(schema: dict[str, Any], value: Any) -> bool:
    """Whether a value is one of the schema, by the few words that the schema has."""
    kind = TYPES.get(schema.get("type", ""))
    if kind and not isinstance(value, kind) or "enum" in schema and value not in schema["enum"]:
        return False
    if "anyOf" in schema and not any(fits(one, value) for one in schema["anyOf"]):
        return False
    if isinstance(value, str):
        is_long = len(value) > schema.get("maxLength", len(value))
        return not is_long and re.search(schema.get("pattern", ""), value) is not None
    if isinstance(value, list):
        texts = [json.dumps(one) for one in value]
        is_right = schema.get("minItems", 0) <= len(value) <= schema.get("maxItems", len(value))
        is_right = is_right and not (schema.get("uniqueItems") and len(set(texts)) < len(texts))
        return is_right and all(fits(schema.get("items", {}), one) for one in value)
    if isinstance(value, dict):
        known = schema.get("properties", {})
        if not set(schema.get("required", ())) <= set(value):
            return False
        if schema.get("additionalProperties") is False and not set(value) <= set(known):
            return False
        return all(fits(known.get(key, {}), one) for key, one in value.items())
    return True


class SchemaTests(unittest.TestCase):
    """The schema that editors read."""

    schema = json.loads(FILE.read_text("utf-8"))

    def fits(self, path: Path) -> bool:
        return fits(self.schema, value_of(read_relaxed(path.read_text("utf-8"))))

    def test_is_made(self) -> None:
        """the schema is the one that tools/make-schema makes"""
        self.assertEqual(FILE.read_text("utf-8"), made_schema())

    def test_examples(self) -> None:
        """all manifests of the examples are manifests of the schema"""
        paths = [*(ROOT / "examples").glob("*.cml"), *(ROOT / "examples" / "product").rglob("*.cm")]
        self.assertGreaterEqual(len(paths), 15)
        for path in paths:
            self.assertTrue(self.fits(path), path)

    def test_faults(self) -> None:
        """each fault of a single item or field is one of the schema, and no other is"""
        for path in sorted((ROOT / "examples" / "faults").glob("*.cml")):
            number = path.name.partition("-")[0]
            try:
                self.assertEqual(self.fits(path), number not in TOLD, path)
            except (SpellingFault, UnicodeDecodeError):
                self.assertIn(number, ("30", "31"), path)

    def test_reference(self) -> None:
        """the sections and fields are those of the reference's table"""
        told = told_fields(REFERENCE.read_text("utf-8"))
        self.assertEqual({section for section, _ in told} | {"facets"}, set(SECTIONS))
        for section in SECTIONS:
            words = {field for one, field in told if one == section}
            extra = OF_REGISTRATIONS if section == "environments" else set()
            self.assertEqual(words - extra, fields_of(section), section)


if __name__ == "__main__":
    unittest.main()
