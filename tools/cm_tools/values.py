"""Manifests as plain values: read from the relaxed spelling, and written as JSON."""

from __future__ import annotations

import json
from typing import Any

from cm_tools.relaxed import Node

Value = Any


def value_of(node: Node) -> Value:
    """The value of a node. Of a key that is repeated the last value counts."""
    if node.kind == "object":
        return {member.key.value: value_of(member.value) for member in node.members}
    if node.kind == "list":
        return [value_of(item) for item in node.items]
    return node.value if node.kind == "text" else json.loads(node.value)


def written(value: Value) -> str:
    """The value as JSON, which the program reads."""
    return json.dumps(value, indent=4, ensure_ascii=False) + "\n"


def same_key(value: Value) -> str:
    """A text that two values share exactly where they are the same."""
    return json.dumps(value, sort_keys=True)
