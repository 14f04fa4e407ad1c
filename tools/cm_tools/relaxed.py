"""Manifests in the relaxed spelling, read into values that know their places.

It reads what the program reads: JSON in which comments may stand, keys need no quotes, strings may have
single ones, and lists may end in a comma. It says where a text can't be read.
"""

from __future__ import annotations

import json
import re
from dataclasses import dataclass, field

DEPTH_LIMIT = 127
SPACES = " \t\n\r"
PUNCTUATION = "{}[]:,"
WORD = re.compile(r"[A-Za-z0-9_$+\-.]+")
KEY = re.compile(r"[A-Za-z_$][A-Za-z0-9_$]*\Z")
NUMBER = re.compile(r"-?(0|[1-9][0-9]*)(\.[0-9]+)?([eE][+-]?[0-9]+)?\Z")
PAIR = re.compile(r"\\u[dD][89abAB][0-9A-Fa-f]{2}\\u[dD][c-fC-F][0-9A-Fa-f]{2}")
HALF = re.compile(r"\\u[dD][89a-fA-F][0-9A-Fa-f]{2}")
ESCAPE = re.compile(r'\\(["\\/bfnrt]|u[0-9A-Fa-f]{4})')


class SpellingFault(Exception):
    """The text can't be read; `place` is where, `why` says what is wrong there."""

    def __init__(self, place: int, why: str) -> None:
        super().__init__(why)
        self.place = place
        self.why = why


@dataclass(slots=True)
class Token:
    """A token: its kind (`{`, `}`, `[`, `]`, `:`, `,`, `text` or `word`) and its place."""

    kind: str
    start: int
    end: int
    value: str


@dataclass(slots=True)
class Node:
    """A value: `object`, `list`, `text` or `word` (a number, `true`, `false`, `null`)."""

    kind: str
    start: int
    end: int
    value: str = ""
    items: list[Node] = field(default_factory=list)
    members: list[Member] = field(default_factory=list)

    def get(self, key: str) -> Node | None:
        """The member's value, the last one where the key is repeated."""
        member = self.member(key)
        return member.value if member else None

    def member(self, key: str) -> Member | None:
        """The member of that key, the last one where it is repeated."""
        return next((one for one in reversed(self.members) if one.key.value == key), None)

    def text(self, key: str) -> str:
        """The member's text, or none where it is no text."""
        node = self.get(key)
        return node.value if node is not None and node.kind == "text" else ""


@dataclass(slots=True)
class Member:
    """A key with its value."""

    key: Token
    value: Node


def read_relaxed(text: str) -> Node:
    """The value of the text, or a `SpellingFault` at the first place that can't be read."""
    reader = _Reader(text, _tokens(text))
    value = reader.value(1)
    if reader.next < len(reader.tokens):
        raise SpellingFault(reader.place(), "something stands behind the end of the manifest")
    return value


def _tokens(text: str) -> list[Token]:
    found: list[Token] = []
    place = 0
    while place < len(text):
        place = _behind_space(text, place)
        if place < len(text):
            token = _token(text, place)
            found.append(token)
            place = token.end
    return found


def _behind_space(text: str, place: int) -> int:
    """The place behind spaces and comments."""
    while place < len(text):
        if text[place] in SPACES:
            place += 1
        elif text.startswith("//", place):
            end = text.find("\n", place)
            place = len(text) if end < 0 else end
        elif text.startswith("/*", place):
            end = text.find("*/", place + 2)
            if end < 0:
                raise SpellingFault(place, "this comment isn't closed")
            place = end + 2
        else:
            return place
    return place


def _token(text: str, place: int) -> Token:
    character = text[place]
    if character in PUNCTUATION:
        return Token(character, place, place + 1, character)
    if character in "\"'":
        return _string(text, place)
    word = WORD.match(text, place)
    if word is None:
        raise SpellingFault(place, f"the character {character!r} can't stand here")
    return Token("word", place, word.end(), word.group())


def _string(text: str, start: int) -> Token:
    quote, place, parts = text[start], start + 1, []
    while place < len(text) and text[place] not in (quote, "\n"):
        step, part = _string_part(text, place, quote)
        parts.append(part)
        place += step
    if place >= len(text) or text[place] == "\n":
        raise SpellingFault(start, "this string isn't closed on its line")
    return Token("text", start, place + 1, "".join(parts))


def _string_part(text: str, place: int, quote: str) -> tuple[int, str]:
    """How many characters are taken at this place of a string, and what they stand for."""
    character = text[place]
    if character == "\\" and quote == "'" and text.startswith("\\'", place):
        return 2, "'"
    if character == "\\":
        return _escaped(text, place)
    if character < " ":
        raise SpellingFault(place, "a control character can't stand in a string")
    return 1, character


def _escaped(text: str, place: int) -> tuple[int, str]:
    """How many characters the escape at this place has, and what it stands for."""
    pair = PAIR.match(text, place)
    if pair is not None:
        return len(pair.group()), json.loads(f'"{pair.group()}"')
    if HALF.match(text, place):
        raise SpellingFault(place, "this escape is half a character; its other half isn't there")
    escape = ESCAPE.match(text, place)
    if escape is None:
        raise SpellingFault(place, "this escape isn't one of JSON's")
    return len(escape.group()), json.loads(f'"{escape.group()}"')


class _Reader:
    """Reads values from the tokens, from the first to the last."""

    def __init__(self, text: str, tokens: list[Token]) -> None:
        self.text = text
        self.tokens = tokens
        self.next = 0

    def place(self) -> int:
        """Where the next token begins, or the end of the last one."""
        if self.next < len(self.tokens):
            return self.tokens[self.next].start
        return self.tokens[-1].end if self.tokens else 0

    def kind(self) -> str:
        """The kind of the next token, or nothing at the end."""
        return self.tokens[self.next].kind if self.next < len(self.tokens) else ""

    def take(self, kind: str, wish: str) -> Token:
        """The next token, which has to be of this kind."""
        if self.kind() != kind:
            found = "the manifest ends" if not self.kind() else f"{self._shown()} stands"
            raise SpellingFault(self.place(), f"{found} where {wish} should be")
        self.next += 1
        return self.tokens[self.next - 1]

    def value(self, depth: int) -> Node:
        """The value that begins here."""
        kind = self.kind()
        if kind in ("{", "[") and depth > DEPTH_LIMIT:
            raise SpellingFault(self.place(), f"values nest deeper than {DEPTH_LIMIT} here")
        if kind == "{":
            return self._object(depth)
        if kind == "[":
            return self._list(depth)
        if kind == "word":
            return self._word()
        token = self.take("text", "a value")
        return Node("text", token.start, token.end, token.value)

    def _word(self) -> Node:
        token = self.take("word", "a value")
        if token.value not in ("true", "false", "null") and not NUMBER.match(token.value):
            raise SpellingFault(token.start, f"the text {token.value} needs quotes")
        return Node("word", token.start, token.end, token.value)

    def _object(self, depth: int) -> Node:
        node = Node("object", self.take("{", "an object").start, 0)
        while self.kind() != "}":
            key = self._key()
            self.take(":", "a colon")
            node.members.append(Member(key, self.value(depth + 1)))
            if not self._goes_on("}"):
                break
        node.end = self.take("}", "a comma or the end of the object").end
        return node

    def _list(self, depth: int) -> Node:
        node = Node("list", self.take("[", "a list").start, 0)
        while self.kind() != "]":
            node.items.append(self.value(depth + 1))
            if not self._goes_on("]"):
                break
        node.end = self.take("]", "a comma or the end of the list").end
        return node

    def _goes_on(self, end: str) -> bool:
        """Whether a comma follows, which is taken; one before the end may be there."""
        if self.kind() != ",":
            return False
        self.next += 1
        return self.kind() != end

    def _key(self) -> Token:
        if self.kind() == "word" and not KEY.match(self.tokens[self.next].value):
            raise SpellingFault(self.place(), f"the key {self.tokens[self.next].value} needs quotes")
        if self.kind() == "word":
            self.next += 1
            return self.tokens[self.next - 1]
        return self.take("text", "a key or the end of the object")

    def _shown(self) -> str:
        token = self.tokens[self.next]
        return f"`{self.text[token.start:token.end][:30]}`"
