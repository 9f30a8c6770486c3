"""Reads a description's text, character by character, after docs/FORMATS.md: values with their places, or a failure."""
from __future__ import annotations

import dataclasses
import re
from typing import NoReturn

BLANKS = " \t\n\r"
ENDS_OF_KEYS = ",:[]{}"
ESCAPES = {'"': '"', "'": "'", "\\": "\\", "/": "/", "b": "\b", "f": "\f", "n": "\n", "r": "\r", "t": "\t"}
NUMBER = re.compile(r"-?(0|[1-9][0-9]*)(\.[0-9]+)?([eE][+-]?[0-9]+)?")
CLOSED = re.compile(r"[ \t]*([,\]}#\n]|\r\n|//|/\*|$)")
DEEPEST = 64


class NotDocument(Exception):
    """The text is no document; `place` is the character behind the longest beginning of one."""

    def __init__(self, place: int) -> None:
        """The failure at this place, in characters from the text's start."""
        super().__init__(place)
        self.place = place


@dataclasses.dataclass(eq=False)
class Value:
    """A value: `kind` is null, bool, int, str, list or object. An object's data are its members: key, place, value."""
    kind: str
    data: list[Member] | list[Value] | str | int | bool | None
    place: int

    def member(self, key: str) -> Value | None:
        """The value of the first member with this key; None where there is none, or this is no object."""
        if self.kind != "object":
            return None
        return next((value for name, _, value in self.data if name == key), None)

    def items(self) -> list[Value]:
        """The elements of a list; any other value has none."""
        return self.data if self.kind == "list" else []

    def first_members(self) -> list[Member]:
        """The members of an object but for those whose key an earlier one has."""
        if self.kind != "object":
            return []
        seen: dict[str, Member] = {}
        for name, place, value in self.data:
            seen.setdefault(name, (name, place, value))
        return list(seen.values())


# a member of an object: its key, the place of the key, and its value
Member = tuple[str, int, Value]


class Reader:
    """Reads one text. `deep` is the place of the first opener that stands deeper than is allowed."""

    def __init__(self, text: str) -> None:
        """A reader at the start of the text."""
        self.text, self.at = text, 0
        self.deep: int | None = None

    def here(self, count: int = 1) -> str:
        """The next characters, so many or what is left of them; they are not taken."""
        return self.text[self.at:self.at + count]

    def fail(self, place: int | None = None) -> NoReturn:
        """Fails at this place, or here; never behind the text's end."""
        raise NotDocument(min(self.at if place is None else place, len(self.text)))

    def line_end(self) -> None:
        """Takes the line end that begins here: a carriage return must have its line feed."""
        if self.here() == "\r":
            self.at += 1
        if self.here() != "\n":
            self.fail()
        self.at += 1

    def plain(self) -> None:
        """Takes a character that may stand in comments and strings; a tab may, other control characters may not."""
        if not self.here() or (self.here() < " " and self.here() != "\t"):
            self.fail()
        self.at += 1

    def gap(self) -> None:
        """Takes blanks and comments."""
        while True:
            if self.here() in ("\r", "\n"):
                self.line_end()
            elif self.here() in (" ", "\t"):
                self.at += 1
            elif self.here() == "#" or self.here(2) == "//":
                while self.here() not in ("", "\r", "\n"):
                    self.plain()
            elif self.here(2) == "/*":
                self.comment()
            else:
                return

    def comment(self) -> None:
        """Takes a comment between `/*` and `*/`."""
        self.at += 2
        while self.here(2) != "*/":
            if self.here() in ("\r", "\n"):
                self.line_end()
            else:
                self.plain()
        self.at += 2

    def no_slash(self) -> NoReturn:
        """Fails here; a slash could have begun a comment, so the place is behind it."""
        self.fail(self.at + (self.here() == "/"))

    def document(self) -> Value:
        """Takes the whole text, which is one object among blanks and comments."""
        self.gap()
        if self.here() != "{":
            self.no_slash()
        root = self.object(1)
        self.gap()
        if self.at < len(self.text):
            self.no_slash()
        return root

    def opener(self, depth: int) -> None:
        """Takes the opener of an object or list, which stands at this depth, and the gap behind it."""
        if depth > DEEPEST and self.deep is None:
            self.deep = self.at
        self.at += 1
        self.gap()

    def comma(self) -> None:
        """Takes the gap behind a member or element, and the comma in it if there is one."""
        self.gap()
        if self.here() == ",":
            self.at += 1
            self.gap()

    def object(self, depth: int) -> Value:
        """Takes an object at this depth; the root's is 1."""
        place, members = self.at, []
        self.opener(depth)
        while self.here() != "}":
            key_place = self.at
            key = self.key()
            self.gap()
            if self.here() != ":":
                self.no_slash()
            self.at += 1
            self.gap()
            members.append((key, key_place, self.value(depth)))
            self.comma()
        self.at += 1
        return Value("object", members, place)

    def list(self, depth: int) -> Value:
        """Takes a list at this depth."""
        place, items = self.at, []
        self.opener(depth)
        while self.here() != "]":
            items.append(self.value(depth))
            self.comma()
        self.at += 1
        return Value("list", items, place)

    def key(self) -> str:
        """Takes a key, in quotes or without them."""
        if self.here() in ("'", '"'):
            return self.quoted()
        start = self.at
        while self.here() and self.here() not in BLANKS and self.here() not in ENDS_OF_KEYS:
            self.plain()
        if self.at == start:
            self.fail()
        return self.text[start:self.at]

    def value(self, depth: int) -> Value:
        """Takes a value in an object or list of this depth; without quotes it is a literal, or the rest of its line."""
        place, first = self.at, self.here()
        if first == "{":
            return self.object(depth + 1)
        if first == "[":
            return self.list(depth + 1)
        if self.here(3) == "'''":
            return Value("str", self.lines(), place)
        if first in ("'", '"'):
            return Value("str", self.quoted(), place)
        if not first or first in ENDS_OF_KEYS:
            self.fail()
        literal = self.literal()
        if literal is not None:
            return Value(*literal, place)
        while self.here() not in ("", "\r", "\n"):
            self.plain()
        return Value("str", self.text[place:self.at].rstrip(" \t"), place)

    def literal(self) -> tuple[str, bool | int | str | None] | None:
        """Takes a literal that is closed: its kind and its value."""
        for word, kind, value in [("true", "bool", True), ("false", "bool", False), ("null", "null", None)]:
            if self.text.startswith(word, self.at) and CLOSED.match(self.text, self.at + len(word)):
                self.at += len(word)
                return kind, value
        found = NUMBER.match(self.text, self.at)
        if found is None or not CLOSED.match(self.text, found.end()):
            return None
        self.at = found.end()
        if found[2] or found[3] or not -(1 << 63) <= int(found[0]) < 1 << 64:
            return "str", found[0]
        return "int", int(found[0])

    def quoted(self) -> str:
        """Takes a string in single or double quotes."""
        quote, made = self.here(), []
        self.at += 1
        while self.here() != quote:
            if self.here() == "\\":
                self.at += 1
                made.append(self.escape())
            else:
                made.append(self.here())
                self.plain()
        self.at += 1
        return "".join(made)

    def escape(self) -> str:
        """Takes what follows a backslash: the character that it stands for."""
        letter = self.here()
        if letter == "u":
            self.at += 1
            return self.unit()
        if not letter or letter not in ESCAPES:
            self.fail()
        self.at += 1
        return ESCAPES[letter]

    def digit(self, allowed: str = "0123456789abcdefABCDEF") -> str:
        """Takes one of the allowed characters, if left out a hexadecimal digit."""
        if not self.here() or self.here() not in allowed:
            self.fail()
        self.at += 1
        return self.text[self.at - 1]

    def unit(self) -> str:
        """The character of `\\uXXXX`, or of two of these that are a surrogate pair."""
        first = self.digit()
        second = self.digit("01234567" + "89abAB") if first in "dD" else self.digit()
        code = int(first + second + self.digit() + self.digit(), 16)
        if not 0xD800 <= code < 0xDC00:
            return chr(code)
        self.digit("\\")
        self.digit("u")
        low = int(self.digit("dD") + self.digit("cdefCDEF") + self.digit() + self.digit(), 16)
        return chr(0x10000 + ((code - 0xD800) << 10) + low - 0xDC00)

    def lines(self) -> str:
        """A string of several lines between triple quotes."""
        margin = self.at - (self.text.rfind("\n", 0, self.at) + 1)
        self.at += 3
        start = self.at
        while self.here(3) != "'''":
            if self.here() in ("\r", "\n"):
                self.line_end()
            else:
                self.plain()
        first, *later = self.text[start:self.at].replace("\r\n", "\n").split("\n")
        self.at += 3
        first = first.lstrip(" \t")
        later = [line[min(margin, len(line) - len(line.lstrip(" \t"))):] for line in later]
        made = "\n".join(later if later and not first else [first, *later])
        return made.removesuffix("\n")


def read(text: str) -> tuple[Value, None] | tuple[None, tuple[int, int]]:
    """The text's root; or the rule that it breaks, 15 or 16, and the place. Places count characters."""
    reader = Reader(text)
    try:
        root, failed = reader.document(), None
    except NotDocument as fault:
        root, failed = None, fault.place
    if reader.deep is not None:
        return None, (16, reader.deep)
    return (root, None) if failed is None else (None, (15, failed))
