"""A part of TOML, read without any package: `KEY = VALUE`, and after a line `[TABLE]` the keys of
that table. A value is a string in one line, a number, true, false, or a list.

What isn't in this part is a mistake. Comments and empty lines belong to the key below them. A text
whose bytes are no UTF-8 can't be a string of TOML: it is a list of strings and of numbers, each of
which is a byte.
"""
from __future__ import annotations

import os
import re
from typing import Iterator, List, NamedTuple, NoReturn, Tuple, Union

from ..output import Mistake

DEEPEST = 3  # lists in each other
SHOWN = 60  # characters of what isn't understood
TOKEN = re.compile(
    r"[ \t]*(?:(?P<comment>#[^\n]*)|(?P<end>\n)|(?P<word>[A-Za-z0-9_.+-]+)"
    r"|(?P<equals>=)|(?P<open>\[)|(?P<close>\])|(?P<comma>,)"
    r"|\"(?P<string>(?:[^\"\\\n]|\\.)*)\"|'(?P<literal>[^'\n]*)')"
)
NUMBER = "-?(0|[1-9][0-9]*)([.][0-9]+)?"
ESCAPE = r"\\(?:u([0-9A-Fa-f]{4})|U([0-9A-Fa-f]{8})|(.))"
NOT_ALLOWED = "[\0-\x08\x0b-\x1f\x7f\udc80-\udcff]"
ESCAPED = {"b": "\b", "t": "\t", "n": "\n", "f": "\f", "r": "\r", '"': '"', "\\": "\\"}
SURROGATES = range(0xD800, 0xE000)
LAST_CHARACTER = 0x10FFFF


class Number(str):
    """A number, as it is written."""


Value = Union[str, Number, bool, List["Value"]]
Path = Tuple[str, str]  # of an entry: its table and its key, one of which may be empty


class Entry(NamedTuple):
    """A key with its value, or the line of a table, whose key is empty: in which line it begins,
    the comments above it, and its own text."""

    table: str
    key: str
    value: Value
    line: int
    above: list[str]
    text: str

    @property
    def path(self) -> Path:
        """Returns what no other entry has."""
        return self.table, self.key


class Document(NamedTuple):
    """All entries of a file, and the comments below them."""

    entries: list[Entry]
    below: list[str]


class Reader:
    """What is read of a text, from left to right."""

    def __init__(self, text: str, place: str) -> None:
        self.text, self.place, self.at = f"{text}\n".replace("\r\n", "\n"), place, 0
        if not self.text.replace("\n", "").isprintable():
            if wrong := re.search(NOT_ALLOWED, self.text):
                self.at = wrong.start()
                self.fail(f"a comment or a string can't have {ascii(wrong[0])}")

    def line(self) -> int:
        """Returns the number of the line."""
        return self.text.count("\n", 0, self.at) + 1

    def fail(self, reason: str) -> NoReturn:
        """Raises Mistake for this reason."""
        raise Mistake(f"line {self.line()} of {self.place}: {reason}")

    def take(self, *kinds: str) -> str | None:
        """Goes behind the next token if it is of one of these kinds, and returns its text."""
        found = TOKEN.match(self.text, self.at)
        if not found or found.lastgroup not in kinds:
            return None
        self.at = found.end()
        return found[found.lastgroup]

    def rest(self) -> str:
        """Returns what the line has from here on, the beginning."""
        return self.text[self.at : self.text.index("\n", self.at)].strip()[:SHOWN]

    def entries(self) -> Iterator[Entry]:
        """Yields all entries, and at last one without table, key and value."""
        table, above = "", []
        while self.at < len(self.text):
            begin, line = self.at, self.line()
            self.take("comment")
            if self.take("end"):
                above.append(self.text[begin : self.at - 1])
                continue
            header = self.header()
            table = header or table
            key, value = ("", "") if header else (self.key(), self.value())
            self.take("comment")
            if not self.take("end"):
                self.fail(f"what is behind the value isn't understood: {self.rest()}")
            yield Entry(table, key, value, line, above, self.text[begin : self.at - 1])
            above = []
        yield Entry("", "", "", self.line(), above, "")

    def header(self) -> str | None:
        """Reads the line of a table, and returns the name; None where none is there."""
        begin = self.at
        name = self.take("word") if self.take("open") else None
        if name and self.take("close"):
            return name
        self.at = begin
        return None

    def key(self) -> str:
        """Reads a key and the = behind it, and returns the key."""
        line, word = self.rest(), self.take("word")
        key = self.string() if word is None else word
        needs_quotes = word is not None and ("." in word or "+" in word)
        if not key or needs_quotes or not self.take("equals"):
            self.fail(f"it isn't understood: {line}; write KEY = VALUE, and quote a key with a dot")
        return key

    def string(self) -> str | None:
        """Reads a string, and returns its text; None where none is there."""
        literal = self.take("literal")
        text = self.take("string") if literal is None else literal
        has_escapes = literal is None and text is not None and "\\" in text
        return re.sub(ESCAPE, self.character, text or "") if has_escapes else text

    def character(self, escape: re.Match[str]) -> str:
        """Returns the character of an escape."""
        digits, letter = escape[1] or escape[2], escape[3]
        code = int(digits, 16) if digits else 0
        if digits and code <= LAST_CHARACTER and code not in SURROGATES:
            return chr(code)
        return ESCAPED.get(letter) or self.fail(f"there is no character {escape[0]}")

    def value(self, depth: int = 0) -> Value:
        """Reads a value, and returns it."""
        string = self.string()
        if string is not None:
            return string
        rest = self.rest()
        word = self.take("word")
        if word in ("true", "false"):
            return word == "true"
        if word and re.fullmatch(NUMBER, word):
            return Number(word)
        if not word and depth < DEEPEST and self.take("open"):
            return self.items(depth + 1)
        self.fail(f"it is no text in quotes, number or list: {rest or 'nothing'}")

    def items(self, depth: int) -> list[Value]:
        """Reads the values of a list, and returns them."""
        values: list[Value] = []
        self.skip()
        while self.take("close") is None:
            values.append(self.value(depth))
            self.skip()
            if self.take("comma"):
                self.skip()
            elif not self.rest().startswith("]"):
                self.fail(f"behind a value of a list belongs , or ], and not {self.rest()}")
        return values

    def skip(self) -> None:
        """Goes behind comments and ends of lines."""
        while self.take("comment", "end"):
            pass


def read(text: str, place: str) -> Document:
    """Returns what a text has, which is in this place."""
    *entries, last = Reader(text.removesuffix("\n"), place).entries()
    lines: dict[Path, int] = {}
    for entry in entries:
        name = entry.key or f"[{entry.table}]"
        if entry.path in lines:
            first = lines[entry.path]
            raise Mistake(f"line {entry.line} of {place}: line {first} has {name}, too")
        lines[entry.path] = entry.line
    return Document(entries, last.above)


def text_of(value: Value) -> str | None:
    """Returns the text that a value is; None where it is none."""
    if isinstance(value, Number):
        return None
    parts = [bytes_of(part) for part in (value if isinstance(value, list) else [value])]
    return None if None in parts else os.fsdecode(b"".join(filter(None, parts)))


def bytes_of(part: Value) -> bytes | None:
    """Returns the bytes of a string, or the byte of a number; None where it is none."""
    if isinstance(part, Number):
        return bytes([int(part)]) if part.isdecimal() and int(part) < 256 else None
    return part.encode("utf-8") if isinstance(part, str) else None
