"""A part of TOML, written without any package: what simple_toml.py reads."""
from __future__ import annotations

import os
import re

from .simple_toml import ESCAPED, NOT_ALLOWED, TOKEN, Entry, Number, Path, Value

WIDTH = 100  # of a line; a longer list has a line for each value
BARE = re.compile("[A-Za-z0-9_-]+")
LETTERS = {character: letter for letter, character in ESCAPED.items()}
BYTES = re.compile("([\udc80-\udcff])|([^\udc80-\udcff]+)")
FIRST_BYTE = 0xDC00  # plus a byte: the character that stands for it, where it is no UTF-8


def written(value: Value) -> str:
    """Returns a value as it is written."""
    if isinstance(value, bool):
        return str(value).lower()
    if isinstance(value, list):
        return f"[{', '.join(map(written, value))}]"
    return str(value) if isinstance(value, Number) else quoted(value)


def quoted(text: str) -> str:
    """Returns a string as it is written, which is easiest to read without backslashes."""
    inner = "".join(map(escaped, text))
    return f"'{text}'" if "\\" in inner and "'" not in text and text.isprintable() else f'"{inner}"'


def escaped(character: str) -> str:
    """Returns a character as it is written in a string."""
    if character in LETTERS:
        return f"\\{LETTERS[character]}"
    if character.isprintable():
        return character
    code = ord(character)
    return f"\\u{code:04X}" if code < 0x10000 else f"\\U{code:08X}"


def lines_of(path: Path, value: Value) -> str:
    """Returns the line of an entry, or the lines."""
    table, key = path
    if not key:
        return f"[{table}]"
    head = f"{key if BARE.fullmatch(key) else quoted(key)} = "
    line = head + written(value)
    if isinstance(value, list) and len(line) > WIDTH:
        return "\n".join([f"{head}[", *(f"    {written(each)}," for each in value), "]"])
    return line


def new_entry(path: Path, value: Value, above: list[str] | None = None) -> Entry:
    """Returns an entry that the file doesn't have, with these comments above it."""
    space = [] if path[1] or above else [""]
    return Entry(*path, value, 0, above or space, lines_of(path, value))


def changed(entry: Entry, value: Value) -> Entry:
    """Returns an entry with another value. All comments stay: one behind the value, and those
    between the values of a list above."""
    tokens = TOKEN.finditer(entry.text)
    comments = [token["comment"] for token in tokens if token.lastgroup == "comment"]
    if "\n" in entry.text:
        return new_entry(entry.path, value, [*entry.above, *comments])
    text = "  ".join([lines_of(entry.path, value), *comments])
    return entry._replace(value=value, text=text)


def as_comment(line: str) -> str:
    """Returns a line of a comment, in which what TOML can't have is spelled."""
    return re.sub(NOT_ALLOWED, lambda found: f"\\x{ord(found[0]) & 0xFF:02x}", line)


def value_of(text: str) -> Value:
    """Returns a text as a value."""
    known = os.fsencode(text).decode("utf-8", "surrogateescape")
    parts: list[Value] = [
        Number(ord(byte) - FIRST_BYTE) if byte else part for byte, part in BYTES.findall(known)
    ]
    return parts if any(isinstance(part, Number) for part in parts) else known
