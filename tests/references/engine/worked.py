"""Reads the conversations that were worked out by hand.

None of them was taken from the program or from the reference.
"""
from __future__ import annotations

import re
from pathlib import Path
from typing import Iterator, NamedTuple, Optional

from .engine import Options, Result
from .game import KoRule
from .policies import PolicyName

FILE = Path(__file__).resolve().parent / "worked.txt"


class Worked(NamedTuple):
    """A conversation: what it shows, the options and the input of the program, and its result."""

    name: str
    given: dict[str, str]
    data: bytes
    result: Result

    @property
    def arguments(self) -> list[str]:
        """The arguments of the program."""
        return [f"{option}={value}" for option, value in self.given.items()]

    @property
    def options(self) -> Options:
        """The options of the reference."""
        known = {"--policy": "first", "--seed": "1", "--book": "", "--ko": "simple", **self.given}
        policy, rule = PolicyName(known["--policy"]), KoRule(known["--ko"])
        return Options(policy, int(known["--seed"]), known["--book"].encode(), rule)


def conversations() -> list[Worked]:
    """Returns all worked conversations."""
    return [*written(), *computed()]


def written() -> Iterator[Worked]:
    """Yields those that are written in worked.txt."""
    for section in re.split(r"^== ", FILE.read_text(), flags=re.MULTILINE)[1:]:
        heading, *lines = section.rstrip("\n").split("\n")
        name, _, options = heading.partition(" | ")
        words = options.split()
        data = b""
        output = b""
        for line, following in zip(lines, lines[1:] + [""]):
            if line.startswith("    "):
                output += line[4:].encode() + (b"\n" if following.startswith("    ") else b"\n\n")
            else:
                data += unescaped(line) + b"\n"
        yield answered(name, data, output, dict(zip(words[::2], words[1::2])))


def unescaped(line: str) -> bytes:
    """Returns the bytes that a line of worked.txt stands for."""
    spelled = line.replace("\\t", "\\x09").replace("\\r", "\\x0d").encode()
    return re.sub(rb"\\x([0-9a-f]{2})", lambda digits: bytes([int(digits[1], 16)]), spelled)


def answered(
    name: str, data: bytes, output: bytes, options: Optional[dict[str, str]] = None
) -> Worked:
    """Returns a conversation that ends well."""
    return Worked(name, options or {}, data, Result(0, output, b""))


def computed() -> Iterator[Worked]:
    """Yields those that are too long for worked.txt, or have no reply or no last newline."""
    passes = b"play b pass\n" * 2000
    after = b"play b pass\nplay b Z25\ngenmove w\ngenmove\nundo\nplay b Z25\nplay b pass\n"
    replies = b"? record full\n\n" * 3 + b"? syntax error\n\n=\n\n? illegal move\n\n=\n\n"
    yield answered(
        "a full record refuses before the board does", passes + after, b"=\n\n" * 2000 + replies
    )
    lines = [b"known_command " + b"x" * 986, b"known_command " + b"x" * 987]
    data = b"\n".join([*lines, b"7 known_command " + b"x" * 985, b""])
    refused = b"= false\n\n" + 2 * b"? syntax error\n\n"
    yield answered("the words of a line have at most 1,000 bytes", data, refused)
    named = b"= stepgo\n\n"
    spaced = b" " * 5000 + b"name" + b" " * 5000
    yield answered("what doesn't count may be longer", spaced + b"\n", named)
    yield answered("so may a comment", spaced + b"#" + b"x" * 5000 + b"\n", named)
    yield answered("an unfinished first line is not executed", b"name", b"")
    yield answered("an unfinished last line is not executed", b"name\nquit", named)
    for book in ("C3,D44", " ", "I1", "C3, D4", "C3,,x", ",,,I5,", "resign,resigned", "," * 2000):
        result = Result(2, b"", b"gtp_engine: bad book\n")
        yield Worked(f"no book is {quoted(book)}", {"--book": book}, b"name\n", result)
    for book in ("", ",", "PASS", "ReSiGn,,z25", "C3,,resign", "," * 1999):
        yield answered(f"a book is {quoted(book)}", b"name\n", named, {"--book": book})


def quoted(book: str) -> str:
    """Returns what a book is called."""
    return f"{len(book):,} commas" if len(book) > 100 else f"'{book}'"
