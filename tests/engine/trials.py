"""Random conversations with an engine and with the reference, and a report of a difference."""
from __future__ import annotations

import contextlib
import copy
import os
import random
import re
import tempfile
import time
from pathlib import Path
from typing import Iterator, Optional, Sequence
from unittest import mock

from tests.references.engine import engine
from tests.references.engine.conversations import KINDS, conversation
from tests.references.engine.engine import Engine, Options
from tests.references.engine.game import SIMPLE
from tests.references.engine.values import Colour, Vertex

from .feeding import Result, feed_at_once, feed_in_pieces

SHRINKING = 10  # seconds that are spent on making a failing input smaller
PIECES = "pieces"  # conversations of the other kinds, whose input comes in pieces


def number_of(kind: str, count: int) -> int:
    """Returns how many conversations of this kind there are where a quick kind has so many."""
    return count if kind == PIECES else max(1, count // KINDS[kind].one_in)


def arguments_of(options: Options, rng: random.Random) -> list[str]:
    """Returns the options, in any order, in one word or in two; a default may be left out."""
    values = [
        ("--policy", str(options.policy), "first"),
        ("--seed", str(options.seed), "1"),
        ("--book", os.fsdecode(options.book), ""),
        ("--ko", str(options.rule), "simple"),
    ]
    rng.shuffle(values)
    words: list[str] = []
    for option, value, default in values:
        if value != default or rng.random() < 0.5:
            is_one_word = value.startswith("-") or rng.random() < 0.5
            words += [f"{option}={value}"] if is_one_word else [option, value]
    return words


@contextlib.contextmanager
def positional_refusals() -> Iterator[list[Vertex]]:
    """Collects each play that the reference refuses by positional ko, and simple ko would allow."""
    refused: list[Vertex] = []
    refuse = Engine.refuse

    def record_and_refuse(self: Engine, colour: Colour, vertex: Optional[Vertex]) -> None:
        by_simple_ko = copy.copy(self)
        by_simple_ko.rule = SIMPLE
        if vertex is not None and by_simple_ko.is_legal(colour, vertex):
            refused.append(vertex)
        refuse(self, colour, vertex)

    with mock.patch.object(Engine, "refuse", record_and_refuse):
        yield refused


class Trial:
    """A random conversation with an engine, and the same with the reference."""

    def __init__(self, program: Path, kind: str, seed: str) -> None:
        self.program = program
        self.seed = seed
        rng = random.Random(seed)
        quick = [name for name in KINDS if KINDS[name].one_in == 1]
        self.conversation = conversation(rng.choice(quick) if kind == PIECES else kind, seed)
        self.arguments = arguments_of(self.conversation.options, rng)
        self.in_pieces = kind == PIECES and self.wanted(self.conversation.data).status == 0

    def wanted(self, data: bytes) -> Result:
        """Returns the result of the reference that is given this input."""
        return Result(*engine.run(self.conversation.options, data))

    def got(self, data: bytes) -> Result:
        """Returns the result of the engine that is given this input."""
        if not self.in_pieces:
            return feed_at_once(self.program, self.arguments, data)
        changed = self.conversation._replace(data=data)
        return feed_in_pieces(self.program, self.arguments, changed, random.Random(self.seed))

    def agrees(self, data: Optional[bytes] = None) -> bool:
        """Returns whether both results are equal, for the whole input where none is given."""
        data = self.conversation.data if data is None else data
        return self.got(data) == self.wanted(data)

    def shrunk(self) -> bytes:
        """Returns a smaller input on which both still differ."""
        lines = split_lines(self.conversation.data)
        end = time.monotonic() + SHRINKING
        size = len(lines)
        while size > 0 and time.monotonic() < end:
            start = 0
            dropped = False
            while start < len(lines) and time.monotonic() < end:
                fewer = lines[:start] + lines[start + size :]
                if self.agrees(b"".join(fewer)):
                    start += size
                else:
                    lines = fewer
                    dropped = True
            size = size if dropped and size == 1 else size // 2
        return b"".join(lines)

    def difference(self) -> str:
        """Returns a report of an input on which both differ, which is kept in a folder."""
        if self.in_pieces:
            self.in_pieces = False
            self.in_pieces = self.agrees()
        data = self.shrunk()
        folder = Path(tempfile.mkdtemp(prefix="conversation-"))
        (folder / "input").write_bytes(data)
        words = b"".join(os.fsencode(word) + b"\0" for word in self.arguments)
        (folder / "arguments").write_bytes(words)
        again = f"xargs -0 -a {folder}/arguments {self.program} < {folder}/input"
        how = "in pieces" if self.in_pieces else f"again by: {again}"
        return "\n".join(
            [
                f"the seed is '{self.seed}', the arguments are {shorten(repr(self.arguments))}",
                f"--- input; {how}",
                readable(data),
                *report("reference", self.wanted(data)),
                *report("engine", self.got(data)),
            ]
        )


def report(who: str, result: Result) -> Sequence[str]:
    """Returns the lines that show a result."""
    return [
        f"--- the {who}: status {result.status}",
        readable(result.output),
        f"--- the {who}'s standard error: {readable(result.errors)}",
    ]


def split_lines(data: bytes) -> list[bytes]:
    """Returns the lines, each with its newline; the last one may have none."""
    return re.findall(rb"[^\n]*\n|[^\n]+", data)


def readable(data: bytes) -> str:
    """Returns the bytes as text, with escapes; what is long is cut."""
    lines = [shorten(repr(line)[2:-1].replace("\\n", "")) for line in split_lines(data)]
    if len(lines) > 200:
        lines = [*lines[:40], f".. ({len(lines)} lines) ..", *lines[-100:]]
    return "\n".join(lines)


def shorten(text: str) -> str:
    """Returns the text, or its beginning where it is long."""
    return text if len(text) <= 300 else f"{text[:200]} .. ({len(text)} characters)"
