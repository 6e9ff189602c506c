"""Random words and lines: values as they may be spelled, and what is nearly one."""
from __future__ import annotations

from random import Random
from typing import Sequence

from . import values
from .engine import Engine
from .values import BLACK, Colour, Vertex

NAMES = [name.encode() for name in Engine.names]
NEARLY_NAMES = (
    b"Name PLAY nam namee genmove_ undo2 time_left loadsgf reg_genmove place_free_handicap"
    b" set_free_handicap final_status_list komi6.5".split(b" ")
    + [b"show board", b"\xffname", b"=", b"?"]
)
NEARLY_INTS = [
    *b"-1 +1 1.0 nine 0x9 9a a9 1e1 9\x80 1_0 / : 00 2147483646 2147483647".split(b" "),
    *b"2147483648 4294967295 4294967296 4294967305 9999999999 18446744073709551617".split(b" "),
    *b"0000000000000009 255 256 257".split(b" "),
    b"0" * 200 + b"5",
]
NEARLY_COLOURS = b"x bl green blackk whit b. 0 BW \xe2 b\x80".split(b" ")
NEARLY_VERTICES = (
    b"I5 i1 A0 A26 Z25 A01 a A1x A-1 AA1 1A A+1 pas passs resign Z26 A99 A100 A256 A257 J1\x80"
    b" \xc01 @1 [1 `1 {1 A/ A: A1: A025 z1 Z01"
).split(b" ")
NEARLY_KOMIS = (
    b". - + 6.05 6.55 6.7 1e1 1000000000 0000000006.5 .5000000000 .0000000000 --1 +-1 5.500000001"
    b" 5.51 1.5. 1..5 1,5 0x1 inf nan 5.\xb5 .5- 5- 5: 5/5 -0 7. +.5 -.5 -.0 999999999.5"
    b" -999999999.5 +999999999.500000000 000000006.5 .000000000"
).split(b" ")
NEARLY_ENTRIES = [*NEARLY_VERTICES, b" ", b" A1", b"A1 ", b"resignn", b"A1;B2", b"A1\t"]
CONTROLS = [byte for byte in [*range(32), 127] if byte not in (9, 10)]


# ---- words


def in_any_letters(rng: Random, text: bytes) -> bytes:
    """Returns the text, at times with small and capital letters changed."""
    upper, lower = text.upper(), text.lower()
    return rng.choice([text, text, upper, lower, text.swapcase(), text.title()])


def int_word(rng: Random, most: int) -> bytes:
    """Returns an int up to `most`, or something like an int."""
    if rng.random() < 0.3:
        return rng.choice(NEARLY_INTS)
    return b"0" * rng.choice([0, 0, 0, 1, 9, 20]) + b"%d" % rng.randint(0, most)


def colour_word(rng: Random, colour: Colour, odd: float = 0.03) -> bytes:
    """Returns a spelling of the colour, or now and then something like one."""
    if rng.random() < odd:
        return rng.choice(NEARLY_COLOURS)
    return in_any_letters(
        rng, rng.choice([b"b", b"black"] if colour == BLACK else [b"w", b"white"])
    )


def vertex_word(rng: Random, vertex: Vertex, odd: float = 0.03) -> bytes:
    """Returns a spelling of the vertex, or now and then something like one."""
    if rng.random() < odd:
        return rng.choice(NEARLY_VERTICES)
    return in_any_letters(rng, values.write_vertex(vertex))


def komi_word(rng: Random) -> bytes:
    """Returns a komi, or something like one."""
    if rng.random() < 0.4:
        return rng.choice(NEARLY_KOMIS)
    whole = b"".join(b"%d" % rng.randint(0, 9) for _ in range(rng.choice([0, 1, 1, 2, 8, 9, 10])))
    fractions = [
        b"",
        b".",
        b"." + b"0" * rng.randint(1, 10),
        b".5" + b"0" * rng.randint(0, 9),
        b".%d" % rng.randint(0, 10**9),
    ]
    return rng.choice([b"", b"", b"+", b"-"]) + whole + rng.choice(fractions)


def book(rng: Random, entries: int) -> bytes:
    """Returns a book of so many entries, or now and then a text that is nearly one."""
    widest = rng.choice([2, 3, 5, 9, 25])
    odd = rng.choice([0, 0, 0, 0, 0.02])
    words = [book_entry(rng, widest, odd) for _ in range(entries)]
    return b",".join(word for word in words if word.isascii())


def book_entry(rng: Random, widest: int, odd: float) -> bytes:
    """Returns an entry of a book, or so often something like one."""
    kind = rng.random()
    if kind < odd:
        return rng.choice(NEARLY_ENTRIES)
    if kind < 0.2:
        return in_any_letters(rng, rng.choice([b"", b"", b"resign", b"pass"]))
    point = (rng.randint(1, widest), rng.randint(1, widest))
    return in_any_letters(rng, values.write_vertex(point))


# ---- lines


def noisy(rng: Random, words: Sequence[bytes]) -> bytes:
    """Returns a line of these words with spaces, HTs, control characters and a comment."""
    line = b"".join(word + bytes(rng.choices(b" \t", k=rng.choice([1, 1, 2, 9]))) for word in words)
    line = rng.choice([b"", b"", b"\t", b"  "]) + (line if rng.random() < 0.5 else line[:-1])
    if rng.random() < 0.25:
        comment = rng.choices([35, 32, 9, 65, 13, 0, 200, 48], k=rng.choice([0, 1, 30]))
        line += b"#" + bytes(comment)
    for _ in range(rng.choice([0, 0, 1, 4])):
        place = rng.randint(0, len(line))
        line = line[:place] + bytes([rng.choice(CONTROLS)]) + line[place:]
    return line + rng.choice([b"", b"\r"])


def odd_line(rng: Random) -> bytes:
    """Returns a line of bytes that need be no command."""

    def some(alphabet: Sequence[int], most: int) -> bytes:
        return bytes(rng.choices(alphabet, k=rng.randint(0, most)))

    lines = [
        lambda: b"",
        lambda: some(b" \t\r\x00\x0b\x0c\x7f", 12),
        lambda: b"#" + some(range(11, 256), 20),
        lambda: some(range(256), 40),
        lambda: some(b"019 #\tabAB\xff=?", 20),
        lambda: noisy(rng, [int_word(rng, 9)]),
        lambda: noisy(rng, [rng.choice(NAMES)[: rng.randint(1, 20)], int_word(rng, 30)]),
        lambda: noisy(rng, [rng.choice(NEARLY_NAMES), int_word(rng, 30)]),
    ]
    return rng.choice(lines)()


def long_line(rng: Random) -> bytes:
    """Returns a line that has about as many bytes as are allowed, 1,000, or at times many more.

    They are counted in the words, joined by single spaces. There may be bytes that don't count.
    """
    zeros = b"0" * rng.choice([0, 1, 9, 50, 980, 996])
    number = zeros + rng.choice([b"7", b"0", b"2147483647", b"2147483648"])
    commands = [b"known_command", b"name", b"quit", b"play b A1", b"komi", b"boardsize 9"]
    command = rng.choice([*commands, b"boardsize " + b"0" * 900, b"x"])
    words = [number, command][rng.choice([1, 0]) :]
    wanted = 1000 + rng.choice([-2, -1, 0, 0, 1, 1, 2, 3, 500, 9000, rng.randint(-30, 30)])
    while (left := wanted - len(b" ".join(words)) - 1) > 0:
        letter = rng.choice([b"x", b"0", b"\xff"])
        words.append(letter * rng.choice([left, min(left, rng.randint(1, 300))]))
    return noisy(rng, words) if rng.random() < 0.6 else b" ".join(words)
