"""Reads what gtp_check writes: a line, a block for each complaint, notes, and the last line."""
from __future__ import annotations

import re
from typing import NamedTuple, Optional, Tuple

OUTPUT = re.compile(
    r"""
    check:\ (?:".*"|an\ engine\ without\ a\ name),\ version\ (?:".*"|unknown)
    ,\ seed\ \d+,\ (?:(?:simple|positional)\ ko|ko\ unasked)\n
    (?P<blocks>(?:[\d\#].*\n|\n)*)
    (?P<notes>(?:check:\ .*\n)*)
    check:\ (?P<commands>\d+)\ commands?,\ (?P<starts>\d+)\ starts?,\ (?P<count>\d+)\ complaints?\n
    """,
    re.VERBOSE,
)
BLOCK = re.compile(
    r"""
    \#\ (?P<number>\d+)\ (?P<lesson>\w+):\ "(?P<command>.*)":\ (?P<fault>.*)\n
    (?:\#\ earlier\ lines\ left\ out:\ (?P<left_out>[1-9]\d*)\ \(--trials\ 0\ shows\ them\);
      \ this\ block\ alone\ may\ not\ show\ the\ mistake\n)?
    (?P<before>(?:\d.*\n|\#\ =\ .*\n)*)
    (?P<board>(?:\#\ [.XO\ ]+\d+\n)+\#\ [A-Z\ ]+\n)?
    (?P=command)\n
    (?P<in_pieces>\#\ that\ line\ came\ in\ two\ pieces:
      \ a\ right\ engine\ waits\ for\ its\ newline\n)?
    \#\ it\ wrote:\ "(?P<wrote>.*)"\n
    \#\ right:\ (?P<right>.*)\n
    (?P<in_a_row>\#\ the\ last\ move\ was\ of\ the\ same\ colour:
      \ moves\ of\ one\ colour\ in\ a\ row\ are\ legal\n)?
    (?P<in_full>\#\ if\ it\ takes\ the\ same\ with\ b\ or\ w,\ this\ is\ the\ cause:
      \ a\ colour\ may\ be\ written\ in\ full,\ black\ or\ white\n)?
    (?P<ran_on>\#\ an\ answer\ may\ have\ run\ on\ into\ the\ next:
      \ does\ each\ end\ with\ an\ empty\ line,\ a\ failure\ too\?\n)?
    (?:\#\ asked\ before\ this\ answer\ was\ read:\n(?P<ahead>(?:\d.*\n)+))?
    (?:\#\ (?P<hint>(?:if|under)\ .*try\ --.*|if\ it\ never\ can:\ .*)\n)?
    """,
    re.VERBOSE,
)
HIDDEN = re.compile(r"check: \w+: more complaints, of kinds that were shown three times: (\d+)\n")
CHOICE = re.compile(r"^(\d+ genmove \w+)\n# = (.*)\n", re.MULTILINE)
COLUMNS = "A B C D E F G H J K L M N O P Q R S T U V W X Y Z"


class Choice(NamedTuple):
    """A line that asks for a move, and the move that the engine chose."""

    line: str
    move: str


class Complaint(NamedTuple):
    """A block of the output."""

    number: int
    lesson: str
    command: str  # the line of the command that was answered wrongly
    fault: str
    lines: Tuple[str, ...]  # the conversation, up to and with that command
    wrote: str  # a character for each byte
    right: str
    in_pieces: bool  # whether that line is said to have come in two pieces
    left_out: int  # how many earlier lines are said to be left out
    chosen: Tuple[Choice, ...]
    in_a_row: bool  # whether the last move is said to be of the same colour
    ran_on: bool  # whether an answer is said to have run on
    ahead: Tuple[str, ...]  # the lines that were sent before the answer was read
    in_full: bool  # whether a colour in full is said to be a possible cause
    hint: str  # what is said to be tried

    @property
    def name(self) -> str:
        """Returns the name of the command that was answered wrongly."""
        return self.command.split()[1]


class Report(NamedTuple):
    """A whole output."""

    complaints: Tuple[Complaint, ...]
    notes: Tuple[str, ...]  # the lines before the last one, without `check: `
    commands: int
    starts: int
    total: int  # of complaints, shown or not


def read_report(output: str) -> Report:
    """Returns what an output says."""
    match = OUTPUT.fullmatch(output)
    assert match, output
    complaints = [read_complaint(block) for block in re.findall(r"(?:.+\n)+", match["blocks"])]
    numbers = [complaint.number for complaint in complaints]
    assert numbers == sorted({*numbers}), output
    count = int(match["count"])
    assert count == len(complaints) + sum(map(int, HIDDEN.findall(match["notes"]))), output
    notes = [line.replace("check: ", "", 1) for line in match["notes"].splitlines()]
    counts = int(match["commands"]), int(match["starts"]), count
    return Report(tuple(complaints), tuple(notes), *counts)


def read_complaint(block: str) -> Complaint:
    """Returns the complaint that a block of lines is."""
    match = BLOCK.fullmatch(block)
    assert match, block
    assert is_board(match["board"]), block
    before = [line for line in match["before"].splitlines() if not line.startswith("#")]
    chosen = [Choice(*pair) for pair in CHOICE.findall(match["before"])]
    assert [line for line, _ in chosen] == [line for line in before if " genmove " in line]
    assert len(before) + len(chosen) == match["before"].count("\n"), block
    return Complaint(
        number=int(match["number"]),
        lesson=match["lesson"],
        command=match["command"],
        fault=match["fault"],
        lines=(*before, match["command"]),
        wrote=match["wrote"].encode("latin-1").decode("unicode_escape"),
        right=match["right"],
        in_pieces=bool(match["in_pieces"]),
        left_out=int(match["left_out"] or 0),
        chosen=tuple(chosen),
        in_a_row=bool(match["in_a_row"]),
        ran_on=bool(match["ran_on"]),
        ahead=tuple((match["ahead"] or "").splitlines()),
        in_full=bool(match["in_full"]),
        hint=match["hint"] or "",
    )


def is_board(text: Optional[str]) -> bool:
    """Tells whether lines draw a board, from the top row down, or there are none."""
    if not text:
        return True
    *rows, letters = text.splitlines()
    size = len(rows)
    return letters == f"# {COLUMNS[: 2 * size - 1]}" and all(
        re.fullmatch(rf"# ([.XO] ){{{size}}}{number}", row)
        for number, row in zip(range(size, 0, -1), rows)
    )
