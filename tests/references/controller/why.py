"""What `--why` prints: a line for each time that a side fails, and for each move that is retaken.

    twogtp: game N: SIDE: OWED: CAUSE; it wrote "BYTES"
    twogtp: game N: SIDE: OWED: CAUSE; nothing of it was read
    twogtp: game N: SIDE: not started: REASON: "PROGRAM"
"""
from __future__ import annotations

from typing import NamedTuple, Sequence

from ..engine.values import Colour

MOST_BYTES = 80

# The causes. After those of a pipe comes how the process ended.
OUTPUT_ENDED = "its output ended"
WRITING_FAILED = "writing failed"
RAN_ON = "but it ran on"
NO_STATUS = "not a GTP reply (it begins with neither = nor ?)"
OVERLONG = "no end of a reply in 8192 bytes"
WRONG_ID = "a reply without the awaited id"
UNASKED = "a reply to nothing that was asked"
UNFIT = "unfit: the command failed, or was answered wrongly"
REFUSED_PLAY = "the play was refused"
KEPT_MOVE = "the refused move was not taken back: the other side forfeits"
NO_MOVE = "no move: the genmove failed"
NO_VERTEX = "neither a vertex nor resign"
OFF_THE_BOARD = "an illegal move: off the board"
OCCUPIED = "an illegal move: the point is occupied"
SUICIDE = "an illegal move: suicide"
KO = "an illegal move: ko"

# The bytes from 32 to 126 that don't stand for themselves, and the others that have a letter.
NAMED = {ord('"'): '\\"', ord("\\"): "\\\\", ord("\n"): "\\n", ord("\r"): "\\r", ord("\t"): "\\t"}


class Sent(NamedTuple):
    """A command that was sent, by its id."""

    id: int
    command: str


Unanswered = Sequence[Sent]  # the oldest first


def line(number: int, side: Colour, text: str) -> bytes:
    """Returns the line of a loss or of a retake in the game of this number."""
    return f"twogtp: game {number}: {side}: {text}\n".encode()


def not_started(reason: str, program: bytes) -> str:
    """Returns the text for a side whose engine, which is this program, can't be started."""
    return f"not started: {reason}: {quoted(program)}"


def lost(unanswered: Unanswered, cause: str, data: bytes) -> str:
    """Returns the text for a side that fails by what it wrote since its last whole reply."""
    return f"{owed(unanswered)}: {cause}; it wrote {quoted(data)}"


def cut_off(unanswered: Unanswered, cause: str, ending: str, data: bytes) -> str:
    """Returns the text for a side whose pipe is broken, and whose process ended so.

    Only at the end of its output is it known that all of its output was read.
    """
    if data or cause == OUTPUT_ENDED:
        return lost(unanswered, f"{cause}, {ending}", data)
    return f"{owed(unanswered)}: {cause}, {ending}; nothing of it was read"


def retaken(count: int, most: int) -> str:
    """Returns the cause of a retake, of which a move number may have so many."""
    return f"{REFUSED_PLAY} (retake {count} of {most})"


def owed(unanswered: Unanswered) -> str:
    """Returns how many commands are unanswered, and the oldest of them."""
    if not unanswered:
        return "0 unanswered"
    number, command = unanswered[0]
    the_first = " the first" if len(unanswered) > 1 else ""
    return f'{len(unanswered)} unanswered,{the_first} "{number} {command}"'


def quoted(data: bytes) -> str:
    """Returns the first of these bytes in quotes."""
    return f'"{escaped(data[:MOST_BYTES])}"'


def escaped(data: bytes) -> str:
    """Returns these bytes as text of one line, from which they can be read again."""
    return "".join(
        NAMED.get(byte) or (chr(byte) if 32 <= byte <= 126 else f"\\x{byte:02X}") for byte in data
    )
