"""What a controller reads: the replies of an engine, as docs/protocol.md has them."""
from __future__ import annotations

from enum import Enum
from typing import NamedTuple, Optional, Union

from ..engine import values

MOST_BYTES = 8192
HT, LF, SPACE = 9, 10, 32
# The control characters that are removed. (The standard, preprocessing.)
REMOVED = frozenset(byte for byte in [*range(32), 127] if byte not in (HT, LF))


class Reply(NamedTuple):
    """A whole reply."""

    ok: bool  # the command succeeded
    id: Optional[int]
    text: bytes


class NoReply(Enum):
    """Why bytes are no reply."""

    NO_STATUS = "no status"
    OVERLONG = "overlong"


class Reading(NamedTuple):
    """The first thing in some bytes, or None, and how many bytes it takes."""

    result: Union[Reply, NoReply, None]
    used: int


def first(data: bytes) -> Reading:
    """Returns the first thing in these bytes, which are all that was read since the last reply.

    They are counted as they were read, and byte 8,193 is too many, whatever byte that is (own). CR
    and all other control characters except HT and LF are removed, and HT becomes a space. Spaces
    and newlines before a reply are skipped (own). A reply begins with = or ?, and ends with two
    newlines. (The standard, response structure.)
    """
    reply = bytearray()
    for number, byte in enumerate(data, 1):
        if number > MOST_BYTES:
            return Reading(NoReply.OVERLONG, number)
        if byte in REMOVED:
            continue
        if not reply:
            if byte in b" \t\n":
                continue
            if byte not in b"=?":
                return Reading(NoReply.NO_STATUS, number)
        reply.append(SPACE if byte == HT else byte)
        if byte == LF and reply.endswith(b"\n\n"):
            return Reading(read_reply(bytes(reply[:-2])), number)
    return Reading(None, len(data))


def read_reply(line: bytes) -> Reply:
    """Returns the reply whose bytes these are, without its two newlines.

    The digits straight after the status are its id, where they are an int; else they belong to the
    text. (The standard, response structure.)
    """
    body = line[1:]
    digits = body[: len(body) - len(body.lstrip(b"0123456789"))]
    number = values.read_int(digits)
    text = body if number is None else body[len(digits) :]
    return Reply(line[:1] == b"=", number, text.strip(b" "))


def words(text: bytes) -> list[bytes]:
    """Returns the words of a reply's text, which runs of spaces and newlines separate."""
    return text.replace(b"\n", b" ").split()
