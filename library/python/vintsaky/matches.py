"""The controller of a match between two engines.

It starts no process: you report what happened, and it says what to do next.
"""
from __future__ import annotations

import ctypes
from dataclasses import dataclass
from enum import IntEnum
from typing import Any, Optional, Tuple

from . import _declared
from ._objects import Bytes, LibraryObject, ascii_of, bytes_of, clamped, integer, int_in_range
from ._library import library, text_of
from ._numbers import Cause, Ending, Loss
from ._refused import Refused, check, shown
from .games import Game
from .values import AnyColour, Colour, Komi, colour_number, half_points, size_number, written

COMMAND_SIZE = 128  # a command has at most 64 bytes
WROTE_SIZE = 128  # at most 80 bytes of a side's output are shown


class Next(IntEnum):
    """What to do next."""

    START = _declared.START  # Start this side's engine, and call `started`.
    SEND = _declared.SEND  # Call `send`, and write what it returns to this side's engine.
    WAIT = _declared.WAIT  # Read this side's output, and call `hear` or `report`.
    OVER = _declared.OVER  # The match is over.


@dataclass(frozen=True)
class Action:
    """What to do next, and with which side."""

    kind: Next
    side: Optional[Colour]


@dataclass(frozen=True)
class Owed:
    """What a side owes.

    These are how many commands it hasn't answered; the oldest of them, as it was sent; and the
    first 80 bytes that it wrote since its last whole reply.
    """

    unanswered: int
    command: str
    wrote: bytes


@dataclass(frozen=True)
class Report:
    """The result of a side's output: why the side fails, if it does, and what it owed then.

    `retake` is the number of the retake at its move number, 1 to 3, if the side refused a play that
    is retaken, else 0. Without a loss, `owed` is what the side owed at the retake.
    """

    loss: Optional[Loss]
    retake: int
    owed: Optional[Owed]


@dataclass(frozen=True)
class Status:
    """How far a side is.

    Its script is the setup, and a play for each move of the record. This is how many commands of it
    the side has confirmed, how many commands it hasn't answered, and whether a genmove is among the
    unanswered ones.
    """

    confirmed: int
    unanswered: int
    asked: bool


@dataclass(frozen=True)
class Verdict:
    """How a match ended.

    It has the score in points if the match ended by score, and the reason if a ruling has one.
    `side` is the one that resigned, forfeited, is unfit, was abandoned or lost by a ruling: never
    the one that won.
    """

    ending: Ending
    side: Optional[Colour]
    score: Optional[float]
    reason: str = ""

    @property
    def winner(self) -> Optional[Colour]:
        """The winner, or None.

        A side wins by the score, or because the other side resigned, forfeited or lost by a ruling.

        >>> Verdict(Ending.BY_RESIGNATION, Colour.BLACK, None).winner
        <Colour.WHITE: 2>
        """
        if self.score:
            return Colour.BLACK if self.score > 0 else Colour.WHITE
        if self.side is None or self.ending in (Ending.BY_UNFIT, Ending.BY_ABANDONED):
            return None
        return self.side.other


def side_number(side: AnyColour) -> int:
    """Returns the number of a side. Errors: BAD_COLOUR, or BAD_TEXT for text."""
    return colour_number(side, "side")


class OwedBuffers:
    """Buffers into which a call writes what a side owes."""

    def __init__(self) -> None:
        self.unanswered = ctypes.c_uint32()
        self.command = ctypes.create_string_buffer(COMMAND_SIZE)
        self.wrote = ctypes.create_string_buffer(WROTE_SIZE)
        self.command_count, self.wrote_count = ctypes.c_size_t(), ctypes.c_size_t()

    def arguments(self) -> Tuple[Any, ...]:
        """Returns the call's last arguments."""
        command = self.command, COMMAND_SIZE, ctypes.byref(self.command_count)
        wrote = self.wrote, WROTE_SIZE, ctypes.byref(self.wrote_count)
        return (ctypes.byref(self.unanswered), *command, *wrote)

    def owed(self) -> Owed:
        """Returns what was written there."""
        command = self.command.raw[: self.command_count.value].decode("ascii")
        return Owed(self.unanswered.value, command, self.wrote.raw[: self.wrote_count.value])


class Match(LibraryObject):
    """A match between two engines that aren't started yet.

    Sides may be given as the text of their colours.

    A call that is rejected raises Refused, and the match is unchanged. The error is BAD_COLOUR for
    a side that is none; methods name their others. The defaults aren't those of twogtp, which are a
    komi of 6.5, 1,000 moves and 2 restarts.

    >>> match = Match(size=9, komi=6.5)
    >>> match.next()
    Action(kind=<Next.START: 1>, side=<Colour.BLACK: 1>)
    >>> match.started("b")
    >>> match.started("w")
    >>> match.send("b")
    b'1 boardsize 9\\n'
    """

    __slots__ = ()
    _kind = "match"
    _handle_type = _declared.MatchHandle

    def __init__(
        self,
        size: int = 19,
        komi: Komi = 0,
        handicap: int = 0,
        max_moves: int = 2000,
        max_restarts: int = 0,
    ) -> None:
        super().__init__()
        self.begin(size, komi, handicap, max_moves, max_restarts)

    def begin(
        self,
        size: int = 19,
        komi: Komi = 0,
        handicap: int = 0,
        max_moves: int = 2000,
        max_restarts: int = 0,
    ) -> None:
        """Begins again.

        Errors: BAD_SIZE, BAD_KOMI, BAD_HANDICAP, BAD_MAX_MOVES or BAD_MAX_RESTARTS.
        """
        numbers = [
            integer(handicap, "handicap", "no int; use 0, or one from 2 to 9"),
            integer(max_moves, "max_moves", "no int; use one from 1 to 2000"),
            integer(max_restarts, "max_restarts", "no int; use one from 0 to 1000"),
        ]
        board = size_number(size), half_points(komi)
        cause = library.vintsaky_match_begin(self._pointer(), *board, *map(clamped, numbers))
        if cause:
            moves, restarts = shown(max_moves), shown(max_restarts)
            rejected = {
                Cause.BAD_HANDICAP: (f"handicap {shown(handicap)} on size {size}", ""),
                Cause.BAD_MAX_MOVES: ("max_moves", f"{moves} is not from 1 to 2000"),
                Cause.BAD_MAX_RESTARTS: ("max_restarts", f"{restarts} is not from 0 to 1000"),
            }
            raise Refused(Cause(cause), *rejected[Cause(cause)])

    def next(self) -> Action:
        """Returns what to do next."""
        side = ctypes.c_uint32()
        kind = library.vintsaky_match_next(self._pointer(), ctypes.byref(side))
        return Action(Next(kind), Colour(side.value) if side.value else None)

    def started(self, side: AnyColour) -> None:
        """Reports that the side was started.

        If it can't be started, call this all the same, and then `lost`. Errors: NOT_NEXT if its
        start isn't what is next.
        """
        number = side_number(side)
        check(library.vintsaky_match_started(self._pointer(), number), f"started {Colour(number)}")

    def send(self, side: AnyColour) -> bytes:
        """Returns the next command for the side, which counts as sent.

        Errors: NOT_NEXT if it isn't what is next.
        """
        text, count = ctypes.create_string_buffer(COMMAND_SIZE), ctypes.c_size_t()
        number = side_number(side)
        written_to = text, COMMAND_SIZE, ctypes.byref(count)
        cause = library.vintsaky_match_send(self._pointer(), number, *written_to)
        check(cause, f"send {Colour(number)}")
        return text.raw[: count.value]

    def hear(self, side: AnyColour, data: Bytes) -> Optional[Loss]:
        """Takes the side's output, in any chunks.

        Returns why the side fails by it, or None. Once the match is over, also by a ruling, output
        is ignored.
        """
        data, number, loss = bytes_of(data), side_number(side), ctypes.c_uint32()
        arguments = number, data, len(data), ctypes.byref(loss)
        check(library.vintsaky_match_hear(self._pointer(), *arguments))
        return Loss(loss.value) if loss.value else None

    def report(self, side: AnyColour, data: Bytes) -> Report:
        """Takes the side's output as `hear` does, and returns more about it."""
        data, number, buffers = bytes_of(data), side_number(side), OwedBuffers()
        loss, retake = ctypes.c_uint32(), ctypes.c_uint32()
        written_to = ctypes.byref(loss), ctypes.byref(retake), *buffers.arguments()
        arguments = number, data, len(data), *written_to
        check(library.vintsaky_match_hear_reporting(self._pointer(), *arguments))
        owed = buffers.owed() if loss.value or retake.value else None
        return Report(Loss(loss.value) if loss.value else None, retake.value, owed)

    def owed(self, side: AnyColour) -> Owed:
        """Returns what the side owes. Errors: DOWN if it isn't up, or the match is over."""
        buffers, number = OwedBuffers(), side_number(side)
        cause = library.vintsaky_match_owed(self._pointer(), number, *buffers.arguments())
        check(cause, f"owed {Colour(number)}")
        return buffers.owed()

    def status(self, side: AnyColour) -> Status:
        """Returns how far the side is. Errors: DOWN if it wasn't started or went down."""
        confirmed, unanswered, asked = ctypes.c_uint32(), ctypes.c_uint32(), ctypes.c_uint32()
        written_to = map(ctypes.byref, (confirmed, unanswered, asked))
        number = side_number(side)
        cause = library.vintsaky_match_status(self._pointer(), number, *written_to)
        check(cause, f"status {Colour(number)}")
        return Status(confirmed.value, unanswered.value, bool(asked.value))

    def lost(self, side: AnyColour) -> None:
        """Reports that the side is gone: its output ended, or a read or a write failed.

        If its start failed, call this after `started`. After a loss that `hear` returned, it isn't
        needed; after a ruling it changes nothing.
        """
        check(library.vintsaky_match_lost(self._pointer(), side_number(side)))

    def in_step(self, side: AnyColour) -> bool:
        """Returns whether the side is in step.

        It is if it is up, owes no answer, and has confirmed its whole script, as in `Status`.
        """
        number, holds = side_number(side), ctypes.c_uint32()
        check(library.vintsaky_match_in_step(self._pointer(), number, ctypes.byref(holds)))
        return bool(holds.value)

    def restarts(self, side: AnyColour) -> int:
        """Returns how often the side was restarted."""
        number, restarts = side_number(side), ctypes.c_uint32()
        check(library.vintsaky_match_restarts(self._pointer(), number, ctypes.byref(restarts)))
        return restarts.value

    def retakes(self, number: int) -> int:
        """Returns how often a move was retaken because it was refused: at most 3.

        `number` is that of the move, counted from 1.
        """
        move_number = int_in_range(number, "number")
        retakes: int = library.vintsaky_match_retakes(self._pointer(), move_number)
        return retakes

    def adjudicate(self, side: AnyColour, reason: str = "") -> None:
        """Ends the match by a ruling: the side loses, on time if there is no reason.

        A reason has 1 to 20 letters, a to z or A to Z, and spaces, and is none of "refused play",
        "no move", "no vertex" and "illegal move". After that only `begin` changes the match.
        Errors: IS_OVER if it is over, BAD_REASON.
        """
        text, number = ascii_of(reason, "reason"), side_number(side)
        cause = library.vintsaky_match_adjudicate(self._pointer(), number, text, len(text))
        is_bad_reason = cause == Cause.BAD_REASON
        check(cause, f"reason {shown(reason)}" if is_bad_reason else f"adjudicate {Colour(number)}")

    @property
    def taking_back(self) -> Optional[Colour]:
        """The side whose last move is to be undone because the other side refused it, or None."""
        side = library.vintsaky_match_taking_back(self._pointer())
        return Colour(side) if side else None

    @property
    def verdict(self) -> Optional[Verdict]:
        """How the match ended; None as long as it isn't over."""
        ending, side, halves = ctypes.c_uint32(), ctypes.c_uint32(), ctypes.c_int32()
        places = (ctypes.byref(ending), ctypes.byref(side), ctypes.byref(halves))
        cause = library.vintsaky_match_verdict(self._pointer(), *places)
        if cause == Cause.NOT_OVER:
            return None
        check(cause)
        score = halves.value / 2 if ending.value == Ending.BY_SCORE else None
        reason = text_of(library.vintsaky_match_reason, self._pointer()).decode("ascii")
        return Verdict(
            Ending(ending.value), Colour(side.value) if side.value else None, score, reason
        )

    @property
    def game(self) -> Game:
        """A copy of the match's game."""
        game = Game()
        library.vintsaky_match_copy_game(self._pointer(), game._pointer())
        return game

    def result(self, number: int = 1) -> str:
        """Returns the result line of the match, as the game of this number. Errors: NOT_OVER."""
        line = library.vintsaky_match_result
        game_number = int_in_range(number, "number")
        return written(line, self._pointer(), game_number, what=f"result {number}")

    @property
    def record(self) -> str:
        """The vertices of the moves, separated by single spaces."""
        return text_of(library.vintsaky_match_record, self._pointer()).decode("ascii")
