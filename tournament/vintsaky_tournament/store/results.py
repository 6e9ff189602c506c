"""The results: what is one, and which games have one. All commands use this.

A result is a file of twogtp, or of a server that uses the library: the line of game 1, a line with
as many moves as the line says, and with `--show` the last board. Each move is `pass` or a point of
the plan's board, and a score is one that this board and komi can have. A file that has less, more
or something else is damaged, or of another plan, and its game is to be played.
"""
from __future__ import annotations

import os
import re
from typing import TYPE_CHECKING, Iterator

from .. import output
from ..config.setup import Setup
from ..model import COLUMNS, FORFEITS, Plan, Result, State

if TYPE_CHECKING:
    from ..cluster import Share
    from .index import Index

OTHER_VERDICTS = (
    *("limit", "B+R", "W+R"),
    *(f"{winner}+F({cause})" for winner in "BW" for cause in FORFEITS),
    *(f"{failure} {side}" for failure in ("unfit", "abandoned") for side in ("black", "white")),
)
# verdicts of a server that ended the match: for time, or for a cause of its own
OF_SERVER = re.compile(r"[BW]\+(?:T|F\([A-Za-z ]{1,20}\))")
BOARD_END = re.compile(r"captures B [0-9]+ W [0-9]+\n\n\Z")
LINE = "game 1: (([BWalu0][^\n]*) moves ([0-9]{1,4}) restarts ([0-9]{1,4}) ([0-9]{1,4}))"
MOST_REPORTED = 10  # files that can't be read, each with a message of its own
END = 65536  # bytes at the end of a file in which its last lines are
QUOTED, CUT = 200, " .."  # the bytes of a line that a message has, and the end of a longer one
PREFIX = "tournament: "  # of the line of a log that says why a game has no result
CHUNK = 16384  # bytes, which a result seldom has
HAVE_RESULT = (State.WHOLE, State.LOST)


class Rule:
    """What a result of a plan is."""

    def __init__(self, plan: Plan) -> None:
        setup, self.has_board = Setup(plan.options), plan.has_boards()
        size, komi = setup.rows(), setup.half_points()
        self.mark = f"{size} {komi} {self.has_board:d}"  # of this rule, unlike others
        scores = range(-2 * size**2 - komi, 2 * size**2 - komi + 1, 2)
        self.verdicts = frozenset([*OTHER_VERDICTS, *map(score, scores)])
        move = f"(?:[{COLUMNS[:size]}](?:{rows(size)})|pass)"
        self.whole = re.compile(f"{LINE}\n((?:{move}(?: {move})*)?)\n")

    def parse(self, data: bytes) -> Result | None:
        """Returns the result that a file has; None where it isn't whole."""
        text = data.decode("latin-1")
        parts = self.whole.match(text)
        if not parts:
            return None
        line, verdict, length, black_restarts, white_restarts, vertices = parts.groups()
        count = int(length)
        if verdict not in self.verdicts and not OF_SERVER.fullmatch(verdict):
            return None
        if count != (vertices.count(" ") + 1 if vertices else 0):
            return None
        end = parts.end()
        if not (BOARD_END.search(text, end) if self.has_board else end == len(text)):
            return None
        return Result(line, verdict, count, (int(black_restarts), int(white_restarts)), vertices)

    def read(self, place: str, folder: int | None = None) -> Result | None:
        """Returns the result in a file, or None where that is damaged. Raises FileNotFoundError
        where there is no file."""
        return self.parse(bytes_of(place, folder))


def score(half_points: int) -> str:
    """Returns a score as twogtp writes it: so many half points, positive where Black leads."""
    if not half_points:
        return "0"
    points, is_half = divmod(abs(half_points), 2)
    return f"{'B' if half_points > 0 else 'W'}+{points}{'.5' if is_half else ''}"


def rows(size: int) -> str:
    """Returns a regular expression of the numbers from 1 to a size."""
    tens, ones = divmod(size, 10)
    last_ten = [f"{tens}[0-{ones}]"] if tens else []
    whole_tens = [f"{ten}[0-9]" for ten in range(1, tens)]
    return "|".join([*last_ten, *whole_tens, f"[1-{9 if tens else ones}]"])


def contents(descriptor: int) -> bytes:
    """Returns all bytes of a file that is open."""
    data = chunk = os.pread(descriptor, CHUNK, 0)
    while len(chunk) == CHUNK:
        chunk = os.pread(descriptor, CHUNK, len(data))
        data += chunk
    return data


def bytes_of(place: str, folder: int | None = None) -> bytes:
    """Returns all bytes of the file in this place, also below a folder that is open."""
    file = os.open(place, os.O_RDONLY, dir_fd=folder)
    try:
        return contents(file)
    finally:
        os.close(file)


def read_error(place: str) -> str | None:
    """Returns why the file in this place can't be read; None where it can."""
    try:
        bytes_of(place)
    except OSError as error:
        return error.strerror
    return None


class Unreadable:
    """The files of a folder that can't be read, of which the first ones are reported."""

    def __init__(self, folder: str, is_quiet: bool) -> None:
        self.folder, self.count = folder, 0
        self.most_reported = 0 if is_quiet else MOST_REPORTED

    def add(self, name: str, error: OSError) -> None:
        """Takes a file that met this error. Raises that where the file isn't its cause."""
        if error.errno in output.TOO_MANY_GAMES:
            raise error
        self.count += 1
        if self.count <= self.most_reported:
            place = f"{self.folder}/games/{name}"
            output.report(f"{place} can't be read, and so is no result: {error.strerror}")

    def end(self) -> None:
        """Reports how many there are, where not each was reported."""
        if self.count > self.most_reported > 0:
            output.report(f"files in {self.folder}/games that can't be read: {self.count}")


def of_all(
    plan: Plan,
    folder: str,
    states: bytearray | None = None,
    is_quiet: bool = False,
    index: Index | None = None,
) -> Iterator[tuple[int, Result | None]]:
    """Yields the games of the plan that have a file, except those with a result by these states:
    the number of each, and its result; None where that is damaged or can't be read."""
    games, rule, unreadable = plan.games(), Rule(plan), Unreadable(folder, is_quiet)
    try:
        directory = os.open(f"{folder}/games", os.O_RDONLY | os.O_DIRECTORY)
    except FileNotFoundError:  # of a plan that was copied alone
        return
    try:
        with os.scandir(directory) as files:
            for file in files:
                number = games.number(file.name)
                if number is None or states and states[number] in HAVE_RESULT:
                    continue
                try:
                    known = index.result(file.name) if index else None
                    yield number, known or rule.read(file.name, directory)
                except FileNotFoundError:
                    continue
                except OSError as error:
                    unreadable.add(file.name, error)
                    yield number, None
    finally:
        os.close(directory)
    unreadable.end()


def of_share(
    plan: Plan,
    folder: str,
    share: Share,
    states: bytearray,
    is_quiet: bool = False,
    index: Index | None = None,
) -> Iterator[tuple[int, Result | None]]:
    """Yields the same of a share of the games, in the plan's order, and looks at no others."""
    games, rule, unreadable = plan.games(), Rule(plan), Unreadable(folder, is_quiet)
    for number in share.of(games.count):
        if states[number] not in HAVE_RESULT:
            name = games.name(number)
            try:
                known = index.result(name) if index else None
                yield number, known or rule.read(f"{folder}/games/{name}")
            except FileNotFoundError:
                continue
            except OSError as error:
                unreadable.add(name, error)
                yield number, None
    unreadable.end()


def states_of(
    plan: Plan,
    folder: str,
    states: bytearray | None = None,
    share: Share | None = None,
    is_quiet: bool = False,
) -> bytearray:
    """Returns the state of each game of the plan, by its number, or of each game of a share.

    Where states are given, they are brought up to date.
    """
    if states is None:
        states = bytearray(plan.games().count)
    looked_at = (
        of_share(plan, folder, share, states, is_quiet)
        if share
        else of_all(plan, folder, states, is_quiet)
    )
    for number, result in looked_at:
        states[number] = state_of(plan, folder, number, result)
    return states


def state_of(plan: Plan, folder: str, game: int, result: Result | None) -> State:
    """Returns the state of the game of this number, which has a file. A loss on time by a clock is
    a result as others are."""
    if result is None:
        return State.DAMAGED
    if not result.is_lost():
        return State.WHOLE
    from .notes import is_loss_on_time  # which imports this module

    is_on_time = plan.clock is not None and is_loss_on_time(folder, plan.games().name(game), result)
    return State.WHOLE if is_on_time else State.LOST


def last_lines(place: str) -> list[bytes]:
    """Returns the last lines of a file; none where it is empty or can't be read."""
    try:
        with open(place, "rb") as file:
            file.seek(max(0, os.fstat(file.fileno()).st_size - END))
            text = file.read().rstrip(b"\n")
    except OSError:
        return []
    return text.split(b"\n") if text else []


def last_line(place: str) -> str:
    """Returns the last line of a file; an empty one where there is none."""
    lines = last_lines(place)
    return os.fsdecode(lines[-1]) if lines else ""


def logged_reason(log: str) -> str:
    """Returns why a game that has this log has no result; an empty text where nobody knows."""
    line = last_line(log)
    return line[len(PREFIX) :] if line.startswith(PREFIX) else ""


def quote(line: bytes) -> str:
    """Returns a line that an engine may have written as a message has it: not too much of it."""
    if len(line) <= QUOTED:
        return os.fsdecode(line)
    end = QUOTED - len(CUT)
    while end > 1 and line[end] & 0xC0 == 0x80:  # in the middle of a character
        end -= 1
    return os.fsdecode(line[:end]) + CUT


def last_quote(place: str) -> str:
    """Returns the last line of a file as a message has it."""
    return quote(b"".join(last_lines(place)[-1:]))
