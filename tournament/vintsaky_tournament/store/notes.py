"""The notes of a game, which `between` writes: the moves, their times, and how an engine ended.

FOLDER/notes/GAME has a line for the game, such as `1_one_two on HOST`, one for when it began, such
as `began 2026-12-01T09:24:25Z`, which those of earlier versions lack, and then one for each note,
which begins with the number of the next move and the colour:

    0 black started 0.021               the seconds to the first answer
    1 black D4 opening                  a move of the opening
    2 white E5 0.512                    a move, or `resign`, and the seconds that it took
    2 white E5 0.512 cpu 0.49           and what processors worked, with a clock or a move-limit
    2 white undone                      it was refused, and taken back
    2 white failed 0.004                the genmove failed, or its answer is `no-vertex`
    3 black thinks                      the genmove isn't answered yet
    3 black late 5.001: 12 genmove b    no answer in time; or `out-of-time` by the clock, or
                                        `ended`, or `waited` if twogtp ended
    0 black stays ended                 twogtp started it again, but it was late before
    0 black not started: engine: No such file or directory
    3 black refuses the opening         a move of the opening, its own or the other side's

At the end are the times of both sides, and the result.
"""
from __future__ import annotations

import re
from typing import NamedTuple

from ..model import COLOURS, SIDES, Result, Side
from . import results

TOO_LATE = ("late", "out-of-time")
UNANSWERED = (*TOO_LATE, "ended", "waited", "not")  # what the notes say where no answer follows
NO_MOVE = (*UNANSWERED, "failed", "no-vertex")  # and where the answer is no move
NOTHING_ASKED = "nothing was asked"
TIME = "%Y-%m-%dT%H:%M:%SZ"  # of the line that says when a game began, in UTC
BEGAN = re.compile(
    "began ([0-9]{4}-(?:0[1-9]|1[0-2])-(?:0[1-9]|[12][0-9]|3[01])"
    "T(?:[01][0-9]|2[0-3]):[0-5][0-9]:[0-6][0-9]Z)\n"
)
SECONDS = re.compile(r"([0-9]{1,15}(?:\.[0-9]{1,9})?):?")


class Awaited(NamedTuple):
    """A side whose answer is awaited, and what the notes say of that."""

    side: Side
    text: str


class Thought(NamedTuple):
    """On which machine a game was played, when it began, and how long both sides thought."""

    host: str
    date: str  # empty where it isn't noted
    seconds: tuple[float, float]


class Noted(NamedTuple):
    """What tallies need of the notes of a game, of Black and of White."""

    host: str  # on which it was played
    date: str  # when it began; empty where that isn't noted
    thought: tuple[float, float]  # seconds
    moved: tuple[float, float]  # seconds of all moves that were answered, and of the longest one
    longest: tuple[float, float]
    moves: tuple[int, int]  # how many these are
    late: tuple[int, int]  # how often
    out_of_time: tuple[int, int]
    ignored: tuple[int, int]  # restarts that started nothing, since the engine was late before


class Notes:
    """What the notes of a game say of both sides, Black's first."""

    def __init__(self, text: str) -> None:
        self.host = text.partition("\n")[0].partition(" on ")[2]
        self.date = date_of(text)
        self.started = [False, False]  # whether any command was answered
        self.late, self.out_of_time, self.ignored = [0, 0], [0, 0], [0, 0]  # as Noted has them
        self.thought = [0.0, 0.0]
        self.moves, self.moved, self.longest = [0, 0], [0.0, 0.0], [0.0, 0.0]
        self.processor: list[float] | None = None  # the same of processors, where that is noted
        self.last_failure = ["", ""]  # how the last start ended of those that ended too early
        self.awaited: Awaited | None = None  # at the end
        self.result = ""  # the line of the result, if there was one
        for line in text.split("\n"):
            words = line.split(" ")
            if len(words) > 2 and words[0].isdigit() and words[1] in COLOURS:
                self.add(SIDES[COLOURS.index(words[1])], words)
            elif line.startswith("result: "):
                self.result = line[8:]

    def add(self, side: Side, words: list[str]) -> None:
        """Takes a note of a side."""
        event, rest = words[2], " ".join(words[3:])
        if event in UNANSWERED:
            self.last_failure[side] = f"{event} {rest}"
        has_processor = words[4:5] == ["cpu"]
        if has_processor:
            self.processor = self.processor or [0.0, 0.0]
            self.processor[side] += seconds_of("".join(words[5:6]))
        if len(words) == 4 and event != "started" or " genmove " in rest or has_processor:
            self.add_time(side, event, words[3])
        self.started[side] = self.started[side] or event == "started"
        self.late[side] += event == "late"
        self.out_of_time[side] += event == "out-of-time"
        self.ignored[side] += event == "stays"
        self.awaited = Awaited(side, rest) if event in ("waited", "thinks") else None

    def add_time(self, side: Side, event: str, word: str) -> None:
        """Takes the time of a move, or of another answer to genmove."""
        seconds = seconds_of(word)
        self.thought[side] += seconds
        if event not in NO_MOVE and SECONDS.fullmatch(word):
            self.moves[side] += 1
            self.moved[side] += seconds
            self.longest[side] = max(self.longest[side], seconds)

    def noted(self) -> Noted:
        """Returns what tallies need, with seconds to a thousandth."""
        (black, white), moved, longest = self.thought, self.moved, self.longest
        return Noted(
            self.host,
            self.date,
            (round(black, 3), round(white, 3)),
            (round(moved[0], 3), round(moved[1], 3)),
            (longest[0], longest[1]),
            (self.moves[0], self.moves[1]),
            (self.late[0], self.late[1]),
            (self.out_of_time[0], self.out_of_time[1]),
            (self.ignored[0], self.ignored[1]),
        )

    def times(self) -> str:
        """Returns how long both sides thought, and processors for them, where that is noted."""
        (black, white), used = self.thought, ""
        if self.processor:
            used = "; cpu " + ", ".join(f"{seconds:.2f}" for seconds in self.processor)
        return f"black {black:.3f}, white {white:.3f}{used}"

    def failure(self, side: Side) -> str:
        """Returns how the last start of a side ended, or how long it was waited for."""
        event, _, rest = self.last_failure[side].partition(" ")
        seconds, _, text = rest.partition(": ")
        command, _, ending = text.partition(": ")
        if event == "late":
            return f"no answer to '{command}' in {seconds} seconds"
        if event != "ended":
            return text
        when = "before anything was asked" if command == NOTHING_ASKED else f"at '{command}'"
        return f"it ended {when}: {ending}"

    def cause(self, side: Side) -> str:
        """Returns the same without what differs from game to game: of a command there is only its
        name, and of seconds nothing."""
        event, _, rest = self.last_failure[side].partition(" ")
        _, _, text = rest.partition(": ")
        command, _, ending = text.partition(": ")
        name = command.lstrip("0123456789 ").partition(" ")[0]
        if event == "ended" and command != NOTHING_ASKED:
            return f"it ended at {name}: {ending}"
        texts = {
            "late": f"no answer to {name} within the limit",
            "out-of-time": f"out of time by the clock at {name}",
            "waited": f"no answer to {name} when twogtp ended",
        }
        return texts.get(event) or self.failure(side)


class Fault(NamedTuple):
    """An engine that ended, or wasn't waited for any longer."""

    move: int  # the number of the next move
    side: Side
    cause: str  # as `Notes.cause` has it


def faults_in(text: str) -> list[Fault]:
    """Returns each fault that the notes of a game have, in their order."""
    noted, found = Notes(""), []
    for line in text.split("\n"):
        words = line.split(" ")
        if len(words) > 2 and words[0].isdigit() and words[1] in COLOURS:
            side = SIDES[COLOURS.index(words[1])]
            if words[2] in UNANSWERED:
                noted.add(side, words)
                found.append(Fault(int(words[0]), side, noted.cause(side)))
    return found


def date_of(text: str) -> str:
    """Returns when a game began, by the second line of its notes; an empty text where that isn't
    noted."""
    found = BEGAN.match(text, text.find("\n") + 1)
    return found[1] if found else ""


def waited_for(awaited: Awaited) -> str:
    """Returns how long a side was waited for, and at which command; an empty text where the notes
    don't have that."""
    seconds, _, command = awaited.text.partition(": ")
    return f", {seconds} seconds at '{command}'" if command else ""


def seconds_of(word: str) -> float:
    """Returns the seconds of a word; 0 where it has none."""
    seconds = SECONDS.fullmatch(word)
    return float(seconds[1]) if seconds else 0.0


class Late:
    """The same of a game in which a side was abandoned, by the bytes of its notes: who was late,
    who was out of time by the clock, and how many restarts started nothing. This is quick, for
    tallies of very many games."""

    def __init__(self, data: bytes) -> None:
        self.late = [count > 0 for count in counts_of(data, b" late ")]
        self.out_of_time = [count > 0 for count in counts_of(data, b" out-of-time ")]
        self.ignored = counts_of(data, b" stays ")


def counts_of(data: bytes, event: bytes) -> list[int]:
    """Returns how many notes of each side have this event."""
    counts, at = [0, 0], data.find(event)
    while at >= 0:
        head = data[data.rfind(b"\n", 0, at) + 1 : at].decode("latin-1")
        number, _, colour = head.partition(" ")
        if number.isdigit() and colour in COLOURS:
            counts[COLOURS.index(colour)] += 1
        at = data.find(event, at + 1)
    return counts


def bytes_for(folder: str, name: str, line: str) -> bytes | None:
    """Returns the notes of a game, if they are of a result with this line.

    For a moment, or where its process was killed in that, those of a game that was played again
    still lie next to its lock. Where they don't, they are in their place by now.
    """
    end = f"\nresult: {line}\n".encode()
    for place in (f"{folder}/running/{name}/notes", f"{folder}/notes/{name}"):
        try:
            data = results.bytes_of(place)
        except OSError:
            continue
        if data.endswith(end):
            return data
    return None


def late_in(folder: str, name: str, line: str) -> Late | None:
    """Returns who was late in a game; None where its notes aren't of a result with this line."""
    data = bytes_for(folder, name, line)
    return None if data is None else Late(data)


def noted_in(folder: str, name: str, line: str) -> Noted | None:
    """Returns what the notes of a game say; None where they aren't of a result with this line."""
    data = bytes_for(folder, name, line)
    return None if data is None else Notes(data.decode("latin-1")).noted()


def line_of(folder: str, name: str, result: Result) -> str:
    """Returns the line of a result in the words of tallies: a side that twogtp has abandoned may
    have been late, or out of time by its clock."""
    side = result.abandoned_side()
    found = None if side is None else late_in(folder, name, result.line)
    _, _, rest = result.line.partition(" moves ")
    if side is not None and found and found.out_of_time[side]:
        return f"{'BW'[side.other]}+T moves {rest}"
    if side is not None and found and found.late[side]:
        return f"late {side.colour} moves {rest}"
    return result.line


def is_loss_on_time(folder: str, name: str, result: Result) -> bool:
    """Returns whether the side that was abandoned in a game was out of time by its clock."""
    side = result.abandoned_side()
    found = None if side is None else late_in(folder, name, result.line)
    return side is not None and found is not None and found.out_of_time[side]


def read(place: str) -> Notes | None:
    """Returns the notes of a game; None where they can't be read."""
    try:
        with open(place, encoding="latin-1") as file:
            return Notes(file.read())
    except OSError:
        return None
