"""The clock of one side of a game: absolute, Canadian, byoyomi (Japanese) or Fischer.

    absolute MAIN               MAIN seconds for the whole game
    canadian MAIN PERIOD MOVES  then PERIOD seconds for each so many moves
    byoyomi MAIN PERIOD COUNT   then so many periods of PERIOD seconds, one of which is lost by each
                                move for each whole one that it takes longer than
    fischer MAIN INCREMENT      INCREMENT seconds more after each move

A clock counts only what its engine takes to answer `genmove`, in milliseconds. It is pure: who uses
it measures the seconds, and sends the commands.
"""
from __future__ import annotations

TYPE_CHECKING = False  # as of typing, whose import takes longer than all of this
if TYPE_CHECKING:
    from collections.abc import Collection

ABSOLUTE, CANADIAN, BYOYOMI, FISCHER = "absolute", "canadian", "byoyomi", "fischer"
FORMS = {
    ABSOLUTE: "absolute MAIN",
    CANADIAN: "canadian MAIN PERIOD MOVES",
    BYOYOMI: "byoyomi MAIN PERIOD COUNT",
    FISCHER: "fischer MAIN INCREMENT",
}
EXAMPLES = {
    ABSOLUTE: "absolute 600",
    CANADIAN: "canadian 600 300 25",
    BYOYOMI: "byoyomi 600 30 5",
    FISCHER: "fischer 300 5",
}
LONGEST = 10**6  # seconds of a main time or a period
MOST = 1000  # periods, or moves of a period
# what the engine was told, by which the stones of `time_left` are moves or periods
NOTHING, PERIODS, MOVES = "nothing", "periods", "moves"


class BadClock(ValueError):
    """A text that is no clock. Its message says what is wanted."""


class Clock:
    """The clock of a side, at the beginning of its next move."""

    def __init__(self, kind: str, main: float, period: float = 0, count: int = 0) -> None:
        self.kind, self.main, self.period, self.count = kind, main, period, count
        self.main_left = main
        self.period_left = period  # of the period that runs, once the main time is over
        self.count_left = count  # moves of that period, or periods, that one included
        self.is_out = False  # whether its time ran out

    @property
    def is_in_overtime(self) -> bool:
        """Whether the main time is over, and a period runs."""
        return self.main_left <= 0 and self.kind in (CANADIAN, BYOYOMI)

    def seconds_left(self) -> float:
        """Returns how many seconds the next move may take."""
        if self.is_out:
            return 0
        if self.kind == BYOYOMI:
            return self.main_left + self.period_left + (self.count_left - 1) * self.period
        return self.main_left + (self.period_left if self.kind == CANADIAN else 0)

    def most_seconds(self, moves: int) -> float:
        """Returns how many seconds so many moves, one or more, may take in all, from the beginning
        of the game."""
        if self.kind == CANADIAN:
            return self.main + -(-moves // self.count) * self.period
        if self.kind == BYOYOMI:
            return self.main + (moves + self.count - 1) * self.period
        return self.main + (moves - 1) * self.period

    def charge(self, seconds: float) -> None:
        """Charges a move that took so many seconds, or what was used before an engine ended."""
        if seconds > self.seconds_left():
            self.is_out, self.main_left, self.period_left = True, 0, 0
            return
        over = round(seconds - self.main_left, 3)
        self.main_left = max(0.0, -over)
        if over > 0:
            while over > self.period_left:  # only byoyomi has further periods
                over -= self.period_left
                self.period_left, self.count_left = self.period, self.count_left - 1
            self.period_left = round(self.period_left - over, 3)

    def end_move(self) -> None:
        """Ends a move that was made: byoyomi gives the period back, Fischer adds to the time."""
        if self.is_out:
            return
        if self.kind == FISCHER:
            self.main_left = round(self.main_left + self.period, 3)
        elif self.is_in_overtime and self.kind == BYOYOMI:
            self.period_left = self.period
        elif self.is_in_overtime:
            self.count_left -= 1
            if self.count_left == 0:
                self.period_left, self.count_left = self.period, self.count

    def settings(self, known: Collection[str]) -> tuple[str, str]:
        """Returns the command that tells an engine of the clock, of those that it knows, and what
        stones are to it then; an empty command where it knows none."""
        main, period = whole(self.main), whole(self.period)
        if self.kind == BYOYOMI and "kgs-time_settings" in known:
            return f"kgs-time_settings byoyomi {main} {period} {self.count}", PERIODS
        if self.kind == FISCHER and "kata-time_settings" in known:
            return (
                f"kata-time_settings fischer {written(self.main)} {written(self.period)}",
                NOTHING,
            )
        if "time_settings" not in known:
            return "", NOTHING
        if self.kind == BYOYOMI:
            return f"time_settings {main} {period} 1", MOVES
        if self.kind == CANADIAN:
            return f"time_settings {main} {period} {self.count}", MOVES
        return f"time_settings {main} 0 0", NOTHING

    def time_left(self, told: str) -> str:
        """Returns the seconds and stones of `time_left`: no stones in the main time. Where less
        than a second is left of that, and then a period comes, the period counts."""
        if self.main_left >= 1 or self.kind not in (CANADIAN, BYOYOMI):
            return f"{int(self.main_left)} 0"
        if self.kind == BYOYOMI:
            return f"{int(self.period_left)} {self.count_left if told == PERIODS else 1}"
        return f"{int(self.period_left)} {self.count_left}"


def whole(seconds: float) -> int:
    """Returns whole seconds, which are all that GTP has: less than a second is one, since 0 would
    mean something else."""
    return max(1, int(seconds)) if seconds else 0


def written(seconds: float) -> str:
    """Returns seconds without zeros behind the point."""
    return f"{seconds:.3f}".rstrip("0").rstrip(".")


def is_number(text: str) -> bool:
    """Returns whether a text is seconds, to a millisecond at most."""
    return text.isascii() and text.replace(".", "", 1).isdigit() and len(text.partition(".")[2]) < 4


def read_clock(text: str) -> Clock:
    """Returns the clock that a text describes, or raises BadClock."""
    kind, *parts = text.split() or [""]
    if kind not in FORMS:
        forms = list(FORMS.values())
        raise BadClock(f"{', '.join(forms[:-1])} or {forms[-1]}")
    form, example = FORMS[kind], EXAMPLES[kind]
    is_right = len(parts) == form.count(" ") and all(map(is_number, parts[:2]))
    if not is_right or not all(part.isdecimal() for part in parts[2:]):
        raise BadClock(f"{form}, such as {example}")
    numbers, count = [float(part) for part in parts[:2]], int(parts[2]) if parts[2:] else 0
    if max(numbers) > LONGEST or not any(numbers):
        raise BadClock(f"seconds from 0 to {LONGEST}, and not all of them 0")
    if kind == FISCHER and not numbers[0]:
        raise BadClock("a main time above 0, without which no first move is in time")
    if parts[2:] and not (1 <= count <= MOST and numbers[1] > 0):
        raise BadClock(f"a period above 0 seconds, and then a number from 1 to {MOST}")
    return Clock(kind, numbers[0], numbers[1] if numbers[1:] else 0, count)
