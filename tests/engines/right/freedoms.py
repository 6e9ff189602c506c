"""Right engines, each with one freedom that the standard, or another rule set, leaves to engines.

The standard's floats are those that 32 bits can hold. An `undo` may fail where only a part of the
history is kept, and is used up. A score is an opinion: the engine decides how stones are counted,
and what an unfinished game is worth. Rules of suicide and of ko differ.
"""
from __future__ import annotations

import math
import struct
from typing import Any, Dict, Iterable, List, Optional, Type

from tests.engines.wrong.plain import Plain, snake_case
from tests.references.engine.engine import Failure
from tests.references.engine.game import POSITIONAL, Board, filled
from tests.references.engine.values import BLACK, WHITE, Colour, Point, Vertex, other


def single(number: float) -> float:
    """Returns the float of 32 bits that is nearest."""
    nearest: float = struct.unpack("f", struct.pack("f", number))[0]
    return nearest


# ---- komi


class RoundsKomi(Plain):
    """Komi is a float of 32 bits, and another one is rounded. A score that isn't even has one digit
    after the point."""

    def read_komi(self, text: str) -> Any:
        try:
            return 2 * single(float(text))  # not always a whole number
        except ValueError:
            return None

    def write_score(self, lead: int) -> str:
        return f"{'B' if lead > 0 else 'W'}+{abs(lead) / 2:.1f}" if lead else "0"


class RefusesKomi(RoundsKomi):
    """Komi is a float of 32 bits, and another one is refused."""

    def read_komi(self, text: str) -> Any:
        halves = super().read_komi(text)
        return halves if halves is not None and halves / 2 == float(text) else None


# ---- history


class KeepsMoves(Plain):
    """Only the last `most` moves can be taken back."""

    most = 400

    def begin(self, size: int) -> None:
        super().begin(size)
        self.kept = 0

    def move(self, colour: Colour, vertex: Vertex) -> None:
        super().move(colour, vertex)
        self.kept = min(self.kept + 1, self.most)

    def do_undo(self, arguments: List[str]) -> None:
        if not self.kept:
            raise Failure("cannot undo")
        super().do_undo(arguments)
        self.kept -= 1


class KeepsOneMove(KeepsMoves):
    """Only the last move can be taken back."""

    most = 1


# ---- scores


class Estimates(Plain):
    """A score is an estimate to a tenth of a point. The same board is worth the same each time."""

    digits = 1

    def do_final_score(self, arguments: List[str]) -> str:
        return self.written(self.opinion() - self.komi / 2)

    def opinion(self) -> float:
        """Returns Black's lead without komi. It ends in a quarter, to be rounded up and down."""
        return super().score() / 2 + self.komi / 2 + 3.25 + self.size

    def written(self, lead: float) -> str:
        """Returns the text of a score, from Black's lead."""
        text = f"{abs(lead):.{self.digits}f}"
        return f"{'B' if lead > 0 else 'W'}+{text}" if float(text) else "0"


class EstimatesWholePoints(Estimates):
    """A score is an estimate, to a point."""

    digits = 0

    def opinion(self) -> float:
        return super().opinion() + 0.25


class EstimatesInSingles(Estimates):
    """A score is an estimate with six digits, which is summed up in floats of 32 bits, one point of
    the board after the other, and komi at last."""

    digits = 6

    def opinion(self) -> float:
        return super().opinion() - 0.11 + math.pi / 100

    def do_final_score(self, arguments: List[str]) -> str:
        points = self.size**2
        lead = 0.0
        for _ in range(points):
            lead = single(lead + single(self.opinion() / points))
        return self.written(single(lead - self.komi / 2))


class EstimatesByChance(Estimates):
    """A score is an estimate that is random each time, as by some playouts."""

    digits = 6

    def opinion(self) -> float:
        return super().opinion() + self.random.gauss(0, 5)


class EstimatesByChanceInWholePoints(EstimatesByChance):
    """A score is one of twelve whole points, at random each time."""

    digits = 0

    def opinion(self) -> float:
        return Plain.score(self) / 2 + self.komi / 2 + 0.25 + self.random.randrange(12)


class KeepsAnEstimate(EstimatesByChance):
    """A score is a random estimate, and is kept until komi or the board changes, which neither a
    pass nor the `clear_board` of an empty board does."""

    kept: Optional[float] = None

    def opinion(self) -> float:
        self.kept = super().opinion() if self.kept is None else self.kept
        return self.kept

    def do_komi(self, arguments: List[str]) -> None:
        before = self.komi
        super().do_komi(arguments)
        self.keep_if(self.komi == before)

    def begin(self, size: int) -> None:
        before = getattr(self, "size", None), getattr(self, "board", None)
        super().begin(size)
        self.keep_if((self.size, self.board) == before)

    def move(self, colour: Colour, vertex: Vertex) -> None:
        before = self.board
        super().move(colour, vertex)
        self.keep_if(self.board == before)

    def undo(self) -> None:
        before = self.board
        super().undo()
        self.keep_if(self.board == before)

    def place_handicap(self, stones: Iterable[Point]) -> None:
        super().place_handicap(stones)
        self.keep_if(False)

    def keep_if(self, is_same: bool) -> None:
        """Keeps the estimate only if nothing has changed."""
        self.kept = self.kept if is_same else None


class WritesAsStreams(Plain):
    """A score is written as by C++'s streams: six digits at most, and an exponent where that is too
    few, as in `W+8.38861e+06`."""

    form = ".6g"

    def write_score(self, lead: int) -> str:
        points = format(abs(lead) / 2, self.form)
        return f"{'B' if lead > 0 else 'W'}+{points}" if lead else points


class WritesExponents(WritesAsStreams):
    """A score is always written with an exponent, as by C's `%e` and `%E`, also an even one."""

    form = ".6e"

    def write_score(self, lead: int) -> str:
        text = super().write_score(lead)
        return text if self.random.random() < 0.5 else text.replace("e", "E")


class CountsTerritory(Plain):
    """A score is territory and prisoners. Those that an `undo` puts back are none any more."""

    def begin(self, size: int) -> None:
        super().begin(size)
        self.leads = [0]

    def move(self, colour: Colour, vertex: Vertex) -> None:
        before = self.board
        super().move(colour, vertex)
        taken = [stone for place, stone in before.items() if place not in self.board]
        self.leads.append(self.leads[-1] + taken.count(WHITE) - taken.count(BLACK))

    def undo(self) -> None:
        super().undo()
        self.leads.pop()

    def score(self) -> int:
        stones = self.board.count(BLACK) - self.board.count(WHITE)
        return super().score() - 2 * stones + 2 * self.leads[-1]


class GivesPointsForAHandicap(Plain):
    """White gets a point for each handicap stone, and an even score is written with a colour."""

    stones = 0

    def begin(self, size: int) -> None:
        super().begin(size)
        self.stones = 0

    def place_handicap(self, stones: Iterable[Point]) -> None:
        super().place_handicap(stones)
        self.stones = len(self.board)

    def score(self) -> int:
        return super().score() - 2 * self.stones

    def write_score(self, lead: int) -> str:
        return super().write_score(lead) if lead else "B+0"


# ---- suicide


class AllowsSuicide(Plain):
    """A chain without a liberty may be made, and is removed. The engine chooses such moves too."""

    def put(self, colour: Colour, point: Point) -> Board:
        board = super().put(colour, point)
        chain = self.chain(board, point)
        return board if self.is_free(board, chain) else filled(board, chain)

    def is_suicide(self, board: Board, colour: Colour, point: Point) -> bool:
        return False

    def is_ko(self, board: Board, colour: Colour, point: Point) -> bool:
        # one stone's suicide leaves the board as it is, which positional ko forbids
        is_same = self.rule == POSITIONAL and board == self.board
        return is_same or super().is_ko(board, colour, point)


class AllowsSuicideOfChains(AllowsSuicide):
    """Suicide of one stone is no move, and that of more is."""

    def is_ko(self, board: Board, colour: Colour, point: Point) -> bool:
        return board == self.board or super().is_ko(board, colour, point)


class FillsOnePoint(AllowsSuicide):
    """The board of one point is the only one, and the engine fills it."""

    def do_boardsize(self, arguments: List[str]) -> None:
        if self.argument(arguments, 0, self.read_int) != 1:
            raise Failure("unacceptable size")
        super().do_boardsize(arguments)

    def choose(self, colour: Colour) -> Vertex:
        return 1, 1


# ---- ko


class SituationalKo(Plain):
    """A play may not make a board again after which the same colour was to move (situational
    superko)."""

    def is_ko(self, board: Board, colour: Colour, point: Point) -> bool:
        first = WHITE if self.first_board() else BLACK
        to_move = [first, *(other(move.colour) for move in self.moves)]
        return (board, other(colour)) in zip(self.boards, to_move)


# ---- all of them


class HasAllFreedoms(EstimatesByChance, RefusesKomi, KeepsMoves, AllowsSuicide):
    """Komis that aren't exact are refused, 400 moves are kept, scores are random estimates, and
    suicide is a move."""

    def opinion(self) -> float:
        return 3.25 + self.random.gauss(0, 5)


FREEDOMS: Dict[str, Type[Plain]] = {
    snake_case(name): kind
    for name, kind in list(vars().items())
    if isinstance(kind, type) and issubclass(kind, Plain) and kind is not Plain
}
