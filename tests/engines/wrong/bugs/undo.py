"""Undo."""
from tests.engines.wrong.bug import KO, Bug, Counting, instead_of, on, plays, removed, shown_by
from tests.references.engine.engine import Failure
from tests.references.engine.game import EMPTY, POSITIONAL, Board, Move, filled
from tests.references.engine.values import BLACK, PASS, WHITE, other

from .captures import Counted


@instead_of("do_undo", on(5, "b A1", "undo", "play b A1"), "=")
def nothing_is_taken_back(self, right, arguments):
    """`undo` succeeds and does nothing."""
    if not self.moves:
        raise Failure("cannot undo")


@instead_of("undo", on(5, "b A1 w B1", "undo", "play b A1"), "?")
def two_moves_are_taken_back(self, right):
    """`undo` takes back two moves, one of each side."""
    right()
    if self.moves:
        right()


@instead_of("undo", on(5, "b A1 w A2 w B1", "undo", "play b A1"), "?")
def captured_stones_stay_away(self, right):
    """`undo` takes the stone back, and not the stones that it took."""
    board, point = self.board, self.moves[-1][1]
    right()
    self.board = self.board if point == PASS else filled(board, [point])


@instead_of("undo", on(5, "w A1 w B1 b A2 b B2 b C1", "undo", "play w B1"), "?")
def one_captured_stone_comes_back(self, right):
    """`undo` brings back the first of the stones that were taken."""
    after = self.board
    right()
    self.board = filled(self.board, removed(self.board, after)[1:])


@instead_of("undo", on(5, "b A1 w A2 w B1", "undo", "play w B1", "play w A1"), "=")
def captured_stones_change_sides(self, right):
    """`undo` brings back the stones that were taken in the colour of the move."""
    after, (colour, _) = self.board, self.moves[-1]
    right()
    self.board = filled(self.board, removed(self.board, after), colour)


@shown_by(on(5, KO + " w E5", "undo", "play b B1"), "?")
class KoOfTheTakenBackMove(Bug):
    """`undo` leaves the board that ko compares with: the one before the move that was taken
    back."""

    compared = None

    def move(self, colour, point):
        self.compared = self.board
        super().move(colour, point)

    def begin(self, size):
        super().begin(size)
        self.compared = None

    def is_ko(self, board, colour, point):
        return board == self.compared


@shown_by(on(5, KO, "genmove b", "undo", "play b B1"), "?")
class KoIsLostWithAGenmove(Bug):
    """`undo` of a move that the engine chose forgets the ko: only `play` notes what it was."""

    chosen = lost = -1  # how many moves there were after a genmove, and after its `undo`

    def begin(self, size):
        super().begin(size)
        self.chosen = self.lost = -1

    def move(self, colour, point):
        super().move(colour, point)
        self.chosen = self.lost = -1

    def do_genmove(self, arguments):
        text = super().do_genmove(arguments)
        self.chosen = len(self.moves)
        return text

    def undo(self):
        was_chosen = self.chosen == len(self.moves)
        super().undo()
        self.chosen, self.lost = -1, len(self.moves) if was_chosen else self.lost

    def is_ko(self, board, colour, point):
        return len(self.moves) != self.lost and super().is_ko(board, colour, point)


@instead_of("do_undo", on(5, "", "undo"), "?")
def empty_record_is_undone(self, right, arguments):
    """`undo` succeeds where there is no move."""
    if self.moves:
        self.undo()


@instead_of("place_handicap", on(9, "", "fixed_handicap 2", "undo"), "?")
def handicap_is_undone(self, right, points):
    """`undo` takes the stones of a handicap back."""
    self.boards.append(self.board)
    self.moves.append(Move(BLACK, points[0]))
    right(points)


@instead_of("move", on(5, "b pass", "undo"), "=")
def passes_are_no_moves(self, right, colour, point):
    """A pass isn't in the record, so `undo` takes back the move before."""
    if point != PASS:
        right(colour, point)


@shown_by(on(5, "b A1 w B1", "undo", "undo"), "=")
class UndoOnce(Counting):
    """`undo` succeeds once, and then only after a further move."""

    most = 1

    def do_undo(self, arguments):
        if self.number >= self.most:
            raise Failure("cannot undo")
        super().do_undo(arguments)
        self.number += 1


@shown_by(on(5, "b A1 w B1 b C1 w D1 b E1 w A3 b B3 w C3 b D3", *["undo"] * 9), "=")
class EightMovesAreKept(Bug):
    """The last eight moves alone can be taken back."""

    def begin(self, size):
        super().begin(size)
        self.kept = 0

    def move(self, colour, point):
        super().move(colour, point)
        self.kept = min(self.kept + 1, 8)

    def do_undo(self, arguments):
        if self.kept == 0:
            raise Failure("cannot undo")
        super().do_undo(arguments)
        self.kept -= 1


@instead_of("do_genmove", on(5, "", "genmove b", "undo"), "=")
def genmoves_stay(self, right, arguments):
    """The moves of `genmove` aren't in the record, so `undo` takes back the move before."""
    text = right(arguments)
    self.moves.pop()
    self.boards.pop()
    return text


@instead_of("refuse", on(5, "w B1", "! play b B1", "undo", "play w B1"), "=")
def refused_play_is_undone(self, right, colour, point):
    """An illegal play is refused, and is a move of the record that `undo` takes back."""
    self.boards.append(self.board)
    self.moves.append(Move(BLACK, PASS))
    right(colour, point)


@instead_of("do_undo", on(5, "b pass w pass", "undo"), "=")
def last_pass_stays(self, right, arguments):
    """`undo` of the second of two passes fails: the game is over."""
    if [point for _, point in self.moves[-2:]] == [PASS, PASS]:
        raise Failure("the game is over")
    right(arguments)


@instead_of("undo", on(5, "b A1 w A2 w B1 b pass", "undo", "play w A1"), "=")
def pass_brings_stones_back(self, right):
    """`undo` of a pass brings back the stones of the last capture, whose list a pass doesn't
    empty."""
    number = len(self.moves) - 1
    passed = self.moves[number][1] == PASS
    right()
    while passed and number > 0 and self.moves[number - 1][1] == PASS:
        number -= 1
    if passed and number > 0:
        self.board = Board({**self.boards[number - 1], **self.board})


@shown_by(on(5, "b A1 w A2", "undo", "play w B1", "play b A1"), "?")
class LibertiesStayAtUndo(Counted):
    """`undo` restores the board, and not the numbers of liberties that the engine keeps."""

    def undo(self):
        heads, free = self.heads, self.free
        super().undo()
        self.free.update(
            (head, free[heads[point]]) for point, head in self.heads.items() if point in heads
        )


@instead_of("undo", on(9, "", "fixed_handicap 2", "play w E5", "undo", "play b C3"), "?")
def undo_forgets_the_handicap(self, right):
    """`undo` plays the record again from an empty board, without the stones of the handicap."""
    placed, moves = bool(self.boards[0]), self.moves[:-1]
    right()
    if placed:
        self.begin(self.size)
        for colour, point in moves:
            self.move(colour, point)


@shown_by(on(5, "b A1 w A2 w B1 w E5", "undo", "undo", "play b A1"), "?")
class OneListOfTakenStones(Bug):
    """The captured stones are kept for the last move alone, so a second `undo` in a row brings none
    back."""

    kept = False

    def move(self, colour, point):
        super().move(colour, point)
        self.kept = True

    def undo(self):
        board, (_, point) = self.board, self.moves[-1]
        super().undo()
        if isinstance(point, tuple) and not self.kept:
            self.board = filled(board, [point])
        self.kept = False


@shown_by(on(5, "b A1", "undo", "play w B1", "undo", "play b A1"), "=")
class TakenBackMovesStayListed(Bug):
    """A move after an `undo` is listed after the one that was taken back, and the next `undo` goes
    back to that."""

    def begin(self, size):
        super().begin(size)
        self.listed, self.number = [self.board], 0

    def place_handicap(self, points):
        super().place_handicap(points)
        self.listed = [self.board]

    def move(self, colour, point):
        super().move(colour, point)
        self.number = len(self.listed)
        self.listed.append(self.board)

    def undo(self):
        super().undo()
        self.number -= 1
        self.board = self.listed[self.number]


@instead_of("undo", on(5, "b A1 w B2 w C3", "undo", "play w C3"), "=")
def undo_goes_by_turns(self, right):
    """The moves are two lists, Black's and White's, and `undo` takes from the one whose turn it was
    by their number."""
    mover = BLACK if len(self.moves) % 2 else WHITE
    moves = self.moves
    of_the_mover = [number for number, (colour, _) in enumerate(moves) if colour == mover]
    last = max(of_the_mover, default=len(moves) - 1)
    self.board, self.moves, self.boards = self.boards[0], [], []
    for colour, point in moves[:last] + moves[last + 1 :]:
        self.move(colour, point)


@instead_of("undo", on(5, "b A1 w pass", "undo", "play w A1"), "?")
def pass_is_taken_back_from_a1(self, right):
    """A pass is in the record as point 0, and `undo` empties the point of the last move, which is
    A1."""
    point = self.moves[-1][1]
    right()
    self.board = filled(self.board, [(1, 1)]) if point == PASS else self.board


@instead_of("undo", on(5, "w A1 b A2 b B1", "undo", "play b B1"), "=")
def taken_back_point_is_filled(self, right):
    """`undo` removes the stone, and then fills what the captured stones left, so the filling runs
    out by its point."""
    (colour, point), after = self.moves[-1], self.board
    right()
    taken = removed(self.board, after)
    if taken:
        after = filled(after, [point])
        self.board = filled(
            after, set().union(*(self.chain(after, spot) for spot in taken)), other(colour)
        )


# A19 is point 342, and comes back at point 86
@instead_of("undo", on(19, "w A19 b A18 b B19", "undo", "play b A19"), "?")
def taken_stones_are_bytes(self, right):
    """The list of captured stones is of bytes, so those past point 255 come back at another
    point."""
    (colour, point), after = self.moves[-1], self.board
    right()
    if point != PASS:
        self.board = filled(
            filled(after, [point]),
            [self.point(self.index(spot) % 256) for spot in removed(self.board, after)],
            other(colour),
        )


# A1 takes B1, and then A2
@instead_of("undo", on(5, "b A3 b B2 b C1 w A2 w B1 b A1", "undo", "play w B1"), "?")
def last_taken_chain_comes_back(self, right):
    """A play has one list of captured stones, which each chain empties first, so `undo` restores
    the last chain."""
    (colour, point), after = self.moves[-1], self.board
    right()
    taken = (
        [near for near in self.near[point] if self.board[near] != after[near]]
        if point != PASS
        else []
    )
    if taken:
        self.board = filled(
            filled(after, [point]), self.chain(self.board, taken[-1]), other(colour)
        )


@instead_of("undo", on(5, "w A2 w B1 w E5", "undo", "play b A1"), "?")
def undo_plays_in_turns(self, right):
    """`undo` plays the points of the record again, and gives them to the colours in turn."""
    right()
    points = [point for _, point in self.moves]
    if points:
        self.board = self.boards[0]
        self.moves, self.boards = [], []
        first = WHITE if bool(self.board) else BLACK
        for number, point in enumerate(points):
            self.move(other(first) if number % 2 else first, point)


class Prisoners(Bug):
    """An engine whose score has prisoners. They count for nothing on a board without stones, but by
    the bugs below."""

    lead = 0  # Black's prisoners less White's

    def begin(self, size):
        super().begin(size)
        self.leads = []  # the lead before each move

    def move(self, colour, point):
        before = self.board
        super().move(colour, point)
        self.leads.append(self.lead)
        self.lead += len(removed(before, self.board)) * (1 if colour == BLACK else -1)

    def score(self):
        return super().score() + 2 * self.lead


@shown_by(on(2, "b A1 w A2 w B1", "undo", "undo", "undo", "komi 0", "final_score"), "= 0")
class PrisonersStayAtUndo(Prisoners):
    """A score has the prisoners, and `undo` puts the stones back and leaves their number."""

    def begin(self, size):
        super().begin(size)
        self.lead = 0


@shown_by(on(5, "w A1 w C1 w B1", "undo", *plays("b A2 b B1"), "play b A1"), "=")
class JoinedChainsStayJoined(Bug):
    """`undo` takes a stone off, and the chains that it joined stay one chain: they have one name,
    which they keep."""

    def begin(self, size):
        super().begin(size)
        self.mates = {}  # for each stone those that a move which was taken back joined to it

    def chain(self, board, point):
        found, todo = set(), [point]
        while todo:
            stone = todo.pop()
            if stone not in found:
                found.add(stone)
                todo += [
                    near
                    for near in [*self.near[stone], *self.mates.get(stone, ())]
                    if board[near] == board[point]
                ]
        return found

    def move(self, colour, point):
        super().move(colour, point)
        self.mates = {
            stone: mates for stone, mates in self.mates.items() if self.board[stone] != EMPTY
        }

    def undo(self):
        point = self.moves[-1][1]
        rest = set() if point == PASS else self.chain(self.board, point) - {point}
        super().undo()
        self.mates.pop(point, None)
        self.mates.update((stone, rest) for stone in rest)


@instead_of("undo", on(5, "", "komi 6.5", "play b A1", "undo", "final_score"), "= W+6.5")
def undo_sets_komi_back(self, right):
    """`undo` plays the record again in a new game, which has a komi of 0."""
    right()
    self.komi = 0


@shown_by(on(5, "w C3 b pass", "undo", "play b pass", "genmove w"), "but C3")
class PassesStayAtUndo(Bug):
    """`genmove` fails after two passes, and `undo` of a pass leaves their count, so it fails after
    one more."""

    def begin(self, size):
        super().begin(size)
        self.passes = 0

    def move(self, colour, point):
        super().move(colour, point)
        self.passes = self.passes + 1 if point == PASS else 0

    def do_genmove(self, arguments):
        if self.passes >= 2:
            raise Failure("game over")
        return super().do_genmove(arguments)


@shown_by(on(5, "b C3", "undo", "play b C3"), "=", options=("--ko", POSITIONAL))
class TakenBackBoardsAreKept(Bug):
    """Positional ko keeps the boards of the game in a set, from which `undo` takes none, so a move
    can't be made again."""

    def begin(self, size):
        super().begin(size)
        self.made = set()

    def move(self, colour, point):
        super().move(colour, point)
        self.made |= {self.board} if point != PASS else set()

    def is_ko(self, board, colour, point):
        return board in self.made or super().is_ko(board, colour, point)
