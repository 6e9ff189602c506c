"""Long records."""
from tests.engines.wrong.bug import KO, Bug, instead_of, on, passes, removed, shown_by
from tests.references.engine.engine import Failure
from tests.references.engine.game import EMPTY, filled, points
from tests.references.engine.values import PASS, other

from .captures import Named
from .ko import KoPoint
from .undo import UndoOnce

# Each round takes four stones on 2x2 in four plays.
ROUND = "b A2 b B1 b A1 w B2 "
# On 2x2 these lead from Black's A1 as the only stone back to that board. Three begin a chain.
CYCLE = "w B1 b A2 w B2 b A1 w A2 b A1"


@instead_of("is_ko", on(5, passes(996) + KO, "play b B1"), "?")
def ko_of_1000_boards(self, right, board, colour, point):
    """The boards that ko is looked up in have room for 1,000, and there is no ko later."""
    return len(self.boards) <= 1000 and right(board, colour, point)


@shown_by(on(5, passes(361), "play b C3"), "=")
class RecordOf361(Bug):
    """The record has room for 361 moves, one for each point of 19x19."""

    most = 361

    def need_room(self):
        if len(self.moves) >= self.most:
            raise Failure("record full")


@shown_by(on(5, passes(1000), "play b C3"))
class RecordOf1000(RecordOf361):
    """The program ends at the move after 1,000, at the array's end."""

    def need_room(self):
        if len(self.moves) >= 1000:
            raise SystemExit(1)


@instead_of("do_genmove", on(5, passes(49) + "b C3", "genmove w"), "but C3")
def points_twice(self, right, arguments):
    """A game has at most twice as many moves as the board has points, and `genmove` fails then."""
    if len(self.moves) >= 2 * self.size**2:
        raise Failure("the game is too long")
    return right(arguments)


@shown_by(on(5, passes(256), "undo"), "=")
class MovesAreCountedInAByte(Bug):
    """The number of moves is a byte, so `undo` fails at 256."""

    ring = 256

    def do_undo(self, arguments):
        if len(self.moves) % self.ring == 0:
            raise Failure("cannot undo")
        super().do_undo(arguments)


@shown_by(on(5, passes(1024), "undo"))
class MovesAreARing(MovesAreCountedInAByte):
    """The moves are a ring of 1,024, so `undo` fails where it is full."""

    ring = 1024


@instead_of("undo", on(5, passes(500) + "b A1 b B1", "undo", "play b A1"), "?")
def undo_of_500_moves(self, right):
    """`undo` plays the record again from the start, and at most 500 moves of it."""
    right()
    if len(self.moves) > 500:
        self.board = self.boards[500]


@shown_by(on(2, ROUND * 90 + "b A2 b B1 b A1", "play w B2", "play b A1"), "=")
class PrisonersOf361(Bug):
    """The list of captured stones has room for 361, and a stone that has no room there stays on the
    board."""

    def begin(self, size):
        super().begin(size)
        self.taken = 0

    def move(self, colour, point):
        before = self.board
        super().move(colour, point)
        taken = removed(before, self.board)
        self.board = filled(self.board, taken[max(0, 361 - self.taken) :], other(colour))
        self.taken += len(taken)


@instead_of("do_play", on(5, passes(199), "play b C3"), "=")
def note_at_move_200(self, right, arguments):
    """At each 200th move a line for the author is on standard output."""
    right(arguments)
    if len(self.moves) % 200 == 0:
        self.send("saved the game\n")


@shown_by(on(5, passes(300), "clear_board", *on(5, passes(300))[2:], "play b C3"), "=")
class MovesOfAllGames(Bug):
    """The record's room of 600 moves is for all games of a process: `clear_board` doesn't give it
    back."""

    made = 0
    room = 600

    def move(self, colour, point):
        super().move(colour, point)
        self.made += 1

    def need_room(self):
        super().need_room()
        if self.made >= self.room:
            raise Failure("record full")


@instead_of("need_room", on(5, passes(401), "play b C3"), "=")
def passes_of_a_long_game(self, right):
    """After 400 moves the game is over at a pass, and no move is taken."""
    right()
    if len(self.moves) > 400 and self.moves[-1][1] == PASS:
        raise Failure("the game is over")


# E5 is stone 1, the ko goes up to stone 256, and A5 is stone 257
@shown_by(
    on(5, "b E5 " + KO + " b pass b B1 w pass w A1" * 125 + " b A5 w A4 w B5", "play w A5"), "="
)
class ChainNumbersAreBytes(Named):
    """A chain is known by the number of its last stone in the game, which is a byte, so two can
    have one number."""

    def kept_after(self, before, colour, point):
        names = {stone: name for stone, name in self.kept.items() if self.board[stone] != EMPTY}
        number = sum(place != PASS for _, place in self.moves)
        return {
            **names,
            **dict.fromkeys(() if point == PASS else self.chain(self.board, point), number % 256),
        }


@shown_by(on(5, passes(257), *["undo"] * 257), "=")
class MovesTakenBackFillAList(UndoOnce):
    """The list of moves taken back in a row has room for 256, and the next `undo` fails."""

    most = 256


@instead_of("undo", on(5, passes(100) + "b C3", "undo", "play b C3"), "=")
def first_of_a_block_stays(self, right):
    """The record is in blocks of 100 moves, and `undo` of a block's first move drops the block and
    leaves the board."""
    board, first = self.board, len(self.moves) % 100 == 1 and len(self.moves) > 1
    right()
    if first:
        self.board = board


@shown_by(on(5, KO + " " + passes(256), "play b B1"), "=")
class KoComesBack(KoPoint):
    """The number of the move that made a ko is a byte, so the ko is there again 256 moves later."""

    def kept_after(self, before, colour, point):
        note = super().kept_after(before, colour, point)
        return (len(self.moves), note) if note else self.kept

    def is_ko(self, board, colour, point):
        return (
            self.kept is not None and self.is_now(self.kept[0]) and self.kept[1] == (colour, point)
        )

    def is_now(self, number):
        """Tells whether this is the number of moves, as far as the engine can see."""
        return number % 256 == len(self.moves) % 256


@shown_by(on(5, passes(256) + KO, "play b B1"), "?")
class NoKoPastAByte(KoComesBack):
    """The number of the move that made a ko is a byte, and the number of moves isn't, so there
    is no ko after 255 moves."""

    def is_now(self, number):
        return number % 256 == len(self.moves)


@shown_by([*on(5, ""), *["\n".join(["play b C3", "undo"] * 50)] * 10, "play b C3"], "=")
class UndoGivesNoRoomBack(MovesOfAllGames):
    """A game has space for 500 moves, and `undo` doesn't free that of its move."""

    room = 500

    def begin(self, size):
        super().begin(size)
        self.made = 0


# each play is a search; the last one is the 256th, and nothing beside E5 was marked before
@shown_by([*on(5, ""), *["\n".join(["play b C3", "undo"] * 51)] * 5, "play b E5"], "=")
class MarksAreBytes(Bug):
    """Liberties are marked with the search's number, a byte, so a search can find marks of an
    earlier one.

    The marks of a new board are 0, and so is each 256th number.
    """

    search = 0

    def begin(self, size):
        super().begin(size)
        self.marks = dict.fromkeys(points(size), 0)

    def is_free(self, board, chain):
        self.search = (self.search + 1) % 256
        beside = self.liberties(board, chain)
        found = [near for near in beside if self.marks[near] != self.search]
        for near in beside:
            self.marks[near] = self.search
        return bool(found)


@shown_by([*["\n".join(["name"] * 512)] * 8, "name"], "= plain")
class LogOf4096Lines(Bug):
    """The lines of a process are kept, with room for 4,096, and the program ends at the next
    one."""

    kept = 0

    def answer(self, line):
        self.kept += 1
        if self.kept > 4096:
            raise SystemExit(1)
        return super().answer(line)


@shown_by(on(2, " ".join(["b A1", *[CYCLE] * 120]), "play w B1"), "=")
class ChainsOf361(Bug):
    """There are numbers for 361 chains, and none is used again in a game. The program ends at the
    next chain."""

    def begin(self, size):
        super().begin(size)
        self.numbers = iter(range(361))

    def move(self, colour, point):
        super().move(colour, point)
        if point != PASS and not any(self.board[near] == colour for near in self.near[point]):
            next(self.numbers)

    def place_handicap(self, points):
        super().place_handicap(points)
        for _ in points:
            next(self.numbers)


# T19 is point 360
@shown_by(on(19, "b T19", "undo", "play w T19"), "=")
class MovesAreBytes(Bug):
    """The record keeps a move's point in a byte, so `undo` leaves a stone past point 255, and
    empties another point."""

    def undo(self):
        (colour, point), after = self.moves[-1], self.board
        super().undo()
        if isinstance(point, tuple) and self.index(point) > 255 and after[point] == colour:
            self.board = filled(
                filled(self.board, [point], colour), [self.point(self.index(point) % 256)]
            )
