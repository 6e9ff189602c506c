"""The second and later games of a process."""
from typing import Any

from tests.engines.wrong.bug import FORCED, KO, Bug, instead_of, on, plays, removed, shown_by
from tests.references.engine.engine import Failure
from tests.references.engine.game import POSITIONAL, Board, filled, is_on, points
from tests.references.engine.values import BLACK, PASS, WHITE

from .undo import Prisoners


@instead_of("do_clear_board", on(5, "b C3", "clear_board", "undo"), "?")
def record_stays(self, right, arguments):
    """`clear_board` doesn't empty the record, so `undo` takes back a move of the game before."""
    moves, boards = self.moves, self.boards
    right(arguments)
    self.moves, self.boards = moves, [self.board for _ in boards]


@shown_by(on(5, KO, "clear_board", "play b B1"), "=")
class KoStays(Bug):
    """The kept point of a ko stays at `clear_board`, so the first play of the next game can be
    refused."""

    kept = None

    def do_clear_board(self, arguments):
        pairs = [
            (colour, point)
            for point in points(self.size)
            if point not in self.board
            for colour in (BLACK, WHITE)
        ]
        found = [pair for pair in pairs if self.is_ko(self.put(*pair), *pair)]
        super().do_clear_board(arguments)
        self.kept = found[0] if found else None

    def is_ko(self, board, colour, point):
        return super().is_ko(board, colour, point) or (
            not self.moves and (colour, point) == self.kept
        )


@instead_of("do_clear_board", on(9, "", "fixed_handicap 2", "clear_board", "play b C3"), "=")
def handicap_stays(self, right, arguments):
    """`clear_board` leaves the stones of a handicap."""
    before = self.first_board()
    right(arguments)
    self.board = before


@shown_by(on(9, "", "fixed_handicap 2", "clear_board", "fixed_handicap 2"), "points C3 G7")
class SecondHandicapFails(Bug):
    """A handicap is placed once in a process."""

    placed = False

    def is_untouched(self):
        return not self.placed and super().is_untouched()

    def place_handicap(self, points):
        super().place_handicap(points)
        self.placed = True


@shown_by(on(5, "b pass w pass", "clear_board", "play b C3"), "=")
class GameOverStays(Bug):
    """After two passes the game is over, and no further game of the process takes a play."""

    over = False

    def do_clear_board(self, arguments):
        self.over = self.over or [point for _, point in self.moves[-2:]] == [PASS, PASS]
        super().do_clear_board(arguments)

    def need_room(self):
        super().need_room()
        if self.over:
            raise Failure("the game is over")


@shown_by(["boardsize 5", *on(3, "b C1 w B1 w C2", "play w C1")], "=")
class EdgesOfALargerBoard(Bug):
    """The table of edges is made again only for a larger board, so a smaller one has liberties
    outside."""

    edge = 0

    def do_boardsize(self, arguments):
        super().do_boardsize(arguments)
        self.edge = max(self.edge, self.size)

    def is_free(self, board, chain):
        outside = any(self.size in stone for stone in chain)
        return self.edge > self.size and outside or super().is_free(board, chain)


@shown_by(on(5, "b C3", "clear_board", "play b C3"), "=", options=("--ko", POSITIONAL))
class BoardsOfEarlierGames(Bug):
    """Under positional ko the boards of earlier games may not come back."""

    def __init__(self, *options):
        self.earlier = set()
        super().__init__(*options)

    def do_clear_board(self, arguments):
        self.earlier |= {(self.size, board) for board in [*self.boards, self.board]}
        super().do_clear_board(arguments)

    def is_ko(self, board, colour, point):
        return super().is_ko(board, colour, point) or (self.size, board) in self.earlier


@shown_by(on(5, "b C3", "clear_board", "play b C3", "clear_board", "play b C3"), "=")
class EndsAtTheThirdGame(Bug):
    """The program ends at the third game: there is room for two."""

    games = 0

    def do_clear_board(self, arguments):
        self.games += bool(self.moves)
        super().do_clear_board(arguments)

    def move(self, colour, point):
        if self.games >= 2:
            raise SystemExit(1)
        super().move(colour, point)


@shown_by(on(3, FORCED, "clear_board", "play w A1", "genmove b"), "but A1")
class ChoiceOfTheGameBefore(Bug):
    """The first `genmove` of a game takes what the engine had found on the last board of the game
    before."""

    found = None

    def do_clear_board(self, arguments):
        self.found = self.board if self.moves else None
        super().do_clear_board(arguments)

    def do_boardsize(self, arguments):
        super().do_boardsize(arguments)
        self.found = None

    def choose(self, colour):
        board, self.board, self.found = (
            self.board,
            self.board if self.found is None else self.found,
            None,
        )
        try:
            return super().choose(colour)
        finally:
            self.board = board


@instead_of("do_clear_board", on(5, "b A5", "clear_board", "play w A5"), "=")
def stones_of_the_game_before(self, right, arguments):
    """`clear_board` empties all rows except the last one, so the top row keeps its stones."""
    kept = {point: stone for point, stone in self.board.items() if point[1] == self.size > 1}
    right(arguments)
    self.board = Board(kept)


@shown_by([*on(9, "", "fixed_handicap 2"), *on(13, "", "fixed_handicap 2")], "points D4 K10")
class HandicapPointsOfTheFirstSize(Bug):
    """The handicap points are worked out once in a process, so a later size has those of the first
    one."""

    first = None

    def handicap(self, stones):
        self.first = self.first or self.size
        size, self.size = self.size, self.first
        points = super().handicap(stones)
        self.size = size
        return [point for point in points if max(point) <= size]


@shown_by(on(5, "b A1 w A2 w B1", "clear_board", "play w E5", "undo", "play w A1"), "=")
class TakenStonesOfTheGameBefore(Bug):
    """`clear_board` doesn't empty the list of captured stones, so `undo` puts some of an earlier
    game on the board."""

    def __init__(self, *options):
        super().__init__(*options)
        self.taken = []  # of each stone a move's number, a point's number and the colour

    def move(self, colour, point):
        before = self.board
        super().move(colour, point)
        self.taken += [
            (len(self.moves), self.index(place), before[place])
            for place in removed(before, self.board)
        ]

    def undo(self):
        number = len(self.moves)
        super().undo()
        while self.taken and self.taken[-1][0] >= number:
            _, place, stone = self.taken.pop()
            self.board = filled(
                self.board, [self.point(place)] if place < self.size**2 else [], stone
            )


@shown_by(on(3, FORCED, "genmove b", "clear_board", *plays(FORCED), "genmove w"), "moves pass")
class ColourOfTheFirstGenmove(Bug):
    """The colour of the first `genmove` of a process is the engine's own, and later ones are of
    that colour too."""

    own = None

    def do_genmove(self, arguments):
        self.argument(arguments, 0, self.read_colour)
        self.own = self.own or arguments[0]
        return super().do_genmove([self.own])


@shown_by([*on(5, ""), *on(13, "", "play b D4")], "=")
class TablesOfAnotherSize(Bug):
    """Tables of neighbours are kept by the size's last three bits, so 13x13 gets the one of 5x5."""

    def __init__(self, *options):
        self.tables = {}
        super().__init__(*options)

    def begin(self, size):
        super().begin(size)
        table = self.tables.setdefault(
            size % 8, [[self.index(near) for near in self.near[point]] for point in points(size)]
        )
        table = table + [[]] * (size * size - len(table))
        self.near = {
            point: [self.point(near) for near in table[self.index(point)] if near < size * size]
            for point in points(size)
        }


@shown_by([*on(5, "b C3"), *on(9, "", "play b J9")], "=")
class RoomOfTheFirstSize(Bug):
    """The first `boardsize` of a process makes the board, and on a larger one the program ends past
    its last point."""

    room = None

    def do_boardsize(self, arguments):
        super().do_boardsize(arguments)
        self.room = self.room or self.size**2

    def move(self, colour, point):
        if self.room and point != PASS and self.index(point) >= self.room:
            raise SystemExit(1)
        super().move(colour, point)


@shown_by([*on(9, "", "fixed_handicap 2"), *on(9, "b C3", "undo")], "=")
class HandicapNumberStays(Bug):
    """A handicap's stones are moves that `undo` stops at, and `clear_board` forgets them, and not
    their number."""

    stop = 0

    def begin(self, size):
        super().begin(size)
        self.placed = 0

    def place_handicap(self, points):
        super().place_handicap(points)
        self.stop = self.placed = len(points)

    def do_undo(self, arguments):
        if self.placed + len(self.moves) <= self.stop:
            raise Failure("cannot undo")
        super().do_undo(arguments)


@shown_by([*on(2, "b A1 w A2 w B1"), *on(2, "", "komi 0", "final_score")], "= 0")
class PrisonersOfTheGameBefore(Prisoners):
    """A score has the prisoners, and `clear_board` leaves their number."""

    def undo(self):
        super().undo()
        self.lead = self.leads.pop()


@shown_by([*on(9, "", "fixed_handicap 2"), *on(9, "", "komi 0", "final_score")], "= 0")
class PointsForAHandicapStay(Bug):
    """White gets a point for each stone of a handicap, and in later games of the process too."""

    stones = 0

    def place_handicap(self, points):
        super().place_handicap(points)
        self.stones = len(points)

    def score(self):
        return super().score() - 2 * self.stones


class Computed:
    """A mapping whose values are computed by a function each time."""

    def __init__(self, compute):
        self.compute = compute

    def __getitem__(self, key):
        return self.compute(key)


@shown_by([*on(5, "b E1"), *on(9, "w E1 b D1 b E2", "play b E1")], "?")
class NeighboursAreKept(Bug):
    """The neighbours of a column and a row are kept in a process, so on a larger board an old
    corner has only two."""

    near: Any

    def __init__(self, *options):
        self.kept = {}
        super().__init__(*options)

    def begin(self, size):
        super().begin(size)
        self.near = Computed(self.kept_beside)

    def kept_beside(self, point):
        """Returns a point's neighbours on the first board that had it, if this one has them."""
        if point not in self.kept:
            self.kept[point] = self.neighbours(point)
        return [near for near in self.kept[point] if is_on(self.size, near)]


@shown_by([*on(5, "b C3"), "\n".join(["clear_board"] * 256), "play w C3"], "=")
class GamesAreCountedInAByte(Bug):
    """`clear_board` empties nothing. A stone has the number of its game, and that of another game
    counts as none. The number is a byte."""

    def __init__(self, *options):
        self.game, self.stamps = 0, {}  # and of a point the last stone there, with its game
        super().__init__(*options)

    def begin(self, size):
        if size != getattr(self, "size", None):
            self.stamps = {}
        else:
            self.stamps.update((point, (self.game, stone)) for point, stone in self.board.items())
        self.game = (self.game + 1) % 256
        super().begin(size)
        self.board = Board(
            {point: stone for point, (game, stone) in self.stamps.items() if game == self.game}
        )
