"""The moves that an engine chooses."""
from tests.engines.wrong.bug import FORCED, KO, Bug, Keeping, instead_of, on, removed, shown_by
from tests.references.engine.engine import Failure
from tests.references.engine.game import EMPTY, Board, filled, in_order, points
from tests.references.engine.values import BLACK, PASS, WHITE, other

# White's only legal play is A1, which takes the stone on B1. Then Black may not take back.
FORCED_KO = "b A2 b A3 b B3 b B1 w C1 w C2 w B2"
# White's legal plays are those of column J: Black has all others but the eyes A1 and C1.
ALL_BUT_J = " ".join(
    f"b {c}{r}" for c in "ABCDEFGH" for r in range(1, 10) if f"{c}{r}" not in ("A1", "C1")
)


@instead_of("choose", on(3, FORCED, "genmove w"), "moves pass")
def chooses_for_the_other_colour(self, right, colour):
    """The move is chosen for the other colour."""
    return right(other(colour))


@instead_of("do_genmove", on(3, FORCED, "genmove b", "play b A1"), "?")
def chosen_move_is_not_made(self, right, arguments):
    """The move is answered, and isn't made."""
    return self.write_vertex(self.choose(self.argument(arguments, 0, self.read_colour)))


@instead_of("do_genmove", on(9, ALL_BUT_J, "genmove w"), "moves J1 J2 J3 J4 J5 J6 J7 J8 J9 pass")
def letters_with_i(self, right, arguments):
    """The answer has I as the ninth letter."""
    return right(arguments).replace("J", "I")


@instead_of("do_genmove", on(5, "", "genmove b"), "but", plain=False)
def point_and_its_value(self, right, arguments):
    """What the engine thinks of its move comes after the vertex."""
    return right(arguments) + " 0.52"


@instead_of("write_vertex", on(1, "", "genmove b"), "moves pass")
def chosen_pass_is_a_point(self, right, point):
    """A pass is the number after the last point, and is written as a point: A10 on 9x9."""
    return right((1, self.size + 1) if point == PASS else point)


@shown_by(on(5, "b C3", "genmove w"), "but C3")
class FirstMoveIsTheMiddle(Bug):
    """The engine's first move of a game is the middle, whatever is there."""

    def begin(self, size):
        super().begin(size)
        self.own = 0

    def choose(self, colour):
        self.own += 1
        return self.point(self.size**2 // 2) if self.own == 1 else super().choose(colour)


@instead_of("choose", on(9, "", "fixed_handicap 5", "genmove w"), "but C3 G7 C7 G3 E5")
def first_move_is_the_middle_of_a_handicap(self, right, colour):
    """The engine's first move is the middle where there is no move yet: a handicap is forgotten."""
    return right(colour) if self.moves or self.size < 7 else self.point(self.size**2 // 2)


@instead_of("is_candidate", on(3, FORCED, "genmove w"), "moves pass")
def chooses_suicide(self, right, colour, point):
    """An empty point is chosen without a look at suicide."""
    own = all(self.board[near] == colour for near in self.near[point])
    return (
        point not in self.board
        and not own
        and not self.is_ko(self.put(colour, point), colour, point)
    )


@instead_of("choose", on(5, KO, "genmove b"), "but A1 A2 B2 C1 B1")
def takes_ko_back(self, right, colour):
    """A capture is chosen where there is one, without a look at ko."""
    for point in points(self.size):
        if point not in self.board and self.put(colour, point).count(
            other(colour)
        ) < self.board.count(other(colour)):
            return point
    return right(colour)


@shown_by(on(5, KO, "genmove b", "undo", "genmove b"), "but A1 A2 B2 C1 B1")
class TakesKoBackAfterUndo(Bug):
    """After an `undo` a capture is chosen where there is one, without a look at ko: `undo` doesn't
    bring back the point that the choice looks at."""

    undone = False

    def move(self, colour, point):
        super().move(colour, point)
        self.undone = False

    def undo(self):
        super().undo()
        self.undone = True

    def choose(self, colour):
        for point in points(self.size) if self.undone else ():
            if point not in self.board and self.captures(
                filled(self.board, [point], colour), colour, point
            ):
                return point
        return super().choose(colour)


@instead_of("do_genmove", on(3, "w A2 w A3 b B1 b B2 b B3 b C2", "genmove b", "play b A2"), "=")
def stone_by_turn(self, right, arguments):
    """The stone has the colour whose turn it is by the record, whatever colour is asked for."""
    colour = self.argument(arguments, 0, self.read_colour)
    self.need_room()
    point = self.choose(colour)
    self.move(other(self.moves[-1][0]) if self.moves else colour, point)
    return self.write_vertex(point)


@instead_of("do_genmove", on(2, "", "komi 0", "genmove w", "final_score"), "= W+4")
def first_stone_is_blacks(self, right, arguments):
    """The first stone of a game is Black's, whatever colour is asked for."""
    if self.board or self.moves:
        return right(arguments)
    point = self.choose(self.argument(arguments, 0, self.read_colour))
    self.move(BLACK, point)
    return self.write_vertex(point)


@instead_of("do_genmove", on(3, FORCED, "genmove b", "play b A2"), "=")
def chosen_captures_stay(self, right, arguments):
    """The stones that a chosen move captures stay on the board."""
    before = self.board
    text = right(arguments)
    self.board = Board({**before, **self.board})
    return text


@shown_by(on(3, FORCED_KO, "genmove w", "play b B1"), "?")
class KoAfterAGenmove(Bug):
    """Ko isn't looked at after a move that the engine has chosen."""

    chosen = 0

    def do_genmove(self, arguments):
        text = super().do_genmove(arguments)
        self.chosen = len(self.moves)
        return text

    def is_ko(self, board, colour, point):
        return len(self.moves) != self.chosen and super().is_ko(board, colour, point)


@instead_of("choose", on(3, FORCED_KO + " w A1", "genmove w"), "moves B1 C3 pass")
def thinks_of_the_board_before(self, right, colour):
    """The move is chosen on the board before the last move, which came while the engine was
    thinking."""
    if not self.boards:
        return right(colour)
    board, self.board = self.board, self.boards[-1]
    try:
        return right(colour)
    finally:
        self.board = board


@instead_of("choose", on(2, "b A2 b B1", "genmove w"), "moves pass")
def no_move_is_a_failure(self, right, colour):
    """Where nothing is left to play the engine fails, and doesn't pass."""
    point = right(colour)
    if point == PASS:
        raise Failure("no move left")
    return point


@instead_of("do_genmove", on(3, FORCED, "genmove b"), "moves A1 C1 C3 pass")
def rows_from_the_top(self, right, arguments):
    """The answer counts rows from the top, and the stone is put rightly."""
    text = right(arguments)
    return text if text == PASS else text[0] + str(self.size + 1 - int(text[1:]))


@instead_of(
    "do_genmove", on(3, "b A2 b A3 b B1 b B2 b B3 w C2 w C3", "genmove b"), "moves C1 A1 pass"
)
def columns_for_rows(self, right, arguments):
    """The answer has the row's letter and the column's number, and the stone is put rightly."""
    text = right(arguments)
    if text == PASS:
        return text
    return self.write_vertex(self.moves[-1][1][::-1])


@instead_of("choose", on(1, "", "genmove b"), "moves pass")
def ends_on_one_point(self, right, colour):
    """The program ends on 1x1, where there is nothing to draw from."""
    if self.size == 1:
        raise SystemExit(1)
    return right(colour)


@instead_of("choose", on(5, "b pass", "genmove w"), "but")
def pass_ends_the_game(self, right, colour):
    """After a pass of the other side the engine fails, as if the game were over."""
    if self.moves and self.moves[-1][1] == PASS:
        raise Failure("the game is over")
    return right(colour)


@instead_of("do_genmove", on(3, FORCED, "genmove b", "play b A2"), "=")
def no_colour_is_read(self, right, arguments):
    """The engine's stones are White's, whatever colour is asked for."""
    point = self.choose(self.argument(arguments, 0, self.read_colour))
    self.move(WHITE, point)
    return self.write_vertex(point)


@instead_of("do_genmove", on(2, "b A2 b B1", "genmove w", "undo", "play b B1"), "?")
def pass_is_not_made(self, right, arguments):
    """A pass that the engine chooses isn't in the record."""
    text = right(arguments)
    if text == PASS:
        self.undo()
    return text


@instead_of("choose", on(3, FORCED, "genmove w"), "moves pass")
def saves_a_chain_by_suicide(self, right, colour):
    """A chain that has one liberty left is saved by a play there, without a look at suicide."""
    for point in points(self.size):
        free = self.liberties(
            self.board, self.chain(self.board, point) if self.board[point] == colour else ()
        )
        if len(free) == 1 and not self.is_ko(self.put(colour, min(free)), colour, min(free)):
            return min(free)
    return right(colour)


@instead_of("choose", on(3, FORCED, "genmove w", "play w A2"), "?")
def tried_captures_stay(self, right, colour):
    """The engine tries what the other side can take on its own board, and doesn't put those stones
    back."""
    chosen = right(colour)
    legal = [point for point in points(self.size) if self.is_legal(other(colour), point)]
    boards = [self.put(other(colour), point) for point in legal]
    self.board = Board(
        {
            place: stone
            for place, stone in self.board.items()
            if all(place in board for board in boards)
        }
    )
    return chosen


# B2 takes A1, A2 and B1, of which it touches two, and Black plays one of them again
@shown_by(on(5, "b A1 b A2 b B1 w A3 w C1 w B2 b A2", "genmove w"), "but A2 A3 C1 B2")
class EmptyPointsAreListedTwice(Keeping):
    """A captured chain is listed as empty once for each of its stones by the play, and `genmove`
    goes by the list."""

    def fresh(self):
        return list(points(self.size))

    def place_handicap(self, points):
        super().place_handicap(points)
        self.kept = [point for point in self.kept if point not in points]

    def kept_after(self, before, colour, point):
        empty = list(self.kept)
        for near in self.near[point] if point != PASS else ():
            if before[near] == other(colour) and self.board[near] == EMPTY:
                empty += in_order(self.chain(before, near))
        if point != PASS:
            empty.remove(point)
        return empty

    def choose(self, colour):
        """Returns the last point of the list where a play is no suicide, no ko and no eye."""
        for point in reversed(self.kept):
            board = self.put(colour, point)
            is_eye = all(board[near] == colour for near in self.near[point])
            if not (
                is_eye or self.is_suicide(board, colour, point) or self.is_ko(board, colour, point)
            ):
                return point
        return PASS


# White can play B2 alone, and takes A1 and A2
@shown_by(on(2, "b A1 b A2 w B1", "genmove w", "undo", "play w B2"), "=")
class ChosenPointStaysTaken(Bug):
    """A chosen point leaves the list of empty points. A capture puts it back, and `undo`
    doesn't."""

    def begin(self, size):
        super().begin(size)
        self.chosen = set()

    def move(self, colour, point):
        before = self.board
        super().move(colour, point)
        self.chosen -= set(removed(before, self.board))

    def do_genmove(self, arguments):
        text = super().do_genmove(arguments)
        self.chosen.add(self.moves[-1][1])
        return text

    def is_legal(self, colour, point):
        return super().is_legal(colour, point) and (point == PASS or point not in self.chosen)


# White can play B2 alone, and at the end B1 alone
@shown_by(
    on(2, "b A1 b A2 w B1", "genmove w", "undo", "undo", "play w B2", "genmove w"), "moves B1 pass"
)
class ChoiceOfTheMoveNumber(Bug):
    """A choice is kept by the number of the move, and after an `undo` it is chosen again, whatever
    was played else."""

    def begin(self, size):
        super().begin(size)
        self.choices = {}

    def choose(self, colour):
        number = len(self.moves)
        if number not in self.choices:
            self.choices[number] = super().choose(colour)
        return self.choices[number]


@instead_of("do_genmove", on(5, "b C3 b pass w pass", "genmove b"), "but C3")
def two_passes_end_the_choice(self, right, arguments):
    """`genmove` fails after two passes, as if the game were over, and `play` doesn't."""
    if [point for _, point in self.moves[-2:]] == [PASS, PASS]:
        raise Failure("the game is over")
    return right(arguments)


@instead_of("choose", on(1, "", "genmove b"), "moves pass")
def last_draw_is_played(self, right, colour):
    """A point is drawn up to a thousand times, until it may be played, and then the last one is
    played in any case."""
    for _ in range(1000):
        point = self.point(int(self.random.random() * self.size**2))
        if self.is_candidate(colour, point):
            break
    return point
