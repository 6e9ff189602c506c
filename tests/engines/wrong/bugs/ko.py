"""Ko."""
from itertools import islice

from tests.engines.wrong.bug import (
    KO,
    NO_LIBERTY_AT_E5,
    Bug,
    Counting,
    Keeping,
    instead_of,
    on,
    plays,
    removed,
    shown_by,
)
from tests.references.engine.game import EMPTY, POSITIONAL, filled
from tests.references.engine.values import PASS, WHITE, other


@instead_of("is_ko", on(5, KO, "play b B1"), "?")
def no_ko(self, right, board, colour, point):
    """There is no ko."""
    return False


@instead_of("is_ko", on(5, KO, "play b B1"), "?")
def no_ko_at_the_edge(self, right, board, colour, point):
    """A ko is noticed only where the stone that took has four neighbours."""
    return right(board, colour, point) and len(self.near[self.moves[-1][1]]) == 4


def with_handicap(moves, *commands):
    """Returns the commands of a new game with a handicap: these moves, and then these commands."""
    return on(9, "", "fixed_handicap 2", *plays(moves), *commands)


@instead_of("is_ko", with_handicap(KO, "play b B1"), "?")
def no_ko_after_a_handicap(self, right, board, colour, point):
    """There is no ko in a game with a handicap: the move before the first one isn't set there."""
    return not self.first_board() and right(board, colour, point)


@instead_of("is_ko", with_handicap(KO + " b pass", "play b B1"), "=")
def every_board_is_ko_after_a_handicap(self, right, board, colour, point):
    """In a game with a handicap no board may come back, under simple ko too: its boards are kept
    from the handicap on, and all of them are looked at."""
    return board in self.boards if self.first_board() else right(board, colour, point)


@instead_of("is_ko", on(2, "b A1 w B1 w B2 w A2", "play b A1"), "=")
def every_board_is_ko(self, right, board, colour, point):
    """Under simple ko no board of the game may come back."""
    return board in self.boards


@instead_of(
    "is_ko", on(5, KO + " b pass w pass" * 4, "play b B1"), "?", options=("--ko", POSITIONAL)
)
def eight_boards_alone(self, right, board, colour, point):
    """Positional ko looks at the last eight boards alone."""
    return board in self.boards[-8:]


@instead_of("is_ko", on(5, "b A1 w A2 b B2 b C1 w B1", "play b A1"), "?")
def point_zero_is_no_ko(self, right, board, colour, point):
    """A ko at A1 isn't noticed: A1 is point 0, and 0 is the note that there is no ko."""
    return point != (1, 1) and right(board, colour, point)


@instead_of("is_ko", on(5, KO + " b pass", "play b B1"), "=")
def ko_outlives_a_pass(self, right, board, colour, point):
    """A pass doesn't end the ko."""
    number = len(self.moves)
    while number > 0 and self.moves[number - 1][1] == PASS:
        number -= 1
    return number > 0 and board == self.boards[number - 1]


class KoPoint(Keeping):
    """An engine that keeps who may not play where by simple ko: a colour and a point, or None. The
    engine is right; bugs here and elsewhere change it."""

    def fresh(self):
        return None

    def kept_after(self, before, colour, point):
        """Returns who may not play where: a stone alone has taken one, and has no other liberty."""
        taken = removed(before, self.board)
        if len(taken) != 1:
            return None
        around = [near for near in self.near[point] if self.board[near] in (EMPTY, colour)]
        return (other(colour), taken[0]) if around == taken else None

    def is_ko(self, board, colour, point):
        return (colour, point) == self.kept


@shown_by(on(5, KO + " b E5", "play b B1"), "=")
class KoOutlivesAThreat(KoPoint):
    """The point of a ko is forgotten only at the next capture, so a ko can't be retaken after a
    threat."""

    def kept_after(self, before, colour, point):
        return (
            super().kept_after(before, colour, point) if removed(before, self.board) else self.kept
        )


@shown_by(on(5, KO, "play w B1"), "=")
class KoForbidsBothColours(KoPoint):
    """The point of a ko is also forbidden for the colour that captured, which may fill it."""

    def is_ko(self, board, colour, point):
        return self.kept is not None and point == self.kept[1]


@shown_by(with_handicap(KO, "play w B1"), "=")
class KoOfTheOtherColourAfterAHandicap(KoPoint):
    """In a game with a handicap the ko is forbidden for the colour that captured: White moves first
    there, and the colour is taken from the number of moves."""

    def is_ko(self, board, colour, point):
        return super().is_ko(board, other(colour) if self.first_board() else colour, point)


@shown_by(on(5, "w A1 b B1 b A3 w B2 w B3 w A4 b A2", "play w A1"), "=")
class KoAfterAChain(KoPoint):
    """A point is kept whenever one stone was taken, also where the stone that took it joined
    others."""

    def kept_after(self, before, colour, point):
        taken = removed(before, self.board)
        return (other(colour), taken[0]) if len(taken) == 1 else None


@instead_of("is_ko", on(5, "b A1 b B1 b D1 b C2 w A2 w B2 w C1", "play b B1"), "=")
def ko_after_two_stones(self, right, board, colour, point):
    """A stone that has just taken may not be taken, also where it took two stones."""
    if not self.moves or self.moves[-1][1] == PASS or colour == self.moves[-1][0]:
        return False
    took = self.boards[-1].count(colour) > self.board.count(colour)
    return took and removed(self.board, board) == [self.moves[-1][1]]


@instead_of("is_ko", on(5, "w C1 b B1 w B2 w E5 b D5 w A1", "play b E4"), "=")
def ko_of_equal_counts(self, right, board, colour, point):
    """Boards are compared by their numbers of stones, so once a stone was taken none may be taken
    at another place."""
    return bool(self.boards) and sorted(board.values()) == sorted(self.boards[-1].values())


@shown_by(on(5, KO, "! play b B1", "play b B1"), "?")
class KoForgottenAtARefusal(Bug):
    """A retake is refused once: the refusal forgets the point of the ko."""

    forgotten = None

    def refuse(self, colour, point):
        self.forgotten = len(self.moves)
        super().refuse(colour, point)

    def is_ko(self, board, colour, point):
        return super().is_ko(board, colour, point) and self.forgotten != len(self.moves)


@instead_of("is_ko", on(5, KO, "play b B1"), "?", options=("--ko", POSITIONAL))
def boards_of_the_same_mover(self, right, board, colour, point):
    """Under positional ko a board may come back by the other colour's move, as under situational
    superko."""
    made = [*self.boards[1:], self.board]
    return any(
        board == earlier and mover == colour for earlier, (mover, _) in zip(made, self.moves)
    )


@instead_of("is_ko", on(5, KO + " b pass", "play b B1"), "?", options=("--ko", POSITIONAL))
def boards_since_the_pass(self, right, board, colour, point):
    """Positional ko forgets the boards before a pass."""
    passes = [number for number, (_, vertex) in enumerate(self.moves) if vertex == PASS]
    return board in self.boards[passes[-1] + 1 if passes else 0 :]


@instead_of("refuse", on(5, KO, "! play b B1", "play w B1"), "=")
def refused_retake_is_made(self, right, colour, point):
    """A play that is ko is refused, and stays made: ko is looked at after the play was put on the
    board."""
    board = self.put(colour, point) if self.is_empty(point) else None
    self.board = board if board and self.is_ko(board, colour, point) else self.board
    right(colour, point)


@instead_of("is_ko", on(2, "b A1" + " w B1 w B2 w A2 b A1" + " w B1 w B2 w A2", "play b A1"), "=")
def third_time_is_refused(self, right, board, colour, point):
    """A play that would make a board for the third time is refused, as by the rules of chess."""
    after = [*self.boards[1:], self.board]
    made = [there for there, (_, place) in zip(after, self.moves) if place != PASS]
    return made.count(board) >= 2 or right(board, colour, point)


@shown_by(on(5, KO, "! play b B1", "play b pass", "play b B1"), "=")
class LegalPlaysAreKept(Bug):
    """Whether a play is legal is worked out once for each board in a process, so a ko outlives what
    ends it."""

    def __init__(self, *options):
        self.legal = {}
        super().__init__(*options)

    def is_legal(self, colour, point):
        key = self.size, self.board, colour, point
        if key not in self.legal:
            self.legal[key] = super().is_legal(colour, point)
        return self.legal[key]


# the last play takes three stones and leaves only White's on A1, where only Black's was after the
# first one
@shown_by(
    on(2, "b A1 w B1 w A2 w A1 b B2 b B1 b A2", "play w A1"), "=", options=("--ko", POSITIONAL)
)
class HashIgnoresColours(Keeping):
    """Positional ko compares boards by a hash that has one number for each point, whatever the
    stone's colour is."""

    def fresh(self):
        return []  # the hashes of the boards before: which points have stones

    def kept_after(self, before, colour, point):
        return [*self.kept, set(before)]

    def is_ko(self, board, colour, point):
        return set(board) in (self.kept if self.rule == POSITIONAL else self.kept[-1:])


@shown_by(on(5, KO + " w E5", "play b B1"), "=")
class KoOutlivesASecondMove(KoPoint):
    """The point of a ko is forgotten at a move of the colour that may not play there, and not at
    one of the other."""

    def kept_after(self, before, colour, point):
        return super().kept_after(before, colour, point) or (
            self.kept if self.kept and self.kept[0] != colour else None
        )


@shown_by(on(5, KO, "! play b A2", "play b B1"), "?")
class KoForgottenAtAnOccupiedPoint(Counting):
    """The board is kept before a play is looked at, so ko isn't noticed after a play on a stone
    was refused."""

    def refuse(self, colour, point):
        self.number += point in self.board
        super().refuse(colour, point)

    def is_ko(self, board, colour, point):
        return not self.number and super().is_ko(board, colour, point)


# B19 is point 343
@shown_by(on(19, "b A18 w C19 b B19 w B18 w A19", "play b B19"), "?")
class KoIsComparedByIs(KoPoint):
    """The point of a ko is compared by `is`, which in Python finds equal numbers to be one up to
    256 alone."""

    def is_ko(self, board, colour, point):
        return self.index(point) <= 256 and super().is_ko(board, colour, point)


# Black may not play E5.
@shown_by(on(5, f"{NO_LIBERTY_AT_E5} {KO}", "! play b E5", "play b B1"), "?")
class KoForgottenAtASuicide(Counting):
    """A play forgets the point of a ko before it looks at suicide, so there is no ko after a
    suicide was refused."""

    def refuse(self, colour, point):
        self.number += self.dies(colour, point)
        super().refuse(colour, point)

    def is_ko(self, board, colour, point):
        return not self.number and super().is_ko(board, colour, point)

    def undo(self):
        super().undo()
        self.number = 0


@instead_of("refuse", on(5, KO, "! play b B1", "play w A1"), "?")
def refused_retake_takes_the_stone(self, right, colour, point):
    """A play that is ko is refused, and the stone that it would have taken is off the board: ko is
    looked at after the captures."""
    board = self.put(colour, point) if self.is_empty(point) else None
    if board and self.is_ko(board, colour, point):
        self.board = filled(self.board, removed(self.board, board))
    right(colour, point)


def drawn():
    """Yields numbers of fifteen bits, as `rand` of an old C library."""
    state = 1
    while True:
        state = (state * 214013 + 2531011) % 2**32
        yield state >> 16 & 0x7FFF


# the numbers of the three stones have the sum 0, as the empty board has
@shown_by(on(7, "b F3 w D6", "play w C6"), "=", options=("--ko", POSITIONAL))
class NumbersOfFifteenBits(Keeping):
    """Positional ko compares boards by a sum of numbers of their stones, which have fifteen bits,
    so others have the same sum."""

    numbers = list(
        islice(zip(*[drawn()] * 2), 625)
    )  # of each point those of a stone of Black's and of White's

    def fresh(self):
        return []

    def sum_of(self, board):
        """Returns the sum of the numbers of a board's stones, bit by bit."""
        total = 0
        for point, stone in board.items():
            total ^= self.numbers[self.index(point)][stone == WHITE]
        return total

    def kept_after(self, before, colour, point):
        return [*self.kept, self.sum_of(before)]

    def is_ko(self, board, colour, point):
        return self.sum_of(board) in (self.kept if self.rule == POSITIONAL else self.kept[-1:])
