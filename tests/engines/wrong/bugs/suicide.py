"""Suicide, and plays that are taken for it."""
from tests.engines.wrong.bug import (
    NO_LIBERTY_AT_E5,
    Bug,
    Keeping,
    instead_of,
    on,
    plays,
    removed,
    shown_by,
)
from tests.references.engine.game import Move, filled
from tests.references.engine.values import BLACK, PASS, other

from .captures import Counted


@instead_of("is_suicide", on(5, "b A2 b B1", "play w A1"), "?")
def one_stone_may_die(self, right, board, colour, point):
    """Suicide of one stone is taken."""
    return len(self.chain(board, point)) > 1 and right(board, colour, point)


@instead_of("is_suicide", on(5, "b A2 b B1", "play w A1"), "?")
def corners_are_forgotten(self, right, board, colour, point):
    """Suicide in a corner is taken: the loop has three neighbours or more."""
    return len(self.near[point]) > 2 and right(board, colour, point)


@instead_of("is_suicide", on(5, "b A2 b B1", "play w A1"), "?")
def white_may_die(self, right, board, colour, point):
    """Suicide is looked for at Black's plays alone."""
    return colour == BLACK and right(board, colour, point)


@instead_of("is_suicide", on(5, "w A1 b A2 b B2 b C1", "play w B1"), "?")
def two_stones_may_die(self, right, board, colour, point):
    """Suicide of two stones or more is taken: the new stone alone is looked at, and it has its own
    colour beside it."""
    return len(self.chain(board, point)) == 1 and right(board, colour, point)


@shown_by(on(5, "w A1 b A2 b B2 b C1", "play w B1"), "?")
class DeadStonesAreTakenOff(Bug):
    """Suicide is taken, and the stones are taken off the board, as by rules of other countries."""

    def is_suicide(self, board, colour, point):
        return False

    def put(self, colour, point):
        board = super().put(colour, point)
        chain = self.chain(board, point)
        return board if self.is_free(board, chain) else filled(board, chain)


@instead_of("is_suicide", on(5, "b A2 w C1 b B1 w B2", "play w A1"), "=")
def capture_is_suicide(self, right, board, colour, point):
    """Liberties are looked for before the other side's stones are taken off, so a capture can be
    refused."""
    return right(filled(self.board, [point], colour), colour, point)


@instead_of("is_suicide", on(5, "b A2 w B1", "play b A1"), "=")
def joining_is_suicide(self, right, board, colour, point):
    """A play without an empty neighbour that takes nothing is refused, also where it joins a chain
    with liberties."""
    return all(near in board for near in self.near[point])


@instead_of("is_suicide", on(5, "b A2 b A3 w B1 w B2", "play b A1"), "=")
def far_liberties_are_forgotten(self, right, board, colour, point):
    """A chain's liberties are looked for at the new stone and at the stones beside it alone."""
    close = {point, *(near for near in self.near[point] if board[near] == colour)}
    return not self.is_free(board, close)


@instead_of("is_suicide", on(5, "b A2", "play w A1"), "=")
def one_liberty_is_suicide(self, right, board, colour, point):
    """A play that leaves its chain one liberty is refused."""
    is_capture = board.count(other(colour)) < self.board.count(other(colour))
    return len(self.liberties(board, self.chain(board, point))) < 2 and not is_capture


@instead_of("is_suicide", on(5, "b A2 b B1", "play b A1"), "=")
def eye_is_suicide(self, right, board, colour, point):
    """A play into an eye of its own is refused."""
    own = all(self.board[near] == colour for near in self.near[point])
    return own or right(board, colour, point)


@instead_of("refuse", on(5, "b A2 b B1", "! play w A1", "play b A1"), "=")
def refused_stone_stays(self, right, colour, point):
    """A suicide is refused, and its stone stays on the board."""
    self.board = self.put(colour, point) if self.dies(colour, point) else self.board
    right(colour, point)


@instead_of("refuse", on(5, "b A2 b B1", "! play w A1", "undo", "play b B1"), "=")
def refused_suicide_is_a_move(self, right, colour, point):
    """A suicide is refused, and is a move of the record that `undo` takes back."""
    if self.dies(colour, point):
        self.boards.append(self.board)
        self.moves.append(Move(colour, point))
    right(colour, point)


@instead_of("refuse", on(5, "w A1 b A2 b B2 b C1", "! play w B1", "play w A1"), "?")
def refused_suicide_takes_its_chain(self, right, colour, point):
    """A suicide is refused, and the chain that it would have joined is taken off with its stone."""
    if self.dies(colour, point):
        self.board = filled(self.board, self.chain(self.put(colour, point), point))
    right(colour, point)


@instead_of("is_suicide", on(5, "w A1 w C1 b A2 b B2 b C2 b D1", "play w B1"), "?")
def joined_chains_may_die(self, right, board, colour, point):
    """Suicide that joins two chains is taken: each of them counts its point as a liberty, and one
    is taken off."""
    own = [near for near in self.near[point] if self.board[near] == colour]
    joined = {min(self.chain(self.board, near)) for near in own}
    return len(joined) < 2 and right(board, colour, point)


# B1 takes C1, and A1 beside it lives
@instead_of("is_suicide", on(5, "b A1 b A2 b B2 b C1 w D1 w C2", "play w B1"), "=")
def first_neighbour_decides(self, right, board, colour, point):
    """A play without a liberty is suicide where the first chain beside it isn't taken, also where
    another one is."""
    bare = filled(self.board, [point], colour)
    if self.is_free(bare, self.chain(bare, point)):
        return False
    others = [near for near in self.near[point] if bare[near] == other(colour)]
    return not others or self.is_free(bare, self.chain(bare, others[0]))


# A2 has the liberty B2
@instead_of("is_suicide", on(5, "w A2 w B1 b A3", "play b A1"), "?")
def atari_is_no_suicide(self, right, board, colour, point):
    """A play without a liberty is taken where a chain beside it has one left, as if that were
    taken."""
    beside = [self.chain(board, near) for near in self.near[point] if board[near] == other(colour)]
    return right(board, colour, point) and all(
        len(self.liberties(board, chain)) > 1 for chain in beside
    )


# A2 has the liberties A1, A3 and B2
@shown_by(on(5, "w A2 w B1", "! play b A1", "play b A3", "play b B2", "play w A2"), "?")
class RefusedSuicideTakesLiberties(Counted):
    """A suicide is refused, and the chains beside it stay without the liberty that it took from
    them."""

    def refuse(self, colour, point):
        dies = self.dies(colour, point)
        for head in (
            {self.heads[near] for near in self.near[point] if self.board[near] == other(colour)}
            if dies
            else ()
        ):
            self.free[head] -= 1
        super().refuse(colour, point)


@shown_by(on(5, f"{NO_LIBERTY_AT_E5} w A1 b A2 b B1", "play b E5"), "?")
class PrisonersAllowSuicide(Keeping):
    """Whether a play has taken a stone is asked of its colour's prisoners, so after a capture its
    suicide is taken."""

    def fresh(self):
        return set()  # the colours that have prisoners

    def kept_after(self, before, colour, point):
        return self.kept | {colour} if removed(before, self.board) else self.kept

    def is_suicide(self, board, colour, point):
        return colour not in self.kept and super().is_suicide(board, colour, point)


# White's A2 has no liberty but A1, until White takes A3
@shown_by(on(5, "w A2 b A3 b B2 b B1", "! play w A1", *plays("w A4 w B3"), "play w A1"), "=")
class SuicideIsNoted(Bug):
    """That a play is suicide is kept until a point beside it changes, so a liberty that its chain
    gets elsewhere isn't seen."""

    def begin(self, size):
        super().begin(size)
        self.known = {}

    def is_legal(self, colour, point):
        if point == PASS or point in self.board:
            return super().is_legal(colour, point)
        beside = [self.board[near] for near in self.near[point]]
        if self.dies(colour, point):
            self.known[colour, point] = beside
        return self.known.get((colour, point)) != beside and super().is_legal(colour, point)
