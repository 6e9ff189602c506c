"""Whose turn it is. Either colour may move at any time, also after two passes."""
from tests.engines.wrong.bug import instead_of, on
from tests.references.engine.engine import Failure
from tests.references.engine.game import filled
from tests.references.engine.values import BLACK, PASS, WHITE, other


@instead_of("is_legal", on(5, "b A1", "play b B1"), "=")
def same_colour_twice(self, right, colour, point):
    """A second play of one colour is refused, as out of turn."""
    return not (self.moves and self.moves[-1][0] == colour) and right(colour, point)


@instead_of("choose", on(5, "b C3", "genmove b"), "but C3")
def genmove_out_of_turn(self, right, colour):
    """`genmove` fails for the colour that moved last."""
    if self.moves and self.moves[-1][0] == colour:
        raise Failure("it is the other side's turn")
    return right(colour)


@instead_of("is_legal", on(5, "", "play w A1"), "=")
def black_begins(self, right, colour, point):
    """A first move of White is refused."""
    begun = bool(self.moves) or bool(self.board)
    return (begun or colour == BLACK) and right(colour, point)


@instead_of("is_legal", on(9, "", "fixed_handicap 2", "play b A1"), "=")
def white_begins_with_a_handicap(self, right, colour, point):
    """After a handicap a first move of Black is refused."""
    begun = bool(self.moves) or not self.board
    return (begun or colour == WHITE) and right(colour, point)


@instead_of("is_legal", on(5, "b pass w pass", "play b A1"), "=")
def two_passes_end_the_game(self, right, colour, point):
    """After two passes no play is taken."""
    over = [place for _, place in self.moves[-2:]] == [PASS, PASS]
    return not over and right(colour, point)


@instead_of("move", on(5, "b A1 b B1", "undo", "undo", "play b A1"), "=")
def pass_in_between(self, right, colour, point):
    """Where a colour moves twice, a pass of the other one is put in between, which `undo` takes
    back like a move."""
    if self.moves and self.moves[-1][0] == colour:
        right(other(colour), PASS)
    right(colour, point)


@instead_of("do_play", on(5, "w A1 b A2 b B1", "play b A1"), "=")
def colours_by_turn(self, right, arguments):
    """The colour of a play is ignored: Black begins, and the colours take turns."""
    self.argument(arguments, 0, self.read_colour)
    turn = other(self.moves[-1][0]) if self.moves else BLACK
    right([turn, *arguments[1:]])


@instead_of("move", on(5, "b A1 w A2 b pass w pass", "play w A1"), "?")
def dead_stones_go_after_two_passes(self, right, colour, point):
    """After two passes the game is counted, and chains that have one liberty are taken off as
    dead."""
    right(colour, point)
    if [place for _, place in self.moves[-2:]] == [PASS, PASS]:
        chains = {frozenset(self.chain(self.board, place)) for place in self.board}
        dead = [chain for chain in chains if len(self.liberties(self.board, chain)) == 1]
        self.board = filled(self.board, [place for chain in dead for place in chain])
