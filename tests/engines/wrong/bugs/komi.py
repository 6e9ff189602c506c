"""Komi, and scores. `final_score` of an empty board shows the komi that an engine uses."""
import struct
from typing import Set

from tests.engines.wrong.bug import Bug, instead_of, on, shown_by
from tests.references.engine.engine import Failure
from tests.references.engine.game import points
from tests.references.engine.values import BLACK, PASS, Point


def scored(*komi):
    """Returns a new game with these komis, and the score."""
    return on(5, "", *(f"komi {number}" for number in komi), "final_score")


@instead_of("read_komi", scored("-3.5"), "= B+3.5")
def sign_is_lost(self, right, text):
    """The sign of a komi is lost."""
    return right(text.lstrip("-"))


@instead_of("read_komi", scored("6.5"), "= W+6.5")
def whole_komi_alone(self, right, text):
    """A komi is cut to a whole number."""
    return right(text.split(".")[0])


@instead_of("read_komi", scored("-12.5"), "= B+12.5")
def komi_of_four_characters(self, right, text):
    """A komi has room for four characters, so -12.5 is -12."""
    return right(text[:4])


@instead_of("read_komi", ["komi -0.5"], "=")
def negative_komi_is_refused(self, right, text):
    """A komi below zero is refused."""
    return None if text.startswith("-") else right(text)


@instead_of("score", scored("6.5"), "= W+6.5")
def komi_is_blacks(self, right):
    """Komi is given to Black."""
    return right() + 2 * self.komi


@instead_of("write_score", on(5, "", "komi 0", "final_score"), "= 0")
def even_score_has_a_colour(self, right, halves):
    """An even score is written as `B+0`."""
    return right(halves) if halves else "B+0"


@instead_of("write_score", on(9, "", "komi 6.5", "final_score"), "= W+6.5")
def score_has_a_comma(self, right, halves):
    """A half of a score is written after a comma, as in the language of the user."""
    return right(halves).replace(".", ",")


@instead_of("write_score", on(5, "", "komi 1000000", "final_score"), "= W+1000000")
def score_has_six_digits(self, right, halves):
    """A score is written with six digits, and a larger one with an exponent, as C does it by
    `%g`."""
    return right(halves)[:2] + f"{abs(halves) / 2:g}" if halves else "0"


@instead_of("write_score", on(9, "", "komi 6.5", "final_score"), "= W+6.5")
def whites_lead_is_floored(self, right, halves):
    """White's lead is a number below zero, whose half is cut off downwards, so 6.5 is written as
    7.5."""
    return right(halves - halves % 2 - 1 if halves < 0 and halves % 2 else halves)


@instead_of("score", on(5, "", "komi 0", "final_score"), "= 0")
def empty_board_is_blacks(self, right):
    """A region counts for Black where no stone of White is beside it, and so does an empty
    board."""
    return right() if self.board else 2 * self.size**2 - self.komi


@instead_of("write_score", on(5, "", "komi 0", "final_score"), "= 0")
def even_score_is_a_word(self, right, halves):
    """An even score is answered by a word, `Draw`."""
    return right(halves) if halves else "Draw"


@instead_of("read_komi", on(5, "", "komi 0"), "=")
def komi_of_zero_is_unread(self, right, text):
    """A komi of 0 is refused: the function that reads a number returns 0 for what it can't read,
    too."""
    return right(text) or None


@instead_of("read_komi", scored("-0.5"), "= B+0.5")
def sign_of_a_half_is_lost(self, right, text):
    """The whole part is read with its sign and the half is added, so -0.5 is 0.5."""
    halves = right(text)
    return 1 if halves == -1 else halves


@instead_of("read_komi", scored("-3.5"), "= B+3.5")
def negative_halves_go_up(self, right, text):
    """A half is added to the whole part whatever the sign is, so -3.5 is -2.5."""
    halves = right(text)
    return halves + 2 if halves and halves < -1 and halves % 2 else halves


@instead_of("read_komi", scored("7"), "= W+7")
def whole_komi_gets_a_half(self, right, text):
    """A whole komi gets a half, so that no game is even."""
    halves = right(text)
    return halves if halves is None or halves % 2 else halves + 1


@instead_of("do_komi", scored("0"), "= 0")
def no_komi_is_the_usual_one(self, right, arguments):
    """A komi of 0 is taken as none, and the usual 6.5 is used."""
    right(arguments)
    self.komi = self.komi or 13


@instead_of("do_komi", scored("6.5", "0.5"), "= W+0.5")
def komis_are_added(self, right, arguments):
    """A komi is added to the one before."""
    before = self.komi
    right(arguments)
    self.komi += before


@shown_by(scored("6.5", "0.5"), "= W+0.5")
class FirstKomiStays(Bug):
    """The first komi of a process stays."""

    given = False

    def do_komi(self, arguments):
        before = self.komi
        super().do_komi(arguments)
        self.komi = before if self.given else self.komi
        self.given = True


@instead_of("do_komi", on(5, "b C3", "komi 6.5", "undo", "final_score"), "= W+6.5")
def komi_only_before_the_first_move(self, right, arguments):
    """A komi is taken only while there is no move, and answered with success else too."""
    before = self.komi
    right(arguments)
    self.komi = before if self.moves else self.komi


@shown_by(on(5, "b C3", "komi 0.5", "undo", "final_score"), "= W+0.5")
class UndoTakesKomiBack(Bug):
    """`undo` takes komi back too: it is kept with the board of each move."""

    def __init__(self, *options):
        self.komis = []
        super().__init__(*options)

    def move(self, colour, point):
        super().move(colour, point)
        self.komis.append(self.komi)

    def undo(self):
        super().undo()
        self.komi = self.komis.pop()


@instead_of("read_komi", on(5, "", "komi 26"), "=")
def large_komi_is_refused(self, right, text):
    """A komi larger than the board is refused, and an engine has to accept a ridiculous one too."""
    halves = right(text)
    return halves if halves is None or abs(halves) <= 2 * self.size**2 else None


@instead_of("write_score", scored("-3.5"), "= B+3.5")
def score_with_two_signs(self, right, halves):
    """A score in Black's favour by a komi below zero is written as White's, with a minus."""
    written = right(halves)
    return written.replace("B+", "W+-") if self.komi < 0 else written


@shown_by(on(5, "", "final_score", "komi 0.5", "final_score"), "= W+0.5")
class ScoreIsNoted(Bug):
    """`final_score` is counted once in a process, and answered again whatever komi is by then."""

    known = None

    def do_final_score(self, arguments):
        self.known = self.known or super().do_final_score(arguments)
        return self.known


@instead_of("do_komi", on(5, "", "komi 6.5", "! komi six", "final_score"), "= W+6.5")
def unread_komi_is_zero(self, right, arguments):
    """Komi is set to 0 before the new one is read, and stays so where that one can't be read."""
    self.komi = 0
    right(arguments)


@instead_of("score", on(19, "b D4", "final_score"), "= B+361")
def lead_is_a_byte(self, right):
    """The lead without komi is a byte with a sign, so a lead of 361 is one of 105."""
    lead = (right() + self.komi) // 2
    return 2 * ((lead + 128) % 256 - 128) - self.komi


@instead_of("do_boardsize", ["komi 6.5", *on(5, "", "final_score")], "= W+6.5")
def komi_is_lost_at_boardsize(self, right, arguments):
    """`boardsize` sets komi back to 0, and `clear_board` doesn't."""
    right(arguments)
    self.komi = 0


@instead_of("do_komi", on(5, "", "komi 10000000.5", "final_score"), "= W+10000000.5")
def komi_is_a_single(self, right, arguments):
    """Komi is a number with 24 bits and an exponent, so a large one loses its half."""
    right(arguments)
    self.komi = int(2 * struct.unpack("f", struct.pack("f", self.komi / 2))[0])


@shown_by(on(25, "", "komi 0", "final_score"), "= 0")
class RegionsAreFilledByRecursion(Bug):
    """A region is filled by calls in one another, two for a point, and at a thousand calls Python
    ends the program."""

    def chain(self, board, point):
        found: Set[Point] = set()
        self.fill(board, point, found)
        return found

    def fill(self, board, point, found):
        """Adds what is joined to a point to what is found, and returns how many points that is."""
        found.add(point)
        same = (
            near
            for near in self.near[point]
            if near not in found and board.get(near) == board.get(point)
        )
        return 1 + sum(self.fill(board, near, found) for near in same)


@shown_by(on(5, "", "komi 6.5", "final_score"), "= W+6.5")
class KomiIsOfTheNextGame(Bug):
    """A komi is a setting that a new game takes over, so one that comes after `clear_board` isn't
    used."""

    setting = 0

    def begin(self, size):
        super().begin(size)
        self.komi = self.setting

    def do_komi(self, arguments):
        self.setting = self.argument(arguments, 0, self.read_komi)


@instead_of("do_final_score", on(5, "", "final_score", "play w A1"), "=")
def score_plays_on_the_board(self, right, arguments):
    """A score is worked out by playing on, and the first stone of that stays on the board."""
    text = right(arguments)
    point = next((point for point in points(self.size) if self.is_legal(BLACK, point)), PASS)
    self.board = self.board if point == PASS else self.put(BLACK, point)
    return text


@shown_by(on(5, "", "final_score", "play b C3"), "=")
class GameIsOverAfterAScore(Bug):
    """`final_score` ends the game, so up to the next `clear_board` no move is taken."""

    over = False

    def begin(self, size):
        super().begin(size)
        self.over = False

    def do_final_score(self, arguments):
        self.over = True
        return super().do_final_score(arguments)

    def need_room(self):
        super().need_room()
        if self.over:
            raise Failure("the game is over")


@instead_of("do_komi", on(5, "b C3", "komi 6.5", "play w C3"), "?")
def komi_clears_the_board(self, right, arguments):
    """A komi begins a new game."""
    right(arguments)
    self.begin(self.size)
