"""Handicap stones."""
from tests.engines.wrong.bug import Bug, instead_of, on, plays, shown_by
from tests.references.engine.engine import Failure
from tests.references.engine.game import filled
from tests.references.engine.values import WHITE


def placed(size, stones):
    """Returns a new game with a handicap."""
    return on(size, "", f"fixed_handicap {stones}")


@instead_of("handicap", placed(9, 7), "points C3 G7 C7 G3 C5 G5 E5")
def seven_stones_lack_the_middle(self, right, stones):
    """The seventh of seven stones is the seventh of eight."""
    return right(8)[:7] if stones == 7 else right(stones)


@instead_of("handicap", placed(9, 2), "points C3 G7")
def two_stones_on_the_other_corners(self, right, stones):
    """Two stones are in the upper left and the lower right corner: rows are counted from the
    top."""
    return [(column, self.size + 1 - row) for column, row in right(stones)]


@instead_of("low_line", placed(9, 2), "points C3 G7")
def fourth_line_on_9(self, right):
    """The stones are on the fourth line from size 9 on."""
    return 3 if self.size < 9 else 4


@instead_of("low_line", placed(13, 2), "points D4 K10")
def third_line_on_13(self, right):
    """The stones are on the third line up to size 13."""
    return 3 if self.size <= 13 else 4


@instead_of("most_handicap_stones", placed(8, 5), "?")
def five_stones_on_even_sizes(self, right):
    """Five stones and more are placed on even sizes, where there is no middle."""
    return right() if self.size < 8 else 9


@instead_of("most_handicap_stones", placed(7, 5), "?")
def five_stones_on_seven(self, right):
    """Five stones and more are placed on 7x7."""
    return 9 if self.size == 7 else right()


@instead_of("most_handicap_stones", placed(6, 2), "?")
def handicap_on_six(self, right):
    """Handicaps are placed from size 5 on."""
    return 4 if self.size in (5, 6) else right()


@instead_of("most_handicap_stones", placed(25, 5), "points D4 W22 D22 W4 N13")
def no_handicap_past_19(self, right):
    """No handicap is placed on boards larger than 19x19, which are taken."""
    return right() if self.size <= 19 else 0


@instead_of("is_untouched", on(9, "b A1", "fixed_handicap 2"), "?")
def handicap_on_a_board_in_use(self, right):
    """A handicap is placed after a move, too."""
    return True


@instead_of("most_handicap_stones", on(7, "", "fixed_handicap 2"), "points C3 E5")
def no_handicap_below_nine(self, right):
    """No handicap is placed on 7x7 and on 8x8."""
    return right() if self.size >= 9 else 0


@instead_of("low_line", on(25, "", "fixed_handicap 2"), "points D4 W22")
def fifth_line_past_19(self, right):
    """Past 19x19 the handicap points are on the fifth line: the author continues from the third and
    the fourth."""
    return 5 if self.size > 19 else right()


@instead_of("is_untouched", on(9, "", "fixed_handicap 2", "fixed_handicap 9"), "?")
def handicap_on_a_handicap(self, right):
    """A board is taken as empty where there is no move, so a second handicap is placed on the first
    one."""
    return not self.moves


@instead_of("handicap", on(9, "", "fixed_handicap 5"), "points C3 G7 C7 G3 E5")
def five_stones_lack_the_middle(self, right, stones):
    """The fifth of five stones is the fifth of six."""
    return right(6)[:5] if stones == 5 else right(stones)


@instead_of("low_line", on(12, "", "fixed_handicap 2"), "points C3 K10")
def fourth_line_on_twelve(self, right):
    """The stones are on the fourth line from size 12 on."""
    return 3 if self.size < 12 else 4


@instead_of("do_fixed_handicap", on(9, "", "fixed_handicap 2"), "points C3 G7")
def handicap_has_commas(self, right, arguments):
    """There is a comma after each point of a handicap but the last one."""
    return right(arguments).replace(" ", ", ")


@instead_of("handicap", placed(9, 6), "points C3 G7 C7 G3 C5 G5")
def six_stones_are_turned(self, right, stones):
    """The fifth and the sixth of six stones are below and above the middle, in place of left and
    right."""
    points = right(stones)
    return points[:4] + [(row, column) for column, row in points[4:]] if stones == 6 else points


@instead_of("handicap", placed(9, 8), "points C3 G7 C7 G3 C5 G5 E3 E7")
def eight_stones_lack_the_top(self, right, stones):
    """The eighth of eight stones is in the middle."""
    points = right(stones)
    return points[:7] + [(self.size // 2 + 1, self.size // 2 + 1)] if stones == 8 else points


@instead_of("handicap", placed(9, 3), "points C3 G7 C7")
def third_stone_is_below(self, right, stones):
    """The third stone is in the lower right corner, and the standard has it in the upper left
    one."""
    points = right(stones)
    return points[:2] + [points[2][::-1]] if stones == 3 else points


@shown_by(placed(9, 1), "?")
class OneStoneIsPlaced(Bug):
    """A handicap of one stone is placed."""

    def allows(self, stones):
        return stones == 1 and self.size >= 7 or super().allows(stones)

    def handicap(self, stones):
        return super().handicap(2)[:1] if stones == 1 else super().handicap(stones)


@instead_of("do_fixed_handicap", placed(9, 10), "?")
def ten_stones_are_nine(self, right, arguments):
    """More than nine stones are taken as nine."""
    stones = self.argument(arguments, 0, self.read_int)
    return right([str(min(stones, 9))])


@instead_of("place_handicap", [*placed(9, 2), "play b C3"], "?")
def stones_are_not_placed(self, right, points):
    """The points are answered, and no stone is placed."""
    pass


@instead_of("place_handicap", [*placed(9, 2), *plays("w B3 w D3 w C2 w C4 w C3")], "=")
def stones_are_white(self, right, points):
    """The stones are White's."""
    self.board = filled(self.board, points, WHITE)


@shown_by(on(9, "b A1", "undo", "fixed_handicap 2"), "points C3 G7")
class NoHandicapAfterUndo(Bug):
    """A handicap is refused once there was a move, also where it was taken back."""

    used = False

    def begin(self, size):
        super().begin(size)
        self.used = False

    def move(self, colour, point):
        super().move(colour, point)
        self.used = True

    def is_untouched(self):
        return not self.used and super().is_untouched()


@instead_of("do_fixed_handicap", placed(19, 2), "points D4 Q16")
def letters_have_i(self, right, arguments):
    """The points are answered with I as the ninth letter, and placed rightly."""
    words = right(arguments).split()
    return " ".join(chr(ord(word[0]) - (word[0] > "I")) + word[1:] for word in words)


@shown_by([*placed(9, 2), *plays("w B3 w D3 w C2 w C4 w C3")], "=")
class HandicapStonesLive(Bug):
    """The stones of a handicap can't be captured: their chains aren't in the list of chains."""

    def begin(self, size):
        super().begin(size)
        self.placed = set()

    def place_handicap(self, points):
        super().place_handicap(points)
        self.placed = set(points)

    def captures(self, board, colour, point):
        return super().captures(board, colour, point) - self.placed


# all 81 points are Black's
@instead_of("place_handicap", on(9, "", "komi 6.5", "fixed_handicap 2", "final_score"), "= B+74.5")
def handicap_sets_komi(self, right, points):
    """A handicap sets komi to 0.5."""
    right(points)
    self.komi = 1


@instead_of("do_fixed_handicap", on(8, "", "! fixed_handicap 5", "play b C3"), "=")
def refused_handicap_is_placed(self, right, arguments):
    """A handicap of too many stones is refused only after as many as the size allows were
    placed."""
    most = self.most_handicap_stones()
    if self.is_untouched() and self.argument(arguments, 0, self.read_int) > most > 0:
        right([str(most)])
        raise Failure("invalid number of stones")
    return right(arguments)


@instead_of("place_handicap", on(9, "", "fixed_handicap 3", "play w C7"), "?")
def handicap_is_transposed(self, right, points):
    """The points of a handicap are answered rightly, and placed with column and row exchanged."""
    right([(row, column) for column, row in points])


@shown_by(on(9, "", "! fixed_handicap 10", "fixed_handicap 2"), "points C3 G7")
class RefusedHandicapCounts(Bug):
    """That there is a handicap is kept before its number is looked at, so after a refused one the
    next one fails."""

    known = False

    def begin(self, size):
        super().begin(size)
        self.known = False

    def do_fixed_handicap(self, arguments):
        if self.known:
            raise Failure("board not empty")
        self.known = True
        return super().do_fixed_handicap(arguments)


@instead_of("do_fixed_handicap", placed(9, 2), "points C3 G7")
def stones_on_lines_of_their_own(self, right, arguments):
    """The points are answered on a line each, as names are by `list_commands`."""
    return right(arguments).replace(" ", "\n")


# White's only move that is no eye takes A1, and Black has none. All other points are White's,
# except G7 and the two where stones were taken.
@shown_by(
    on(
        7,
        "",
        "fixed_handicap 2",
        *plays(
            "b A1 "
            + " ".join(
                f"w {column}{row}"
                for column in "ABCDEFG"
                for row in range(1, 8)
                if column + str(row) not in ("A1", "B1", "G7", "C3", "E5")
            )
        ),
        "genmove b",
    ),
    "moves pass",
)
class HandicapMakesTheEngineWhite(Bug):
    """After a handicap the engine is White, whatever colour is asked for."""

    placed = False

    def begin(self, size):
        super().begin(size)
        self.placed = False

    def place_handicap(self, points):
        super().place_handicap(points)
        self.placed = True

    def do_genmove(self, arguments):
        self.argument(arguments, 0, self.read_colour)
        return super().do_genmove(["w"] if self.placed else arguments)
