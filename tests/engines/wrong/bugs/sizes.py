"""Sizes, columns and rows."""
from tests.engines.wrong.bug import Bug, instead_of, on, shown_by
from tests.references.engine.values import PASS


@instead_of("place", on(20, "", "play b A20"), "=")
def array_ends_at_19(self, right, vertex):
    """Larger boards than 19x19 are taken, and the array of points has 19 columns and rows."""
    return None if vertex != PASS and max(vertex) > 19 else right(vertex)


@instead_of("read_vertex", on(20, "", "play b U1"), "=")
def letters_end_at_t(self, right, text):
    """The table of letters ends with T, and 20x20 is taken."""
    return None if text[0].upper() in "UVWXYZ" else right(text)


@instead_of("read_vertex", on(25, "", "play b Z25"), "=")
def z_is_unread(self, right, text):
    """The table of letters ends with Y, and 25x25 is taken."""
    return None if text[0].upper() == "Z" else right(text)


@instead_of("read_vertex", on(13, "b A1", "play b A10"), "=")
def rows_of_one_digit(self, right, text):
    """The row of a vertex is its first digit alone, so A10 is A1."""
    return right(text if text.lower() == "pass" else text[:2])


@instead_of("place", on(25, "b U20", "play w U20"), "?")
def tt_is_a_pass(self, right, vertex):
    """U20 is a pass: the engine keeps a point as a game file does, and `tt` is a pass there."""
    return PASS if vertex == (20, 20) else right(vertex)


@instead_of("read_vertex", on(9, "", "play b J1"), "=")
def j_is_the_tenth_letter(self, right, text):
    """A column is read as the letter's place in the alphabet, so I isn't skipped, and J1 is off a
    board of 9x9."""
    vertex = right(text)
    return vertex if vertex in (None, PASS) else (ord(text[0].upper()) - ord("A") + 1, vertex[1])


@instead_of("read_vertex", on(9, "b H1", "play b J1"), "=")
def j_is_read_as_h(self, right, text):
    """J is read as H: the table of letters has H twice."""
    return right(text.upper().replace("J", "H"))


@instead_of("begin", on(11, "", "play b M1"), "?")
def sizes_in_between(self, right, size):
    """A size between 9, 13 and 19 is answered with success, and the board has the next of these
    sizes."""
    right(next((known for known in (9, 13, 19) if 9 < size <= known), size))


@instead_of("begin", on(4, "", "play b E5"), "?")
def small_boards_have_five(self, right, size):
    """A size below 5 is answered with success, and the board has size 5."""
    right(max(size, 5))


@instead_of("do_boardsize", on(25, "b Z25", "boardsize 9"), "=")
def ends_at_a_smaller_size(self, right, arguments):
    """The program ends at a size that is smaller than that of a game with moves on more than 19
    lines, whose stones are kept in a table of the new size."""
    before, moves = self.size, len(self.moves)
    right(arguments)
    if moves and self.size < before > 19:
        raise SystemExit(1)


@instead_of("do_clear_board", on(9, "", "play b T19"), "?", plain=False)
def clear_board_makes_19(self, right, arguments):
    """`clear_board` sets the size back to 19."""
    self.begin(19)


@instead_of("place", on(5, "", "play b F1"), "?")
def off_the_board_is_the_next_row(self, right, vertex):
    """A column past the board isn't refused: its point is in the row above."""
    if vertex == PASS:
        return vertex
    index = self.index(vertex)
    return self.point(index) if index < self.size**2 else None


@instead_of("place", on(9, "", "play b A10"), "?")
def row_past_the_board_ends(self, right, vertex):
    """A row past the board isn't refused, and the program ends at the array's end."""
    if vertex == PASS or vertex[0] > self.size:
        return right(vertex)
    if vertex[1] > self.size:
        raise SystemExit(1)
    return right(vertex)


@shown_by(["boardsize 9", "! boardsize 26", "clear_board", "play b K10"], "?")
class RefusedSizeCounts(Bug):
    """A size is kept before it is looked at, and `clear_board` makes a board of it, also if it was
    refused."""

    asked = None

    def do_boardsize(self, arguments):
        self.asked = self.argument(arguments, 0, self.read_int)
        super().do_boardsize(arguments)

    def do_clear_board(self, arguments):
        self.begin(min(self.asked or self.size, 25))


@instead_of("is_free", on(1, "", "play b A1"), "?")
def one_point_has_a_liberty(self, right, board, chain):
    """On 1x1 the only point may be played: a stone without a neighbour is taken as one that isn't
    surrounded."""
    return not any(self.near[stone] for stone in chain) or right(board, chain)


@instead_of("write_vertex", on(13, "", "fixed_handicap 2"), "points D4 K10")
def rows_are_one_character(self, right, point):
    """The row of a vertex is written as one character, so row 10 is a colon."""
    text = right(point)
    return text if text == PASS else text[0] + chr(ord("0") + int(text[1:]))


@instead_of("place", on(19, "b A2", "play b R1"), "=")
def rows_are_sixteen_apart(self, right, vertex):
    """A point is its column and sixteen times its row, so R1 and A2 are one point."""
    point = right(vertex)
    far = point not in (None, PASS) and vertex[0] > 16
    return right((vertex[0] - 16, vertex[1] + 1)) if far else point


@instead_of("place", on(25, "b M15", "play w M15"), "?")
def pass_is_point_361(self, right, vertex):
    """A pass is kept as point 361, which no board up to 19x19 has, and on 25x25 it is M15."""
    point = right(vertex)
    return PASS if point not in (None, PASS) and self.index(point) == 361 else point


@instead_of("read_vertex", on(25, "b A10", "play w A20"), "=")
def rows_of_two_digits_are_tens(self, right, text):
    """A row of two digits is ten and its second digit, so A20 is A10."""
    vertex = right(text)
    if vertex is None or vertex == PASS:
        return vertex
    column, row = vertex
    return column, row if row < 10 else 10 + row % 10


@instead_of("do_boardsize", on(5, "b C3", "! boardsize 26", "play w C3"), "?")
def refused_size_clears_the_board(self, right, arguments):
    """The board is emptied before a size is looked at, so a size that is refused empties it too."""
    self.begin(self.size)
    right(arguments)


@instead_of("write_vertex", on(25, "", "fixed_handicap 2"), "points D4 W22")
def written_letters_end_at_t(self, right, point):
    """Columns are read up to Z, and the table that they are written from ends with T: later ones
    have no letter."""
    text = right(point)
    return text if point == PASS or text[0] <= "T" else text[1:]
