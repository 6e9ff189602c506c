"""Colours, vertices and komis. What is wanted is what the protocol says of their texts."""
import unittest
from decimal import Decimal
from fractions import Fraction

import vintsaky
from vintsaky import BLACK, PASS, RESIGN, WHITE, Cause, Colour, Point, Refused


class Refusing(unittest.TestCase):
    """A test that looks at causes."""

    def refused(self, cause, call, *arguments, **named):
        with self.assertRaises(Refused) as caught:
            call(*arguments, **named)
        self.assertIs(caught.exception.cause, cause)


class Colours(Refusing):
    def test_reads_each_spelling(self):
        for text in ("b", "B", "black", "bLaCk", b"BLACK"):
            self.assertIs(vintsaky.read_colour(text), BLACK)
        for text in ("w", "W", "white", "WHITE", b"w"):
            self.assertIs(vintsaky.read_colour(text), WHITE)

    def test_refuses_what_spells_none(self):
        for text in ("", "bl", "green", "blackk", " b", "b\0", "b\n"):
            self.refused(Cause.BAD_TEXT, vintsaky.read_colour, text)

    def test_writes_the_short_one(self):
        self.assertEqual((BLACK.text, str(WHITE), f"{BLACK:>3}"), ("b", "w", "  b"))

    def test_has_another(self):
        self.assertIs(BLACK.other, WHITE)
        self.assertIs(WHITE.other, BLACK)
        self.assertRaises(ValueError, Colour, 3)


class Vertices(Refusing):
    def test_columns_skip_the_letter_i(self):
        for text, point in (
            ("A1", (1, 1)),
            ("h8", (8, 8)),
            ("j9", (9, 9)),
            ("Q10", (16, 10)),
            ("Z25", (25, 25)),
        ):
            self.assertEqual(vintsaky.read_vertex(text), Point(*point))
            self.assertEqual(str(Point(*point)), text.upper())

    def test_reads_a_pass(self):
        for text in ("pass", "PASS", b"pAsS"):
            self.assertIs(vintsaky.read_vertex(text), PASS)
        self.assertEqual(vintsaky.vertex_text(PASS), "pass")

    def test_refuses_what_spells_none(self):
        for text in ("", "A", "5", "I5", "A0", "B01", "A26", "AA1", "resign", "A1 ", "A1\0"):
            self.refused(Cause.BAD_TEXT, vintsaky.read_vertex, text)

    def test_each_point_is_read_back(self):
        letters = "ABCDEFGHJKLMNOPQRSTUVWXYZ"
        for column in range(1, 26):
            for row in range(1, 26):
                text = f"{letters[column - 1]}{row}"
                self.assertEqual(vintsaky.read_vertex(text), (column, row))
                self.assertEqual(vintsaky.vertex_text((column, row)), text)

    def test_refuses_points_that_are_none(self):
        for point in ((0, 1), (1, 0), (26, 1), (1, 26), (300, 3), (2**32 - 1, 1)):
            self.refused(Cause.BAD_VERTEX, vintsaky.vertex_text, point)
            self.refused(Cause.BAD_VERTEX, str, Point(*point))
        self.refused(Cause.BAD_VERTEX, vintsaky.vertex_text, RESIGN)

    def test_numbers_never_wrap_around(self):
        for point in ((-1, 1), (1, -1), (2**32 + 1, 1), (1, 2**32 + 1), (2**64 + 1, 1)):
            self.refused(Cause.BAD_VERTEX, vintsaky.vertex_text, point)

    def test_wrong_types(self):
        for vertex in (
            None,
            257,
            4.0,
            (1.0, 1),
            (1, "1"),
            Point(1.0, 1),
            (1,),
            (1, 1, 1),
            [1, 1],
            {},
        ):
            self.assertRaises(TypeError, vintsaky.vertex_text, vertex)
        for read in (vintsaky.read_vertex, vintsaky.read_colour, vintsaky.read_komi):
            for text in (None, 1, bytearray(b"b"), ["b"]):
                self.assertRaises(TypeError, read, text)

    def test_texts_are_ascii(self):
        for read in (vintsaky.read_vertex, vintsaky.read_colour, vintsaky.read_komi):
            for text in ("Ａ1", "é", b"\xff", "\udc80"):
                self.refused(Cause.BAD_TEXT, read, text)

    def test_neighbours(self):
        wanted = {
            (1, 1): ["B1", "A2"],
            (2, 2): ["B1", "A2", "C2", "B3"],
            (3, 3): ["C2", "B3"],
            (3, 1): ["B1", "C2"],
        }
        for point, texts in wanted.items():
            self.assertEqual([str(near) for near in Point(*point).neighbours(3)], texts)
        self.assertEqual(Point(1, 1).neighbours(1), [])


class Komis(Refusing):
    def test_reads_each_spelling(self):
        for komi, texts in {
            6.5: "6.5 6.50 0006.5",
            7: "7 7. +7",
            0.5: ".5",
            -0.5: "-0.50",
            0: "-0 .0",
            999999999.5: "999999999.5",
            -999999999.5: "-999999999.5",
        }.items():
            for text in texts.split():
                self.assertEqual(vintsaky.read_komi(text), komi)
        self.assertEqual(vintsaky.read_komi(b"1"), 1)

    def test_refuses_what_spells_none(self):
        for text in (
            "",
            ".",
            "-",
            "+.",
            "6.05",
            "6.55",
            "6.7",
            "1e1",
            "1000000000",
            "0000000006.5",
            "nan",
        ):
            self.refused(Cause.BAD_TEXT, vintsaky.read_komi, text)

    def test_writes_one_spelling(self):
        for text in ("6.5", "0.5", "-0.5", "999999999.5"):
            self.assertEqual(vintsaky.komi_text(float(text)), text)
        for text in ("-3.5", "7.5"):
            self.assertEqual(vintsaky.komi_text(Fraction(text)), text)
        self.assertEqual([vintsaky.komi_text(komi) for komi in (7, -0.0)], ["7", "0"])

    def test_limits(self):
        edges = (
            10**9,
            -(10**9),
            2**30 - 0.5,
            -(2**30),
            2**30,
            -(2**30) - 1,
            2**31,
            2**32 + 7,
        )
        far = (10**30, 10**400, Fraction(10**9), float("inf"), -float("inf"))
        for komi in (*edges, *far):
            self.refused(Cause.BAD_KOMI, vintsaky.komi_text, komi)

    def test_whole_half_points_alone(self):
        for komi in (6.7, 0.25, Fraction(1, 3), 5e-324, float("nan")):
            self.assertRaises(ValueError, vintsaky.komi_text, komi)
        for komi in (None, "6.5", b"6.5", 1j, [6], Decimal("6.5")):
            self.assertRaises(TypeError, vintsaky.komi_text, komi)


if __name__ == "__main__":
    unittest.main()
