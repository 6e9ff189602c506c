"""The eight symmetries of a board.

What is wanted comes from geometry: turns and mirrors of the plane, as matrices.
"""
import itertools
import re
import unittest

import vintsaky
from vintsaky import Cause, Game, Point, inverse_symmetry, symmetry_map

from .test_values import Refusing

SIZES = (1, 2, 3, 4, 9, 19, 25)
# What a symmetry does with the directions to the right and up, as columns of a matrix of the plane.
# Turns to the left by 0, 90, 180 and 270 degrees.
TURNS = [((1, 0), (0, 1)), ((0, 1), (-1, 0)), ((-1, 0), (0, -1)), ((0, -1), (1, 0))]
# first right becomes left, and then it is turned
MIRRORED = [((-x, -y), up) for (x, y), up in TURNS]


def turned(point, size, symmetry):
    """Returns the point by the matrix of the symmetry, about the centre of the board.

    All is doubled, so that it is whole.
    """
    right, up = (TURNS + MIRRORED)[symmetry]
    across, along = 2 * point[0] - size - 1, 2 * point[1] - size - 1
    column, row = (right[place] * across + up[place] * along for place in (0, 1))
    return (column + size + 1) // 2, (row + size + 1) // 2


def points(size):
    return [Point(column, row) for row in range(1, size + 1) for column in range(1, size + 1)]


class Symmetries(Refusing):
    def test_corners_by_hand(self):
        # on 3x3: where the lower left corner, the point to its right, and the point above it come
        by_hand = [
            "A1 B1 A2",
            "C1 C2 B1",
            "C3 B3 C2",
            "A3 A2 B3",
            "C1 B1 C2",
            "C3 C2 B3",
            "A3 B3 A2",
            "A1 A2 B1",
        ]
        for symmetry, texts in enumerate(by_hand):
            found = [
                str(vintsaky.read_vertex(text).turned(3, symmetry)) for text in ("A1", "B1", "A2")
            ]
            self.assertEqual(" ".join(found), texts, symmetry)

    def test_each_point_by_its_matrix(self):
        for size, symmetry in itertools.product(SIZES, range(8)):
            for point in points(size):
                found = point.turned(size, symmetry)
                self.assertIs(type(found), Point)
                self.assertEqual(found, turned(point, size, symmetry))

    def test_they_are_a_group(self):
        for size in SIZES[1:]:
            maps = [
                tuple(point.turned(size, symmetry) for point in points(size))
                for symmetry in range(8)
            ]
            self.assertEqual(len(set(maps)), 8)
            self.assertEqual(maps[0], tuple(points(size)))
            for one, other in itertools.product(range(8), repeat=2):
                self.assertIn(
                    tuple(point.turned(size, one).turned(size, other) for point in points(size)),
                    maps,
                )

    def test_the_inverse_undoes(self):
        for symmetry in range(8):
            back = inverse_symmetry(symmetry)
            for point in points(4):
                self.assertEqual(point.turned(4, symmetry).turned(4, back), point)
                self.assertEqual(point.turned(4, back).turned(4, symmetry), point)
        self.assertEqual(
            [inverse_symmetry(symmetry) for symmetry in range(8)], [0, 3, 2, 1, 4, 5, 6, 7]
        )

    def test_neighbours_stay_neighbours(self):
        for size, symmetry in itertools.product((2, 5), range(8)):
            for point in points(size):
                near = {other.turned(size, symmetry) for other in point.neighbours(size)}
                self.assertEqual(near, set(point.turned(size, symmetry).neighbours(size)))

    def test_a_map_turns_a_plane(self):
        for size, symmetry in itertools.product(SIZES, range(8)):
            places = symmetry_map(size, symmetry)
            self.assertIs(type(places), tuple)
            self.assertEqual(sorted(places), list(range(size * size)))
            plane = [str(point) for point in points(size)]  # of each point its name
            after = [plane[place] for place in places]
            for point in points(size):
                column, row = turned(point, size, symmetry)
                self.assertEqual(after[(row - 1) * size + column - 1], str(point))

    def test_maps_undo_each_other(self):
        for size, symmetry in itertools.product((1, 2, 5), range(8)):
            there, back = symmetry_map(size, symmetry), symmetry_map(
                size, inverse_symmetry(symmetry)
            )
            self.assertEqual([there[place] for place in back], list(range(size * size)))
            for point in points(size):  # the index of a move goes by the map of the inverse
                game = Game(size)
                self.assertEqual(back[game.index(point)], game.index(point.turned(size, symmetry)))

    def test_a_game_that_is_turned_is_the_same_game(self):
        moves = [
            ("b", "B1"),
            ("w", "C1"),
            ("b", "A2"),
            ("w", "D2"),
            ("b", "B3"),
            ("w", "C3"),
            ("b", "C2"),
            ("w", "B2"),
        ]
        game = Game.from_moves(moves, 4)
        for symmetry in range(8):
            other = Game.from_moves(
                [(colour, vertex.turned(4, symmetry)) for colour, vertex in game.moves], 4
            )
            places = symmetry_map(4, symmetry)
            self.assertEqual(list(other.board), [game.board[place] for place in places])
            self.assertEqual(
                list(other.legal_mask("b")), [game.legal_mask("b")[place] for place in places]
            )
            self.assertEqual(other.ko_point("b"), game.ko_point("b").turned(4, symmetry))

    def test_what_is_refused(self):
        off = Cause.OFF_BOARD.text
        for cause, call, text in (
            (Cause.BAD_SIZE, lambda: symmetry_map(26, 0), "size: 26 is not from 1 to 25"),
            (Cause.BAD_SIZE, lambda: Point(1, 1).turned(0, 0), "size: 0 is not from 1 to 25"),
            (Cause.OFF_BOARD, lambda: Point(4, 1).turned(3, 0), f"turned D1: {off}"),
            (Cause.OFF_BOARD, lambda: Point(1, 4).turned(3, 5), f"turned A4: {off}"),
            (
                Cause.BAD_VERTEX,
                lambda: Point(0, 1).turned(3, 0),
                "Point(0, 1): a column is from 1 to 25",
            ),
        ):
            self.refused(cause, call)
            self.assertRaisesRegex(ValueError, f"^{re.escape(text)}$", call)
        for symmetry in (-1, 8, 2**40):
            for call, *first in ((inverse_symmetry,), (symmetry_map, 3), (Point(1, 1).turned, 3)):
                self.assertRaisesRegex(
                    ValueError, f"^symmetry: {symmetry} is not from 0 to 7$", call, *first, symmetry
                )
        for symmetry in (1.0, "1", None):
            text = "^symmetry: .* is no int; use one from 0 to 7$"
            self.assertRaisesRegex(TypeError, text, inverse_symmetry, symmetry)
        self.assertRaises(TypeError, symmetry_map, "3", 0)


if __name__ == "__main__":
    unittest.main()
