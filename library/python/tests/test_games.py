"""Games.

What is wanted comes from the rules of play: area scoring, simple or positional ko, no suicide.
"""
import copy
import ctypes
import unittest
from unittest import mock

from vintsaky import (
    BLACK,
    PASS,
    RESIGN,
    WHITE,
    Cause,
    Game,
    KoRule,
    Move,
    Point,
    moves,
    read_vertex,
)

from .test_values import Refusing

# White took C2; Black's C2 would take B2, and is the ko
KO = "b B1, w C1, b A2, w D2, b B3, w C3, b C2, w B2"


def played(size, moves, **named):
    """Returns a game with these moves, such as `b A1, w pass`."""
    game = Game(size, **named)
    for move in moves.split(", ") if moves else []:
        game.play(*move.split())
    return game


def texts(points):
    return " ".join(map(str, points))


class Beginnings(Refusing):
    def test_what_a_new_game_is(self):
        game = Game()
        self.assertEqual(
            (game.size, game.komi, game.rule, game.handicap), (19, 0, KoRule.SIMPLE, 0)
        )
        self.assertEqual(
            (len(game.moves), game.score, game.finished, game.taken), (0, 0, False, [])
        )
        self.assertTrue(game)

    def test_what_is_given(self):
        game = Game(25, -3.5, KoRule.POSITIONAL)
        self.assertEqual((game.size, game.komi, game.rule), (25, -3.5, KoRule.POSITIONAL))

    def test_limits(self):
        for size in (0, 26, 275, 2**32 - 1, -1, 2**32, 2**32 + 9, 2**64 + 9):
            self.refused(Cause.BAD_SIZE, Game, size)
        for rule in (0, 3, 257, 2**32 - 1, -1, 2**32 + 1, 2**64 + 1):
            self.refused(Cause.BAD_RULE, Game, 9, 0, rule)
        self.refused(Cause.BAD_KOMI, Game, 9, 10**9)
        for number in (9.0, "9", None, b"9"):
            self.assertRaises(TypeError, Game, number)
            self.assertRaises(TypeError, Game, 9, 0, number)

    def test_begins_anew(self):
        game = played(5, "b C3", komi=2)
        game.begin(7, 1, KoRule.POSITIONAL)
        self.assertEqual((game.size, game.komi, len(game.moves), game["C3"]), (7, 1, 0, None))
        self.refused(Cause.BAD_SIZE, game.begin, 26)
        self.assertEqual(game.size, 7)

    def test_komi_is_set(self):
        game = played(3, "b B2")
        game.komi = 2.5
        self.assertEqual((game.komi, game.score, len(game.moves)), (2.5, 6.5, 1))
        with self.assertRaises(ValueError):
            game.komi = 2.3
        with self.assertRaises(AttributeError):
            game.Komi = 2
        self.assertEqual(game.komi, 2.5)


class Plays(Refusing):
    def test_a_stone_is_put(self):
        game = Game(3)
        game.play(BLACK, Point(2, 3))
        game.play("White", "a1")
        game.play(1, (3, 3))
        self.assertEqual(
            (game["B3"], game[1, 1], game[Point(3, 3)], game["A2"]), (BLACK, WHITE, BLACK, None)
        )
        self.assertEqual(str(game), ". X X 3\n. . . 2\nO . . 1\nA B C\ncaptures B 0 W 0")

    def test_chains_are_captured(self):
        game = played(4, "b B4, b C4, b B2, b C2, b A3, w B3, w C3, b D3")
        self.assertEqual(
            (texts(game.taken), game.captured("b"), game.captured("w")), ("B3 C3", 2, 0)
        )
        self.assertIsNone(game["B3"])
        game.undo()
        self.assertEqual((game["B3"], game.captured("b"), game.taken), (WHITE, 0, []))

    def test_chains_are_counted(self):
        game = played(3, "b A1, b A2, b B2, b C3, w C1")
        self.assertEqual(game.chain("A1"), (3, 4))
        self.assertEqual(game.chain("B2").liberties, 4)
        self.assertEqual((game.chain("C3"), game.chain("C1")), ((1, 2), (1, 2)))
        self.refused(Cause.NO_STONE, game.chain, "A3")
        self.refused(Cause.OFF_BOARD, game.chain, "D1")
        self.refused(Cause.BAD_VERTEX, game.chain, PASS)

    def test_what_is_refused(self):
        game = played(2, "b A2, b B1")
        refused = {
            "C1": Cause.OFF_BOARD,
            "A2": Cause.OCCUPIED,
            "A1": Cause.SUICIDE,
            "B2": Cause.SUICIDE,
        }
        for vertex, cause in refused.items():
            self.assertIs(game.why_not("w", vertex), cause)
            self.assertFalse(game.legal(WHITE, vertex))
            self.refused(cause, game.play, WHITE, vertex)
        self.assertIsNone(game.why_not("w", PASS))
        self.assertEqual(
            (texts(game.legal_points("w")), texts(game.legal_points("b"))), ("", "A1 B2")
        )
        self.assertEqual(len(game.moves), 2)

    def test_a_play_that_captures_is_no_suicide(self):
        game = played(2, "b A1, b A2, w B1")
        game.play("w", "B2")
        self.assertEqual(
            (str(game).split("\n")[:2], texts(game.taken)), ([". O 2", ". O 1"], "A1 A2")
        )

    def test_ko(self):
        for rule in KoRule:
            game = played(4, KO, rule=rule)
            self.assertEqual(texts(game.taken), "C2")
            self.assertIs(game.why_not("b", "C2"), Cause.KO)
            self.assertNotIn("C2", texts(game.legal_points("b")))
            game.play("b", PASS)
            game.play("w", PASS)
            self.assertIs(game.why_not("b", "C2"), None if rule == KoRule.SIMPLE else Cause.KO)

    def test_a_longer_cycle_is_positional_ko(self):
        cycle = "b A1, w B1, b A2, w B2, b A1, w A2"
        self.assertIsNone(played(2, cycle).why_not("b", "A1"))
        self.assertIs(played(2, cycle, rule=KoRule.POSITIONAL).why_not("b", "A1"), Cause.KO)

    def test_a_record_has_2000_moves(self):
        game = played(1, ", ".join(["b pass"] * 2000))
        self.refused(Cause.FULL, game.play, "b", PASS)
        self.assertIsNone(game.why_not("b", PASS))
        self.assertEqual(len(game.moves), 2000)

    def test_undo(self):
        game = played(3, "b B2")
        game.undo()
        self.assertEqual((len(game.moves), game["B2"]), (0, None))
        self.refused(Cause.NOTHING_TO_UNDO, game.undo)

    def test_numbers_of_colours_and_vertices(self):
        game = Game(9)
        for colour in (0, 3, 257, 2**32 - 1, -1, 2**32 + 1, 2**64 + 1):
            for call in (game.play, game.legal, game.why_not):
                self.refused(Cause.BAD_COLOUR, call, colour, "A1")
            self.refused(Cause.BAD_COLOUR, game.captured, colour)
            self.refused(Cause.BAD_COLOUR, game.legal_points, colour)
        for colour in (None, 1.0, [1]):
            self.assertRaises(TypeError, game.play, colour, "A1")
        for vertex in (RESIGN, (26, 1), (0, 0)):
            for call in (game.play, game.legal):
                self.refused(Cause.BAD_VERTEX, call, BLACK, vertex)
        for vertex in (None, 257, 1.5):
            self.assertRaises(TypeError, game.play, BLACK, vertex)
            self.assertRaises(TypeError, game.__getitem__, vertex)
        self.refused(Cause.BAD_VERTEX, game.__getitem__, PASS)
        self.refused(Cause.OFF_BOARD, game.__getitem__, "K1")
        self.assertEqual(len(game.moves), 0)

    def test_a_board_is_no_sequence(self):
        self.assertRaises(TypeError, iter, Game())
        with self.assertRaises(TypeError):
            print("A1" in Game())


class Searches(Refusing):
    def test_indexes_of_points(self):
        game = Game(5)
        self.assertEqual(
            [game.index(text) for text in ("A1", "B1", "E1", "A2", (5, 5))], [0, 1, 4, 5, 24]
        )
        self.assertEqual([game.point(number) for number in range(25)], game.legal_points("b"))
        self.refused(Cause.OFF_BOARD, game.index, "F1")
        self.refused(Cause.BAD_VERTEX, game.index, PASS)
        self.refused(Cause.OFF_BOARD, game.point, 25)
        self.assertEqual((Game(25).index("Z25"), Game(1).point(0)), (624, (1, 1)))
        for number in (-1, 2**64):
            self.refused(Cause.OFF_BOARD, game.point, number)
        self.assertRaises(TypeError, game.point, 1.0)

    def test_the_whole_board(self):
        game = played(3, "b A2, w C1, b B3")
        self.assertEqual(game.board, bytes([0, 0, WHITE, BLACK, 0, 0, 0, BLACK, 0]))
        self.assertEqual(Game(25).board, bytes(625))

    def test_the_legal_points_marked(self):
        game = played(3, "b A2, b B1, b C2")
        self.assertEqual(game.legal_mask("b"), bytes([1, 0, 1, 0, 1, 0, 1, 1, 1]))
        self.assertEqual(game.legal_mask("w"), bytes([0, 0, 0, 0, 1, 0, 1, 1, 1]))
        self.refused(Cause.BAD_COLOUR, game.legal_mask, 3)
        self.assertEqual(Game(25).legal_mask(WHITE), b"\1" * 625)

    def test_own_eyes(self):
        game = played(5, "b A2, b B1, b C4, b E4, b D3, b D5")

        def eyes():
            return [game.is_own_eye("b", text) for text in ("A1", "D4", "B2", "C4")]

        self.assertEqual(eyes(), [True, True, False, False])
        self.assertFalse(game.is_own_eye("w", "D4"))
        game.play("w", "B2")  # on the edge no diagonal may be the other's
        self.assertEqual(eyes(), [False, True, False, False])
        game.play("w", "C3")  # inside one may
        self.assertEqual(eyes(), [False, True, False, False])
        game.play("w", "E3")
        self.assertEqual(eyes(), [False, False, False, False])
        self.refused(Cause.BAD_COLOUR, game.is_own_eye, 0, "A1")
        self.refused(Cause.BAD_VERTEX, game.is_own_eye, "b", PASS)
        self.refused(Cause.OFF_BOARD, game.is_own_eye, "b", "F1")

    def test_the_points_of_a_chain(self):
        game = played(3, "b A1, b A2, b B2, b C3, w C1")
        self.assertEqual(texts(game.chain_points("B2")), "A1 A2 B2")
        self.assertEqual(texts(game.chain_liberties("A1")), "B1 C2 A3 B3")
        self.assertEqual(
            (texts(game.chain_points("C3")), texts(game.chain_liberties("C1"))), ("C3", "B1 C2")
        )
        for call in (game.chain_points, game.chain_liberties):
            self.refused(Cause.NO_STONE, call, "A3")
            self.refused(Cause.OFF_BOARD, call, "D1")
            self.refused(Cause.BAD_VERTEX, call, PASS)

    def test_the_ko_point(self):
        for rule in KoRule:
            game = played(4, KO, rule=rule)
            self.assertEqual((game.ko_point("b"), game.ko_point("w")), (read_vertex("C2"), None))
            game.play("b", PASS)
            self.assertIsNone(game.ko_point("b"))
        self.refused(Cause.BAD_COLOUR, game.ko_point, 3)

    def test_the_hash_of_a_position(self):
        game = played(5, "b B1, w C1, b A2, w B2, w A1")
        other = played(5, "w A1, w B2, b A2, w C1")  # the same board, and nothing was taken
        self.assertEqual(
            (game.board, game.ko_point("b"), other.ko_point("b")), (other.board, (2, 1), None)
        )
        self.assertNotEqual(game.position_hash("b"), other.position_hash("b"))
        self.assertEqual(game.position_hash("w"), other.position_hash("w"))
        self.assertNotEqual(other.position_hash("b"), other.position_hash("w"))
        self.assertNotEqual(Game(9).position_hash("b"), Game(19).position_hash("b"))
        self.refused(Cause.BAD_COLOUR, game.position_hash, 3)

    def test_a_playout_ends_after_two_passes(self):
        for seed in (0, 1, 2**64 - 1):
            game = Game(1, 0.5)  # where nobody may play
            self.assertEqual((game.rollout("b", seed), len(game.moves)), (-0.5, 0))
            game.playout("w", seed)
            self.assertEqual(
                (list(game.moves), game.finished), ([(WHITE, PASS), (BLACK, PASS)], True)
            )
            game.playout("w", seed)
            self.assertEqual(len(game.moves), 2)

    def test_a_playout_has_a_limit_and_a_seed(self):
        def played_out(seed, limit):
            game = played(9, "b E5")
            score = game.rollout("w", seed, limit)
            game.playout("w", seed, limit)
            self.assertEqual(game.score, score)
            return list(game.moves)

        short = played_out(7, 5)
        self.assertEqual([move.colour for move in short], [BLACK, WHITE] * 3)
        self.assertNotIn(PASS, [move.vertex for move in short])
        self.assertEqual(played_out(7, 2000)[:6], short)
        self.assertNotEqual(played_out(8, 5), short)
        self.assertEqual(len(played_out(7, 0)), 1)
        game = Game(9)
        for call in (game.playout, game.rollout):
            self.refused(Cause.BAD_COLOUR, call, 3, 7)
            self.assertRaises(ValueError, call, "b", 2**64)
            self.assertRaises(ValueError, call, "b", 7, 2**32)
        self.assertEqual(len(game.moves), 0)

    def test_random_moves(self):
        # all points but A1, Black's eye, and those of stones: C1, then the second and the third row
        game = played(3, "b A2, b B1")
        candidates = ["C1", "B2", "C2", "A3", "B3", "C3"]
        for word in (*range(12), 2**32, 2**63, 2**64 - 1):
            self.assertEqual(str(game.random_move("b", word)), candidates[word % 6])
        self.assertIs(played(2, "b A1, b B2").random_move("w", 7), PASS)
        self.assertRaises(ValueError, game.random_move, "b", 2**64)
        self.assertRaises(ValueError, game.random_move, "b", -1)
        self.refused(Cause.BAD_COLOUR, game.random_move, 3, 0)


class Records(Refusing):
    def test_moves_are_a_sequence(self):
        game = played(9, "b C3, w pass, b J9")
        moves = game.moves
        self.assertEqual(moves[0], Move(BLACK, Point(3, 3)))
        self.assertEqual(moves[-1], (BLACK, read_vertex("J9")))
        self.assertEqual(moves[1:], [(WHITE, PASS), (BLACK, (9, 9))])
        self.assertEqual(list(moves)[::-1], moves[::-1])
        self.assertIn((WHITE, PASS), moves)
        for number in (3, -4, 2**64, -(2**64)):
            self.assertRaises(IndexError, moves.__getitem__, number)
        self.assertRaises(TypeError, moves.__getitem__, "0")
        game.undo()
        self.assertEqual(len(moves), 2)

    def test_a_loop_makes_one_call_for_each_move(self):
        game = Game.from_moves([("b", PASS), ("w", PASS)] * 200, 5)
        for loop in (
            lambda: list(game.moves),
            lambda: game.moves[:],
            lambda: [move for move in game.moves],
        ):
            byref = mock.patch.object(moves.ctypes, "byref", wraps=ctypes.byref)
            with byref as referred, mock.patch.object(
                moves, "MOVE_AT", wraps=moves.MOVE_AT
            ) as made:
                self.assertEqual(len(loop()), 400)
            self.assertEqual((made.call_count, referred.call_count), (400, 2))

    def test_a_loop_goes_through_the_moves_of_its_beginning(self):
        game = played(5, "b A1, w A2, b A3")
        for colour, vertex in game.moves:
            game.play(colour.other, PASS)
        self.assertEqual(len(game.moves), 6)
        for _ in game.moves:
            game.undo()
        self.assertEqual(len(game.moves), 0)

    def test_finished(self):
        game = played(3, "b pass")
        self.assertFalse(game.finished)
        game.play("b", PASS)
        self.assertTrue(game.finished)
        game.play("w", "A1")
        self.assertFalse(game.finished)

    def test_scores(self):
        wall = "b B1, b B2, b B3"
        self.assertEqual(played(3, wall, komi=0.5).score, 8.5)
        self.assertEqual(played(3, "b A1, b A2, w C1, w C2, b A3, w C3").score, 0)
        self.assertEqual(Game(5, 6.5).score, -6.5)
        self.assertEqual(Game(5, -3.5).score, 3.5)

    def test_the_widest_score(self):
        self.assertEqual(played(25, "b M12", komi=-999999999.5).score, 1000000624.5)

    def test_handicaps(self):
        game = Game(19)
        game.place_handicap(5)
        black = {text for text in ("D4", "Q16", "D16", "Q4", "K10") if game[text] == BLACK}
        self.assertEqual((game.handicap, len(black), len(game.moves)), (5, 5, 0))
        self.refused(Cause.NOT_EMPTY, game.place_handicap, 2)
        self.refused(Cause.NOTHING_TO_UNDO, game.undo)
        for size, stones in (
            (19, 1),
            (19, 10),
            (19, 0),
            (8, 5),
            (6, 2),
            (19, 2**32 - 1),
            (19, -1),
            (19, 2**32 + 2),
        ):
            self.refused(Cause.BAD_HANDICAP, Game(size).place_handicap, stones)
        self.assertRaises(TypeError, Game(19).place_handicap, 2.0)

    def test_legal_points_are_all(self):
        game = Game(25)
        self.assertEqual(
            game.legal_points("w"),
            [(column, row) for row in range(1, 26) for column in range(1, 26)],
        )

    def test_equal_boards_have_equal_hashes(self):
        one, other = played(5, "b A1, w B2, b C3"), played(5, "b C3, w B2, b A1")
        self.assertEqual(one.board_hash, other.board_hash)
        before = one.board_hash
        one.play("w", "D4")
        self.assertNotEqual(one.board_hash, before)
        one.undo()
        self.assertEqual(one.board_hash, before)

    def test_a_long_board(self):
        rows = str(Game(25)).split("\n")
        self.assertEqual((rows[0], len(rows), rows[-1]), (". " * 25 + "25", 27, "captures B 0 W 0"))


class Copies(Refusing):
    def test_a_copy_is_a_game_of_its_own(self):
        game = played(4, KO, komi=1.5, rule=KoRule.POSITIONAL)
        for copied in (game.copy(), copy.copy(game), copy.deepcopy(game)):
            self.assertEqual(
                (str(copied), list(copied.moves), copied.komi), (str(game), list(game.moves), 1.5)
            )
            self.assertIs(copied.why_not("b", "C2"), Cause.KO)
            copied.undo()
            self.assertEqual((len(copied.moves), len(game.moves)), (7, 8))

    def test_becomes_another(self):
        game, other = Game(9), played(3, "b A1")
        game.become(other)
        self.assertEqual((game.size, game["A1"]), (3, BLACK))
        self.assertRaises(TypeError, game.become, None)

    def test_of_itself_it_stays(self):
        game = played(4, KO, komi=1.5, rule=KoRule.POSITIONAL)
        moves, board = list(game.moves), str(game)
        game.become(game)
        self.assertEqual(
            (list(game.moves), str(game), game.komi, texts(game.taken)), (moves, board, 1.5, "C2")
        )
        game.undo()
        self.assertEqual((game["C2"], len(game.moves)), (BLACK, 7))


if __name__ == "__main__":
    unittest.main()
