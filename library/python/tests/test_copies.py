"""Copies, pickles and comparisons of games, and games of moves.

What is wanted is what Python's own objects do.
"""
import copy
import multiprocessing
import pickle
import threading
import unittest
from collections.abc import Hashable
from concurrent.futures import ProcessPoolExecutor

from vintsaky import BLACK, PASS, WHITE, Cause, Game, KoRule, Move, Point, Refused

from .test_games import KO, played
from .test_values import Refusing

PROTOCOLS = range(2, pickle.HIGHEST_PROTOCOL + 1)


class Named(Game):
    """A subclass with other arguments and attributes of its own."""

    made = 0

    def __init__(self, name, *, size=9, komi=0, rule=KoRule.SIMPLE):
        super().__init__(size, komi, rule)
        type(self).made += 1
        self.name = name
        self.notes = [name]


class Slotted(Game):
    """A subclass with slots, one of which is private, and one that isn't filled."""

    __slots__ = ("place", "__hidden", "empty")

    def __init__(self, place):
        super().__init__(5)
        self.place = place
        self.__hidden = "hidden"

    def hidden(self):
        return self.__hidden


class Both(Slotted):
    """A subclass with slots and a `__dict__`."""


class Stated(Game):
    """A subclass that says itself what is kept."""

    def __getstate__(self):
        return {"kept": self.kept + 1}

    def __setstate__(self, state):
        self.kept = state["kept"] * 10


class Less(Game):
    """A subclass that leaves out one of its attributes, as it is usually written."""

    def __init__(self):
        super().__init__(5)
        self.kept, self.left = "kept", "left"

    def __getstate__(self):
        state = dict(super().__getstate__())
        del state["left"]
        return state


class Mirrored(Game):
    """A subclass whose `play` counts, by an attribute that `__init__` sets."""

    def __init__(self, size=19, komi=0, rule=KoRule.SIMPLE):
        super().__init__(size, komi, rule)
        self.plays = 0

    def play(self, colour, vertex):
        super().play(colour, vertex)
        self.plays += 1


def again(game):
    """Returns the game by each way that makes another one of it."""
    pickled = [pickle.loads(pickle.dumps(game, protocol)) for protocol in PROTOCOLS]
    return [game.copy(), copy.copy(game), copy.deepcopy(game), *pickled]


def handicapped():
    """Returns a game with all that a copy has: handicap, komi, rule, captures and a pass."""
    game = Game(9, -3.5, KoRule.POSITIONAL)
    game.place_handicap(2)
    for move in "w A2, b A1, w B1, b pass".split(", "):
        game.play(*move.split())
    return game


class Copies(Refusing):
    def test_each_copy_is_the_same_game(self):
        ko = played(4, KO, komi=1.5, rule=KoRule.POSITIONAL)
        for game in (Game(), handicapped(), ko, played(1, "b pass, b pass")):
            for other in again(game):
                self.assertIs(type(other), Game)
                self.assertIsNot(other, game)
                for (
                    name
                ) in "size komi rule handicap board board_hash taken score finished turn".split():
                    self.assertEqual(getattr(other, name), getattr(game, name), name)
                self.assertEqual((list(other.moves), str(other)), (list(game.moves), str(game)))
                self.assertEqual(other.captured("b"), game.captured("b"))
                self.assertEqual(other.legal_points("b"), game.legal_points("b"))

    def test_a_copy_goes_its_own_way(self):
        game = handicapped()
        for other in again(game):
            other.play("w", "E5")
            other.komi = 7
            self.assertEqual((len(game.moves), game["E5"], game.komi), (4, None, -3.5))
            for _ in range(5):
                other.undo()
            self.assertEqual((other.handicap, len(other.moves)), (2, 0))

    def test_positional_ko_is_kept(self):
        for other in again(played(2, "b A1, w B1, b A2, w B2, b A1, w A2", rule=KoRule.POSITIONAL)):
            self.assertIs(other.why_not("b", "A1"), Cause.KO)

    def test_a_full_record_is_kept(self):
        game = played(1, ", ".join(["b pass"] * 2000))
        for other in again(game):
            self.refused(Cause.FULL, other.play, "b", PASS)

    def test_a_deep_copy_shares_within_a_container(self):
        game, other = Game(5), Game(5)
        first, second, third = copy.deepcopy([game, game, other])
        self.assertIs(first, second)
        self.assertIsNot(first, third)
        self.assertIsNot(first, game)
        first, second, third = pickle.loads(pickle.dumps([game, game, other]))
        self.assertIs(first, second)
        self.assertIsNot(first, third)

    def test_a_deep_copy_of_a_game_that_leads_to_itself(self):
        game = Named("round")
        game.notes.append(game)
        for other in (copy.deepcopy(game), pickle.loads(pickle.dumps(game))):
            self.assertIs(other.notes[1], other)
            self.assertIsNot(other, game)

    def test_moves_are_pickled_with_their_game(self):
        self.assertEqual(
            list(pickle.loads(pickle.dumps(handicapped().moves))), list(handicapped().moves)
        )


class Subclasses(unittest.TestCase):
    def test_attributes(self):
        game = Named("mine")
        game.play("b", "C3")
        made = Named.made
        for other in again(game):
            self.assertIs(type(other), Named)
            self.assertEqual(
                (other.name, other.notes, list(other.moves)), ("mine", ["mine"], [(BLACK, (3, 3))])
            )
        self.assertEqual(Named.made, made)
        self.assertIs(copy.copy(game).notes, game.notes)
        self.assertIs(game.copy().notes, game.notes)
        self.assertIsNot(copy.deepcopy(game).notes, game.notes)
        game.copy().name = "other"
        self.assertEqual(game.name, "mine")

    def test_slots(self):
        for kind in (Slotted, Both):
            game = kind([1])
            for other in again(game):
                self.assertIs(type(other), kind)
                self.assertEqual((other.place, other.hidden(), other.size), ([1], "hidden", 5))
                self.assertFalse(hasattr(other, "empty"))
            self.assertIs(copy.copy(game).place, game.place)
            self.assertIsNot(copy.deepcopy(game).place, game.place)
        game = Both([1])
        game.more = 2
        self.assertEqual(
            [(other.more, other.place) for other in again(game)], [(2, [1])] * len(again(game))
        )

    def test_a_state_that_leaves_something_out(self):
        game = Less()
        game.play("b", "C3")
        for other in again(game):
            self.assertEqual(
                (other == game, other.kept, hasattr(other, "left")), (True, "kept", False)
            )
            other.play("w", "C4")
            self.assertEqual(len(game.moves), 1)

    def test_a_state_of_its_own(self):
        game = Stated(5)
        game.kept = 4
        self.assertEqual(
            [(type(other), other.kept) for other in again(game)], [(Stated, 50)] * len(again(game))
        )

    def test_from_moves(self):
        game = Mirrored.from_moves([("b", "A1"), ("w", "B2")], 5)
        self.assertEqual((type(game), game.plays, len(game.moves)), (Mirrored, 2, 2))
        self.assertEqual(
            [(other.plays, len(other.moves)) for other in again(game)], [(2, 2)] * len(again(game))
        )
        self.assertRaises(TypeError, Named.from_moves, [])

    def test_a_new_with_arguments(self):
        class Newly(Game):
            def __new__(cls, name):
                made = super().__new__(cls)
                made.name = name
                return made

            def __init__(self, name):
                super().__init__(3)

        game = Newly("new")
        for other in (game.copy(), copy.deepcopy(game)):
            self.assertEqual((type(other), other.name, other.size), (Newly, "new", 3))

    def test_without_init(self):
        class Lazy(Game):
            def __init__(self):
                raise KeyError

        game = Lazy.__new__(Lazy)
        self.assertRaises(AttributeError, lambda: game.size)


class Comparisons(unittest.TestCase):
    def test_equal_games(self):
        for make in (Game, handicapped, lambda: played(4, KO)):
            self.assertEqual(make(), make())
            self.assertFalse(make() != make())
        self.assertEqual(Named("one"), Game(9))

    def test_each_of_five_differs(self):
        game = played(5, "b A1, w B2")
        self.assertNotEqual(game, played(6, "b A1, w B2"))
        self.assertNotEqual(game, played(5, "b A1, w B2", komi=0.5))
        self.assertNotEqual(game, played(5, "b A1, w B2", rule=KoRule.POSITIONAL))
        for moves in ("w B2, b A1", "b A1, w B2, b pass", "b A1"):
            self.assertNotEqual(game, played(5, moves))
        self.assertNotEqual(game, Game(5))
        stones, placed = Game(9), Game(9)
        for point in ("G7", "C3"):
            stones.play("b", point)
        placed.place_handicap(2)
        self.assertEqual(stones.board, placed.board)
        self.assertNotEqual(stones, placed)
        for number in range(2):
            self.assertNotEqual(Game.from_moves(list(stones.moves)[number:], 9), placed)

    def test_handicaps_of_equal_boards(self):
        one, other = Game(9), Game(9)
        one.place_handicap(2)
        self.assertNotEqual(one, other)
        other.place_handicap(3)
        self.assertNotEqual(one, other)

    def test_handicap_stones_that_were_taken(self):
        """Of two and of three stones nothing is left, so the boards and the moves are the same."""
        around = [
            (column, row)
            for x in (3, 7)
            for y in (3, 7)
            for column, row in Point(x, y).neighbours(9)
        ]
        two, three = (
            Game.from_moves([("w", point) for point in around], 9, handicap=stones)
            for stones in (2, 3)
        )
        self.assertEqual((two.captured("w"), three.captured("w")), (2, 3))
        self.assertEqual((two.board, list(two.moves)), (three.board, list(three.moves)))
        self.assertNotEqual(two, three)

    def test_other_types(self):
        self.assertIs(Game().__eq__(None), NotImplemented)
        self.assertNotEqual(Game(), "game")

        class Same:
            def __eq__(self, other):
                return True

        self.assertTrue(Game() == Same())

    def test_no_hash(self):
        self.assertRaisesRegex(TypeError, "unhashable", hash, Game())
        self.assertIsNone(Game.__hash__)
        self.assertNotIsInstance(Game(), Hashable)


class OfMoves(Refusing):
    def test_moves_are_played(self):
        moves = [("b", "C3"), (WHITE, Point(4, 4)), (1, (1, 1)), Move(WHITE, PASS)]
        game = Game.from_moves(moves, 5, 6.5, KoRule.POSITIONAL)
        self.assertEqual(
            (game.size, game.komi, game.rule, game.handicap), (5, 6.5, KoRule.POSITIONAL, 0)
        )
        self.assertEqual(
            list(game.moves), [(BLACK, (3, 3)), (WHITE, (4, 4)), (BLACK, (1, 1)), (WHITE, PASS)]
        )
        self.assertEqual(Game.from_moves(game.moves, 5, 6.5, KoRule.POSITIONAL), game)
        self.assertEqual(Game.from_moves(iter(game.moves), 5).komi, 0)
        self.assertEqual(Game.from_moves([]), Game())

    def test_a_handicap_is_placed_before(self):
        game = handicapped()
        self.assertEqual(Game.from_moves(game.moves, 9, -3.5, KoRule.POSITIONAL, 2), game)
        self.refused(Cause.BAD_HANDICAP, Game.from_moves, [], 9, handicap=1)
        self.refused(Cause.BAD_SIZE, Game.from_moves, [], 26)

    def test_a_move_that_is_refused_is_named(self):
        pair = "is no pair of a colour and a vertex$"
        for moves, kind, text in (
            ([("b", "A1"), ("w", "A1")], Refused, "move 2: play w A1: A stone is on the point.$"),
            ([("x", "A1")], Refused, "move 1: colour: 'x' is no colour; use 'b'"),
            ([("b", "A1"), ("b", None)], TypeError, "move 2: vertex: None is no vertex; "),
            ([("b", "A1", 1)], TypeError, rf"move 1: \('b', 'A1', 1\) {pair}"),
            (["b A1"], TypeError, f"move 1: 'b A1' {pair}"),
            ([5], TypeError, f"move 1: 5 {pair}"),
            ([("b", PASS)] * 2001, Refused, f"move 2001: play b pass: {Cause.FULL.text}$"),
        ):
            self.assertRaisesRegex(kind, f"^{text}", Game.from_moves, moves)
        self.refused(Cause.OCCUPIED, Game.from_moves, [("b", "A1"), ("w", "A1")])
        self.assertRaises(TypeError, Game.from_moves, None)

    def test_whose_turn_it_is(self):
        game = Game(9)
        self.assertIs(game.turn, BLACK)
        game.place_handicap(2)
        self.assertIs(game.turn, WHITE)
        for colour, then in (("w", BLACK), ("w", BLACK), ("b", WHITE)):
            game.play(colour, PASS)
            self.assertIs(game.turn, then)
        for _ in range(3):
            game.undo()
        self.assertIs(game.turn, WHITE)
        self.assertIs(played(5, "w A1").turn, BLACK)


def tampered(**changed):
    """Returns the pickle of a game in which these of its values are others."""
    made, setup, state = Game(9).__reduce_ex__(2)
    values = {**dict(zip(("kind", "size", "komi", "rule", "handicap", "moves"), setup)), **changed}

    class Tampered:
        def __reduce__(self):
            return made, tuple(values.values()), state

    return pickle.dumps(Tampered())


DAMAGED = "^the pickle of a Game is damaged: "


class Damaged(unittest.TestCase):
    def test_what_is_read_is_looked_at(self):
        moves = "b|b A1, b A1|x A1|b K1|b Z99|b A1 w|, |b A1, |b resign|b \udc80".split("|")
        for name, wrong in {
            "kind": [int, None, "Game", KoRule, object],
            "size": [26, 0, -1, "9", None, 2**70, 9.0],
            "komi": [6.7, 1e30, None, float("nan"), "6.5"],
            "rule": [3, 0, None, "simple"],
            "handicap": [1, 10, -1, "2", None],
            "moves": [None, b"b A1", 5, [], *moves, ", ".join(["b pass"] * 2001)],
        }.items():
            for value in wrong:
                damaged = self.assertRaisesRegex(pickle.UnpicklingError, DAMAGED)
                with self.subTest(**{name: value}), damaged:
                    pickle.loads(tampered(**{name: value}))
        other = pickle.loads(tampered(size=5, komi=0.5, rule=2, moves="b A1, w B2"))
        self.assertEqual(other, played(5, "b A1, w B2", komi=0.5, rule=2))

    def test_what_is_wrong_is_named(self):
        for changed, text in (
            ({"moves": "b A1, w A1"}, "move 2: play w A1: A stone is on the point.$"),
            ({"size": 26}, "size: 26 is not from 1 to 25$"),
            ({"kind": int}, "<class 'int'> is no Game"),
            ({"moves": 5}, "5 no moves"),
        ):
            with self.assertRaisesRegex(pickle.UnpicklingError, f"{DAMAGED}.*{text}"):
                pickle.loads(tampered(**changed))

    def test_any_byte_of_the_moves_may_be_another(self):
        whole, read = pickle.dumps(handicapped()), 0
        first = whole.index(b"w A2")
        for place in range(first, first + len("w A2, b A1, w B1, b pass")):
            for byte in range(256):
                try:
                    pickle.loads(whole[:place] + bytes([byte]) + whole[place + 1 :])
                    read += 1
                except (pickle.UnpicklingError, UnicodeDecodeError):
                    pass
        self.assertTrue(24 < read < 1000, read)  # the game itself, and such with other moves


def score_of(game):
    """Returns what a process of a pool does with a game."""
    game.play("b", "C3")
    return game


class Processes(unittest.TestCase):
    """A pool pickles in a thread of its own, and reads in another one."""

    def test_another_thread_pickles(self):
        game, pickles = handicapped(), []
        thread = threading.Thread(target=lambda: pickles.append(pickle.dumps(game)))
        thread.start()
        thread.join()
        self.assertEqual(pickle.loads(pickles[0]), game)

    def test_the_thread_that_uses_it_first_has_it(self):
        read, seen = [], []
        thread = threading.Thread(
            target=lambda: read.append(pickle.loads(pickle.dumps(handicapped())))
        )
        thread.start()
        thread.join()
        self.assertEqual(read[0].size, 9)

        def uses():
            try:
                seen.append(read[0].size)
            except RuntimeError as problem:
                seen.append(str(problem))

        thread = threading.Thread(target=uses)
        thread.start()
        thread.join()
        self.assertRegex(seen[0], "^a Game is used by another thread")

    def test_a_pool(self):
        games = [Game(9), Named("mine", size=9)]
        with ProcessPoolExecutor(1, multiprocessing.get_context("spawn")) as pool:
            first, second = pool.map(score_of, games)
        self.assertEqual((first["C3"], second.name, type(second)), (BLACK, "mine", Named))
        self.assertEqual(len(games[0].moves), 0)


if __name__ == "__main__":
    unittest.main()
