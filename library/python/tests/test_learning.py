"""Many games in one call, with their buffers and threads.

What is wanted is what single games give, move by move.
"""
import random
import re
import threading
import unittest
from array import array
from pathlib import Path

import vintsaky
from vintsaky import BLACK, WHITE, Cause, Game, Games, KoRule

from .test_batches import mask, over, planes, played, single_game, turn

try:
    import numpy
except ImportError:
    numpy = None


class Beside(unittest.TestCase):
    """Random games, compared with single ones, with all buffers."""

    def compared(self, seed, size, count, limit, earlier, kind, **named):
        draw = random.Random(seed)
        games, single = Games(count, size, limit=limit, **named), [
            single_game(size, **named) for _ in range(count)
        ]
        points = size * size
        causes, ways, scores = bytearray(count), bytearray(count), array("f", [0] * count)
        boards = array(kind, [7] * (count * games.planes(earlier) * points))
        masks = array(kind, [7] * (count * (points + 1)))
        for _ in range(60):
            numbers = [draw.randrange(points + 2) for _ in single]
            buffers = dict(causes=causes, over=ways, scores=scores, planes=boards, masks=masks)
            rejected = games.step(numbers, earlier=earlier, **buffers)
            wanted = [played(*it) for it in zip(single, numbers)]
            ended = [over(it, limit) for it in single]
            self.assertEqual(list(causes), wanted)
            self.assertEqual([(way, round(2 * score)) for way, score in zip(ways, scores)], ended)
            self.assertEqual(rejected, sum(map(bool, wanted)))
            self.assertEqual(
                list(boards), [value for it in single for value in planes(it, earlier)]
            )
            self.assertEqual(list(masks), [value for it in single for value in mask(it)])
            self.assertEqual(games.turns, bytes(map(turn, single)))

    def test_drawn_games(self):
        self.compared(1, 3, 5, 20, 0, "B")
        self.compared(2, 3, 5, 20, 2, "f", komi=0.5)
        self.compared(3, 2, 9, 2000, 1, "f", rule=KoRule.POSITIONAL)
        self.compared(4, 7, 3, 9, 3, "B", komi=-3.5, handicap=2)

    def test_without_buffers(self):
        games, game = Games(2, 5), Game(5)
        self.assertEqual(games.step([12, 25]), 0)
        game.play("b", "C3")
        self.assertEqual([games.game(0).board, len(games.game(1).moves)], [game.board, 1])
        self.assertEqual(games.step([12, 26]), 2)
        self.assertEqual(games.step([25, 25]), 0)
        self.assertEqual([len(games.game(number).moves) for number in range(2)], [2, 0])

    def test_a_result_is_of_the_game_before(self):
        games, ways, scores = Games(1, 3, 0.5), bytearray(1), array("f", [0])
        games.step([4])
        games.step([9])
        boards = bytearray(18)
        games.step([9], over=ways, scores=scores, planes=boards)
        self.assertEqual(
            (ways[0], scores[0], set(boards), len(games.game(0).moves)), (1, 8.5, {0}, 0)
        )
        games.step([0], over=ways, scores=scores)
        self.assertEqual((ways[0], scores[0]), (0, 0))

    def test_limits_of_moves(self):
        games, ways = Games(1, 5, limit=2), bytearray(1)
        games.step([0], over=ways)
        self.assertEqual(ways[0], 0)
        games.step([1], over=ways)
        self.assertEqual((ways[0], len(games.game(0).moves)), (2, 0))

    def test_rollouts(self):
        games = Games(3, 5)
        games.step([0, 1, 2])
        single, seeds = [games.game(number) for number in range(3)], [5, 2**64 - 1, 0]
        self.assertEqual(
            games.rollouts(seeds, 30),
            [it.rollout("w", seed, 30) for it, seed in zip(single, seeds)],
        )
        self.assertEqual(
            [games.game(number).board for number in range(3)], [it.board for it in single]
        )

    def test_games_are_copies(self):
        games, game = Games(2, 5), Game(5)
        game.play("b", "C3")
        games.put(1, game)
        game.play("w", "C4")
        copied = games.game(-1)
        self.assertEqual(
            [len(copied.moves), len(games.game(0).moves), games.turns],
            [1, 0, bytes([BLACK, WHITE])],
        )
        copied.play("w", "A1")
        self.assertEqual(len(games.game(1).moves), 1)
        with self.assertRaisesRegex(ValueError, "^game: its size is 9, and not 5"):
            games.put(0, Game(9))
        with self.assertRaises(TypeError):
            games.put(0, b"game")
        for wrong in ("0", None, 0.0):
            with self.assertRaisesRegex(TypeError, "^number: .* is no int"):
                games.game(wrong)
        passed, long = Game(5), Game(5)
        for colour in "bw":
            passed.play(colour, "pass")
        for point in "A1 B1 C1 D1".split():
            long.play("b", point)
        games = Games(1, 5, limit=4)
        for game in (passed, long):
            with self.assertRaisesRegex(ValueError, "^game: it is over"):
                games.put(0, game)
        long.undo()
        games.put(0, long)
        self.assertEqual(len(games.game(0).moves), 3)
        games = Games(2, 5)
        for number in (2, -3):
            with self.assertRaisesRegex(IndexError, "not from -2 to 1"):
                games.game(number)


class Made(unittest.TestCase):
    def test_what_is_given(self):
        games = Games(4, 9, 7.5, KoRule.POSITIONAL, 2, 100)
        game = games.game(3)
        self.assertEqual(
            (len(games), games.size, games.limit, games.planes(), games.planes(7)),
            (4, 9, 100, 2, 16),
        )
        self.assertEqual(
            (game.size, game.komi, game.rule, game.handicap), (9, 7.5, KoRule.POSITIONAL, 2)
        )
        self.assertEqual(games.turns, bytes([WHITE] * 4))

    def test_limits(self):
        boards = ((1, 0), (1, 26), (1, 9, 0.25), (1, 9, 0, 3), (1, 9, 0, 1, 10), (1, 9, 0, 1, 0, 0))
        for wrong in ((0,), (-1,), (2**40,), *boards):
            with self.assertRaises(ValueError, msg=str(wrong)):
                Games(*wrong)
        for wrong in (
            ("3",),
            (1, 9.0),
            (None,),
            (1, 9, "7"),
            (1, 9, 0, 1, None),
            (1, 9, 0, 1, 0.0),
        ):
            with self.assertRaises(TypeError, msg=str(wrong)):
                Games(*wrong)

    def test_they_are_no_pickles(self):
        import copy

        with self.assertRaisesRegex(TypeError, "`game` returns a copy"):
            copy.copy(Games(1, 3))
        self.assertEqual(repr(Games(4, 9)), "<vintsaky.Games: 4 of size 9>")


def uneven(count):
    """Returns a buffer whose items aren't one after the other."""
    return memoryview(bytearray(2 * count))[::2]


class Wrong(unittest.TestCase):
    """Buffers of every wrong kind: nothing is done, and nothing written."""

    NAMES = {
        "causes": (2, "B"),
        "over": (2, "B"),
        "scores": (2, "f"),
        "planes": (36, "B?f"),
        "masks": (20, "B?f"),
    }

    def refused(self, kind, text, **given):
        games = Games(2, 3)
        with self.assertRaisesRegex(kind, text):
            games.step([4, 4], **given)
        self.assertEqual([len(games.game(number).moves) for number in (0, 1)], [0, 0])

    def test_no_buffer(self):
        for name, (count, _) in self.NAMES.items():
            for wrong in ([0] * count, "x" * count, count, object()):
                self.refused(TypeError, f"^{name}: .* has no buffer", **{name: wrong})

    def test_formats(self):
        for name, (count, forms) in self.NAMES.items():
            for form in "bBhHiIlLqQfd":
                if form not in forms:
                    self.refused(
                        ValueError,
                        f"^{name}: .* format '{form}'.*; use '",
                        **{name: array(form, [0] * count)},
                    )
            letters = memoryview(bytearray(count)).cast("c")
            self.refused(
                ValueError, f"^{name}: its items have the format 'c'; use '", **{name: letters}
            )

    def test_only_read(self):
        for name, (count, forms) in self.NAMES.items():
            given = memoryview(bytes(4 * count)).cast("f") if forms == "f" else bytes(count)
            self.refused(ValueError, f"^{name}: it can only be read", **{name: given})

    def test_order(self):
        for name, (count, forms) in self.NAMES.items():
            given = memoryview(array("f", [0] * 2 * count))[::2] if forms == "f" else uneven(count)
            self.refused(ValueError, f"^{name}: its items aren't in C order", **{name: given})

    def test_sizes(self):
        for name, (count, forms) in self.NAMES.items():
            for wrong in (0, count - 1, count + 1, 2 * count):
                given = array("f", [0] * wrong) if forms == "f" else bytearray(wrong)
                self.refused(
                    ValueError, rf"^{name}: its shape is \({wrong},\), and not \(", **{name: given}
                )

    def test_shapes(self):
        """A buffer is flat, or has the whole shape, or a row for each game."""
        for name, count, shape in (("planes", 36, (2, 2, 3, 3)), ("masks", 20, (2, 10))):
            for kind in "Bf":
                flat = memoryview(array(kind, [7] * count))
                for right in ((count,), shape, (2, count // 2)):
                    Games(2, 3).step([4, 4], **{name: flat.cast("B").cast(kind, right)})
                others = {
                    "planes": ((2, 3, 3, 2), (1, 2, 2, 9), (18, 2), (4, 9)),
                    "masks": ((10, 2), (1, 20), (4, 5)),
                }
                for wrong in others[name]:
                    text = re.escape(
                        f"{name}: its shape is {wrong}, and not {shape}, or flat with {count} items"
                    )
                    self.refused(ValueError, text, **{name: flat.cast("B").cast(kind, wrong)})

    def test_earlier_boards(self):
        self.refused(ValueError, "^earlier: 3 boards", earlier=3)
        for wrong in ("3", None, 1.0):
            self.refused(TypeError, "^earlier: .* is no int", earlier=wrong, planes=bytearray(36))
        for wrong in (-1, 2001):
            self.refused(
                ValueError,
                "^earlier: .* is not from 0 to 2000",
                earlier=wrong,
                planes=bytearray(36),
            )

    def test_buffers_that_are_gone(self):
        gone = memoryview(bytearray(36))
        gone.release()
        self.refused(ValueError, "^planes: its buffer can't be used", planes=gone)

    def test_overlaps(self):
        buffer = memoryview(bytearray(64))
        self.refused(
            ValueError,
            "^planes and masks: .* bytes in common",
            planes=buffer[:36],
            masks=buffer[35:55],
        )
        self.refused(ValueError, "bytes in common", causes=buffer[:2], over=buffer[1:3])
        self.refused(
            ValueError, "bytes in common", scores=buffer[:8].cast("f"), planes=buffer[4:40]
        )
        games = Games(2, 3)
        games.step(
            [4, 4],
            causes=buffer[:2],
            over=buffer[2:4],
            scores=buffer[4:12].cast("f"),
            planes=buffer[12:48],
        )
        self.assertEqual(
            list(buffer), [0] * 12 + 2 * ([0] * 9 + [0] * 4 + [1] + [0] * 4) + [0] * 16
        )

    def test_one_game(self):
        game = Game(3)
        game.play("b", "B2")
        for call in (game.board_into, lambda buffer: game.legal_into("w", buffer)):
            for wrong in (bytearray(8), bytearray(10), array("f", [0] * 9), bytes(9), uneven(9)):
                with self.assertRaises(ValueError):
                    call(wrong)
            with self.assertRaises(TypeError):
                call([0] * 9)
            buffer = bytearray([7] * 9)
            call(buffer)
            self.assertIn(bytes(buffer), (game.board, game.legal_mask("w")))

    def test_moves(self):
        games = Games(2, 3)
        for wrong in ([4], [4, 4, 4], []):
            with self.assertRaisesRegex(ValueError, "^moves: "):
                games.step(wrong)
        for wrong in ([1.0, 2.0], ["4", "4"], None, 4, [None, 0], "44", array("f", [0, 1])):
            with self.assertRaisesRegex(TypeError, "^moves: "):
                games.step(wrong)
        self.assertEqual(len(games.game(0).moves), 0)
        causes = bytearray(2)
        for wrong in (10, 2**32 - 1, 2**32, 2**80, -1, -(2**80)):
            self.assertEqual(
                (games.step([wrong, wrong], causes=causes), list(causes)),
                (2, [Cause.OFF_BOARD] * 2),
            )
        self.assertEqual(len(games.game(0).moves), 0)
        right = (
            [0, 0],
            (1, 1),
            array("q", [2, 2]),
            bytearray([3, 3]),
            memoryview(b"\4\4"),
            range(5, 7),
        )
        for number, moves in enumerate(right):
            self.assertEqual(games.step(moves), 0, str(moves))
            self.assertEqual(games.game(0).index(games.game(0).moves[-1].vertex), number)

    def test_seeds(self):
        games = Games(2, 3)
        for wrong in ([1], [1, 2, 3], [-1, 0], [2**64, 0]):
            with self.assertRaises(ValueError):
                games.rollouts(wrong)
        with self.assertRaisesRegex(TypeError, "^seeds: 1 is no list"):
            games.rollouts(1)
        with self.assertRaisesRegex(TypeError, "^seeds: 'x' is no int"):
            games.rollouts(["x", 1])

    def test_buffers_are_held_for_the_call_alone(self):
        games, buffer = Games(2, 3), bytearray(36)
        games.step([4, 4], planes=buffer)
        buffer.append(0)  # which a bytearray that is held refuses


class Threads(unittest.TestCase):
    """Other threads run while a call does, and may not touch its games."""

    def test_these_calls_alone_let_other_threads_run(self):
        texts = [path.read_text() for path in Path(vintsaky.__file__).parent.glob("*.py")]
        names = {name for text in texts for name in re.findall(r"unlocked\.(\w+)", text)}
        self.assertEqual(len(names), 7)
        self.assertEqual([name for name in names if not name.startswith("vintsaky_games_")], [])

    def test_other_threads(self):
        games, caught = Games(2, 3), []

        def step():
            writes = (lambda: games.step([0, 0]), lambda: games.planes_into(bytearray(36)))
            for call in (*writes, lambda: games.turns, lambda: games.game(0)):
                try:
                    call()
                except RuntimeError as problem:
                    caught.append(str(problem))

        other = threading.Thread(target=step)
        other.start()
        other.join()
        self.assertEqual([("adopt()" in it) for it in caught], [True] * 4)
        self.assertEqual(len(games.game(0).moves), 0)

    def test_while_a_call_runs(self):
        """Rollouts of many large boards take so long that the others are refused.

        If they aren't, the rollouts are made once more.
        """
        games, buffer, refused, scores_of_all = Games(1000, 25), bytearray(1000 * 626), set(), []
        calls = {
            "adopt": games.adopt,
            "step": lambda: games.step([0] * 1000),
            "masks": lambda: games.masks_into(buffer),
            "rollouts": lambda: games.rollouts(range(1000), 1),
            "game": lambda: games.game(0),
            "put": lambda: games.put(0, Game(25)),
            "turns": lambda: games.turns,
        }
        for _ in range(20):
            scores_of_all.append(self.seen_by_others(games, calls, refused))
            if refused == set(calls):
                break
        self.assertEqual(refused, set(calls))
        self.assertEqual({len(scores) for scores in scores_of_all}, {1000})
        games.adopt()
        self.assertEqual((games.step([0] * 1000), set(buffer)), (0, {0}))

    def seen_by_others(self, games, calls, refused):
        """Adds to the refused calls while another thread makes its rollouts, and returns these.

        The thread has the games before any other call is made, and `adopt` is called last, once
        another one was refused.
        """
        scores_of_all, adopted = [], threading.Event()

        def roll_out():
            games.adopt()
            adopted.set()
            scores_of_all.extend(games.rollouts(range(1000)))

        owner = threading.Thread(target=roll_out)
        owner.start()
        adopted.wait()
        seen = set()
        while owner.is_alive() and len(seen) < len(calls):
            for name, call in list(calls.items())[not seen :]:
                try:
                    call()
                except RuntimeError as problem:
                    seen |= {name} if "in a call" in str(problem) else set()
        owner.join()
        refused |= seen
        return scores_of_all

    def test_moves_that_look_at_the_games(self):
        """They are made into numbers before the games are in a call."""
        games = Games(2, 3)
        self.assertEqual(games.step(len(games.game(number).moves) for number in range(2)), 0)
        self.assertEqual(
            games.rollouts(len(games.game(number).moves) for number in range(2)),
            games.rollouts([1, 1]),
        )

    def test_they_are_made_once(self):
        games = Games(2, 3)
        games.step([4, 4])
        with self.assertRaisesRegex(RuntimeError, "made before"):
            games.__init__(5, 9)
        self.assertEqual((len(games), len(games.game(0).moves)), (2, 1))

    def test_a_failed_call_leaves_the_games_free(self):
        games = Games(1, 3)
        with self.assertRaises(ValueError):
            games.step([0, 0])
        games.adopt()
        self.assertEqual(games.step([0]), 0)


@unittest.skipIf(numpy is None, "numpy isn't there")
class Numpy(unittest.TestCase):
    """The buffers of numpy's arrays."""

    def test_arrays(self):
        games = Games(2, 3)
        for kind in (numpy.uint8, numpy.bool_, numpy.float32):
            boards, masks = numpy.full((2, 2, 3, 3), 7).astype(kind), numpy.full((2, 10), 7).astype(
                kind
            )
            games.planes_into(boards)
            games.masks_into(masks)
            self.assertEqual((boards.sum(), masks.sum(), masks.dtype), (0, 20, kind))
        boards = numpy.zeros((2, 4, 3, 3), numpy.float32)
        moves = numpy.array([5, 9])
        games.step(moves, planes=boards, earlier=1)
        self.assertEqual(
            boards[0, 1].tolist(), [[0, 0, 0], [0, 0, 1], [0, 0, 0]]
        )  # B2 is (1, 1), and 5 is C2
        self.assertEqual((boards.sum(), boards[1].sum()), (1, 0))

    def test_wrong_ones(self):
        games, boards = Games(2, 3), numpy.zeros((2, 2, 3, 3), numpy.uint8)
        of_types = (boards.astype(numpy.int64), boards.astype(">f4"), boards.astype(float))
        for wrong in (boards.transpose(), numpy.asfortranarray(boards), boards[:1], *of_types):
            with self.assertRaises(ValueError):
                games.planes_into(wrong)
        boards.flags.writeable = False
        with self.assertRaisesRegex(ValueError, "only be read"):
            games.planes_into(boards)
        with self.assertRaisesRegex(TypeError, "^moves"):
            games.step(numpy.array([[1], [2]]))


if __name__ == "__main__":
    unittest.main()
