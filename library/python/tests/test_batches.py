"""Many games by one call.

Each of them has to be as a single game that is given the same, move by move.
"""
import ctypes
import random
import unittest

from vintsaky import BLACK, PASS, WHITE, Cause, Game, KoRule, Refused
from vintsaky import _declared
from vintsaky._objects import int_in_range
from vintsaky._library import library
from vintsaky._refused import check
from vintsaky.values import half_points

FILL = 77  # in each buffer before a call: what stays is seen
SPARE = 3  # items that a buffer has too many
CAUSES = {Cause.OFF_BOARD, Cause.FULL, Cause.OCCUPIED, Cause.SUICIDE, Cause.KO}


class Called:
    """The calls over many games, as they are: games in one piece of memory, begun alike.

    A move is a number: that of its point, row by row from A1 and from 0, or for a pass the number
    of points. The arrays have an item for each game; planes and masks have the values of one game
    after those of another.
    """

    __slots__ = ("_memory", "_handles")

    def __init__(self, count, size=19, komi=0, rule=KoRule.SIMPLE, handicap=0):
        align = library.vintsaky_game_align()
        each = library.vintsaky_game_bytes() + -library.vintsaky_game_bytes() % align
        self._memory = ctypes.create_string_buffer(count * each + align)
        self._handles = (_declared.GameHandle * count)()
        start = ctypes.addressof(self._memory)
        start += -start % align
        begins = (
            int_in_range(rule, "the ko rule"),
            int_in_range(size, "the size"),
            half_points(komi),
        )
        for number in range(count):
            place = self._place(number)
            library.vintsaky_game_place(place, start + number * each)
            check(library.vintsaky_game_begin(place, *begins))
            if handicap:
                check(
                    library.vintsaky_game_place_handicap(
                        place, int_in_range(handicap, "the number of handicap stones")
                    )
                )

    def __len__(self):
        return len(self._handles)

    def _place(self, number):
        """Returns the handle of one game, for a call."""
        return ctypes.byref(self._handles[number])

    def _held(self):
        """Returns the handles, for a call, with their number."""
        return self._handles, len(self._handles)

    def play(self, moves, causes):
        """Makes the move of each game, of the colour whose turn it is.

        Its cause is 0, or why it refuses the move.
        """
        check(library.vintsaky_games_play(*self._held(), moves, len(moves), causes, len(causes)))

    def restart(self, limit, over, half_points):
        """Tells of each game whether it is over: 1 after two passes, 2 after `limit` moves, else 0.

        Those that are over are scored in half points, and begin again.
        """
        most = int_in_range(limit, "the limit")
        check(
            library.vintsaky_games_restart(
                *self._held(), most, over, len(over), half_points, len(half_points)
            )
        )

    def planes(self, values, earlier=0):
        """Returns the stones of both colours, of each game's board and of so many earlier ones.

        Those of the colour whose turn it is come first. The array is of c_uint8 or of c_float.
        """
        call = (
            library.vintsaky_games_planes_f32
            if values._type_ is ctypes.c_float
            else library.vintsaky_games_planes
        )
        check(
            call(
                *self._held(),
                int_in_range(earlier, "the number of earlier boards"),
                values,
                len(values),
            )
        )

    def masks(self, values):
        """Returns whether the colour whose turn it is may make the move of each number.

        The array is of c_uint8 or c_float.
        """
        call = (
            library.vintsaky_games_masks_f32
            if values._type_ is ctypes.c_float
            else library.vintsaky_games_masks
        )
        check(call(*self._held(), values, len(values)))

    def rollouts(self, seeds, limit, half_points):
        """Returns the score of a rollout of each game by its seed, in half points."""
        most = int_in_range(limit, "the limit")
        check(
            library.vintsaky_games_rollouts(
                *self._held(), seeds, len(seeds), most, half_points, len(half_points)
            )
        )


def other(colour):
    return WHITE if colour == BLACK else BLACK


def turn(game):
    """Returns the colour whose turn it is, by the record alone."""
    if game.moves:
        return other(game.moves[-1].colour)
    return WHITE if game.handicap else BLACK


def vertex_of(game, number):
    """Returns the vertex of a move's number: no number is higher than that of a pass."""
    column, row = "ABCDEFGHJKLMNOPQRSTUVWXYZ"[number % game.size], number // game.size + 1
    return PASS if number == game.size**2 else f"{column}{row}"


def played(game, number):
    """Makes the move of a number in a single game. The cause."""
    if number > game.size**2:
        return Cause.OFF_BOARD
    try:
        game.play(turn(game), vertex_of(game, number))
    except Refused as refused:
        return refused.cause
    return Cause.DONE


def over(game, limit):
    """Returns how a single game is over. It begins again then."""
    ending = 1 if game.finished else 2 if len(game.moves) >= min(limit, 2000) else 0
    score = round(game.score * 2) if ending else 0
    if ending:
        stones = game.handicap
        game.begin(game.size, game.komi, game.rule)
        if stones:
            game.place_handicap(stones)
    return ending, score


def planes(game, earlier):
    """Returns the planes of a single game, point by point."""
    values, points, colour = [], range(game.size**2), turn(game)
    board = game.copy()
    for ago in range(1 + earlier):
        for wanted in (colour, other(colour)):
            there = ago <= len(game.moves)
            values += [int(there and board[vertex_of(game, point)] == wanted) for point in points]
        if board.moves:
            board.undo()
    return values


def mask(game):
    """Returns the mask of a single game, move by move."""
    return [
        int(game.legal(turn(game), vertex_of(game, number))) for number in range(game.size**2 + 1)
    ]


class Beside(unittest.TestCase):
    """Random games, compared with single ones."""

    def compared(self, seed, size, count, steps, limit, **named):
        draw = random.Random(seed)
        games, single = Called(count, size, **named), [
            single_game(size, **named) for _ in range(count)
        ]
        met = set()
        for step in range(steps):
            numbers = [self.drawn(draw, it) for it in single]
            met |= set(self.moved(games, single, numbers))
            self.check_scored(games, single, limit)
            self.shown(games, single, draw.choice([0, 0, 1, 2, 7]))
            if step % 20 == 0:
                self.rolled_out(games, single, [draw.getrandbits(64) for _ in single])
        return met

    def drawn(self, draw, game):
        """Returns the number of a move: mostly of one that may be made."""
        if draw.random() < 0.2:
            return draw.choice(
                [
                    draw.randrange(game.size**2 + 1),
                    game.size**2,
                    game.size**2 + 1,
                    2**32 - 1,
                ]
            )
        return draw.choice([number for number, may in enumerate(mask(game)) if may])

    def moved(self, games, single, numbers):
        moves = (ctypes.c_uint32 * (len(single) + SPARE))(*numbers)
        causes = (ctypes.c_uint8 * (len(single) + SPARE))(*[FILL] * (len(single) + SPARE))
        games.play(moves, causes)
        self.assertEqual(
            list(causes), [*(played(*it) for it in zip(single, numbers)), *[FILL] * SPARE]
        )
        return causes[: len(single)]

    def check_scored(self, games, single, limit):
        many = len(single) + SPARE
        overs = (ctypes.c_uint8 * many)(*[FILL] * many)
        scores = (ctypes.c_int32 * many)(*[FILL] * many)
        games.restart(limit, overs, scores)
        wanted = [over(it, limit) for it in single] + [(FILL, FILL)] * SPARE
        self.assertEqual(list(zip(overs, scores)), wanted)

    def shown(self, games, single, earlier):
        wanted = [value for it in single for value in planes(it, earlier)]
        masks = [value for it in single for value in mask(it)]
        for kind in (ctypes.c_uint8, ctypes.c_float):
            values = (kind * (len(wanted) + SPARE))(*[FILL] * (len(wanted) + SPARE))
            games.planes(values, earlier)
            self.assertEqual(list(values), wanted + [FILL] * SPARE)
            values = (kind * (len(masks) + SPARE))(*[FILL] * (len(masks) + SPARE))
            games.masks(values)
            self.assertEqual(list(values), masks + [FILL] * SPARE)

    def rolled_out(self, games, single, seeds):
        many = len(single) + SPARE
        scores = (ctypes.c_int32 * many)(*[FILL] * many)
        games.rollouts((ctypes.c_uint64 * len(seeds))(*seeds), 50, scores)
        wanted = [
            round(game.rollout(turn(game), seed, 50) * 2) for game, seed in zip(single, seeds)
        ]
        self.assertEqual(list(scores), wanted + [FILL] * SPARE)

    def test_small_boards(self):
        met = set()
        for size in (1, 2, 3, 4, 5):
            met |= self.compared(size, size, 7, 60, 30, komi=0.5)
        self.assertLessEqual(met, {Cause.DONE, *CAUSES})
        self.assertGreaterEqual(met, {Cause.OFF_BOARD, Cause.OCCUPIED, Cause.SUICIDE, Cause.KO})

    def test_positional_ko(self):
        self.assertIn(Cause.KO, self.compared(6, 2, 9, 80, 2**32 - 1, rule=KoRule.POSITIONAL))

    def test_handicap(self):
        self.compared(7, 9, 5, 20, 12, komi=-3.5, handicap=4)

    def test_the_largest_board(self):
        self.compared(8, 25, 2, 6, 4)

    def test_no_game(self):
        games, none = Called(0), (ctypes.c_uint8 * 0)()
        games.play((ctypes.c_uint32 * 0)(), none)
        games.planes(none)
        games.masks(none)

    def test_a_full_record(self):
        games, game = Called(1, 1), Game(1)
        for _ in range(2000):
            self.moved(games, [game], [1])
        self.assertEqual(list(self.moved(games, [game], [1])), [Cause.FULL])
        self.check_scored(games, [game], 2**32 - 1)


class Rooms(unittest.TestCase):
    """Buffers that are too short: nothing is done or written."""

    def refused(self, call, *given):
        with self.assertRaises(Refused) as caught:
            call(*given)
        self.assertEqual(caught.exception.cause, Cause.NO_ROOM)
        for each in given:
            if isinstance(each, ctypes.Array):
                self.assertEqual(set(each) - {FILL}, set())

    def test_each_call(self):
        games = Called(3, 5)

        def filled(kind, many):
            return (kind * many)(*[FILL] * many)

        self.refused(games.play, filled(ctypes.c_uint32, 2), filled(ctypes.c_uint8, 3))
        self.refused(games.play, filled(ctypes.c_uint32, 3), filled(ctypes.c_uint8, 2))
        self.refused(games.restart, 0, filled(ctypes.c_uint8, 2), filled(ctypes.c_int32, 3))
        self.refused(games.restart, 0, filled(ctypes.c_uint8, 3), filled(ctypes.c_int32, 2))
        for kind in (ctypes.c_uint8, ctypes.c_float):
            self.refused(games.planes, filled(kind, 3 * 100 - 1), 1)
            self.refused(games.planes, filled(kind, 3 * 100), 2**32 - 1)
            self.refused(games.masks, filled(kind, 3 * 26 - 1))
        self.refused(games.rollouts, filled(ctypes.c_uint64, 2), 1, filled(ctypes.c_int32, 3))
        self.refused(games.rollouts, filled(ctypes.c_uint64, 3), 1, filled(ctypes.c_int32, 2))
        masks = (ctypes.c_uint8 * 78)()
        games.masks(masks)
        self.assertEqual(set(masks), {1})


def single_game(size, komi=0, rule=KoRule.SIMPLE, handicap=0):
    game = Game(size, komi, rule)
    if handicap:
        game.place_handicap(handicap)
    return game


if __name__ == "__main__":
    unittest.main()
