"""The controller.

What is wanted comes from the rules of a match: what is next, what a reply does, how a match ends.
"""
import dataclasses
import unittest

from vintsaky import (
    BLACK,
    WHITE,
    Action,
    Cause,
    Ending,
    Loss,
    Match,
    Next,
    Owed,
    Report,
    Status,
    Verdict,
)

from .test_values import Refusing


def brought(match, side, number, commands=3):
    """Sends these commands to a side, which confirms them. Returns what was sent, and any loss."""
    sent = [match.send(side) for _ in range(commands)]
    answers = b"".join(b"=%d\n\n" % each for each in range(number, number + commands))
    return sent, match.hear(side, answers)


def begun(**setup):
    """Returns a match in which both sides were started and brought to the empty board."""
    match = Match(**{"size": 2, "komi": 0, **setup})
    for side in (BLACK, WHITE):
        match.started(side)
    for side in (BLACK, WHITE):
        brought(match, side, 1)
    return match


def said(match, side, reply):
    """Sends a side what is next, and has it write this."""
    assert match.next() == Action(Next.SEND, side), match.next()
    return match.send(side), match.hear(side, reply)


class Turns(Refusing):
    def test_what_is_next(self):
        match = Match(9, 6.5, handicap=2)
        self.assertEqual(match.next(), Action(Next.START, BLACK))
        match.started(BLACK)
        self.assertEqual(match.next(), Action(Next.START, WHITE))
        match.started(WHITE)
        self.assertEqual(
            brought(match, BLACK, 1)[0], [b"1 boardsize 9\n", b"2 komi 6.5\n", b"3 clear_board\n"]
        )
        self.assertEqual(match.send("b"), b"4 fixed_handicap 2\n")
        self.assertEqual(match.next(), Action(Next.WAIT, BLACK))
        self.assertIs(match.in_step(BLACK), False)
        self.assertIsNone(match.hear(BLACK, b"=4 G7 C3\n\n"))
        self.assertIs(match.in_step(BLACK), True)
        brought(match, WHITE, 1, 4)
        self.assertIs(match.hear(WHITE, b""), None)

    def test_two_passes(self):
        match = begun(komi=0.5)
        self.assertEqual(said(match, BLACK, b"=4 A1\n\n"), (b"4 genmove b\n", None))
        self.assertEqual(said(match, WHITE, b"=4\n\n"), (b"4 play b A1\n", None))
        self.assertEqual(said(match, WHITE, b"=5 pass\n\n"), (b"5 genmove w\n", None))
        self.assertEqual(said(match, BLACK, b"=5\n\n")[0], b"5 play w pass\n")
        self.assertIsNone(match.verdict)
        self.refused(Cause.NOT_OVER, match.result)
        self.assertEqual(said(match, BLACK, b"=6 PASS\n\n")[0], b"6 genmove b\n")
        self.assertEqual(match.next(), Action(Next.OVER, None))
        self.assertEqual(match.verdict, Verdict(Ending.BY_SCORE, None, 3.5))
        self.assertEqual(match.result(), "game 1: B+3.5 moves 3 restarts 0 0")
        self.assertEqual(
            match.result(number=4294967295), "game 4294967295: B+3.5 moves 3 restarts 0 0"
        )
        self.assertEqual(match.record, "A1 pass pass")
        self.assertEqual(
            (len(match.game.moves), match.game.score, match.game.finished), (3, 3.5, True)
        )

    def test_endings(self):
        for reply, loss, verdict, line in (
            (b"=4 Resign\n\n", None, Verdict(Ending.BY_RESIGNATION, BLACK, None), "W+R moves 0"),
            (
                b"?4 no\n\n",
                Loss.NO_MOVE,
                Verdict(Ending.BY_NO_MOVE, BLACK, None),
                "W+F(no move) moves 0",
            ),
            (
                b"=4 A1 B2\n\n",
                Loss.NO_VERTEX,
                Verdict(Ending.BY_NO_VERTEX, BLACK, None),
                "W+F(no vertex) moves 0",
            ),
            (
                b"=4 C1\n\n",
                Loss.OFF_BOARD,
                Verdict(Ending.BY_ILLEGAL_MOVE, BLACK, None),
                "W+F(illegal move) moves 0",
            ),
            (b"=4 A1\n\n", None, Verdict(Ending.BY_LIMIT, None, None), "limit moves 1"),
            (
                b"hello",
                Loss.NO_STATUS,
                Verdict(Ending.BY_ABANDONED, BLACK, None),
                "abandoned black moves 0",
            ),
            (
                b"=5 A1\n\n",
                Loss.WRONG_ID,
                Verdict(Ending.BY_ABANDONED, BLACK, None),
                "abandoned black moves 0",
            ),
            (
                b"=" + b"x" * 8192,
                Loss.OVERLONG,
                Verdict(Ending.BY_ABANDONED, BLACK, None),
                "abandoned black moves 0",
            ),
        ):
            match = begun(max_moves=1)
            self.assertEqual(said(match, BLACK, reply), (b"4 genmove b\n", loss))
            self.assertEqual(
                (match.verdict, match.result()), (verdict, f"game 1: {line} restarts 0 0")
            )

    def test_unfit(self):
        match = Match(2)
        match.started(BLACK)
        match.started(WHITE)
        self.assertEqual(said(match, BLACK, b"?1 no\n\n"), (b"1 boardsize 2\n", Loss.UNFIT))
        self.assertEqual(match.verdict, Verdict(Ending.BY_UNFIT, BLACK, None))
        self.assertEqual(match.result(), "game 1: unfit black moves 0 restarts 0 0")

    def test_a_side_that_goes_down_is_brought_back(self):
        match = begun(max_restarts=1)
        said(match, BLACK, b"=4 A1\n\n")
        match.lost(BLACK)
        self.assertEqual((match.next(), match.restarts(BLACK)), (Action(Next.START, BLACK), 0))
        self.refused(Cause.DOWN, match.status, BLACK)
        self.refused(Cause.DOWN, match.owed, BLACK)
        match.started(BLACK)
        self.assertEqual((match.restarts("b"), match.restarts("w")), (1, 0))
        self.assertEqual(brought(match, BLACK, 1, 4)[0][3], b"4 play b A1\n")
        self.assertTrue(match.in_step(BLACK))
        match.lost(BLACK)
        self.assertEqual(match.verdict, Verdict(Ending.BY_ABANDONED, BLACK, None))
        self.assertEqual(match.result(2), "game 2: abandoned black moves 1 restarts 1 0")

    def test_unasked(self):
        match = begun(max_restarts=1)
        self.assertIs(match.hear(WHITE, b"=1\n\n"), Loss.UNASKED)
        self.assertEqual(match.next(), Action(Next.START, WHITE))


class Retakes(Refusing):
    def test_a_refused_move_is_retaken(self):
        match = begun()
        self.assertEqual(said(match, BLACK, b"=4 A1\n\n")[0], b"4 genmove b\n")
        self.assertEqual(match.send(WHITE), b"4 play b A1\n")
        report = match.report(WHITE, b"?4 no\n\n")
        self.assertEqual(report, Report(None, 1, Owed(1, "4 play b A1", b"?4 no\n\n")))
        self.assertRaises(dataclasses.FrozenInstanceError, setattr, report, "loss", None)
        self.assertEqual((match.taking_back, match.retakes(1), match.retakes(2)), (BLACK, 1, 0))
        self.assertEqual(said(match, BLACK, b"=5\n\n")[0], b"5 undo\n")
        self.assertEqual((match.taking_back, match.record), (None, ""))

    def test_an_own_move_that_is_refused(self):
        match = begun(max_restarts=1)
        said(match, BLACK, b"=4 A1\n\n")
        match.lost(BLACK)
        match.started(BLACK)
        brought(match, BLACK, 1)
        self.assertEqual(match.send(BLACK), b"4 play b A1\n")
        report = match.report(BLACK, b"?4 no\n\n")
        self.assertEqual(report, Report(Loss.REFUSES_PLAY, 0, Owed(1, "4 play b A1", b"?4 no\n\n")))
        self.assertEqual(match.verdict, Verdict(Ending.BY_REFUSED_PLAY, BLACK, None))
        self.assertEqual(match.result(), "game 1: W+F(refused play) moves 1 restarts 1 0")

    def test_a_move_that_is_kept(self):
        match = begun()
        said(match, BLACK, b"=4 A1\n\n")
        said(match, WHITE, b"?4\n\n")
        self.assertEqual(said(match, BLACK, b"?5 cannot undo\n\n"), (b"5 undo\n", Loss.KEEPS_MOVE))
        self.assertEqual(match.result(), "game 1: B+F(refused play) moves 1 restarts 0 0")

    def test_what_a_side_owes(self):
        match = begun()
        self.assertEqual(match.status(BLACK), Status(3, 0, False))
        self.assertEqual(match.owed(BLACK), Owed(0, "", b""))
        match.send(BLACK)
        self.assertEqual(match.status(BLACK), Status(3, 1, True))
        self.assertEqual(match.report(BLACK, b"=4 " + b"x" * 99), Report(None, 0, None))
        self.assertEqual(match.owed(BLACK), Owed(1, "4 genmove b", b"=4 " + b"x" * 77))


class Rulings(Refusing):
    """A referee ends a match, and the side loses."""

    def test_both_sides_with_and_without_a_reason(self):
        for side, reason, ending, words in (
            (BLACK, "", Ending.BY_TIME, "W+T"),
            (WHITE, "", Ending.BY_TIME, "B+T"),
            (BLACK, "too late", Ending.BY_RULING, "W+F(too late)"),
            (WHITE, "A b Z z", Ending.BY_RULING, "B+F(A b Z z)"),
            (WHITE, "x" * 20, Ending.BY_RULING, f"B+F({'x' * 20})"),
            (BLACK, " ", Ending.BY_RULING, "W+F( )"),
        ):
            match = begun()
            match.adjudicate(side, reason)
            self.assertEqual(match.verdict, Verdict(ending, side, None, reason))
            self.assertIs(match.verdict.winner, side.other)
            self.assertEqual(
                match.result(4294967295), f"game 4294967295: {words} moves 0 restarts 0 0"
            )
            self.assertEqual(match.next(), Action(Next.OVER, None))

    def test_reasons_that_may_not_be(self):
        match = begun()
        forfeits = ("no move", "no vertex", "illegal move", "refused play")
        for reason in ("x" * 21, "late!", "1", "a\nb", "a\0b", "[", "`", "@", "{", *forfeits):
            self.refused(Cause.BAD_REASON, match.adjudicate, BLACK, reason)
        self.assertIsNone(match.verdict)
        self.assertRaises(ValueError, match.adjudicate, BLACK, "sp\u00e4t")
        self.assertRaises(TypeError, match.adjudicate, BLACK, 1)
        self.assertEqual(said(match, BLACK, b"=4 A1\n\n"), (b"4 genmove b\n", None))
        match.adjudicate(BLACK, "No move")
        self.assertEqual(match.result(), "game 1: W+F(No move) moves 1 restarts 0 0")

    def test_the_order_of_causes(self):
        match = begun()
        self.refused(Cause.BAD_COLOUR, match.adjudicate, 3, "late!")
        match.adjudicate(BLACK, "slow")
        self.refused(Cause.BAD_COLOUR, match.adjudicate, 0)
        self.refused(Cause.IS_OVER, match.adjudicate, WHITE, "late!")
        self.refused(Cause.IS_OVER, match.adjudicate, WHITE)
        self.assertEqual(match.verdict, Verdict(Ending.BY_RULING, BLACK, None, "slow"))
        match = begun()
        said(match, BLACK, b"=4 resign\n\n")
        self.refused(Cause.IS_OVER, match.adjudicate, WHITE)
        self.assertEqual(match.verdict, Verdict(Ending.BY_RESIGNATION, BLACK, None))

    def test_a_match_that_begins_anew_has_no_ruling(self):
        match = begun()
        match.adjudicate(BLACK, "slow")
        self.refused(Cause.BAD_SIZE, match.begin, 26)
        self.assertEqual(match.verdict.reason, "slow")
        match.begin(2)
        self.assertEqual((match.verdict, match.next()), (None, Action(Next.START, BLACK)))


class Limits(Refusing):
    def test_setups(self):
        for cause, setup in (
            (Cause.BAD_SIZE, {"size": 0}),
            (Cause.BAD_SIZE, {"size": 26}),
            (Cause.BAD_KOMI, {"komi": 10**9}),
            (Cause.BAD_HANDICAP, {"handicap": 1}),
            (Cause.BAD_HANDICAP, {"size": 6, "handicap": 2}),
            (Cause.BAD_MAX_MOVES, {"max_moves": 0}),
            (Cause.BAD_MAX_MOVES, {"max_moves": 2001}),
            (Cause.BAD_MAX_RESTARTS, {"max_restarts": 1001}),
        ):
            self.refused(cause, Match, **setup)
        for name in ("size", "handicap", "max_moves", "max_restarts"):
            for number in (-1, 2**32, 2**32 + 2, 2**64):
                self.refused(Cause[f"BAD_{name.upper()}"], Match, **{name: number})
            for number in (2.0, "2", None):
                self.assertRaises(TypeError, Match, **{name: number})

    def test_a_refused_begin_changes_nothing(self):
        match = begun()
        self.refused(Cause.BAD_SIZE, match.begin, 26)
        self.assertEqual(match.next(), Action(Next.SEND, BLACK))
        match.begin(3)
        self.assertEqual(match.next(), Action(Next.START, BLACK))

    def test_sides(self):
        match = Match()
        of_a_side = (match.started, match.send, match.owed, match.status, match.lost)
        others = (match.in_step, match.restarts, match.adjudicate)
        calls = {call: () for call in (*of_a_side, *others)}
        for call, more in {**calls, match.hear: (b"",), match.report: (b"",)}.items():
            for side in (0, 3, 257, 2**32 - 1, -1, 2**32 + 1, 2**64 + 1):
                self.refused(Cause.BAD_COLOUR, call, side, *more)
            for side in (None, 1.0):
                self.assertRaises(TypeError, call, side, *more)
        self.refused(Cause.NOT_NEXT, match.started, WHITE)
        self.refused(Cause.NOT_NEXT, match.send, BLACK)
        for data in ("=1", None, 3):
            self.assertRaises(TypeError, match.hear, BLACK, data)
            self.assertRaises(TypeError, match.report, BLACK, data)
        self.assertEqual(match.next(), Action(Next.START, BLACK))

    def test_numbers_of_moves_and_games(self):
        match = begun()
        match.lost(BLACK)
        self.assertEqual([match.retakes(number) for number in (0, 2001, 2**32 - 1)], [0, 0, 0])
        for number in (-1, 2**32, 2**32 + 1):
            self.assertRaises(ValueError, match.retakes, number)
            self.assertRaises(ValueError, match.result, number)
        self.assertRaises(TypeError, match.result, "1")


if __name__ == "__main__":
    unittest.main()
