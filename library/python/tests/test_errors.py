"""What errors are, and what they say: each names the argument, its value and what is wanted."""
import re
import unittest
from fractions import Fraction

from vintsaky import BLACK, PASS, RESIGN, WHITE, Cause, Command, CommandLines, Game, Match, Point
from vintsaky import Refused, Replies, Steps
from vintsaky import (
    command,
    komi_text,
    read_colour,
    read_komi,
    read_vertex,
    vertex_text,
    write_command,
    write_reply,
)

HANDICAP = Cause.BAD_HANDICAP.text
COLOURS = "use 'b', 'w', 'black', 'white' or a Colour"
VERTICES = "use a Point, PASS, or a text such as 'D4' or 'pass'"
POINTS = "use a Point or a text such as 'D4'"
RULES = "use KoRule.SIMPLE or KoRule.POSITIONAL"
CHOICES = "use a Point, PASS, RESIGN, or a text such as 'D4', 'pass' or 'resign'"
REPLY = (
    "a reply's text has at most 2000 bytes, "
    "each a newline or 32 to 126, no empty line, and no space or newline at its ends"
)
TITLE = REPLY.replace("2000", "200")
NOT_ASKED = "The engine is waiting for nothing, or for something that this call doesn't supply."
GAME, MATCH, STEPS = Game(9), Match(), Steps()
ASKED = Steps()
ASKED.feed(b"genmove b\n")
OTHER = Steps()
OTHER.feed(b"own\n")


def handicapped():
    """Returns a game with handicap stones."""
    game = Game(9)
    game.place_handicap(2)
    return game


# calls with a wrong type, and the text of the TypeError
TYPES = [
    (lambda: Game("9"), "size: '9' is no int; use one from 1 to 25"),
    (lambda: Game(9.0), "size: 9.0 is no int; use one from 1 to 25"),
    (lambda: Game(9, "6.5"), "komi: '6.5' is a str, and no int, float or Fraction"),
    (lambda: Game(9, 0, "simple"), f"rule: 'simple' is no ko rule; {RULES}"),
    (lambda: Steps(None), f"rule: None is no ko rule; {RULES}"),
    (lambda: GAME.play(None, "A1"), f"colour: None is no colour; {COLOURS}"),
    (lambda: GAME.play("b", None), f"vertex: None is no vertex; {VERTICES}"),
    (lambda: GAME.play("b", 257), f"vertex: 257 is no vertex; {VERTICES}"),
    (lambda: GAME.play("b", (1, 1, 1)), f"vertex: (1, 1, 1) is no vertex; {VERTICES}"),
    (lambda: GAME.play("b", (1.0, 1)), "vertex: (1.0, 1): a column is an int from 1 to 25"),
    (lambda: str(Point(1, "1")), "Point(1, '1'): a row is an int from 1 to 25"),
    (lambda: GAME[None], f"point: None is no point; {POINTS}"),
    (lambda: GAME.place_handicap(2.0), "stones: 2.0 is no int; use one from 2 to 9"),
    (lambda: GAME.rollout("b", "7"), "seed: '7' is no int; use one from 0 to 18446744073709551615"),
    (lambda: GAME.playout("b", 7, None), "limit: None is no int; use one from 0 to 4294967295"),
    (lambda: GAME.point(1.0), "index: 1.0 is no int; use one from 0 to 80"),
    (lambda: GAME.become(None), "other: None is no Game"),
    (lambda: ASKED.choose(0), f"choice: 0 is no choice; {CHOICES}"),
    (lambda: OTHER.answer(5), "text: 5 is neither str nor bytes"),
    (lambda: STEPS.set_name(None), "name: None is neither str nor bytes"),
    (
        lambda: STEPS.feed("name\n"),
        r"data: 'name\n' is neither bytes nor a bytearray nor a memoryview",
    ),
    (lambda: Replies().feed(None), "data: None is neither bytes nor a bytearray nor a memoryview"),
    (
        lambda: CommandLines().feed([1]),
        "data: [1] is neither bytes nor a bytearray nor a memoryview",
    ),
    (lambda: MATCH.hear("b", "=1"), "data: '=1' is neither bytes nor a bytearray nor a memoryview"),
    (lambda: MATCH.hear(None, b""), f"side: None is no colour; {COLOURS}"),
    (lambda: Match(max_moves="9"), "max_moves: '9' is no int; use one from 1 to 2000"),
    (lambda: Match(handicap=None), "handicap: None is no int; use 0, or one from 2 to 9"),
    (lambda: MATCH.retakes("1"), "number: '1' is no int; use one from 0 to 4294967295"),
    (lambda: read_colour(1), "text: 1 is neither str nor bytes"),
    (lambda: komi_text(None), "komi: None is a NoneType, and no int, float or Fraction"),
    (lambda: Game.from_moves(None), "moves: None is no list of moves"),
    (lambda: GAME.moves["0"], "number: '0' is neither an int nor a slice of them"),
    (
        lambda: GAME.moves["a":],
        "number: slice('a', None, None) is neither an int nor a slice of them",
    ),
    (lambda: Point(1, 1).neighbours("9"), "size: '9' is no int; use one from 1 to 25"),
    (lambda: command(5), 'name: 5 is no str; a command has a name, as @command("NAME")'),
    (lambda: write_reply(5), "text: 5 is neither str nor bytes"),
    (lambda: write_reply(id="1"), "id: '1' is no int; use one from 0 to 2147483647"),
    (lambda: write_command("quit"), "command: 'quit' is no Command"),
    (
        lambda: write_command(Command.PLAY, "b"),
        "PLAY: 1 argument is given; it takes a colour and a vertex",
    ),
    (lambda: write_command(Command.QUIT, 1, 2), "QUIT: 2 arguments are given; it takes none"),
    (lambda: write_command(Command.BOARDSIZE, "9"), "size: '9' is no int; use one from 1 to 25"),
]

# calls with a wrong value and the text of the error, by the cause, or None for no Refused
VALUES = {
    Cause.BAD_SIZE: [
        (lambda: Game(26), "size: 26 is not from 1 to 25"),
        (lambda: Game(-1), "size: -1 is not from 1 to 25"),
        (lambda: Game(2**64 + 9), "size: 18446744073709551625 is not from 1 to 25"),
        (lambda: Point(1, 1).neighbours(0), "size: 0 is not from 1 to 25"),
        (lambda: Match(26), "size: 26 is not from 1 to 25"),
        (lambda: write_command(Command.BOARDSIZE, 0), "size: 0 is not from 1 to 25"),
    ],
    None: [
        (lambda: Game(9, 6.7), "komi: 6.7 is no multiple of 0.5"),
        (lambda: Game(9, float("nan")), "komi: nan is no multiple of 0.5"),
        (lambda: Game(9, Fraction(1, 3)), "komi: Fraction(1, 3) is no multiple of 0.5"),
        (lambda: GAME.rollout("b", -1), "seed: -1 is not from 0 to 18446744073709551615"),
        (
            lambda: GAME.random_move("b", 2**64),
            "word: 18446744073709551616 is not from 0 to 18446744073709551615",
        ),
        (lambda: GAME.playout("b", 1, 2**32), "limit: 4294967296 is not from 0 to 4294967295"),
        (lambda: MATCH.result(-1), "number: -1 is not from 0 to 4294967295"),
    ],
    Cause.BAD_KOMI: [
        (lambda: Game(9, 10**9), "komi: 1000000000 is not from -999999999.5 to 999999999.5"),
        (lambda: Game(9, float("-inf")), "komi: -inf is not from -999999999.5 to 999999999.5"),
    ],
    Cause.BAD_RULE: [
        (lambda: Game(9, 0, 3), f"rule: 3 is no ko rule; {RULES}"),
        (lambda: Game(9, 0, -1), f"rule: -1 is no ko rule; {RULES}"),
    ],
    Cause.BAD_TEXT: [
        (lambda: GAME.legal("x", "C3"), f"colour: 'x' is no colour; {COLOURS}"),
        (lambda: GAME.play(b"\xff", "C3"), rf"colour: b'\xff' is no colour; {COLOURS}"),
        (lambda: GAME.play("w", "Z99"), f"vertex: 'Z99' is no vertex; {VERTICES}"),
        (lambda: GAME.play("w", "resign"), f"vertex: 'resign' is no vertex; {VERTICES}"),
        (lambda: GAME.index("?"), f"point: '?' is no point; {POINTS}"),
        (lambda: ASKED.choose("K99"), f"choice: 'K99' is no choice; {CHOICES}"),
        (lambda: OTHER.answer("a\n\nb"), rf"text: 'a\n\nb' may be in no reply; {REPLY}"),
        (lambda: OTHER.answer("é"), f"text: 'é' may be in no reply; {REPLY}"),
        (lambda: STEPS.set_name(" a"), f"name: ' a' may be in no reply; {TITLE}"),
        (lambda: STEPS.set_version("é"), f"version: 'é' may be in no reply; {TITLE}"),
        (lambda: MATCH.lost("x"), f"side: 'x' is no colour; {COLOURS}"),
        (lambda: read_colour("x"), "text: 'x' is no colour; use 'b', 'w', 'black' or 'white'"),
        (lambda: read_vertex("é"), "text: 'é' is no vertex; use one such as 'D4' or 'pass'"),
        (lambda: read_komi("6.7"), "text: '6.7' is no komi; use one such as '6.5' or '-7'"),
        (lambda: write_reply("\t"), rf"text: '\t' may be in no reply; {REPLY}"),
    ],
    Cause.BAD_COLOUR: [
        (lambda: GAME.play(3, "C3"), f"colour: 3 is no colour; {COLOURS}"),
        (lambda: GAME.captured(-1), f"colour: -1 is no colour; {COLOURS}"),
        (lambda: write_command(Command.GENMOVE, 3), f"colour: 3 is no colour; {COLOURS}"),
    ],
    Cause.BAD_VERTEX: [
        (lambda: GAME.play("w", RESIGN), f"vertex: RESIGN is no move on a board; {VERTICES}"),
        (lambda: GAME.play("w", Point(0, 0)), "vertex: Point(0, 0): a column is from 1 to 25"),
        (lambda: GAME.play("w", (1, -1)), "vertex: (1, -1): a row is from 1 to 25"),
        (lambda: str(Point(0, 0)), "Point(0, 0): a column is from 1 to 25"),
        (lambda: vertex_text(RESIGN), f"vertex: RESIGN is no move on a board; {VERTICES}"),
        (lambda: GAME["pass"], f"point: PASS is no point; {POINTS}"),
        (lambda: GAME[RESIGN], f"point: RESIGN is no point; {POINTS}"),
        (lambda: GAME.chain(PASS), f"point: PASS is no point; {POINTS}"),
        (lambda: ASKED.choose((0, 1)), "choice: (0, 1): a column is from 1 to 25"),
    ],
    Cause.OFF_BOARD: [
        (lambda: GAME["K1"], "point K1: The point isn't on a board of this size."),
        (lambda: GAME.index("K1"), "index K1: The point isn't on a board of this size."),
        (lambda: GAME.point(81), "index: 81 is not from 0 to 80"),
        (lambda: GAME.point(-1), "index: -1 is not from 0 to 80"),
        (lambda: ASKED.choose("Z1"), "choose Z1: The point isn't on a board of this size."),
    ],
    Cause.NO_STONE: [
        (lambda: GAME.chain("A3"), "chain A3: No stone is on the point."),
        (lambda: GAME.chain_points("A3"), "chain_points A3: No stone is on the point."),
    ],
    Cause.NOT_EMPTY: [
        (lambda: handicapped().place_handicap(2), f"place_handicap: {Cause.NOT_EMPTY.text}"),
    ],
    Cause.NOTHING_TO_UNDO: [
        (lambda: GAME.undo(), "undo: The record has no move to undo."),
    ],
    Cause.NOT_ASKED: [
        (lambda: STEPS.choose("A1"), f"choose A1: {NOT_ASKED}"),
        (lambda: STEPS.answer("x"), f"answer 'x': {NOT_ASKED}"),
        (lambda: STEPS.decline(), f"decline: {NOT_ASKED}"),
        (lambda: STEPS.answer("é"), f"answer 'é': {NOT_ASKED}"),
    ],
    Cause.IN_TABLE: [
        (lambda: STEPS.add_command("play"), f"add_command 'play': {Cause.IN_TABLE.text}"),
    ],
    Cause.BAD_BYTE: [
        (lambda: STEPS.add_command("é"), f"add_command 'é': {Cause.BAD_BYTE.text}"),
    ],
    Cause.NOT_NEXT: [
        (lambda: MATCH.started("w"), "started w: Not the call that the match expects next."),
        (lambda: MATCH.send("b"), "send b: Not the call that the match expects next."),
    ],
    Cause.DOWN: [
        (lambda: MATCH.status("b"), f"status b: {Cause.DOWN.text}"),
        (lambda: MATCH.owed("w"), f"owed w: {Cause.DOWN.text}"),
    ],
    Cause.NOT_OVER: [
        (lambda: MATCH.result(3), "result 3: The match is not over yet."),
    ],
    Cause.BAD_HANDICAP: [
        (lambda: Match(8, handicap=5), f"handicap 5 on size 8: {Cause.BAD_HANDICAP.text}"),
        (lambda: Match(handicap=-1), f"handicap -1 on size 19: {Cause.BAD_HANDICAP.text}"),
        (lambda: Game(8).place_handicap(5), f"handicap 5 on size 8: {Cause.BAD_HANDICAP.text}"),
        (lambda: Game(8).place_handicap(-1), f"handicap -1 on size 8: {Cause.BAD_HANDICAP.text}"),
        (lambda: Game(8).place_handicap(2**40), f"handicap {2**40} on size 8: {HANDICAP}"),
        (
            lambda: write_command(Command.FIXED_HANDICAP, -1),
            "stones: -1 is not from 0 to 2147483647",
        ),
    ],
    Cause.BAD_MAX_MOVES: [
        (lambda: Match(max_moves=0), "max_moves: 0 is not from 1 to 2000"),
    ],
    Cause.BAD_MAX_RESTARTS: [
        (lambda: Match(max_restarts=-1), "max_restarts: -1 is not from 0 to 1000"),
    ],
    Cause.BAD_ID: [
        (lambda: write_reply(id=-1), "id: -1 is not from 0 to 2147483647"),
        (lambda: write_reply(id=2**31), "id: 2147483648 is not from 0 to 2147483647"),
    ],
    Cause.BAD_COMMAND: [
        (lambda: write_command(9), "command: 9 is no Command"),
        (lambda: write_command(-1), "command: -1 is no Command"),
    ],
}


class Errors(unittest.TestCase):
    def test_a_wrong_type_is_a_type_error(self):
        for call, text in TYPES:
            with self.subTest(text), self.assertRaises(TypeError) as caught:
                call()
            self.assertEqual(str(caught.exception), text)

    def test_a_wrong_value_is_a_value_error(self):
        rows = [(cause, *row) for cause, rows in VALUES.items() for row in rows]
        for cause, call, text in rows:
            with self.subTest(text), self.assertRaises(ValueError) as caught:
                call()
            self.assertEqual(str(caught.exception), text)
            self.assertIs(getattr(caught.exception, "cause", None), cause)
            self.assertIs(isinstance(caught.exception, Refused), cause is not None)

    def test_nothing_has_changed(self):
        self.assertEqual((len(GAME.moves), GAME.size, GAME.komi), (0, 9, 0))
        self.assertEqual(
            (MATCH.next().kind.name, ASKED.wait.name, OTHER.wait.name), ("START", "BLACK", "OTHER")
        )

    def test_a_move_is_named(self):
        game = Game(4)
        for move in ("b A2", "b B1", "w C1"):
            game.play(*move.split())
        for vertex, said in (
            ("c1", "play w C1: A stone is on the point."),
            (b"D5", "play w D5: The point isn't on a board of this size."),
            ((1, 1), "play w A1: The new stone's chain would have no liberty."),
        ):
            with self.assertRaises(Refused) as caught:
                game.play("White", vertex)
            self.assertEqual(str(caught.exception), said)

    def test_a_move_that_is_not_there(self):
        game = Game(5)
        game.play("b", "C3")
        for number in (1, -2, 2**70):
            with self.assertRaises(IndexError) as caught:
                game.moves[number]
            self.assertEqual(str(caught.exception), f"number: {number} is no move of a record of 1")

    def test_causes_in_a_fixed_order(self):
        for cause, call in (
            (Cause.BAD_RULE, lambda: Game(26, 10**9, 3)),
            (Cause.BAD_SIZE, lambda: Game(26, 10**9)),
            (Cause.BAD_COLOUR, lambda: GAME.play(3, RESIGN)),
            (Cause.BAD_SIZE, lambda: Match(26, 10**9, 99)),
            (Cause.BAD_KOMI, lambda: Match(9, 10**9, 99)),
            (Cause.BAD_HANDICAP, lambda: Match(9, 0, 99, 0)),
            (Cause.BAD_HANDICAP, lambda: Match(9, 0, 1, 0)),
            (Cause.BAD_MAX_MOVES, lambda: Match(9, 0, 0, 0, -1)),
        ):
            with self.assertRaises(Refused) as caught:
                call()
            self.assertIs(caught.exception.cause, cause)
        game = Game(5)
        game.play("b", PASS)
        with self.assertRaises(Refused) as caught:
            game.place_handicap(-1)
        self.assertIs(caught.exception.cause, Cause.NOT_EMPTY)

    def test_no_number_of_the_interface_is_in_a_text(self):
        for call in [
            *(row[0] for row in TYPES),
            *(call for rows in VALUES.values() for call, _ in rows),
        ]:
            with self.assertRaises((TypeError, ValueError)) as caught:
                call()
            self.assertIsNone(
                re.search("256|65535|half point|number is no", str(caught.exception)),
                caught.exception,
            )

    def test_long_values_are_cut(self):
        class Wrong:
            def __repr__(self):
                raise KeyError

        for value in ("x" * 10**6, 10**5000, Wrong(), [1] * 10**6):
            with self.assertRaises((TypeError, ValueError)) as caught:
                Game(value)
            self.assertLess(len(str(caught.exception)), 130)
        with self.assertRaisesRegex(TypeError, "^size: a Wrong is no int"):
            Game(Wrong())
        self.assertIs(BLACK.other, WHITE)


if __name__ == "__main__":
    unittest.main()
