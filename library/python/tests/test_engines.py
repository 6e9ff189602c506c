"""Engines, in steps and served. What is wanted is what the protocol says of each reply."""
import contextlib
import io
import os
import subprocess
import sys
import unittest
from unittest import mock

import vintsaky
from vintsaky import (
    BLACK,
    PASS,
    RESIGN,
    WHITE,
    Cause,
    CommandLine,
    Engine,
    Event,
    Failure,
    KoRule,
    Steps,
    command,
)

from .test_values import Refusing

OWN = ["kgs-chat", "nothing", "fails", "stones"]


class First(Engine):
    """Plays the first legal point, and has commands of its own."""

    name = "first"
    version = "2.5"

    def choose(self, game, colour):
        return next(iter(game.legal_points(colour)), PASS)

    @command("kgs-chat")
    def say(self, words):
        return " ".join(words)

    @command("nothing")
    def say_nothing(self, words):
        return None

    @command("fails")
    def fail(self, words):
        raise Failure("not today")

    @command("stones")
    def count_stones(self, words):
        return str(sum(self.game[point] is not None for point in [(1, 1), (2, 1)]))


class Plain(Engine):
    """Has no commands of its own."""

    def choose(self, game, colour):
        return PASS


class Second(First):
    """A method that is overridden answers the same command."""

    def say(self, words):
        return "second"

    @command("last")
    def say_last(self, words):
        return "at last"


class Says(First):
    """Has a command that answers wrongly."""

    @command("bad")
    def say_bad(self, words):
        if words[0] in ("fails", "refused"):
            raise Failure({"fails": "no\n", "refused": " "}[words[0]])
        if words[0] == "value":
            raise ValueError("a fault of its author")
        answers = {
            "text": "a\n\nb",
            "long": "x" * 2001,
            "bytes": b"\xff",
            "accent": "é",
            "type": 5,
            "list": ["a"],
        }
        return words[0] if words[0] == "right" else answers[words[0]]


def served(engine, said):
    """Returns what the engine writes that reads this."""
    sink = io.BytesIO()
    engine.serve(io.BytesIO(said), sink)
    return sink.getvalue()


class InSteps(Refusing):
    def test_what_comes_of_a_piece(self):
        steps = Steps()
        self.assertEqual(
            (steps.wait, steps.reply, steps.line, steps.ended), (Event.MORE, b"", None, False)
        )
        self.assertEqual(steps.feed(b"1 na"), (4, Event.MORE))
        self.assertEqual(steps.feed(b"me\n2 genmove w\n"), (3, Event.REPLY))
        self.assertEqual(steps.reply, b"=1 stepgo\n\n")
        self.assertEqual(steps.feed(bytearray(b"2 genmove w\n3 x\n")), (12, Event.WHITE))
        self.assertEqual((steps.wait, steps.line), (Event.WHITE, CommandLine(2, ("genmove", "w"))))
        self.assertEqual(steps.feed(b"3 x\n"), (0, Event.WHITE))
        self.refused(Cause.OFF_BOARD, steps.choose, "U1")
        self.refused(Cause.NOT_ASKED, steps.answer, "x")
        self.assertEqual(steps.reply, b"=1 stepgo\n\n")
        steps.choose((3, 4))
        self.assertEqual((steps.reply, steps.game["C4"]), (b"=2 C4\n\n", WHITE))
        self.assertEqual(steps.feed(memoryview(b"3 x y z\n")), (8, Event.OTHER))
        self.assertEqual(steps.line, CommandLine(3, ("x", "y", "z")))
        self.refused(Cause.NOT_ASKED, steps.choose, PASS)
        self.refused(Cause.BAD_TEXT, steps.answer, "a\n\nb")
        steps.answer("all\nright", ok=False)
        self.assertEqual(steps.reply, b"?3 all\nright\n\n")
        self.assertEqual(steps.feed(b"quit\n5 name\n"), (5, Event.REPLY))
        self.assertEqual((steps.reply, steps.ended), (b"=\n\n", True))
        self.assertEqual(steps.feed(b"5 name\n"), (0, Event.ENDED))

    def test_choices(self):
        steps = Steps()
        resigns = b"= resign\n\n"
        for choice, reply in (
            (RESIGN, resigns),
            ("Resign", resigns),
            ("pass", b"= pass\n\n"),
            ("a1", b"= A1\n\n"),
        ):
            steps.feed(b"genmove b\n")
            steps.choose(choice)
            self.assertEqual(steps.reply, reply)
        steps.feed(b"genmove b\n")
        self.refused(Cause.OCCUPIED, steps.choose, "A1")
        self.assertRaisesRegex(
            vintsaky.Refused, "^choose A1: A stone is on the point.$", steps.choose, "A1"
        )
        self.refused(Cause.BAD_VERTEX, steps.choose, (26, 1))
        self.refused(Cause.BAD_TEXT, steps.choose, "resigned")
        self.refused(Cause.BAD_VERTEX, steps.choose, (2**32 + 1, 1))
        for choice in (None, 0, 65535, 1.5):
            self.assertRaises(TypeError, steps.choose, choice)
        self.assertIs(steps.wait, Event.BLACK)

    def test_names_and_commands(self):
        steps = Steps(KoRule.POSITIONAL)
        steps.set_name("x" * 200)
        steps.set_version("")
        for text in ("x" * 201, " a", "a\n", "\t"):
            self.refused(Cause.BAD_TEXT, steps.set_name, text)
            self.refused(Cause.BAD_TEXT, steps.set_version, text)
        steps.add_command("y" * 32)
        for name in ("", "y" * 33):
            self.refused(Cause.BAD_LENGTH, steps.add_command, name)
        for name in ("a b", "#"):
            self.refused(Cause.BAD_BYTE, steps.add_command, name)
        self.refused(Cause.ONLY_DIGITS, steps.add_command, "7")
        self.refused(Cause.IN_TABLE, steps.add_command, "play")
        self.refused(Cause.ADDED_BEFORE, steps.add_command, "y" * 32)
        for number in range(31):
            steps.add_command(b"own%d" % number)
        self.refused(Cause.TOO_MANY, steps.add_command, "another")
        for call in (steps.set_name, steps.set_version, steps.add_command, steps.answer):
            self.assertRaises(TypeError, call, 5)
            self.assertRaises(ValueError, call, "é")
        steps.feed(b"name\n")
        self.assertEqual(steps.reply, b"= " + b"x" * 200 + b"\n\n")
        steps.begin()
        steps.feed(b"name\n")
        self.assertEqual(steps.reply, b"= stepgo\n\n")

    def test_declines(self):
        steps = Steps()
        steps.feed(b"7 analyze\n")
        steps.decline()
        self.assertEqual(steps.reply, b"?7 unknown command\n\n")
        self.refused(Cause.NOT_ASKED, steps.decline)

    def test_rules(self):
        for rule in (0, 3, 257, -1, 2**32 + 1):
            self.refused(Cause.BAD_RULE, Steps, rule)
        self.assertRaises(TypeError, Steps, "simple")


class Served(unittest.TestCase):
    def test_any_cuts(self):
        said = (
            b"boardsize 2\n1 genmove b\n2 genmove w\n name\n3 version\n4 nosuch\n5 kgs-chat a  b\n"
        )
        said += b"6 nothing\nfails\nstones\nquit\nname\n"
        replies = b"=\n\n=1 A1\n\n=2 B1\n\n= first\n\n=3 2.5\n\n?4 unknown command\n\n=5 a b\n\n"
        replies += b"=6\n\n? not today\n\n= 2\n\n=\n\n"
        self.assertEqual(served(First(), said), replies)
        for size in (1, 7, 30):
            pieces = [said[place : place + size] for place in range(0, len(said), size)]
            source, sink = io.BytesIO(), io.BytesIO()
            source.read1 = lambda most, pieces=pieces: pieces.pop(0) if pieces else b""
            First().serve(source, sink)
            self.assertEqual(sink.getvalue(), replies)

    def test_own_commands_are_listed(self):
        ours = served(Plain(), b"list_commands\n")[:-2].decode()
        self.assertTrue(ours.startswith("= protocol_version\nname\n"))
        for engine, answer, more in ((First(), b"= a", []), (Second(), b"= second", ["last"])):
            listed, known, own, _ = served(
                engine, b"list_commands\nknown_command fails\nkgs-chat a\n"
            ).split(b"\n\n")
            self.assertEqual(listed.decode().split("\n"), [*ours.split("\n"), *OWN, *more])
            self.assertEqual((known, own), (b"= true", answer))

    def test_an_unfinished_line_is_never_executed(self):
        self.assertEqual(served(First(), b"name"), b"")

    def test_what_choose_raises_comes_out(self):
        class Raises(Engine):
            def choose(self, game, colour):
                raise KeyError("a fault of its author")

        for engine, kind in ((Raises(), KeyError), (Engine(), NotImplementedError)):
            sink = io.BytesIO()
            self.assertRaises(
                kind, engine.serve, io.BytesIO(b"1 name\n2 genmove b\n3 name\n"), sink
            )
            self.assertEqual(sink.getvalue(), b"=1 stepgo\n\n")
            self.assertRaises(RuntimeError, getattr, engine, "game")

    def test_choices_that_are_not_lawful_come_out(self):
        for choice, kind, text in (
            ("A1", vintsaky.Refused, "A stone is on the point"),
            ("C1", vintsaky.Refused, "isn't on a board"),
            (None, TypeError, "None is no choice"),
            (257, TypeError, "257 is no choice"),
            ("Z99", vintsaky.Refused, "'Z99' is no choice"),
        ):
            engine, sink = Engine(), io.BytesIO()
            engine.choose = lambda game, colour, choice=choice: choice
            with self.assertRaisesRegex(kind, text):
                engine.serve(io.BytesIO(b"boardsize 2\nplay b A1\ngenmove w\nname\n"), sink)
            self.assertEqual(sink.getvalue(), b"=\n\n=\n\n")

    def answered(self, engine, said):
        """Returns what the engine writes that reads this, and the lines on standard error."""
        errors = io.StringIO()
        with contextlib.redirect_stderr(errors):
            output = served(engine, said)
        return output, errors.getvalue().splitlines()

    def test_a_wrong_answer_is_a_failure(self):
        limit = "may be in no reply; a reply's text has at most 2000 bytes, each a newline"
        for word, text in (
            ("text", rf"text: 'a\n\nb' {limit}"),
            ("long", f"text: '{'x' * 59}.. {limit}"),
            ("bytes", r"text: b'\xff' may be in no reply"),
            ("accent", "text: 'é' may be in no reply"),
            ("type", "text: 5 is neither str nor bytes"),
            ("list", "text: ['a'] is neither str nor bytes"),
            ("fails", r"text: 'no\n' may be in no reply"),
            ("refused", "text: ' ' may be in no reply"),
        ):
            with self.subTest(word):
                said = b"1 name\n2 bad %s\n3 genmove b\n4 bad right\n" % word.encode()
                output, errors = self.answered(Says(), said)
                self.assertEqual(
                    output, b"=1 first\n\n?2 the answer is wrong\n\n=3 A1\n\n=4 right\n\n"
                )
                self.assertEqual(len(errors), 1)
                self.assertTrue(
                    errors[0].startswith(f"Says: the command bad: its answer is wrong: {text}"),
                    errors,
                )

    def test_right_answers_write_nothing(self):
        self.assertEqual(
            self.answered(First(), b"fails\nnothing\nkgs-chat a\n"),
            (b"? not today\n\n=\n\n= a\n\n", []),
        )

    def test_what_an_own_command_raises_comes_out(self):
        for word, kind in (("other", KeyError), ("value", ValueError)):
            sink = io.BytesIO()
            self.assertRaises(
                kind, Says().serve, io.BytesIO(b"name\nbad %s\nname\n" % word.encode()), sink
            )
            self.assertEqual(sink.getvalue(), b"= first\n\n")

    def test_without_standard_error(self):
        output = io.StringIO()
        with mock.patch.object(sys, "stderr", None), contextlib.redirect_stdout(output):
            self.assertEqual(
                served(Says(), b"bad type\nname\n"), b"? the answer is wrong\n\n= first\n\n"
            )
        self.assertEqual(output.getvalue(), "")
        with open(os.devnull) as unwritable, mock.patch.object(sys, "stderr", unwritable):
            self.assertEqual(
                served(Says(), b"bad type\nname\n"), b"? the answer is wrong\n\n= first\n\n"
            )

    def test_streams_that_do_not_block(self):
        source, sink = io.BytesIO(b"name\n"), io.BytesIO()
        source.read1 = lambda most: None
        self.assertRaises(BlockingIOError, First().serve, source, sink)
        sink.write = lambda data: None
        self.assertRaises(BlockingIOError, First().serve, io.BytesIO(b"name\n"), sink)

    def test_outputs_that_take_some_bytes(self):
        sink, taken = io.BytesIO(), []
        sink.write = lambda data: taken.append(bytes(data[:3])) or min(len(data), 3)
        First().serve(io.BytesIO(b"1 name\n"), sink)
        self.assertEqual(taken, [b"=1 ", b"fir", b"st\n", b"\n"])

    def test_bad_names_come_out_at_once(self):
        class Named(First):
            name = "two\n\nlines"

        self.assertRaises(vintsaky.Refused, served, Named(), b"name\n")

    def test_bad_commands_come_out_at_once(self):
        said = {
            "play": "The protocol already",
            "a b": "A name may have only",
            "é": "A name may have only",
        }
        for name, text in said.items():

            class Commanded(First):
                @command(name)
                def say_more(self, words):
                    return ""

            with self.assertRaisesRegex(vintsaky.Refused, f"^custom command '{name}': {text}"):
                served(Commanded(), b"name\n")

    def test_the_game_is_a_copy(self):
        class Plays(First):
            def choose(self, game, colour):
                for point in game.legal_points(WHITE):
                    if game.legal(BLACK, point):
                        game.play(BLACK, point)
                return "A1" if colour == BLACK else "B2"

        said = b"boardsize 2\n1 genmove b\n2 genmove w\nquit\n"
        self.assertEqual(served(Plays(), said), b"=\n\n=1 A1\n\n=2 B2\n\n=\n\n")

    def test_positional_ko(self):
        cycle = b"boardsize 2\nplay b A1\nplay w B1\nplay b A2\nplay w B2\nplay b A1\nplay w A2\n"
        cycle += b"1 play b A1\n"

        class Positional(First):
            rule = KoRule.POSITIONAL

        self.assertTrue(served(First(), cycle).endswith(b"=1\n\n"))
        self.assertTrue(served(Positional(), cycle).endswith(b"?1 illegal move\n\n"))


def run(program, said):
    """Returns what comes of a program in Python that reads this, and whose input stays open."""
    pipes = {"stdin": subprocess.PIPE, "stdout": subprocess.PIPE, "stderr": subprocess.PIPE}
    variables = {name: value for name, value in os.environ.items() if name != "PYTHONUNBUFFERED"}
    process = subprocess.Popen([sys.executable, "-c", program], env=variables, **pipes)
    process.stdin.write(said)
    process.stdin.flush()
    try:
        status = process.wait(20)
    finally:
        process.kill()
    output, errors = process.stdout.read(), process.stderr.read()
    for stream in (process.stdin, process.stdout, process.stderr):
        stream.close()
    return status, output, errors.decode()


NOISY = """
import os, sys, vintsaky
print("before")
class Noisy(vintsaky.Engine):
    def choose(self, game, colour):
        print("print")
        sys.__stdout__.write("file\\n")
        os.write(1, b"number\\n")
        os.system("echo child; cat")
        assert sys.stdin.read() == ""
        return vintsaky.PASS
Noisy().serve()
sys.stderr.write("after\\n")
print("output is back")
"""


ANSWERS = """
import vintsaky
class Answers(vintsaky.Engine):
    def choose(self, game, colour):
        return "A1"
    @vintsaky.command("bad")
    def say_bad(self, words):
        return "caf\\xe9" if words else 5
Answers().serve()
"""


class Standard(unittest.TestCase):
    def test_wrong_answers_of_an_own_command(self):
        status, output, errors = run(ANSWERS, b"1 bad\n2 bad x\n3 genmove b\n4 quit\n")
        self.assertEqual(
            (status, output),
            (0, b"?1 the answer is wrong\n\n?2 the answer is wrong\n\n=3 A1\n\n=4\n\n"),
        )
        first, second = errors.splitlines()
        self.assertEqual(
            first, "Answers: the command bad: its answer is wrong: text: 5 is neither str nor bytes"
        )
        self.assertRegex(second, "its answer is wrong: text: 'caf.*' may be in no reply; ")

    def test_what_else_is_printed_goes_to_standard_error(self):
        status, output, errors = run(NOISY, b"1 genmove b\n2 quit\n")
        self.assertEqual(
            (status, output), (0, f"=1 pass\n\n=2\n\noutput is back{os.linesep}".encode())
        )
        self.assertEqual(errors.split(), "before print number child file after".split())

    def test_a_choose_that_raises(self):
        for choice in ('raise ValueError("a fault of its author")', 'return "Z25"', "return None"):
            method = f"    def choose(self, game, colour):\n        {choice}\n"
            engine = f"class Wrong(vintsaky.Engine):\n{method}"
            status, output, errors = run(
                f"import vintsaky\n{engine}Wrong().serve()", b"1 name\n2 genmove b\n3 name\n"
            )
            self.assertEqual((status, output), (1, b"=1 stepgo\n\n"))
            self.assertTrue(errors.startswith("Traceback (most recent call last):"))


if __name__ == "__main__":
    unittest.main()
