"""Readers and writers. What is wanted is what the protocol says of lines and of replies."""
import itertools
import unittest

from vintsaky import (
    BLACK,
    PASS,
    RESIGN,
    Cause,
    Command,
    CommandLine,
    CommandLines,
    Replies,
    Reply,
    ReplyEvent,
)
from vintsaky import write_command, write_reply

from .test_values import Refusing

SAID = b"# a comment\n\n1 play b D4\r\n na\x01me #x\n7\n\tkomi\t6.5\n2147483648 name\nunfinished"
LINES = [
    CommandLine(1, ("play", "b", "D4")),
    CommandLine(None, ("name",)),
    CommandLine(7, ()),
    CommandLine(None, ("komi", "6.5")),
    CommandLine(None, ("2147483648", "name")),
]
ANSWERED = b"=\n\n =1 D4\r\n\n?007 not  this\none\n\n= 5\n\n=3"
REPLIES = [
    Reply(True, None, b""),
    Reply(True, 1, b"D4"),
    Reply(False, 7, b"not  this\none"),
    Reply(True, None, b"5"),
]


class Readers(Refusing):
    def test_lines_in_any_cuts(self):
        for first, second in itertools.combinations(range(len(SAID)), 2):
            lines = CommandLines()
            pieces = SAID[:first], bytearray(SAID[first:second]), memoryview(SAID[second:])
            self.assertEqual([line for piece in pieces for line in lines.feed(piece)], LINES)

    def test_replies_in_any_cuts(self):
        for first, second in itertools.combinations(range(len(ANSWERED)), 2):
            replies = Replies()
            pieces = ANSWERED[:first], ANSWERED[first:second], ANSWERED[second:]
            self.assertEqual([reply for piece in pieces for reply in replies.feed(piece)], REPLIES)
            self.assertIsNone(replies.fault)

    def test_long_lines(self):
        longest, longer = b"x" * 998 + b" y\n", b"x" * 999 + b" y\n"
        self.assertEqual(CommandLines().feed(longest), [CommandLine(None, ("x" * 998, "y"))])
        lines = CommandLines().feed(b"1 name\n" + longer + b"2 name\n")
        first, last = CommandLine(1, ("name",)), CommandLine(2, ("name",))
        self.assertEqual(lines, [first, CommandLine(None, (), True), last])

    def test_bytes_of_words(self):
        for text, word in (("é".encode(), "é"), (b"\xff", "\udcff")):
            self.assertEqual(CommandLines().feed(text + b"\n"), [CommandLine(None, (word,))])

    def test_faults_stay(self):
        replies = Replies()
        self.assertEqual(replies.feed(b"=1\n\nhello\n=2\n\n"), [Reply(True, 1, b"")])
        self.assertIs(replies.fault, ReplyEvent.NO_REPLY)
        self.assertEqual((replies.feed(b"=3\n\n"), replies.fault), ([], ReplyEvent.NO_REPLY))

    def test_long_replies(self):
        replies = Replies()
        self.assertEqual(
            replies.feed(b"=" + b"x" * 8189 + b"\n\n"), [Reply(True, None, b"x" * 8189)]
        )
        self.assertEqual(replies.feed(b"=" + b"x" * 8192), [])
        self.assertIs(replies.fault, ReplyEvent.LONG_REPLY)

    def test_wrong_types(self):
        for data in ("=\n\n", None, 5, [61]):
            self.assertRaises(TypeError, Replies().feed, data)
            self.assertRaises(TypeError, CommandLines().feed, data)


class Writers(Refusing):
    def test_each_command(self):
        for line, command, *arguments in (
            (b"boardsize 9\n", Command.BOARDSIZE, 9),
            (b"komi -3.5\n", Command.KOMI, -3.5),
            (b"clear_board\n", Command.CLEAR_BOARD),
            (b"fixed_handicap 2\n", Command.FIXED_HANDICAP, 2),
            (b"play b D4\n", Command.PLAY, BLACK, "d4"),
            (b"play w pass\n", Command.PLAY, "white", PASS),
            (b"genmove b\n", Command.GENMOVE, 1),
            (b"undo\n", Command.UNDO),
            (b"quit\n", Command.QUIT),
        ):
            self.assertEqual(write_command(command, *arguments), line)
            self.assertEqual(write_command(int(command), *arguments, id=7), b"7 " + line)

    def test_refused_commands(self):
        for command in (9, 0, 2**32 - 1, -1, 2**32 + 8):
            self.refused(Cause.BAD_COMMAND, write_command, command)
        for cause, command, numbers in (
            (Cause.BAD_SIZE, Command.BOARDSIZE, (26, -1, 2**32 + 9)),
            (Cause.BAD_KOMI, Command.KOMI, (10**9,)),
            (Cause.BAD_HANDICAP, Command.FIXED_HANDICAP, (-1, 2**31)),
            (Cause.BAD_COLOUR, Command.GENMOVE, (3, 2**32 + 1)),
        ):
            for number in numbers:
                self.refused(cause, write_command, command, number)
        self.refused(Cause.BAD_COLOUR, write_command, Command.PLAY, 0, PASS)
        for vertex in (RESIGN, (26, 1)):
            self.refused(Cause.BAD_VERTEX, write_command, Command.PLAY, 1, vertex)
        for wrong in (
            (Command.PLAY, "b"),
            (Command.QUIT, 1),
            (Command.BOARDSIZE,),
            (Command.BOARDSIZE, "9"),
            ("quit",),
            (None,),
        ):
            self.assertRaises(TypeError, write_command, *wrong)

    def test_each_reply(self):
        self.assertEqual(write_reply(), b"=\n\n")
        self.assertEqual(write_reply("a\nb", id=0), b"=0 a\nb\n\n")
        self.assertEqual(
            write_reply(b"syntax error", ok=False, id=2147483647), b"?2147483647 syntax error\n\n"
        )
        self.assertEqual(write_reply("x" * 2000, id=1), b"=1 " + b"x" * 2000 + b"\n\n")

    def test_refused_replies(self):
        for text in (" a", "a ", "\na", "a\n", "a\n\nb", "x" * 2001, "\t", "\x7f", "\0"):
            self.refused(Cause.BAD_TEXT, write_reply, text)
        self.assertRaises(ValueError, write_reply, "é")
        self.assertRaises(TypeError, write_reply, 5)

    def test_ids(self):
        for write in (write_reply, lambda id: write_command(Command.QUIT, id=id)):
            for number in (-1, -2, -(2**31), 2**31, 2**32 - 1, -(2**31) - 1, 2**64):
                self.refused(Cause.BAD_ID, write, id=number)
            self.assertRaises(TypeError, write, id="1")


if __name__ == "__main__":
    unittest.main()
