"""The reference engine, which answers commands: docs/protocol.md in Python.

It states the rules in the most literal way, and shares no code with the program. Lines and texts
are strings here, in which each character is a byte. There is a method for each step and each
command, so that an engine with one bug is a class that has another one of them.
"""
from __future__ import annotations

import os
from typing import Callable, NamedTuple, Optional, TypeVar

from . import policies, values
from .game import SIMPLE, Game, KoRule, is_on
from .policies import Policy, PolicyName
from .values import PASS, RESIGN, Choice, Colour, Point, Vertex

LONGEST_LINE = 1000
CONTROL = {code: None for code in [*range(9), *range(10, 32), 127]}
Value = TypeVar("Value")


class Failure(Exception):
    """A command fails, with this text; it has changed nothing."""


class Engine(Game):
    """A session of the engine, which ends with quit.

    At first it has size 19, komi 0 and no moves. The rule of ko stays as given (own).
    """

    # the commands, in the order of the table, each with a method whose name begins with `do_`
    names = (
        "protocol_version name version known_command list_commands quit boardsize clear_board komi"
        " play genmove fixed_handicap undo final_score showboard"
    ).split()
    own_name = "stepgo"
    own_version = "1.0"

    def __init__(self, policy: Policy, rule: KoRule = SIMPLE) -> None:
        super().__init__(rule)
        self.policy = policy
        self.ended = False
        self.unfinished = ""

    # ---- from bytes to replies

    def feed(self, data: bytes) -> bytes:
        """Returns the replies to the lines that these bytes end, up to and with a quit."""
        lines = self.lines(data.decode("latin-1"))
        return "".join(self.answer(line) for line in lines if not self.ended).encode("latin-1")

    def run(self) -> None:
        """Answers the lines of standard input in turn, up to `quit` or the end."""
        while not self.ended and (text := self.receive()):
            for line in self.lines(text):
                if not self.ended:
                    self.send(self.answer(line))

    def receive(self) -> str:
        """Returns what the next read gives; nothing at the end of the input."""
        return os.read(0, 65536).decode("latin-1")

    def send(self, text: str) -> None:
        """Writes a text at once."""
        data = text.encode("latin-1")
        while data:
            data = data[os.write(1, data) :]

    def lines(self, text: str) -> list[str]:
        """Returns the lines that this text ends.

        An unfinished last one is kept for the next text, and never executed (own).
        """
        *lines, self.unfinished = (self.unfinished + text).split("\n")
        return lines

    def answer(self, line: str) -> str:
        """Returns the reply to a line, given without its newline.

        That is nothing where the line has no word. (The standard, preprocessing.) Joined by single
        spaces, the id's word included, the words have at most 1,000 bytes (own).
        """
        words = self.words(line)
        if not words:
            return ""
        if len(" ".join(words)) > LONGEST_LINE:
            return self.reply(False, None, "syntax error")
        number, words = self.split_id(words)
        try:
            return self.reply(True, number, self.execute(words))
        except Failure as failure:
            return self.reply(False, number, str(failure))

    def words(self, line: str) -> list[str]:
        """Returns the words of a line: the longest runs without a space.

        A # and all that follows are removed, and HT becomes a space. (The standard, preprocessing.)
        """
        text = self.cleaned(line).split("#")[0].replace("\t", " ")
        return [word for word in text.split(" ") if word != ""]

    def cleaned(self, line: str) -> str:
        """Returns a line without CR and all other control characters but HT and LF.

        They are 0 to 31, and 127. (The standard, preprocessing.) Bytes 128 to 255 are ordinary ones
        (own).
        """
        return line.translate(CONTROL)

    def split_id(self, words: list[str]) -> tuple[Optional[int], list[str]]:
        """Returns the id, or None, and the words after it.

        The first word is the id where it is an int. (The standard, command structure.)
        """
        number = self.read_int(words[0])
        return (None, words) if number is None else (number, words[1:])

    def reply(self, good: bool, number: Optional[int], text: str) -> str:
        """Returns a reply: = or ?, an id, a space and a text that isn't empty, and two newlines.

        (The standard, response structure.)
        """
        return self.head(good, number, text) + (f" {text}" if text else "") + "\n\n"

    def head(self, good: bool, number: Optional[int], text: str) -> str:
        """Returns the mark and the id of a reply."""
        return ("=" if good else "?") + ("" if number is None else str(number))

    def execute(self, words: list[str]) -> str:
        """Returns the text of a success, or raises a Failure.

        A line that has only an id is an unknown command, and surplus arguments are ignored (own).
        (The standard, standard error messages.)
        """
        if not words or words[0] not in self.names:
            raise Failure("unknown command")
        return getattr(self, "do_" + words[0])(words[1:]) or ""

    # ---- values

    def argument(
        self, arguments: list[str], number: int, read: Callable[[str], Optional[Value]]
    ) -> Value:
        """Returns the argument of this number, counted from 0, as `read` reads it.

        Where that is missing or can't be read it is a syntax error. (The standard, standard error
        messages.)
        """
        value = read(arguments[number]) if number < len(arguments) else None
        if value is None:
            raise Failure("syntax error")
        return value

    def read_int(self, text: str) -> Optional[int]:
        return values.read_int(text.encode("latin-1"))

    def read_colour(self, text: str) -> Optional[Colour]:
        return values.read_colour(text.encode("latin-1"))

    def read_vertex(self, text: str) -> Optional[Vertex]:
        return values.read_vertex(text.encode("latin-1"))

    def read_komi(self, text: str) -> Optional[int]:
        return values.read_komi(text.encode("latin-1"))

    def place(self, vertex: Vertex) -> Optional[Vertex]:
        """Returns the vertex that was read, or None where it is off the board."""
        return vertex if vertex == PASS or is_on(self.size, vertex) else None

    def write_vertex(self, vertex: Vertex) -> str:
        return values.write_vertex(vertex).decode()

    def write_score(self, lead: int) -> str:
        """Returns the text of Black's lead in half points: who leads by how much, or 0."""
        if lead == 0:
            return "0"
        return ("B+" if lead > 0 else "W+") + values.write_half_points(abs(lead)).decode()

    # ---- the commands. (The standard, from administrative to debug commands.)

    def do_protocol_version(self, arguments: list[str]) -> str:
        return "2"

    def do_name(self, arguments: list[str]) -> str:
        return self.own_name

    def do_version(self, arguments: list[str]) -> str:
        return self.own_version

    def do_known_command(self, arguments: list[str]) -> str:
        """Answers whether this is, letter for letter, a command's name."""
        if not arguments:
            raise Failure("syntax error")
        return "true" if arguments[0] in self.names else "false"

    def do_list_commands(self, arguments: list[str]) -> str:
        """Answers the names, a line each, in the order of the table. (The order is own.)"""
        return "\n".join(self.names)

    def do_quit(self, arguments: list[str]) -> None:
        """Ends the session."""
        self.ended = True

    def do_boardsize(self, arguments: list[str]) -> None:
        """Sets the size and empties the game; komi stays. (Sizes and what is emptied: own.)"""
        size = self.argument(arguments, 0, self.read_int)
        if not 1 <= size <= 25:
            raise Failure("unacceptable size")
        self.begin(size)

    def do_clear_board(self, arguments: list[str]) -> None:
        """Empties the game; size and komi stay."""
        self.begin(self.size)

    def do_komi(self, arguments: list[str]) -> None:
        """Sets komi."""
        self.komi = self.argument(arguments, 0, self.read_komi)

    def do_play(self, arguments: list[str]) -> None:
        """Adds a move."""
        colour = self.argument(arguments, 0, self.read_colour)
        vertex = self.place(self.argument(arguments, 1, self.read_vertex))
        self.need_room()
        if vertex is None or not self.is_legal(colour, vertex):
            self.refuse(colour, vertex)
        else:
            self.move(colour, vertex)

    def refuse(self, colour: Colour, vertex: Optional[Vertex]) -> None:
        """Fails as an illegal move. The vertex is None where it is off the board."""
        raise Failure("illegal move")

    def need_room(self) -> None:
        """Fails where the record is full. (That it has room for 2,000 moves is own.)"""
        if self.is_full():
            raise Failure("record full")

    def do_genmove(self, arguments: list[str]) -> str:
        """Adds and answers a chosen move, or answers a resignation, which changes nothing.

        A move is only chosen where the record has room.
        """
        colour = self.argument(arguments, 0, self.read_colour)
        self.need_room()
        choice = self.choose(colour)
        if choice is RESIGN:
            return "resign"
        self.move(colour, choice)
        return self.write_vertex(choice)

    def choose(self, colour: Colour) -> Choice:
        """Returns what the policy chooses. (Own.)"""
        return self.policy.choose(self, colour)

    def is_candidate(self, colour: Colour, point: Point) -> bool:
        """Returns whether a play here is legal, and the point has a neighbour without an own stone.

        (Own.)
        """
        return self.is_legal(colour, point) and any(
            self.board.get(near) != colour for near in self.near[point]
        )

    def do_fixed_handicap(self, arguments: list[str]) -> str:
        """Places a handicap, where there is no stone and no move, and answers its points.

        (The points are own.)
        """
        number = self.argument(arguments, 0, self.read_int)
        if not self.is_untouched():
            raise Failure("board not empty")
        if not self.allows(number):
            raise Failure("invalid number of stones")
        stones = self.handicap(number)
        self.place_handicap(stones)
        return " ".join(self.write_vertex(stone) for stone in stones)

    def is_untouched(self) -> bool:
        """Returns whether there is no move, and no stone of a handicap."""
        return not self.moves and not self.board

    def allows(self, number: int) -> bool:
        """Returns whether so many stones may be placed."""
        return 2 <= number <= self.most_handicap_stones()

    def most_handicap_stones(self) -> int:
        return values.most_handicap_stones(self.size)

    def low_line(self) -> int:
        return values.low_line(self.size)

    def handicap(self, number: int) -> list[Point]:
        return values.handicap(self.size, number, self.low_line())

    def do_undo(self, arguments: list[str]) -> None:
        """Takes the last move back."""
        if not self.moves:
            raise Failure("cannot undo")
        self.undo()

    def do_final_score(self, arguments: list[str]) -> str:
        """Answers who leads and by how much, or 0. (That every stone is alive is own.)"""
        return self.write_score(self.score())

    def do_showboard(self, arguments: list[str]) -> str:
        """Answers the board as text. (Its form is own.)"""
        return self.show()


class Options(NamedTuple):
    """The options of the program."""

    policy: PolicyName = PolicyName.FIRST
    seed: int = 1
    book: bytes = b""
    rule: KoRule = SIMPLE


class Result(NamedTuple):
    """How the program ends, and what it has written."""

    status: int
    output: bytes
    errors: bytes


def start(options: Options) -> Optional[Engine]:
    """Returns an engine, or None where the book is no book, whatever the policy is (own)."""
    entries = policies.read_book(options.book)
    if entries is None:
        return None
    policy: Policy = policies.First()
    if options.policy == PolicyName.RANDOM:
        policy = policies.Random(options.seed)
    elif options.policy == PolicyName.BOOK:
        policy = policies.Book(entries)
    return Engine(policy, options.rule)


def run(options: Options, data: bytes) -> Result:
    """Returns the result of the program with these options and this input. (Own.)"""
    engine = start(options)
    if engine is None:
        return Result(2, b"", b"gtp_engine: bad book\n")
    return Result(0, engine.feed(data), b"")
