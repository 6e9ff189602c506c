"""How a bug is written, with the conversation that shows the bug, and what several bugs share.

`shows` is a list of steps. A step is a line for the engine, without its newline. Lines that have
newlines between them are written at once. A step that begins with `! ` is a line that a right
engine refuses. RESTART ends the process by closing its input, and starts another one. Each reply
before the last one is right, also that of the wrong engine. What depends on the board begins with a
`boardsize` and a `clear_board`, because the standard doesn't say how an engine begins.

`right` is what a right engine answers to the last line. It was written by hand, from the rules:

    =                   success without a text
    = W+6.5             success with this text
    ?                   failure, with any text
    points D4 Q16       success with these points, each once, in any order
    moves A1 pass       success with one of these, or with `resign`
    but C3 D4           success with a vertex of the board that isn't one of these, or with `pass`
                        or `resign`
    nothing             no reply
"""
from __future__ import annotations

from typing import Any, Callable, List, Optional, Sequence, Type

from tests.engines.wrong.plain import Plain, snake_case
from tests.references.engine.game import Board, in_order
from tests.references.engine.values import Colour, Point, Vertex

RESTART = "RESTART"
# White has just taken the stone on B1, and Black may not retake.
KO = "b A2 w C1 b B1 w B2 w A1"
# Black may not play E5.
NO_LIBERTY_AT_E5 = "w E4 w D5"
# On 3x3 Black's sensible play is A1, which takes two stones. A play of White is suicide everywhere.
FORCED = "b B1 b B2 b B3 b C2 w A2 w A3"


def plays(moves: str) -> List[str]:
    """Returns the `play` commands of moves, as in `b A1 w pass`."""
    words = moves.split()
    return [f"play {colour} {vertex}" for colour, vertex in zip(words[::2], words[1::2])]


def on(size: int, moves: str, *commands: str) -> List[str]:
    """Returns the commands of a new game on this size: these moves, and then these commands."""
    return [f"boardsize {size}", "clear_board", *plays(moves), *commands]


def passes(number: int) -> str:
    """Returns so many passes, of Black and White in turn."""
    return " ".join("bw"[turn % 2] + " pass" for turn in range(number)) + " "


# ---- the two ways to write a bug


class Bug(Plain):
    """What a wrong engine has: its name and its subject, how the bug shows, and more for a few.

    `options` are the options that both engines are started with. `plain` says that the engine
    answers the opening of an ordinary game rightly. `waits` says that the engine owes the end of a
    reply and reads on, so who waits for that end waits for ever.
    """

    name = subject = right = ""
    shows: Sequence[str] = ()
    options: Sequence[str] = ()
    plain = True
    waits = False

    def command_of(self, line: str) -> str:
        """Returns the name of a line's command, or an empty text."""
        words = self.words(line)
        return (self.split_id(words)[1] + [""])[0] if words else ""

    def dies(self, colour: Colour, point: Optional[Point]) -> bool:
        """Tells whether this is an empty point of the board where a play is suicide."""
        if point is None or point in self.board:
            return False
        return self.is_suicide(self.put(colour, point), colour, point)

    def is_empty(self, point: Optional[Point]) -> bool:
        """Tells whether this is an empty point of the board, and not None."""
        return point is not None and point not in self.board

    def index(self, point: Point) -> int:
        """Returns the number of a point in a row of all points, from 0: A1, B1, .., A2, B2, .."""
        return (point[1] - 1) * self.size + point[0] - 1

    def point(self, index: int) -> Point:
        """Returns the point of this number."""
        row, column = divmod(index, self.size)
        return column + 1, row + 1


def shown_by(
    shows: Sequence[str], right: Optional[str] = None, **more: Any
) -> Callable[[Type[Bug]], Type[Bug]]:
    """Makes a class a bug that this conversation shows. Its base may have `right`."""

    def decorate(bug: Type[Bug]) -> Type[Bug]:
        bug.name = vars(bug).get("name") or snake_case(bug.__name__)
        bug.subject = bug.__module__.rpartition(".")[2]
        bug.shows, bug.right = shows, bug.right if right is None else right
        for key, value in more.items():
            setattr(bug, key, value)
        return bug

    return decorate


def instead_of(
    method: str, shows: Sequence[str], right: str, **more: Any
) -> Callable[[Callable[..., Any]], Type[Bug]]:
    """Makes a function a bug: it replaces a method, which the function gets as `right`."""

    def decorate(wrong: Callable[..., Any]) -> Type[Bug]:
        def body(self: Bug, *arguments: Any) -> Any:
            return wrong(self, getattr(super(bug, self), method), *arguments)

        name, module = wrong.__name__, wrong.__module__
        own = {"name": name, "__doc__": wrong.__doc__, "__module__": module, method: body}
        bug: Type[Bug] = type(name, (Bug,), own)
        return shown_by(shows, right, **more)(bug)

    return decorate


# ---- what several bugs share


def removed(before: Board, after: Board) -> List[Point]:
    """Returns the points whose stones aren't there any more, in the board's order."""
    return in_order(before.keys() - after.keys())


class Keeping(Bug):
    """An engine that keeps something more of a position, which `undo` restores.

    `fresh` makes it for a new board, and `kept_after` for the board that a move has made.
    """

    kept: Any
    kept_before: List[Any]

    def fresh(self) -> Any:
        raise NotImplementedError

    def kept_after(self, before: Board, colour: Colour, vertex: Vertex) -> Any:
        raise NotImplementedError

    def begin(self, size: int) -> None:
        super().begin(size)
        self.kept, self.kept_before = self.fresh(), []

    def move(self, colour: Colour, vertex: Vertex) -> None:
        before = self.board
        super().move(colour, vertex)
        self.kept_before.append(self.kept)
        self.kept = self.kept_after(before, colour, vertex)

    def undo(self) -> None:
        super().undo()
        self.kept = self.kept_before.pop()


class Counting(Bug):
    """An engine that has a number, which is 0 in a new game and after each move."""

    number: int

    def begin(self, size: int) -> None:
        super().begin(size)
        self.number = 0

    def move(self, colour: Colour, vertex: Vertex) -> None:
        super().move(colour, vertex)
        self.number = 0
