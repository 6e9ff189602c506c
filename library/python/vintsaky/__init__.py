"""The rules of Go, the controller of a match and the engine of the Go Text Protocol (GTP).

The package calls the library libvintsaky. This is a whole engine, which `twogtp` plays as
`--black 'python3 engine.py'`, say:

    import random
    import vintsaky


    class MyEngine(vintsaky.Engine):
        name = "mine"

        def choose(self, game, colour):
            return random.choice([*game.legal_points(colour), vintsaky.PASS])


    MyEngine().serve()

`Game` has the rules, `Games` plays many games in one call, `Match` is the controller of a match,
`Engine` is an engine, and `Steps` is a sans-IO engine. `CommandLines` and `Replies` read the
protocol's lines in any chunks; `write_command` and `write_reply` write such lines.

- An argument of a wrong type raises a TypeError, and a wrong value or a number out of range a
  ValueError. Both name the argument, its value and what is wanted.
- A call that the library rejects raises `Refused`, a ValueError, and changes nothing. Its `cause`
  is the error, a `Cause`. Docstrings name these errors after "Errors:", and `Cause` explains them.
  The text of a `Refused` names the call and its arguments, as in `play w C3: A stone is on the
  point.`
- Texts are ASCII. Komis and scores are in points: floats that are multiples of 0.5.
- A game can be copied, pickled and compared; one of a subclass keeps its attributes. It can't be
  hashed: use `board_hash` or `position_hash` for a table. No other object can be copied or pickled.
- Only the thread that made an object may use it, or the thread that called its `adopt` last; any
  other thread gets a RuntimeError. A game from a pickle belongs to the thread that uses it first.
  Calls hold the interpreter's lock, except those of `Games`.

The library is the file libvintsaky.so.1 in this package, or else the file that the variable
VINTSAKY_LIBRARY names, or else the library of the system.
"""
from ._objects import Bytes
from ._library import version
from ._numbers import Cause, Ending, Loss
from ._refused import Refused
from .batches import Games
from .engines import Engine, Event, Failure, Steps, command
from .games import Chain, Game
from .lines import (
    Command,
    CommandLine,
    CommandLines,
    Replies,
    Reply,
    ReplyEvent,
    write_command,
    write_reply,
)
from .matches import Action, Match, Next, Owed, Report, Status, Verdict
from .moves import Move, Moves
from .values import (
    BLACK,
    PASS,
    RESIGN,
    WHITE,
    AnyChoice,
    AnyColour,
    AnyVertex,
    Colour,
    Komi,
    KoRule,
    NoPoint,
    Point,
    Vertex,
    inverse_symmetry,
    komi_text,
    read_colour,
    read_komi,
    read_vertex,
    symmetry_map,
    vertex_text,
)

__version__ = "1.0.0"

__all__ = [
    "BLACK",
    "PASS",
    "RESIGN",
    "WHITE",
    "Action",
    "AnyChoice",
    "AnyColour",
    "AnyVertex",
    "Bytes",
    "Cause",
    "Chain",
    "Colour",
    "Command",
    "CommandLine",
    "CommandLines",
    "Ending",
    "Engine",
    "Event",
    "Failure",
    "Game",
    "Games",
    "KoRule",
    "Komi",
    "Loss",
    "Match",
    "Move",
    "Moves",
    "Next",
    "NoPoint",
    "Owed",
    "Point",
    "Refused",
    "Replies",
    "Reply",
    "ReplyEvent",
    "Report",
    "Status",
    "Steps",
    "Verdict",
    "Vertex",
    "command",
    "inverse_symmetry",
    "komi_text",
    "read_colour",
    "read_komi",
    "read_vertex",
    "symmetry_map",
    "version",
    "vertex_text",
    "write_command",
    "write_reply",
]
