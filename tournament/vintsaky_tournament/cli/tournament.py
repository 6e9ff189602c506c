"""The command `tournament`, which has commands of its own."""
from __future__ import annotations

from typing import TYPE_CHECKING, Sequence

from .. import VERSION, output
from ..config.arguments import Arguments
from ..output import STDERR, STDOUT, Mistake

if TYPE_CHECKING:
    from typing import Callable


def play(arguments: Arguments) -> int:
    """Plays a tournament, and returns the status."""
    from .play import do_play

    return do_play(arguments)


def plan(arguments: Arguments) -> int:
    """Makes a plan, or adds to one, and returns the status."""
    from .play import do_plan

    return do_plan(arguments)


def list_games(arguments: Arguments) -> int:
    """Prints the games of a plan, and returns the status."""
    from .games import do_list

    return do_list(arguments)


def game(arguments: Arguments) -> int:
    """Plays a game, and returns the status."""
    from .games import do_game

    return do_game(arguments)


def export(arguments: Arguments) -> int:
    """Exports the results, and returns the status."""
    from .export import do_export

    return do_export(arguments)


def check(arguments: Arguments) -> int:
    """Checks a plan before it is played, and returns the status."""
    from .check import do_check

    return do_check(arguments)


def verify(arguments: Arguments) -> int:
    """Replays all games, and returns the status."""
    from .verify import do_verify

    return do_verify(arguments)


def score(arguments: Arguments) -> int:
    """Has the games scored that the scorer of a plan hasn't, and returns the status."""
    from .score import do_score

    return do_score(arguments)


def page(arguments: Arguments) -> int:
    """Writes the page of a tournament, and returns the status."""
    from .page import do_page

    return do_page(arguments)


def show(arguments: Arguments) -> int:
    """Writes the page of a file with games, and returns the status."""
    from .show import do_show

    return do_show(arguments)


def watch(arguments: Arguments) -> int:
    """Serves the page of a tournament, and returns the status."""
    from .watch import do_watch

    return do_watch(arguments)


# each imports what it needs alone, since modules are compiled at each start
COMMANDS: dict[str, Callable[[Arguments], int]] = {
    "play": play,
    "plan": plan,
    "check": check,
    "list": list_games,
    "game": game,
    "export": export,
    "verify": verify,
    "score": score,
    "page": page,
    "watch": watch,
    "show": show,
}


def main(words: Sequence[str]) -> int:
    """Does what the arguments ask for, and returns the status."""
    if not words or words[0] in ("-h", "--help"):
        return show_help(None, STDOUT if words else STDERR, 0 if words else 2)
    if words[0] in ("-V", "--version"):
        output.write(STDOUT, f"tournament {VERSION}\n")
        return 0
    name = words[0]
    if name not in COMMANDS:
        *others, last = COMMANDS
        raise Mistake(
            f"there is no command '{name}': write tournament {', '.join(others)} or {last}"
        )
    arguments = Arguments(name, words[1:])
    return show_help(name, STDOUT, 0) if arguments.is_help else COMMANDS[name](arguments)


def show_help(name: str | None, descriptor: int, status: int) -> int:
    """Writes the help of a command, or that of all, and returns the status."""
    from ..config.help import HELP

    output.write(descriptor, HELP[name])
    return status
