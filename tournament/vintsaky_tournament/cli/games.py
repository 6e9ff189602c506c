"""The commands `tournament list` and `tournament game`."""
from __future__ import annotations

from .. import output
from ..config.arguments import Arguments
from ..config.plan_file import read_plan
from ..model import State
from ..output import Mistake
from ..store import results
from ..store.engine_files import replaced_in


def do_list(arguments: Arguments) -> int:
    """Prints the games of a plan, and returns the status."""
    (folder,) = arguments.places
    plan = read_plan(folder)
    games = plan.games()
    names = iter(games)
    if arguments.has("--replaced"):
        named = {name for found in replaced_in(folder) for name in found.games or ()}
        names = (name for name in games if name in named)
    elif not arguments.has("--all"):
        states = results.states_of(plan, folder)
        names = (
            games.name(game)
            for game, state in enumerate(states)
            if state in (State.MISSING, State.DAMAGED)
        )
    output.write_lines(output.STDOUT, names)
    return 0


def do_game(arguments: Arguments) -> int:
    """Plays a game, and returns the status."""
    from ..play.programs import find_twogtp
    from ..play.single import play_one
    from ..store.layout import make_folders

    folder, name = arguments.places
    plan = read_plan(folder)
    if plan.games().number(name) is None:
        raise Mistake(
            f"{folder}/plan has no game '{name}': a game is named SEED_BLACK_WHITE, and "
            "tournament list --all prints them"
        )
    twogtp = find_twogtp()
    make_folders(folder)
    return play_one(plan, folder, twogtp, name)
