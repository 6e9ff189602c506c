"""What a run would play: `tournament play --dry-run`."""
from __future__ import annotations

import shlex
from typing import TYPE_CHECKING

from .. import output
from ..model import GameId, Plan, State
from ..play.match import Match
from ..store import results

if TYPE_CHECKING:
    from ..cluster import Share


def names_of(plan: Plan, folder: str, share: Share | None, again: bool) -> list[str]:
    """Returns the names of the games that a run would play."""
    games = plan.games()
    states = results.states_of(plan, folder, share=share, is_quiet=True)
    wanted = [State.MISSING, State.DAMAGED] + [State.LOST] * again
    own = share.of(games.count) if share else range(games.count)
    return [games.name(game) for game in own if states[game] in wanted]


def command_of(match: Match, name: str) -> str:
    """Returns a command that plays a game by hand, without what stands between in a run. What
    twogtp can't be given of it is reported."""
    game, words = GameId.parse(name), [match.twogtp, "--why", "--record", *match.plan.options]
    for colour, engine in zip(("--black", "--white"), game.engines):
        command = match.command(engine, game.seed)
        if any(" " in word or not word for word in command):
            output.report(
                f"the command of {engine} has a word with a space, which twogtp alone can't give "
                "to an engine: write a script that starts it"
            )
        words += [colour, " ".join(command)]
    return f"cd {shlex.quote(match.folder)} && {shlex.join(words)}"


def show(plan: Plan, folder: str, twogtp: str, share: Share | None, again: bool) -> int:
    """Prints the games that a run would play, and a command for the first one. Returns the
    status."""
    names = names_of(plan, folder, share, again)
    output.write_lines(output.STDOUT, names)
    if names:
        output.write(output.STDOUT, f"{command_of(Match(plan, twogtp), names[0])}\n")
    return 0
