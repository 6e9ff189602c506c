"""The command `tournament verify`."""
from __future__ import annotations

from .. import output
from ..config.arguments import Arguments
from ..config.plan_file import read_plan
from ..judge.replay import Replayer
from ..judge.verify import Verifier
from ..output import Mistake
from ..play import programs
from ..play.trial import Failed

SECONDS = 60  # for an answer


def do_verify(arguments: Arguments) -> int:
    """Replays all games of a folder that have a result, and returns the status."""
    (folder,) = arguments.places
    plan = read_plan(folder)
    name = programs.nearby_or_in_path("gtp_engine")
    place = programs.find(name)
    if not place:
        raise Mistake(f"there is no {name}: add the directory of the programs to PATH")
    differ = 0
    try:
        replayer = Replayer([place], ".", output.STDERR, SECONDS)
        verifier = Verifier(plan, folder, replayer)
        for game, reason in verifier.differences():
            differ += 1
            output.write(output.STDOUT, f"{game}: {reason}\n")
        replayer.end()
    except Failed as failed:
        output.report(f"{place}: {failed.text}")
        return 1
    counted = f"{verifier.count - differ} of {verifier.count} results are as their replay"
    output.write(output.STDOUT, f"{counted}\n")
    return 1 if differ else 0
