"""The command `tournament score`."""
from __future__ import annotations

import os

from .. import output
from ..cluster import Share
from ..config.arguments import Arguments
from ..config.plan_file import read_plan
from ..judge.scorer import score_of
from ..output import Mistake
from ..play import process_tree
from ..store import results, scores

ALL = Share(1, 1)


def do_score(arguments: Arguments) -> int:
    """Has the games scored that the scorer of a plan hasn't, and returns the status."""
    (folder,) = arguments.places
    plan = read_plan(folder)
    if not plan.scorer:
        raise Mistake(f"{folder} has no scorer: write tournament plan {folder} --scorer CMD")
    process_tree.adopt_orphans()
    games, failed, count = plan.games(), 0, 0
    for number, result in results.of_share(plan, folder, ALL, bytearray(games.count)):
        name = games.name(number)
        if result is None or not scores.is_by_score(result.verdict):
            continue
        score = scores.read(folder, name, plan.scorer, result)
        count += 1
        if score and score.verdict:
            continue
        score = score_of(plan, plan.folder or os.getcwd(), result, output.STDERR)
        process_tree.ProcessTree().end()
        scores.write(folder, name, plan.scorer, result, score)
        failed += score.verdict is None
        said = score.verdict or f"not scored: {score.failure}"
        output.write(output.STDOUT, f"{name}: {result.verdict} by twogtp, {said}\n")
    output.write(output.STDOUT, f"{count - failed} of {count} games by two passes are scored\n")
    return 1 if failed else 0
