"""The command `tournament check`."""
from __future__ import annotations

import math
import shutil
import tempfile

from .. import output
from ..config.arguments import Arguments, processors
from ..config.values import number
from ..model import GameId, Plan
from ..output import STDOUT, NoStart
from ..play.check import Check, Sample, opening_length, seconds_of_games, usual_length
from ..play.known import NO_START
from ..play.progress import as_text
from ..store.notes import line_of
from .dry_run import names_of
from .play import check_scorer, prepare, with_file

ELO = 480  # half of the interval's width after one pair, about


def do_check(arguments: Arguments) -> int:
    """Checks a plan, and returns the status. What the games have written is kept where something is
    wrong."""
    arguments = with_file(arguments)
    prepared = prepare(arguments)
    plan, folder = prepared.folder.plan, prepared.folder.place
    jobs = arguments.last("--jobs", number) or processors()
    if prepared.warning:
        output.report(prepared.warning)
    check_scorer(plan)
    place, status = tempfile.mkdtemp(prefix="tournament."), 1
    try:
        check = Check(plan, place, prepared.twogtp, jobs)
        samples = played(check)
        if check.run.stopped:
            status = check.run.stop_status()
        else:
            status = say_failures(samples)
            ended = [sample for sample in samples if sample.has_ended()]
            if ended:
                say_time(plan, ended, names_of(plan, folder, None, False), jobs)
    except NoStart as problem:
        output.report(problem.text)
        status = NO_START
    finally:
        if status in (1, NO_START):
            output.report(f"what was written is in {place}")
        else:
            shutil.rmtree(place)
    return status


def played(check: Check) -> list[Sample]:
    """Tries the engines, plays the short games, and returns these. A line is printed for each."""
    for name, version in check.try_engines().items():
        output.write(STDOUT, f"{name}: {version or 'it started'}\n")
    samples = []
    for sample in check.play():
        if sample.result:
            line = line_of(check.run.folder, sample.name, sample.result)
            output.write(STDOUT, f"{sample.name}: {line}, in {sample.seconds:.1f} seconds\n")
        samples.append(sample)
    return samples


def say_failures(samples: list[Sample]) -> int:
    """Says in which short games a side failed or crashed, and returns the status."""
    failed = [sample.name for sample in samples if not sample.has_ended()]
    crashed = [(engine, sample.name) for sample in samples for engine in sample.crashed()]
    if failed:
        output.report(f"a side failed, or there is no result: {', '.join(failed)}")
    for engine, game in crashed:
        output.report(f"{engine} crashed in {game}, and was started again")
    return 1 if failed or crashed else 0


def say_time(plan: Plan, samples: list[Sample], every: list[str], jobs: int) -> None:
    """Says how long the games take that have no result, of engines that have played a short one to
    its end, and what is known after them."""
    played = {sample.engines() for sample in samples}
    names = [name for name in every if frozenset(GameId.parse(name).engines) in played]
    opening, length = opening_length(plan), usual_length(plan)
    longest = max(samples, key=lambda sample: sample.estimate(opening, length))
    seconds = longest.estimate(opening, length)
    if seconds > (plan.limit or 0):
        output.report(
            f"a game such as {longest.name} may take {seconds:.0f} seconds, and --limit is "
            f"{plan.limit}: raise it"
        )
    minutes = seconds_of_games(plan, samples, names) / jobs / 60
    many = f"{len(names)} game{'s' if len(names) != 1 else ''}"
    time = as_text(minutes) if minutes >= 1 else "less than 1 min"
    count = len(every) - len(names)
    missing = f", without {count} of engines that failed" if count else ""
    width = ELO / math.sqrt(plan.seeds or 1)
    pairs = f"{plan.seeds} pair{'s' if plan.seeds != 1 else ''}"
    output.write(
        STDOUT,
        f"{many} of about {length} moves{missing}, {jobs} at once: {time}\n"
        f"after {pairs} of two engines the interval is about {width:.0f} Elo wide on each side\n",
    )
