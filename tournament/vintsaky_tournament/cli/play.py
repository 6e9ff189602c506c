"""The commands `tournament play` and `tournament plan`."""
from __future__ import annotations

import os
from typing import TYPE_CHECKING, NamedTuple

from .. import output
from ..cluster import share, time_left
from ..config.arguments import OF_PLAY, OF_TEST, Arguments, processors
from ..config.changes import Folder, plan_for, warning_of
from ..config.plan_file import read_plan
from ..config.plan_writing import write_plan
from ..config.values import clock, command, hook, number, seconds
from ..model import Engine, Plan
from ..output import Mistake
from ..play.programs import find, find_twogtp, try_options
from ..store.layout import make_folders

if TYPE_CHECKING:
    from ..cluster import Share
    from ..play.page_writer import PageWriter
    from ..stats.sprt import TestRequest
    from ..config.openings import Opening

# what it leaves out
TAKEN_BY_DIRECT = ("--move-limit", "--start-limit", "--clock", "--margin", "--openings")


class Prepared(NamedTuple):
    """What is to be played: the folder with its plan, twogtp, and a warning of equal games."""

    folder: Folder
    twogtp: str
    warning: str


def asked_plan(arguments: Arguments) -> tuple[Plan, bool]:
    """Returns the plan that the arguments ask for, and whether they have engines or options."""
    plan = Plan()
    for option in arguments.options:
        if option.name == "--engine":
            (value,) = option.values
            name, is_named, engine = value.partition("=")
            if not is_named:
                raise Mistake(f"--engine needs NAME=CMD, and not '{value}'")
            plan.add_engine(name, engine)
    plan.gauntlet = arguments.last("--gauntlet", lambda _, name: name)
    plan.options = arguments.after or []
    plan.seeds, plan.limit = arguments.last("--seeds", number), arguments.last("--limit", number)
    plan.move_limit = arguments.last("--move-limit", seconds)
    plan.start_limit = arguments.last("--start-limit", seconds)
    plan.clock = arguments.last("--clock", clock)
    plan.margin = arguments.last("--margin", seconds)
    plan.scorer = arguments.last("--scorer", command)
    plan.is_direct, plan.folder = arguments.has("--direct"), arguments.directory
    for left_out in TAKEN_BY_DIRECT:
        if plan.is_direct and arguments.has(left_out):
            raise Mistake(f"{left_out} needs what --direct leaves out: give only one of the two")
    return plan, bool(plan.engines) or arguments.after is not None


def with_file(arguments: Arguments) -> Arguments:
    """Returns the arguments, with those of a file where that is named in place of a directory."""
    (place,) = arguments.places
    if not place.endswith(".toml") or os.path.isdir(place):
        return arguments
    from ..config.toml_file import with_file_of  # which isn't needed elsewhere

    return with_file_of(arguments)


def prepare(arguments: Arguments) -> Prepared:
    """Returns what is to be played by the folder and the arguments."""
    asked, is_given = asked_plan(arguments)
    openings = openings_of(arguments)
    asked.openings = [opening.text() for opening in openings]
    for name, read in (("--jobs", number), ("--task", share), ("--time-left", time_left)):
        arguments.last(name, read)
    place = arguments.places[0]
    before = warning_of(read_plan(place)) if os.path.exists(f"{place}/plan") else ""
    folder = plan_for(asked, is_given, place)
    twogtp = find_twogtp()
    try_options(twogtp, folder.plan.options)
    if openings and folder.is_new:
        from ..config.openings import check  # which isn't needed elsewhere

        check(openings, folder.plan.options)
    warning = warning_of(folder.plan)
    return Prepared(folder, twogtp, "" if warning == before else warning)


def write(prepared: Prepared) -> None:
    """Writes the plan into its folder, and the warning."""
    folder = prepared.folder
    make_folders(folder.place)
    write_plan(folder.plan, folder.place, folder.before)
    if prepared.warning:
        output.report(prepared.warning)


def openings_of(arguments: Arguments) -> list[Opening]:
    """Returns the openings that the arguments name, in their order."""
    openings = arguments.last("--openings", read_openings) or []
    order = arguments.last("--shuffle-openings", number)
    if order is None:
        return openings
    if not openings:
        raise Mistake("--shuffle-openings needs the openings: give --openings, too")
    from ..config.openings import shuffled  # which isn't needed elsewhere

    return shuffled(openings, order)


def read_openings(_: str, place: str) -> list[Opening]:
    """Returns the openings of the file that an option names."""
    from ..config.openings import read  # which isn't needed elsewhere

    return read(place)


def do_play(arguments: Arguments) -> int:
    """Plays a tournament, and returns the status."""
    from ..play.hooks import ON_END, ON_FAILURE, Hooks
    from ..play.run import Run
    from ..play.scheduler import Play

    arguments = with_file(arguments)
    prepared = prepare(arguments)
    plan, folder = prepared.folder.plan, prepared.folder
    check_scorer(plan)
    task, left = arguments.last("--task", share), arguments.last("--time-left", time_left)
    jobs = arguments.last("--jobs", number) or processors()
    commands = {name: arguments.last(name, hook) for name in (ON_END, ON_FAILURE)}
    if folder.surplus:
        output.report(folder.surplus)
    asked = asked_test(arguments, plan)
    if arguments.has("--dry-run"):
        return dry_run(prepared, task, arguments.has("--again"))
    writer = page_writer(arguments, folder.place, asked)
    run = Run(plan, folder.place, prepared.twogtp)
    if arguments.has("--pin"):
        run.pin(jobs)
    hooks = Hooks(run, plan, commands, arguments.directory or os.getcwd(), task, asked)
    play = Play(run, plan, jobs, task, left, hooks)
    status = play.try_added(folder)
    if status is None:
        write(prepared)
        status = play.all(arguments.has("--again"), asked)
        if writer:
            writer.end()
    hooks.end(status)
    return status


def asked_test(arguments: Arguments, plan: Plan) -> TestRequest | None:
    """Returns the sequential test that the options ask for, if they do."""
    if not any(map(arguments.has, OF_TEST)):
        return None
    from .sprt import asked_of  # which isn't needed elsewhere

    return asked_of(arguments, plan)


def page_writer(arguments: Arguments, folder: str, asked: TestRequest | None) -> PageWriter | None:
    """Returns what writes the page while games are played, if that is asked for."""
    place = arguments.last("--page", page_place)
    if place is None:
        return None
    if arguments.has("--task"):
        raise Mistake(
            "--page shows all games, and --task plays some of them: give only one of the two; "
            "tournament page writes it at any time"
        )
    from ..play.page_writer import PageWriter  # which isn't needed elsewhere
    from ..report.page.view import Asked
    from ..stats.endings import Rules

    return PageWriter(Asked(folder, Rules(), test=asked), place)


def page_place(name: str, place: str) -> str:
    """Returns the file that an option names, whose directory has to be there."""
    if os.path.isdir(place) or not os.path.isdir(os.path.dirname(os.path.abspath(place))):
        raise Mistake(f"{name} needs a FILE in a directory that is there, and not '{place}'")
    return place


def dry_run(prepared: Prepared, task: Share | None, again: bool) -> int:
    """Prints what a run would play, and returns the status."""
    from .dry_run import show

    if prepared.warning:
        output.report(prepared.warning)
    return show(prepared.folder.plan, prepared.folder.place, prepared.twogtp, task, again)


def check_scorer(plan: Plan) -> None:
    """Raises Mistake where the program of a plan's scorer isn't there."""
    if plan.scorer:
        program = Engine("the scorer", plan.scorer).words(is_direct=False)[0]
        if not find(program, plan.folder or ""):
            raise Mistake(f"there is no {program}, which is to score the games")


def do_plan(arguments: Arguments) -> int:
    """Makes a plan, or adds to one, and returns the status."""
    prepared = prepare(with_file(arguments))
    if prepared.folder.surplus:
        raise Mistake(
            prepared.folder.surplus.replace(
                "all of it is played", "a plan may get more, but not less"
            )
        )
    if arguments.has("--dry-run"):
        return dry_run(prepared, None, False)
    write(prepared)
    not_kept = [name for name in OF_PLAY if arguments.has(name)]
    if not_kept:
        them = "them" if len(not_kept) > 1 else "it"
        output.report(
            f"a plan doesn't keep {' and '.join(not_kept)}: give {them} to tournament play"
        )
    return 0
