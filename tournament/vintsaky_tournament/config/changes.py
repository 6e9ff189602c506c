"""A plan that is changed: what is asked for is joined with what a folder has."""
from __future__ import annotations

import math
import os
from typing import NamedTuple

from ..model import Plan
from ..output import Mistake
from .plan_file import ELSEWHERE, parse, read_text
from .setup import Setup

SEEDS, LIMIT, START_LIMIT = 10, 600, "60"  # of a plan that doesn't say otherwise
MOST_SECONDS = 9999999  # of a limit
SUM = "all"  # in a tally, so no engine is named so; one of an earlier plan may be
TWO_ENGINES = "name two engines or more: --engine NAME=CMD --engine NAME=CMD"


class Folder(NamedTuple):
    """A folder with the plan that it has, or is to have, and what is to be said of that."""

    place: str
    plan: Plan
    before: bytes | None  # the file of the plan, if there is one
    added: list[str]  # engines that this file doesn't have
    surplus: str = ""  # a message where it has more than is asked for

    @property
    def is_new(self) -> bool:
        """Returns whether it has no plan yet."""
        return self.before is None


def plan_for(asked: Plan, is_given: bool, place: str) -> Folder:
    """Returns the folder with its plan, to which is added what is asked for: other seeds or other
    limits.

    Engines and options, where they are given, have to be the same, or a part of the engines. A
    folder without a plan gets what is asked for.
    """
    if os.path.exists(f"{place}/plan"):
        folder = joined(asked, is_given, place)
    elif len(asked.engines) < 2:
        raise Mistake(
            TWO_ENGINES if asked.engines else f"there is no {place}/plan, so {TWO_ENGINES}"
        )
    else:
        asked.folder = asked.folder or os.getcwd()
        asked.start_limit = asked.start_limit or (None if asked.is_direct else START_LIMIT)
        folder = Folder(place, asked, None, list(asked.engines))
    plan = folder.plan
    plan.seeds = asked.seeds or plan.seeds or SEEDS
    plan.limit = asked.limit or plan.limit or default_limit(plan)
    plan.start_limit = asked.start_limit or plan.start_limit
    plan.scorer = asked.scorer or plan.scorer
    if SUM in folder.added:
        raise Mistake(f"{SUM} is what a tally names all others together: give it another name")
    check(plan)
    return folder


def default_limit(plan: Plan) -> int:
    """Returns the limit of a game of a plan that doesn't say it: on top of all that both sides'
    clocks allow, if they have any."""
    if not plan.clock:
        return LIMIT
    from ..relay.clock import read_clock  # which few plans need

    moves = Setup(plan.options).max_moves
    most = int(moves) if moves.isdecimal() else 1  # twogtp says what is wrong there
    allowed = 2 * read_clock(plan.clock).most_seconds((most + 1) // 2 or 1)
    return min(MOST_SECONDS, LIMIT + math.ceil(allowed + most * float(plan.margin or 0)))


def joined(asked: Plan, is_given: bool, place: str) -> Folder:
    """Returns a folder that has a plan, with the engines that are asked for."""
    before = read_text(f"{place}/plan")
    plan = parse(before, f"{place}/plan")
    asked.folder = plan.folder
    check_limits(plan, asked, place)
    check_gauntlet(plan, asked, place)
    more = complete(plan, asked, is_given)
    if is_given and not continues(asked, plan):
        is_same = sorted(shown_lines(plan)) == sorted(shown_lines(asked))
        other = "the same in another order" if is_same else "other engines or options"
        raise Mistake(
            f"{place} was begun with {other}. It has\n{difference(plan, asked)}\n"
            f"{advice(plan, asked, place)}{advice_on_openings(plan, asked)}"
        )
    if is_given and plan.openings and not asked.openings:
        raise Mistake(
            f"{place} was begun with openings: write --openings with the same ones, or leave out "
            "engines and options, too"
        )
    added = [name for name in asked.engines if name not in plan.engines]
    if is_given:
        plan.engines = asked.engines
    plan.known_games = None
    surplus = ""
    if more:
        surplus = f"{place} has more than the command: {', '.join(more)}; all of it is played"
    return Folder(place, plan, before, added, surplus)


def complete(plan: Plan, asked: Plan, is_given: bool) -> list[str]:
    """Adds to what is asked for what the plan has more of: engines, and seeds. Returns these."""
    more = []
    if is_given and is_part_of(asked, plan):
        more = [name for name in plan.engines if name not in asked.engines]
        asked.engines = dict(plan.engines)
    if asked.seeds and plan.seeds and asked.seeds < plan.seeds:
        more.append(f"{plan.seeds} seeds")
        asked.seeds = plan.seeds
    return more


def advice(plan: Plan, asked: Plan, folder: str) -> str:
    """Returns what to write where a folder has other engines or options."""
    common = [name for name in asked.engines if name in plan.engines]
    has_new = len(common) < len(asked.engines)
    has_old = all(plan.engines[name] == asked.engines[name] for name in common)
    if has_new and has_old and (not asked.options or asked.options == plan.options):
        return (
            "To add an engine, repeat the whole command with the new one behind the others. Else "
            "take another directory."
        )
    return (
        f"Take another folder, or write tournament play {folder} alone, which goes on with what it "
        "has."
    )


def advice_on_openings(plan: Plan, asked: Plan) -> str:
    """Returns what to write besides where a folder has openings, and none are given."""
    if plan.openings and not asked.openings:
        return " It has openings, too: where engines or options are given, write --openings."
    return ""


def difference(plan: Plan, asked: Plan) -> str:
    """Returns the lines that differ of a plan and of what is asked for."""
    import difflib  # which isn't needed elsewhere

    old, new = shown_lines(plan), shown_lines(asked)
    if sorted(old) == sorted(new):
        return "\n".join([*old, "where the command has", *new])
    opcodes = difflib.SequenceMatcher(None, old, new, False).get_opcodes()
    blocks = [block for block in opcodes if block[0] != "equal"]
    has = [line for _, begin, end, _, _ in blocks for line in old[begin:end]]
    wanted = [line for _, _, _, begin, end in blocks for line in new[begin:end]]
    return "\n".join([*(has or ["nothing"]), "where the command has", *(wanted or ["nothing"])])


def check_limits(plan: Plan, asked: Plan, folder: str) -> None:
    """Raises Mistake where what is asked for of `between` isn't as the plan has it."""
    if asked.is_direct and not plan.is_direct:
        raise Mistake(f"{folder} was begun without --direct: {ELSEWHERE}")
    values = {
        "--start-limit": asked.start_limit,
        "--move-limit": asked.move_limit,
        "--clock": asked.clock,
        "--margin": asked.margin,
        "--openings": asked.openings,
    }
    given = [option for option, value in values.items() if value]
    if given and plan.is_direct:
        how = "by earlier scripts, which had none" if plan.is_old() else "with --direct"
        raise Mistake(f"{folder} was begun {how}, so it can't have {given[0]}: {ELSEWHERE}")
    kept = {"--move-limit": plan.move_limit, "--clock": plan.clock, "--margin": plan.margin}
    for option, value in kept.items():
        if values[option] and values[option] != value:
            old = f"{option} {value}" if value else f"no {option}"
            raise Mistake(f"{folder} was begun with {old}: {ELSEWHERE}")
    if asked.openings and asked.openings != plan.openings:
        if sorted(asked.openings) == sorted(plan.openings):
            raise Mistake(
                f"{folder} was begun with these openings in another order: give "
                "--shuffle-openings as it was then, or leave it out if it wasn't given"
            )
        which = "other" if plan.openings else "no"
        raise Mistake(f"{folder} was begun with {which} openings: {ELSEWHERE}")


def check_gauntlet(plan: Plan, asked: Plan, folder: str) -> None:
    """Raises Mistake where the engine of a gauntlet that is asked for isn't that of the plan."""
    if asked.gauntlet not in (None, plan.gauntlet):
        old = f"with --gauntlet {plan.gauntlet}" if plan.gauntlet else "without --gauntlet"
        raise Mistake(f"{folder} was begun {old}: {ELSEWHERE}")


def fixed_lines(plan: Plan) -> list[str]:
    """Returns a line for each thing that may not change, except that engines may be added."""
    if any("\n" in option for option in plan.options):
        raise Mistake("an option has more than one line")
    engines = [f"engine {engine.name} {engine.command}" for engine in plan.engines.values()]
    options = [f"option {option}" for option in plan.options]
    pairing = [f"gauntlet {plan.gauntlet}"] if plan.gauntlet else []
    return [*engines, *options, *pairing, *lines_of_start(plan)]


def lines_of_start(plan: Plan) -> list[str]:
    """Returns a line for each thing that says how engines are started."""
    if plan.is_old():
        return []
    if plan.is_direct:
        return ["direct"]
    values = {"move-limit": plan.move_limit, "clock": plan.clock, "margin": plan.margin}
    return [f"{key} {value}" for key, value in values.items() if value]


def shown_lines(plan: Plan) -> list[str]:
    """Returns the lines that may not change, for people: an option and its value are one."""
    lines: list[str] = []
    for line in fixed_lines(plan):
        is_value = line.startswith("option ") and not line.startswith("option --")
        if is_value and lines and lines[-1].startswith("option "):
            lines[-1] += line[len("option") :]
        else:
            lines.append(line)
    return lines


def continues(plan: Plan, old: Plan) -> bool:
    """Returns whether a plan has all of an older one that may not change. It may have more engines
    after those."""
    ours, theirs = list(plan.engines.values()), list(old.engines.values())
    has_engines = ours[: len(theirs)] == theirs
    return has_engines and fixed_lines(plan)[len(ours) :] == fixed_lines(old)[len(theirs) :]


def is_part_of(plan: Plan, whole: Plan) -> bool:
    """Returns whether a plan has some engines of another one, in the same order, and all else that
    may not change."""
    common = [engine for engine in whole.engines.values() if engine.name in plan.engines]
    if not common or common != list(plan.engines.values()):
        return False
    return fixed_lines(plan)[len(common) :] == fixed_lines(whole)[len(whole.engines) :]


def check(plan: Plan) -> None:
    """Raises Mistake where something is wrong that nothing else looks at."""
    fixed_lines(plan)
    plan.games()
    if plan.margin and not plan.clock:
        raise Mistake("--margin is a part of a clock: give --clock, too, or leave out --margin")
    if "\n" in (plan.folder or ""):
        raise Mistake(f"the name of the directory {plan.folder} has more than one line")
    for engine in plan.engines.values():
        engine.words(plan.is_direct)


def warning_of(plan: Plan) -> str:
    """Returns a warning of engines that play the same games again, unless they draw by themselves:
    their commands don't have the seed. An empty text where no games repeat."""
    fixed = {engine.name for engine in plan.engines.values() if not engine.has_seed()}
    sides = [engines for engines in plan.games().sides if fixed.issuperset(engines)]
    names = [name for name in plan.engines if any(name in engines for engines in sides)]
    seeds = plan.seeds or 0
    if not names or seeds <= (len(set(plan.openings[:seeds])) or 1):
        return ""
    which = "all seeds with the same opening" if plan.openings else "all seeds"
    return (
        f"{', '.join(names[:-1])} and {names[-1]} have no %s, the seed, in their commands: unless "
        f"they choose at random by themselves, {which} give the same games, which tally counts once"
    )
