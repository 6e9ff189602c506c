"""The arguments of tournament and tally: mistakes, both forms of options, and help."""
from __future__ import annotations

import re
import shlex
import shutil
from pathlib import Path
from typing import Dict, List, Optional, Union

import pytest

from .runner import RANDOM, SMALL, TWO, Runner, engines

PLAN = ["--engine", f"one={RANDOM} %s", "--engine", "two=cat", "--seeds", "3", "--limit", "20"]
ENGINES = shlex.join(PLAN[:4])
QUOTED = "--engine 'one=gtp_engine --policy random --seed %s'"
NAME_ENGINES = "name two engines or more: --engine NAME=CMD --engine NAME=CMD"
OTHER = "take another directory"
EMPTY = "is empty, perhaps by a variable that isn't set"
NO_SECONDS = "needs seconds above 0, such as 60 or 0.5, and not"
NO_DIRECT = "needs what --direct leaves out: give only one of the two"
NO_NAME = "--gauntlet needs an engine's NAME after it, such as --gauntlet new"
NO_TASK = "--task needs K/T, the K-th of T tasks, such as 3/100, and not"
NO_GAME = "a game is named SEED_BLACK_WHITE, and tournament list --all prints them"
NO_FORM = "write one of --pgn, --csv, --jsonl and --sgf FOLDER"
NO_RECORDS = "--sgf needs a new FOLDER after it, such as --sgf records"
OF_TWOGTP = "is an option of twogtp: these come last, after --, such as: tournament"

MANY = shlex.join(f"--engine=e{number}=cat" for number in range(21))

# the arguments, where ENGINES stands for two engines, and what standard error says to write
MISTAKES = {
    "play": "FOLDER is missing: write tournament play FOLDER ..",
    "play ''": f"FOLDER {EMPTY}: write tournament play FOLDER ..",
    "list ''": f"FOLDER {EMPTY}: write tournament list FOLDER",
    "game all ''": f"GAME {EMPTY}: write tournament game FOLDER GAME",
    "game all": "GAME is missing: write tournament game FOLDER GAME",
    "game all one": f"all/plan has no game 'one': {NO_GAME}",
    "game all 9_one_two": f"all/plan has no game '9_one_two': {NO_GAME}",
    "game all 1_one_one": f"all/plan has no game '1_one_one': {NO_GAME}",
    "game all 01_one_two": f"all/plan has no game '01_one_two': {NO_GAME}",
    "paly x": (
        "there is no command 'paly': write tournament play, plan, check, list, game, export, "
        "verify, score, page, watch or show"
    ),
    "play x --engine all=cat --engine b=cat": (
        "all is what a tally names all others together: give it another name"
    ),
    "play all --concurrency 4": "play has no option --concurrency: it is --jobs",
    "play all --rounds=4": "play has no option --rounds: it is --seeds",
    "list all --concurrency": (
        "list has no option --concurrency: tournament list --help has those that it has"
    ),
    "score all": "all has no scorer: write tournament plan all --scorer CMD",
    "play all --scorer": (
        "--scorer needs CMD after it, such as --scorer 'gnugo --mode gtp --chinese-rules'"
    ),
    "play all --scorer ''": "the scorer has no command",
    "play all --scorer ./nobody": "there is no ./nobody, which is to score the games",
    "verify": "FOLDER is missing: write tournament verify FOLDER",
    "list x": "there is no x/plan: tournament play makes it when it has tried the engines, "
    "and tournament plan at once",
    "list all more": "'more' is one argument too many: write tournament list FOLDER",
    "list all --al": "list has no option --al: is it --all?",
    "list all --jobs 2": (
        "list has no option --jobs: tournament list --help has those that it has"
    ),
    # engines
    "play nothere": f"there is no nothere/plan, so {NAME_ENGINES}",
    "play x --engine a=cat": NAME_ENGINES,
    "play x --engine": f"--engine needs NAME=CMD after it, such as {QUOTED}",
    "play x --engine --seeds 5": f"--engine needs NAME=CMD after it, such as {QUOTED}",
    "play x --engine=cat": "--engine needs NAME=CMD, and not 'cat'",
    "play x --engine 'a= ' --engine c=cat": "a has no command",
    "play x --engine \"a=''\" --engine c=cat": "a has no command",
    'play x --engine "a=\'b" --engine c=cat': (
        "the command of a can't be split into words: No closing quotation"
    ),
    "play x --engine a=gtp_engine --policy random": (
        "play has no option --policy: tournament play --help has those that it has, and one of an"
        f" engine belongs into the quotes of its command: {QUOTED}"
    ),
    "play x --engine a=gtp_engine random": (
        "'random' is one argument too many: write tournament play FOLDER ..;"
        f" a command with spaces needs quotes: {QUOTED}"
    ),
    "play x ENGINES --gauntlet three": (
        "--gauntlet needs the name of an engine, such as one, and not 'three'"
    ),
    "play x ENGINES --gauntlet --seeds 5": NO_NAME,
    "play x ENGINES --gauntlet -- --size 9": NO_NAME,
    "play x ENGINES --gauntlet": NO_NAME,
    "play all --gauntlet one": f"all was begun without --gauntlet: {OTHER}",
    # numbers and times
    "play --seeds 3": "FOLDER is missing: write tournament play FOLDER ..",
    "play x --seeds": "--seeds needs a number after it, such as --seeds 10",
    "play x --seeds --limit 5": "--seeds needs a number after it, such as --seeds 10",
    "play x --seed 3": "play has no option --seed: is it --seeds?",
    "play x ENGINES --seeds 0": "--seeds needs a number from 1 to 9999999, and not '0'",
    "play x --jobs many": "--jobs needs a number from 1 to 9999999, and not 'many'",
    f"play x ENGINES --seeds 9999999 {MANY}": (
        "9999999 seeds are 5059999494 games, which are too many"
    ),
    "play x --move-limit 0": f"--move-limit {NO_SECONDS} '0'",
    "play x --start-limit 1e3": f"--start-limit {NO_SECONDS} '1e3'",
    "play x --start-limit": "--start-limit needs seconds after it, such as --start-limit 300",
    "play all --task 4/3": f"{NO_TASK} '4/3'",
    "play all --task 3": f"{NO_TASK} '3'",
    "play all --task": "--task needs K/T after it, such as --task 3/100",
    "play all --time-left": "--time-left needs a time after it, such as --time-left 30:00",
    "play all --time-left soon": (
        "--time-left needs a time such as 1-00:30:00, 30:00 or 90, and not 'soon'"
    ),
    "play x --clock": "--clock needs a clock after it, such as --clock 'byoyomi 600 30 5'",
    "play x --clock 600": (
        "--clock needs absolute MAIN, canadian MAIN PERIOD MOVES, byoyomi MAIN PERIOD COUNT or "
        "fischer MAIN INCREMENT, and not '600'"
    ),
    "plan x --clock 'fischer 300'": (
        "--clock needs fischer MAIN INCREMENT, such as fischer 300 5, and not 'fischer 300'"
    ),
    "play x --margin 0": f"--margin {NO_SECONDS} '0'",
    "play x ENGINES --margin 1": (
        "--margin is a part of a clock: give --clock, too, or leave out --margin"
    ),
    "play x --again=yes": "--again has no value: write --again",
    # what a directory was begun with
    "play x --direct --move-limit 5": f"--move-limit {NO_DIRECT}",
    "plan x --start-limit=5 --direct": f"--start-limit {NO_DIRECT}",
    "plan x --direct --clock 'absolute 5'": f"--clock {NO_DIRECT}",
    "plan x --direct --margin 1": f"--margin {NO_DIRECT}",
    "plan x --openings o --direct": f"--openings {NO_DIRECT}",
    "play x --openings": "--openings needs FILE after it, such as --openings openings.txt",
    "play x --opening=o": "play has no option --opening: is it --openings?",
    "play x ENGINES --openings=nowhere": "nowhere can't be read: No such file or directory",
    "play x ENGINES --openings=--no": "--no can't be read: No such file or directory",
    "play x ENGINES --openings=all": "all has no file whose name ends with .sgf",
    "play all --direct": f"all was begun without --direct: {OTHER}",
    "play all --move-limit 5": f"all was begun with no --move-limit: {OTHER}",
    "play all --clock 'absolute 5'": f"all was begun with no --clock: {OTHER}",
    "play timed --clock 'absolute 5'": f"timed was begun with --clock absolute 9: {OTHER}",
    "play timed --margin 1": f"timed was begun with --margin 2: {OTHER}",
    "play direct --move-limit 5": (
        f"direct was begun with --direct, so it can't have --move-limit: {OTHER}"
    ),
    # options of twogtp
    "play x --size 9": f"--size {OF_TWOGTP} play FOLDER .. -- --size ..",
    "plan x --komi=7": f"--komi {OF_TWOGTP} plan FOLDER .. -- --komi ..",
    "play x ENGINES -- --size --komi 6.5": "--size needs a value after it, such as --size 9",
    "play x ENGINES -- --record --max-moves": (
        "--max-moves needs a value after it, such as --max-moves 400"
    ),
    "play x ENGINES -- --size 9 --komi -3.5": (
        "--komi needs a value after it, such as --komi=-3.5"
    ),
    # exports
    "export all": NO_FORM,
    "export all --csv --pgn": NO_FORM,
    "export all --sgf": NO_RECORDS,
    "export all --sgf --late loses": NO_RECORDS,
    "export all --csv --late wins": "--late needs half, out or loses after it, and not 'wins'",
}

SPRT = "--sprt needs two differences in Elo"
LIMITS = "from -800 to 800 Elo, such as --sprt 0 10: beyond that it wasn't tested"
BETWEEN = "--between needs two engines that play each other, such as --between one two, and not"
MISTAKES_OF_TALLY = {
    "''": f"FOLDER {EMPTY}: write tally FOLDER",
    "all --jsn": "tally has no option --jsn: is it --json?",
    "all --sprt 0": f"{SPRT} after it, such as --sprt 0 10",
    "all --sprt 0 --json": f"{SPRT} after it, such as --sprt 0 10",
    "all --sprt 0 ten": f"{SPRT}, such as --sprt 0 10, and not '0 ten'",
    "all --sprt=10 0": "--sprt needs the lower difference first: write --sprt 0 10",
    "all --sprt -5 -5": "--sprt needs two different differences, such as --sprt 0 10",
    "all --sprt 0 800.001": f"--sprt needs differences {LIMITS}",
    "all --sprt 0 -801": f"--sprt needs differences {LIMITS}",
    "three --sprt 0 10": (
        "--sprt is of two engines, and the plan has 3:"
        " name two that play each other, such as --between one two"
    ),
    "gauntlet --sprt 0 10 --between three two": f"{BETWEEN} 'three two'",
    "three --sprt 0 10 --between one one": f"{BETWEEN} 'one one'",
    "all --sprt 0 10 --between one": (
        "--between needs two engines' NAMEs after it, such as --between new old"
    ),
    "three --between three one": ("--between is for a test: write --sprt 0 10 --between three one"),
    "all --alpha 0.05": "--alpha is for a test: write --sprt 0 10",
    "all --sprt 0 10 --beta 5": (
        "--beta needs a number from 0.001 to 0.25, such as --beta 0.05, and not '5'"
    ),
    "all --no-winner loses": "--no-winner needs half or out after it, and not 'loses'",
    "all --abandoned lose": "--abandoned needs half, out or loses after it, and not 'lose'",
}


@pytest.fixture(scope="module")
def planned(shared_runner: Runner) -> Runner:
    """Returns a runner with plans, which no test changes."""
    three = engines(three="cat")
    plans: Dict[str, List[str]] = {
        "all": TWO,
        "direct": [*TWO, "--direct"],
        "timed": [*TWO, "--clock", "absolute 9", "--margin", "2"],
        "three": [*TWO, *three],
        "gauntlet": [*TWO, *three, "--gauntlet", "one"],
    }
    for folder, words in plans.items():
        assert shared_runner.tournament("plan", folder, *words, "--seeds", "4", *SMALL).status == 0
    return shared_runner


def files_in(folder: Path) -> Dict[Path, Union[bool, str]]:
    """Returns the files and directories below one, with the texts of files."""
    return {place: place.is_file() and place.read_text() for place in folder.rglob("*")}


@pytest.mark.parametrize("arguments", MISTAKES, ids=lambda arguments: arguments[:60])
def test_mistake_is_answered_by_what_to_write(arguments: str, planned: Runner) -> None:
    before = files_in(planned.folder)
    words = shlex.split(arguments.replace("ENGINES", ENGINES))
    done, after = planned.tournament(*words), files_in(planned.folder)
    shutil.rmtree(planned.folder / "x", ignore_errors=True)
    assert done == (2, "", f"tournament: {MISTAKES[arguments]}\n")
    assert after == before


@pytest.mark.parametrize("arguments", MISTAKES_OF_TALLY)
def test_mistake_for_tally_is_answered_by_what_to_write(arguments: str, planned: Runner) -> None:
    done = planned.tally(*shlex.split(arguments))
    assert done == (2, "", f"tally: {MISTAKES_OF_TALLY[arguments]}\n")


def test_nothing_is_asked_for(planned: Runner) -> None:
    done, whole = planned.tournament(), planned.tournament("--help").output
    assert (done.status, done.output) == (2, "")
    assert whole.startswith(done.errors.splitlines()[0])


def test_option_that_twogtp_refuses(planned: Runner) -> None:
    done = planned.tournament("plan", "x", *PLAN, "--", "--black", "cat")
    line = f"{planned.environment['TWOGTP']} doesn't play with the options '--black cat': status 2"
    assert (done.status, done.errors.splitlines()[-1]) == (2, f"tournament: {line}")
    assert not (planned.folder / "x").exists()


def test_twogtp_that_is_killed_is_no_usage_error(planned: Runner) -> None:
    place = planned.script("killed", "kill -9 $$")
    environment = {**planned.environment, "TWOGTP": str(place)}
    done = planned.tournament("plan", "x", *PLAN, env=environment)
    line = f"{place} was ended by signal 9 when its options were tried: give the command again"
    assert done == (1, "", f"tournament: {line}\n")
    assert not (planned.folder / "x").exists()


@pytest.mark.parametrize("option", ["--version", "-V"])
def test_version_is_that_of_the_programs(option: str, planned: Runner) -> None:
    version = planned.run("twogtp", "--version").output.replace("twogtp", "")
    assert planned.tournament(option) == (0, f"tournament{version}", "")
    assert planned.tally(option) == (0, f"tally{version}", "")


# ---- options


@pytest.mark.parametrize(
    "words",
    [
        pytest.param(["all", *PLAN], id="two arguments"),
        pytest.param(
            ["all", *map("=".join, zip(PLAN[::2], PLAN[1::2]))],
            id="one argument",
        ),
        pytest.param([*map("=".join, zip(PLAN[::2], PLAN[1::2])), "all"], id="the directory last"),
    ],
)
def test_forms_of_options(words: List[str], runner: Runner) -> None:
    plan = f'version = 1\nfolder = "{runner.folder}"\ntwogtp = ["--size=5"]\nstart-limit = 60\n'
    plan += f'seeds = 3\nlimit = 20\n\n[engines]\none = "{RANDOM} %s"\ntwo = "cat"\n'
    for _ in range(2):
        assert runner.tournament("plan", *words, "--", "--size=5") == (0, "", "")
        assert (runner.folder / "all/plan").read_text() == plan


def test_forms_of_options_of_play(runner: Runner) -> None:
    words = [*engines(one="gtp_engine", two="gtp_engine"), "--seeds=1", "--jobs=1", "--limit=99"]
    assert runner.tournament("play", *words, "all", "--", "--size=1")[::2] == (0, "")
    assert sorted(runner.games()) == ["1_one_two", "1_two_one"]


@pytest.mark.parametrize(
    "words, names",
    [
        pytest.param(["--jobs", "2"], "--jobs: give it", id="one"),
        pytest.param(["--again", "--jobs=2"], "--jobs and --again: give them", id="two"),
        pytest.param([], None, id="none"),
    ],
)
def test_options_that_a_plan_does_not_keep(
    words: List[str], names: Optional[str], runner: Runner
) -> None:
    report = f"tournament: a plan doesn't keep {names} to tournament play\n" if names else ""
    done = runner.tournament("plan", "all", *PLAN, *words, "--", "--size=5")
    assert done == (0, "", report)
    assert "jobs" not in (runner.folder / "all/plan").read_text()


# ---- help

OF_PLAN = ["--engine", "--seeds", "--gauntlet", "--limit", "--move-limit", "--start-limit"]
OF_PLAN += ["--clock", "--margin", "--scorer", "--openings", "--shuffle-openings", "--direct"]
OF_TEST = ["--sprt", "--between", "--alpha", "--beta"]
OF_HOOKS = ["--on-end", "--on-failure"]
OF_PLAY = [*OF_PLAN, "--jobs", "--pin", "--again", "--task", "--time-left", *OF_HOOKS, *OF_TEST]
OF_PLAY += ["--page", "--dry-run"]
OF_LOSSES = ["--abandoned"] * 3 + ["--late"]
OF_TALLY = [*OF_LOSSES, "--no-winner", "--no-winner", *OF_TEST, "--by", "--json"]
OF_PAGE = ["--without-moves", *OF_LOSSES, "--no-winner", *OF_TEST]
OF_GAMES = ["0", "1", "2", "69", "130, 143", "141"]
FORMS = ["--pgn", "--csv", "--jsonl", "--sgf"]


@pytest.mark.parametrize(
    "command, options, statuses",
    [
        ("tournament", OF_PLAY, OF_GAMES),
        ("tournament play", OF_PLAY, OF_GAMES),
        ("tournament plan", [*OF_PLAN, "--dry-run"], ["0", "1", "2"]),
        ("tournament check", [*OF_PLAN, "--jobs"], ["0", "1", "2", "69", "130, 143"]),
        ("tournament list", ["--all", "--replaced"], ["0", "1", "2", "141"]),
        ("tournament game", [], OF_GAMES),
        ("tournament export", [*FORMS, *OF_LOSSES], ["0", "1", "2", "141"]),
        ("tournament verify", [], ["0", "1", "2", "141"]),
        ("tournament score", [], ["0", "1", "2", "141"]),
        ("tournament page", OF_PAGE, ["0", "1", "2", "141"]),
        ("tournament show", ["--size", "--ko"], ["0", "1", "2", "141"]),
        ("tournament watch", ["--port"], ["2"]),
        ("tally", OF_TALLY, ["0", "1", "2", "3", "4", "141"]),
    ],
)
def test_help(command: str, options: List[str], statuses: List[str], planned: Runner) -> None:
    words = command.split()
    done = planned.run(*words, "--help")
    assert (done.status, done.errors) == (0, "")
    assert planned.run(*words, "-h") == done
    if command == "tournament":
        assert done.output.startswith("usage: tournament play FOLDER")
    else:
        place = "FILE" if command == "tournament show" else "FOLDER"
        assert done.output.startswith(f"usage: {command} {place}")
        assert planned.run(*words, "x", "--help") == done
    assert re.findall(r"^  (--\w[\w-]*)", done.output, re.MULTILINE) == options
    found = re.findall(r"^(?:status:| {7}) (\d+(?:, \d+)?)  ", done.output, re.MULTILINE)
    assert found == statuses
    assert [line for line in done.output.splitlines() if len(line) > 80] == []


# ---- standard streams


def test_without_standard_streams(runner: Runner, small_results: Dict[str, str]) -> None:
    # it ends once a line is lost
    runner.tournament("plan", "all", *TWO, "--seeds", "4", *SMALL)
    done = runner.shell("exec tournament play all --jobs 1 <&- >&- 2>&-")
    assert (done.status, runner.games()) == (1, {"1_one_two": small_results["1_one_two"]})
