"""What the scripts cost: the processes that a game starts, and commands where results are many."""
from __future__ import annotations

import os
import re
import subprocess
from typing import Callable, Dict, List

import pytest

from .runner import Runner, engines

ENGINES = engines(one="gtp_engine", two="gtp_engine")
ENDS_AT_ONCE = ["--size", "1", "--max-moves", "1"]  # options of twogtp
MATCH = ["--why", "--record", *ENDS_AT_ONCE, "--black", "gtp_engine", "--white", "gtp_engine"]
COMMANDS = [
    "tournament list all",
    "tally all",
    "tournament play all",
    "tournament list all --all",
]

# In a namespace of its own each process has the next number. So this counts those of a command.
COUNT = """\
before=$(bash -c 'echo $$')
"$@" > out 2> err
after=$(bash -c 'echo $$')
echo $((after - before - 1))
"""


def processes_of(runner: Runner, *command: object) -> int:
    """Returns how many processes a command starts, itself among them."""
    for user in ("", "--user --map-root-user"):
        namespace = ["unshare", *user.split(), "--pid", "--fork", "--mount-proc"]
        done = runner.run(*namespace, "bash", "-c", COUNT, "bash", *command)
        if done.status == 0:
            return int(done.output)
    pytest.skip("there are no namespaces of processes (unshare --pid)")


@pytest.mark.parametrize(
    "options, most", [pytest.param([], 3, id="usual"), pytest.param(["--direct"], 1, id="direct")]
)
def test_processes_of_a_game_that_twogtp_does_not_start(
    options: List[str], most: int, runner: Runner
) -> None:
    alone = processes_of(runner, runner.environment["TWOGTP"], *MATCH)
    few, many = (
        processes_of(
            runner,
            *["tournament", "play", f"all{seeds}", *ENGINES, "--jobs", "1", "--seeds", seeds],
            *[*options, "--", *ENDS_AT_ONCE],
        )
        for seeds in (1, 11)
    )
    assert many - few == 20 * (most + alone)


# ---- many results

# How many times as long a command may take with ten times the results, by the processor. It takes
# up to eight times as long. If it looked at each result once for each other one, it would take a
# hundred times as long, so other work on the machine makes no difference.
LONGER = 20
TRIES = 2  # of which the best one counts


@pytest.fixture(scope="module")
def count(request: pytest.FixtureRequest) -> int:
    """Returns how many results there are, of which --count may ask for more, such as 100000."""
    return max(1000, request.config.getoption("--count") or 10_000)


def processor_seconds(runner: Runner, *command: object) -> float:
    """Returns the processor time that a command takes, with all that it waits for."""
    unseen = dict.fromkeys(["stdout", "stderr"], subprocess.DEVNULL)
    process = runner.start(*command, **unseen)
    _, status, used = os.wait4(process.pid, 0)
    process.returncode = os.waitstatus_to_exitcode(status)
    return float(used.ru_utime + used.ru_stime)


def least_seconds(runner: Runner, command: str) -> float:
    """Returns the least processor time of some runs of a command."""
    return min(processor_seconds(runner, *command.split()) for _ in range(TRIES))


NewRunner = Callable[[], Runner]


@pytest.fixture
def new_runner(runner: Runner) -> NewRunner:
    """Returns what makes the runner's directory empty."""

    def make() -> Runner:
        runner.run("find", ".", "-mindepth", "1", "-delete")
        return runner

    return make


def link_file(runner: Runner, name: str, text: str, place: str) -> None:
    """Gives a file with this text another name, which costs less than a file does."""
    file = runner.folder / name
    if not file.exists():
        file.write_text(text)
    os.link(file, runner.folder / place)


def write_many_results(runner: Runner, count: int) -> None:
    """Writes a tournament with so many results: Black has won those with an even seed."""
    options = ["--", "--size", "9", "--max-moves", "30"]
    runner.tournament("plan", "all", *ENGINES, "--seeds", count // 2, *options)
    for seed in range(1, count // 2 + 1):
        winner, row = "BW"[seed % 2], seed // 2 % 8 + 1
        text = f"game 1: {winner}+6.5 moves 30 restarts 0 0\n{'D4 ' * 29}C{row}\n"
        for sides in ("one_two", "two_one"):
            link_file(runner, f"{winner}{row}", text, f"all/games/{seed}_{sides}")


def test_commands_where_results_are_many(count: int, new_runner: NewRunner) -> None:
    seconds: Dict[str, List[float]] = {command: [] for command in COMMANDS}
    for results in (count // 10, count):
        runner = new_runner()
        write_many_results(runner, results)
        seeds = results // 2
        missing = ["1_one_two", "9_two_one", f"{seeds - 1}_two_one", f"{seeds}_one_two"]
        for game in missing:
            (runner.folder / "all/games" / game).unlink()
        assert runner.tournament("list", "all") == (0, "\n".join([*missing, ""]), "")
        tally = runner.tally("all").output
        line = f"{results - 4} of {results} games have a result, {results - 4} have a winner"
        assert tally.startswith(f"{line}; ")
        # two won the first game that is missing, and one the others
        won = re.findall(r"^(one|two) +(\d+)", tally, re.MULTILINE)
        assert won == [("two", str(seeds - 1)), ("one", str(seeds - 3))]
        done = runner.tournament("play", "all")
        assert (done.status, len(done.output.splitlines())) == (0, 5)
        for command in COMMANDS:
            seconds[command].append(least_seconds(runner, command))
    assert [few_many for few_many in seconds.values() if few_many[1] > LONGER * few_many[0]] == []


LATE = "61 black late 5.000: 12 genmove b\n0 black stays ended\n0 black stays ended\n"
CRASHED = "61 black ended 0.1: 12 genmove b: signal 11\n"


def write_abandoned(runner: Runner, count: int) -> None:
    """Writes so many results: Black was late in those with an even seed, and crashed in others."""
    options = ["--", "--size", "9"]
    runner.tournament("plan", "all", *ENGINES, "--seeds", count // 2, *options)
    line = "abandoned black moves 60 restarts 2 0"
    moves = "".join(f"{it} {('white', 'black')[it % 2]} D4 0.123\n" for it in range(1, 61))
    for seed in range(1, count // 2 + 1):
        number, end = seed % 16, CRASHED if seed % 2 else LATE
        game = f"game 1: {line}\n{'D4 ' * 59}{'ABCDEFGH'[number // 2]}1\n"
        thought = f"thought: black 1.0, white 1.0\nresult: {line}\n"
        notes = f"1_one_two on here\n{moves}{end}{thought}"
        for sides in ("one_two", "two_one"):
            link_file(runner, f"games{number}", game, f"all/games/{seed}_{sides}")
            link_file(runner, f"notes{number}", notes, f"all/notes/{seed}_{sides}")


def test_tally_of_many_abandoned_games(count: int, new_runner: NewRunner) -> None:
    seconds = []
    for results in (count // 10, count):
        runner = new_runner()
        write_abandoned(runner, results)
        output, quarter = runner.tally("all").output, results // 4
        assert output.startswith(f"{results} of {results} games have a result, {results} have")
        of_one = {"abandoned": quarter, "late": quarter}
        of_one.update(crashes=3 * quarter, restarts=2 * quarter)
        for cause, times in of_one.items():
            assert f"\n  one: {cause}: {times}\n" in output
        seconds.append(least_seconds(runner, "tally all"))
    assert seconds[1] <= LONGER * seconds[0]


def write_all_play_all(runner: Runner, count: int) -> None:
    """Writes a result of each of so many engines with each other one as Black and as White."""
    names = [f"e{number}" for number in range(1, count + 1)]
    (runner.folder / "all/games").mkdir(parents=True)
    lines = [*(f"engine {name} x" for name in names), "option --size", "option 9"]
    runner.write("all/plan", "\n".join([*lines, "seeds 1", "limit 600", ""]))
    text = f"game 1: B+6.5 moves 30 restarts 0 0\n{'D4 ' * 29}D4\n"
    for number, black in enumerate(names):
        for white in names[:number] + names[number + 1 :]:
            # a file can't have so many names
            link_file(runner, f"game{number // 100}", text, f"all/games/1_{black}_{white}")


def test_tally_of_many_engines(count: int, new_runner: NewRunner) -> None:
    seconds = []
    for results in (count // 10, count):
        runner, number = new_runner(), round(results**0.5) + 1
        write_all_play_all(runner, number)
        output, games = runner.tally("all").output, number * (number - 1)
        assert output.startswith(f"{games} of {games} games have a result, {games} have a winner; ")
        assert output.count(f"\ne{number}  ") == 2  # in the tables of engines and of ratings
        seconds.append(least_seconds(runner, "tally all"))
    assert seconds[1] <= LONGER * seconds[0]
