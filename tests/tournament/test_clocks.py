"""The clocks of games: what engines are told, what is charged, and whole games."""
from __future__ import annotations

from typing import Dict, List

import pytest

from .notes import notes_of
from .runner import RANDOM, SMALL, Runner, engines
from .timed import ALL, BEGIN, ENGINE, ONE_MOVE, PLAIN, begin, heard, talk

# ---- what an engine is told


def test_trial_sends_what_a_game_sends(runner: Runner) -> None:
    runner.script("engine", ENGINE)
    both = engines(one=f"./engine {ALL} A1 B1 C1", two="gtp_engine")
    options = ["--clock=canadian 600 300 25", "--seeds=1", "--", "--size=5", "--max-moves=1"]
    runner.tournament("plan", "all", *both, *options)
    assert runner.tournament("game", "all", "1_one_two")[::2] == (0, "")
    setup = ["1 boardsize 5", "2 komi 6.5", "list_commands", "3 clear_board"]
    told = ["time_settings 600 300 25", "time_left b 600 0", "4 genmove b"]
    begin = [*setup, *told]
    assert heard(runner)[: 2 * len(begin) + 3] == [*begin, "5 name", "6 version", "quit", *begin]


# it has time_settings, and does this where it is told of a clock
AT_SETTINGS = """\
while read -r number _; do
    case $number in
        list_commands) echo '= time_settings' ;;
        time_settings) {} ;;
        *) echo "=$number A1" ;;
    esac
    echo
done
"""


@pytest.mark.parametrize(
    "does, report",
    [
        ("exit 3", "it ended at 'time_settings 600 0 0': exit status 3"),
        ("echo '? no'", "it refuses 'time_settings 600 0 0': '? no'"),
        ("exec sleep 1000", "it doesn't answer 'time_settings 600 0 0' in 1 seconds"),
    ],
)
def test_trial_finds_an_engine_that_takes_no_clock(does: str, report: str, runner: Runner) -> None:
    runner.script("engine", AT_SETTINGS.format(does))
    both = engines(one="./engine", two="gtp_engine")
    options = ["--clock=absolute 600", "--start-limit=1", "--seeds=1"]
    runner.tournament("plan", "all", *both, *options, "--", "--size=5", "--max-moves=1")
    assert runner.tournament("game", "all", "1_one_two").errors == f"tournament: one: {report}\n"


@pytest.mark.parametrize(
    "clock, known, told",
    [
        pytest.param(
            "absolute 600", ALL, ["time_settings 600 0 0", "time_left b 600 0"], id="absolute"
        ),
        pytest.param(
            "canadian 600 300 25",
            ALL,
            ["time_settings 600 300 25", "time_left b 600 0"],
            id="canadian",
        ),
        pytest.param(
            "byoyomi 0 30 5",
            ALL,
            ["kgs-time_settings byoyomi 0 30 5", "time_left b 30 5"],
            id="byoyomi that it knows",
        ),
        pytest.param(
            "byoyomi 0 30 5",
            PLAIN,
            ["time_settings 0 30 1", "time_left b 30 1"],
            id="byoyomi as a period for each move",
        ),
        pytest.param(
            "fischer 300 5",
            ALL,
            ["kata-time_settings fischer 300 5", "time_left b 300 0"],
            id="fischer that it knows",
        ),
        pytest.param(
            "fischer 300 5",
            PLAIN,
            ["time_settings 300 0 0", "time_left b 300 0"],
            id="fischer as absolute",
        ),
        pytest.param("absolute 600", "time_settings", ["time_settings 600 0 0"], id="no time_left"),
        pytest.param("absolute 600", "time_left", ["time_left b 600 0"], id="only time_left"),
        pytest.param("absolute 600", "play", [], id="none of the commands"),
        pytest.param("absolute 600", "?", [], id="no list of commands"),
    ],
)
def test_engine_is_told_of_its_clock(
    clock: str, known: str, told: List[str], runner: Runner
) -> None:
    done = talk(begin(runner, known, "D4", clock=clock), ONE_MOVE)
    assert done == (0, "=1 \n\n=2 \n\n=3 \n\n=4 D4\n\n=5 \n\n", "")
    asked = ["1 boardsize 9", "2 komi 7", "list_commands", "3 clear_board"]
    assert heard(runner) == [*asked, *told, "4 genmove b", "5 quit"]


def test_engine_is_told_between_clear_board_and_the_moves_of_before(runner: Runner) -> None:
    between = begin(runner, PLAIN, "D4", clock="absolute 600")
    commands = f"{BEGIN}, 4 play b C3, 5 play w G7, 6 genmove b, 7 clear_board, 8 quit"
    assert talk(between, commands).status == 0
    assert heard(runner)[2:] == [
        *["list_commands", "3 clear_board", "time_settings 600 0 0"],
        *["4 play b C3", "5 play w G7", "time_left b 600 0", "6 genmove b"],
        *["7 clear_board", "time_settings 600 0 0", "8 quit"],
    ]


def test_opening_costs_nothing_and_engine_is_told_of_the_clock_before_it(runner: Runner) -> None:
    between = begin(runner, PLAIN, "D4", clock="absolute 600", opening="C3 G7")
    commands = f"{BEGIN}, 4 genmove b, 5 play w G7, 6 genmove b, 7 quit"
    assert talk(between, commands).output.split("\n\n")[3:6] == ["=4 C3", "=5 ", "=6 D4"]
    assert heard(runner)[4:] == [
        *["time_settings 600 0 0", "4 play b C3", "5 play w G7"],
        *["time_left b 600 0", "6 genmove b", "7 quit"],
    ]


# ---- what is charged


@pytest.mark.parametrize(
    "clock, notes, left",
    [
        pytest.param("absolute 600", ["1 black D4 99.5"], "500 0", id="a move"),
        pytest.param("absolute 600", ["2 white D4 99.5"], "600 0", id="the other side's move"),
        pytest.param(
            "absolute 600", ["1 black D4 opening", "3 black thinks"], "600 0", id="an opening"
        ),
        pytest.param(
            "absolute 600",
            ["0 black started 50.0", "3 black refuses the opening"],
            "600 0",
            id="a start",
        ),
        pytest.param(
            "absolute 600",
            ["3 black D4 99.5", "3 black undone", "3 black E5 100.25"],
            "400 0",
            id="a move that was refused",
        ),
        pytest.param(
            "fischer 600 50", ["1 black D4 99.5", "3 black pass 100.25"], "500 0", id="an increment"
        ),
        pytest.param(
            "fischer 600 50",
            ["1 black ended 99.5: 4 genmove b: signal 11"],
            "500 0",
            id="an engine that ended while it thought",
        ),
        pytest.param(
            "fischer 600 50",
            ["1 black ended 99.5: genmove b: signal 11"],
            "500 0",
            id="the same without a number",
        ),
        pytest.param(
            "fischer 600 50",
            ["1 black ended 99.5: 4 play w D4: signal 11"],
            "600 0",
            id="an engine that ended in a replay",
        ),
        pytest.param(
            "fischer 600 50", ["1 black no-vertex 99.5"], "500 0", id="an answer that is no move"
        ),
        pytest.param(
            "byoyomi 100 30 5",
            ["1 black D4 99.0", "3 black E5 35.0", "5 black F6 10.0"],
            "30 4",
            id="a period that was lost",
        ),
        pytest.param(
            "canadian 100 300 25",
            ["1 black D4 99.0", "3 black E5 35.5", "5 black F6 10.25"],
            "255 23",
            id="two moves of a period",
        ),
    ],
)
def test_earlier_starts_are_charged_by_the_notes(
    clock: str, notes: List[str], left: str, runner: Runner
) -> None:
    text = "".join(f"{line}\n" for line in notes)
    assert talk(begin(runner, ALL, "D4", text, clock=clock), ONE_MOVE).status == 0
    assert f"time_left b {left}" in heard(runner)


def test_machine_gets_its_margin_of_each_move(runner: Runner) -> None:
    notes = "1 black D4 99.5\n3 black E5 0.25\n5 black ended 60.0: 8 genmove b: signal 9\n"
    between = begin(runner, PLAIN, "D4", notes, clock="absolute 600", margin="0.75")
    assert talk(between, ONE_MOVE).status == 0
    assert "time_left b 442 0" in heard(runner)  # 600 - 98.75 - 0 - 59.25


def test_moves_of_a_start_are_charged(runner: Runner) -> None:
    between = begin(runner, PLAIN, "D4 E5", clock="absolute 600")
    assert talk(between, f"{BEGIN}, 4 genmove b, 5 genmove b, 6 quit").status == 0
    seconds = float(between.place.read_text().splitlines()[2].split()[3])
    assert heard(runner)[-3] == f"time_left b {int(600 - seconds)} 0"


# ---- whole games


def test_games_are_those_without_a_clock(runner: Runner) -> None:
    both = engines(one=f"{RANDOM} %s", two=f"{RANDOM} 10%s")
    clocks: Dict[str, List[str]] = {"timed": ["--clock", "fischer 600 9"], "all": []}
    for folder, clock in clocks.items():
        done = runner.tournament("play", folder, *both, "--seeds", "2", *clock, *SMALL)
        assert done.status == 0
    assert runner.games("timed") == runner.games("all")


def test_restart_keeps_the_clock(runner: Runner) -> None:
    crashes = f"{runner.script('engine', ENGINE)} {PLAIN} A1 crash B2 crash resign"
    both = engines(one=crashes, two="gtp_engine")
    clock = ["--clock", "absolute 600", "--seeds", "1"]
    assert runner.tournament("plan", "all", *both, *clock, *SMALL).status == 0
    runner.pass_trials()
    assert runner.tournament("game", "all", "1_one_two").status == 0
    notes = [line.split(" ") for line in notes_of(runner, "1_one_two") if " black " in line]
    moves = ("A1", "B2", "ended", "resign")
    seconds = [float(words[3].rstrip(":")) for words in notes if words[2] in moves]
    left = [line for line in heard(runner) if line.startswith("time_left")]
    assert left == [f"time_left b {int(600 - sum(seconds[:at]) + 1e-9)} 0" for at in range(5)]
    assert heard(runner).count("time_settings 600 0 0") == 3


# ---- plans


@pytest.mark.parametrize(
    "clock, margin, limit",
    [
        pytest.param("absolute 900", [], 2400, id="absolute: 600 + 2 x 900"),
        pytest.param("fischer 300 5", [], 1690, id="fischer: 600 + 2 x (300 + 49 x 5)"),
        pytest.param("canadian 60 30 25", [], 840, id="canadian: 600 + 2 x (60 + 2 x 30)"),
        pytest.param("byoyomi 60 10 3", [], 1760, id="byoyomi: 600 + 2 x (60 + 52 x 10)"),
        pytest.param("absolute 900", ["--margin", "0.5"], 2450, id="and half a second of each"),
    ],
)
def test_limit_is_what_the_clocks_of_100_moves_allow(
    clock: str, margin: List[str], limit: int, runner: Runner
) -> None:
    both = engines(one="gtp_engine", two="gtp_engine --ko positional")
    words = ["--clock", clock, *margin, "--", "--max-moves", "100"]
    assert runner.tournament("plan", "all", *both, *words).status == 0
    lines = (runner.folder / "all/plan").read_text().splitlines()
    assert f"limit = {limit}" in lines and f'clock = "{clock}"' in lines


def test_limit_that_is_given_stays(runner: Runner) -> None:
    both = engines(one="gtp_engine", two="gtp_engine --ko positional")
    runner.tournament("plan", "all", *both, "--clock", "absolute 900", "--limit", "700")
    assert runner.tournament("plan", "all", "--seeds", "20").status == 0
    lines = (runner.folder / "all/plan").read_text().splitlines()
    assert {"limit = 700", 'clock = "absolute 900"', "seeds = 20"} < set(lines)
