"""--scorer and tournament score: a game counts by its area without the dead stones."""
from __future__ import annotations

import csv
import io
import signal
from pathlib import Path
from typing import List

import pytest

from .runner import Runner, engines, kill
from .written import write_plan

# On a 3x3 board `one` has the stones of the middle column, and so six points with the left one.
# `two` has two stones in the right one, and C3 is next to both. So with a komi of 5 it is W+1 where
# `one` is Black, and W+9 where it is White. If C1 and C2 are dead, `one` has all nine points: it is
# B+4 and W+14.
BOTH = engines(
    one="gtp_engine --policy book --book B1,B1,B2,B2,B3,B3",
    two="gtp_engine --policy book --book C1,C1,C2,C2",
)
BOARD = ["--seeds=1", "--", "--size=3", "--komi=5"]
LINES = {
    "1_one_two": "game 1: W+1 moves 7 restarts 0 0\nB1 C1 B2 C2 B3 pass pass\n",
    "1_two_one": "game 1: W+9 moves 8 restarts 0 0\nC1 B1 C2 B2 pass B3 pass pass\n",
}
# what a scorer answers to the commands of which it knows more than that they succeed
SCORER = """
while read -r id command arguments; do
    text='' begin='='
    case $command in
        %s
    esac
    printf '%%s%%s %%s\\n\\n' "$begin" "$id" "$text"
done
"""
TRUE = "known_command) text=true ;;"
STONES = f"{TRUE}\nfinal_status_list) text=$'C1\\nC2' ;;"
SCORE = "final_score) text=B+2.0 ;;"
HANGS = f"{TRUE}\nfinal_status_list) echo > asked; sleep 1000 ;;"


def scorer(runner: Runner, answers: str) -> str:
    """Writes a scorer with these answers, and returns its command."""
    return str(runner.script("scorer", SCORER % answers))


def rows(runner: Runner) -> List[List[str]]:
    """Returns the games that are exported: their verdicts and winners."""
    table = csv.DictReader(io.StringIO(runner.tournament("export", "all", "--csv").output))
    return [[row["verdict"], row["winner"]] for row in table]


def test_dead_stones(runner: Runner) -> None:
    command = scorer(runner, STONES)
    assert runner.tournament("play", "all", *BOTH, "--scorer", command, *BOARD).status == 0
    assert runner.games() == LINES
    assert rows(runner) == [["B+4", "black"], ["W+14", "white"]]
    output = runner.tally("all").output
    assert "one          2      2    100.0   1 of 1         1 of 1\n" in output
    other = "2 otherwise than by twogtp, 1 of them with another winner"
    assert f"\nscored by the scorer: 2; {other}\n" in output
    assert "not scored" not in output
    score = runner.files("all/scores")["1_one_two"].splitlines()
    assert score[1:] == [f"scorer {command}", "by final_status_list", "dead C1 C2", "verdict B+4"]
    assert f'scorer = "{command}"\n' in (runner.folder / "all/plan").read_text()
    assert runner.is_idle()


@pytest.mark.parametrize(
    "answers",
    [
        pytest.param(f"known_command) text=false ;;\n{SCORE}", id="unknown command"),
        pytest.param(f"{TRUE}\nfinal_status_list) begin='?' ;;\n{SCORE}", id="refused"),
    ],
)
def test_without_final_status_list(answers: str, runner: Runner) -> None:
    command = scorer(runner, answers)
    assert runner.tournament("play", "all", *BOTH, "--scorer", command, *BOARD).status == 0
    assert rows(runner) == [["B+2", "black"], ["B+2", "black"]]
    said = "\nscored by its final_score, since it names no dead stones: 2\n"
    assert said in runner.tally("all").output


FAILURES = {
    f"{TRUE}\nfinal_status_list) exit 3 ;;": "it ended at 'final_status_list dead': exit status 3",
    f"{TRUE}\nfinal_status_list) text=A1 ;;": "it says that A1 is dead, where no stone is",
    f"{TRUE}\nfinal_status_list) text=X9 ;;": "it says that X9 is dead, where no stone is",
    f"{TRUE}\nfinal_status_list) text=all ;;": (
        "its answer to 'final_status_list dead' is no list of vertices: 'all'"
    ),
    "play) begin='?' ;;": "move 1: it refuses 'play black B1': '?4 '",
    "known_command) text=false ;;\nfinal_score) text=no ;;": "its final_score is no score: 'no'",
}


@pytest.mark.parametrize("answers, reason", FAILURES.items(), ids=FAILURES.values())
def test_verdict_of_twogtp_counts_where_the_scorer_fails(
    answers: str, reason: str, runner: Runner
) -> None:
    command = scorer(runner, answers)
    assert runner.tournament("play", "all", *BOTH, "--scorer", command, *BOARD).status == 0
    assert rows(runner) == [["W+1", "white"], ["W+9", "white"]]
    output = runner.tally("all").output
    assert "\nnot scored, so that twogtp's verdict counts: 2\n" in output
    assert f"\n  1_one_two: {reason}\n" in output


def written(runner: Runner, *lines: str) -> Path:
    """Writes the same games by hand, and returns the folder of their results."""
    write_plan(runner.folder / "all", ["one", "two"], 1, *lines, "option --size=3")
    with open(runner.folder / "all/plan", "a") as plan:
        plan.write("option --komi=5\n")
    for game, text in LINES.items():
        (runner.folder / "all/games" / game).write_text(text)
    return runner.folder / "all/games"


def test_late_scorer(runner: Runner) -> None:
    written(runner, f"scorer {scorer(runner, HANGS)}", "start-limit 0.5")
    done = runner.tournament("score", "all")
    assert done.status == 1
    late = "it doesn't answer 'final_status_list dead' in 0.5 seconds"
    assert f"1_one_two: W+1 by twogtp, not scored: {late}\n" in done.output
    assert done.output.endswith("0 of 2 games by two passes are scored\n")
    assert f"\n  1_one_two: {late}\n" in runner.tally("all").output
    assert runner.is_idle()


def test_games_that_were_played_before_are_scored(runner: Runner) -> None:
    written(runner)
    words = ["plan", "all", "--scorer", scorer(runner, STONES)]
    assert runner.tournament(*words) == (0, "", "")
    assert "\nnot scored, so that twogtp's verdict counts: 2\n" in runner.tally("all").output
    done = runner.tournament("score", "all")
    wanted = "1_one_two: W+1 by twogtp, B+4\n1_two_one: W+9 by twogtp, W+14\n"
    assert done == (0, f"{wanted}2 of 2 games by two passes are scored\n", "")
    assert runner.tournament("score", "all").output == "2 of 2 games by two passes are scored\n"
    assert rows(runner) == [["B+4", "black"], ["W+14", "white"]]


def test_score_of_other_moves_does_not_count(runner: Runner) -> None:
    games = written(runner, f"scorer {scorer(runner, STONES)}")
    assert runner.tournament("score", "all").status == 0
    other = LINES["1_one_two"].replace("B1 C1 B2 C2 B3", "B3 C1 B2 C2 B1")
    (games / "1_one_two").write_text(other)
    assert rows(runner) == [["W+1", "white"], ["W+14", "white"]]


def test_run_that_is_stopped_while_a_game_is_scored_keeps_the_result(runner: Runner) -> None:
    command = scorer(runner, HANGS)
    words = ["all", *BOTH, "--scorer", command, "--jobs=1", *BOARD]
    run = runner.start("tournament", "play", *words)
    runner.wait_until((runner.folder / "asked").exists)
    kill(run.pid, signal.SIGTERM)
    assert runner.finish(run).status == 143
    assert runner.games() == {"1_one_two": LINES["1_one_two"]}
    assert runner.is_idle()
    scorer(runner, STONES)
    later = runner.tournament("play", "all")
    say = "tournament: games that aren't scored yet: 1; tournament score all scores them\n"
    assert (later.status, later.errors) == (0, say)
    assert runner.tournament("score", "all").status == 0
    assert rows(runner) == [["B+4", "black"], ["W+14", "white"]]
    assert runner.tournament("play", "all") == (0, "2 of 2 games have a result\n", "")


# GNU Go played this against itself, and passed where others play on. Played on to capture by GNU Go
# with --capture-all-dead, Black has won by 6.5: White's stones in the north-east are dead.
PASSED_EARLY = (
    "game 1: W+26.5 moves 46 restarts 0 0\n"
    "E5 C3 E3 G3 G5 E2 F2 F3 D2 C5 H4 G7 E7 C7 F8 C2 D8 C8 E4 D9 E9 C9 C1 B1 D1 B2 D6 C6 D3 "
    "D7 C4 B4 D5 E8 F7 F9 G8 G9 H9 E9 H8 D4 pass C4 pass pass\n"
)


@pytest.mark.gnugo
def test_dead_stones_by_gnu_go(runner: Runner) -> None:
    lines = ["option --size=9", "option --komi=6.5", "start-limit 600"]
    command = "/usr/games/gnugo --mode gtp --level 8 --chinese-rules"
    write_plan(runner.folder / "all", "ab", 1, f"scorer {command}", *lines)
    (runner.folder / "all/games/1_a_b").write_text(PASSED_EARLY)
    done = runner.tournament("score", "all")
    assert done.output.startswith("1_a_b: W+26.5 by twogtp, B+6.5\n")
