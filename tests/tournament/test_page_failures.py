"""The failures on the page of a tournament: their causes, their games, and where these are."""
from __future__ import annotations

import json
from typing import Dict

import pytest

from .html_page import Page, read
from .inside import module
from .runner import Runner
from .written import ENDED, write_plan, write_result, write_results

TAKEN = "an illegal move: the point is occupied; it wrote"


def page_of(runner: Runner) -> Page:
    """Returns the page of the tournament `all`."""
    runner.tournament("page", "all")
    return read(runner.folder / "all/page.html")


def test_failures_by_cause(runner: Runner) -> None:
    folder = runner.folder / "all"
    write_plan(folder, "ab", 5)
    forfeit = f"W+F(illegal move) {ENDED}"
    write_results(folder, {"1_a_b": forfeit, "2_a_b": forfeit, "3_a_b": f"abandoned white {ENDED}"})
    for name in ("logs", "notes"):
        (folder / name).mkdir()
    for game, number in (("1_a_b", 7), ("2_a_b", 99)):
        (folder / "logs" / game).write_text(f"noise\ntwogtp: game 1: black: at {number} it lied\n")
    (folder / "notes/3_a_b").write_text(
        f"3_a_b on x\n9 white late 5.001: 12 genmove w\nresult: abandoned white {ENDED}\n"
    )
    for game, side, command in (
        ("1_b_a", "white", "53 genmove w"),
        ("5_a_b", "black", "4 genmove b"),
    ):
        verdict = f"abandoned {side} {ENDED}"
        write_results(folder, {game: verdict})
        (folder / "notes" / game).write_text(
            f"{game} on x\n30 {side} ended 0.2: {command}: exit status 4\nresult: {verdict}\n"
        )
    (folder / "logs/4_a_b").write_text("noise\ntournament: nobody came\n")
    done = runner.tournament("page", "all", "-o", "page.html")
    assert done == (1, "page.html\n", "")
    page = read(runner.folder / "page.html")
    text = page.texts["failures"]
    # both forfeits have one cause, whose numbers differ
    assert text.count("it lied: 2 games") == 1
    assert "a forfeit (illegal move): 2 games" in text
    assert "b late: 1 game" in text and "no answer to genmove within the limit: 1 game" in text
    assert text.count("it ended at genmove: exit status 4: 2 games") == 1
    assert "nobody came: 1 game4_a_b (log)" in text
    links = [element.attributes.get("href") for element in page.elements if element.name == "a"]
    assert "all/logs/1_a_b" in links and "all/notes/3_a_b" in links
    assert "1_a_b (log)" in text and "3_a_b (no log, notes)" in text
    # of ten games five have a result, and four were never begun
    assert "no result: 5 games, 1 of them failed" in text
    assert "no result: 5\n" in runner.tally("all").output


def write_logs(runner: Runner, logs: Dict[str, str]) -> None:
    """Writes games that b forfeits, and their logs, in which `b: ` begins a line of twogtp."""
    folder = runner.folder / "all"
    write_plan(folder, "ab", 3)
    (folder / "logs").mkdir()
    for game, log in logs.items():
        verdict = f"{'BW'[game.endswith('b_a')]}+F(illegal move)"
        write_result(folder, game, f"{verdict} moves 1 restarts 0 0", "A1")
        colour = "white" if game.endswith("a_b") else "black"
        (folder / "logs" / game).write_text(log.replace("b: ", f"twogtp: game 1: {colour}: "))


def test_cause_is_one_though_its_command_and_its_point_differ(runner: Runner) -> None:
    logs = {
        "1_a_b": f'b: 1 unanswered, "73 genmove w": {TAKEN} "=73 B8\\n\\n"\n',
        "1_b_a": f'b: 1 unanswered, "6 genmove b": {TAKEN} "=6 c11\\n\\n"\n',
        "2_a_b": f'b: 1 unanswered, "9 genmove w": {TAKEN} "=9 T19\\n\\n"\n',
        "2_b_a": 'b: 1 unanswered, "6 genmove b": an illegal move: ko; it wrote "=6 A1\\n\\n"\n',
    }
    write_logs(runner, logs)
    text = page_of(runner).texts["failures"]
    # the last one of them is the example
    example = f'command 9, genmove w: {TAKEN} "=9 T19\\n\\n"'
    assert f"{example}: 3 games, alike but for numbers, points and colours" in text
    assert 'an illegal move: ko; it wrote "=6 A1\\n\\n": 1 game2_b_a' in text
    assert text.count("command ") == 2 and "unanswered" not in text


def test_log_that_has_only_the_cause_is_not_repeated(runner: Runner) -> None:
    lie = 'b: 1 unanswered, "6 genmove b": an illegal move: ko; it wrote "=6 A1\\n\\n"\n'
    write_logs(runner, {"1_b_a": lie, "2_b_a": "loading\n" + lie.replace("ko", "suicide")})
    text = page_of(runner).texts["failures"]
    assert text.count("the end of the log of") == 1 and "the end of the log of 2_b_a" in text


@pytest.mark.parametrize(
    "cause, words",
    [
        (
            '1 unanswered, "4 genmove b": its output ended, signal 11; it wrote ""',
            "command 4, genmove b, without a whole answer: its output ended, signal 11; it wrote"
            ' ""',
        ),
        (
            '3 unanswered, the first "1 boardsize 9": not a GTP reply (it begins with neither = nor'
            ' ?); it wrote "Hi\\n"',
            "3 commands without a whole answer, from command 1, boardsize 9, on: not a GTP reply"
            ' (it begins with neither = nor ?); it wrote "Hi\\n"',
        ),
        (
            '3 unanswered, the first "1 boardsize 13": unfit: the command failed, or was answered'
            ' wrongly; it wrote "?1 no\\n\\n"',
            "command 1, boardsize 13: unfit: the command failed, or was answered wrongly; it wrote"
            ' "?1 no\\n\\n"',
        ),
        (
            '0 unanswered: a reply to nothing that was asked; it wrote "=3\\n\\n"',
            'a reply to nothing that was asked; it wrote "=3\\n\\n"',
        ),
        ('not started: no such file: "x"', 'not started: no such file: "x"'),
    ],
)
def test_cause_in_words(cause: str, words: str) -> None:
    assert module("report.page.causes").in_words(cause) == words


def test_games_without_result_that_all_failed(runner: Runner) -> None:
    folder = runner.folder / "all"
    write_plan(folder, "ab", 2)
    write_results(folder, {"1_a_b": f"B+R {ENDED}", "1_b_a": f"B+R {ENDED}"})
    (folder / "logs").mkdir()
    for game in ("2_a_b", "2_b_a"):
        (folder / "logs" / game).write_text("tournament: nobody came\n")
    text = page_of(runner).texts["failures"]
    assert "no result: 2 games" in text and "failed" not in text.partition("Logs and")[0]


def test_viewer_is_told_why_and_where_engines_failed(runner: Runner) -> None:
    folder = runner.folder / "all"
    write_plan(folder, "ab", 2, "option --size=3", "option --komi=5")
    (folder / "logs").mkdir()
    (folder / "notes").mkdir()
    verdict = "abandoned white moves 2 restarts 1 1"
    write_result(folder, "1_a_b", verdict, "A1 B2")
    (folder / "notes/1_a_b").write_text(
        "1_a_b on x\n1 black A1 0.1\n2 white ended 0.2: 4 genmove w: signal 11\n"
        "0 white started 0.1\n2 white B2 0.1\n3 white ended 0.1: 9 play b C3: exit status 4\n"
        f"result: {verdict}\n"
    )
    (folder / "logs/1_a_b").write_text("loading\n\x1b[31mout of\x1b[0m luck\ntwogtp: game 1: x\n")
    write_result(folder, "1_b_a", "W+F(no move) moves 1 restarts 0 0", "A1")
    write_result(folder, "2_b_a", "W+5 moves 1 restarts 0 0", "A1")
    data = page_of(runner).data
    text = "it ended at play: exit status 4; the engines' last line in the log: out of luck"
    assert [data["texts"][at] for at in data["why"].values()] == [text]
    faults = [[move, side, data["texts"][at]] for move, side, at in data["faults"]["0"]]
    assert faults == [
        [2, 1, "it ended at genmove: signal 11"],
        [3, 1, "it ended at play: exit status 4"],
    ]
    # the log and notes of the first game, and nothing of the second
    assert (data["files"], data["folder"]) == ({"0": 3, "1": 0}, "")


def test_many_failures_are_a_small_page(runner: Runner) -> None:
    folder, count = runner.folder / "all", 2000
    write_plan(folder, "ab", count)
    (folder / "logs").mkdir()
    for seed in range(1, count + 1):
        write_result(folder, f"{seed}_a_b", "W+F(no move) moves 1 restarts 0 0", "A1")
        line = f"twogtp: game 1: black: {'x' * 300} at {seed}\n"
        (folder / "logs" / f"{seed}_a_b").write_text(line)
    page = page_of(runner)
    assert "a forfeit (no move): 2000 games" in page.texts["failures"]
    assert f"{'x' * 300} at 2000: 500 games" in page.texts["failures"]
    # of 500 there is a text of 300 characters, and of each a few characters
    assert len(json.dumps(page.data)) < 500 * 320 + 100 * count
