"""Engines that use a freedom of the standard aren't blamed, and engines that go beyond one are.

Each is asked the lessons about its freedom. `--count 30` takes so many seeds.
"""
from __future__ import annotations

import re
from typing import Dict, Optional, Sequence

import pytest

from .checking import PYTHON, WRONG, Checker, notes_of, only

FREE = PYTHON + " tests/engines/right/free {} --seed {} --ko {}"
SCORES = ("komi", "games")
HISTORY = ("start", "drawn", "record", "genmoves", "games")
KOS = ("ko", "drawn", "record", "genmoves", "games")
SUICIDES = ("suicide", "drawn", "genmoves", "games")
PLAYS = ("ko", "captures", "suicide", "genmoves", "games")
FREEDOMS: Dict[str, Sequence[str]] = {
    "rounds_komi": SCORES,
    "refuses_komi": SCORES,
    "estimates": ("record", *SCORES),
    "estimates_whole_points": SCORES,
    "estimates_in_singles": SCORES,
    "estimates_by_chance": SCORES,
    "keeps_an_estimate": ("record", *SCORES, "restarts"),
    "writes_as_streams": SCORES,
    "writes_exponents": SCORES,
    "counts_territory": ("record", *SCORES),
    "gives_points_for_a_handicap": (*SCORES, "handicaps"),
    "keeps_moves": ("record", "games"),
    "keeps_one_move": ("start", "drawn", "genmoves", "games"),
    "allows_suicide": SUICIDES,
    "allows_suicide_of_chains": SUICIDES,
    "situational_ko": KOS,
    "has_all_freedoms": ("captures", "komi", *SUICIDES),
}
# seeds of an engine that is blamed if it says the same score three times by chance
SEEDS, MOST_BLAMED = 12, 3
ALLOW_SUICIDE = (
    *("allows_suicide", "allows_suicide_of_chains", "has_all_freedoms"),
    *("suicide_and_no_ko", "captures_are_suicide"),
)
# the engines' rules of ko, which differ: each is right by one of them
KO_RULES = {
    "simple": "gtp_engine --policy random --ko simple",
    "positional": "gtp_engine --policy random --ko positional",
    "situational": FREE.format("situational_ko", 1, "simple"),
}
# what may be said of these engines, by what is random
MAY_BE_SAID = re.compile(
    r"it first refused an undo after \d+ undos? in a row"
    r"|\d+ moves? by genmove, not judged, as the options say|.*\bscores?\b.*"
)
# the lessons that notice engines that go beyond a freedom, and the command that is answered wrongly
BEYOND: Dict[str, tuple[Sequence[str], Optional[str]]] = {
    "half_of_komi_is_lost": (SCORES, "final_score"),
    "whole_komi_gets_a_half": (SCORES, "final_score"),
    "sign_of_komi_is_lost": (SCORES, "final_score"),
    "sign_of_a_score_is_lost": (SCORES, "final_score"),
    "score_is_turned": (SCORES, "final_score"),
    "first_komi_stays": (SCORES, "final_score"),
    "komi_is_reset_by_clear_board": (SCORES, "final_score"),
    "komi_is_reset_by_undo": (SCORES, "final_score"),
    "komi_is_forgotten_in_a_later_game": (SCORES, "final_score"),
    "komi_counts_twice": (SCORES, "final_score"),
    "large_komi_is_cut": (SCORES, "final_score"),
    "exact_komi_is_refused": (SCORES, "komi"),
    "undo_fails_at_once": (HISTORY, "undo"),
    "undo_fails_after_a_genmove": (HISTORY, "undo"),
    "history_is_not_refilled": (HISTORY, "undo"),
    # a board of 17x17 that is emptied by undos, whose corners are probed
    "refused_undo_takes_back": (("sizes",), None),
    "suicide_and_no_ko": (PLAYS, None),
    "captures_are_suicide": (PLAYS, None),
}


def suicide_options(name: str) -> Sequence[str]:
    """Returns the options of gtp_check for an engine, which may allow suicide."""
    return ("--suicide", "unasked") if name in ALLOW_SUICIDE else ()


def pytest_generate_tests(metafunc: pytest.Metafunc) -> None:
    if "seed" in metafunc.fixturenames:
        first, count = metafunc.config.getoption("--seed"), metafunc.config.getoption("--count")
        metafunc.parametrize("seed", range(first, first + (count or 1)))


@pytest.mark.parametrize("name", FREEDOMS)
def test_freedom_is_not_blamed(name: str, seed: int, checker: Checker) -> None:
    rule = ("simple", "positional")[(list(FREEDOMS).index(name) + seed) % 2]
    asked_rule = "unasked" if name == "situational_ko" else rule
    lessons = only(*FREEDOMS[name]) if seed % 10 else []
    options = ["--ko", asked_rule, "--seed", str(seed), *suicide_options(name), *lessons]
    check = checker.check(FREE.format(name, seed, rule), *options)
    assert (check.status, check.errors) == (0, ""), check.output
    assert check.report.total == 0
    assert [note for note in notes_of(check.report) if not MAY_BE_SAID.fullmatch(note)] == []


@pytest.mark.parametrize("name", [name for name in FREEDOMS if name in ALLOW_SUICIDE])
def test_only_suicide_is_blamed_where_it_is_asked(name: str, checker: Checker) -> None:
    options = ["--restarts", "4", "--trials", "6", *only(*SUICIDES)]
    check = checker.check(FREE.format(name, 1, "simple"), *options)
    assert (check.status, check.errors) == (1, "")
    assert check.report.complaints
    for complaint in check.report.complaints:
        assert complaint.right.startswith("suicide: ") or complaint.right == "the move isn't legal"


@pytest.mark.parametrize("rule", KO_RULES)
def test_no_rule_of_ko_is_blamed_where_ko_is_not_asked(rule: str, checker: Checker) -> None:
    check = checker.check(KO_RULES[rule], "--ko", "unasked", *only(*KOS))
    assert (check.status, check.errors) == (0, ""), check.output
    assert check.output.splitlines()[0].endswith(", ko unasked")


@pytest.mark.parametrize("asked", ["simple", "positional"])
def test_situational_ko_is_blamed_where_another_rule_is_asked(asked: str, checker: Checker) -> None:
    options = ["--restarts", "0", "--trials", "6", *only("ko", "drawn", "record")]
    check = checker.check(KO_RULES["situational"], "--ko", asked, *options)
    assert (check.status, check.errors) == (1, "")


@pytest.mark.parametrize("name", [name for name, row in BEYOND.items() if row[1] == "final_score"])
def test_no_score_is_blamed_where_none_is_asked(name: str, checker: Checker) -> None:
    check = checker.check(f"{WRONG}/beyond {name}", "--score", "unasked", "--only", "komi")
    assert (check.status, check.errors, check.report.total) == (0, "", 0), check.output


def test_engine_that_estimates_by_chance_is_seldom_blamed(checker: Checker) -> None:
    options = ["--restarts", "0", "--trials", "0", "--only", "komi"]
    blamed = 0
    for seed in range(SEEDS):
        engine = FREE.format("estimates_by_chance_in_whole_points", seed, "simple")
        check = checker.check(engine, "--seed", str(seed), *options)
        assert check.status in (0, 1) and check.errors == ""
        assert {complaint.name for complaint in check.report.complaints} <= {"final_score"}
        blamed += bool(check.report.complaints)
    assert blamed <= MOST_BLAMED


@pytest.mark.parametrize("name", BEYOND)
def test_engine_that_goes_beyond_a_freedom_is_blamed(name: str, checker: Checker) -> None:
    lessons, command = BEYOND[name]
    options = ["--restarts", "0", "--trials", "6", *suicide_options(name), *only(*lessons)]
    check = checker.check(f"{WRONG}/beyond {name}", *options)
    assert (check.status, check.errors) == (1, "")
    assert check.report.complaints[0].name == command or command is None


def test_moves_that_are_asked_and_never_answered_earn_no_pass(checker: Checker) -> None:
    # The engine takes only the board of one point, and fills it, which isn't judged as suicide. Of
    # this lesson one part is on that size.
    options = ["--suicide", "unasked", "--only", "genmoves"]
    check = checker.check(FREE.format("fills_one_point", 1, "simple"), *options)
    assert (check.status, check.errors) == (4, "")
    assert (check.report.total, check.report.starts) == (0, 2)
    # the sizes from 5 on until one is taken, and then each that a part is on
    sizes = " ".join(map(str, [*range(5, 26), 2, 3]))
    assert notes_of(check.report) == [
        "genmoves: no play and no genmove was answered rightly on any board of it",
        f"it refuses the sizes {sizes}",
        "1 move by genmove, not judged, as the options say",
    ]
