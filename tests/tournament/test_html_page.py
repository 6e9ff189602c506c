"""tournament page: its numbers are the tally's, and nothing of others becomes a part of it."""
from __future__ import annotations

import base64
import hashlib
import json
import os
import re
from pathlib import Path
from typing import Any, Callable, Dict, List, Optional

import pytest

from .hostile import write_hostile
from .html_page import Page, read
from .inside import module
from .runner import Runner
from .written import (
    ENDED,
    EVEN,
    LOST,
    WON,
    Pair,
    pairs_of,
    write_pairs,
    write_plan,
    write_result,
    write_results,
)

NONE = Pair(None, None)  # games without a result
Write = Callable[[Path], None]


def page_of(runner: Runner, *words: str) -> Page:
    """Returns the page of the tournament `all`."""
    done = runner.tournament("page", "all", *words)
    assert (done.output, done.errors) == ("all/page.html\n", "")
    return read(runner.folder / "all/page.html")


# ---- the numbers of the tally


def three(folder: Path) -> None:
    """Writes a tournament of three engines, in which sides fail in each way."""
    write_plan(folder, "abc", 5)
    verdicts = ["B+R", "W+R", "0", "limit", "B+F(illegal move)", "abandoned white", "unfit black"]
    games = [f"{seed}_{sides}" for seed in range(1, 6) for sides in "a_b b_a a_c c_a b_c".split()]
    found = {game: f"{verdicts[at % 7]} {ENDED}" for at, game in enumerate(games)}
    write_results(folder, found)


def apart(folder: Path) -> None:
    """Writes a tournament whose engines are in two groups that no games join."""
    write_plan(folder, "abcd", 3)
    found = {}
    for seed, verdicts in enumerate([("B+R", "W+R"), ("B+R", "B+R"), ("W+R", "B+R")], 1):
        for one, other in (("a", "b"), ("c", "d")):
            for sides, verdict in zip((f"{one}_{other}", f"{other}_{one}"), verdicts):
                found[f"{seed}_{sides}"] = f"{verdict} {ENDED}"
    write_results(folder, found)


def repeating(folder: Path) -> None:
    """Writes pairs of two engines of which some repeat others."""
    same = [WON._replace(first_moves=f"A{30 + at}", second_moves=f"B{30 + at}") for at in range(3)]
    write_pairs(folder, [*same, *same, LOST, EVEN, *same])


def unplayed(folder: Path) -> None:
    """Writes a tournament without a game."""
    write_plan(folder, "abc", 2)


WRITTEN: Dict[str, Write] = {
    "two engines": lambda folder: write_pairs(folder, pairs_of((3, 1, 4, 1, 5)), "ba"),
    "all won": lambda folder: write_pairs(folder, [WON] * 4),
    "three engines": three,
    "two groups": apart,
    "repeated pairs": repeating,
    "no game": unplayed,
}
RULES = [[], ["--abandoned", "half"], ["--abandoned", "out", "--no-winner", "out"]]


def elo(value: Optional[float], infinite: str = "inf") -> str:
    """Returns a difference in Elo as it is written; None is an infinite one."""
    return infinite if value is None else f"{round(value):+}"


def of_pairs(found: Dict[str, Any]) -> List[str]:
    """Returns the score of pairs and the difference in Elo, each with its interval."""
    if found["score"] is None:
        return []
    score, (low, high) = found["score"], found["elo_interval"]
    numbers = [elo(found["elo"], "-inf" if score < 0.5 else "+inf")]
    numbers.append(f"{elo(low, '-inf')} to {elo(high, '+inf')}")
    interval = " to ".join(f"{100 * end:.1f}" for end in found["interval"])
    return [*map(str, found["pairs"]), f"{100 * score:.1f}", interval, *numbers]


@pytest.mark.parametrize("rules", RULES, ids=" ".join)
@pytest.mark.parametrize("write", WRITTEN.values(), ids=WRITTEN)
def test_numbers_are_those_of_the_tally(write: Write, rules: List[str], runner: Runner) -> None:
    write(runner.folder / "all")
    page = page_of(runner, *rules)
    tally = json.loads(runner.tally("all", "--json", *rules).output)
    assert f"games{tally['results']} of {tally['games']}" in page.texts["state"]
    rows = page.rows.get("ranking", [])[1:]
    engines = {engine["name"]: engine for engine in tally["engines"]}
    assert sorted(row[1] for row in rows) == sorted(engines if tally["results"] else [])
    ratings = {each["engine"]: each for each in tally["ratings"]}
    for row in rows:
        engine, rating = engines[row[1]], ratings.get(row[1])
        assert (float(row[6]), int(row[8])) == (engine["points"], engine["won"])
        if rating:
            low, high = map(elo, rating["elo_interval"])
            assert row[2:4] == [elo(rating["elo"]), f"{low} to {high}"]
            better = rating["better_than_next"]
            assert row[4] == ("" if better is None else f"{100 * better:.1f} %")
        elif len(engines) == 2:
            assert row[2:4] == of_pairs(engine)[-2:]
        else:
            assert row[2:4] == ["-", "-"]
    assert [row[1] for row in rows][: len(ratings)] == list(ratings)
    assert [[row[0], *row[3:]] for row in page.rows.get("pairs", []) if " - " in row[0]] == [
        [" - ".join(pair["engines"]), *of_pairs(pair)] for pair in tally["pairs"] if of_pairs(pair)
    ]
    cross = page.rows.get("crosstable", [[]])
    for pair in tally["pairs"] if rows else []:
        one, other = pair["engines"]
        cell = next(row for row in cross if row[0] == one)[cross[0].index(other)]
        assert cell.startswith(f"{pair['won']}-{pair['lost']}" if pair["games"] else "")


@pytest.mark.parametrize(
    "words, said",
    [
        (
            [],
            "an abandoned game or a late game counts as lost by the engine that failed; a game"
            " whose setup an engine refuses is left out, with its pair.",
        ),
        (
            ["--abandoned", "half", "--late", "out"],
            "an abandoned game or a game whose setup an engine refuses counts as half a point for"
            " each engine; a late game is left out, with its pair.",
        ),
    ],
)
def test_what_failed_games_count_is_said_in_words(
    words: List[str], said: str, runner: Runner
) -> None:
    write_pairs(runner.folder / "all", [WON] * 4)
    assert f"Where a side failed, {said}" in page_of(runner, *words).texts["ranking"]


def test_who_is_best_and_how_sure_that_is(runner: Runner) -> None:
    # the score is 0.5625, and by R its interval from 0.5095 to 0.6145: the middle of that is 0.562,
    # its standard error 0.105 / 2 / 1.96 = 0.0268, and a half is 2.314 of these below, which the
    # normal distribution has above it in 98.97 % of cases
    write_pairs(runner.folder / "all", pairs_of((10, 20, 40, 30, 20)))
    page = page_of(runner)
    assert (
        "a is best: it is 99.0 % sure that it is stronger than the next, b" in page.texts["ranking"]
    )
    assert [row[4] for row in page.rows["ranking"][1:]] == ["99.0 %", ""]


@pytest.mark.parametrize(
    "write, said",
    [
        (
            lambda folder: write_pairs(folder, [EVEN] * 3),
            "a leads, but it is only 50.0 % sure that it",
        ),
        (
            lambda folder: write_pairs(folder, [LOST] * 60),
            "b is best: it is more than 99.9 % sure that",
        ),
        (three, None),
        (apart, ""),
        (lambda folder: write_pairs(folder, [NONE]), ""),
    ],
    ids=["even", "all lost", "three engines", "two groups", "no game"],
)
def test_sentence_on_the_best(write: Write, said: Optional[str], runner: Runner) -> None:
    write(runner.folder / "all")
    page = page_of(runner)
    found = re.findall(r'<p class="best">(.*?)</p>', page.text)
    if said is None:  # the tally's number
        first, second = json.loads(runner.tally("all", "--json").output)["ratings"][:2]
        chance, other = f"{100 * first['better_than_next']:.1f} %", second["engine"]
        said = f"{first['engine']} leads, but it is only {chance} sure"
        said = f"{said} that it is stronger than the next, {other}"
    assert len(found) == bool(said) and "".join(found).startswith(said)


def test_two_engines_are_ranked_by_their_pairs(runner: Runner) -> None:
    write_pairs(runner.folder / "all", pairs_of((10, 20, 40, 30, 20)))
    ranking = page_of(runner).rows["ranking"]
    # 0.5625 of the points, and by R 0.5095 to 0.6145, as in test_pairs.py
    assert [row[1:4] for row in ranking[1:]] == [
        ["a", "+44", "+7 to +81"],
        ["b", "-44", "-81 to -7"],
    ]


@pytest.mark.parametrize("count", [30, 104, 150])
def test_test_is_over_where_the_tally_says(count: int, runner: Runner) -> None:
    # as in test_page.py: by R it is over at the pair of seed 104
    write_pairs(runner.folder / "all", ([WON, WON, EVEN] * 50)[:count])
    options = ["--sprt", "0", "10"]
    page = page_of(runner, *options)
    line = runner.tally("all", *options).output.rstrip("\n")
    assert line in page.texts["test"]
    assert ("over at seed 104" in page.texts["test"]) == (count >= 104)
    said = "the test of a - b is over10 Elo accepted, not 0 Elo, at the pair of seed 104"
    assert (said in page.texts["state"]) == (count >= 104)
    (counts,) = [row for row in page.rows["test"] if row[0] == "pairs"]
    assert list(map(int, counts[1:])) == [0, 0, min(count, 104) // 3, 0, sum(map(int, counts[5:]))]


@pytest.mark.parametrize("count, is_over", [(103, False), (104, True)])
def test_no_more_games_are_missed_once_the_test_is_over(
    count: int, is_over: bool, runner: Runner
) -> None:
    write_pairs(runner.folder / "all", [*([WON, WON, EVEN] * 50)[:count], NONE, NONE])
    for result in (runner.folder / "all/games").iterdir():
        os.utime(result, (1, 1))
    page = page_of(runner, "--sprt", "0", "10")
    assert ("not running" in page.texts["state"]) != is_over


def test_course_of_the_score_ends_with_the_numbers_of_the_tally(runner: Runner) -> None:
    repeating(runner.folder / "all")
    plan = module("config.plan_file").read_plan(str(runner.folder / "all"))
    pairs = module("stats.summary").Counts(plan, str(runner.folder / "all")).pairs
    (pairing,) = pairs.pairings()
    course = module("report.page.courses").course_of
    for is_turned in (False, True):
        counts = pairs.of_two(pairing)
        counts = counts.turned() if is_turned else counts
        found = course(pairs, pairing, is_turned)
        assert [after.pairs for after in found] == list(range(1, 12))
        assert found[-1][1] == counts.score()
        assert found[-1][2:] == pytest.approx(counts.interval(), rel=1e-12)
    # after two pairs, both won, by the expression in test_pairs.py
    two = course(pairs, pairing, False)[1]
    assert (two.score, two.high) == (1.0, 1.0)
    assert two.low == pytest.approx(2.5 / 3 - 1.959963984540054 * (5 / 36 / 2) ** 0.5, rel=1e-12)


# ---- games


def test_games_are_those_of_the_folder(runner: Runner) -> None:
    folder = runner.folder / "all"
    write_plan(folder, "ab", 2, "option --size=5", "option --handicap=2", "option --komi=7")
    write_result(folder, "1_a_b", "W+5 moves 4 restarts 0 1", "A1 E5 pass pass")
    write_result(folder, "2_b_a", "B+R moves 1 restarts 0 0", "C3")
    (folder / "notes").mkdir()
    (folder / "notes/1_a_b").write_text(
        "1_a_b on here\n0 white started 0.5\n1 white B2 0.5\n1 white undone\n1 white A1 2.000\n"
        "2 black E5 opening\n3 white pass 0.25\n4 black pass 1.000 cpu 0.9\n"
        "thought: black 1.000, white 2.750\nresult: W+5 moves 4 restarts 0 1\n"
    )
    page = page_of(runner)
    data = page.data
    assert data["engines"] == ["a", "b"] and data["sides"] == [[0, 1], [1, 0]]
    assert (data["size"], data["komi"], data["handicap"]) == (5, "7", 2)
    assert data["number"] == [0, 3] and data["count"] == [4, 1]
    assert [data["verdicts"][at] for at in data["verdict"]] == ["W+5", "B+R"]
    assert (data["winner"], data["restarts"]) == ([1, 0], {"0": [0, 1]})
    assert (data["black"], data["white"]) == ([1.0, None], [2.75, None])
    planes = page.planes()
    assert list(planes[:5]) == [0, 24, 25, 25, 12]
    # 2 seconds to some 3 percent, an opening, a quarter, one second, and a game without notes
    seconds = [level and data["first"] * data["growth"] ** (level - 2) for level in planes[5:]]
    assert seconds == pytest.approx([2, 0, 0.25, 1, 0], rel=0.035)
    assert page.rows["games"][1:] == [
        ["1", "a", "b", "W+5", "4", "1.0", "2.8\n"],
        ["2", "b", "a", "B+R", "1\n"],
    ]


def test_moves_of_no_time_are_of_none(runner: Runner) -> None:
    folder = runner.folder / "all"
    write_plan(folder, "ab", 1, "option --size=5", "option --komi=7")
    verdict = "B+R moves 8 restarts 0 0"
    write_result(folder, "1_a_b", verdict, "A1 E5 A2 E4 A3 E3 A4 E2")
    # the mean of Black's moves is 0.00025 s; those of White take four milliseconds each
    times = zip("A1 E5 A2 E4 A3 E3 A4 E2".split(), ["0.000", "0.004"] * 3 + ["0.001", "0.004"])
    lines = [
        f"{at} {'white' if at % 2 == 0 else 'black'} {vertex} {seconds}\n"
        for at, (vertex, seconds) in enumerate(times, 1)
    ]
    (folder / "notes").mkdir()
    (folder / "notes/1_a_b").write_text(f"1_a_b on here\n{''.join(lines)}result: {verdict}\n")
    page = page_of(runner)
    (black,) = [row for row in page.rows["times"] if row[0] == "a"]
    assert black[2:] == ["4", "0.00025", "0.000", "0.001", "0.001", "0.001"]
    (white,) = [row for row in page.rows["times"] if row[0] == "b"]
    assert white[2:] == ["4", *["0.004"] * 5]
    assert "below 1 ms: 3 moves" in page.text


def test_moves_of_large_boards_have_two_planes(runner: Runner) -> None:
    folder = runner.folder / "all"
    write_plan(folder, "ab", 1)
    write_result(folder, "1_a_b", "B+R moves 3 restarts 0 0", "T19 pass A2")
    # T19 is the last of 361 points from 0 on, the pass is 361, and A2 is behind the first row
    assert list(page_of(runner).planes()) == [360 - 256, 361 - 256, 19, 1, 1, 0, 0, 0, 0]


def test_scorer_counts(runner: Runner) -> None:
    folder = runner.folder / "all"
    write_plan(folder, "ab", 1, "option --size=3", "option --komi=5", "scorer x")
    moves = "B1 C1 B2 C2 B3 pass pass"
    write_result(folder, "1_a_b", "W+1 moves 7 restarts 0 0", moves)
    results, scores = module("store.results"), module("store.scores")
    plan = module("config.plan_file").read_plan(str(folder))
    result = results.Rule(plan).read(str(folder / "games/1_a_b"))
    score = scores.Score("B+4", scores.BY_STONES, ("C1", "C2"))
    scores.write(str(folder), "1_a_b", "x", result, score)
    data = page_of(runner).data
    assert data["verdicts"] == ["B+4"]
    assert (data["dead"], data["other"]) == ({"0": [2, 5]}, {"0": "W+1"})


def test_without_moves(runner: Runner) -> None:
    write_pairs(runner.folder / "all", [WON, LOST])
    page = page_of(runner, "--without-moves")
    assert page.data["moves"] is False and page.data["count"] == [30] * 4
    assert [found["id"] for found, _ in page.scripts if "type" in found] == ["data"]


@pytest.mark.parametrize(
    "verdicts, said",
    [
        (["B+R", "W+R"], "2 games: from 30 to 30 moves, the middle one 30."),
        (
            ["B+R", "abandoned white"],
            "1 game: from 30 to 30 moves, the middle one 30. "
            "Games that were broken off aren't counted here.",
        ),
        (
            ["abandoned black", "abandoned white"],
            "2 games: from 30 to 30 moves, the middle one 30. All were broken off.",
        ),
    ],
    ids=["none", "one", "all"],
)
def test_note_says_which_lengths_are_counted(
    verdicts: List[str], said: str, runner: Runner
) -> None:
    write_plan(runner.folder / "all", "ab", 1)
    found = {game: f"{verdict} {ENDED}" for game, verdict in zip(["1_a_b", "1_b_a"], verdicts)}
    write_results(runner.folder / "all", found)
    runner.tournament("page", "all")
    (note,) = re.findall(
        r"[0-9]+ games?: from [^<]*", (runner.folder / "all/page.html").read_text()
    )
    assert note == said


# ---- what others write


@pytest.fixture
def hostile(runner: Runner) -> Page:
    """Returns the page of a tournament that tries to become a part of it."""
    write_hostile(runner.folder / "all")
    runner.tournament("page", "all")
    return read(runner.folder / "all/page.html")


def test_nothing_of_others_is_an_element(hostile: Page) -> None:
    assert len(hostile.own_scripts) == 1 and len(hostile.styles) == 1
    types = [attributes.get("type") for attributes, _ in hostile.scripts]
    assert set(types) == {"application/json", "text/plain", None}
    foreign = {"iframe", "img", "object", "embed", "base", "link", "image", "foreignobject"}
    assert [element for element in hostile.elements if element.name in foreign] == []
    assert [
        (element.name, name)
        for element in hostile.elements
        for name, value in element.attributes.items()
        if name.startswith("on") or name == "style" or "script:" in (value or "")
    ] == []
    # and yet it is there to be read
    assert "<img src=x" in hostile.texts["failures"] and "<img src=x" in hostile.texts["plan"]
    assert "\\u202e" in hostile.texts["plan"] and "\u202e" not in hostile.text


def test_only_the_script_and_the_style_of_the_page_are_let_run(hostile: Page) -> None:
    (policy,) = (
        element.attributes["content"] or ""
        for element in hostile.elements
        if element.attributes.get("http-equiv") == "Content-Security-Policy"
    )
    rules = dict(rule.split(" ", 1) for rule in policy.split("; "))

    def hashed(text: str) -> str:
        return f"'sha256-{base64.b64encode(hashlib.sha256(text.encode()).digest()).decode()}'"

    assert rules == {
        "default-src": "'none'",
        "script-src": hashed(hostile.own_scripts[0]),
        "style-src": hashed(hostile.styles[0]),
        "connect-src": "'none'",
        "base-uri": "'none'",
        "form-action": "'none'",
    }
    # of the network there is only the name of SVG
    addresses = re.findall(r"\bhttps?://[^\"'\s<]*", hostile.text)
    assert set(addresses) == {"http://www.w3.org/2000/svg"}


def test_links_that_need_the_script_are_none_without_it(runner: Runner) -> None:
    three(runner.folder / "all")
    links = [found.attributes for found in page_of(runner).elements if found.name == "a"]
    addresses = [link["href"] or "" for link in links if "href" in link]
    assert [address for address in addresses if re.match("#.*=", address)] == []
    assert {(link.get("data-to") or "").partition("=")[0] for link in links} == {
        *("", "#game", "#engine")
    }


# ---- the style


def test_each_way_to_win_or_to_lose_has_its_own_colour(runner: Runner) -> None:
    write_pairs(runner.folder / "all", [WON])
    page = page_of(runner)
    tints = dict(
        re.findall(r"[.]end[.]((?:won|lost|none)[-.\w]*) { --tint: ([^;]*);", page.styles[0])
    )
    kinds = [kind for kind in page.data["kinds"] if kind not in ("draw", "limit", "in play")]
    found = [tints.get(f"{how}.{kind}", tints[how]) for how in ("won", "lost") for kind in kinds]
    assert len(set(found)) == len(found) == 14
    found = [tints.get(f"none.{kind}", tints["none"]) for kind in ("draw", "limit", "other-failed")]
    assert len(set(found)) == 3


def test_dark_is_for_screens(runner: Runner) -> None:
    write_pairs(runner.folder / "all", [WON])
    (style,) = page_of(runner).styles
    media = re.findall(r"@media ([^{]*) {\s*:root[^{]*data-shade", style)
    assert media == ["screen and (prefers-color-scheme: dark)", "screen"]
    assert style.count("data-shade") == len(media)


# ---- where it is written


def test_page_that_cannot_be_written(runner: Runner) -> None:
    write_pairs(runner.folder / "all", [WON])
    done = runner.tournament("page", "all", "-o", "none/page.html")
    assert (done.status, done.output) == (1, "")
    assert done.errors.startswith("tournament: none/page.html") and "No such file" in done.errors
    (runner.folder / "there").mkdir()
    assert runner.tournament("page", "all", "-o", "there").status == 1
    assert sorted(os.listdir(runner.folder)) == ["all", "there"]
