"""The page of a tournament in a browser: boards, the table of games, and what mustn't run."""
from __future__ import annotations

import functools
import json
import re
from pathlib import Path
from typing import Any, Callable, Dict, Iterator, List, Tuple

import pytest

from tests.shared.processes import wait_until

from .browser import answer, shown, without_policy
from .devtools import chromium
from .firefox import firefox
from .hostile import RUNS, write_hostile
from .runner import Runner, engines
from .written import write_plan, write_result

pytestmark = [pytest.mark.chromium, pytest.mark.xdist_group("chromium")]

# the last board of each game, its score by area, and its verdict
BOARDS = """
const found = {};
for (const game of games) {
  const positions = positionsOf(await recordOf(game)), last = positions[positions.length - 1];
  found[game.name] = [asText(last), scoreOf(last, data.komi), game.verdict, game.kind];
}
return found;
"""
BOTH = engines(
    one="gtp_engine --policy random --seed %s", two="gtp_engine --policy random --seed 10%s"
)
# of a board its size, its handicap, the rule of ko, and how many moves a game has at most
SETUPS = {
    "1x1": (1, 0, "simple", 20),
    "2x2": (2, 0, "simple", 60),
    "5x5": (5, 0, "simple", 200),
    "9x9 with 5 stones": (9, 5, "simple", 200),
    "13x13": (13, 0, "positional", 300),
    "19x19 with 7 stones": (19, 7, "simple", 500),
    "25x25 with 9 stones": (25, 9, "positional", 700),
}


@pytest.fixture(scope="module")
def played(shared_runner: Runner, request: pytest.FixtureRequest) -> Iterator[Dict[str, Path]]:
    """Returns the folders of tournaments that were played, with their pages. Each has two games for
    each of four seeds, or for as many as --count asks for."""
    found, seeds = {}, str(request.config.getoption("--count") or 4)
    for name, (size, stones, ko, most) in SETUPS.items():
        folder = name.replace(" ", "-")
        board = ["--size", size, "--komi", "6.5", "--handicap", stones, "--max-moves", most]
        words = [f"{word} --ko {ko}" for word in BOTH]
        words += ["--seeds", seeds, "--", *map(str, board), "--show"]
        shared_runner.tournament("play", folder, *words)
        assert shared_runner.tournament("page", folder).status == 0
        found[name] = shared_runner.folder / folder
    yield found


def differences(folder: Path, ask: Callable[[Path, str], Any] = answer) -> List[str]:
    """Returns the games whose last board, or whose score, isn't that of twogtp, in a browser."""
    found: Dict[str, List[str]] = ask(folder / "page.html", BOARDS)
    assert len(found) == len(list((folder / "games").iterdir())) >= 8
    wrong = []
    for name, (board, score, verdict, kind) in found.items():
        _, _, last = (folder / "games" / name).read_text().split("\n", 2)
        if last != f"{board}\n" or kind in ("score", "draw") and score != verdict:
            wrong.append(name)
    return wrong


@pytest.mark.parametrize("name", SETUPS)
def test_last_boards_are_those_of_twogtp(name: str, played: Dict[str, Path]) -> None:
    assert differences(played[name]) == []


# rules with a fault each, which games on 5x5 show
FAULTS = {
    "one stone a capture": ("of chain.points) points[point] = 0", "of [next]) points[point] = 0"),
    "no capture below": (
        "if (at >= size) found.push(at - size)",
        "if (at > size) found.push(at - size)",
    ),
}


@pytest.mark.parametrize("fault", FAULTS)
def test_fault_in_the_rules_would_be_noticed(fault: str, played: Dict[str, Path]) -> None:
    text = (played["5x5"] / "page.html").read_text()
    right, wrong = FAULTS[fault]
    assert text.count(right) == 1
    text = text.replace(right, wrong)
    assert differences(played["5x5"], functools.partial(answer, text=text)) != []


# ---- use


TAKEN = '"6 genmove b": an illegal move: the point is occupied; it wrote "=6 a2\\n\\n"'


@pytest.fixture(scope="module")
def written(shared_runner: Runner) -> Path:
    """Returns the page of three games that were written by hand."""
    folder = shared_runner.folder / "written"
    write_plan(folder, "ab", 2, "option --size=3", "option --komi=5")
    # Black takes the corner at A1 by its third move, after which White may not play there
    write_result(folder, "1_a_b", "B+R moves 6 restarts 0 0", "B1 A1 B2 C3 A2 pass")
    write_result(folder, "1_b_a", "W+F(illegal move) moves 2 restarts 0 0", "A1 A2")
    (folder / "notes").mkdir()
    (folder / "notes/1_b_a").write_text(
        "1_b_a on here\n2 white A2 0.000\nresult: W+F(illegal move) moves 2 restarts 0 0\n"
    )
    (folder / "logs").mkdir()
    (folder / "logs/1_b_a").write_text(f"oh no\ntwogtp: game 1: black: 1 unanswered, {TAKEN}\n")
    write_result(folder, "2_a_b", "limit moves 4 restarts 1 0", "A1 A2 A3 B1")
    (folder / "notes/2_a_b").write_text(
        "2_a_b on here\n3 black ended 0.5: 7 genmove b: signal 9\n"
        "result: limit moves 4 restarts 1 0\n"
    )
    shared_runner.tournament("page", "written")
    return folder / "page.html"


# what is done, and what is then returned; and what that is, by hand
EVERY = ["B+R", "W+F(illegal move)", "limit"]
USES: Dict[str, Tuple[str, Any]] = {
    "all games": ("return verdicts()", EVERY),
    "a verdict": ('set("by-text", "f("); return verdicts()', ["W+F(illegal move)"]),
    "moves": ('set("by-least", "3"); return verdicts()', ["B+R", "limit"]),
    "an end": ('set("by-kind", "failed"); return verdicts()', ["W+F(illegal move)"]),
    "a colour": (
        'set("by-engine", "1"); set("by-colour", "0"); return verdicts()',
        ["W+F(illegal move)"],
    ),
    # a has Black in the first and the third game, and wins the first two
    "a result": (
        'set("by-engine", "0"); set("by-result", "won"); const won = verdicts();'
        ' set("by-result", "lost"); set("by-engine", "1"); const lost = verdicts();'
        ' set("by-engine", ""); return [won, lost, verdicts(), byId("by-result").disabled]',
        [["B+R", "W+F(illegal move)"], ["B+R", "W+F(illegal move)"], EVERY, True],
    ),
    "sorted": ("sort(); return verdicts()", ["W+F(illegal move)", "limit", "B+R"]),
    "sorted the other way": (
        "sort(); sort(); return [order(), ...verdicts()]",
        ["descending", "B+R", "limit", "W+F(illegal move)"],
    ),
    # by hand: scores from Black's greatest win to White's, resignations, time, forfeits, no winner
    "sorted by verdict": (
        "const of = (verdict, kind, winner = -1) => ({verdict, kind, winner}), some = ["
        ' of("unfit black", "unfit"), of("W+R", "resignation", 1), of("B+2.5", "score", 0),'
        ' of("W+12.5", "score", 1), of("0", "draw"), of("abandoned white", "late", 0),'
        ' of("W+F(no move)", "forfeit", 1), of("B+R", "resignation", 0), of("limit", "limit"),'
        ' of("B+12.5", "score", 0), of("W+2.5", "score", 1), of("B+T", "time", 0)];'
        ' return some.map(it => [orderOf(it), it.verdict]).sort().map(it => it[1]).join(", ")',
        "B+12.5, B+2.5, 0, W+2.5, W+12.5, B+R, W+R, B+T, W+F(no move), limit, unfit black,"
        " abandoned white",
    ),
    "keys": (
        'await open("1_a_b"); ["Home", "ArrowRight", "ArrowRight"].forEach(press); return said()',
        "2 of 6: White A1",
    ),
    "keys of ten": (
        'await open("1_a_b"); press("ArrowUp"); const up = said(); press("ArrowDown");'
        ' return [byId("viewer").textContent.includes("↓ ten on, ↑ ten back"), up, said()]',
        [True, "The empty board", "6 of 6: White pass. The end: B+R"],
    ),
    "capture": (
        'await open("1_a_b", 5);'
        ' return [said(), byId("captured0").textContent, all("#board .stone").length]',
        ["5 of 6: Black A2, captures 1", "1 captured", 4],
    ),
    "end": ('await open("1_a_b"); return said()', "6 of 6: White pass. The end: B+R"),
    "no time": (
        'await open("1_b_a"); return said()',
        "2 of 2: White A2, 0.000 s. b tried A2, where a stone stood. The end: W+F(illegal move)",
    ),
    # it is marked where the record ends, and not before
    "a refused move at the end": (
        "const found = []; for (const move of [1, 2]) {"
        ' await open("1_b_a", move); found.push(all("#board .refused").length); } return found',
        [0, 1],
    ),
    "why": (
        'await open("1_b_a"); return document.querySelector(".why").textContent',
        "b: forfeit (illegal move): command 6, genmove b: an illegal move: the point is occupied;"
        ' it wrote "=6 a2\\n\\n"; the engines\' last line in the log: oh no log notes',
    ),
    "restarts": (
        'await open("2_a_b"); const [button] = all(".faults button"); click(button);'
        ' return [button.textContent, said(), all("#spent .failure").length]',
        [
            "3",
            "3 of 4: Black A3. Before it a failed: it ended at genmove: signal 9",
            1,
        ],
    ),
    "files": (
        'const link = it => [it.textContent, it.getAttribute("href")]; set("by-kind", "failed");'
        ' return all("#list tbody td a").map(link)',
        [["log", "logs/1_b_a"], ["notes", "notes/1_b_a"]],
    ),
    # each game has a board, one has two files, and ten heads sort
    "links look so": (
        "const ways = it => getComputedStyle(it).textDecorationLine;"
        ' return all("#list a, #list thead button").map(ways)',
        ["underline"] * (3 + 2 + 10),
    ),
    "next game": (
        'await open("1_a_b"); press("]"); const name = byId("viewer-name");'
        ' while (name.textContent.startsWith("a - b")) await pause(); return name.textContent',
        "b - a, seed 1",
    ),
    "numbers": (
        'await open("1_a_b", 2); press("n"); return all("#board .count").map(it => it.textContent)',
        ["2", "1"],
    ),
    # Black has A1, A2, B1 and B2, and White C3; what is between them is nobody's, and komi is 5
    "area": (
        'await open("1_a_b", 5); press("a"); return said()',
        "5 of 6: Black A2, captures 1. By area: W+2",
    ),
    "text": (
        'return asText(positionsOf(await recordOf(byName.get("1_a_b"))).pop())',
        ". . O 3\nX X . 2\n. X . 1\nA B C\ncaptures B 1 W 0\n",
    ),
    "back": (
        'location.hash = "#plan"; await pause(); location.hash = "#game=1_a_b";'
        ' while (!byId("viewer").open) await pause(); history.back();'
        ' for (let at = 0; at < 40 && byId("viewer").open; at++) await pause();'
        ' return [byId("viewer").open, location.hash]',
        [False, "#plan"],
    ),
    "a link for the second time": (
        'const link = document.querySelector("#failures h3 a"), found = [];'
        ' for (let time = 0; time < 2; time++) { byId("filter").reset(); change(); link.click();'
        " for (let at = 0; at < 40 && verdicts().length > 1; at++) await pause();"
        " found.push(verdicts()); } return found",
        [["W+F(illegal move)"], ["W+F(illegal move)"]],
    ),
    "SGF": (
        'return sgfOf(await recordOf(byName.get("2_a_b"))).replace("\\n", "")',
        "(;FF[4]GM[1]CA[UTF-8]AP[Vintsaky]SZ[3]KM[5]PB[a]PW[b]RE[Void]GN[2_a_b]"
        "C[limit, 4 moves, restarts 1 / 0];B[ac];W[ab];B[aa];W[bc])\n",
    ),
}
ALL = """
const all = selector => [...document.querySelectorAll(selector)], found = {};
const verdicts = () => all("#list tbody tr").map(row => row.children[3].textContent);
const sort = () => click(document.querySelector("[data-key=count]"));
const order = () => document.querySelector("[aria-sort]").getAttribute("aria-sort");
const open = (name, move) => openGame(byName.get(name), move);
const said = () => byId("comment").textContent;
for (const [name, use] of Object.entries({%s})) {
  byId("filter").reset();
  Object.assign(table, {key: "seed", isDown: false});
  change();
  for (const id of ["numbers", "area"]) byId(id).checked = false;
  found[name] = await use();
  byId("viewer").close();
}
return found;
"""


ALL %= ",".join(f"{json.dumps(name)}: async () => {{{use}}}" for name, (use, _) in USES.items())
EXPECTED = {name: result for name, (_, result) in USES.items()}


def test_uses(written: Path) -> None:
    assert answer(written, ALL) == EXPECTED


AT_LAST = 'while (!byId("comment").textContent) await pause(); return byId("comment").textContent'


@pytest.mark.parametrize(
    "fragment, text",
    [
        ("#game=1_b_a&move=1", "1 of 2: Black A1"),
        ("#game=2_a_b", "4 of 4: White B1, captures 1. The end: limit"),
    ],
)
def test_address_opens_a_position(fragment: str, text: str, written: Path) -> None:
    assert answer(written, AT_LAST, fragment) == text


def test_address_of_failures_filters(written: Path) -> None:
    fragment = "#engine=b&kind=forfeit&blamed=1"
    script = 'return byId("found").textContent + byId("list").querySelector("tbody").textContent'
    found = answer(written, script, fragment)
    assert found.startswith("1 of 3 games") and "W+F(illegal move)" in found


# ---- phones

NARROW = 390  # pixels, of a phone that is held upright
# of each text of a picture its height in pixels, and how far the page goes to the right
TEXTS = """[...document.querySelectorAll("svg text")].map(it =>
  parseFloat(getComputedStyle(it).fontSize) * it.ownerSVGElement.getScreenCTM().a)"""
RIGHT = "document.documentElement.scrollWidth"


def test_texts_of_charts_can_be_read_on_a_phone(played: Dict[str, Path], tmp_path: Path) -> None:
    page = played["9x9 with 5 stones"] / "page.html"
    screen = {"width": NARROW, "height": 844, "deviceScaleFactor": 2, "mobile": True}
    with chromium(tmp_path) as browser:
        browser.ask("Emulation.setDeviceMetricsOverride", **screen)
        browser.open(f"file://{page}")
        assert wait_until(lambda: bool(browser.value("document.readyState === 'complete'")))
        heights = browser.value(TEXTS)
        assert len(heights) > 40 and min(heights) >= 10
        assert browser.value(RIGHT) == NARROW


def test_page_without_moves_has_no_links_to_boards(written: Path) -> None:
    text = written.read_text().replace('"moves":true', '"moves":false')
    script = 'return [...document.querySelectorAll("#failures a[href]")].map(it => it.textContent)'
    assert answer(written, script, text=text) == ["1 game", "log", "notes"]
    assert "1_b_a" in answer(written, script)


# ---- what mustn't run

PLANTED = f"<main><img src=x onerror={RUNS}><script>{RUNS}</script>"


@pytest.fixture(scope="module")
def hostile(shared_runner: Runner) -> Path:
    """Returns the page of a hostile tournament."""
    write_hostile(shared_runner.folder / "hostile")
    shared_runner.tournament("page", "hostile")
    return shared_runner.folder / "hostile/page.html"


@pytest.mark.parametrize("has_policy", [True, False], ids=["with policy", "without policy"])
@pytest.mark.parametrize("is_planted", [False, True], ids=["as it is", "with a hole"])
def test_nothing_of_others_runs(is_planted: bool, has_policy: bool, hostile: Path) -> None:
    text = hostile.read_text(encoding="utf-8")
    text = text if has_policy else without_policy(text)
    assert text.count("<main>") == 1
    place = hostile.with_name("tried.html")
    place.write_text(text.replace("<main>", PLANTED) if is_planted else text, encoding="utf-8")
    page = shown(place)
    assert '<table><thead><tr><th scope="col"' in page, "the page's own script has run"
    has_run = re.search(r'<html[^>]*\shi="1"', page) is not None
    # without the policy a hole is seen, so that this test notices one
    assert has_run == (is_planted and not has_policy)


# ---- Firefox

# what a page says of its games before and after a filter
TABLES = """
const said = () => ["filter", "found", "list"].map(id => byId(id).textContent), before = said();
set("by-text", "w+");
return [before, said()];
"""


@pytest.mark.firefox
def test_firefox_has_the_same_page(played: Dict[str, Path], written: Path, hostile: Path) -> None:
    with firefox(written.parent) as browser:
        for folder in played.values():
            assert differences(folder, browser.answer) == []
        assert browser.answer(written, ALL) == EXPECTED
        page = played["9x9 with 5 stones"] / "page.html"
        before, after = browser.answer(page, TABLES)
        assert [before, after] == answer(page, TABLES)
        assert before != after
        # the policy lets the page's own script run, and nothing else
        text = hostile.read_text(encoding="utf-8").replace("<main>", PLANTED)
        for tried, has_run in ((text, False), (without_policy(text), True)):
            hostile.with_name("tried.html").write_text(tried, encoding="utf-8")
            browser.open(hostile.with_name("tried.html"))
            assert browser.value("document.querySelectorAll('#list tbody tr').length") > 0
            assert browser.value("document.documentElement.hasAttribute('hi')") == has_run


# ---- tournament watch

# it waits for a file before each move: go0, then go1, and so on
WAITS = """
n=0
while read -r line; do
    case $line in
        *genmove*) until [ -e "go$n" ]; do sleep 0.1; done; n=$((n + 1)) ;;
    esac
    echo "$line"
done | gtp_engine --policy random --seed "$1"
"""
# what is there after each change of the page, where the fewest of all are kept
LEAST = """(() => {
  const {body, documentElement: {dataset}} = document;
  const look = () => {
    dataset.least = Math.min(dataset.least || 9, document.querySelectorAll('.mini').length);
  };
  new MutationObserver(look).observe(body, {childList: true, subtree: true});
})()"""
STONES = "[...document.querySelectorAll('.mini')].map(it => it.querySelectorAll('.stone').length)"


@pytest.mark.firefox
def test_boards_in_play_change(runner: Runner) -> None:
    runner.script("waits", WAITS)
    words = engines(one="./waits 1", two="./waits 2")
    runner.tournament("plan", "all", *words, "--seeds", "1", "--", "--size", "9")
    runner.pass_trials("all")
    runner.start("tournament", "play", "all", "--jobs", "2")
    watch = runner.start("tournament", "watch", "all")
    assert watch.stdout
    with firefox(runner.folder) as browser:
        browser.open_address(watch.stdout.readline().strip())
        for count in range(3):
            # each side has made so many moves, in both games, and the page wasn't loaded again
            stones = [2 * count] * 2
            runner.wait_until(lambda: browser.value(STONES) == stones)
            if count == 0:
                browser.value(LEAST)
            runner.write(f"go{count}", "")
        # both are there at each moment
        assert browser.value("document.documentElement.dataset.least") == "2"
