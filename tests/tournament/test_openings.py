"""Openings: what their file may have, which moves are legal, and what a later command asks for."""
from __future__ import annotations

import random
from typing import List, NamedTuple, Optional, Tuple

import pytest

from tests.references.engine import game as rules
from tests.references.engine import values

from .inside import module
from .runner import TWO, Done, Runner, engines

NINE = ["--", "--size", "9"]


def plan_with(runner: Runner, text: str, *options: str) -> Done:
    """Returns what comes of a plan with a file of openings that has this text."""
    runner.write("openings", text)
    return runner.tournament("plan", "all", *TWO, "--openings", "openings", *options)


# ---- what a file may have

NO_OPENING = "openings has no opening: write a line of moves for each, such as D4 Q16 pass"
NO_VERTEX = "is no vertex: write moves such as D4 Q16 pass; a colour may come first alone"
PASSES = "are passes, which end the game"


class Refused(NamedTuple):
    """The text of a file that is refused, the options of twogtp, and what is reported."""

    text: str
    report: str
    options: List[str] = []


REFUSED = {
    "an empty file": Refused("", NO_OPENING),
    "comments alone": Refused("# D4\n\n  \t\n#\n", NO_OPENING),
    "no vertex": Refused("D4\nE5 I5\n", f"line 2 of openings: 'I5' {NO_VERTEX}", NINE),
    "a row of 0": Refused("D0\n", f"line 1 of openings: 'D0' {NO_VERTEX}"),
    "a resignation": Refused("D4 resign", f"line 1 of openings: 'resign' {NO_VERTEX}"),
    "a colour behind": Refused("b D4 w E5", f"line 1 of openings: 'w' {NO_VERTEX}"),
    "other letters": Refused("D4 \u00e9\n", f"line 1 of openings: '\u00e9' {NO_VERTEX}"),
    "a colour alone": Refused("D4\n\nblack # E5\n", "line 3 of openings has no move"),
    "off the board": Refused(
        "J9\nK1\n", "line 2 of openings: move 1, Black K1: it is off the board", NINE
    ),
    "occupied": Refused(
        "D4 e5 d4\n", "line 1 of openings: move 3, Black D4: the point is occupied"
    ),
    "suicide": Refused("A2 E5 B1 A1\n", "line 1 of openings: move 4, White A1: it is suicide"),
    "ko": Refused(
        "B1 C1 A2 D2 B3 C3 C2 B2 C2\n", "line 1 of openings: move 9, Black C2: it is ko", NINE
    ),
    "two passes": Refused("D4 pass PASS E5\n", f"line 1 of openings: moves 2 and 3 {PASSES}"),
    "two passes at the end": Refused("pass pass", f"line 1 of openings: moves 1 and 2 {PASSES}"),
    "as many moves as a game may have": Refused(
        "A1 A2\nA1 A2 A3\n",
        "line 2 of openings has 3 moves: there have to be fewer than the 3 of --max-moves",
        [*NINE, "--max-moves", "3"],
    ),
    "a handicap's stone": Refused(
        "E5 C3\n",
        "line 1 of openings: move 2, Black C3: the point is occupied",
        [*NINE, "--handicap", "2"],
    ),
    "White first": Refused(
        "Black D4\nW D4\n", "line 2 of openings: Black moves first, and not White"
    ),
    "Black first after a handicap": Refused(
        "white D4\nb E5\n",
        "line 2 of openings: White moves first after a handicap, and not Black",
        ["--", "--size=9", "--handicap=4"],
    ),
}


@pytest.mark.parametrize("refused", REFUSED.values(), ids=REFUSED)
def test_file_that_is_refused(refused: Refused, runner: Runner) -> None:
    done = plan_with(runner, refused.text, *refused.options)
    assert done == (2, "", f"tournament: {refused.report}\n")
    assert not (runner.folder / "all").exists()


KO = "B1 C1 A2 D2 B3 C3 C2 B2"  # after which C2 is ko
TWO_STONES = "A1 A2 A3 C1 B1 D1 J9 B2 A1"  # the last move is where one of two was captured


@pytest.mark.parametrize(
    "text, options, openings",
    [
        pytest.param("D4 Q16 K10\nC3\n", [], ["D4 Q16 K10", "C3"], id="a line each"),
        pytest.param(
            "# all\n\n \td4   Q16\t# two\r\nPass c3 pAsS C4 PASS#\n",
            [],
            ["D4 Q16", "pass C3 pass C4 pass"],
            id="comments, spaces and other letters",
        ),
        pytest.param("BLACK D4\nb E5 w5\n", ["--", "--size", "25"], ["D4", "E5 W5"], id="a colour"),
        pytest.param(
            "w E5 D5\nWhite pass\nG3\n",
            ["--", "--size=9", "--handicap=2"],
            ["E5 D5", "pass", "G3"],
            id="White first after a handicap",
        ),
        pytest.param(
            "A1 A2\n", [*NINE, "--max-moves=3"], ["A1 A2"], id="one move fewer than a game may have"
        ),
        pytest.param(f"{KO} E5 F5 C2\n", NINE, [f"{KO} E5 F5 C2"], id="after a ko"),
        pytest.param(f"{KO} pass E5 C2\n", NINE, [f"{KO} pass E5 C2"], id="after a ko and a pass"),
        pytest.param(TWO_STONES, NINE, [TWO_STONES], id="where two stones were captured"),
    ],
)
def test_plan_has_the_openings(
    text: str, options: List[str], openings: List[str], runner: Runner
) -> None:
    assert plan_with(runner, text, *options) == (0, "", "")
    plan = module("config.plan_file").read_plan(str(runner.folder / "all"))
    assert plan.openings == openings


# ---- the rules, by random games of the reference

OFF, OCCUPIED, SUICIDE, KO_RULE = BROKEN = [
    "it is off the board",
    "the point is occupied",
    "it is suicide",
    "it is ko",
]


class RandomGame:
    """A random game on a board of a random size, perhaps with a handicap."""

    def __init__(self, number: int, size: Optional[int] = None, stones: int = 0) -> None:
        self.random = random.Random(number)
        self.size = size or self.random.choice([2, 2, 3, 3, 4, 5, 7, 9, 13, 25])
        handicaps = [stones for stones in range(2, 10) if values.handicap_points(self.size, stones)]
        self.stones = stones if size else self.random.choice([0, *handicaps])
        self.game = rules.Game()
        self.game.begin(self.size)
        self.game.place_handicap(values.handicap_points(self.size, self.stones) or [])
        self.colour = values.WHITE if self.stones else values.BLACK
        self.moves: List[str] = []
        self.before = self.game.board  # the board before the last move

    def choice(self) -> values.Vertex:
        """Returns a random vertex: often where a stone was captured, or off the board."""
        captured = [point for point in self.before if point not in self.game.board]
        if captured and self.random.random() < 0.6:
            return self.random.choice(captured)
        empty = [point for point in rules.points(self.size) if point not in self.game.board]
        if empty and self.random.random() < 0.8:
            return self.random.choice(empty)
        if self.moves[-1:] != ["pass"] and self.random.random() < 0.2:
            return values.PASS
        most = min(25, self.size + (self.random.random() < 0.3))
        return self.random.randint(1, most), self.random.randint(1, most)

    def broken_by(self, vertex: values.Vertex) -> Optional[str]:
        """Returns what this move breaks, which is played where that is nothing."""
        before = self.game.board
        if not isinstance(vertex, tuple):
            assert self.game.play(self.colour, vertex)
        elif not rules.is_on(self.size, vertex):
            return OFF
        elif vertex in before:
            return OCCUPIED
        elif self.game.is_suicide(self.game.put(self.colour, vertex), self.colour, vertex):
            return SUICIDE
        elif not self.game.play(self.colour, vertex):
            return KO_RULE
        self.before = before
        self.moves.append(values.write_vertex(vertex).decode())
        self.colour = values.other(self.colour)
        return None

    def broken_move(self, rule: str) -> Optional[str]:
        """Plays up to a move that breaks this rule, and returns it, if one comes soon."""
        least = self.random.choice([0, 10, 40, 80])  # moves before that one
        for _ in range(200):
            vertex = self.choice()
            if self.broken_by(vertex) == rule and len(self.moves) >= least:
                return values.write_vertex(vertex).decode()
        return None


def game_with(number: int, rule: str) -> Tuple[RandomGame, str]:
    """Returns a random game that ends before a move that breaks this rule, and that move."""
    for attempt in range(1000):
        game = RandomGame(1000 * number + attempt)
        if move := game.broken_move(rule):
            return game, move
    raise AssertionError(f"no game breaks the rule: {rule}")


@pytest.mark.parametrize("number", range(10))
@pytest.mark.parametrize("rule", BROKEN)
def test_rules_are_those_of_the_reference(rule: str, number: int, runner: Runner) -> None:
    game, move = game_with(number, rule)
    others = [RandomGame(number, game.size, game.stones) for number in range(3)]
    for other in others:
        other.broken_move("no such rule")
    lines = [" ".join(other.moves) for other in others if other.moves]
    text = "\n".join([*lines, " ".join([*game.moves, move])])
    colour = {values.BLACK: "Black", values.WHITE: "White"}[game.colour]
    place = f"line {len(lines) + 1} of openings: move {len(game.moves) + 1}, {colour} {move}"
    options = ["--", f"--size={game.size}", f"--handicap={game.stones}"]
    done = plan_with(runner, text, *options)
    assert done == (2, "", f"tournament: {place}: {rule}\n")


# ---- a directory that has openings

TWO_OPENINGS = "D4 E5\nC3 pass # two\n"
BEGUN = "all was begun with"
OTHER_OPENINGS = f"{BEGUN} other openings: take another directory"


@pytest.fixture(scope="module")
def planned(shared_runner: Runner) -> Runner:
    """Returns a runner with a plan that has openings, which no test changes."""
    assert plan_with(shared_runner, TWO_OPENINGS, *NINE) == (0, "", "")
    shared_runner.write("other", "D4 E5\nC3 G7\n")
    shared_runner.write("fewer", "D4 E5\n")
    return shared_runner


@pytest.mark.parametrize(
    "words, report",
    [
        pytest.param(["--openings", "other"], OTHER_OPENINGS, id="other openings"),
        pytest.param([*TWO, "--openings=fewer", *NINE], OTHER_OPENINGS, id="fewer openings"),
        pytest.param(
            [*TWO, *NINE],
            f"{BEGUN} openings:"
            " write --openings with the same ones, or leave out engines and options, too",
            id="none",
        ),
        pytest.param(
            TWO,
            f"{BEGUN} other engines or options. It has\n"
            "option --size 9\nwhere the command has\nnothing\n"
            "Take another folder, or write tournament play all alone, which goes on with what it"
            " has. It has openings, too: where engines or options are given, write --openings.",
            id="none, and no options",
        ),
        pytest.param(
            ["--direct"], f"{BEGUN}out --direct: take another directory", id="with --direct"
        ),
        pytest.param(
            ["--openings", "nowhere"],
            "nowhere can't be read: No such file or directory",
            id="a file that isn't there",
        ),
    ],
)
def test_command_that_is_refused(words: List[str], report: str, planned: Runner) -> None:
    plan = (planned.folder / "all/plan").read_text()
    assert planned.tournament("play", "all", *words) == (2, "", f"tournament: {report}\n")
    assert (planned.folder / "all/plan").read_text() == plan


def test_same_openings_in_other_words(runner: Runner) -> None:
    plan_with(runner, TWO_OPENINGS, *NINE)
    plan = (runner.folder / "all/plan").read_text()
    assert plan_with(runner, "d4\te5\n# one\n\nBlack c3 PASS\n", *NINE) == (0, "", "")
    assert (runner.folder / "all/plan").read_text() == plan


def test_file_may_be_removed(runner: Runner) -> None:
    plan_with(runner, TWO_OPENINGS, "--seeds", "1", *NINE)
    (runner.folder / "openings").unlink()
    assert runner.tournament("play", "all", "--seeds", "3")[::2] == (0, "")
    moves = {game: text.splitlines()[1].split()[:2] for game, text in runner.games().items()}
    assert moves == {
        f"{seed}_{pair}": ["C3", "pass"] if seed == 2 else ["D4", "E5"]
        for seed in (1, 2, 3)
        for pair in ("one_two", "two_one")
    }


@pytest.mark.parametrize(
    "options, is_old, report",
    [
        pytest.param(
            ["--direct"], False, "with --direct, so it can't have --openings", id="direct"
        ),
        pytest.param([], False, "with no openings", id="without openings"),
        pytest.param(
            ["--direct"],
            True,
            "by earlier scripts, which had none, so it can't have --openings",
            id="by earlier scripts",
        ),
    ],
)
def test_directory_gets_no_openings(
    options: List[str], is_old: bool, report: str, runner: Runner
) -> None:
    runner.write("openings", TWO_OPENINGS)
    runner.tournament("plan", "all", *TWO, *options, *NINE)
    place = runner.folder / "all/plan"
    if is_old:
        place.write_text(place.read_text().replace(f'"{runner.folder}"', '""'))
    done = runner.tournament("play", "all", "--openings", "openings")
    assert done == (2, "", f"tournament: all was begun {report}: take another directory\n")


@pytest.mark.parametrize(
    "line, report",
    [
        ('openings = ["D4"]', "direct = true leaves out openings"),
        ('openings = ["D4 I5"]', "openings has 'D4 I5', which isn't moves such as D4 Q16 pass"),
        ('openings = [""]', "openings has '', which isn't moves such as D4 Q16 pass"),
    ],
    ids=["openings with --direct", "no vertex", "no move"],
)
def test_plan_that_was_changed(line: str, report: str, runner: Runner) -> None:
    words = [*engines(one="gtp_engine", two="gtp_engine --ko positional"), "--direct", *NINE]
    runner.tournament("plan", "all", *words)
    place = runner.folder / "all/plan"
    place.write_text(place.read_text().replace("seeds = 10", f"seeds = 10\n{line}"))
    assert runner.tournament("list", "all") == (
        2,
        "",
        f"tournament: line 6 of all/plan: {report}\n",
    )


# ---- their order

MANY = [f"{column}{row}" for column in "ABCDEFGHJ" for row in range(1, 10)]


def order_in(runner: Runner, folder: str, *options: str) -> List[str]:
    """Returns the openings of a new plan that has MANY in an order that is asked for."""
    runner.write("openings", "".join(f"{move}\n" for move in MANY))
    words = ["--openings", "openings", *options, *NINE]
    assert runner.tournament("plan", folder, *TWO, *words) == (0, "", "")
    openings: List[str] = module("config.plan_file").read_plan(str(runner.folder / folder)).openings
    return openings


def test_order_of_openings(runner: Runner) -> None:
    assert order_in(runner, "all") == MANY
    one, two = (
        order_in(runner, f"with-{number}", f"--shuffle-openings={number}") for number in "12"
    )
    assert sorted(one) == sorted(two) == sorted(MANY)
    assert one != MANY and two != MANY and one != two
    # a later command finds the same order, and so does a random number for each opening
    assert order_in(runner, "with-1", "--shuffle-openings", "1") == one
    chosen = random.Random(1)
    numbers = {move: chosen.random() for move in MANY}
    assert one == sorted(MANY, key=lambda move: numbers[move])


def test_another_order_is_refused(runner: Runner) -> None:
    order_in(runner, "all", "--shuffle-openings", "1")
    said = (
        f"tournament: {BEGUN} these openings in another order: give --shuffle-openings as it was"
        " then, or leave it out if it wasn't given\n"
    )
    for options in ("", "--shuffle-openings 2"):
        words = ["--openings", "openings", *options.split(), *NINE]
        assert runner.tournament("plan", "all", *TWO, *words) == (2, "", said)
    said = "tournament: --shuffle-openings needs the openings: give --openings, too\n"
    assert runner.tournament("play", "all", "--shuffle-openings", "1") == (2, "", said)
