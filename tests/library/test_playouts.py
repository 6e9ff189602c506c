"""What a search asks of the library, and its playouts, beside a plain reference, move by move.

Games are drawn on all sizes, by both rules of ko, half played and with handicaps; some have a ko,
some a record that is all but full. The reference is tests/references/search. `--count 100000` is a
search of some hours, and another `--seed` has other games; a single one is chosen by its number,
such as `-k "[17]"`.
"""
from __future__ import annotations

import random
from collections import defaultdict
from pathlib import Path
from typing import Any, Dict, Iterator, List, Optional, Set, Tuple

import pytest

from tests.references.engine.game import SIMPLE, Board, Game, points
from tests.references.engine.values import BLACK, PASS, WHITE, Point, Vertex, other
from tests.references.search import hashes, playouts
from tests.references.search.generator import Pcg64
from tests.references.search.random_games import Kind, RandomGame, kinds_of, played
from tests.shared.processes import TOP, run

from .compiling import WARNINGS, check_compiles
from .searched import LibraryGame, load_package

COUNT = 200  # games
TOGETHER = 25  # games that the board by hand plays in one process
KINDS = range(200)  # random games that show all kinds and all mistakes


def pytest_generate_tests(metafunc: pytest.Metafunc) -> None:
    count: int = metafunc.config.getoption("--count") or COUNT
    first: int = (metafunc.config.getoption("--seed") - 1) * count
    numbers = range(first, first + count)
    if "number" in metafunc.fixturenames:
        metafunc.parametrize("number", numbers)
    if "numbers" in metafunc.fixturenames:
        groups = [numbers[start : start + TOGETHER] for start in range(0, count, TOGETHER)]
        metafunc.parametrize("numbers", groups, ids=lambda it: f"from {it[0]}")


# ---- the reference


@pytest.mark.parametrize(
    "generator, words",
    [
        pytest.param(
            Pcg64.of_stream(42, 54),
            [
                0x86B1DA1D72062B68,
                0x1304AA46C9853D39,
                0xA3670E9E0DD50358,
                0xF9090E529A7DAE00,
                0xC85B9FD837996F2C,
                0x606121F8E3919196,
            ],
            id="the state 42 and the stream 54, by the C library of PCG",
        ),
        pytest.param(
            Pcg64.of_bytes(bytes(range(1, 33))),
            [8740028313290271629],
            id="the seed of the bytes 1 to 32, by the crate rand_pcg",
        ),
        pytest.param(
            Pcg64.of_number(0), [2354861276966075475], id="the seed 0, by the crate rand_pcg"
        ),
    ],
)
def test_reference_has_the_published_random_words(generator: Any, words: List[int]) -> None:
    assert [next(generator) for _ in words] == words


def test_reference_has_the_published_keys() -> None:
    # from the program of SplitMix64 by its author: what it draws first from the seed 0
    keys = [
        0xE220A8397B1DCDAF,
        0x6E789E6AA1B965F4,
        0x06C45D188009454F,
        0xF88BB8A8724C81EC,
        0x1B39896A51A8749B,
    ]
    assert [hashes.key(number) for number in range(1, 1 + len(keys))] == keys


def board_of(text: str) -> Game:
    """Returns a game with these stones and without a move."""
    rows = text.split()[::-1]
    game = Game()
    game.begin(len(rows))
    stones = {"X": BLACK, "O": WHITE}
    game.board = Board(
        {
            (column, row): stones[mark]
            for row, marks in enumerate(rows, 1)
            for column, mark in enumerate(marks, 1)
            if mark in stones
        }
    )
    return game


@pytest.mark.parametrize(
    "board, point, is_eye",
    [
        ("X.X XXX .X.", (2, 3), True),
        (".X. X.X .X.", (2, 2), True),
        ("OX. X.X .X.", (2, 2), True),
        ("OX. X.X .XO", (2, 2), False),
        ("... OX. .X.", (1, 1), False),
        ("... XX. .X.", (1, 1), True),
        ("... XO. .X.", (1, 1), False),
        ("O.. X.. XX.", (1, 1), False),
        ("OX. .X. OX.", (1, 2), False),
        ("XX. .X. XX.", (1, 2), True),
        ("XO. .X. XX.", (1, 2), False),
        ("XXX XXX XXX", (2, 2), False),
        (".X. X.O .X.", (2, 2), False),
        (".X. X.. .X.", (2, 2), False),
        ("XX. .X. XX.", (0, 2), False),
        (".", (1, 1), True),
    ],
)
def test_reference_knows_own_eyes(board: str, point: Point, is_eye: bool) -> None:
    assert playouts.is_own_eye(board_of(board), BLACK, point) == is_eye


def test_words_in_a_row_give_all_candidates() -> None:
    for number in KINDS:
        game, colour = played(number)[0].game, played(number)[0].colour
        if game.size > 9:
            continue  # it would take seconds
        candidates = [it for it in points(game.size) if playouts.is_candidate(game, colour, it)]
        words = range(number, number + len(candidates))
        moves = [playouts.random_move(game, colour, word) for word in words]
        assert sorted(moves) == sorted(candidates), number


def test_random_games_show_each_kind() -> None:
    assert {kind for number in KINDS for kind in kinds_of(number)} == set(Kind)


# ---- the board by hand in C, by which the speed of the library is measured

COLOURS = {None: 0, BLACK: 1, WHITE: 2}


@pytest.fixture(scope="module")
def board_by_hand(tmp_path_factory: pytest.TempPathFactory) -> Path:
    """Returns the program that plays on the board by hand."""
    folder = tmp_path_factory.mktemp("by_hand")
    source = TOP / "bench/playouts/moves.c"
    options = ["-std=c99", "-O2", *WARNINGS, "-o", folder / "moves"]
    check_compiles(["cc", *options, source, "-lm"], folder)
    return folder / "moves"


def vertex_number(vertex: Vertex) -> int:
    """Returns a vertex as the library has it."""
    return 0 if vertex == PASS else int(vertex[1]) * 256 + int(vertex[0])


def question_of(number: int) -> Optional[str]:
    """Returns what the program is asked for a game, or None where it can't play it.

    It has simple ko alone, and no handicap.
    """
    asked, _ = played(number)
    game = asked.game
    if game.rule != SIMPLE or game.first_board():
        return None
    moves = [part for colour, it in game.moves for part in (COLOURS[colour], vertex_number(it))]
    head = [game.size, game.komi, COLOURS[asked.colour], asked.seed, asked.limit, len(game.moves)]
    return " ".join(map(str, [*head, *moves]))


def answer_of(number: int) -> str:
    """Returns the moves and the score of the reference, as the program prints them."""
    asked, after = played(number)
    moves = [vertex_number(vertex) for _, vertex in after.moves[len(asked.game.moves) :]]
    return " ".join(map(str, [*moves, ":", after.score()]))


@pytest.mark.cc
def test_board_by_hand_plays_as_the_reference(numbers: range, board_by_hand: Path) -> None:
    questions = {number: question_of(number) for number in numbers}
    asked = [number for number, question in questions.items() if question]
    done = run([board_by_hand], "".join(f"{questions[number]}\n" for number in asked))
    assert done.returncode == 0
    assert done.stdout.splitlines() == [answer_of(number) for number in asked]


# ---- the library


@pytest.fixture(scope="module")
def vintsaky(shared_library: Path) -> Any:
    """Returns the Python package over the library."""
    return load_package(shared_library)


def test_library_answers_as_the_reference(number: int, vintsaky: Any) -> None:
    asked, _ = played(number)
    game, of_library = asked.game, LibraryGame(vintsaky, asked)
    assert of_library.stones() == playouts.stones_of(game)
    assert of_library.taken() == playouts.taken_by_last(game)
    assert of_library.indices() == list(enumerate(points(game.size)))
    assert of_library.board_hash() == hashes.board_hash(game)
    for point in points(game.size):
        assert of_library.chain(point) == playouts.chain(game, point), point
    for point in sorted(game.board):
        assert of_library.chain_points(point) == playouts.chain_points(game, point), point
        assert of_library.chain_liberties(point) == playouts.chain_liberties(game, point), point
    for colour in (BLACK, WHITE):
        assert of_library.legal_mask(colour) == playouts.legal_mask(game, colour)
        assert of_library.ko_point(colour) == playouts.ko_point(game, colour)
        assert of_library.position_hash(colour) == hashes.position_hash(game, colour)
        for point in points(game.size):
            is_eye = playouts.is_own_eye(game, colour, point)
            assert of_library.is_own_eye(colour, point) == is_eye, point
        for word in random_words(number):
            move = playouts.random_move(game, colour, word)
            assert of_library.random_move(colour, word) == move, word


def random_words(number: int) -> List[int]:
    """Returns words for a random move: the first, the last, and drawn ones."""
    rng = random.Random(number)
    return [0, 1, 2**64 - 1, rng.randrange(2**64), rng.randrange(1000)]


def test_library_plays_as_the_reference(number: int, vintsaky: Any) -> None:
    asked, after = played(number)
    of_library = LibraryGame(vintsaky, asked)
    before = of_library.state()
    assert of_library.rollout(asked.colour, asked.seed, asked.limit) == after.score()
    assert of_library.rollout(asked.colour, asked.seed, 0) == asked.game.score()
    assert of_library.state() == before
    of_library.playout(asked.colour, asked.seed, asked.limit)
    assert of_library.moves() == after.moves
    assert of_library.score() == after.score()
    assert of_library.stones() == playouts.stones_of(after)
    assert str(of_library.game) == after.show()


Position = Tuple[Any, ...]


def positions(number: int, vintsaky: Any) -> Iterator[Tuple[Position, int]]:
    """Yields positions with the library's hash: of a game, after a pass, and after its playout."""
    asked, after = played(number)
    of_library, passed = LibraryGame(vintsaky, asked), asked.copy()
    yield from hashed(asked.game, of_library)
    if not passed.is_full():
        passed.play(other(asked.colour), PASS)
        of_library.play(other(asked.colour), PASS)
        yield from hashed(passed, of_library)
    played_out = RandomGame(after, asked.colour, asked.seed, asked.limit)
    yield from hashed(after, LibraryGame(vintsaky, played_out))


def hashed(game: Game, of_library: LibraryGame) -> Iterator[Tuple[Position, int]]:
    """Yields the positions in which each colour moves, with the hash of each."""
    for colour in (BLACK, WHITE):
        stones = frozenset(game.board.items())
        position = (game.size, stones, colour, playouts.ko_point(game, colour))
        yield position, of_library.position_hash(colour)


def test_positions_have_equal_hashes_only_where_they_are_equal(vintsaky: Any) -> None:
    by_position: Dict[Position, Set[int]] = defaultdict(set)
    by_hash: Dict[int, Set[Position]] = defaultdict(set)
    for number in KINDS:
        for position, number_of in positions(number, vintsaky):
            by_position[position].add(number_of)
            by_hash[number_of].add(position)
    assert [it for it, found in by_position.items() if len(found) > 1] == []
    assert [found for found in by_hash.values() if len(found) > 1] == []
    assert any(ko_point for *_, ko_point in by_position), "no position has a ko"
