"""Right engines: nothing is found, however they write their answers and whatever they lack.

Our engine is asked the whole course with some seeds, and `--count 100` takes so many. Each is some
280,000 commands.
"""
from __future__ import annotations

import contextlib
import os
import signal
from subprocess import PIPE
from typing import List, NamedTuple, Sequence

import pytest

from tests.shared.processes import TOP, process_tree

from .checking import OURS, PYTHON, Checker, notes_of, only

ENGINE = "gtp_engine --policy {} --seed {} --ko {}"
REFERENCE = PYTHON + " tests/engines/right/plain {} {} {}"
DRESSED = PYTHON + f" tests/engines/right/dressed {{}} {OURS} --seed 7"
SAMPLE = PYTHON + " tournament/engine.py"
POLICIES = ("first", "random", "book")
RULES = ("simple", "positional")


class Right(NamedTuple):
    """A right engine, the options of its check, and what the last lines say of it."""

    name: str
    engine: str
    options: Sequence[str] = ()
    notes: Sequence[str] = ()


def lacks(*commands: str) -> List[str]:
    """Returns what is said of an engine that lacks these commands."""
    return [f"it lacks {command}; nothing was asked that needs it" for command in commands]


def refuses(first: Sequence[int], *taken: int) -> List[str]:
    """Returns what is said of an engine that takes these sizes alone, and refuses these first."""
    others = [size for size in range(1, 26) if size not in first and size not in taken]
    return [f"it refuses the sizes {' '.join(map(str, [*first, *others]))}"]


def dressed(form: str, *lessons: str, notes: Sequence[str] = ()) -> Right:
    """Returns our engine in another form, which is checked by these lessons, or by all."""
    return Right(form, DRESSED.format(form), ["--seed", "5", *only(*lessons)], notes)


# lessons that have each kind of answer, except that nothing is refused as suicide or ko
EACH_ANSWER = ("start", "komi", "games", "restarts")
# lessons that ask what random games ask too
SKIPPED = ("--skip", "captures", "--skip", "suicide", "--skip", "joining")
ENGINES = [
    Right(
        "the reference by first, simple ko",
        REFERENCE.format("first", 3, "simple"),
        ["--seed", "4294967295", *only("start", "genmoves", "games")],
    ),
    Right(
        "the reference by random, positional ko",
        REFERENCE.format("random", 3, "positional"),
        ["--ko", "positional", "--seed", "3", *only("ko", "drawn", "record", "restarts")],
    ),
    Right("the sample engine", SAMPLE, ["--seed", "8", *SKIPPED], lacks("final_score")),
    Right(
        "ours with a book",
        "gtp_engine --policy book --book C3,C4,,D3,resign,D4",
        only("genmoves", "games", "start"),
    ),
    Right("ours, scenes on size 6", OURS, ["--quick", "--size", "6"]),
    Right("ours, scenes on size 25", OURS, ["--quick", "--size", "25"]),
    Right("ours, one command at a time", OURS, ["--singly"]),
    dressed("line_ends", *EACH_ANSWER),
    dressed("zeros", *EACH_ANSWER),
    dressed("small", *EACH_ANSWER, "handicaps"),
    dressed("turned", "start", "handicaps", "games"),
    dressed("tabs", *EACH_ANSWER, "handicaps"),
    dressed("words", *EACH_ANSWER),
    dressed("bytewise", "start", "komi", "games"),
    dressed("without_a_name", "start", "restarts"),
    dressed("without_undo", "start", "sizes", "ko", notes=lacks("undo")),
    dressed("without_handicaps", "handicaps", "games", notes=lacks("fixed_handicap")),
    dressed("without_scores", "komi", "games", notes=lacks("final_score")),
    dressed("three_sizes", "start", "sizes", "games", notes=refuses([5, 6, 7, 8], 9, 13, 19)),
    dressed("one_size", notes=refuses([5, 6, 9, 13, 19], 7)),
    dressed(
        "nineteen", "start", "sizes", "komi", "drawn", "games", notes=refuses(range(5, 19), 19)
    ),
    Right("bare", DRESSED.format("bare"), SKIPPED, lacks("undo", "fixed_handicap", "final_score")),
    dressed(
        "short_history",
        *("komi", "games", "record"),
        notes=["it first refused an undo after 20 undos in a row"],
    ),
    dressed("resigning", "start", "genmoves", "games"),
    dressed("late_end", "restarts"),
    dressed("junk_at_the_end", "restarts"),
]


def check_nothing_is_found(checker: Checker, right: Right) -> None:
    """Fails unless the check of an engine finds nothing."""
    check = checker.check(right.engine, *right.options)
    assert (check.status, check.errors) == (0, ""), check.output
    assert check.report.total == 0
    assert sorted(notes_of(check.report)) == sorted(right.notes)


@pytest.mark.parametrize("right", ENGINES, ids=lambda right: right.name)
def test_nothing_is_found(right: Right, checker: Checker) -> None:
    check_nothing_is_found(checker, right)


def pytest_generate_tests(metafunc: pytest.Metafunc) -> None:
    if "seed" in metafunc.fixturenames:
        first, count = metafunc.config.getoption("--seed"), metafunc.config.getoption("--count")
        metafunc.parametrize("seed", range(first, first + (count or len(RULES) * len(POLICIES))))


def test_nothing_is_found_with_a_seed(seed: int, checker: Checker) -> None:
    # six seeds in a row have each rule with each policy
    rule, policy = RULES[seed % 2], POLICIES[seed % 3]
    options = ["--ko", rule, "--seed", str(seed)]
    check_nothing_is_found(checker, Right("", ENGINE.format(policy, seed, rule), options))
    if seed % 10 == 0:
        check_nothing_is_found(checker, Right("", REFERENCE.format("random", seed, rule), options))


# ---- the sample engine is quiet


def test_sample_engine_that_is_ended_in_the_middle_of_games(checker: Checker) -> None:
    # by positional ko an engine of simple ko is wrong, and is ended again and again
    lessons = only("ko", "record", "drawn", "genmoves")
    check = checker.check(
        SAMPLE, "--ko", "positional", "--trials", "3", "--restarts", "12", *lessons
    )
    assert (check.status, check.errors) == (1, "")
    assert check.report.starts >= 10


@pytest.mark.parametrize("kept", [1, 100, 1000])
def test_sample_engine_whose_output_nobody_reads(kept: int) -> None:
    with process_tree(
        [*SAMPLE.split(), "1"], cwd=TOP, stdin=PIPE, stdout=PIPE, stderr=PIPE
    ) as engine:
        assert engine.stdin and engine.stdout and engine.stderr
        engine.stdin.write(b"boardsize 9\n" + 40 * b"genmove b\ngenmove w\nlist_commands\n")
        engine.stdin.flush()
        os.read(engine.stdout.fileno(), kept)
        engine.stdout.close()
        with contextlib.suppress(BrokenPipeError):  # it may have ended
            engine.stdin.write(b"name\n" * 2)
            engine.stdin.flush()
        assert (engine.wait(), engine.stderr.read()) == (-signal.SIGPIPE, b"")
