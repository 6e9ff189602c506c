"""The trial of each engine before the first game on a machine: what it asks, reports and keeps."""
from __future__ import annotations

import os
import re
import sys
import time
from typing import NamedTuple, Optional

import pytest

from .runner import Done, Runner, engines

BOTH = engines(good="gtp_engine", bad="./engine")
ONE_MOVE = ["--seeds", "1", "--", "--size", "5", "--max-moves", "1", "--restarts", "0"]
# an engine that writes down each start, and each line before gtp_engine has it
HEARD = """\
echo start >> heard
exec gtp_engine < <(while read -r line; do echo "$line" >> heard; echo "$line"; done)"""


class Bad(NamedTuple):
    """An engine that can't do something: its script, what is reported, and its limits."""

    script: Optional[str]
    report: str
    limits: str = "60"


def started(runner: Runner) -> int:
    """Returns how often the engine was started that writes down its starts."""
    return (runner.folder / "heard").read_text().splitlines().count("start")


def plan_with(runner: Runner, bad: Bad) -> None:
    """Makes a plan of two engines, of which only this one hasn't passed its trial."""
    if bad.script is not None:
        runner.script("engine", bad.script)
    limits = [f"--{name}-limit={bad.limits}" for name in ("start", "move")]
    runner.tournament("plan", "all", *BOTH, *limits, *ONE_MOVE)
    runner.pass_trials("all", "good")


UNABLE = {
    "refuses": Bad(
        'read -r n c; printf "?%s no such size\\n\\n" $n; cat > /dev/null',
        "it refuses 'boardsize 5': '?1 no such size'",
    ),
    "ends at its move": Bad(
        "exec gtp_engine --fault stop:1", "it ended at 'genmove b': exit status 4"
    ),
    "doesn't move in time": Bad(
        "for it in 1 2 3; do read -r n c; echo =$n; echo; done; exec sleep 1000",
        "it doesn't answer 'genmove b' in 3 seconds",
        "3",
    ),
    "answers no move": Bad(
        'while read -r n c; do echo "=$n D4 and more"; echo; done',
        "its answer to 'genmove b' is no move: '=4 D4 and more'",
    ),
    "answers too much": Bad(
        "for it in 1 2 3; do read -r n c; echo =$n; echo; done;"
        "printf '=4 %09000d\\n\\n' 0; cat > /dev/null",
        f"its answer to 'genmove b' has more than 8192 bytes; it wrote '=4 {77 * '0'}'",
    ),
    "leaves out the number": Bad(
        "while read -r n c; do echo =; echo; done",
        "its answer to '1 boardsize 5' has another number: '='",
    ),
}


@pytest.mark.parametrize("bad", UNABLE.values(), ids=UNABLE)
def test_engine_that_cannot_do_something_plays(bad: Bad, runner: Runner) -> None:
    plan_with(runner, bad)
    done = runner.tournament("play", "all")
    assert done.errors == f"tournament: bad: {bad.report}\n"
    assert sorted(runner.games()) == ["1_bad_good", "1_good_bad"]


NOT_STARTED = {
    "no such file": Bad(None, "./engine: No such file or directory"),
    "no such interpreter": Bad("#!/no/such", "./engine: No such file or directory"),
    "no program": Bad("#!\n", "./engine: Exec format error"),
    "ends at once": Bad("exit 3", "it ended at 'boardsize 5': exit status 3"),
    "crashes": Bad("kill -SEGV $$", "it ended at 'boardsize 5': signal 11"),
    "greets": Bad(
        "echo 'Welcome!'; echo; exec sleep 1000",
        "what it answers to 'boardsize 5' is no answer: 'Welcome!'",
    ),
    "doesn't answer": Bad("exec sleep 1000", "it doesn't answer 'boardsize 5' in 1 seconds", "1"),
    "writes without pause": Bad(
        "exec yes", f"what it answers to 'boardsize 5' is no answer: '{40 * 'y.n'}'"
    ),
    "writes an answer without end": Bad(
        "exec yes = =",
        f"its answer to 'boardsize 5' has more than 8192 bytes; it wrote '{20 * '= =.n'}'",
    ),
    "writes empty lines without pause": Bad(
        "exec yes ''", "it doesn't answer 'boardsize 5' in 1 seconds", "1"
    ),
    "writes half an answer": Bad(
        "echo '=1'; exec sleep 1000",
        "it doesn't answer 'boardsize 5' in 3 seconds; it wrote '=1.n'",
        "3",
    ),
    "ends in an answer": Bad(
        "echo '=1'; exit", "it ended at 'boardsize 5': exit status 0; it wrote '=1.n'"
    ),
    "says why": Bad(
        "echo one >&2; echo no library >&2; exit 1",
        "it ended at 'boardsize 5': exit status 1;"
        " the last line of all/tried/HOST/bad.log is: no library",
    ),
    "says why above its usage": Bad(
        "printf 'Error: one\\nerror: no weights\\nusage: engine\\n\\n' >&2; exit 1",
        "it ended at 'boardsize 5': exit status 1;"
        " a line of all/tried/HOST/bad.log is: error: no weights",
    ),
    "writes a long line": Bad(
        "printf '%060000d' 0 >&2; exit 1",
        "it ended at 'boardsize 5': exit status 1;"
        f" the last line of all/tried/HOST/bad.log is: {197 * '0'} ..",
    ),
    "writes a long line of wide characters": Bad(
        "printf '\\xc3\\xa9%.0s' {1..300} >&2; exit 1",
        "it ended at 'boardsize 5': exit status 1;"
        f" the last line of all/tried/HOST/bad.log is: {98 * chr(0xE9)} ..",
    ),
}


def without_host(text: str) -> str:
    """Returns a text without the name of this machine."""
    return re.sub(r"tried/[^/ ]+/", "tried/HOST/", text)


@pytest.mark.parametrize("bad", NOT_STARTED.values(), ids=NOT_STARTED)
def test_no_game_begins_with_an_engine_that_cannot_be_started(bad: Bad, runner: Runner) -> None:
    plan_with(runner, bad)
    done = runner.tournament("play", "all")
    report = f"tournament: bad can't be started here: {bad.report}\n".replace(".n", "\\n")
    errors = f"{report}tournament: no game is begun here\n"
    assert (done.status, done.output) == (69, "0 of 2 games have a result\n")
    assert (without_host(done.errors), runner.games()) == (errors, {})
    assert runner.is_idle()


# ---- what engines answer to `quit`, and around their answers

QUITS = """\
while read -r number command _; do
    case $number$command in
        quit) {} ;;
        *genmove) echo "=$number D4" ;;
        *) echo "=$number one" ;;
    esac
    echo
done
"""
NAMED = (
    "tournament: one: it doesn't answer 'quit' in 2 seconds:"
    " each of its games waits for that, up to 5 seconds\n"
)


def version_of_one(runner: Runner) -> str:
    """Returns what the engine one says that it is, as it is exported."""
    row = runner.tournament("export", "all", "--csv").output.splitlines()[1]
    return row.split(",")[11]


ENDS = {
    "exec sleep 1000": NAMED,
    "exec 1>&-; exec sleep 1000": "",
    "echo =; echo; exec sleep 1000": "",
    "exit 3": "",
    "echo '? no'": "",
    "exec yes no": "",
    "sleep 0.5; exit": "",
}


@pytest.mark.parametrize("end, report", ENDS.items(), ids=ENDS)
def test_engine_that_does_not_answer_quit_is_named(end: str, report: str, runner: Runner) -> None:
    runner.script("engine", QUITS.format(end))
    words = [*engines(one="./engine", two="gtp_engine"), "--start-limit", "5"]
    runner.tournament("plan", "all", *words, *ONE_MOVE)
    assert runner.tournament("game", "all", "1_one_two")[::2] == (0, report)
    assert version_of_one(runner) == "one one"


# an engine that writes each answer at once
ANSWERS = (
    "import os, sys\n"
    "for line in sys.stdin:\n"
    "    number = line.split()[0].strip('quit')\n"
    "    os.write(1, eval(sys.argv[1]).replace('%', number).encode())"
)


@pytest.mark.parametrize(
    "answer",
    [
        pytest.param("=% D4\r\n\r\n", id="CR before each LF"),
        pytest.param("\n\n=% D4\n\n", id="empty lines before each"),
        pytest.param("=% D4\n\n\n\n", id="empty lines behind each"),
        pytest.param("\r\n\n=% D4\r\n\r\n\r\n\r\n", id="all of these"),
    ],
)
def test_what_is_written_around_answers_is_no_answer(answer: str, runner: Runner) -> None:
    runner.write("engine.py", ANSWERS)
    command = f"{sys.executable} -S engine.py {ascii(ascii(answer))}"
    runner.tournament("plan", "all", *engines(one=command, two="gtp_engine"), *ONE_MOVE)
    assert runner.tournament("game", "all", "1_one_two")[::2] == (0, "")
    assert version_of_one(runner) == "D4 D4"


# ---- when engines are tried, and what is asked


def test_each_engine_is_tried_once(runner: Runner) -> None:
    runner.script("engine", HEARD)
    words = engines(one="./engine %s", two="gtp_engine", three="gtp_engine --ko positional")
    board = ["--size=7", "--komi", "0.5", "--handicap", "2", "--max-moves", "1"]
    runner.tournament("plan", "all", *words, "--seeds", "1", "--", *board)
    assert runner.tournament("game", "all", "1_two_three")[::2] == (0, "")
    assert not (runner.folder / "heard").exists()  # only engines of the game are tried
    assert runner.tournament("play", "all", "--jobs", "1")[::2] == (0, "")
    heard = (runner.folder / "heard").read_text().splitlines()
    setup = ["1 boardsize 7", "2 komi 0.5", "3 clear_board", "4 fixed_handicap 2"]
    assert heard[:9] == ["start", *setup, "5 genmove w", "6 name", "7 version", "quit"]
    assert started(runner) == 1 + 4
    runner.tournament("play", "all", "--seeds", "2", "--jobs", "1")
    assert started(runner) == 1 + 8
    passed = runner.folder / "all/tried" / os.uname().nodename / "passed"
    assert len(passed.read_text().splitlines()) == 3
    passed.write_text(passed.read_text().replace("size 7", "size 9"))
    runner.tournament("play", "all", "--seeds", "3", "--jobs", "1")
    assert started(runner) == 2 + 12  # a trial with another board doesn't count


def test_engines_are_tried_with_direct(runner: Runner) -> None:
    runner.script("engine", HEARD)
    words = [*engines(one="./engine", two="gtp_engine"), "--direct", *ONE_MOVE]
    assert runner.tournament("play", "all", *words)[::2] == (0, "")
    assert started(runner) == 1 + 2


def test_processes_that_begin_at_once_try_an_engine_once(runner: Runner) -> None:
    runner.script("engine", f"sleep 0.3\n{HEARD}")
    words = [*engines(one="./engine", two="gtp_engine"), "--seeds", "3", "--", "--size", "1"]
    runner.tournament("plan", "all", *words)
    done = runner.shell("tournament list all | xargs -n 1 -P 6 tournament game all")
    assert (done[::2], len(runner.games()), started(runner)) == ((0, ""), 6, 1 + 6)


def test_trial_by_a_clock_that_was_ahead_does_not_count(runner: Runner) -> None:
    words = [*engines(one="gtp_engine", two="gtp_engine"), "--seeds", "1", "--", "--size", "1"]
    runner.tournament("plan", "all", *words)
    runner.pass_trials()
    passed = runner.folder / "all/tried" / os.uname().nodename / "passed"
    lines = passed.read_text().replace("passed ", "unstarted ").splitlines()
    tomorrow = time.time() + 86400
    passed.write_text("".join(f"{line}\t{tomorrow}\tit ended\n" for line in lines))
    done = runner.tournament("play", "all")
    assert (done.status, done.errors, len(runner.games())) == (0, "", 2)


# ---- what is kept of a trial

REFUSES_KOMI = """\
echo start >> heard
printf 'komi\\tfails\\n' >&2
while read -r number command _; do
    [ "$command" != komi ] && echo "=$number" || echo "?$number no komi"
    echo
done
"""


def test_what_an_engine_cannot_do_is_kept(runner: Runner) -> None:
    runner.script("engine", REFUSES_KOMI)
    words = [*engines(bad="./engine", two="gtp_engine"), "--seeds", "2", "--", "--size", "2"]
    runner.tournament("plan", "all", *words)
    done = runner.shell("tournament list all | xargs -n 1 -P 4 tournament game all")
    name = f"all/tried/{os.uname().nodename}"
    refusal = "tournament: bad: it refuses 'komi 6.5': '?2 no komi'; the last line of"
    new = f"{refusal} {name}/bad.log is: komi\tfails\n"
    old = new.replace("\t", " ")[:-1] + f"; tried before: to try again, remove {name}/passed\n"
    assert sorted(done.errors.splitlines(True)) == sorted([new, *[old] * 3])
    assert (len(runner.games()), started(runner)) == (4, 1 + 4)

    def play(*words: object) -> Done:
        return runner.tournament("play", "all", *words)

    assert (play("--seeds", "3")[::2], started(runner)) == ((1, old), 1 + 6)
    # other limits, no file, and --again: it is tried again
    more = ["--seeds", "4", "--start-limit", "50"]
    assert (play(*more)[::2], started(runner)) == ((1, new), 2 + 8)
    passed = runner.folder / name / "passed"
    passed.unlink()
    assert (play("--seeds", "5")[::2], started(runner)) == ((1, new), 3 + 10)
    with open(passed, "a") as file:
        file.write("unable\nunstarted x\nunable x\t")  # the last line was cut off
    assert (play("--seeds", "6")[::2], started(runner)) == ((1, old), 3 + 12)
    assert (play("--again")[::2], started(runner)) == ((1, new), 4 + 24)
