"""Games that are played again: the old result, notes and log stay until there is a new result."""
from __future__ import annotations

import os
import re
import signal
from itertools import count
from pathlib import Path
from typing import Dict, List, NamedTuple, Tuple

import pytest

from .inside import module
from .runner import RANDOM, Runner, engines, kill

GAME = "1_one_two"
GAMES = [GAME, "1_two_one"]
KINDS = ("games", "notes", "logs")
PLAYS = "exec gtp_engine"
# an engine that plays at its first start, which is its trial, and at others does something else
AFTER_ITS_TRIAL = "[ ! -e tried ] || {{ {}; }}; touch tried; exec gtp_engine"
NO_NEW = "no new result, and the old one stays"
OLD, NEW = (f"abandoned {colour} moves 0 restarts 0 0" for colour in ("black", "white"))


def result(line: str) -> str:
    """Returns a result with this line."""
    return f"game 1: {line}\n\n"


def notes(line: str, seconds: str = "0.250", game: str = GAME) -> str:
    """Returns the notes of a game with this result, in which Black thought once."""
    times = f"1 black A1 {seconds}\nthought: black {seconds}, white 0.000\n"
    return f"{game} on here\n{times}result: {line}\n"


class Kept(NamedTuple):
    """The files of all games."""

    games: Dict[str, str]
    notes: Dict[str, str]
    logs: Dict[str, str]


def kept(runner: Runner) -> Kept:
    """Returns the files of all games."""
    return Kept(*(runner.files(f"all/{kind}") for kind in KINDS))


@pytest.fixture
def lost(runner: Runner) -> Runner:
    """Returns a runner with two games in which Black was abandoned, and an engine two."""
    words = engines(one=f"{RANDOM} %s", two="./two")
    runner.tournament("plan", "all", *words, "--seeds", "1", "--", "--size", "5", "--restarts", "0")
    for game in GAMES:
        for kind, text in zip(KINDS, (result(OLD), notes(OLD, game=game), "old\n")):
            runner.write(f"all/{kind}/{game}", text)
    runner.script("two", PLAYS)
    return runner


# ---- what an abandoned side leaves, and what is counted


def test_game_with_an_abandoned_side_is_played_again(runner: Runner) -> None:
    runner.script("two", "exec gtp_engine --fault stop:1")
    words = [*engines(one="gtp_engine", two="./two"), "--seeds", "1"]
    done = runner.tournament("play", "all", *words, "--", "--size", "5", "--restarts", "0")
    trial = "tournament: two: it ended at 'genmove b': exit status 4\n"
    assert (done.status, done.errors, sorted(runner.games())) == (1, trial, GAMES)
    assert runner.games()["1_two_one"] == result(OLD)
    log = 'twogtp: game 1: black: 1 unanswered, "4 genmove b": its output ended, exit status 4'
    assert runner.files("all/logs")["1_two_one"].startswith(log)
    runner.script("two", PLAYS)
    assert runner.tournament("play", "all", "--again")[::2] == (0, "")
    assert runner.files("all/logs") == {}


@pytest.mark.parametrize(
    "words, line",
    [
        pytest.param(
            [],
            "2 of 2 games have a result, 2 of them unfit, abandoned or late: "
            "--again plays these again\n",
            id="all",
        ),
        pytest.param(
            ["--task", "2/2"],
            "1 of 1 games of task 2/2 have a result, 1 of them unfit, abandoned or late:"
            " --again plays it again\n",
            id="a task",
        ),
        pytest.param(
            ["--seeds", "2", "--task", "1/2", "--time-left", "1"],
            "1 of 2 games of task 1/2 have a result, 1 of them unfit, abandoned or late:"
            " --again plays it again; 1 are missing\n",
            id="a task with a missing game",
        ),
    ],
)
def test_abandoned_sides_are_counted(words: List[str], line: str, lost: Runner) -> None:
    before = kept(lost)
    done = lost.tournament("play", "all", *words)
    assert (done.status, done.output) == (1, line)
    assert kept(lost) == before


# ---- no new result


def test_engine_that_cannot_be_started(lost: Runner) -> None:
    before = kept(lost)
    (lost.folder / "two").unlink()
    done = lost.tournament("play", "all", "--again")
    assert (done.status, done.output) == (69, "2 of 2 games have a result\n")
    assert kept(lost) == before


def test_too_little_time(lost: Runner) -> None:
    before = kept(lost)
    done = lost.tournament("play", "all", "--again", "--time-left", "10")
    line = "another game of 600 seconds doesn't fit into the time left; the same command goes on\n"
    assert (done.status, done.errors) == (1, f"tournament: {line}")
    assert kept(lost) == before


def test_reason_is_added_to_the_log(lost: Runner) -> None:
    before = kept(lost)
    lost.script("two", AFTER_ITS_TRIAL.format("exit 3"))
    done = lost.tournament("play", "all", "--again", "--jobs", "1")
    last = (
        "2 of 2 games have a result, 2 of them unfit, abandoned or late: --again plays these again"
    )
    assert (done.status, done.output.splitlines()[-1]) == (1, last)
    reason = f"{NO_NEW}: two wasn't started: it ended "
    lines = re.findall(r"^tournament: (\w+): (.*)", done.errors, re.MULTILINE)
    assert [game for game, text in lines if text.startswith(reason)] == GAMES
    assert kept(lost)[:2] == before[:2]
    for log in kept(lost).logs.values():
        old, when, *_, why = log.splitlines()
        time = r"\d{4}-\d\d-\d\d \d\d:\d\d:\d\d"
        assert old == "old" and re.fullmatch(f"tournament: played again until {time}:", when)
        assert why.startswith(f"tournament: {reason}")


def test_log_that_does_not_fit_below_the_old_one(lost: Runner) -> None:
    lost.write(f"all/logs/{GAME}", 40_000 * "x")
    before = kept(lost)
    lost.script("two", AFTER_ITS_TRIAL.format("head -c 40000 /dev/zero >&2; exit 3"))
    done = lost.shell("ulimit -f 64; tournament play all --again --task 1/2")  # 65,536 bytes
    assert (done.status, kept(lost)) == (1, before)
    assert done.errors.endswith("; so its log isn't written either\n")


def test_result_that_cannot_be_moved(lost: Runner) -> None:
    before = kept(lost)
    in_the_way = f"[ -d all/games/{GAME} ] || {{ rm all/games/{GAME}; mkdir all/games/{GAME}; }}"
    lost.script("two", AFTER_ITS_TRIAL.format(in_the_way))
    done = lost.tournament("play", "all", "--again", "--task", "1/2")
    line = f"tournament: {GAME}: {NO_NEW}: its result was not written: Is a directory"
    assert (done.status, done.errors.splitlines()[0]) == (1, line)
    assert lost.files("all/notes") == before.notes
    assert lost.files("all/logs")[GAME].startswith("old\ntournament: played again until ")


class Stop(NamedTuple):
    """What is sent a signal, and what runs then."""

    engine: str  # what the engine does
    running: str  # the name of the process that is waited for
    number: signal.Signals


SLEEPS = "exec sleep 1000"
STOPS = {
    "in a trial": Stop(SLEEPS, "trial two", signal.SIGTERM),
    "in a game": Stop(AFTER_ITS_TRIAL.format(SLEEPS), f"game {GAME}", signal.SIGTERM),
    "by KILL": Stop(AFTER_ITS_TRIAL.format(SLEEPS), f"game {GAME}", signal.SIGKILL),
}


@pytest.mark.parametrize("stop", STOPS.values(), ids=STOPS)
def test_run_that_is_stopped(stop: Stop, lost: Runner) -> None:
    before = kept(lost)
    lost.script("two", stop.engine)
    run = lost.start("tournament", "play", "all", "--again")
    lost.wait_for(stop.running, "sleep")
    assert kept(lost) == before
    run.send_signal(stop.number)
    lost.finish(run)
    assert lost.is_idle()
    assert kept(lost) == before
    lost.tournament("play", "all")
    assert kept(lost) == before
    lost.script("two", PLAYS)
    assert lost.tournament("play", "all", "--again")[::2] == (0, "")
    lines = {game: text.splitlines()[0][8:] for game, text in lost.games().items()}
    last = {game: text.splitlines()[-1] for game, text in lost.files("all/notes").items()}
    assert last == {game: f"result: {line}" for game, line in lines.items()}


def test_process_of_a_game_is_killed(lost: Runner) -> None:
    before = kept(lost)
    lost.script("two", AFTER_ITS_TRIAL.format(SLEEPS))
    run = lost.start("tournament", "play", "all", "--again")
    lost.wait_for(f"game {GAME}", "sleep")
    kill(lost.named(f"game {GAME}")[0])
    line = f"tournament: {NO_NEW}: its process was ended by signal 9\n"
    lost.wait_until(lambda: lost.files("all/logs")[GAME].endswith(line))
    run.terminate()
    lost.finish(run)
    assert kept(lost)[:2] == before[:2]
    assert lost.files("all/logs")[GAME].startswith("old\n")


# ---- what is counted meanwhile


def counted(runner: Runner) -> Tuple[str, str, List[str]]:
    """Returns the tally, the one in which no late side loses, and the table of the games."""
    late = runner.tally("all", "--late", "half").output
    table = runner.tournament("export", "all", "--csv").output.splitlines()
    # versions, which come behind these columns, may be others after a new trial
    return runner.tally("all").output, late, [",".join(row.split(",")[:11]) for row in table]


def test_old_results_are_counted_meanwhile(lost: Runner) -> None:
    line = "abandoned black moves 0 restarts 0 0"
    for game in GAMES:
        lost.write(
            f"all/notes/{game}",
            f"{game} on here\n1 black late 0.500: 4 genmove b\n"
            f"thought: black 0.500, white 0.000\nresult: {line}\n",
        )
    before = counted(lost)
    assert before[0] != before[1] and before[2][1].endswith(",0.5,0.0,here")
    lost.script("two", AFTER_ITS_TRIAL.format(SLEEPS))
    run = lost.start("tournament", "play", "all", "--again")
    lost.wait_for(f"game {GAME}", "sleep")
    assert counted(lost) == before
    run.kill()
    assert lost.is_idle()
    assert counted(lost) == before


def row_of(runner: Runner) -> str:
    """Returns the verdict of the game, the winner, the moves, and the seconds of both sides."""
    rows = runner.tournament("export", "all", "--csv").output.splitlines()
    return ",".join(rows[1].split(",")[5:10])


@pytest.mark.parametrize(
    "text, seconds",
    [
        pytest.param(notes(NEW, "0.750"), "0.75,0.0", id="of the result"),
        pytest.param(notes(OLD, "0.750"), ",", id="of another result"),
    ],
)
def test_notes_in_the_directory_of_the_lock_are_read(text: str, seconds: str, lost: Runner) -> None:
    lost.write(f"all/games/{GAME}", result(NEW))
    (lost.folder / f"all/running/{GAME}").mkdir()
    lost.write(f"all/running/{GAME}/notes", text)
    assert row_of(lost) == f"abandoned white,black,0,{seconds}"


@pytest.mark.parametrize("moved_at", range(3))
def test_notes_are_moved_while_they_are_looked_for(
    moved_at: int, tmp_path: Path, monkeypatch: pytest.MonkeyPatch
) -> None:
    """They are moved before one of the looks for them."""
    results = module("store.results")
    line, bytes_of, looks = "B+R moves 1 restarts 0 0", results.bytes_of, count()
    place, beside = tmp_path / f"notes/{GAME}", tmp_path / f"running/{GAME}/notes"
    for at, text in ((place, notes(OLD)), (beside, notes(line))):
        at.parent.mkdir(parents=True)
        at.write_text(text)

    def look(path: str) -> object:
        """Returns the bytes of a file."""
        if next(looks) == moved_at:
            beside.replace(place)
        return bytes_of(path)

    monkeypatch.setattr(results, "bytes_of", look)
    found = module("store.notes").bytes_for(str(tmp_path), GAME, line)
    assert found == notes(line).encode()


def test_notes_that_cannot_be_read_are_none(lost: Runner) -> None:
    (lost.folder / f"all/notes/{GAME}").unlink()
    assert row_of(lost) == "abandoned black,white,0,,"
    (lost.folder / f"all/notes/{GAME}").mkdir()
    assert row_of(lost) == "abandoned black,white,0,,"


# ---- a process is killed between the moves of files


class Killed(NamedTuple):
    """What a process left that was killed, and whether the next run takes the notes and log."""

    files: Dict[str, str]  # in the directory of the lock
    result: str
    are_new: bool


CUT = f"{GAME} on here\n1 black thinks\n"  # the notes of a game that was killed
KILLED = {
    "while it was played": Killed({"result": "", "log": "new\n", "notes": CUT}, OLD, False),
    "once its notes had their end": Killed(
        {"result": result(NEW), "log": "new\n", "notes": notes(NEW)}, OLD, False
    ),
    "once its log was moved": Killed(
        {"result": result(NEW), "log.whole": "new\n", "notes": notes(NEW)}, OLD, False
    ),
    "as the old one, once its log was moved": Killed(
        {"result": result(OLD), "log.whole": "new\n", "notes": notes(OLD, "0.750")}, OLD, False
    ),
    "once its result was moved": Killed({"log.whole": "new\n", "notes": notes(NEW)}, NEW, True),
    "as the old one, once its result was moved": Killed(
        {"log.whole": "new\n", "notes": notes(OLD, "0.750")}, OLD, True
    ),
    "with the notes of no result": Killed({"notes": CUT}, OLD, False),
}


def leave(runner: Runner, killed: Killed) -> None:
    """Leaves what a process of the game left that was killed."""
    runner.write(f"all/games/{GAME}", result(killed.result))
    (runner.folder / f"all/running/{GAME}").mkdir()
    for name, text in {"lock": "", **killed.files}.items():
        runner.write(f"all/running/{GAME}/{name}", text)


@pytest.mark.parametrize("killed", KILLED.values(), ids=KILLED)
def test_next_run_moves_what_belongs_to_the_result(killed: Killed, lost: Runner) -> None:
    leave(lost, killed)
    assert lost.tournament("play", "all", "--time-left", "1").status == 1
    wanted = (killed.files["notes"], "new\n") if killed.are_new else (notes(OLD), "old\n")
    found = kept(lost)
    assert found.games[GAME] == result(killed.result)
    assert (found.notes[GAME], found.logs[GAME]) == wanted
    assert list((lost.folder / "all/running").iterdir()) == []


def test_directory_of_notes_is_made_for_what_is_moved(lost: Runner) -> None:
    lost.script("two", AFTER_ITS_TRIAL.format("rm -r all/notes"))
    assert lost.tournament("play", "all", "--again", "--task", "1/2")[::2] == (0, "")
    assert list(lost.files("all/notes")) == [GAME]


def test_files_are_moved_before_the_game_begins(lost: Runner) -> None:
    # also by a task of many, which doesn't look at other games
    leave(lost, KILLED["as the old one, once its result was moved"])
    lost.write(f"all/notes/{GAME}", notes(NEW))
    lost.script("two", AFTER_ITS_TRIAL.format(f"cat all/{{notes,logs}}/{GAME} > seen"))
    done = lost.tournament("play", "all", "--task", "1/2", "--again")
    assert done[::2] == (0, "")
    assert (lost.folder / "seen").read_text() == notes(OLD, "0.750") + "new\n"


# ---- what lies where a result belongs


def test_link_to_a_directory_is_replaced(lost: Runner) -> None:
    place = lost.folder / f"all/games/{GAME}"
    place.unlink()
    place.symlink_to(lost.folder)
    done = lost.tournament("play", "all", "--task", "1/2")
    line = f"{GAME}: its file can't be read: Is a directory, and it is played again\n"
    assert (done.status, done.errors) == (0, f"tournament: {line}")
    assert place.is_file() and not place.is_symlink()


def test_directory_of_results_that_cannot_be_written(lost: Runner) -> None:
    place = lost.folder / f"all/games/{GAME}"
    place.unlink()
    place.symlink_to(GAME)
    place.parent.chmod(0o555)
    # root may write there, unless it lacks this capability
    limited = ["setpriv", "--bounding-set=-dac_override"] if os.geteuid() == 0 else []
    done = lost.run(*limited, "tournament", "game", "all", GAME)
    place.parent.chmod(0o755)
    why = "can't be read, nor be replaced: Too many levels of symbolic links"
    assert done == (1, "", f"tournament: {GAME}: no result: {place} {why}\n")
