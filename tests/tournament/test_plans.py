"""The plan of a tournament: what it has, and what a later command may ask for."""
from __future__ import annotations

import shutil
import sys
from pathlib import Path
from typing import List

import pytest

from .runner import RANDOM, SCRIPTS, SMALL, TWO, Runner, engines

ONE, TWO_ALONE, THREE = TWO[:1], TWO[1:], engines(three="cat")
OTHER_ONE = engines(one=f"{RANDOM} 5")
FIRST, SECOND = f"engine one {RANDOM} %s\n", f"engine two {RANDOM} 10%s\n"
OPTIONS = "option --size 5\noption --komi 0.5\n"
COMMAND = "where the command has\n"
TO_ADD = (
    "To add an engine, repeat the whole command with the new one behind the others."
    " Else take another directory.\n"
)
ELSE = "Take another folder, or write tournament play all alone, which goes on with what it has.\n"


@pytest.fixture(scope="module")
def planned(shared_runner: Runner) -> Runner:
    """Returns a runner with a plan, which no test changes."""
    assert shared_runner.tournament("plan", "all", *TWO, "--seeds", "4", *SMALL) == (0, "", "")
    return shared_runner


def plan_of(runner: Runner, folder: str = "all") -> str:
    """Returns the text of a plan."""
    return (runner.folder / folder / "plan").read_text()


def is_untouched(planned: Runner) -> bool:
    """Tells whether the plan is as it was made, and nothing was played."""
    plan = f"""\
version = 1
folder = "{planned.folder}"
twogtp = ["--size", "5", "--komi", "0.5"]
start-limit = 60
seeds = 4
limit = 600

[engines]
one = "{RANDOM} %s"
two = "{RANDOM} 10%s"
"""
    return plan_of(planned) == plan and planned.games() == {}


def test_plan_has_what_was_asked_for(planned: Runner) -> None:
    assert is_untouched(planned)


@pytest.mark.parametrize(
    "words, difference",
    [
        pytest.param(
            [*OTHER_ONE, *TWO_ALONE, *SMALL],
            f"{FIRST}{COMMAND}engine one {RANDOM} 5\n{ELSE}",
            id="another command",
        ),
        pytest.param(
            [*ONE, *engines(three=f"{RANDOM} 10%s"), *SMALL],
            f"{SECOND}{COMMAND}engine three {RANDOM} 10%s\n{TO_ADD}",
            id="another name",
        ),
        pytest.param(
            [*THREE, *TWO, *SMALL],
            f"nothing\n{COMMAND}engine three cat\n{TO_ADD}",
            id="one engine more, before the others",
        ),
        pytest.param(
            [*OTHER_ONE, *TWO_ALONE, *THREE, *SMALL],
            f"{FIRST}{COMMAND}engine one {RANDOM} 5\nengine three cat\n{ELSE}",
            id="one engine more, and another command",
        ),
        pytest.param(
            [*TWO, "--", "--size", "7", "--komi", "0.5"],
            f"option --size 5\n{COMMAND}option --size 7\n{ELSE}",
            id="another size",
        ),
        pytest.param(TWO, f"{OPTIONS}{COMMAND}nothing\n{ELSE}", id="no options"),
        pytest.param(
            [*THREE, *SMALL],
            f"{FIRST}{SECOND}{COMMAND}engine three cat\n{TO_ADD}",
            id="one engine more, alone",
        ),
        pytest.param(
            THREE,
            f"{FIRST}{SECOND}{OPTIONS}{COMMAND}engine three cat\n{TO_ADD}",
            id="one engine more, alone without options",
        ),
    ],
)
def test_other_engines_or_options_are_refused(
    words: List[str], difference: str, planned: Runner
) -> None:
    line = "tournament: all was begun with other engines or options. It has\n"
    assert planned.tournament("play", "all", *words) == (2, "", line + difference)
    assert is_untouched(planned)


def test_another_order_is_refused(planned: Runner) -> None:
    has = f"{FIRST}{SECOND}{OPTIONS}{COMMAND}{SECOND}{FIRST}{OPTIONS}{ELSE}"
    line = "tournament: all was begun with the same in another order. It has\n"
    assert planned.tournament("play", "all", *TWO_ALONE, *ONE, *SMALL) == (2, "", line + has)
    assert is_untouched(planned)


@pytest.mark.parametrize(
    "words, more",
    [
        pytest.param(["--seeds", "1"], "2 seeds", id="fewer seeds"),
        pytest.param(ONE, "two", id="one engine less"),
        pytest.param([*TWO_ALONE, "--seeds", "1"], "one, 2 seeds", id="both"),
    ],
)
def test_command_with_less_than_the_plan_plays_all_of_it(
    words: List[str], more: str, runner: Runner
) -> None:
    options = ["--", "--size", "2"] if words[0].startswith("--engine") else []
    runner.tournament("plan", "all", *TWO, "--seeds", "2", "--", "--size", "2")
    plan, line = plan_of(runner), f"tournament: all has more than the command: {more}; "
    done = runner.tournament("plan", "all", *words, *options)
    assert done == (2, "", f"{line}a plan may get more, but not less\n")
    assert (plan_of(runner), runner.games()) == (plan, {})
    done = runner.tournament("play", "all", *words, *options)
    assert (done.status, done.errors) == (0, f"{line}all of it is played\n")
    assert done.output.splitlines()[-1] == "4 of 4 games have a result"
    assert plan_of(runner) == plan


def test_more_seeds_than_in_the_plan_are_for_all_engines(runner: Runner) -> None:
    options = ["--", "--size", "2"]
    three = engines(three="gtp_engine")
    runner.tournament("plan", "all", *TWO, *three, "--seeds", "1", *options)
    done = runner.tournament("play", "all", *TWO, "--seeds", "2", *options)
    more = "tournament: all has more than the command: three; all of it is played\n"
    assert (done.status, done.errors) == (0, more)
    assert done.output.splitlines()[-1] == "12 of 12 games have a result"


def test_line_that_is_not_known_is_spelled(runner: Runner) -> None:
    (runner.folder / "all").mkdir()
    unknown = b"\x1b[2Jgo\tto\x00 \xc3\xa9\xff\xc2\x9bx\x7f\n"
    (runner.folder / "all/plan").write_bytes(b"seeds 4\n" + unknown)
    errors = runner.folder / "errors"
    with open(errors, "wb") as file:
        assert runner.tournament("list", "all", stderr=file).status == 2
    # control characters are, and bytes that are no text stay as they are
    line = b"\\x1b[2Jgo\tto\\x00 \xc3\xa9\xff\\x9bx\\x7f\n"
    wanted = b"tournament: line 2 of all/plan: it isn't known: " + line
    assert errors.read_bytes() == wanted


# ---- plans of earlier scripts

BY_HAND = f"""\
folder FOLDER
# the champion
engine one {RANDOM} %s

engine two {RANDOM} 10%s
option --size
# small, so that it is quick
option 2
# at night more
seeds 1
limit 20
# the end"""


def write_plan(runner: Runner, text: str) -> str:
    """Writes a plan whose engines start in the runner's directory, and returns its text."""
    text = text.replace("FOLDER", str(runner.folder))
    (runner.folder / "all").mkdir()
    runner.write("all/plan", text)
    return text


REWRITTEN = f"""\
version = 1
folder = "FOLDER"
# small, so that it is quick
twogtp = ["--size", "2"]
# at night more
seeds = 2
limit = 20
start-limit = 9

[engines]
# the champion
one = "{RANDOM} %s"

two = "{RANDOM} 10%s"
# the end
"""


def test_earlier_plan_stays_until_it_is_changed(runner: Runner) -> None:
    text = write_plan(runner, BY_HAND)
    done = runner.tournament("play", "all")
    assert (done.status, done.errors, plan_of(runner)) == (0, "", text)
    assert runner.tournament("play", "all", "--seeds", "2", "--start-limit", "9").status == 0
    assert plan_of(runner) == REWRITTEN.replace("FOLDER", str(runner.folder))
    assert runner.tally("all").output.startswith("4 of 4 games have a result")


def test_plan_of_the_first_scripts_names_no_directory(runner: Runner) -> None:
    write_plan(runner, BY_HAND.replace("folder FOLDER\n", ""))
    assert runner.tournament("plan", "all", "--seeds", "2") == (0, "", "")
    first = 'version = 1\nfolder = ""\n# small, so that it is quick\ntwogtp = ["--size", "2"]\n'
    assert plan_of(runner).startswith(f"{first}direct = true\n")
    done = runner.tournament("plan", "all", "--start-limit", "9")
    why = "by earlier scripts, which had none, so it can't have --start-limit"
    assert done == (2, "", f"tournament: all was begun {why}: take another directory\n")


NO_FOLDER = (
    "but none says in which directory the engines start: write folder HERE, for example, as its"
    " first line"
)


@pytest.mark.parametrize(
    "old, new, line",
    [
        *(
            pytest.param(
                "folder FOLDER\n",
                f"{added}\n",
                f"line 1 of all/plan is '{added}', {NO_FOLDER}",
                id=f"{added.split()[0]} without folder",
            )
            for added in ("move-limit 2", "start-limit 60", "opening A1 B2", "direct")
        ),
        *(
            pytest.param(
                "limit 20\n",
                f"limit 20\ndirect\n{added}\n",
                f"line 13 of all/plan is '{added}', which the line direct leaves out",
                id=f"{added.split()[0]} of engines that are started directly",
            )
            for added in ("move-limit 2", "start-limit 60")
        ),
        *(
            pytest.param(
                "limit 20\n",
                f"limit 20\n{kind} {value}\n{kind} {value}\n",
                f"all/plan has more than one line with {kind}",
                id=f"{kind} again",
            )
            for kind, value in {
                **{"folder": "/", "gauntlet": "one", "seeds": "3"},
                **{"limit": "30", "start-limit": "9", "move-limit": "9"},
            }.items()
        ),
    ],
)
def test_no_line_of_a_plan_is_dropped(old: str, new: str, line: str, runner: Runner) -> None:
    text = write_plan(runner, BY_HAND.replace(old, new))
    for words in (["play", "all"], ["plan", "all", "--seeds", "3"], ["list", "all"]):
        report = f"tournament: {line}\n".replace("HERE", str(runner.folder))
        assert runner.tournament(*words) == (2, "", report)
    assert runner.tally("all").status == 2
    assert (plan_of(runner), (runner.folder / "all/games").exists()) == (text, False)


@pytest.mark.parametrize(
    "sizes, statuses",
    [pytest.param("57", [0, 2], id="other options"), pytest.param("55", [0, 0], id="the same")],
)
def test_two_runs_begin_a_directory_at_once(
    sizes: str, statuses: List[int], runner: Runner
) -> None:
    for folder in "abcde":
        begun = [
            runner.start("tournament", "plan", folder, *TWO, "--", "--size", size) for size in sizes
        ]
        assert sorted(runner.finish(process).status for process in begun) == statuses
        assert [place.name for place in (runner.folder / folder).glob("plan*")] == ["plan"]


def test_twogtp_that_is_not_there(planned: Runner, monkeypatch: pytest.MonkeyPatch) -> None:
    monkeypatch.setitem(planned.environment, "TWOGTP", "/no/such/twogtp")
    line = "tournament: there is no /no/such/twogtp: set TWOGTP to its path\n"
    assert planned.tournament("play", "all") == (2, "", line)


# ---- quotes and spaces

# an engine that writes its arguments into a file, which its last argument names
ARGUMENTS = """printf '<%s>' "$@" > "${@: -1}"; exec gtp_engine"""


@pytest.mark.parametrize(
    "options, arguments",
    [
        pytest.param([], "<a b><c1><$HOME><11>< ><one1>", id="quoted as for a shell"),
        pytest.param(
            ["--direct"], "<\"a><b\"><'c1'><$HOME><11><\\><one1>", id="only cut at spaces"
        ),
    ],
)
def test_command_is_split(options: List[str], arguments: str, runner: Runner) -> None:
    runner.script("arguments", ARGUMENTS)
    command = f"  {runner.folder}/arguments   \"a b\"  'c%s' $HOME %s%s \\  one%s "
    words = [*engines(one=command, two="gtp_engine"), "--seeds", "1", *options]
    done = runner.tournament("play", "all", *words, "--", "--size", "1")
    assert done[::2] == (0, "")
    assert (runner.folder / "one1").read_text() == arguments


def test_spaces_in_all_names(runner: Runner, tmp_path: Path) -> None:
    shutil.copytree(SCRIPTS, tmp_path / "my scripts")
    for name in ("twogtp", "gtp_engine"):
        shutil.copy(runner.programs / name, tmp_path / f"my {name}")
    (tmp_path / "my python").symlink_to(sys.executable)
    runner.environment["TWOGTP"] = str(tmp_path / "my twogtp")
    words = engines(one='"./my gtp_engine"', two="./my\\ gtp_engine")
    command = [tmp_path / "my python", "my scripts/tournament", "play", "a folder", *words]
    assert runner.run(*command, "--seeds", "1", "--", "--size", "2")[::2] == (0, "")
    assert sorted(runner.games("a folder")) == ["1_one_two", "1_two_one"]
    assert runner.run(tmp_path / "my python", "my scripts/tally", "a folder").status == 0
