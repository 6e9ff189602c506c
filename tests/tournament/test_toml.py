"""A plan in a file of TOML: what it says becomes a plan as of the command line."""
from __future__ import annotations

import re
import shutil
from pathlib import Path
from typing import List

import pytest

from .runner import SCRIPTS, Runner

READERS = "tomllib", "tomli"
SMALL = """\
seeds = 1
size = 2
[engines.one]
command = "gtp_engine --policy random --seed %s"
[engines.two]
command = "gtp_engine"
"""
OF_SMALL = '[engines]\none = "gtp_engine --policy random --seed %s"\ntwo = "gtp_engine"\n'


@pytest.fixture(autouse=True)
def reader(runner: Runner) -> None:
    """Skips where the Python of the scripts reads no TOML."""
    if all(runner.run("python3", "-c", f"import {name}").status for name in READERS):
        pytest.skip("python3 has neither tomllib nor tomli")


def without_reader(runner: Runner) -> None:
    """Has no Python read TOML from here on."""
    folder = runner.folder / "hidden"
    folder.mkdir()
    for name in READERS:
        (folder / f"{name}.py").write_text("raise ImportError")
    runner.environment["PYTHONPATH"] = str(folder)


def plan_of(runner: Runner, folder: str) -> List[str]:
    """Returns the lines of a plan, with FOLDER for the runner's directory."""
    text = (runner.folder / folder / "plan").read_text()
    return text.replace(str(runner.folder), "FOLDER").splitlines()


# ---- the example

EXAMPLE = (SCRIPTS / "example.toml").read_text()
OF_EXAMPLE = """\
version = 1
folder = "FOLDER"
twogtp = ["--size", "9", "--komi", "7.5", "--max-moves", "400"]
move-limit = 30
start-limit = 60
seeds = 2
limit = 600

[engines]
random = "gtp_engine --policy random --ko positional --seed %s"
first = "gtp_engine --policy first --ko positional"
random-2 = "env OMP_NUM_THREADS=1 gtp_engine --policy random --ko positional --seed 10%s"
"""
GNUGO = (
    'gnugo = "/usr/games/gnugo --mode gtp --level 1 --seed %s --chinese-rules'
    ' --capture-all-dead --ko positional"\n'
)


def test_example_is_played(runner: Runner) -> None:
    runner.write("example.toml", EXAMPLE)
    done = runner.tournament("play", "example.toml")
    assert (done.status, done.errors) == (0, "")
    assert done.output.splitlines()[-1] == "12 of 12 games have a result"
    assert plan_of(runner, "example") == OF_EXAMPLE.splitlines()
    assert runner.tally("example").output.startswith("12 of 12 games have a result")
    done = runner.tournament("play", "example.toml")
    assert done == (0, "12 of 12 games have a result\n", "")


def test_all_lines_of_the_example(runner: Runner) -> None:
    runner.write("openings.txt", "C3 G7  # two corners\nE5\n")
    text = re.sub(r"^# (?=[\w-]+ = |\[)", "", EXAMPLE, flags=re.MULTILINE)
    runner.write("whole.toml", text)
    assert runner.tournament("plan", "whole.toml")[::2] == (0, "")
    wanted = OF_EXAMPLE.replace('"--max-moves"', '"--handicap", "0", "--max-moves"')
    wanted = wanted.replace("twogtp", 'gauntlet = "random"\ntwogtp')
    wanted = wanted.replace("limit = 30\n", 'limit = 30\nclock = "byoyomi 60 5 3"\n')
    wanted = wanted.replace("seeds", 'openings = ["E5", "C3 G7"]\nseeds') + GNUGO
    assert plan_of(runner, "example") == wanted.splitlines()


# ---- where it plays


def test_paths_are_seen_from_the_file(runner: Runner) -> None:
    (runner.folder / "far").mkdir()
    runner.script("far/engine", "exec gtp_engine")
    runner.write("far/lines", "A1 B2\n")
    text = SMALL.replace('"gtp_engine"', '"./engine"')
    runner.write("far/night.toml", f'openings = "lines"\n{text}')
    assert runner.tournament("play", "far/night.toml")[::2] == (0, "")
    assert sorted(runner.games("far/night")) == ["1_one_two", "1_two_one"]
    runner.write("far/night.toml", f'folder = "../near"\nopenings = "lines"\n{text}')
    assert runner.tournament("play", "far/night.toml")[::2] == (0, "")
    assert runner.games("near") == runner.games("far/night")
    assert plan_of(runner, "near")[1] == 'folder = "FOLDER/far"'


def test_directory_may_have_the_name_of_a_file(runner: Runner) -> None:
    (runner.folder / "a.toml").mkdir()
    words = ["--engine", "one=gtp_engine", "--engine", "two=gtp_engine", "--seeds", "1"]
    assert runner.tournament("plan", "a.toml", *words)[0] == 0
    assert (runner.folder / "a.toml/plan").exists()


def test_words_and_environment_are_quoted(runner: Runner) -> None:
    runner.script("engine", 'printf "<%s>" "$A" "$B" "$@" > "$C"; exec gtp_engine')
    runner.write(
        "a.toml",
        'seeds = 1\nsize = 1\noptions = ["$x", "1 %s"]\n'
        '[engines.one]\ncommand = ["./engine", "a b"]\noptions = "c \'d e\'"\n'
        'environment = { A = "f g", C = "one" }\n'
        '[engines."v1.0"]\nlike = "one"\nenvironment = { B = 2, C = "v1.0" }\n',
    )
    assert runner.tournament("play", "a.toml")[::2] == (0, "")
    assert (runner.folder / "one").read_text() == "<f g><><a b><$x><1 1><c><d e>"
    assert (runner.folder / "v1.0").read_text() == "<f g><2><a b><$x><1 1>"


# ---- a file that is changed, and options besides


def test_changed_file_does_what_changed_options_do(runner: Runner) -> None:
    runner.write("a.toml", SMALL)
    assert runner.tournament("play", "a.toml").status == 0
    three = '[engines.three]\ncommand = "gtp_engine --ko positional"\n'
    runner.write("a.toml", SMALL.replace("= 1", "= 2") + three)
    done = runner.tournament("play", "a.toml")
    assert (done.status, done.output.splitlines()[-1]) == (0, "12 of 12 games have a result")
    plan = plan_of(runner, "a")
    runner.write("a.toml", SMALL.replace("size = 2", "size = 3") + three)
    has = "option --size 2\nwhere the command has\noption --size 3"
    done = runner.tournament("play", "a.toml")
    assert done.status == 2
    assert f"a was begun with other engines or options. It has\n{has}\n" in done.errors
    assert plan_of(runner, "a") == plan


def test_options_of_the_command_line_count(runner: Runner) -> None:
    runner.write("a.toml", f"jobs = 1\nlimit = 30\nkomi = -3.5\nshow = true\n{SMALL}")
    assert runner.tournament("plan", "a.toml", "--seeds", "3") == (0, "", "")
    options = 'twogtp = ["--komi=-3.5", "--show", "--size", "2"]\n'
    last = "start-limit = 60\nseeds = 3\nlimit = 30\n\n"
    wanted = f'version = 1\nfolder = "FOLDER"\n{options}{last}{OF_SMALL}'
    assert plan_of(runner, "a") == wanted.splitlines()


@pytest.mark.parametrize(
    "value, report",
    [
        pytest.param("[10, 0.5]", "--sprt needs the lower difference first", id="two numbers"),
        pytest.param(
            "5", "a.toml: sprt needs two differences in Elo, such as sprt = [0, 10]", id="one"
        ),
    ],
)
def test_key_with_two_values(value: str, report: str, runner: Runner) -> None:
    runner.write("a.toml", f"sprt = {value}\n{SMALL}")
    done = runner.tournament("play", "a.toml")
    assert done.status == 2
    assert done.errors.startswith(f"tournament: {report}")
    assert runner.tournament("plan", "a.toml") == (0, "", "")  # no plan keeps it


# ---- mistakes

MISTAKES = {
    f"sedes = 3\n{SMALL}": "there is no key sedes: is it seeds?",
    f"movelimit = 3\n{SMALL}": "there is no key movelimit: is it move-limit?",
    f"again = true\n{SMALL}": "again is no key: give --again to tournament play",
    f"{SMALL}comand = 'x'": "there is no key comand in engines.two: is it command?",
    f"{SMALL}[engines.v1.0]\ncommand = 'x'": (
        'engines.v1 can\'t have a table 0: quote a name with a dot, [engines."v1.0"]'
    ),
    f"{SMALL}like = 'one'": (
        "engines.two needs either command or like, which names another engine"
    ),
    f"{SMALL}[engines.c]\nlike = 'c'": (
        "engines.c.like needs the name of another engine, and not 'c'"
    ),
    f"{SMALL}options = 3": "engines.two.options needs a text, or a list of words, and not 3",
    f"{SMALL}environment = 3": (
        "engines.two.environment needs a table, such as { OMP_NUM_THREADS = 2 }"
    ),
    f"{SMALL}environment = {{ A = true }}": (
        "engines.two.environment.A needs a text, and not true"
    ),
    f"{SMALL}[engines.'c d']\ncommand = 'x'": (
        "an engine's name may have letters, digits, . + and -, at most 40 of them, unlike 'c d'"
    ),
    f'{SMALL}options = "\\u0000"': (
        "the command of two has a zero byte, which no program can be given"
    ),
    "seeds = 3": "it has no engines: write [engines.NAME], and below it the key command",
    f"seeds = [3]\n{SMALL[10:]}": "seeds needs a number, and not [3]",
    f"direct = 1\n{SMALL}": "direct needs true or false, and not 1",
    f"direct = true\noptions = ['a b']\n{SMALL}": (
        "options has 'a b', which direct = true can't give to an engine"
    ),
}


@pytest.mark.parametrize("text", MISTAKES, ids=MISTAKES.values())
def test_mistake_names_the_key(text: str, runner: Runner) -> None:
    runner.write("a.toml", text)
    for command in ("play", "plan"):
        done = runner.tournament(command, "a.toml")
        assert done == (2, "", f"tournament: a.toml: {MISTAKES[text]}\n")
    assert not (runner.folder / "a").exists()


def test_file_that_is_not_read(runner: Runner) -> None:
    line = "tournament: a.toml can't be read: No such file or directory\n"
    assert runner.tournament("play", "a.toml") == (2, "", line)
    runner.write("a.toml", "seeds = \n")
    done = runner.tournament("play", "a.toml")
    assert (done.status, done.errors[:36]) == (2, "tournament: a.toml is no TOML: Inval")
    assert "line 1" in done.errors
    runner.write("a.toml", SMALL)
    done = runner.tournament("play", "a.toml", "--", "--size", "3")
    why = "options of twogtp belong into a.toml, such as size = 9: leave out --"
    assert done == (2, "", f"tournament: {why}\n")


@pytest.mark.parametrize("command", ["tally", "tournament list", "tournament export"])
def test_file_in_place_of_the_directory(command: str, runner: Runner) -> None:
    runner.write("a.toml", SMALL)
    more = ["--csv"] if command.endswith("export") else []
    line = "a.toml is a file: give the directory of the tournament, such as a\n"
    done = runner.run(*command.split(), "a.toml", *more)
    assert done == (2, "", f"{command.split()[0]}: {line}")


# ---- Python that reads no TOML


def test_reader_is_missing(runner: Runner) -> None:
    runner.write("a.toml", SMALL)
    without_reader(runner)
    done = runner.tournament("play", "a.toml")
    assert (done.status, done.output) == (2, "")
    assert done.errors == (
        "tournament: to read TOML, Python before 3.11 needs tomli: write python3 -m pip install"
        " tomli, or install the package python3-tomli\n"
    )


@pytest.mark.parametrize("python", ["python3", "python3.9"])
def test_folder_of_a_file_needs_no_reader(python: str, runner: Runner) -> None:
    if not shutil.which(python) or runner.run(python, "--version").status:
        pytest.skip(f"there is no {python} that runs")
    runner.write("a.toml", SMALL)
    assert runner.tournament("plan", "a.toml") == (0, "", "")
    without_reader(runner)

    def run(script: str, *words: str) -> str:
        done = runner.run(python, Path(SCRIPTS, script), *words)
        assert done[::2] == (0, "")
        return done.output

    assert run("tournament", "list", "a") == "1_one_two\n1_two_one\n"
    assert run("tournament", "plan", "a", "--seeds", "2") == ""
    assert run("tournament", "game", "a", "1_one_two").startswith("1_one_two: ")
    assert run("tournament", "play", "a").endswith("4 of 4 games have a result\n")
    assert run("tally", "a").startswith("4 of 4 games have a result")
