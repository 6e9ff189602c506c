"""The file of a plan: readers of TOML read it, and nothing that people write in it is dropped."""
from __future__ import annotations

import os
from typing import Any, Tuple

import pytest

from .inside import module
from .runner import RANDOM, Runner, engines

tomllib: Any = pytest.importorskip("tomllib")

# all characters but the first one up to the Greek ones, rare ones, and one beyond the first 65536
CHARACTERS = "".join(map(chr, (*range(1, 0x380), 0x2028, 0xFEFF, 0xFFFD, 0x1F600)))
BYTES = b"\xff/\xe9\xa0' \"\\\xc3\xa9"  # of these the last two alone are UTF-8


def parsed(text: str) -> Any:
    """Returns the plan of a file with this text."""
    return module("config.plan_file").parse(text.encode(), "plan")


def file_of(plan: Any) -> str:
    """Returns the text of a new file of a plan."""
    text: str = module("config.plan_writing").text_with(plan, None, "plan").decode()
    return text


def test_any_text_is_written_and_read() -> None:
    plan = module("model").Plan()
    one_line = CHARACTERS.replace("\n", "")
    plan.folder, plan.options, plan.scorer = CHARACTERS, ["", CHARACTERS], one_line
    plan.gauntlet, plan.move_limit, plan.start_limit, plan.margin = "one", "0.5", "7", "12.000001"
    plan.openings, plan.seeds, plan.limit = ["A1 B2"] * 20, 9999999, 1
    commands = {"one": one_line, "v1.0+b": "'", "9": "\\", "a-B": "'\"", "c": "\t"}
    for name, command in commands.items():
        plan.add_engine(name, command)
    text = file_of(plan)
    assert tomllib.loads(text) == {
        "version": 1,
        "folder": CHARACTERS,
        "twogtp": ["", CHARACTERS],
        "scorer": one_line,
        "gauntlet": "one",
        "move-limit": 0.5,
        "start-limit": 7,
        "margin": 12.000001,
        "openings": ["A1 B2"] * 20,
        "seeds": 9999999,
        "limit": 1,
        "engines": commands,
    }
    assert vars(parsed(text)) == vars(plan)
    assert list(parsed(text).engines) == [*commands]


def test_bytes_that_are_no_text(runner: Runner) -> None:
    words = [*engines(one=f"./{os.fsdecode(BYTES)}\"'", two="cat"), "--seeds", "1"]
    for _ in range(2):
        assert runner.tournament("plan", "all", *words) == (0, "", "")
    with open(runner.folder / "all/plan", "rb") as file:
        command = tomllib.load(file)["engines"]["one"]
    # a number is a byte
    assert command == ["./", 255, "/", 233, 160, "' \"\\é\"'"]
    plan = module("config.plan_file").read_plan(str(runner.folder / "all"))
    assert os.fsencode(plan.engines["one"].command) == b"./" + BYTES + b"\"'"


BY_HAND = """\
# the night of the first three

version = 1   # of this form
folder = '/nowhere'
  "seeds" = 2  # at "night" # more
# small
twogtp = [ '--size',
  '2', # quick
]
limit=20# seconds

[ engines ]  # in this order
# the champion
one="gtp_engine --policy random --seed %s" # since May
"two" = 'gtp_engine "--policy" random --seed 10%s'
# the end"""


def test_all_that_people_write_stays(runner: Runner) -> None:
    assert tomllib.loads(BY_HAND)["engines"]["two"] == 'gtp_engine "--policy" random --seed 10%s'
    text = BY_HAND.replace("/nowhere", str(runner.folder))
    (runner.folder / "all").mkdir()
    place = runner.write("all/plan", text)
    done = runner.tournament("play", "all", "--seeds", "2")
    assert (done.status, done.errors, place.read_text()) == (0, "", text)
    words = engines(
        one=f"{RANDOM} %s", two='gtp_engine "--policy" random --seed 10%s', three="gtp_engine"
    )
    more = ["--seeds", "3", "--start-limit", "9", "--", "--size", "2"]
    assert runner.tournament("plan", "all", *words, *more) == (0, "", "")
    wanted = text.replace('  "seeds" = 2 ', "seeds = 3 ")
    wanted = wanted.replace("seconds\n", "seconds\nstart-limit = 9\n")
    wanted = wanted.replace("# the end", 'three = "gtp_engine"\n# the end\n')
    assert place.read_text() == wanted


WHOLE = """\
version = 1
folder = "/"
twogtp = ["--size", "2"]
seeds = 2
limit = 20
[engines]
one = "gtp_engine"
two = "gtp_engine"
"""
CHANGES = {  # of one line, and the message
    ("seeds = 2", "sedes = 2"): "line 4 of all/plan: there is no key sedes: is it seeds?",
    ("seeds = 2", "seeds = 2\nseeds = 3"): "line 5 of all/plan: line 4 has seeds, too",
    ("seeds = 2", "seeds = -2"): (
        "line 4 of all/plan: seeds needs a number from 1 to 9999999, and not '-2'"
    ),
    ("seeds = 2", 'seeds = "2"'): (
        "line 4 of all/plan: seeds needs a number from 1 to 9999999, and not '\"2\"'"
    ),
    ("seeds = 2", "seeds = 1_0"): (
        "line 4 of all/plan: it is no text in quotes, number or list: 1_0"
    ),
    (
        "seeds = 2",
        "seeds =",
    ): "line 4 of all/plan: it is no text in quotes, number or list: nothing",
    ("seeds = 2", "seeds = 2 3"): (
        "line 4 of all/plan: what is behind the value isn't understood: 3"
    ),
    ("seeds = 2", "seeds 2"): (
        "line 4 of all/plan: it isn't understood: seeds 2; write KEY = VALUE, and quote a key with"
        " a dot"
    ),
    ("seeds = 2", "# \x00"): "line 4 of all/plan: a comment or a string can't have '\\x00'",
    ("seeds = 2", "# \x80"): "line 4 of all/plan: a comment or a string can't have '\\udc80'",
    ("seeds = 2\n", ""): "all/plan lacks engines, seeds or the limit",
    ('"/"', "3"): "line 2 of all/plan: folder needs a text in quotes, and not 3",
    ('"/"', '["/", 256]'): (
        'line 2 of all/plan: folder needs a text in quotes, and not ["/", 256]'
    ),
    ('"/"', '""'): "line 2 of all/plan: folder is empty",
    ('"/"', '"\\ud800"'): "line 2 of all/plan: there is no character \\ud800",
    ('"/"', '"\\e"'): "line 2 of all/plan: there is no character \\e",
    ('"/"', '"\\u0000"'): (
        "line 2 of all/plan: folder has a zero byte, which no program can be given"
    ),
    ('"/"', '"""/"""'): ('line 2 of all/plan: what is behind the value isn\'t understood: "/"""'),
    ('folder = "/"\n', ""): "all/plan lacks folder, the directory in which the engines start",
    ('folder = "/"', 'folder = "/"\ndirect = true\nmargin = 1'): (
        "line 4 of all/plan: direct = true leaves out margin"
    ),
    ('folder = "/"', 'folder = "/"\ndirect = "yes"'): (
        'line 3 of all/plan: direct needs true or false, and not "yes"'
    ),
    (
        '"2"]',
        '"2"',
    ): "line 4 of all/plan: behind a value of a list belongs , or ], and not seeds = 2",
    ('"2"]', "[[[2]]]]"): "line 3 of all/plan: it is no text in quotes, number or list: [2]]]]",
    ('["--size", "2"]', '"--size"'): (
        'line 3 of all/plan: twogtp needs a list of texts, and not "--size"'
    ),
    ('two = "gtp_engine"', 'one = "gtp_engine"'): "line 8 of all/plan: line 7 has one, too",
    ('two = "gtp_engine"', '"a b" = "x"'): (
        "line 8 of all/plan: an engine's name may have letters, digits, . + and -, at most 40 of"
        " them, unlike 'a b'"
    ),
    ("two =", "two.command ="): (
        'line 8 of all/plan: it isn\'t understood: two.command = "gtp_engine"; write KEY = VALUE,'
        " and quote a key with a dot"
    ),
    ("[engines]", "[engines]\n[engines]"): "line 7 of all/plan: line 6 has [engines], too",
    ("[engines]", "[players]"): (
        "line 6 of all/plan: there is no table [players]: the only one is [engines]"
    ),
    ("[engines]", "[[engines]]"): (
        "line 6 of all/plan: it isn't understood: [[engines]]; write KEY = VALUE, and quote a key"
        " with a dot"
    ),
    ("= 1\n", "= 2\n"): (
        "line 1 of all/plan: this tournament reads version 1 of a plan, and not 2"
    ),
    ("version = 1\n", ""): (
        "line 1 of all/plan has a key and a value, so that the first line has to be version = 1"
    ),
}


@pytest.mark.parametrize("change", CHANGES, ids=repr)
def test_what_is_not_understood_is_a_mistake(change: Tuple[str, str]) -> None:
    text = WHOLE.replace(*change)
    assert parsed(WHOLE).seeds == 2 and text != WHOLE
    with pytest.raises(module("output").Mistake) as raised:
        module("config.plan_file").parse(text.encode("latin-1"), "all/plan")
    assert raised.value.text == CHANGES[change]


def test_plan_with_a_mistake_stays(runner: Runner) -> None:
    (runner.folder / "all").mkdir()
    text = WHOLE.replace("[engines]", "[engines]\none = ''")
    place = runner.write("all/plan", text)
    report = "line 8 of all/plan: line 7 has one, too\n"
    for words in (["play", "all", "--seeds", "3"], ["list", "all"]):
        assert runner.tournament(*words) == (2, "", f"tournament: {report}")
    assert runner.tally("all") == (2, "", f"tally: {report}")
    assert [file.name for file in (runner.folder / "all").iterdir()] == ["plan"]
    assert place.read_text() == text
