"""The arguments: which a command has, and how they are read."""
from __future__ import annotations

import os
from itertools import islice
from typing import Callable, Iterator, Mapping, NamedTuple, Sequence, TypeVar

from ..output import Mistake

T = TypeVar("T")


class Option(NamedTuple):
    """An option with values: what they are, an example, and how many."""

    wanted: str
    example: str
    number: int = 1


Options = Mapping[str, "Option | None"]  # by their names; None for an option without values
OF_TEST: Options = {
    "--sprt": Option("two differences in Elo", "--sprt 0 10", 2),
    "--between": Option("two engines' NAMEs", "--between new old", 2),
    "--alpha": Option("a number", "--alpha 0.05"),
    "--beta": Option("a number", "--beta 0.05"),
}
QUOTED = "--engine 'one=gtp_engine --policy random --seed %s'"
MAIL = "'mail -s night me'"
OF_PLAY: Options = {  # which no plan keeps
    "--jobs": Option("a number", "--jobs 4"),
    "--pin": None,
    "--again": None,
    "--task": Option("K/T", "--task 3/100"),
    "--time-left": Option("a time", "--time-left 30:00"),
    "--on-end": Option("CMD", f"--on-end {MAIL}"),
    "--on-failure": Option("CMD", f"--on-failure {MAIL}"),
    **OF_TEST,
    "--page": Option("a FILE", "--page night.html"),
    "--dry-run": None,
}
OF_PLAN: Options = {
    "--engine": Option("NAME=CMD", QUOTED),
    "--seeds": Option("a number", "--seeds 10"),
    "--limit": Option("a number of seconds", "--limit 600"),
    "--move-limit": Option("seconds", "--move-limit 30"),
    "--start-limit": Option("seconds", "--start-limit 300"),
    "--clock": Option("a clock", "--clock 'byoyomi 600 30 5'"),
    "--margin": Option("seconds", "--margin 0.1"),
    "--scorer": Option("CMD", "--scorer 'gnugo --mode gtp --chinese-rules'"),
    "--openings": Option("FILE", "--openings openings.txt"),
    "--shuffle-openings": Option("a number", "--shuffle-openings 1"),
    "--direct": None,
    "--gauntlet": Option("an engine's NAME", "--gauntlet new"),
    **OF_PLAY,
}
OF_CHECK: Options = {
    name: option for name, option in OF_PLAN.items() if name == "--jobs" or name not in OF_PLAY
}
OF_LOSSES: Options = {
    name: Option("half, out or loses", f"{name} half") for name in ("--abandoned", "--late")
}
OF_TALLY: Options = {
    **OF_LOSSES,
    "--no-winner": Option("half or out", "--no-winner out"),
    **OF_TEST,
    "--by": Option("colour, opening, length or time", "--by colour"),
    "--json": None,
}
OF_EXPORT: Options = {
    **OF_LOSSES,
    "--pgn": None,
    "--csv": None,
    "--jsonl": None,
    "--sgf": Option("a new FOLDER", "--sgf records"),
}
OF_PAGE: Options = {
    **OF_LOSSES,
    "--no-winner": OF_TALLY["--no-winner"],
    **OF_TEST,
    "--without-moves": None,
    "-o": Option("a FILE", "-o night.html"),
}
OF_WATCH: Options = {
    **{name: option for name, option in OF_PAGE.items() if name != "-o"},
    "--port": Option("a port", "--port 8000"),
}
OF_SHOW: Options = {
    "--size": Option("a size", "--size 9"),
    "--komi": Option("komi", "--komi=7.5"),
    "--handicap": Option("a number of stones", "--handicap 2"),
    "--ko": Option("simple or positional", "--ko simple"),
    "-o": Option("a FILE", "-o game.html"),
}
PLACES = {"game": ["FOLDER", "GAME"], "show": ["FILE"]}  # of commands; else FOLDER
OPTIONS: Mapping[str, Options] = {
    "play": OF_PLAN,
    "plan": OF_PLAN,
    "check": OF_CHECK,
    "list": {"--all": None, "--replaced": None},
    "game": {},
    "export": OF_EXPORT,
    "verify": {},
    "score": {},
    "page": OF_PAGE,
    "show": OF_SHOW,
    "watch": OF_WATCH,
    "tally": OF_TALLY,
}
# of twogtp: those with a value, with an example, and the others
OF_TWOGTP = {
    "--size": "9",
    "--komi": "7.5",
    "--handicap": "2",
    "--max-moves": "400",
    "--restarts": "0",
}
OTHERS_OF_TWOGTP = ("--record", "--show", "--why", "--games", "--black", "--white")


# options that other programs for tournaments have, and what they are here
ELSEWHERE = {"--concurrency": "--jobs", "--threads": "--jobs", "--rounds": "--seeds"}


class Given(NamedTuple):
    """An option that is given, with its values."""

    name: str
    values: list[str]


class Arguments:
    """What was asked for: the places, such as FOLDER, the options in their order, and what follows
    --, if that is there."""

    def __init__(self, command: str, words: Sequence[str]) -> None:
        self.command, self.known = command, OPTIONS[command]
        self.program = command if command == "tally" else f"tournament {command}"
        self.has_plan = "--engine" in self.known
        self.places: list[str] = []
        self.options: list[Given] = []
        self.after: list[str] | None = None
        self.directory: str | None = None  # of a file with a plan, in which engines start
        self.is_help = False
        left = iter(words)
        for word in left:
            if word == "--" and self.has_plan:
                self.after = list(left)
                check_values(self.after)
            elif word in ("-h", "--help"):
                self.is_help = True
                return
            elif word.startswith("-"):
                self.add_option(word, left)
            else:
                self.places.append(word)
        self.check_places()

    def add_option(self, word: str, left: Iterator[str]) -> None:
        """Adds an option, with its values out of the word and of those that are left."""
        name, has_value, value = word.partition("=")
        if name not in self.known:
            raise Mistake(self.unknown(name))
        option = self.known[name]
        if option is None:
            if has_value:
                raise Mistake(f"{name} has no value: write {name}")
            self.options.append(Given(name, []))
            return
        first = [value] if has_value else []
        others = list(islice(left, option.number - len(first)))
        values = first + others
        if len(values) < option.number or any(other.startswith("--") for other in others):
            raise Mistake(f"{name} needs {option.wanted} after it, such as {option.example}")
        self.options.append(Given(name, values))

    def unknown(self, name: str) -> str:
        """Returns what to write in place of an option that the command doesn't have."""
        if self.has_plan and name in (*OF_TWOGTP, *OTHERS_OF_TWOGTP):
            return (
                f"{name} is an option of twogtp: these come last, after --, such as: "
                f"{self.program} FOLDER .. -- {name} .."
            )
        if ELSEWHERE.get(name) in self.known:
            return f"{self.command} has no option {name}: it is {ELSEWHERE[name]}"
        import difflib  # which isn't needed elsewhere

        close = difflib.get_close_matches(name, list(self.known), 1, 0.65)
        if close:
            return f"{self.command} has no option {name}: is it {close[0]}?"
        help_has = f"{self.program} --help has those that it has"
        if self.has_plan:
            help_has += f", and one of an engine belongs into the quotes of its command: {QUOTED}"
        return f"{self.command} has no option {name}: {help_has}"

    def check_places(self) -> None:
        """Raises Mistake unless as many places are given as the command has."""
        wanted = PLACES.get(self.command, ["FOLDER"])
        line = f"{self.program} {' '.join(wanted)}{' ..' if self.has_plan else ''}"
        if len(self.places) < len(wanted):
            raise Mistake(f"{wanted[len(self.places)]} is missing: write {line}")
        if "" in self.places[: len(wanted)]:
            empty = wanted[self.places.index("")]
            raise Mistake(f"{empty} is empty, perhaps by a variable that isn't set: write {line}")
        if len(self.places) > len(wanted):
            more = f"; a command with spaces needs quotes: {QUOTED}" if self.has_plan else ""
            surplus = self.places[len(wanted)]
            raise Mistake(f"'{surplus}' is one argument too many: write {line}{more}")

    def last(self, name: str, read: Callable[[str, str], T]) -> T | None:
        """Returns what this function reads of the last value of an option; None where that isn't
        given. All values are read, so that each mistake is found."""
        return self.last_of_two(name, lambda option, values: read(option, values[0]))

    def last_of_two(self, name: str, read: Callable[[str, Sequence[str]], T]) -> T | None:
        """Returns the same of an option that has two values."""
        found = [read(name, given.values) for given in self.options if given.name == name]
        return found[-1] if found else None

    def has(self, name: str) -> bool:
        """Returns whether the option is given."""
        return any(given.name == name for given in self.options)


def check_values(words: Sequence[str]) -> None:
    """Raises Mistake unless each option of twogtp has its value."""
    for name, value in zip(words, [*words[1:], "--"]):
        if name in OF_TWOGTP and value.startswith("-"):
            is_negative = value[1:2].isdigit()
            example = f"{name}={value}" if is_negative else f"{name} {OF_TWOGTP[name]}"
            raise Mistake(f"{name} needs a value after it, such as {example}")


def processors() -> int:
    """Returns how many processors this process may use."""
    return len(os.sched_getaffinity(0))
