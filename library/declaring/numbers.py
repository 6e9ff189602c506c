"""The numbers of the library, and what the comments say of them.

They are given to values in crates/vintsaky_calls/src. A number is in an arm of a match:
`Loss::Unfit => 5`, and a comment above the arm says what the value means. The arm's last name is
that of the number in C. KINDS has other names, and longer ones.
"""
from __future__ import annotations

import re
from dataclasses import dataclass, field
from functools import lru_cache
from typing import Dict, Iterable, Iterator, List, Pattern, Tuple

from .texts import Files, Mistake, snake

FOLDER = "crates/vintsaky_calls/src/"
ARM = re.compile(r"((?:^ +// [^\n]*\n)*)^ +(\w[^\n]*?) => \(?(\d+)\b", re.MULTILINE)
ARM_OF_COMMANDS = re.compile(
    r"()^ +(?P<number>\d+) => (?:\{.*?)?Ok\(Command::(?P<name>\w+)", re.MULTILINE | re.DOTALL
)


@dataclass(frozen=True)
class Value:
    """A number with its name in C, without VINTSAKY_, and what is said of it, if anything is."""

    name: str
    number: int
    said: str


@dataclass(frozen=True)
class Kind:
    """Numbers that belong together: the module and its functions that have them.

    Their names begin with `start`, and `others` are names that differ in C.
    """

    module: str
    functions: Tuple[str, ...]
    start: str = ""
    others: Dict[str, str] = field(default_factory=dict)
    arm: Pattern[str] = ARM


KINDS = {
    "colours": Kind("codes", ("number_of_colour",)),
    "rules": Kind("codes", ("number_of_rule",)),
    "vertices": Kind("codes", ("number_of_vertex",)),
    "events": Kind("engines", ("number_of_event",)),
    "actions": Kind("matches", ("next",), "", {"Done": "OVER"}),
    "losses": Kind("losses", ("number_of_fault", "number_of_cause", "number_of_rule"), "LOSS_"),
    "endings": Kind(
        "endings",
        ("number_of_ending", "number_of_ruling"),
        "BY_",
        {"Resign": "RESIGNATION", "Reason": "RULING"},
    ),
    "commands": Kind("writing", ("command_of",), arm=ARM_OF_COMMANDS),
    "lines": Kind("lines", ("feed",), "", {"Command": "LINE"}),
    "replies": Kind(
        "replies", ("feed",), "", {"Ok": "READ", "NoStatus": "NO_REPLY", "Overlong": "LONG_REPLY"}
    ),
}


def text_of(files: Files, path: str) -> str:
    """Returns the text of a file that has to be there."""
    if path not in files:
        raise Mistake(f"there is no {path}")
    return files[path]


def body_of(text: str, function: str, path: str) -> str:
    """Returns the lines of a function."""
    found = re.search(
        rf"^(?:pub(?:\(crate\))? )?fn {function}\(.*?^\}}$", text, re.MULTILINE | re.DOTALL
    )
    if not found:
        raise Mistake(f"{path}: there is no function {function}")
    return found[0]


def arms_of(kind: Kind, body: str) -> Iterator[Value]:
    """Yields the value of each arm that has a number."""

    def value(name: str, number: str, comment: str) -> Value:
        text = " ".join(re.sub(r"^ +//", "", comment, flags=re.MULTILINE).split())
        return Value(kind.start + kind.others.get(name, snake(name)), int(number), text)

    for found in kind.arm.finditer(body):
        if kind.arm is ARM_OF_COMMANDS:
            yield value(found["name"], found["number"], "")
            continue
        names = re.findall(r"\b[A-Z]\w*", found[2])
        if names and names[-1] != "None":
            yield value(names[-1], found[3], found[1])


@lru_cache(maxsize=64)
def values_in(name: str, text: str) -> List[Value]:
    """Returns the values of a kind in its module, in the order of their numbers."""
    kind = KINDS[name]
    path = f"{FOLDER}{kind.module}.rt"
    bodies = [body_of(text, function, path) for function in kind.functions]
    values = [value for body in bodies for value in arms_of(kind, body)]
    values.sort(key=lambda it: it.number)
    if not values or len({it.number for it in values}) != len(values):
        raise Mistake(
            f"{path}: {', '.join(kind.functions)}: no numbers are found there, or two are the same"
        )
    return values


def values_of(name: str, files: Files) -> List[Value]:
    """Returns the values of a kind."""
    if name not in KINDS:
        raise Mistake(f"there are no numbers that are called {name}: there are {', '.join(KINDS)}")
    path = f"{FOLDER}{KINDS[name].module}.rt"
    return values_in(name, text_of(files, path))


# ---- causes


@dataclass(frozen=True)
class Cause:
    """A cause: its name in the sources, its number, and its sentence, with code in backquotes."""

    name: str
    number: int
    comment: str

    @property
    def sentence(self) -> str:
        """The sentence as a call writes it."""
        return self.comment.replace("`", "")

    @property
    def value(self) -> Value:
        """The cause as a number of C."""
        return Value(snake(self.name), self.number, self.sentence)


CAUSES = f"{FOLDER}causes.rt"


@lru_cache(maxsize=64)
def causes_in(text: str) -> List[Cause]:
    """Returns the causes, in the order of their numbers."""
    block = re.search(r"^pub enum Cause \{\n(.*?)^\}", text, re.MULTILINE | re.DOTALL)
    comments = {
        name: said
        for said, name in re.findall(
            r"((?:^    ///[^\n]*\n)*)^    (\w+),$", block[1] if block else "", re.MULTILINE
        )
    }
    numbers = dict(
        re.findall(r"^ +Cause::(\w+) => (\d+),$", body_of(text, "number_of", CAUSES), re.MULTILINE)
    )
    if not comments or set(comments) != set(numbers) or len(set(numbers.values())) != len(numbers):
        raise Mistake(
            f"{CAUSES}: each variant of Cause has to have one number of its own in number_of"
        )
    causes = []
    for name, comment in comments.items():
        said = " ".join(re.sub(r"^ +///", "", comment, flags=re.MULTILINE).split())
        if not re.fullmatch(r"[A-Z][ -~]*\.", said) or re.search(r'["\\]|\*/', said):
            wanted = "a sentence in ASCII, without quotes"
            raise Mistake(f"{CAUSES}: the comment of {name} has to be {wanted}: '{said}'")
        causes.append(Cause(name, int(numbers[name]), said))
    return sorted(causes, key=lambda it: it.number)


def causes_of(files: Files) -> List[Cause]:
    """Returns the causes."""
    return causes_in(text_of(files, CAUSES))


# ---- others


def constant_of(crate: str, name: str, files: Files) -> int:
    """Returns a constant of a crate, which has one of this name."""
    found = []
    for path in [it for it in files if it.startswith(f"crates/{crate}/src/")]:
        found += re.findall(
            rf"^(?:pub(?:\(crate\))? )?const {name}: \w+ = (\d+);$", files[path], re.MULTILINE
        )
    if len(found) != 1:
        raise Mistake(f"crates/{crate}/src has {len(found)} constants {name}, and has to have one")
    return int(found[0])


def version_of(files: Files) -> str:
    """Returns the version of the library, as the call spells it that returns it."""
    path = f"{FOLDER}library.rt"
    found = re.search(
        r"^    (0x[0-9a-f]{6})$", body_of(text_of(files, path), "version", path), re.MULTILINE
    )
    if not found:
        raise Mistake(f"{path}: version has to return a number of the form 0x010000")
    return found[1]


def interface_of(calls: Iterable[str]) -> str:
    """Returns the number of the interface, which one call has in its name."""
    found = [
        it[len("vintsaky_interface_") :]
        for it in calls
        if re.fullmatch(r"vintsaky_interface_\d+", it)
    ]
    if len(found) != 1:
        raise Mistake(f"{len(found)} calls are vintsaky_interface_N, and has to be one")
    return found[0]
