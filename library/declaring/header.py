"""The C header: vintsaky.h.in, in which the calls and the numbers take the places that are marked.

A mark is `@WORD ..@`. One alone on its line becomes lines: `@values KIND@` the numbers of a kind, a
line each with what is said of it; `@enums KIND@` the same in short enumerations; `@causes@` the
errors; `@calls SECTION@` the calls of a section. Any other becomes a number: `@interface@`,
`@version@`, `@KIND NAME@` that of a value, `@CRATE NAME@` that of a constant, and `@CRATE NAME +
1@` one more.
"""
from __future__ import annotations

import re
import textwrap
from typing import Iterable, List, Match, Sequence, Set

from . import exports, numbers
from .exports import Call
from .numbers import Value
from .texts import C_COMMENT, Files, Mistake, bare, snake

PATH = "library/vintsaky.h"
TEMPLATE = "library/declaring/vintsaky.h.in"
WIDTH = 136  # of what is made
MOST = 140  # columns that a line may have
IN_A_LINE = 4  # values of a short enumeration
LINE = re.compile(r"^( *)@(values|enums|causes|calls) ?(\w*)@$", re.MULTILINE)
NUMBER = re.compile(r"@(\w+)(?: (\w+))?( \+ 1)?@")
LAST = "\N{NO-BREAK SPACE}*/"  # the end of a comment, which stays with the last word


# ---- calls


def declaration(call: Call) -> str:
    """Returns the declaration of a call.

    Where it is too long for a line its arguments go to the next one, or else fill the lines.
    """
    arguments = [
        it.c + it.name if it.c.endswith("*") else f"{it.c} {it.name}" for it in call.arguments
    ] or ["void"]
    front, rest = f"{call.c} {call.name}(", ", ".join(arguments) + ");"
    if len(front + rest) <= WIDTH:
        return front + rest
    if len(rest) + 4 <= WIDTH:
        return f"{front}\n    {rest}"
    # an argument isn't parted from its type
    words = (
        ", ".join(arguments).replace(" ", "\N{NO-BREAK SPACE}").replace(",\N{NO-BREAK SPACE}", ", ")
    )
    lines = textwrap.wrap(
        front + words + ");",
        WIDTH,
        subsequent_indent="    ",
        break_long_words=False,
        break_on_hyphens=False,
    )
    return "\n".join(lines).replace("\N{NO-BREAK SPACE}", " ")


def in_c(text: str, causes: Set[str], where: str) -> str:
    """Returns a comment for C: without marks of code, and with the names that errors have in C."""

    def word(found: Match[str]) -> str:
        if found[1] in causes:
            return f"VINTSAKY_{snake(found[1])}"
        if re.fullmatch(r"[A-Z][a-z]\w*", found[1]):
            raise Mistake(f"{where}: its comment names {found[1]}, which isn't an error")
        return found[1]

    return re.sub(r"\[?`([^`]*)`\]?", word, text)


def wrapped(text: str) -> List[str]:
    """Returns the lines of a text, as wide as those of a comment are."""
    return textwrap.wrap(text, WIDTH - 3, break_long_words=False, break_on_hyphens=False)


def comment_of(call: Call, causes: Set[str]) -> str:
    """Returns the comment of a call: what it does, and its errors."""
    said = in_c(call.comment.text, causes, call.name)
    errors = in_c(call.comment.errors, causes, call.name)
    errors = errors and f"Errors: {errors}"
    lines = wrapped(said if errors else said + LAST) + (wrapped(errors + LAST) if errors else [])
    return "/* " + "\n * ".join(lines).replace(LAST, " */")


def sections(files: Files) -> List[str]:
    """Returns the sections that have calls, in the order of the header."""
    return [
        name for _, what, name in LINE.findall(numbers.text_of(files, TEMPLATE)) if what == "calls"
    ]


def calls_of(section: str, files: Files) -> str:
    """Returns the calls of a section, but the one with the number of the interface.

    That one is at the head of the header.
    """
    causes = {it.name for it in numbers.causes_of(files)}
    calls = [
        it
        for it in exports.calls_of(section, files)
        if not it.name.startswith("vintsaky_interface_")
    ]
    return "\n\n".join(f"{comment_of(it, causes)}\n{declaration(it)}" for it in calls)


# ---- numbers


def lines_of(values: Sequence[Value]) -> List[str]:
    """Returns the lines of an enumeration, with what is said of each value.

    The comments are aligned.
    """
    ends = [f"VINTSAKY_{it.name} = {it.number}{',' * (it is not values[-1])}" for it in values]
    width = max(map(len, ends))
    said = [f"/* {it.said} */" if it.said else "" for it in values]
    return [f"{end:{width}} {comment}".rstrip() for end, comment in zip(ends, said)]


def causes_of(files: Files) -> List[str]:
    """Returns the lines of the errors: each ends with a comma, since later releases add more."""
    return [
        f"VINTSAKY_{it.name} = {it.number}, /* {it.said} */"
        for it in (cause.value for cause in numbers.causes_of(files))
    ]


def enums_of(values: Sequence[Value]) -> List[str]:
    """Short enumerations of values of which nothing is said here."""
    shown = [f"VINTSAKY_{it.name} = {it.number}" for it in values]
    return [
        f"enum {{ {', '.join(shown[at : at + IN_A_LINE])} }};"
        for at in range(0, len(shown), IN_A_LINE)
    ]


def number_of(mark: Match[str], calls: Iterable[str], files: Files) -> str:
    """Returns the number of a mark."""
    first, name, plus = mark.groups()
    if first == "interface":
        return numbers.interface_of(calls)
    if first == "version":
        return numbers.version_of(files)
    if first in numbers.KINDS:
        found = [it.number for it in numbers.values_of(first, files) if it.name == name]
        if not found:
            raise Mistake(f"{TEMPLATE}: {mark[0]}: there is no such number")
        return str(found[0])
    return str(numbers.constant_of(first, name, files) + bool(plus))


# ---- all of it


def expanded(found: Match[str], files: Files) -> str:
    """Returns the lines of a mark that is alone on its line."""
    indent, what, name = found.groups()
    if what == "calls":
        return calls_of(name, files)
    if what == "causes":
        lines = causes_of(files)
    else:
        values = numbers.values_of(name, files)
        lines = lines_of(values) if what == "values" else enums_of(values)
    return "\n".join(indent + line for line in lines)


def made(files: Files) -> str:
    """Returns the header."""
    template = numbers.text_of(files, TEMPLATE)
    calls = exports.all_calls(files)
    text = LINE.sub(lambda found: expanded(found, files), template)
    text = NUMBER.sub(lambda found: number_of(found, calls, files), text)
    for name in calls:
        if len(re.findall(rf"^\w+ {name}\(", text, re.MULTILINE)) != 1:
            raise Mistake(
                f"{TEMPLATE}: {name} has to be declared once: is its module a section there?"
            )
    for name in sorted(set(re.findall(r"\bVINTSAKY_\w+", text)) - declared_names(text)):
        raise Mistake(f"{PATH}: a comment names {name}, which isn't there")
    for line in [it for it in text.splitlines() if len(it) > MOST]:
        raise Mistake(f"{PATH}: a line has over {MOST} columns: {line.strip()}")
    return text


def declared_names(text: str) -> Set[str]:
    """Returns the names of all that a header defines in capitals."""
    text = bare(text, C_COMMENT)
    return set(re.findall(r"\b(VINTSAKY_\w+) = ", text)) | set(
        re.findall(r"^#define (VINTSAKY_\w+)", text, re.MULTILINE)
    )
