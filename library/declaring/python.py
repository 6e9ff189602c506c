"""Writes modules of the Python package, laid out as black does it.

`_declared.py` has the table of the calls, and `_numbers.py` has numbers and what they mean.
"""
from __future__ import annotations

import textwrap
from dataclasses import replace
from typing import Dict, Iterable, Iterator, List, Sequence

from . import exports, header, numbers
from .exports import Call
from .numbers import Value
from .texts import Files

DECLARED = "library/python/vintsaky/_declared.py"
NUMBERS = "library/python/vintsaky/_numbers.py"
WIDTH = 100
ENUMS = ("losses", "endings")  # the kinds that are enumerations of _numbers.py
HANDLES = {
    "game": "a game: its address",
    "engine": "a sans-IO engine",
    "match": "a match",
    "lines": "a reader of command lines",
    "replies": "a reader of replies",
}
HEAD_OF_DECLARED = '''"""The constants of vintsaky.h, its handles, and the table of its calls.

library/declare writes this module. Names are those of vintsaky.h without the prefix; only calls
keep their whole names."""
import ctypes
from ctypes import POINTER, c_char, c_char_p, c_void_p
from ctypes import c_bool, c_float, c_int32, c_size_t, c_uint8, c_uint32, c_uint64
from typing import Any, Dict, Tuple
'''
HANDLE = '''

class {}Handle(ctypes.Structure):
    """The handle of {}."""

    _fields_ = [("at", c_void_p)]
'''
HEAD_OF_TABLE = """

# Each call of vintsaky.h: the type of its result, and those of its arguments. Texts that are read
# are c_char_p, bytes are c_void_p, and texts that are written are POINTER(c_char).
CALLS: Dict[str, Tuple[Any, Tuple[Any, ...]]] = {
"""
HEAD_OF_NUMBERS = '''"""Numbers of the library, each with its explanation.

They are why a call is rejected, why a side fails, and how a match ends.
library/declare writes this module. Names are those of vintsaky.h without the prefix."""
from enum import IntEnum

from ._library import Explained
'''
CLASS = '''

class {}({}):
    """{}

{}
    """

{}'''
DONE = "No error."  # what the library says of 0


def constants_of(files: Files) -> Dict[str, str]:
    """Returns the constants by their names: the numbers that `_numbers.py` doesn't have."""
    calls = exports.all_calls(files)
    constants = {"INTERFACE": numbers.interface_of(calls), "VERSION": numbers.version_of(files)}
    for kind in [it for it in numbers.KINDS if it not in ENUMS]:
        constants.update((it.name, str(it.number)) for it in numbers.values_of(kind, files))
    return {**constants, "RESIGN": str(numbers.constant_of("vintsaky_calls", "RESIGN", files))}


def tuple_of(words: Sequence[str]) -> str:
    """Returns a tuple of these, as it is written in a line."""
    return f"({words[0]},)" if len(words) == 1 else f"({', '.join(words)})"


def row_of(call: Call) -> str:
    """Returns the row of a call, which black would leave as it is."""
    arguments = [it.python for it in call.arguments]
    row = f'    "{call.name}": ({call.python}, {tuple_of(arguments)}),\n'
    if len(row) <= WIDTH + 1:
        return row
    inner = f"        {tuple_of(arguments)},\n"
    if len(inner) > WIDTH + 1:
        inner = "        (\n" + "".join(f"            {it},\n" for it in arguments) + "        ),\n"
    return f'    "{call.name}": (\n        {call.python},\n{inner}    ),\n'


def declared(files: Files) -> str:
    """Returns the module of the table."""
    constants = "".join(f"{name} = {number}\n" for name, number in constants_of(files).items())
    handles = "".join(HANDLE.format(name.title(), said) for name, said in HANDLES.items())
    rows = [
        row_of(it) for section in header.sections(files) for it in exports.calls_of(section, files)
    ]
    return f"{HEAD_OF_DECLARED}\n{constants}{handles}{HEAD_OF_TABLE}{''.join(rows)}}}\n"


def explained(values: Iterable[Value]) -> Iterator[Value]:
    """Yields the values, of which each is explained: else as the one before."""
    text = ""
    for value in values:
        text = value.said or text
        yield replace(value, said=text)


def lines_of(value: Value) -> List[str]:
    """Returns the lines of a docstring about a value."""
    return textwrap.wrap(
        f"{value.name}: {value.said}",
        WIDTH,
        initial_indent="    ",
        subsequent_indent="        ",
        break_on_hyphens=False,
    )


def enumeration(name: str, base: str, head: str, values: Iterable[Value]) -> str:
    """Returns an enumeration. Its docstring says what each member means, so that `help` does."""
    lines = [line for value in explained(values) for line in lines_of(value)]
    members = "".join(f"    {it.name} = {it.number}\n" for it in values)
    return CLASS.format(name, base, head, "\n".join(lines), members)


def named(files: Files) -> str:
    """Returns the module of the numbers of which much is said."""
    causes = [numbers.Value("DONE", 0, DONE), *(it.value for it in numbers.causes_of(files))]
    found = numbers.values_of("losses", files)
    losses = [replace(it, name=it.name[len("LOSS_") :]) for it in found]
    endings = numbers.values_of("endings", files)
    return (
        HEAD_OF_NUMBERS
        + enumeration("Cause", "Explained", "Why a call is rejected: its error.", causes)
        + enumeration("Loss", "IntEnum", "Why a side fails by its output.", losses)
        + enumeration("Ending", "IntEnum", "How a match ended.", endings)
    )
