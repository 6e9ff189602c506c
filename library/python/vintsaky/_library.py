"""The shared library: how it is found and loaded, its version and its texts.

What it declares is in `_declared.py`.
"""
from __future__ import annotations

import ctypes
import os
from enum import IntEnum
from pathlib import Path
from typing import Any, Tuple

from ._declared import CALLS, INTERFACE

VARIABLE = "VINTSAKY_LIBRARY"
FILE = "libvintsaky.so.1"


def _place() -> str:
    """Returns the library's file: that of the package, or the variable's, or the system's."""
    packaged = Path(__file__).resolve().parent / FILE
    return str(packaged) if packaged.exists() else os.environ.get(VARIABLE) or FILE


def _load(place: str, kind: Any) -> Any:
    """Loads the library from there, with the types of its calls.

    Each call of a PyDLL holds the interpreter's lock.
    """
    try:
        loaded = kind(place)
    except OSError as problem:
        text = f"vintsaky: its library can't be loaded: {problem}"
        if os.sep not in place:
            text += f" (install it, or name its file by the variable {VARIABLE})"
        raise ImportError(text) from None
    if not hasattr(loaded, f"vintsaky_interface_{INTERFACE}"):
        raise ImportError(f"vintsaky: {place} has another interface than {INTERFACE}")
    for name, (result, arguments) in CALLS.items():
        call = getattr(loaded, name, None)
        if call is None:
            raise ImportError(f"vintsaky: {place} has no call {name}")
        call.restype = result
        call.argtypes = arguments
    return loaded


library: Any = _load(_place(), ctypes.PyDLL)
# lets other threads run: only calls over many games are made so
unlocked: Any = _load(_place(), ctypes.CDLL)


def untyped(call: Any) -> Any:
    """Returns the same call, which doesn't check the types of its arguments.

    These checks take most of a call's time. All arguments have to be ctypes objects.
    """
    same = library[call.__name__]
    same.restype = call.restype
    return same


def text_of(call: Any, *arguments: Any) -> bytes:
    """Returns the text that this call writes, whose result is its length."""
    size = 256
    while True:
        text = ctypes.create_string_buffer(size)
        length: int = call(*arguments, text, size)
        if length < size:
            return text.raw[:length]
        size = length + 1


class Explained(IntEnum):
    """A number for which the library has a sentence."""

    @property
    def text(self) -> str:
        """A sentence that explains the error."""
        return text_of(library.vintsaky_cause_text, int(self)).decode("ascii")


def version() -> Tuple[int, int, int]:
    """Returns the version of the library that was loaded."""
    number: int = library.vintsaky_version()
    return number >> 16, number >> 8 & 255, number & 255
