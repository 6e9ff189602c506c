"""The caller's buffers into which a call writes, by the buffer protocol."""
from __future__ import annotations

import ctypes
import math
from typing import Any, Dict, NamedTuple, Optional, Tuple

# formats of items: a byte, a byte that is 0 or 1, and a float of 32 bits
BYTE, FLAG, FLOAT = "B", "?", "f"
ANY = (FLOAT, BYTE, FLAG)
# numpy's names for formats
NAMES = {
    "B": "uint8",
    "?": "bool",
    "f": "float32",
    "d": "float64",
    "e": "float16",
    "b": "int8",
    "i": "int32",
    "l": "int64",
}


class Buffer(NamedTuple):
    """A caller's buffer in a call: its items, for the call, and where its bytes are."""

    items: Any
    start: int
    end: int
    is_float: bool


def format_name(form: str) -> str:
    """Returns a format as an error names it, with numpy's name where that is known."""
    return f"{form!r} ({NAMES[form]})" if form in NAMES else repr(form)


def buffer_of(
    given: Any, what: str, shape: Tuple[int, ...], formats: Tuple[str, ...] = ANY
) -> Buffer:
    """Returns a buffer that a call writes into.

    It is flat, has this shape, or has a row for each item of the first axis. Errors: TypeError if
    it isn't a buffer, and ValueError if it can't be written, isn't in C order, or has another
    format, another shape or another number of items.
    """
    try:
        view = memoryview(given)
    except TypeError:
        raise TypeError(
            f"{what}: {type(given).__name__} has no buffer; use a bytearray, an array or numpy's"
        ) from None
    except (ValueError, BufferError) as problem:
        raise ValueError(f"{what}: its buffer can't be used: {problem}") from None
    form = view.format.lstrip("@=<") if view.itemsize in (1, 4) else view.format
    if form not in formats:
        wanted = " or ".join(map(format_name, formats))
        raise ValueError(
            f"{what}: its items have the format {format_name(view.format)}; use {wanted}"
        )
    if view.readonly:
        raise ValueError(f"{what}: it can only be read; a buffer is wanted that can be written")
    if not view.c_contiguous:
        raise ValueError(
            f"{what}: its items aren't in C order, one after the other; use a copy that is"
        )
    count = math.prod(shape)
    if view.shape not in ((count,), shape, (shape[0], count // shape[0])):
        raise ValueError(
            f"{what}: its shape is {view.shape}, and not {shape}, or flat with {count} items"
        )
    kind: Any = ctypes.c_float if form == "f" else ctypes.c_uint8
    items = (kind * count).from_buffer(view)
    start = ctypes.addressof(items)
    return Buffer(items, start, start + view.nbytes, form == "f")


def buffer_or_none(
    given: Any, what: str, shape: Tuple[int, ...], formats: Tuple[str, ...] = ANY
) -> Optional[Buffer]:
    """Returns the buffer, or None where None is given."""
    return None if given is None else buffer_of(given, what, shape, formats)


def check_disjoint(buffers: Dict[str, Optional[Buffer]]) -> None:
    """Checks that no two buffers overlap. Errors: ValueError if two have bytes in common."""
    places = sorted(
        (buffer.start, buffer.end, what)
        for what, buffer in buffers.items()
        if buffer and buffer.end > buffer.start
    )
    for (_, end, one), (start, _, other) in zip(places, places[1:]):
        if start < end:
            raise ValueError(f"{one} and {other}: these buffers have bytes in common")
