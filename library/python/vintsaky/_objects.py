"""Objects of the library, and the checks of numbers and texts before they are passed to a call."""
from __future__ import annotations

import ctypes
import operator
import sys
from threading import get_ident
from typing import Any, NoReturn, Optional, Union

from ._library import library
from ._numbers import Cause
from ._refused import shown, value_error

Bytes = Union[bytes, bytearray, memoryview]


class LibraryObject:
    """An object of the library.

    It lives in memory that it keeps, and only the thread that made it may use it, or the one that
    adopted it last.
    """

    __slots__ = ("_memory", "_handle", "_reference", "_thread")
    _kind = ""  # the word for it in the names of its calls
    _handle_type = ctypes.Structure

    def __init__(self) -> None:
        size: int = getattr(library, f"vintsaky_{self._kind}_bytes")()
        align: int = getattr(library, f"vintsaky_{self._kind}_align")()
        self._memory = ctypes.create_string_buffer(size + align)
        self._handle = self._handle_type()
        self._reference: Any = ctypes.byref(self._handle)
        self._thread: Optional[int] = get_ident()
        start = ctypes.addressof(self._memory)
        getattr(library, f"vintsaky_{self._kind}_place")(self._reference, start + -start % align)

    def _pointer(self) -> Any:
        """Returns the handle, for a call. Each call of an object asks for it here."""
        if get_ident() != self._thread:
            if self._thread is not None:
                used = f"a {type(self).__name__} is used by another thread than its own"
                raise RuntimeError(f"{used}: adopt() takes it over")
            self.adopt()
        return self._reference

    def _pointer_to_copy(self) -> Any:
        """Returns the handle, for the one call that copies the object.

        That call holds the interpreter's lock, so any thread may make it; without such a lock only
        the object's own thread may.
        """
        has_lock = getattr(sys, "_is_gil_enabled", lambda: True)()
        return self._reference if has_lock else self._pointer()

    def adopt(self) -> None:
        """From now on this thread may use the object, and no other thread.

        The thread that used it before must be done with it, and something must order the two uses,
        as a queue does.
        """
        self._thread = get_ident()

    def _release(self) -> None:
        """From now on the object belongs to the thread that uses it first."""
        self._thread = None

    def __reduce_ex__(self, protocol: Any) -> NoReturn:
        problem = "can't be copied or pickled: of the library's objects only a Game can"
        raise TypeError(f"a {type(self).__name__} {problem}")


def integer(value: Any, what: str, wanted: str) -> int:
    """Returns a number of any size. Errors: TypeError if it is no int, with what is wanted."""
    try:
        return operator.index(value)
    except TypeError:
        raise TypeError(f"{what}: {shown(value)} is {wanted}") from None


def int_in_range(
    value: int, what: str, least: int = 0, most: int = 2**32 - 1, cause: Optional[Cause] = None
) -> int:
    """Returns a number from the least to the most.

    Errors: TypeError if it is no int, and ValueError if it is out of range: Refused if an error is
    given for that.
    """
    number = integer(value, what, f"no int; use one from {least} to {most}")
    if not least <= number <= most:
        raise value_error(what, f"{shown(value)} is not from {least} to {most}", cause)
    return number


def clamped(number: int) -> int:
    """Returns the number, or the largest of the call's type if that type doesn't have it.

    The call rejects the largest one, while ctypes would truncate the number.
    """
    return number if 0 <= number < 2**32 else 2**32 - 1


def ascii_of(text: Union[str, bytes], what: str) -> bytes:
    """Returns the bytes of a text, for a call that takes ASCII.

    What isn't ASCII becomes bytes that the call rejects. Errors: TypeError if it is neither str nor
    bytes.
    """
    if not isinstance(text, (str, bytes)):
        raise TypeError(f"{what}: {shown(text)} is neither str nor bytes")
    return text.encode("utf-8", "surrogatepass") if isinstance(text, str) else text


def bytes_of(data: Bytes, what: str = "data") -> bytes:
    """Returns what is fed. Errors: TypeError if it isn't bytes, a bytearray or a memoryview."""
    if isinstance(data, bytes):
        return data
    if not isinstance(data, (bytearray, memoryview)):
        raise TypeError(f"{what}: {shown(data)} is neither bytes nor a bytearray nor a memoryview")
    return bytes(data)
