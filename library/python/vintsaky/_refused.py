"""What raises Refused, and values as errors name them."""
from __future__ import annotations

from enum import Enum
from typing import Any, Optional

from ._numbers import Cause

MOST_SHOWN = 60  # characters of a value


class Refused(ValueError):
    """A call was rejected, and has changed nothing.

    `cause` is the error. The text names what was rejected with its value, and then what is wanted,
    or else the error's sentence.
    """

    def __init__(self, cause: Cause, what: str = "", said: str = "") -> None:
        super().__init__(cause, what, said)
        self.cause = cause
        self.what = what
        self.said = said

    def __str__(self) -> str:
        said = self.said or self.cause.text
        return f"{self.what}: {said}" if self.what else said


def shown(value: Any) -> str:
    """Returns a value as an error names it: as Python writes it, shortened if that is long."""
    if isinstance(value, Enum):
        return value.name
    try:
        text = (
            f"{type(value).__name__}{tuple(value)!r}" if hasattr(value, "_fields") else repr(value)
        )
    except Exception:  # one of the author's, or that of a number with too many digits
        return f"a {type(value).__name__}"
    text = text.replace("\n", " ")
    return text if len(text) <= MOST_SHOWN else f"{text[:MOST_SHOWN]}.."


def value_error(what: str, said: str, cause: Optional[Cause] = None) -> ValueError:
    """Returns the error for a wrong value of an argument: Refused if there is a `Cause` for it."""
    return ValueError(f"{what}: {said}") if cause is None else Refused(cause, what, said)


def check(cause: int, what: str = "") -> None:
    """Raises Refused if this is an error, with what was rejected."""
    if cause:
        raise Refused(Cause(cause), what)


def or_none(cause: int, absent: Cause, value: Any) -> Optional[int]:
    """Returns the number that was written; None for this error."""
    if cause == absent:
        return None
    check(cause)
    number: int = value.value
    return number
