"""The attributes that a subclass gives its objects.

A copy and a pickle take them as they do for any object.
"""
from __future__ import annotations

import copyreg
from typing import Any

from ._objects import LibraryObject


def attributes_of(held: LibraryObject) -> Any:
    """Returns the attributes of an object that aren't the library's, or None if there are none.

    They are its `__dict__`, together with what its `__slots__` have, if anything.
    """
    names = set(getattr(copyreg, "_slotnames")(type(held))) - set(LibraryObject.__slots__)
    slots = {name: getattr(held, name) for name in sorted(names) if hasattr(held, name)}
    attributes = getattr(held, "__dict__", None) or None
    return (attributes, slots) if slots else attributes


def give_attributes(held: LibraryObject, state: Any) -> None:
    """Gives an object the attributes of another one: by its own `__setstate__`, if it has one."""
    if state is None:
        return
    own = getattr(held, "__setstate__", None)
    if own is not None:
        own(state)
        return
    attributes, slots = state if isinstance(state, tuple) else (state, None)
    if attributes:
        vars(held).update(attributes)
    for name, value in (slots or {}).items():
        setattr(held, name, value)
