"""Loads compiled modules, of which the file of a game has those that `between` needs."""
from __future__ import annotations

import sys

TYPE_CHECKING = False  # as of typing, whose import takes longer than all of this
if TYPE_CHECKING:
    from types import CodeType


def load(modules: list[tuple[str, CodeType | None]]) -> None:
    """Adds these modules to those that are imported, in their order, after their packages, which
    have no code."""
    for name, code in modules:
        module = sys.modules[name] = type(sys)(name)
        package, _, last = name.rpartition(".")
        if package:
            setattr(sys.modules[package], last, module)
        if code is None:
            module.__path__ = []
        else:
            module.__package__ = package
            exec(code, module.__dict__)
