"""Modules of the scripts for tournaments, for what no command shows."""
from __future__ import annotations

import importlib
import sys
from types import ModuleType

from tests.shared import fast_start

from .runner import SCRIPTS


def module(name: str) -> ModuleType:
    """Returns a module of the scripts."""
    folder = str(fast_start.compiled(SCRIPTS))
    if folder not in sys.path:
        sys.path.insert(0, folder)
    return importlib.import_module(f"vintsaky_tournament.{name}")
