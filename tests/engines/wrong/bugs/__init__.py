"""All bugs, by subject: a module for each."""
from __future__ import annotations

import os
from importlib import import_module
from typing import Dict, List, Optional, Type

from tests.engines.wrong.bug import Bug

SUBJECTS = (
    "replies errors ids lines sizes komi captures ko suicide turns undo handicap genmove records "
    "games restarts"
).split()


def bugs_of(subject: str) -> List[Type[Bug]]:
    """Returns the bugs of a subject. A class without a conversation is what several share."""
    module = import_module(f"{__name__}.{subject}")
    return [
        kind
        for kind in vars(module).values()
        if isinstance(kind, type)
        and issubclass(kind, Bug)
        and kind.__module__ == module.__name__
        and "shows" in vars(kind)
    ]


def bug_named(name: str) -> Optional[Type[Bug]]:
    """Returns the bug of this name, or None if there is none.

    A check starts an engine hundreds of times, and the import of all bugs takes half of a start. So
    only those subjects are imported whose text has the name, of a function or of a class.
    """
    class_name = name.replace("_", "")
    folder = os.path.dirname(os.path.realpath(__file__))
    for subject in SUBJECTS:
        with open(os.path.join(folder, f"{subject}.py"), encoding="utf-8") as file:
            text = file.read()
        if name in text or class_name in text.lower():
            for bug in bugs_of(subject):
                if bug.name == name:
                    return bug
    return None


def all_bugs() -> Dict[str, Type[Bug]]:
    """Returns each bug by name, in the order of the subjects."""
    return {bug.name: bug for subject in SUBJECTS for bug in bugs_of(subject)}
