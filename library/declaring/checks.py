"""What `library/declare --check` looks at."""
from __future__ import annotations

from typing import Dict, List

from . import files as declared
from . import names
from .texts import Files, Mistake


def differences(files: Files) -> Dict[str, List[str]]:
    """Returns the lines on what differs, by what they are about."""
    lines = {"what library/declare writes": declared.differing(files)}
    try:
        lines["the names of calls in Rust and Python"] = names.differing(files)
    except Mistake as mistake:
        lines["the names of calls in Rust and Python"] = [str(mistake)]
    return lines
