"""The Python package as it lies in the tree, for the tests of it."""
from __future__ import annotations

import os
import shutil
import sys
from pathlib import Path
from typing import Dict, List

from tests.shared.processes import TOP

PACKAGE = TOP / "library/python"


def variables(shared_library: Path) -> Dict[str, str]:
    """Returns variables by which a process takes the package from the tree, and this library."""
    return {
        "VINTSAKY_LIBRARY": str(shared_library),
        "PYTHONPATH": str(PACKAGE),
        "PYTHONDONTWRITEBYTECODE": "1",
    }


def pythons() -> List[str]:
    """Returns the Pythons that may be here: this one, Debian's, and each named python3.N."""
    names = [sys.executable, "/usr/bin/python3", *(f"python3.{number}" for number in range(9, 30))]
    paths: Dict[str, str] = {}
    for name in names:
        if path := shutil.which(name):
            paths.setdefault(os.path.realpath(path), path)
    return list(paths.values())
