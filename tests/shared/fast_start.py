"""Makes what tests of scripts start very often start sooner.

That are a `python3` which is the one that runs the tests, with its standard library alone, and a
copy of scripts whose modules are compiled. A start takes a third of the time where many packages
are installed, or where `python3` is a script that looks for another.
"""
from __future__ import annotations

import atexit
import compileall
import os
import shlex
import shutil
import sys
import tempfile
from functools import lru_cache
from pathlib import Path


@lru_cache(maxsize=None)
def python() -> Path:
    """Returns the folder in which this `python3` is, until the tests end."""
    folder = new_folder()
    script = folder / "python3"
    script.write_text(f'#!/bin/sh\nexec {shlex.quote(sys.executable)} -S "$@"\n')
    script.chmod(0o755)
    return folder


@lru_cache(maxsize=None)
def compiled(scripts: Path) -> Path:
    """Returns a copy of a folder of scripts, until the tests end."""
    folder = new_folder() / scripts.name
    shutil.copytree(scripts, folder, ignore=shutil.ignore_patterns("__pycache__"))
    compileall.compile_dir(folder, quiet=1)
    return folder


def new_folder() -> Path:
    """Returns a new folder, which is removed when the tests end."""
    folder = tempfile.TemporaryDirectory()
    atexit.register(folder.cleanup)
    return Path(folder.name)


def environment(*folders: Path) -> dict[str, str]:
    """Returns the environment in which this `python3` is found, then what is in these folders."""
    path = os.pathsep.join(map(str, [python(), *folders, os.environ["PATH"]]))
    return {**os.environ, "PATH": path}
