"""The crates of the repository, and copies of them in which something is changed and checked."""
from __future__ import annotations

import os
import shlex
import shutil
from pathlib import Path

TOP = Path(__file__).resolve().parents[3]
RT = shlex.split(os.environ.get("RT", "rt"))  # what proves a crate


def rows_of_crates() -> dict[str, list[str]]:
    """Returns what each crate of crates.txt depends on, the kit's crates too."""
    lines = (TOP / "crates.txt").read_text().splitlines()
    rows = (line.split("#")[0].split(":") for line in lines)
    return {row[0].split()[0]: row[1].split() for row in rows if len(row) == 2}


def crates_below(crate: str) -> set[str]:
    """Returns the crates of this repository that a crate depends on, without itself."""
    rows = rows_of_crates()
    below: set[str] = set()
    names = list(rows[crate])
    while names:
        name = names.pop()
        if name in rows and name not in below:
            below.add(name)
            names += rows[name]
    return below


def copy_crates(folder: Path, crate: str) -> None:
    """Copies all crates, and what checks left in this crate and in those that it depends on.

    So the check of the copy doesn't prove again what is proved.
    """
    for name in ("crates.txt", "HANDLES"):
        shutil.copy(TOP / name, folder / name)
    shutil.copytree(TOP / "crates", folder / "crates", ignore=shutil.ignore_patterns("out"))
    for name in (crate, *crates_below(crate)):
        out = TOP / "crates" / name / "out"
        if out.is_dir():
            shutil.copytree(out, folder / "crates" / name / "out", symlinks=True)
