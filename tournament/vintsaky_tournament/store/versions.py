"""The versions of the programs on a machine: FOLDER/tried/HOST/versions."""
from __future__ import annotations

import contextlib
import os


def add_version(place: str, engine: str, version: str, twogtp: str) -> None:
    """Writes down what an engine says that it is, and the version of twogtp, in such a folder."""
    with open(f"{place}/versions", "ab") as file:
        file.write(os.fsencode(f"engine {engine} {version}\ntwogtp {twogtp}\n"))


def versions_of(place: str) -> dict[str, str | None]:
    """Returns what was written down last of each program in such a folder: `engine NAME` and
    `twogtp`, each with its version."""
    versions: dict[str, str | None] = {}
    with contextlib.suppress(FileNotFoundError), open(
        f"{place}/versions", encoding="utf-8", errors="replace"
    ) as file:
        for line in file:
            words = line.rstrip("\n").split(" ")
            count = 2 if words[0] == "engine" else 1
            versions[" ".join(words[:count])] = " ".join(words[count:]) or None
    return versions
