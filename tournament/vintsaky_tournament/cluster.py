"""Clusters: the share of a task in a plan, and the time that Slurm leaves a job.

The scripts `tournament.sbatch` and `machine` start runs on other machines.
"""
from __future__ import annotations

import re
from typing import NamedTuple

from .output import Mistake


class Share(NamedTuple):
    """Every so many games of a plan, from one on: those of a task."""

    task: int
    tasks: int

    def of(self, count: int) -> range:
        """Returns the numbers of its games, of so many."""
        return range(self.task - 1, count, self.tasks)

    def __str__(self) -> str:
        return f"{self.task}/{self.tasks}"


def share(option: str, text: str) -> Share:
    """Returns the share of an option."""
    parts = re.fullmatch("([1-9][0-9]{0,8})/([1-9][0-9]{0,8})", text)
    if not parts or int(parts[1]) > int(parts[2]):
        raise Mistake(f"{option} needs K/T, the K-th of T tasks, such as 3/100, and not '{text}'")
    return Share(int(parts[1]), int(parts[2]))


def time_left(option: str, text: str) -> int | None:
    """Returns the seconds of a time as Slurm writes it, [DAYS-][[HOURS:]MINUTES:]SECONDS. None
    where it has no limit."""
    if text.strip() in ("UNLIMITED", "NOT_SET"):
        return None
    parts = re.fullmatch(
        r"(?:([0-9]{1,5})-)?(?:(?:([0-9]{1,5}):)?([0-9]{1,5}):)?([0-9]{1,9})", text.strip()
    )
    if not parts:
        raise Mistake(f"{option} needs a time such as 1-00:30:00, 30:00 or 90, and not '{text}'")
    days, hours, minutes, rest = (int(part or 0) for part in parts.groups())
    return ((days * 24 + hours) * 60 + minutes) * 60 + rest
