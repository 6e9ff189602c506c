"""What the stripper refuses."""
from __future__ import annotations

from typing import Optional


class Refused(Exception):
    """A source has a form that the stripper doesn't know, or that Rust takes in another sense."""

    def __init__(self, name: str, why: str, line: Optional[int] = None) -> None:
        super().__init__(why)
        self.name = name
        self.why = why
        self.line = line
        self.path = ""  # of the source, from the top of the repository

    def report(self) -> str:
        """Returns where the form is, its name and why it is refused."""
        place = f"{self.path}:{self.line}" if self.line else self.path
        return f"{place}: {self.name}: {self.why}"
