"""What the options of a plan say of the board and of a game's length."""
from __future__ import annotations

import re
from typing import Sequence

from ..output import Mistake

KOMI = re.compile(r"([+-]?)0*([0-9]*)(?:\.([05]?)0*)?")
DEFAULTS = {"--size": "19", "--komi": "6.5", "--handicap": "0", "--max-moves": "1000"}


class Setup:
    """The size, the komi, the handicap, and how many moves a game may have, as they are written."""

    def __init__(self, options: Sequence[str]) -> None:
        values = dict(DEFAULTS)
        for at, option in enumerate(options):
            name, has_value, value = option.partition("=")
            if name in values:
                values[name] = value if has_value else "".join(options[at + 1 : at + 2])
        self.size, self.komi, self.handicap, self.max_moves = values.values()

    def commands(self) -> list[str]:
        """Returns the commands with which twogtp begins a game, the first genmove among them."""
        commands = [f"boardsize {self.size}", f"komi {self.komi}", "clear_board"]
        if self.handicap == "0":
            return [*commands, "genmove b"]
        return [*commands, f"fixed_handicap {self.handicap}", "genmove w"]

    def rows(self) -> int:
        """Returns the size, of a plan that somebody may have changed."""
        if not re.fullmatch("0*([1-9]|1[0-9]|2[0-5])", self.size):
            raise Mistake(f"the plan has --size '{self.size}': it is from 1 to 25")
        return int(self.size)

    def stones(self) -> int:
        """Returns the handicap, of a plan that somebody may have changed."""
        if not re.fullmatch("0*[02-9]", self.handicap):
            raise Mistake(f"the plan has --handicap '{self.handicap}': it is 0, or from 2 to 9")
        return int(self.handicap)

    def half_points(self) -> int:
        """Returns the komi in half points, of a plan that somebody may have changed."""
        komi = KOMI.fullmatch(self.komi)
        if not komi or not any(character.isdigit() for character in self.komi):
            expected = "it is a multiple of 0.5, such as 6.5"
            raise Mistake(f"the plan has --komi '{self.komi}': {expected}")
        half_points = 2 * int(komi[2] or 0) + (komi[3] == "5")
        return -half_points if komi[1] == "-" else half_points
