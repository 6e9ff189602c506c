"""A game of the library that is made as one of the reference was, and answers in its words."""
from __future__ import annotations

import os
import sys
from pathlib import Path
from types import ModuleType
from typing import Any, Dict, List, NamedTuple, Optional, Tuple, Union

from tests.references.engine.game import POSITIONAL, SIMPLE, points
from tests.references.engine.values import BLACK, PASS, WHITE, Colour, Point, Vertex
from tests.references.search.random_games import RandomGame
from tests.shared.processes import TOP


class Chain(NamedTuple):
    """How many stones and how many liberties a chain has."""

    stones: int
    liberties: int


def load_package(shared_library: Path) -> ModuleType:
    """Returns the Python package over this library."""
    os.environ["VINTSAKY_LIBRARY"] = str(shared_library)
    package = str(TOP / "library/python")
    if package not in sys.path:
        sys.path.insert(1, package)
    import vintsaky

    return vintsaky


class LibraryGame:
    """A game of the package. Colours, points and vertices are those of the reference."""

    def __init__(self, vintsaky: Any, drawn: RandomGame) -> None:
        self.vintsaky = vintsaky
        self.size = drawn.game.size
        self.colours = {BLACK: vintsaky.BLACK, WHITE: vintsaky.WHITE}
        rules = {SIMPLE: vintsaky.KoRule.SIMPLE, POSITIONAL: vintsaky.KoRule.POSITIONAL}
        self.game = vintsaky.Game(self.size, drawn.game.komi / 2, rules[drawn.game.rule])
        if drawn.game.first_board():
            self.game.place_handicap(len(drawn.game.first_board()))
        for colour, vertex in drawn.game.moves:
            self.play(colour, vertex)

    def play(self, colour: Colour, vertex: Vertex) -> None:
        """Plays a move."""
        played = self.vintsaky.PASS if vertex == PASS else self.vintsaky.Point(*vertex)
        self.game.play(self.colours[colour], played)

    def vertex(self, found: Any) -> Optional[Vertex]:
        """Returns the vertex of the reference, or None."""
        if found is None:
            return None
        return PASS if found == self.vintsaky.PASS else (found.column, found.row)

    def vertices(self, found: Any) -> List[Optional[Vertex]]:
        """Returns the vertices of the reference."""
        return [self.vertex(it) for it in found]

    def moves(self) -> List[Tuple[Colour, Optional[Vertex]]]:
        """Returns the record."""
        colours: Dict[Any, Colour] = {ours: colour for colour, ours in self.colours.items()}
        return [(colours[move.colour], self.vertex(move.vertex)) for move in self.game.moves]

    def stones(self) -> List[Optional[Colour]]:
        """Returns the stone of each point."""
        return [[None, BLACK, WHITE][stone] for stone in self.game.board]

    def state(self) -> Tuple[Any, Any, str]:
        """Returns all that can be seen of the game."""
        return self.moves(), self.stones(), str(self.game)

    def legal_mask(self, colour: Colour) -> List[bool]:
        """Returns of each point whether a play there is legal."""
        return [bool(legal) for legal in self.game.legal_mask(self.colours[colour])]

    def is_own_eye(self, colour: Colour, point: Point) -> bool:
        """Tells whether a point is an own eye."""
        is_eye: bool = self.game.is_own_eye(self.colours[colour], self.vintsaky.Point(*point))
        return is_eye

    def ko_point(self, colour: Colour) -> Optional[Vertex]:
        """Returns the point that ko forbids."""
        return self.vertex(self.game.ko_point(self.colours[colour]))

    def chain(self, point: Point) -> Union[Chain, Exception, None]:
        """Returns the chain of a point, or None where the library says that there is no stone."""
        try:
            chain = self.game.chain(self.vintsaky.Point(*point))
        except self.vintsaky.Refused as refusal:
            return None if refusal.cause == self.vintsaky.Cause.NO_STONE else refusal
        return Chain(chain.stones, chain.liberties)

    def chain_points(self, point: Point) -> List[Optional[Vertex]]:
        """Returns the points of a chain."""
        return self.vertices(self.game.chain_points(self.vintsaky.Point(*point)))

    def chain_liberties(self, point: Point) -> List[Optional[Vertex]]:
        """Returns the liberties of a chain."""
        return self.vertices(self.game.chain_liberties(self.vintsaky.Point(*point)))

    def random_move(self, colour: Colour, word: int) -> Optional[Vertex]:
        """Returns the move that a word of a generator gives."""
        return self.vertex(self.game.random_move(self.colours[colour], word))

    def taken(self) -> List[Optional[Vertex]]:
        """Returns the points from which the last move has taken stones."""
        return self.vertices(self.game.taken)

    def indices(self) -> List[Tuple[int, Optional[Vertex]]]:
        """Returns the index of each point, and the point of that index."""
        found = [self.game.index(self.vintsaky.Point(*point)) for point in points(self.size)]
        return [(index, self.vertex(self.game.point(index))) for index in found]

    def board_hash(self) -> int:
        """Returns the hash of the stones."""
        number: int = self.game.board_hash
        return number

    def position_hash(self, colour: Colour) -> int:
        """Returns the hash of the position in which this colour moves."""
        number: int = self.game.position_hash(self.colours[colour])
        return number

    def score(self) -> float:
        """Returns the score in half points."""
        return 2 * float(self.game.score)

    def rollout(self, colour: Colour, seed: int, limit: int) -> float:
        """Returns the score of a rollout in half points."""
        return 2 * float(self.game.rollout(self.colours[colour], seed, limit))

    def playout(self, colour: Colour, seed: int, limit: int) -> None:
        """Plays on at random."""
        self.game.playout(self.colours[colour], seed, limit)
