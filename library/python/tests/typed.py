"""A user's program, which mypy --strict takes: the types of what the package returns and takes."""
import copy
import pickle
import random
from typing import List, Tuple, Union

import vintsaky
from vintsaky import (
    BLACK,
    PASS,
    RESIGN,
    AnyChoice,
    AnyVertex,
    Colour,
    Engine,
    Game,
    Move,
    NoPoint,
    Point,
    Vertex,
)


def replayed(game: Game) -> Tuple[Game, List[int]]:
    """Returns the game, played again, and the columns of its moves that aren't passes."""
    other, columns = Game(game.size), []
    for colour, vertex in game.moves:
        other.play(colour, vertex)
        if vertex is not PASS:
            columns.append(vertex.column)
    return other, columns


def rows(moves: List[Move]) -> List[int]:
    """Returns the rows of moves that aren't passes."""
    return [move.vertex.row for move in moves if move.vertex is not vintsaky.PASS]


class Mine(Game):
    """A subclass."""

    name = "mine"


class MyEngine(Engine):
    """An engine that may resign."""

    def choose(self, game: Game, colour: Colour) -> Union[Point, NoPoint]:
        vertex = game.random_move(colour, random.getrandbits(64))
        if vertex is PASS:
            return RESIGN
        index: int = vintsaky.symmetry_map(game.size, vintsaky.inverse_symmetry(1))[
            game.index(vertex)
        ]
        return game.point(index).turned(game.size, 1)


class Other(Engine):
    """An engine whose choice is of any of the types that a choice may have."""

    def choose(self, game: Game, colour: Colour) -> AnyChoice:
        if len(game.moves) > 200:
            choices: List[Vertex] = [*game.legal_points(colour), PASS]
            return random.choice(choices)
        points = game.legal_points(colour)
        return random.choice(points) if points else "pass"


def copies(mine: Mine, vertex: AnyVertex) -> List[Mine]:
    """Copies of a game of a subclass, which are of the subclass."""
    made = [
        mine.copy(),
        copy.copy(mine),
        copy.deepcopy(mine),
        Mine.from_moves(mine.moves, mine.size),
    ]
    made.append(
        Mine.from_moves(
            [("b", vertex), (BLACK, (1, 1)), (1, PASS), (vintsaky.WHITE, "pass")], komi=6.5
        )
    )
    turn: Colour = made[-1].turn
    same: bool = mine == pickle.loads(pickle.dumps(mine))
    read: Vertex = vintsaky.read_vertex("D4")
    made[0].play(turn, PASS if same else read)
    return made
