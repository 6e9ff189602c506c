"""What a tournament is made of: a plan with engines and games, their results, and how games end."""
from __future__ import annotations

import enum
import re
from typing import Iterator, NamedTuple, Sequence

from .output import Mistake

COLOURS = ("black", "white")  # the names of both sides
COLUMNS = "ABCDEFGHJKLMNOPQRSTUVWXYZ"
NAME = re.compile(r"[A-Za-z0-9][A-Za-z0-9.+-]{0,39}")  # of an engine
MOST_GAMES = 10**9
LONGEST_SEED = 7  # digits
FORFEITS = ("illegal move", "no vertex", "no move", "refused play")  # the causes that twogtp has


class Side(enum.IntEnum):
    """A side of a game."""

    BLACK = 0
    WHITE = 1

    @property
    def colour(self) -> str:
        """Returns its name."""
        return COLOURS[self]

    @property
    def other(self) -> Side:
        """Returns the other side."""
        return SIDES[1 - self]


SIDES = tuple(Side)


VARIABLES = re.compile("%slot|%s")  # of a command


def with_values(text: str, seed: int, slot: int) -> str:
    """Returns a text of a command with the game's seed and its slot: one of as many numbers from 0
    up as games are played at once."""
    return VARIABLES.sub(lambda found: str(seed if found[0] == "%s" else slot), text)


class Engine(NamedTuple):
    """An engine of a plan."""

    name: str
    command: str

    def has_seed(self) -> bool:
        """Returns whether its command has the seed of the game."""
        return "%s" in VARIABLES.findall(self.command)

    def words(self, is_direct: bool) -> list[str]:
        """Returns the words of its command: as a shell splits it, or directly as twogtp does."""
        if is_direct:
            return [word for word in self.command.split(" ") if word]
        import shlex  # which isn't needed elsewhere

        try:
            words = shlex.split(self.command)
        except ValueError as error:
            text = f"the command of {self.name} can't be split into words: {error}"
            raise Mistake(text) from None
        if not words or not words[0]:
            raise Mistake(f"{self.name} has no command")
        return words


class Plan:
    """A plan, or what the arguments say of one."""

    def __init__(self) -> None:
        self.engines: dict[str, Engine] = {}  # by their names
        self.gauntlet: str | None = None  # the engine that each game has, if one is in all
        self.options: list[str] = []  # of twogtp
        self.seeds: int | None = None
        self.limit: int | None = None  # seconds of a game
        self.folder: str | None = None  # in which engines start; None in a plan of earlier scripts
        self.is_direct = False  # whether twogtp itself starts the engines
        self.start_limit: str | None = None  # seconds, as they are written
        self.move_limit: str | None = None
        self.clock: str | None = None  # of each side, as relay/clock.py reads it
        self.margin: str | None = None  # seconds of a move that the clock doesn't count
        self.scorer: str | None = None  # the command of an engine that finds dead stones
        self.openings: list[str] = []  # the moves of each, with spaces between them
        self.known_games: Games | None = None

    def add_engine(self, name: str, command: str) -> None:
        """Adds an engine."""
        if not NAME.fullmatch(name):
            raise Mistake(
                "an engine's name may have letters, digits, . + and -, at most 40 of them, unlike "
                f"'{name}'"
            )
        if not command.strip(" "):
            raise Mistake(f"{name} has no command")
        if "\n" in command:
            raise Mistake(f"the command of {name} has more than one line")
        if "\0" in command:
            raise Mistake(f"the command of {name} has a zero byte, which no program can be given")
        if name in self.engines:
            raise Mistake(f"two engines are named {name}: give each its own name")
        self.engines[name] = Engine(name, command)

    def opening(self, seed: int) -> str | None:
        """Returns the moves with which the games of a seed begin: of one opening after the other,
        and then of the first again. None without openings."""
        return self.openings[(seed - 1) % len(self.openings)] if self.openings else None

    def is_old(self) -> bool:
        """Returns whether it is one of earlier scripts, which started engines directly, and in the
        working directory."""
        return self.folder is None

    def has_boards(self) -> bool:
        """Returns whether twogtp writes the last board into each result."""
        return "--show" in self.options

    def games(self) -> Games:
        """Returns the games of the plan."""
        if self.gauntlet is not None and self.gauntlet not in self.engines:
            example = next(iter(self.engines))
            raise Mistake(
                f"--gauntlet needs the name of an engine, such as {example}, and not "
                f"'{self.gauntlet}'"
            )
        if self.known_games is None:
            self.known_games = Games(list(self.engines), self.seeds or 0, self.gauntlet)
        return self.known_games


class Games:
    """The names of all games, SEED_BLACK_WHITE, each of which has a number from 0 up."""

    def __init__(self, engines: Sequence[str], seeds: int, gauntlet: str | None = None) -> None:
        # of a seed, in the plan's order: each two engines, with both colours
        self.sides = [
            sides
            for at, one in enumerate(engines)
            for other in engines[at + 1 :]
            if gauntlet in (None, one, other)
            for sides in ((one, other), (other, one))
        ]
        self.of_seed = ["_".join(sides) for sides in self.sides]
        self.index = {name: at for at, name in enumerate(self.of_seed)}
        self.seeds = seeds
        self.count = seeds * len(self.sides)
        if self.count > MOST_GAMES:
            raise Mistake(f"{seeds} seeds are {self.count} games, which are too many")

    def __iter__(self) -> Iterator[str]:
        return (f"{seed}_{sides}" for seed in range(1, self.seeds + 1) for sides in self.of_seed)

    def name(self, game: int) -> str:
        """Returns the name of the game with this number."""
        seed, at = divmod(game, len(self.sides))
        return f"{seed + 1}_{self.of_seed[at]}"

    def number(self, name: str) -> int | None:
        """Returns the number of the game with this name; None where the plan has none."""
        seed, _, sides = name.partition("_")
        at = self.index.get(sides)
        if at is None or not seed.isascii() or not seed.isdigit() or seed[0] == "0":
            return None
        if len(seed) > LONGEST_SEED or int(seed) > self.seeds:
            return None
        return (int(seed) - 1) * len(self.sides) + at


class GameId(NamedTuple):
    """A game of a plan, whose name is SEED_BLACK_WHITE."""

    seed: int
    black: str
    white: str

    @classmethod
    def parse(cls, name: str) -> GameId:
        """Returns the game of this name."""
        seed, black, white = name.split("_")
        return cls(int(seed), black, white)

    @property
    def engines(self) -> tuple[str, str]:
        """Returns the names of Black's and White's engine."""
        return self.black, self.white


class Move(NamedTuple):
    """A move of a game: a vertex, or a pass."""

    side: Side
    vertex: str


class Result(NamedTuple):
    """A whole result, as twogtp writes it."""

    line: str  # without `game 1: `
    verdict: str
    length: int  # how many moves it has
    restarts: tuple[int, int]
    vertices: str  # of the moves, with spaces between them

    def is_lost(self) -> bool:
        """Returns whether a side was unfit or abandoned."""
        return self.verdict[0] in "ua"

    def abandoned_side(self) -> Side | None:
        """Returns the side that was abandoned, if one was."""
        return SIDES[self.verdict == "abandoned white"] if self.verdict[0] == "a" else None

    def moves(self, first: Side) -> list[Move]:
        """Returns the moves of a game in which this side moves first."""
        sides = (first, first.other)
        return [Move(sides[at % 2], vertex) for at, vertex in enumerate(self.vertices.split())]


class Way(str, enum.Enum):  # as str its hash is quick, which each result of a tally needs
    """In which way a game ended."""

    WON = "won"
    RESIGNED = "R"
    DRAWN = "0"
    LIMIT = "limit"  # of moves
    FORFEITED = "forfeit"
    TIME = "time"  # lost on time, by the clock or by a server
    UNFIT = "unfit"
    ABANDONED = "abandoned"
    LATE = "late"  # abandoned, since an answer was late


class Ending(NamedTuple):
    """How a game ended: who won, which side is to blame, and the cause of a forfeit."""

    winner: Side | None
    blamed: Side | None
    way: Way
    cause: str = ""

    @property
    def description(self) -> str:
        """Returns the way, and of a forfeit the cause."""
        return f"forfeit ({self.cause})" if self.way is Way.FORFEITED else str(self.way.value)


class State(enum.IntEnum):
    """What a folder has of a game."""

    MISSING = 0
    WHOLE = 1
    LOST = 2  # a result in which a side was unfit, or abandoned other than on time
    DAMAGED = 3
    LOGGED = 4  # a log, which says why there is no result


class Outcome(enum.IntEnum):
    """How the process of a game ended: its status."""

    RESULT = 0
    NO_RESULT = 1
    NO_SPACE = 2  # nothing can be written
    STOPPED = 3  # it was asked to end
    TAKEN = 4  # another process has its files
    BROKEN = 5
    BLACK_NOT_STARTED = 6
    WHITE_NOT_STARTED = 7

    @property
    def not_started(self) -> Side | None:
        """Returns the side whose engine wasn't started, if one wasn't."""
        return SIDES[self - Outcome.BLACK_NOT_STARTED] if self in NOT_STARTED else None


NOT_STARTED = (Outcome.BLACK_NOT_STARTED, Outcome.WHITE_NOT_STARTED)
