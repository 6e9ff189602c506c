"""Random conversations, each from a seed of its own, which are near the edges of the rules.

While a conversation is made a reference engine reads it, so that moves can aim at chains that are
nearly captured, at ko and at suicide. Nothing here says what the replies have to be.
"""
from __future__ import annotations

from random import Random
from typing import Callable, NamedTuple, Optional, Sequence

from . import engine, spellings, values
from .engine import Options
from .game import POSITIONAL, SIMPLE, Game, KoRule, is_on, points
from .policies import PolicyName
from .spellings import (
    NAMES,
    NEARLY_NAMES,
    colour_word,
    int_word,
    komi_word,
    long_line,
    noisy,
    odd_line,
    vertex_word,
)
from .values import BLACK, PASS, WHITE, Colour, Point, Vertex

SMALL_SIZES = [1, 2, 2, 3, 3, 3, 4, 4, 5, 5]
TIGHT_SIZES = [1, 2, 2, 3, 3, 3, 3, 4, 4, 5]
SEEDS = [0, 1, 2, 7, 2147483648, 4294967295]
# Around a stone of Black, H: X and O are stones of Black and White. In the first, White takes H by
# 2, and then Black takes 2 by H. In the second, Black plays 1 next to H, White takes both by 2, and
# then Black takes 2 by H.
PATTERNS = [("..OX.", ".OH2X", "..OX."), (".OOX.", "O1H2X", ".OOX.")]


class Conversation(NamedTuple):
    """The options that the program is started with, and all of its input."""

    options: Options
    data: bytes


class Talk:
    """A conversation while it is made, and the game that it leads to."""

    def __init__(self, rng: Random, options: Options) -> None:
        started = engine.start(options)
        assert started is not None, "the book is no book"
        self.rng = rng
        self.engine = started
        self.data = b""
        # how often a line has noise, a move is any vertex, a command is none, a move is generated
        self.noise = rng.choice([0, 0, 0.3, 0.7])
        self.wild = rng.choice([0.05, 0.2, 0.5])
        self.other = rng.choice([0.03, 0.1, 0.3])
        self.generated = rng.choice([0, 0.1, 0.3, 0.6, 0.9])

    def line(self, line: bytes) -> None:
        """Adds this line, or these, and a newline."""
        self.data += line + b"\n"
        self.engine.feed(line + b"\n")

    def lines(self, *lines: bytes) -> None:
        """Adds these lines."""
        for line in lines:
            self.line(line)

    def say(self, *command: bytes) -> None:
        """Adds a command, at times with an id, with words too few or too many, or with noise."""
        rng = self.rng
        words = list(command)
        if len(words) > 1 and rng.random() < 0.03:
            words.pop()
        if rng.random() < 0.05:
            words += [rng.choice([b"x", b"1", b"A1", b"\xff"])] * rng.randint(1, 3)
        if rng.random() < 0.25:
            words.insert(0, int_word(rng, 5000))
        self.line(noisy(rng, words) if rng.random() < self.noise else b" ".join(words))


# ---- commands and moves


def letter(colour: Colour) -> bytes:
    """Returns the letter of a colour."""
    return b"b" if colour == BLACK else b"w"


def play(colour: bytes, vertex: Vertex) -> bytes:
    """Returns the command that plays a move."""
    return b"play " + colour + b" " + values.write_vertex(vertex)


def other_command(rng: Random, talk: Talk, sizes: Sequence[int]) -> None:
    """Adds any command except a move."""
    texts = [b"name", b"version", b"protocol_version", b"list_commands"]
    commands: list[tuple[int, Callable[[], None]]] = [
        (14, lambda: talk.say(b"showboard")),
        (14, lambda: talk.say(b"final_score")),
        (20, lambda: talk.say(b"undo")),
        (8, lambda: talk.say(b"komi", komi_word(rng))),
        (6, lambda: talk.say(b"fixed_handicap", b"%d" % rng.randint(2, 9))),
        (3, lambda: talk.say(b"fixed_handicap", int_word(rng, 10))),
        (3, lambda: talk.say(b"clear_board")),
        (3, lambda: talk.say(b"boardsize", b"%d" % rng.choice(sizes))),
        (4, lambda: talk.say(b"known_command", rng.choice(NAMES + NEARLY_NAMES))),
        (4, lambda: talk.say(rng.choice(texts))),
        (2, lambda: talk.say(rng.choice(NEARLY_NAMES))),
        (5, lambda: talk.line(odd_line(rng))),
    ]
    weights = [weight for weight, _ in commands]
    rng.choices([add for _, add in commands], weights)[0]()


def aimed_vertex(rng: Random, game: Game, wild: float) -> Vertex:
    """Returns a move where something may happen, or so often any vertex.

    Things happen at the last liberties of a chain, at the points that the last move emptied, and at
    points between stones.
    """
    places = points(game.size)
    if rng.random() < wild:
        any_point = (rng.randint(1, 25), rng.randint(1, 25))
        vertices: list[Vertex] = [PASS, any_point, rng.choice(places)]
        return rng.choice(vertices)
    emptied = sorted(set(game.boards[-1]) - set(game.board)) if game.moves else []
    if emptied and rng.random() < 0.5:
        return rng.choice(emptied)
    point = rng.choice(places)
    if point not in game.board:
        return point
    liberties = game.liberties(game.board, game.chain(game.board, point))
    return rng.choice(sorted(liberties)) if 0 < len(liberties) <= 2 else rng.choice(places)


def returning_move(rng: Random, game: Game, colour: Colour) -> Vertex:
    """Returns a move of this colour that makes an earlier board again, if some points have one.

    Else this is at times the one of these points that leaves the fewest stones, or an aimed move.
    """
    empty = [point for point in points(game.size) if point not in game.board]
    boards = {point: game.put(colour, point) for point in rng.sample(empty, min(len(empty), 8))}
    returns = [point for point, board in boards.items() if board in game.boards]
    if returns and rng.random() < 0.8:
        return rng.choice(returns)
    if boards and rng.random() < 0.3:
        fewest = min(boards, key=lambda point: len(boards[point]))
        return fewest
    return aimed_vertex(rng, game, 0.02)


# ---- games


def play_some(rng: Random, talk: Talk, size: int, steps: int, sizes: Sequence[int]) -> None:
    """Adds a game of so many steps, most of them moves, and in the end the board and the score."""
    talk.line(b"boardsize %d" % size)
    if rng.random() < 0.3:
        talk.say(b"fixed_handicap", b"%d" % rng.randint(2, 9))
    colour = BLACK
    for _ in range(steps):
        kind = rng.random()
        colour = values.other(colour) if rng.random() < 0.85 else colour
        if kind < talk.other:
            other_command(rng, talk, sizes)
        elif kind < talk.other + talk.generated:
            talk.say(b"genmove", colour_word(rng, colour))
        else:
            own = colour_word(rng, colour)
            talk.say(b"play", own, vertex_word(rng, aimed_vertex(rng, talk.engine, talk.wild)))
    if rng.random() < 0.3:
        for _ in range(rng.randint(1, 40)):
            talk.say(b"undo")
            talk.say(rng.choice([b"showboard", b"final_score", b"undo"]))
    talk.say(b"showboard")
    talk.say(b"final_score")


def ko_fight(rng: Random, talk: Talk) -> None:
    """Adds a ko in one of the corners, which both colours take and take back, and other moves."""
    size = rng.randint(3, 5)
    swapped, right, top = (rng.random() < 0.5 for _ in range(3))
    first, second = rng.choice([(b"b", b"w"), (b"w", b"b")])

    def turned(colour: bytes, column: int, row: int) -> bytes:
        column, row = (row, column) if swapped else (column, row)
        point = (size + 1 - column if right else column, size + 1 - row if top else row)
        return play(colour, point)

    talk.line(b"boardsize %d" % size)
    talk.lines(turned(first, 1, 2), turned(second, 3, 1), turned(first, 2, 1), turned(second, 2, 2))
    for _ in range(rng.randint(5, 30)):
        colour = rng.choice([first, second])
        others = [
            play(colour, PASS),
            b"undo",
            b"genmove " + colour,
            b"showboard",
            turned(colour, rng.randint(1, size), size),
        ]
        takes = [turned(second, 1, 1), turned(first, 2, 1)]
        talk.line(rng.choice([*takes, rng.choice(others)]))


def taken_and_returned(rng: Random, talk: Talk, size: int, stone: Point) -> None:
    """Adds one of the patterns, turned, around this stone of Black, which may be there already.

    Then come plays at its points, passes, undos and some other moves.
    """
    swapped, left, down = (rng.random() < 0.5 for _ in range(3))
    plays: dict[str, list[bytes]] = {mark: [] for mark in "XO12H"}
    for row, line in enumerate(rng.choice(PATTERNS)):
        for column, mark in enumerate(line):
            across, up = (column - 2) * (-1 if left else 1), (row - 1) * (-1 if down else 1)
            across, up = (up, across) if swapped else (across, up)
            point = (stone[0] + across, stone[1] + up)
            if mark != "." and is_on(size, point):
                plays[mark].append(play(b"b" if mark in "X1H" else b"w", point))
    walls = plays["X"] + plays["O"] + plays["H"]
    rng.shuffle(walls)
    fight = plays["1"] + plays["2"]
    talk.lines(*walls, *fight)
    for _ in range(rng.randint(3, 25)):
        colour = rng.choice([b"b", b"w"])
        away = play(colour, rng.choice(points(size)))
        passes = [play(colour, PASS)] * 2
        others = [*passes, away, b"undo", b"undo", b"genmove " + colour, b"showboard"]
        talk.line(rng.choice([*fight, *plays["H"] * 3, rng.choice(others), rng.choice(others)]))


def start_comes_back(rng: Random, talk: Talk, size: int, handicap: Sequence[Point]) -> None:
    """Adds a game in which the board of a handicap would come back.

    White takes each of its stones and fills the board except for one of their points. Black takes
    all of White's there, and plays the others again: the last play leaves the board before the
    first move.
    """
    stones = rng.sample(handicap, len(handicap))
    free = [point for point in points(size) if point not in stones]
    rng.shuffle(free)
    free.sort(
        key=lambda point: not any(abs(point[0] - x) + abs(point[1] - y) == 1 for x, y in stones)
    )
    talk.lines(*(play(b"w", point) for point in free + stones[1:]))
    for point in stones:
        talk.line(play(b"b", point))
        if rng.random() < 0.5:
            talk.line(b"play w pass")
    talk.line(b"showboard")


# ---- the kinds


def small_boards(rng: Random, talk: Talk) -> None:
    """Adds games on boards of 1x1 to 5x5."""
    if rng.random() < 0.25:
        ko_fight(rng, talk)
    for _ in range(rng.choice([1, 1, 2])):
        size = rng.choice(SMALL_SIZES)
        play_some(rng, talk, size, rng.choice([5, 20, 60, 120]), SMALL_SIZES)


def big_boards(rng: Random, talk: Talk) -> None:
    """Adds a game on 6x6 to 25x25, with few genmoves, which take the reference long."""
    talk.generated = rng.choice([0, 0.1, 0.3, 0.6])
    play_some(rng, talk, rng.randint(6, 25), rng.choice([20, 60, 120]), [9, 13, 19, 25])


def any_bytes(rng: Random, talk: Talk) -> None:
    """Adds lines of any bytes, with some commands between them."""
    for _ in range(rng.randint(1, 60)):
        talk.noise = 0.8
        rng.choice(
            [lambda: talk.line(odd_line(rng)), lambda: other_command(rng, talk, SMALL_SIZES)]
        )()


def long_lines(rng: Random, talk: Talk) -> None:
    """Adds lines about as long as a line may be."""
    for _ in range(rng.randint(1, 10)):
        talk.line(long_line(rng))
        other_command(rng, talk, SMALL_SIZES)


def odd_values(rng: Random, talk: Talk) -> None:
    """Adds values in all spellings, and what is nearly one."""
    for _ in range(rng.randint(5, 60)):
        kind = rng.randint(0, 4)
        colour, point = rng.choice([BLACK, WHITE]), (rng.randint(1, 25), rng.randint(1, 25))
        if kind == 0:
            talk.say(b"komi", komi_word(rng))
            talk.say(b"final_score")
        elif kind == 1:
            talk.say(b"boardsize", int_word(rng, 30))
        elif kind == 2:
            talk.line(b"clear_board")
            talk.say(b"fixed_handicap", int_word(rng, 11))
        elif kind == 3:
            vertices: list[Vertex] = [PASS, point]
            own = colour_word(rng, colour, 0.3)
            talk.say(b"play", own, vertex_word(rng, rng.choice(vertices), 0.4))
        else:
            talk.say(b"genmove", colour_word(rng, colour, 0.5))


def mutated_lines(rng: Random, talk: Talk) -> None:
    """Adds games on small boards, some of whose bytes are changed, dropped, added or doubled."""
    small_boards(rng, talk)
    data = bytearray(talk.data)
    for _ in range(rng.choice([1, 5, 20, 60])):
        place = rng.randrange(len(data) + 1)
        byte = rng.choice([rng.randrange(256), rng.choice(b"\n\n #\t\r\x7f")])
        end = rng.choice([place, place + 1, place + rng.randint(1, 20)])
        data[place:end] = rng.choice([b"", bytes([byte]), bytes(data[place:end]) * 2])
    talk.data = bytes(data)


def quit_in_the_middle(rng: Random, talk: Talk) -> None:
    """Adds games on small boards with a quit, or what is nearly one, before their end."""
    small_boards(rng, talk)
    quits = [b"quit", b"quit", b"7 quit now", b"qu\x00it#", b"\tquit\r", b"quit " + b"x" * 995]
    lines = talk.data.split(b"\n")
    ending = rng.choice([*quits, b"quit " + b"x" * 996, b"QUIT", b"name quit"])
    lines.insert(rng.randrange(len(lines)), ending)
    talk.data = b"\n".join(lines)


def full_records(rng: Random, talk: Talk) -> None:
    """Adds a game of 2,000 moves and what comes then, and at times all of the game taken back."""
    size = rng.choice([2, 3, 4, 5, 7, 9, 19])
    talk.line(b"boardsize %d" % size)
    while not talk.engine.is_full():
        colour = rng.choice([b"b", b"w"])
        if size <= 4 and rng.random() < 0.2:
            talk.line(b"genmove " + colour)
        else:
            talk.line(play(colour, PASS if rng.random() < 0.5 else rng.choice(points(size))))
    for _ in range(5):
        talk.lines(b"genmove b", b"play w pass", b"play w Z25", b"genmove", b"play b")
        talk.lines(b"final_score", b"showboard", b"undo")
    for number in range(rng.choice([10, 2001])):
        talk.line(b"undo")
        if number % 97 == 0:
            talk.line(b"showboard")


def returning_boards(rng: Random, talk: Talk) -> None:
    """Adds games on 1x1 to 5x5 in which much is captured, so that boards come back."""
    if rng.random() < 0.5:
        ko_fight(rng, talk)
    if rng.random() < 0.7:
        size = rng.randint(3, 5)
        talk.line(b"boardsize %d" % size)
        taken_and_returned(rng, talk, size, rng.choice(points(size)))
    for _ in range(rng.choice([1, 2, 2, 3])):
        size = rng.choice(TIGHT_SIZES)
        talk.line(b"boardsize %d" % size)
        colour = BLACK
        for _ in range(rng.choice([30, 60, 120])):
            colour = values.other(colour) if rng.random() < 0.85 else colour
            returning_step(rng, talk, colour)
        talk.line(b"showboard")


def returning_step(rng: Random, talk: Talk, colour: Colour) -> None:
    """Adds a move by which a board may come back, or other commands: undos, passes, new games."""
    own = letter(colour)
    if rng.random() < 0.75:
        talk.line(play(own, returning_move(rng, talk.engine, colour)))
    elif rng.random() < talk.generated:
        talk.line(b"genmove " + own)
    else:
        same_size = b"boardsize %d" % talk.engine.size
        others = [play(own, PASS), b"undo", b"showboard", b"komi 0.5", b"clear_board", same_size]
        line = rng.choices(others, [10, 16, 4, 2, 1, 1])[0]
        talk.lines(*[line] * (rng.choice([1, 1, 1, 2, 5, 12]) if line == b"undo" else 1))


def returning_handicaps(rng: Random, talk: Talk) -> None:
    """Adds games on 7x7 to 9x9 in which stones of a handicap are taken and come back."""
    for _ in range(rng.choice([1, 2, 3])):
        size = rng.choice([7, 8, 9, 9])
        talk.line(b"boardsize %d" % size)
        number = rng.randint(2, 9 if size == 9 else 4)
        talk.line(b"fixed_handicap %d" % number)
        stones = values.handicap_points(size, number)
        assert stones is not None
        if rng.random() < 0.3:
            start_comes_back(rng, talk, size, stones)
            continue
        for _ in range(rng.choice([1, 1, 2])):
            taken_and_returned(rng, talk, size, rng.choice(stones))
            talk.line(b"showboard")
        if rng.random() < 0.3:
            talk.line(b"clear_board")


class Kind(NamedTuple):
    """A kind of conversations."""

    title: str
    add_games: Callable[[Random, Talk], None]
    one_in: int = 1  # a slow kind has one conversation where others have so many
    rule: Optional[KoRule] = None  # the rule of ko of all of them, or None for any


KINDS = {
    "small": Kind("small boards", small_boards),
    "big": Kind("big boards", big_boards, one_in=4),
    "bytes": Kind("bytes and control characters", any_bytes),
    "long": Kind("long lines", long_lines),
    "values": Kind("spellings of values", odd_values),
    "mutated": Kind("mutated lines", mutated_lines),
    "books": Kind("books", small_boards),
    "quit": Kind("quit in the middle", quit_in_the_middle),
    "full": Kind("full records", full_records, one_in=25),
    "returns": Kind("boards that come back", returning_boards, rule=POSITIONAL),
    "handicap": Kind("handicap stones that come back", returning_handicaps, rule=POSITIONAL),
}
UNFINISHED = [b"", b"", b"", b"name", b"quit", b"play b A1\r", b"#", b"1", b" ", b"x" * 2000]


def random_options(rng: Random, name: str) -> Options:
    """Returns the options of a conversation of the kind of this name."""
    policy = PolicyName.BOOK
    if name != "books":
        others = [PolicyName.FIRST, PolicyName.RANDOM, PolicyName.RANDOM, PolicyName.BOOK]
        policy = rng.choice(others)
    seed = rng.choice([*SEEDS, rng.randrange(2**32), rng.randrange(2**32)])
    book = b""
    if policy == PolicyName.BOOK or rng.random() < 0.1:
        lengths = [0, 1, 2, 3, 10, 10, 40, 40, 200] if rng.random() < 0.9 else [1999, 2000, 2001]
        book = spellings.book(rng, rng.choice(lengths))
    rule = KINDS[name].rule or rng.choice([SIMPLE, SIMPLE, SIMPLE, POSITIONAL])
    return Options(policy, seed, book, rule)


def conversation(name: str, seed: str) -> Conversation:
    """Returns the conversation of the kind of this name that this seed gives."""
    rng = Random(seed)
    options = random_options(rng, name)
    if engine.start(options) is None:
        return Conversation(options, b"name\nquit\n")
    talk = Talk(rng, options)
    KINDS[name].add_games(rng, talk)
    return Conversation(options, talk.data + rng.choice(UNFINISHED))
