"""Random matches: a seed and a number give one match, with engines that misbehave at random places.

Only what has one outcome is in them, whenever a process happens to run. So these are left out:
- an engine that neither replies nor ends, which makes the controller wait, and one that closes its
  input while commands may be on their way to it;
- a reply to a script command that the engine wasn't sent yet, after another reply: whether the
  controller has sent that command by then, where it sends several before the first is answered, is
  a question of time;
- an engine that gives a script command a reply that ends the match, and then ends: the controller
  may meet its end first;
- a reply and another after it, from an engine that also writes thousands of bytes: they may come in
  two reads;
- anything that an engine writes while it is sent nothing;
- an engine that refuses a move before the last one, and logs what it is sent after it.
"""
from __future__ import annotations

from enum import Enum
from random import Random
from typing import NamedTuple, Optional, Sequence, Union

from ..engine.game import POSITIONAL, SIMPLE, KoRule
from ..engine.policies import PolicyName
from ..engine.values import BLACK, WHITE

from . import faults, faulty
from .engines import PROGRAMS, Engine, Other, Ours, Planned
from .faults import Deed
from .matches import Match

KOMIS = ["6.5", "0", "0.5", "7", "-0", "+.5", "-3.50", "007.", "-12.5", "999999999.5", "40"]
BAD_KOMIS = ["6.7", "1e1", ".", "0000000006.5"]
SIZES = [1, 2, 2, 3, 3, 3, 4, 4, 5, 5, 6, 7, 8, 9, 9]
MOST_MOVES = [1, 2, 3, 5, 8, 12, 12, 16, 20, 25, 30, 40]
RESTARTS = [0, 1, 1, 2, 2, 3, 3]
# How late in an engine's life something happens: at which genmove or play, and at which command.
LATE = [1, 1, 1, 2, 2, 2, 3, 3, 4, 6]
LATER = [1, 2, 3, 3, 4, 4, 5, 6, 7, 8, 9, 10, 13, 18]
WHY = 0.8  # how often a match is played with `--why`
ANY_LIFE = "*"
Life = Union[int, str]  # the number of a process, or ANY_LIFE


# ---- what an engine does first


class Fault(NamedTuple):
    """What an engine does in one life, at one of these places."""

    life: Life
    places: Sequence[str]
    deed: Deed

    def text(self, rng: Random) -> str:
        """Returns the fault as faulty.py reads it."""
        return written(rng, self.life, rng.choice(self.places), self.deed)


def written(rng: Random, life: Life, place: str, deed: Deed) -> str:
    """Returns a fault as faulty.py reads it. Its K is a random number."""
    template = deed.template.replace("K", str(rng.randint(1, 7)))
    return f"{life}/{place}/{template}/{deed.then}"


class OtherEngine(Enum):
    """The other engine of a match, where its faults aren't given."""

    ANY = "any"
    # ours, which plays at random, and so mostly another move than the one that it takes back
    OURS = "ours"


class Turn(NamedTuple):
    """What one engine of a match does first, and the other one."""

    own: Sequence[Fault]
    other: Union[Sequence[Fault], OtherEngine] = OtherEngine.ANY
    moves_first: Optional[bool] = None  # whether the first engine does, if that isn't random
    restarts: Sequence[int] = RESTARTS
    moves: int = 1  # at least

    def match(self, rng: Random) -> Match:
        """Returns a match in which one of the engines has this turn."""
        has_stones = any(fault.places == ["h"] for fault in self.own)
        own = [fault.text(rng) for fault in self.own]
        is_any = self.other is OtherEngine.ANY
        size = rng.choice([7, 8, 9] if has_stones else SIZES if is_any else SIZES[1:])
        wrong = 0.015 if is_any else 0  # how often an option is one that the program refuses
        handicap = random_handicap(rng, size, has_stones, wrong)
        restarts, games = rng.choice(self.restarts), rng.choice([1, 1, 1, 1, 2])
        komi = rng.choice(BAD_KOMIS if rng.random() < wrong else KOMIS)
        engines = self.engines(rng, own, size, handicap, (restarts + 1) * games)
        moves_first = rng.random() < 0.5 if self.moves_first is None else self.moves_first
        sides = [BLACK, WHITE] if moves_first == (handicap == 0) else [WHITE, BLACK]
        most_moves = max(rng.choice(MOST_MOVES), self.moves)
        return Match(
            dict(zip(sides, engines)),
            size,
            komi,
            handicap,
            games,
            most_moves,
            restarts,
            record=rng.random() < 0.8,
            show=rng.random() < 0.5,
        )

    def engines(
        self, rng: Random, own: list[str], size: int, handicap: int, lives: int
    ) -> list[Engine]:
        """Returns the engine with these faults, and the other one."""
        if self.other is OtherEngine.OURS:
            first = engine_with(rng, own, handicap, lives, 0)
            return [first, our_engine(rng, size, policy=PolicyName.RANDOM)]
        if not isinstance(self.other, OtherEngine):
            other = [fault.text(rng) for fault in self.other]
            return [engine_with(rng, plan, handicap, lives, 0) for plan in (own, other)]
        if "/u" in own[0]:
            plans = [own, [fault.text(rng) for fault in REFUSES_ONE]]
            return [engine_with(rng, plan, handicap, lives) for plan in plans]
        return [engine_with(rng, own, handicap, lives), any_engine(rng, size, handicap, lives)]


class ProgramTurn(NamedTuple):
    """One side is this program, which is no engine or isn't there."""

    name: str

    def match(self, rng: Random) -> Match:
        """Returns a match of this kind."""
        size, restarts, games = rng.choice(SIZES), rng.choice(RESTARTS), rng.choice([1, 1, 2])
        engines = [Other(self.name), any_engine(rng, size, 0, (restarts + 1) * games)]
        rng.shuffle(engines)
        most_moves = rng.choice(MOST_MOVES)
        return Match(
            dict(zip([BLACK, WHITE], engines)),
            size,
            rng.choice(KOMIS),
            0,
            games,
            most_moves,
            restarts,
            record=True,
        )


class KoTurn(NamedTuple):
    """Two of our engines play on a small board, of which one or both know the positional rule.

    On the smallest, positions come back most often, and where White knows that rule.
    """

    def match(self, rng: Random) -> Match:
        """Returns a match of this kind."""
        both, only_white = [POSITIONAL, POSITIONAL], [SIMPLE, POSITIONAL]
        rules = rng.choice([only_white] * 6 + [[POSITIONAL, SIMPLE], both])
        size, restarts = rng.choice([2, 2, 2, 2, 2, 2, 3, 3, 4]), rng.choice(RESTARTS)
        policies = [PolicyName.FIRST, *[PolicyName.RANDOM] * 3]
        engines = [our_engine(rng, size, rule, rng.choice(policies)) for rule in rules]
        komi = rng.choice(KOMIS)
        most_moves = rng.choice([12, 20, 30, 40, 60])
        return Match(
            dict(zip([BLACK, WHITE], engines)),
            size,
            komi,
            most_moves=most_moves,
            restarts=restarts,
            record=True,
            show=True,
        )


FAILURE = faults.REFUSALS[0]
REFUSES = Deed(FAILURE, faulty.REFUSES)
REFUSES_WITH_TEXT = Deed(faults.REFUSALS[2], faulty.REFUSES)
FAILS = Deed(FAILURE)
REFUSES_ONE = [Fault(1, ["p1", "p1", "p2"], REFUSES)]
ANYWHERE = ["c1", "c2", "c3", "c5", "g1", "p1", "u1"]
# Plays of the other side that an engine refuses now and then, in one life.
NOW_AND_THEN = [
    ["p1", "p3", "p6-7"],
    ["p2-3", "p5", "p9-11"],
    ["p4-6", "p8", "p10", "p12"],
    ["p1-3", "p5-7", "p9-11"],
]


def once(places: Sequence[str], deed: Deed) -> Turn:
    """Returns the turn of an engine that does this once, at one of these places.

    Where that is an undo, the other side refuses a move.
    """
    return Turn([Fault(1, places, deed)])


def refuses(*places: str, deed: Deed = REFUSES, life: Life = 1) -> list[Fault]:
    """Returns the faults of an engine that refuses all of these plays."""
    return [Fault(life, [place], deed) for place in places]


def refuses_and_falls(place: str, life: Life = 1) -> Fault:
    """Returns the fault of an engine that refuses a play, and goes down."""
    return Fault(life, [place], Deed(FAILURE + "hello"))


def ends(place: str, life: Life = 1) -> Fault:
    """Returns the fault of an engine that ends here."""
    return Fault(life, [place], Deed("", faulty.ENDS))


def moves_and_falls(life: Life) -> Fault:
    """Returns the fault of an engine that makes a move, and goes down."""
    return Fault(life, ["g1"], Deed("<reply><reply>"))


def undoes(deed: Deed) -> Turn:
    """Returns what an engine does at an undo. The other side refuses a move of its own."""
    return Turn([Fault(1, ["u1"], deed)], REFUSES_ONE, moves=3)


# All that engines do, each with places that nearly every match reaches.
EARLY: list[Union[Turn, ProgramTurn, KoTurn]] = [
    *(once(ANYWHERE, deed) for deed in faults.ENDINGS),
    *(once(ANYWHERE, Deed(template)) for kind in faults.ANY for template in kind),
    *(once(["g1", "g1", "g2"], Deed(template)) for template in faults.MOVES),
    # the game continues, so it is written to
    *(Turn([Fault(1, ["g1", "g1", "g2"], deed)], [], moves=8) for deed in faults.SHUT_AND_MORE),
    *(once(["h"], Deed(template)) for template in faults.STONES),
    *(once(["q"], deed) for deed in faults.QUITS),
    *(once(["0"], deed) for deed in faults.GREETINGS),
    # It refuses moves of the other side.
    *(
        Turn([Fault(1, row, Deed(template, faulty.REFUSES))], moves=5)
        for row in faults.ROWS
        for template in faults.REFUSALS[::2]
    ),
    *(Turn(refuses("p1-3", row), [], moves=8) for row in ("p5-6", "p6-8")),
    *(
        turn
        for places in NOW_AND_THEN
        for turn in (
            Turn(refuses(*places), OtherEngine.OURS, moves=25),
            Turn(refuses(*places), [], moves=25),
        )
    ),
    *(
        Turn(refuses(*places, deed=REFUSES_WITH_TEXT), refuses(*places), moves=25)
        for places in NOW_AND_THEN
    ),
    *(Turn([Fault(1, ["p1", "p2"], deed)], moves=5) for deed in faults.REFUSED_AND_MORE),
    *(
        Turn([Fault(1, ["p1", "p2"], deed)], OtherEngine.OURS, None, restarts, 5)
        for deed in faults.REFUSED_AND_LOST
        for restarts in ([0], [2])
    ),
    Turn([refuses_and_falls("p1", ANY_LIFE)], [], False, [0, 1, 2], 3),
    # It is asked to take a move back.
    *(undoes(deed) for deed in faults.ENDINGS + faults.UNDOES),
    Turn([ends("u1", ANY_LIFE)], refuses("p1-3"), None, [0, 1, 2], 3),
    # It refuses a move when it is sent the game again, the other side's or its own, which is the
    # last one or isn't.
    *(
        Turn([ends("g2"), Fault(2, [place], FAILS)], [], None, [1, 2, 3], 6)
        for place in ("p1", "p2", "p3")
    ),
    *(
        Turn([moves_and_falls(1), Fault(2, [place], FAILS)], [], place == "p1", [1, 2, 3], 3)
        for place in ("p1", "p2")
    ),
    # It refuses a move, is started again, and refuses it again.
    Turn([*refuses("p1-2"), ends("p3"), *refuses("p1-2", life=2)], [], False, [1, 2, 3], 3),
    Turn([*refuses("p1-3"), ends("p4"), *refuses("p2", life=2)], [], True, [1, 2, 3], 3),
    Turn([*refuses("p1", life=ANY_LIFE), ends("p2", ANY_LIFE)], [], False, [3], 3),
    # It refuses a move, takes it after all, is started again, and refuses it.
    Turn([*refuses("p1-3"), ends("g1"), *refuses("p1", life=2)], [], False, [1, 2, 3], 3),
    # It goes down after each of its moves, which the other side refuses.
    *(Turn([moves_and_falls(ANY_LIFE)], refuses("p1-4"), first, [4], 3) for first in (False, True)),
    *(
        Turn([moves_and_falls(ANY_LIFE)], refuses(*places), False, [3], 5)
        for places in (["p1"], ["p1-2"], ["p2"], ["p1", "p3"])
    ),
    # The other side refuses a move and goes down, and it fails to take the move back, or goes down
    # too.
    Turn(refuses("u1"), [refuses_and_falls("p1")], None, [1, 2, 3], 3),
    Turn([ends("u1", ANY_LIFE)], [*refuses("p1"), refuses_and_falls("p2")], None, [1], 3),
    *([KoTurn()] * 16),
    *map(ProgramTurn, PROGRAMS),
]


def random_match(seed: int, number: int) -> Match:
    """Returns the match of this number that a seed gives.

    The number alone says what one of the engines does first, so that as many matches as EARLY is
    long have each of these once; all else is random.
    """
    match = EARLY[number % len(EARLY)].match(Random(f"{seed} {number}"))
    # From draws of its own: with this option or without, a match is the same.
    return match._replace(why=Random(f"{seed} {number} why").random() < WHY)


def random_handicap(rng: Random, size: int, is_wanted: bool, wrong: float) -> int:
    """Returns a number of handicap stones: none in most matches where they aren't wanted.

    So often this is one that the size doesn't allow.
    """
    if not is_wanted and rng.random() < wrong:
        return rng.choice([1, 5, 9])
    if size < 7 or (not is_wanted and rng.random() < 0.7):
        return 0
    return rng.randint(2, 9 if size == 9 else 4)


# ---- engines


def engine_with(
    rng: Random, plan: list[str], handicap: int, lives: int, passes: Optional[int] = None
) -> Engine:
    """Returns an engine that does this first, and something else in most of the later lives."""
    seen = {fault.split("/")[0] for fault in plan}
    later = [life for life in range(2, lives + 1) if not seen & {str(life), ANY_LIFE}]
    more = [random_fault(rng, life, handicap) for life in later if rng.random() < 0.6]
    return faulty_engine(rng, plan + more, passes=passes)


def any_engine(rng: Random, size: int, handicap: int, lives: int) -> Engine:
    """Returns an engine: ours, one that misbehaves or writes too much, or another program."""
    kind = rng.random()
    if kind < 0.65:
        return our_engine(rng, size)
    if kind < 0.85:
        faulty_lives = (life for life in range(1, lives + 1) if rng.random() < 0.7)
        return faulty_engine(rng, [random_fault(rng, life, handicap) for life in faulty_lives])
    if kind < 0.93:
        return faulty_engine(rng, [random_fault(rng, ANY_LIFE, handicap)])
    if kind < 0.96:
        return faulty_engine(rng, [], long_style(rng))
    return Other(rng.choice(list(PROGRAMS)))


def our_engine(
    rng: Random, size: int, rule: Optional[KoRule] = None, policy: Optional[PolicyName] = None
) -> Engine:
    """Returns our engine, now and then with a fault of its own.

    Its rule of ko and its policy are random where they aren't given.
    """
    fault = "none"
    rule = rule or rng.choice([SIMPLE, SIMPLE, POSITIONAL])
    if rng.random() < 0.25:
        number = rng.randint(1, 4)
        cut = f"cut:{number}:{rng.randint(0, 9)}"
        fault = rng.choice([f"stop:{number}", cut, f"junk:{number}", f"flood:{number}"])
    policy = policy or rng.choice([PolicyName.FIRST, PolicyName.RANDOM, PolicyName.BOOK])
    seed = rng.randint(0, 2**32 - 1)
    book = random_book(rng, size) if policy == PolicyName.BOOK else ""
    return Ours(policy, seed, book, fault, rule)


def random_book(rng: Random, size: int) -> str:
    """Returns a short book."""
    places = [
        "ABCDEFGHJ"[rng.randrange(size)] + str(rng.randint(1, size))
        for _ in range(rng.randint(1, 12))
    ]
    places = [rng.choice([place] * 6 + [""]) for place in places]
    places += ["resign"] * (rng.random() < 0.15)
    return ",".join(places) or "A1"


def faulty_engine(
    rng: Random, plan: list[str], style: Optional[str] = None, passes: Optional[int] = None
) -> Engine:
    """Returns an engine with this plan.

    Besides a fault that writes thousands of bytes its replies are plain ones.
    """
    passes = rng.choice([0, 0, 2, 3, 5, 9]) if passes is None else passes
    is_long = any(sign in fault for fault in plan for sign in ("fill", "*\\", "*_", "*a"))
    style = style or ("<reply>" if is_long else rng.choice(["<reply>"] * 20 + faults.STYLES))
    return Planned(rng.randint(0, 999), passes, style, ",".join(plan) or "-")


def long_style(rng: Random) -> str:
    """Returns a style whose longer replies have more than 8,192 bytes.

    Its shorter replies have at most so many, with what comes after the one before.
    """
    after = rng.randint(0, 4000)
    before = 8192 - len("=1 A1\n\n") + rng.randint(-3, 3) - after
    return rng.choice(faults.LONG_STYLES) % (before, after)


# ---- faults


def random_fault(rng: Random, life: Life, handicap: int) -> str:
    """Returns a fault in this life: a place, what is written there, and what comes then."""
    kind = rng.random()
    if kind < 0.06:
        return written(rng, life, "0", rng.choice(faults.GREETINGS))
    if kind < 0.09:
        return written(rng, life, "q", rng.choice(faults.QUITS))
    if kind < 0.11:
        return written(rng, life, f"g{rng.choice(LATE)}", faults.SHUT)
    if kind < 0.15:
        return written(rng, life, "u1", random_deed(rng))
    if kind < 0.23:
        return random_refusal(rng, life)
    if handicap and kind < 0.38:
        return written(rng, life, "h", Deed(rng.choice(faults.STONES)))
    if kind < 0.35:
        return written(rng, life, f"g{rng.choice(LATE)}", Deed(rng.choice(faults.MOVES)))
    places = [f"c{rng.choice(LATER)}", f"g{rng.choice(LATE)}", f"p{rng.choice(LATE)}"]
    return written(rng, life, rng.choice(places), random_deed(rng))


def random_refusal(rng: Random, life: Life) -> str:
    """Returns the fault that plays are refused in this life, one or some in a row.

    In the first life each play is the last move. In a later one it may be another, whose refusal
    ends the match while more may be on its way to the engine, so it logs nothing any more.
    """
    first = rng.choice(LATE)
    place = f"p{first}-{first + rng.choice([0, 0, 1, 1, 2, 3, 6])}"
    then = faulty.REFUSES if life == 1 else faulty.ON
    return written(rng, life, place, Deed(rng.choice(faults.REFUSALS), then))


def random_deed(rng: Random) -> Deed:
    """Returns what an engine may do in place of any reply."""
    kind = rng.random()
    if kind < 0.4:
        return rng.choice(faults.ENDINGS)
    if kind < 0.45:
        return Deed("<reply>", faulty.FORGETS)
    return Deed(rng.choice(rng.choice(faults.ANY)))
