"""The charts of the page. Each has a title for readers, and its numbers stand in a table."""
from __future__ import annotations

import math
from collections import Counter
from typing import Iterable, Mapping, NamedTuple, Sequence

from ...stats import scores
from ...stats.scores import Estimate
from ...stats.sprt import Test
from ..text import whole
from .courses import AfterPair, AfterPairs
from .markup import Html, counted, tag
from .svg import (
    WIDE,
    Frame,
    Scale,
    area,
    curve,
    dot,
    label,
    line,
    picture,
    rectangle,
    some,
    ticks,
    round_step,
    whole_ticks,
)

GREATEST = 1200.0  # Elo to each side, which a bar shows
MOST_RATIO = 8.0
BINS = 30
PERCENTS = (0, 25, 50, 75, 100)
POWERS = {-3: "1 ms", -2: "10 ms", -1: "0.1 s", 0: "1 s", 1: "10 s", 2: "100 s", 3: "1000 s"}
STEP = 0.1  # of the logarithm of seconds


def held(value: float, most: float) -> float:
    """Returns a number that isn't beyond the most to each side."""
    return max(-most, min(most, value))


class Ratings:
    """The bars of ratings, on one scale."""

    WIDTH, HEIGHT = 260, 24

    def __init__(self, ratings: Iterable[Estimate]) -> None:
        ends = [held(end, GREATEST) for rating in ratings for end in (rating.low, rating.high)]
        low, high = min(ends, default=-100.0), max(ends, default=100.0)
        self.scale = Scale(min(low, 0) - 10, max(high, 0) + 10, 6, self.WIDTH - 6)
        self.ticks = ticks(self.scale.low, self.scale.high, 7)

    def axis(self) -> Html:
        """Returns the scale above the bars."""
        marks = [
            label(self.scale(at), 10, f"{at:+g}" if at else "0", "middle") for at in self.ticks
        ]
        return picture(self.WIDTH, 14, "the scale, in Elo", *marks, class_="inline")

    def bar(self, rating: Estimate) -> Html:
        """Returns a rating with its interval."""
        grid = [
            line(self.scale(at), 0, self.scale(at), self.HEIGHT, "grid" if at else "zero")
            for at in self.ticks
        ]
        middle, low, high = (self.scale(held(value, GREATEST)) for value in rating)
        bar = [line(low, 12, high, 12, "error"), line(low, 8, low, 16, "error")]
        title = f"{whole(rating.elo)} Elo, from {whole(rating.low)} to {whole(rating.high)}"
        parts = [*grid, *bar, line(high, 8, high, 16, "error"), dot(middle, 12, 4.5)]
        return picture(self.WIDTH, self.HEIGHT, title, *parts, class_="inline")


def score_course(one: str, other: str, course: Sequence[AfterPairs]) -> Html:
    """Returns the score of two engines after each pair, with its interval."""
    last = course[-1]
    frame = Frame((300, 132), (0, last.pairs), (0, 100), left=30, bottom=20)
    points = [(frame.across(after.pairs), frame.up(100 * after.score)) for after in course]
    low = [(frame.across(after.pairs), frame.up(100 * after.low)) for after in course]
    high = [(frame.across(after.pairs), frame.up(100 * after.high)) for after in course]
    drawn = [line(*low[0], *high[0], "error")]
    if len(course) > 1:
        drawn = [area([*low, *reversed(high)], "band"), curve(points, "course")]
    title = (
        f"{one} against {other}: {100 * last.score:.1f} percent after {counted(last.pairs, 'pair')}"
    )
    marks = frame.marks(at for at in whole_ticks(0, last.pairs, 5) if at)
    return frame.picture(title, *frame.grid(PERCENTS, 50), *marks, *drawn, dot(*points[-1], 3))


def test_course(test: Test, points: Sequence[AfterPair]) -> Html:
    """Returns both ratios of a sequential test after each pair, with the bounds."""
    ratios = [held(value, MOST_RATIO) for after in points for value in after[1:]]
    most = max(*(1.45 * abs(bound) for bound in test.bounds), *(1.1 * abs(at) for at in ratios), 1)
    count = max(1, sum(test.counts))
    frame = Frame((WIDE, 240), (0, count), (-most, most))
    names = [f"{difference:g} Elo is accepted" for difference in test.differences]
    bounds = [
        part
        for bound, name, class_, y in zip(test.bounds, names, ("bound low", "bound high"), (14, -5))
        for part in (
            frame.level(bound, class_),
            label(frame.left + 6, frame.up(bound) + y, name, class_="said"),
        )
    ]
    few = frame.across(min(scores.FEWEST, count)) - frame.left
    early = f"the first {scores.FEWEST} pairs, in which nothing is accepted"
    height = frame.floor - frame.top
    parts = [rectangle(frame.left, frame.top, few, height, "early", early)]
    parts += [
        *frame.grid(ticks(-most, most, 6), 0),
        *frame.marks(whole_ticks(0, count, 8)),
        *bounds,
    ]
    if test.decision is not None:
        x = frame.across(count)
        parts += [frame.mark(count, "middle")]
        parts += [label(x - 4, frame.up(0) + 16, f"over at seed {test.seed}", "end", "said")]
    for at, class_ in ((2, "course second"), (1, "course")):
        drawn = [(frame.across(each[0]), frame.up(held(each[at], most))) for each in points]
        parts += [curve(drawn, class_)] if drawn else []
    title = f"log likelihood ratio {test.ratio:.2f}, exact {test.exact:.2f}, after {count} pairs"
    return frame.picture(title, *parts)


class Bin(NamedTuple):
    """A step of a histogram: its first value, and how many there are."""

    first: int
    games: int


class Lengths:
    """How long games are, as a histogram."""

    def __init__(self, lengths: Sequence[int]) -> None:
        low, high = min(lengths), max(lengths)
        self.count = len(lengths)
        self.step = max(1, int(round_step(max(1.0, (high - low + 1) / BINS))))
        found = Counter(length // self.step for length in lengths)
        steps = range(low // self.step, high // self.step + 1)
        self.bins = [Bin(at * self.step, found[at]) for at in steps]

    def name(self, each: Bin) -> str:
        """Returns which lengths are in a step."""
        return f"{each.first} to {each.first + self.step - 1}" if self.step > 1 else f"{each.first}"

    def chart(self) -> Html:
        """Returns the histogram."""
        most = max(each.games for each in self.bins)
        first, end = self.bins[0].first, self.bins[-1].first + self.step
        frame = Frame((WIDE, 180), (first, end), (0, most))
        wide = frame.across(first + self.step) - frame.across(first) - 1
        bars = [
            rectangle(
                frame.across(each.first) + 0.5,
                frame.up(each.games),
                wide,
                frame.floor - frame.up(each.games),
                "bar",
                f"{self.name(each)} moves: {counted(each.games)}",
            )
            for each in self.bins
            if each.games
        ]
        marks = frame.marks(whole_ticks(first, end, 10))
        title = f"the length of {counted(self.count)}, in moves"
        return frame.picture(title, *frame.grid(whole_ticks(0, most, 4)), *marks, *bars)


def move_times(times: Mapping[int, int]) -> Html:
    """Returns the seconds of an engine's moves, on a logarithmic scale. So many of them took so
    many milliseconds."""
    width, height, floor = 420, 60, 44
    across = Scale(min(POWERS) - STEP, max(POWERS), 4, width - 4)
    parts = []
    for power, name in POWERS.items():
        anchor = {min(POWERS): "start", max(POWERS): "end"}.get(power, "middle")
        parts += [line(across(power), 2, across(power), floor, "grid")]
        parts += [label(across(power), height - 4, name, anchor)]
    found: Counter[int] = Counter()
    lowest = round(min(POWERS) / STEP) - 1  # the bin of what is below the scale
    for time, count in times.items():
        at = math.floor(math.log10(time / 1000) / STEP + 1e-9) if time else lowest
        found[at] += count
    up = Scale(0, max(found.values(), default=1), floor, 4)
    for at, count in sorted(found.items()):
        title = f"{10 ** (at * STEP):.3g} to {10 ** ((at + 1) * STEP):.3g} s: {count} moves"
        title = title if at > lowest else f"below 1 ms: {count} moves"
        wide = across(STEP) - across(0) - 0.5
        parts += [rectangle(across(at * STEP), up(count), wide, floor - up(count), "bar", title)]
    return picture(width, height, f"the seconds of {sum(found.values())} moves", *parts)


class Share(NamedTuple):
    """Some games of an engine: what they are, how many, and the class of their part of a bar."""

    name: str
    games: int
    class_: str


def shares(parts: Sequence[Share]) -> Html:
    """Returns a bar with a part for each share."""
    width, x = 300.0, 0.0
    total = max(1, sum(part.games for part in parts))
    drawn = []
    for part in parts:
        wide = width * part.games / total
        title = f"{part.name}: {part.games} of {total} games"
        drawn.append(rectangle(x, 2, wide, 18, part.class_, title))
        x += wide
    return picture(width, 22, "how its games ended", *drawn, class_="inline")


def progress(ends: Sequence[float], failed: Sequence[float], total: int, names: list[str]) -> Html:
    """Returns how many games had a result at each time, and when games failed. The names are those
    of the first, the middle and the last time."""
    frame = Frame((WIDE, 160), (ends[0], ends[-1]), (0, total), left=44)
    points = [(frame.across(ends[at]), frame.up(at + 1)) for at in some(len(ends), 250)]
    floor = frame.floor
    under = [(frame.left, floor), *points, (points[-1][0], floor)]
    middle = (frame.left + frame.right) / 2
    places = ((frame.left, "start"), (middle, "middle"), (frame.right, "end"))
    marks = [label(x, 150, name, anchor) for (x, anchor), name in zip(places, names)]
    red = [
        line(frame.across(failed[at]), floor, frame.across(failed[at]), floor + 7, "failure")
        for at in some(len(failed), 400)
    ]
    grid = frame.grid(whole_ticks(0, total, 4))
    title = f"{len(ends)} of {total} games over time"
    return frame.picture(title, *grid, area(under, "band"), curve(points, "course"), *red, *marks)


def swatch(class_: str) -> Html:
    """Returns a mark of a colour, for a legend."""
    return tag("i", class_=f"swatch {class_}")


def legend(entries: Iterable[tuple[str, str]]) -> Html:
    """Returns what the colours of a chart mean: of each its class, and a text."""
    parts = [tag("span", swatch(class_), f" {text} ") for class_, text in entries]
    return tag("p", parts, class_="legend")
