"""The parts of charts, as SVG. An element has a class, and the style its colours, so that a policy
can forbid each other style."""
from __future__ import annotations

import math
from typing import Iterable, Sequence

from .markup import Child, Html, tag

WIDE = 1060  # of a chart that takes the whole width
Point = Sequence[float]


def number(value: float) -> str:
    """Returns a coordinate, with a decimal at most."""
    return f"{value:.1f}".rstrip("0").rstrip(".") if value else "0"


def picture(width: float, height: float, title: str, *parts: Child, class_: str = "chart") -> Html:
    """Returns a picture, whose title is what a reader of the screen says."""
    box = f"0 0 {number(width)} {number(height)}"
    size = {"width": number(width), "height": number(height)}
    return tag("svg", tag("title", title), *parts, viewBox=box, **size, class_=class_, role="img")


def line(x1: float, y1: float, x2: float, y2: float, class_: str) -> Html:
    """Returns a line."""
    ends = {"x1": number(x1), "y1": number(y1), "x2": number(x2), "y2": number(y2)}
    return tag("line", **ends, class_=class_)


def label(x: float, y: float, text: Child, anchor: str = "start", class_: str = "tick") -> Html:
    """Returns a text."""
    return tag("text", text, x=number(x), y=number(y), class_=class_, text_anchor=anchor)


def rectangle(
    x: float, y: float, width: float, height: float, class_: str, title: str | None = None
) -> Html:
    """Returns a rectangle, whose title is shown under the mouse."""
    size = {"width": number(max(0.0, width)), "height": number(max(0.0, height))}
    child = tag("title", title) if title else None
    children = [child] if child else []
    return tag("rect", *children, x=number(x), y=number(y), **size, class_=class_)


def dot(x: float, y: float, radius: float) -> Html:
    """Returns a dot."""
    return tag("circle", cx=number(x), cy=number(y), r=number(radius), class_="dot")


def curve(points: Iterable[Point], class_: str) -> Html:
    """Returns a curve through points."""
    return tag("polyline", points=written(points), class_=class_)


def area(points: Iterable[Point], class_: str) -> Html:
    """Returns the area within points."""
    return tag("polygon", points=written(points), class_=class_)


def written(points: Iterable[Point]) -> str:
    """Returns points as an attribute has them."""
    return " ".join(f"{number(x)},{number(y)}" for x, y in points)


def ticks(low: float, high: float, most: int = 6) -> list[float]:
    """Returns round numbers from low to high, some of them."""
    if high <= low:
        return [low]
    step = round_step((high - low) / most)
    first, last = math.ceil(low / step - 1e-9), math.floor(high / step + 1e-9)
    return [at * step for at in range(first, last + 1)]


def round_step(least: float) -> float:
    """Returns the next 1, 2 or 5 with zeros that is a number or greater."""
    size = 10.0 ** math.floor(math.log10(least))
    return next(factor * size for factor in (1, 2, 5, 10) if factor * size >= least * 0.999)


def some(count: int, most: int) -> list[int]:
    """Returns some of the numbers from 0 up to below count, evenly, with the last one."""
    step = max(1, -(-count // most))
    return sorted({*range(0, count, step), count - 1}) if count else []


class Scale:
    """From values to coordinates."""

    def __init__(self, low: float, high: float, begin: float, end: float) -> None:
        self.low, self.high = low, high if high > low else low + 1
        self.begin, self.end = begin, end

    def __call__(self, value: float) -> float:
        share = (value - self.low) / (self.high - self.low)
        return self.begin + share * (self.end - self.begin)


class Frame:
    """The frame of a chart: its size, its edges, and what values its axes have."""

    def __init__(
        self, size: Point, across: Point, up: Point, left: float = 40, bottom: float = 28
    ) -> None:
        self.width, self.height = size
        self.left, self.right, self.top, self.bottom = left, self.width - 12, 10.0, bottom
        self.floor = self.height - bottom
        self.across = Scale(across[0], across[1], self.left, self.right)
        self.up = Scale(up[0], up[1], self.floor, self.top)

    def grid(self, values: Iterable[float], strong: float | None = None) -> list[Html]:
        """Returns lines across with their values, of which one is strong."""
        return [
            part
            for value in values
            for part in (
                self.level(value, "zero" if value == strong else "grid"),
                label(self.left - 5, self.up(value) + 3.5, f"{value:g}", "end"),
            )
        ]

    def level(self, value: float, class_: str) -> Html:
        """Returns a line across."""
        return line(self.left, self.up(value), self.right, self.up(value), class_)

    def mark(self, value: float, class_: str) -> Html:
        """Returns a line upwards."""
        return line(self.across(value), self.top, self.across(value), self.floor, class_)

    def marks(self, values: Iterable[float]) -> list[Html]:
        """Returns values below the chart."""
        y = self.height - 8
        return [label(self.across(value), y, f"{value:g}", "middle") for value in values]

    def picture(self, title: str, *parts: Child) -> Html:
        """Returns the chart. A wide one is moved on a narrow screen, and not made smaller, so that
        its texts can be read."""
        chart = picture(self.width, self.height, title, *parts)
        if self.width < WIDE:
            return chart
        region = {"tabindex": "0", "role": "region", "aria_label": title}
        return tag("div", chart, class_="wide", **region)


def whole_ticks(low: float, high: float, most: int = 6) -> list[float]:
    """Returns round whole numbers from low to high, some of them."""
    return [value for value in ticks(low, high, most) if value == int(value)]
