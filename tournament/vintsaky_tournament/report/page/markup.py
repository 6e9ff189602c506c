"""HTML and SVG as a type: only this module makes an `Html`, and whatever is none is escaped."""
from __future__ import annotations

from html import escape
from typing import Iterable, Sequence, Union

from ...output import ESCAPED

VOID = frozenset(["br", "hr", "input", "link", "meta"])  # elements that have no end
SHAPES = frozenset(["circle", "line", "path", "polygon", "polyline", "rect"])  # of SVG
# what turns or hides the text around it, and bytes that are no text
HIDDEN = {
    code: f"\\u{code:04x}"
    for code in (
        *(0x061C, 0xFEFF),
        *range(0x200B, 0x2010),
        *range(0x2028, 0x202F),
        *range(0x2060, 0x2070),
    )
}
BYTES = {code: f"\\x{code - 0xDC00:02x}" for code in range(0xDC80, 0xDD00)}
VISIBLE = {**ESCAPED, **HIDDEN, **BYTES}


class Html(str):
    """A text that is HTML."""


Child = Union[None, str, int, float, Sequence["Child"]]
Attribute = Union[None, str, int, float]


def visible(text: object) -> str:
    """Returns a text of others, in which each character is seen."""
    return str(text).translate(VISIBLE).encode("utf-8", "backslashreplace").decode()


def inner(children: Iterable[Child]) -> Html:
    """Returns children as HTML: texts are escaped, lists are joined, None is left out."""
    made = []
    for child in children:
        if isinstance(child, Html):
            made.append(str(child))
        elif isinstance(child, (list, tuple)):
            made.append(inner(child))
        elif child is not None:
            made.append(escape(visible(child), quote=False))
    return Html("".join(made))


def tag(name: str, *children: Child, **attributes: Attribute) -> Html:
    """Returns an element. The attribute `class_` is class, and `data_x` is data-x; True is one
    without a value, and None and False are left out."""
    written = "".join(
        f" {key.rstrip('_').replace('_', '-')}"
        + ("" if value is True else f'="{escape(visible(value))}"')
        for key, value in attributes.items()
        if value is not None and value is not False
    )
    if name in VOID:
        return Html(f"<{name}{written}>")
    if name in SHAPES and not children:
        return Html(f"<{name}{written}/>")
    return Html(f"<{name}{written}>{inner(children)}</{name}>")


def table(
    heads: Sequence[Child],
    rows: Iterable[Sequence[Child]],
    caption: str,
    class_: str | None = None,
    numbers: Iterable[int] = (),
) -> Html:
    """Returns a table. The first cell of each row is its head, and these columns have numbers. A
    head or a cell that is an element of a table is taken as it is."""
    right = frozenset(numbers)
    lines = [
        tag("tr", [cell(at, child, at in right) for at, child in enumerate(row)]) for row in rows
    ]
    first = [
        head
        if is_cell(head)
        else tag("th", head, scope="col", class_="number" if at in right else None)
        for at, head in enumerate(heads)
    ]
    whole = tag(
        "table",
        tag("caption", caption),
        tag("thead", tag("tr", first)),
        tag("tbody", lines),
        class_=class_,
    )
    return tag("div", whole, class_="wide", tabindex="0", role="region", aria_label=caption)


def cell(at: int, child: Child, is_number: bool) -> Child:
    """Returns a cell of a row, the first of which is its head."""
    if is_cell(child):
        return child
    class_ = "number" if is_number else None
    return tag("td", child, class_=class_) if at else tag("th", child, class_=class_, scope="row")


def is_cell(child: Child) -> bool:
    """Returns whether something is an element of a table's row."""
    return isinstance(child, Html) and child.startswith(("<td", "<th"))


def behind(title: str, content: Child) -> Html:
    """Returns what is shown after a click on its title."""
    return tag("details", tag("summary", title), content)


def joined(children: Sequence[Child], separator: str = ", ") -> list[Child]:
    """Returns children with a text between them."""
    found: list[Child] = []
    for child in children:
        found += [separator, child] if found else [child]
    return found


def counted(number: int, noun: str = "game") -> str:
    """Returns a number with its noun."""
    return f"{number} {noun}{'' if number == 1 else 's'}"
