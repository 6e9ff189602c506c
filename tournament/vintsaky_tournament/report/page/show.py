"""The page of a file with games as a text."""
from __future__ import annotations

import os
from typing import Sequence

from ...model import COLUMNS
from .files import OF_BOARD, as_data, filled, policy, script, style, text_of
from .markup import Child, Html, behind, inner, table, tag
from .shown import Shown, Step

SCRIPTS = (*OF_BOARD, "start_show.js")
MOST_LINKS = 50  # to games


def show(games: Sequence[Shown], place: str) -> str:
    """Returns the page of games, which are of the file in this place."""
    style_text, script_text = style(), script(SCRIPTS)
    title = tag("span", os.path.basename(place))
    links = [tag("a", game.title, data_to=f"#game={game.name}") for game in games[:MOST_LINKS]]
    data = {"games": [game._asdict() for game in games]}
    parts = {
        "POLICY": policy(style_text, script_text),
        "TITLE": title[len("<span>") : -len("</span>")],
        "CONTENTS": inner([link, " "] for link in links) if len(games) > 1 else "",
        "SECTIONS": "\n".join(map(of_game, games)),
        "VIEWER": text_of("viewer.html"),
        "DATA": tag("script", as_data(data), type="application/json", id="data"),
        "STYLE": style_text,
        "SCRIPT": script_text,
    }
    return filled("show.html", parts)


def of_game(game: Shown) -> Html:
    """Returns the moves of a game, to be read without a script."""
    rows: list[list[Child]] = []
    size = game.size
    for number, step in enumerate(game.steps, 1):
        size = step["board"]["size"] if "board" in step else size
        rows.append([number, step.get("name") or name_of(step, size), text_of_step(step)])
    title = f"{game.title}: {' - '.join(game.engines)}"
    return tag(
        "section",
        tag("h2", title),
        tag("p", f"{game.size}x{game.size}, komi {game.komi}. {game.ended}", class_="note"),
        behind("the moves as a table", table(["", "move", ""], rows, title)),
        data_live=True,
    )


def name_of(step: Step, size: int) -> str:
    """Returns how a move is written."""
    at = step["move"]
    vertex = "pass" if at == size * size else f"{COLUMNS[at % size]}{at // size + 1}"
    return f"{('Black', 'White')[step['side'] - 1]} {vertex}"


def text_of_step(step: Step) -> str:
    """Returns what is said of a step."""
    refused = ["refused"] if step.get("refused") else []
    return "; ".join([*refused, *([step["text"]] if step.get("text") else [])])
