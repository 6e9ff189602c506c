"""The page of a tournament as a text."""
from __future__ import annotations

import os
from typing import Iterator, NamedTuple, Sequence

from ...model import Side
from . import details, standings
from .failures import Failures
from .files import OF_BOARD, as_data, filled, policy, script, style, text_of
from .games import ALL_KINDS, Game
from .markup import Child, Html, counted, inner, tag, visible
from .packed import CHUNK, FIRST, GROWTH, chunks_of
from .view import View

SCRIPTS = (*OF_BOARD, "games.js", "start_page.js")
MOST_ROWS = 20000  # games in the table for those without a script


class Section(NamedTuple):
    """A section of the page: its id, its heading, and what is in it."""

    id: str
    heading: str
    content: Child


class Document:
    """The page of a view. What follows from results alone is made once. `base` is the folder as
    seen from there, for links to logs and notes."""

    def __init__(self, view: View, base: str, is_served: bool = False) -> None:
        self.is_served, self.failures = is_served, Failures(view.gathered, base)
        self.sections = list(sections(view, self.failures))
        self.rows = plain_rows(view)
        ended = view.gathered.ended
        self.packed = len(ended) // CHUNK * CHUNK  # games, in chunks that have no game in play
        has_moves, size = view.asked.has_moves, view.gathered.size
        self.chunks = list(chunks_of(ended[: self.packed], size)) if has_moves else []

    def text(self, view: View) -> str:
        """Returns the page, with the games in play of a view that has the same results."""
        shown = [Section("state", "", details.state(view, self.failures)), *self.sections]
        style_text, script_text = style(), script(SCRIPTS)
        title = tag("span", name_of(view))
        links = [(section.id, section.heading) for section in shown if section.heading]
        parts = {
            "SERVED": " data-served" if self.is_served else "",
            "POLICY": policy(style_text, script_text, self.is_served),
            "TITLE": title[len("<span>") : -len("</span>")],
            "SUBTITLE": tag("p", subtitle_of(view), class_="what"),
            "CONTENTS": inner(
                [tag("a", heading, href=f"#{id_}"), " "]
                for id_, heading in [*links, ("games", "Games")]
            ),
            "SECTIONS": "\n".join(map(of_section, shown)),
            "ROWS": self.rows,
            "VIEWER": text_of("viewer.html"),
            "DATA": "\n".join(self.data(view)),
            "STYLE": style_text,
            "SCRIPT": script_text,
        }
        return filled("page.html", parts)

    def data(self, view: View) -> Iterator[Html]:
        """Yields the elements that have what the script needs: columns of numbers, and moves."""
        games = [*view.gathered.ended, *playing_in(view)]
        columns = {**columns_of(view, games), **columns_of_failures(games, self.failures)}
        yield tag("script", as_data(columns), type="application/json", id="data")
        if view.asked.has_moves:
            last = chunks_of(games[self.packed :], view.gathered.size)
            for at, chunk in enumerate([*self.chunks, *last]):
                yield tag("script", chunk, type="text/plain", id=f"moves{at}")


def subtitle_of(view: View) -> str:
    """Returns what is played in a few words."""
    setup, size = view.gathered.setup, view.gathered.size
    board = f"{size}x{size}, komi {setup.komi}"
    if setup.stones():
        board += f", handicap {setup.stones()}"
    engines = counted(len(view.plan.engines), "engine")
    return f"{engines}, {board}, {counted(view.plan.seeds or 0, 'seed')}"


def playing_in(view: View) -> list[Game]:
    """Returns the games in play. A run that was killed leaves some that nobody plays."""
    is_shown = view.asked.has_moves and view.is_running
    return view.gathered.playing if is_shown else []


def name_of(view: View) -> str:
    """Returns the name of the tournament: that of its folder."""
    return os.path.basename(os.path.abspath(view.asked.folder))


def of_section(section: Section) -> Html:
    """Returns a section as HTML."""
    heading = tag("h2", section.heading) if section.heading else None
    return tag("section", heading, section.content, id=section.id, data_live=True)


def sections(view: View, failures: Failures) -> Iterator[Section]:
    """Yields the sections on results that have something to say."""
    games = view.gathered.ended
    if failures.count:
        yield Section("failures", "Failures", failures.html())
    if games:
        yield Section("ranking", "Ranking", standings.ranking(view))
        yield Section("crosstable", "Crosstable", standings.crosstable(view))
    if view.test:
        yield Section("test", "Sequential test", standings.sequential(view.test))
    if games:
        yield Section("pairs", "Pairs", standings.pairs(view))
        yield Section("endings", "How games ended", details.endings(view))
        yield Section("lengths", "Length", details.lengths(view))
    if any(game.noted.times for game in games):
        yield Section("times", "Seconds a move", details.times(view))
    if games and view.plan.openings:
        yield Section("openings", "Openings", details.openings(view))
    if games:
        yield Section("progress", "Over time", details.progress(view))
    yield Section("plan", "What was played", details.plan(view))


def plain_rows(view: View) -> Html:
    """Returns the table of games for those without a script, in as few bytes as HTML needs: rows
    and cells have no ends."""
    rows = []
    for game in view.gathered.ended[:MOST_ROWS]:
        black, white = view.gathered.engines(game)
        cells: list[Child] = [view.gathered.seed(game), black, white, game.verdict, game.length]
        cells += [f"{seconds:.1f}" for seconds in game.noted.seconds or ()]
        rows.append("<tr>" + "".join(f"<td>{inner([cell])}" for cell in cells) + "\n")
    head = "<tr><th>seed<th>Black<th>White<th>verdict<th>moves<th>s Black<th>s White\n"
    count = len(view.gathered.ended)
    which = f"<p>The first {len(rows)} of {count} games:\n" if count > len(rows) else ""
    return Html(f"{which}<table class=plain>{head}{''.join(rows)}</table>")


# ---- the data for the script


def columns_of(view: View, games: Sequence[Game]) -> dict[str, object]:
    """Returns what the script has to know of the games."""
    gathered, engines = view.gathered, list(view.plan.engines)
    places = {name: at for at, name in enumerate(engines)}
    began = min((int(game.ended) for game in games), default=0)
    verdicts: dict[str, int] = {}
    return {
        "size": gathered.size,
        "komi": gathered.setup.komi,
        "handicap": gathered.setup.stones(),
        "engines": engines,
        "sides": [[places[black], places[white]] for black, white in gathered.names.sides],
        "kinds": ALL_KINDS,
        "chunk": CHUNK,
        "first": FIRST,
        "growth": GROWTH,
        "moves": view.asked.has_moves,
        "began": began,
        "number": steps([game.number for game in games]),
        "verdict": [verdicts.setdefault(game.verdict, len(verdicts)) for game in games],
        "verdicts": list(verdicts),
        "kind": [ALL_KINDS.index(game.kind) for game in games],
        "count": [game.length for game in games],
        "winner": [-1 if game.winner is None else int(game.winner) for game in games],
        "black": [seconds_in(game, Side.BLACK) for game in games],
        "white": [seconds_in(game, Side.WHITE) for game in games],
        "ended": steps([int(game.ended) - began for game in games]),
        **rare_columns(games),
    }


def rare_columns(games: Sequence[Game]) -> dict[str, dict[int, object]]:
    """Returns what only some games have, by their places."""
    return {
        "blamed": {
            at: int(game.blamed) for at, game in enumerate(games) if game.blamed is not None
        },
        "restarts": {at: game.restarts for at, game in enumerate(games) if any(game.restarts)},
        "dead": {at: game.dead for at, game in enumerate(games) if game.dead},
        "other": {at: game.other_verdict for at, game in enumerate(games) if game.other_verdict},
    }


def columns_of_failures(games: Sequence[Game], failures: Failures) -> dict[str, object]:
    """Returns what the script has to know of games in which an engine failed, by their places:
    their files, why a side failed, by which illegal move, and before which moves engines ended. A
    text is there once."""
    texts: dict[str, int] = {}
    files: dict[int, int] = {}
    why: dict[int, int] = {}
    tried: dict[int, int] = {}
    faults: dict[int, list[list[int]]] = {}
    for place, game in enumerate(games):
        if game.has_files:
            name = failures.gathered.name(game)
            files[place] = failures.files_of(name)
            said = visible(failures.said_of(name))
            if said:
                why[place] = texts.setdefault(said, len(texts))
            move = failures.move_tried(name)
            if move is not None:
                tried[place] = move
            if game.noted.faults:
                faults[place] = [
                    [fault.move, fault.side, texts.setdefault(visible(fault.cause), len(texts))]
                    for fault in game.noted.faults
                ]
    named = {"files": files, "why": why, "tried": tried, "faults": faults}
    return {**named, "texts": list(texts), "folder": failures.base}


def seconds_in(game: Game, side: Side) -> float | None:
    """Returns how long a side thought in a game."""
    seconds = game.noted.seconds
    return None if seconds is None else round(seconds[side], 2)


def steps(values: Sequence[int]) -> list[int]:
    """Returns each number less the one before it, which has fewer digits."""
    return [value - before for value, before in zip(values, [0, *values])]
