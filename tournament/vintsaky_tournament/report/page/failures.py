"""What went wrong in a tournament, by engine, way and cause."""
from __future__ import annotations

import os
from typing import Iterator, NamedTuple
from urllib.parse import quote

from ...model import Side
from ...stats.summary import without_result
from ...store import notes
from .causes import COLOUR, in_words, point_tried, what_is_alike
from .games import Gathered
from .markup import Child, Html, behind, counted, inner, joined, tag

MOST_CAUSES, MOST_NAMED, MOST_LOOKED_AT = 5, 4, 500  # of the failures of one engine
MOST_WITHOUT_RESULT = 100  # games that are named of each cause
NO_RESULT = "no result"
END_OF_LOG = 2500  # bytes of a log that the page has
MOST_QUOTED = 200  # characters of its last line
OF_SCRIPTS = ("twogtp: ", "tournament: ")  # with which lines of a log begin that no engine wrote
FILES = ("logs", "notes")
CUT = "[..]"
UNKNOWN = "its cause isn't known"


class Group(NamedTuple):
    """The failures of an engine in one way, the last game first. No engine is to blame for a game
    without a result."""

    engine: str
    kind: str
    way: str
    games: list[str]


class Cause(NamedTuple):
    """A cause, as it is in the first one of its games."""

    text: str
    games: list[str]


class Failures:
    """What went wrong in the games of a folder. `base` is the folder as seen from the page."""

    def __init__(self, gathered: Gathered, base: str) -> None:
        self.gathered, self.folder, self.base = gathered, gathered.folder, base
        self.reasons = dict(without_result(gathered.counts))
        self.sides: dict[str, Side | None] = {}
        self.causes_of: dict[str, str] = {}  # of the games that were looked at
        self.groups = self.found()
        self.count = sum(len(group.games) for group in self.groups)

    def found(self) -> list[Group]:
        """Returns all failures."""
        groups: dict[tuple[str, str, str], list[str]] = {}
        for game in reversed(self.gathered.ended):
            if game.has_failed and game.blamed is not None:
                name = self.gathered.name(game)
                self.sides[name] = game.blamed
                way = f"forfeit ({game.verdict[4:-1]})" if game.kind == "forfeit" else game.kind
                engine = self.gathered.engines(game)[game.blamed]
                groups.setdefault((engine, game.kind, way), []).append(name)
        if self.reasons:
            groups["", NO_RESULT, NO_RESULT] = list(self.reasons)
        return [Group(*key, games) for key, games in groups.items()]

    def cause(self, name: str) -> str:
        """Returns why a side failed in a game, or why it has no result, in a line; an empty one
        where nobody knows."""
        known = self.causes_of.get(name)
        if known is None:
            known = self.causes_of[name] = self.reasons.get(name) or self.cause_of_failure(name)
        return known

    def cause_of_failure(self, name: str) -> str:
        """Returns the same of a game in which a side failed, by its notes or its log."""
        side = self.sides.get(name)
        assert side is not None
        noted = notes.read(f"{self.folder}/notes/{name}")
        if noted and noted.last_failure[side]:
            return noted.cause(side)
        about = f" {side.colour}: "
        lines = [line for line in self.log(name).split("\n") if line.startswith("twogtp: ")]
        lines = [line for line in lines if about in line]
        return lines[-1].partition(about)[2] if lines else ""

    def log(self, name: str) -> str:
        """Returns the end of a game's log."""
        try:
            with open(f"{self.folder}/logs/{name}", "rb") as file:
                size = os.fstat(file.fileno()).st_size
                file.seek(max(0, size - END_OF_LOG))
                text = os.fsdecode(file.read())
        except OSError:
            return ""
        return f"{CUT}\n{text}" if size > END_OF_LOG else text

    def last_line(self, name: str) -> str:
        """Returns the last line of a game's log that an engine wrote; an empty one without any."""
        lines = [COLOUR.sub("", line).strip() for line in self.log(name).split("\n")]
        found = [line for line in lines if line and not line.startswith((*OF_SCRIPTS, CUT))]
        return found[-1][:MOST_QUOTED] if found else ""

    def said_of(self, name: str) -> str:
        """Returns why a side failed in a game, with the last line that an engine wrote; an empty
        text if the game isn't one of those that are looked at."""
        if name not in self.causes_of:
            return ""
        last = self.last_line(name)
        quoted = f"the engines' last line in the log: {last}" if last else ""
        return "; ".join(filter(None, [in_words(self.causes_of[name]), quoted]))

    def move_tried(self, name: str) -> int | None:
        """Returns the illegal move by which a side forfeited a game; None if it has none, or isn't
        one of those that are looked at."""
        point = point_tried(self.causes_of.get(name, ""))
        return None if point is None else self.gathered.reader.numbers.get(point)

    def files_of(self, name: str) -> int:
        """Returns which files of a game have something in them: 1 for its log, 2 for its notes."""
        return sum(
            1 << at for at, kind in enumerate(FILES) if has_content(f"{self.folder}/{kind}/{name}")
        )

    def causes(self, group: Group) -> list[Cause]:
        """Returns the causes of failures, the most frequent one first."""
        found: dict[str, Cause] = {}
        for name in group.games[:MOST_LOOKED_AT]:
            text = self.cause(name) or UNKNOWN
            found.setdefault(what_is_alike(text), Cause(text, [])).games.append(name)
        return sorted(found.values(), key=lambda cause: -len(cause.games))

    # ---- as HTML

    def html(self) -> Html:
        """Returns all failures."""
        text = (
            "Logs and notes are files of the tournament's folder: their links lead there from "
            "where this page was written."
        )
        groups = tag("div", [self.of_group(group) for group in self.groups], class_="failures")
        return inner([groups, tag("p", text, class_="note")])

    def of_group(self, group: Group) -> Html:
        """Returns the failures of one engine in one way."""
        causes = self.causes(group)
        count: Child = self.count_without_result()
        if group.engine:
            count = tag("a", counted(len(group.games)), data_to=address_of(group))
        head = [
            tag("strong", group.engine or group.way),
            f" {group.way}: " if group.engine else ": ",
        ]
        more = len(causes) - MOST_CAUSES
        return tag(
            "div",
            tag("h3", head, count),
            tag("ul", [self.of_cause(group, cause) for cause in causes[:MOST_CAUSES]]),
            tag("p", f"and {counted(more, 'other cause')}", class_="note") if more > 0 else None,
            class_="failure",
        )

    def count_without_result(self) -> str:
        """Returns how many games have no result, as the tally has it, and how many failed."""
        missing, failed = self.gathered.counts.missing, len(self.reasons)
        return counted(missing) + (f", {failed} of them failed" if failed < missing else "")

    def of_cause(self, group: Group, cause: Cause) -> Html:
        """Returns the games of a cause, of which some are named, and the log of the first one."""
        most = MOST_NAMED if group.engine else MOST_WITHOUT_RESULT
        named = [self.of_game(name, bool(group.engine)) for name in cause.games[:most]]
        more = len(cause.games) - most
        if more > 0:
            text = f"and {more} more"
            link = tag("a", text, data_to=address_of(group)) if group.engine else text
            named.append(tag("li", link))
        differ = len({self.cause(name) for name in cause.games}) > 1
        return tag(
            "li",
            tag("code", in_words(cause.text)),
            f": {counted(len(cause.games))}",
            ", alike but for numbers, points and colours" if differ else None,
            tag("ul", named, class_="named"),
            self.end_of_log(cause),
        )

    def end_of_log(self, cause: Cause) -> Html | None:
        """Returns the end of the log of a cause's first game, where it says more than the cause."""
        first = cause.games[0]
        log = self.log(first)
        lines = [line for line in log.split("\n") if line.strip()]
        if not lines or len(lines) == 1 and lines[0].endswith(cause.text):
            return None
        return behind(f"the end of the log of {first}", tag("pre", log))

    def of_game(self, name: str, has_board: bool) -> Html:
        """Returns a game with links to its board, its log and its notes."""
        links = list(self.links(name))
        where: Child = tag("a", name, data_to=f"#game={quote(name)}") if has_board else name
        return tag("li", where, [" (", *joined(links), ")"])

    def links(self, name: str) -> Iterator[Child]:
        """Yields a link to each file of a game, and says where there is no log."""
        files = self.files_of(name)
        for at, (kind, text) in enumerate(zip(FILES, ("log", "notes"))):
            if files >> at & 1:
                yield tag("a", text, href=f"{self.base}{kind}/{quote(name)}", target="_blank")
            elif kind == "logs":
                yield "no log"


def address_of(group: Group) -> str:
    """Returns the address that filters the games of a group."""
    return f"#engine={quote(group.engine)}&kind={quote(group.kind)}&blamed=1"


def has_content(place: str) -> bool:
    """Returns whether there is a file in this place with something in it."""
    try:
        return os.stat(place).st_size > 0
    except OSError:
        return False
