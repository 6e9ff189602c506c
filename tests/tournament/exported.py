"""A tournament that was written by hand, and how its games are exported."""
from __future__ import annotations

from typing import List, NamedTuple

from .runner import Runner
from .written import write_plan, write_result

BOARD = ["option --size", "option 9", "option --komi=5"]
MISSING = "tournament: without a result, and so not exported: 2 of 10 games\n"


class Game(NamedTuple):
    """A game as it is written, and as it is exported: the results of SGF and PGN, and its moves."""

    verdict: str
    moves: str
    winner: str
    sgf: str
    pgn: str  # White's result is first
    termination: str
    points: List[str]  # of SGF: D4 is the fourth column and, of nine rows, the sixth from above


GAMES = {
    "1_a_b": Game(
        "B+5 moves 3 restarts 0 0",
        "D4 E5 pass",
        "black",
        "B+5",
        "0-1",
        "normal",
        ["B[df]", "W[ee]", "B[]"],
    ),
    "1_b_a": Game(
        "W+R moves 2 restarts 0 0", "A1 J9", "white", "W+R", "1-0", "normal", ["B[ai]", "W[ia]"]
    ),
    "2_a_b": Game(
        "0 moves 2 restarts 0 0", "pass pass", "", "0", "1/2-1/2", "normal", ["B[]", "W[]"]
    ),
    "2_b_a": Game(
        "B+F(illegal move) moves 1 restarts 0 0",
        "A9",
        "black",
        "B+F",
        "0-1",
        "rules infraction",
        ["B[aa]"],
    ),
    "3_a_b": Game("limit moves 1 restarts 0 0", "J1", "", "Void", "*", "unterminated", ["B[ii]"]),
    "3_b_a": Game("unfit black moves 0 restarts 0 0", "", "", "Void", "*", "unterminated", []),
    "4_a_b": Game(
        "abandoned black moves 1 restarts 2 0", "E5", "", "Void", "*", "abandoned", ["B[ee]"]
    ),
    "4_b_a": Game(
        "abandoned white moves 1 restarts 0 2", "E5", "", "Void", "*", "time forfeit", ["B[ee]"]
    ),
}
# where an abandoned side loses: White was late in 4_b_a
ABANDONED_LOSES = {
    **GAMES,
    "4_a_b": GAMES["4_a_b"]._replace(winner="white", sgf="W+F", pgn="1-0"),
    "4_b_a": GAMES["4_b_a"]._replace(winner="black", sgf="B+T", pgn="0-1"),
}
NOTES = {
    "1_a_b": "began 2026-11-30T23:59:58Z\n1 black D4 1.5\n2 white E5 0.25\n3 black pass 0.5\n",
    "1_b_a": "",
    "4_b_a": "1 black E5 1.0\n2 white late 5.0: 5 genmove w\n",
}


def write_games(runner: Runner) -> None:
    """Writes the games, with notes of three of them."""
    folder = runner.folder / "all"
    write_plan(folder, "ab", 5, *BOARD)
    for name, game in GAMES.items():
        write_result(folder, name, game.verdict, game.moves)
    (folder / "notes").mkdir()
    for name, text in NOTES.items():
        # those of 1_b_a are of an earlier result
        verdict = "B+R moves 7 restarts 0 0" if name == "1_b_a" else GAMES[name].verdict
        head, end = f"{name} on far", f"thought: ..\nresult: {verdict}"
        runner.write(f"all/notes/{name}", f"{head}\n{text}{end}\n")
    (folder / "tried/far").mkdir(parents=True)
    versions = 'engine a old 1\nengine a A, "the" 1.2\nengine b \ntwogtp 1.0\n'
    runner.write("all/tried/far/versions", versions)
