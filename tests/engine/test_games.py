"""Games between two engines: each is sent what the other plays, and both agree at the end."""
from __future__ import annotations

import re
import subprocess
from contextlib import ExitStack
from dataclasses import dataclass
from pathlib import Path
from typing import Sequence

from tests.shared.processes import TIMEOUT, process_tree


class Engine:
    """An engine that is asked one command after the other."""

    def __init__(self, process: subprocess.Popen[str]) -> None:
        self.process = process

    def ask(self, command: str) -> str:
        """Returns the text of the reply, which has to be a success."""
        assert self.process.stdin is not None and self.process.stdout is not None
        self.process.stdin.write(f"{command}\n")
        self.process.stdin.flush()
        lines = []
        while (line := self.process.stdout.readline()).strip():
            lines.append(line)
        reply = "".join(lines).removesuffix("\n")
        assert reply.startswith("="), f"'{command}' is answered by '{reply}'"
        return reply[2:]

    def quit(self) -> int:
        """Asks the engine to quit, and returns its status."""
        assert self.ask("quit") == ""
        return self.process.wait(TIMEOUT)


@dataclass(frozen=True)
class Game:
    """A game that was played to its end."""

    moves: str
    score: str
    board: str


def play(
    program: Path, options: Sequence[Sequence[str]], size: int, komi: str, most_moves: int
) -> Game:
    """Plays a game between Black and White with these options, to two passes or so many moves."""
    pipe = subprocess.PIPE
    with ExitStack() as stack:
        black, white = engines = [
            Engine(
                stack.enter_context(
                    process_tree([program, *given], stdin=pipe, stdout=pipe, encoding="ascii")
                )
            )
            for given in options
        ]
        for engine in engines:
            for command in (f"boardsize {size}", f"komi {komi}", "clear_board"):
                assert engine.ask(command) == ""
        moves: list[str] = []
        while len(moves) < most_moves and moves[-2:] != ["pass", "pass"]:
            mover, other, colour = (white, black, "w") if len(moves) % 2 else (black, white, "b")
            moves.append(mover.ask(f"genmove {colour}"))
            assert other.ask(f"play {colour} {moves[-1]}") == ""
        score, board = black.ask("final_score"), black.ask("showboard")
        assert (white.ask("final_score"), white.ask("showboard")) == (score, board)
        assert [engine.quit() for engine in engines] == [0, 0]
    return Game(" ".join(moves), score, board)


def test_first_policies_pass_on_a_board_of_one_point(gtp_engine: Path) -> None:
    game = play(gtp_engine, [["--policy", "first"]] * 2, size=1, komi="6.5", most_moves=1000)
    assert game == Game("pass pass", "W+6.5", ". 1\nA\ncaptures B 0 W 0")


def test_first_policies_capture_in_turn_on_2x2(gtp_engine: Path) -> None:
    game = play(gtp_engine, [["--policy", "first"]] * 2, size=2, komi="0", most_moves=10)
    moves = "A1 B1 A2 B2 A1 A2 A1 B1 A2 B2"
    assert game == Game(moves, "W+4", ". O 2\n. O 1\nA B\ncaptures B 3 W 5")


def test_books_play_a_wall(gtp_engine: Path) -> None:
    book = ["--policy", "book", "--book", "B1,,B2,,B3"]
    game = play(gtp_engine, [book] * 2, size=3, komi="0.5", most_moves=1000)
    board = ". X . 3\n. X . 2\n. X . 1\nA B C\ncaptures B 0 W 0"
    assert game == Game("B1 pass B2 pass B3 pass pass", "B+8.5", board)


def test_random_policies_agree_on_a_whole_game(gtp_engine: Path) -> None:
    options = [["--policy", "random", "--seed", seed] for seed in ("1", "2")]
    game = play(gtp_engine, options, size=9, komi="6.5", most_moves=1000)
    assert re.fullmatch("([A-HJ][1-9] |pass )*pass pass", game.moves)
    assert re.fullmatch(r"0|[BW]\+[0-9.]+", game.score)
