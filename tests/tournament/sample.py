"""The sample whose pictures are in docs/pictures, with its numbers.

usage: python3 -m tests.tournament.sample    plays it and makes both anew; needs ./build, Chromium
                                             and pngquant

Its engines draw their moves by seeds, and nothing in it depends on time, so every machine plays the
same games.
"""
from __future__ import annotations

import subprocess
import tempfile
from pathlib import Path

from tests.shared.processes import TOP

from .browser import SWITCHES, TIME
from .html_page import Page, read
from .runner import RANDOM, Runner, engines

PICTURES = TOP / "docs/pictures"
NUMBERS = PICTURES / "sample.txt"
KO = "--ko positional"
ENGINES = engines(
    random=f"{RANDOM} %s {KO}",
    other=f"{RANDOM} 10%s {KO}",
    first=f"gtp_engine {KO}",
    # it ends at its 24th move, and in long games too often
    tired=f"{RANDOM} 20%s {KO} --fault stop:24",
)
BOARD = ["--", "--size", "9", "--komi", "0.5"]
SECTIONS = ["ranking", "crosstable", "pairs", "endings", "lengths"]
# of each picture the address in the page, and the window
SHOWN = {"page": ("", "1240,1140"), "game": ("#game=1_random_other&move=60", "1000,640")}


def play(runner: Runner) -> Path:
    """Plays the sample in the folder `sample`, and returns its page."""
    words = ["sample", *ENGINES, "--seeds", "10", "--direct", *BOARD]
    runner.tournament("play", *words)
    assert runner.tournament("page", "sample").status == 0
    return runner.folder / "sample/page.html"


def numbers(page: Page) -> str:
    """Returns the numbers of a page as text: its tables, and counts of all games."""
    lines = []
    for section in SECTIONS:
        lines += [f"{section}:", *(" | ".join(row) for row in page.rows[section]), ""]
    data = page.data
    games, moves, restarted = len(data["count"]), sum(data["count"]), len(data["restarts"])
    lines += [f"games: {games}", f"moves: {moves}", f"games with a restart: {restarted}"]
    return "\n".join(lines) + "\n"


def take(place: Path, picture: str) -> None:
    """Makes a picture of this page."""
    address, window = SHOWN[picture]
    file = PICTURES / f"{picture}.png"
    words = [*SWITCHES, TIME, f"--user-data-dir={place.parent / 'browser'}", "--hide-scrollbars"]
    words += [f"--window-size={window}", f"--screenshot={file}", f"file://{place}{address}"]
    subprocess.run(["chromium", *words], check=True, stderr=subprocess.DEVNULL)
    subprocess.run(["pngquant", "--force", "--strip", "--ext", ".png", "128", file], check=True)


def main() -> None:
    """Plays the sample, and writes its numbers and pictures."""
    with tempfile.TemporaryDirectory() as name, Runner(Path(name), TOP / "bin") as runner:
        place = play(runner)
        PICTURES.mkdir(exist_ok=True)
        NUMBERS.write_text(numbers(read(place)), "utf-8")
        for picture in SHOWN:
            take(place, picture)


if __name__ == "__main__":
    main()
