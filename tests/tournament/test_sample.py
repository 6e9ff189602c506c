"""The sample of docs/pictures is played as it stands there."""
from __future__ import annotations

from .html_page import read
from .runner import Runner
from .sample import NUMBERS, PICTURES, numbers, play

MOST = 300_000  # bytes of all pictures


def test_page_of_the_sample_has_the_numbers_beside_its_pictures(runner: Runner) -> None:
    # their counts are those of the results, by hand; intervals and Elo those of the tally
    assert numbers(read(play(runner))) == NUMBERS.read_text("utf-8")


def test_pictures_are_small() -> None:
    sizes = [picture.stat().st_size for picture in PICTURES.glob("*.png")]
    assert sizes and sum(sizes) < MOST
