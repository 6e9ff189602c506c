"""The matches that are played by the examples and by twogtp have all ends of a game."""
from __future__ import annotations

import re

from .games import ENDLESS, MATCHES, REFUSED, Play, random_match

LINES = {
    "a score": r"([BW]\+[0-9.]+|0) moves ",
    "a resignation": r"[BW]\+R moves ",
    "the move limit": "limit moves ",
    "a forfeit": r"[BW]\+F\(.*\) moves ",
    "an abandoned side": "abandoned .* moves ",
    "restarts": ".* restarts (?!0 0$)",
}
REASONS = ["its output ended", "not a GTP reply", "the play was refused; ", "no end of a reply in"]


def test_matches_have_all_ends_of_a_game(play: Play) -> None:
    example = "gtp_engine --policy random --seed"
    matches = [random_match(1, number, example) for number in range(MATCHES)]
    results = [match.by_twogtp(play, "--why") for match in [ENDLESS, REFUSED, *matches]]
    text = "".join(done.stdout for done in results)
    missing = [end for end, form in LINES.items() if not re.search(f"^game 1: {form}", text, re.M)]
    assert missing == []
    errors = "".join(done.stderr for done in results)
    assert [reason for reason in REASONS if reason not in errors] == []
