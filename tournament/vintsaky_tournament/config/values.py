"""The values of options and of a plan's lines."""
from __future__ import annotations

import re

from ..model import Engine
from ..output import Mistake

MOVE = "(?:[A-HJ-Z](?:[1-9]|1[0-9]|2[0-5])|pass)"
OPENING = re.compile(f"{MOVE}(?: {MOVE})*")


def number(option: str, text: str) -> int:
    """Returns the number of an option, from 1 up."""
    if not re.fullmatch("[1-9][0-9]{0,6}", text):
        raise Mistake(f"{option} needs a number from 1 to 9999999, and not '{text}'")
    return int(text)


def seconds(option: str, text: str) -> str:
    """Returns the seconds of an option, above 0 and as they are written, without needless zeros at
    the beginning."""
    if not re.fullmatch(r"[0-9]{1,7}(\.[0-9]{1,6})?", text) or not float(text):
        raise Mistake(f"{option} needs seconds above 0, such as 60 or 0.5, and not '{text}'")
    return re.sub("^0+(?=[0-9])", "", text)


def command(option: str, text: str) -> str:
    """Returns the command of an option, which can be split into words."""
    if "\n" in text or "\0" in text:
        raise Mistake(f"{option} needs a command of one line")
    Engine("the scorer", text).words(is_direct=False)
    return text


def hook(option: str, text: str) -> str:
    """Returns the command of an option, which a shell reads."""
    if not text.strip() or "\0" in text:
        raise Mistake(f"{option} needs a command, such as {option} 'mail -s night me'")
    return text


def clock(option: str, text: str) -> str:
    """Returns the clock of an option, as it is written, with one space between its parts."""
    from ..relay.clock import BadClock, read_clock  # which few plans need

    try:
        read_clock(text)
    except BadClock as bad:
        raise Mistake(f"{option} needs {bad}, and not '{text}'") from None
    return " ".join(text.split())


def is_opening(text: str) -> bool:
    """Returns whether a text has the moves of an opening, as a plan has them."""
    return OPENING.fullmatch(text) is not None
