r"""What engines of random matches write and do, as faulty.py reads it.

Templates, in which `_` is a space and `<reply>` the plain reply, and what comes then.
"""
from __future__ import annotations

from typing import NamedTuple

from .faulty import CLOSES, ENDS, ON, REFUSES, SHUTS


class Deed(NamedTuple):
    """What an engine writes, and does then."""

    template: str
    then: str = ON


def deeds(*templates: str) -> list[Deed]:
    """Returns the deeds of an engine that writes one of these, and continues."""
    return [Deed(template) for template in templates]


def answers(*texts: str) -> list[str]:
    """Returns the templates of successful replies with these texts."""
    return [rf"=<id>_{text}\n\n" for text in texts]


# ---- in place of any reply

# The engine ends, or closes its output: before it replies, in the middle, or right after. K is a
# random number.
ENDINGS = [
    Deed(template, then) for then in (ENDS, CLOSES) for template in ("", "<reply:K>", "<reply>")
]
# What is no reply.
JUNK = [
    r"hello\n\n",
    r"#_<reply>",
    r"\xff<reply>",
    r"\xef\xbb\xbf<reply>",
    r"A1\n\n",
    r"<id>_ok\n\n",
    r"<id>_=\n\n",
    r"\x1b[1m<reply>",
    r"-<reply>",
    r"_OK_<reply>",
    r"!",
    r"\n\nwelcome",
]
# Other ways to write the plain reply, which change nothing.
HARMLESS = [
    r"\x1b<reply>",
    r"\x7f\x00<reply>",
    r"\n\n_\t\n<reply>",
    r"=<id>\x0b_<text>\n\x00\n",
    r"=<id>_<text>\r\n\r\n",
    r"=000<id>_<text>\n\n",
    r"=<30*0><id>_<text>\n\n",
    r"=<id><text>\n\n",
    r"=<id>_\t_<text>_\t\n\n",
    r"=<id>\n<text>\n\n",
    r"=\x01<id>\x7f_<text>\n\n",
    r"=<id>_<lower>\n\n",
    r"=<id>_<text>\n_\n\n",
    r"<reply>\n\n_\t\r\n",
]
# Words after those that are due.
WORDY = [
    r"=<id>_<text>_more_words\n\n",
    r"=<id>_<text>\nmore_lines\nof_it\n\n",
    r"=<id>_<text>_#_a_comment\n\n",
]
# Ids that are missing, or strange; at times more follows, which doesn't count.
STRANGE_IDS = [
    r"=<id+1>_<text>\n\n",
    r"=<id-1>_<text>\n\n",
    r"=0_<text>\n\n",
    r"=<id>0_<text>\n\n",
    r"=<id+2147483648>_<text>\n\n",
    r"=<id+4294967296>_<text>\n\n",
    r"=_<id>_<text>\n\n",
    r"=\t<id>_<text>\n\n",
    r"=-<id>_<text>\n\nhello\n",
    r"=+<id>_<text>\n\n",
    r"=_<text>\n\n",
    r"=\n\n",
    r"?<id+1>_no\n\n",
    r"?<id+4294967296>_no\n\n",
    r"?_no\n\n\n!",
]
# Failures. A play that fails is refused.
REFUSALS = [r"?<id>_no\n\n", r"?<id>\n\n", r"?<id>_<text>\n\n", r"?00<id>no\n\n"]
# Thousands of bytes: at the limit of 8,192, above it, and without an end.
LONG = [
    r"<fill:8192:\n><reply>",
    r"<fill:8193:\n><reply>",
    r"<fill:8192:\r><reply>",
    r"<fill:8193:\x00><reply>",
    r"=<id><fill:8192:\x02>_<text>\n\n",
    r"=<id>_<text><fill:8192:_>\n\n",
    r"=<id>_<text><fill:8193:_>\n\n",
    r"=<id>_<text>\n<fill:8192:\r>\n",
    r"=<id>_<text>\n<fill:8193:\r>\n",
    r"=<id>_<text><fill:6000:\t>\n\n",
    r"<8191*\n>!",
    r"<8192*\n>!",
    r"<8193*\n>",
    r"<9000*\n>",
    r"<8193*_>",
    r"<8193*\x01>",
    r"=<id>_<9000*a>",
]
# A reply, and at once more than was asked for.
MORE = [
    r"<reply><reply>",
    r"<reply>=\n\n",
    r"<reply>?\n\n",
    r"<reply>=0\n\n",
    r"<reply>=<id-1>\n\n",
    r"<reply>?<id>_no\n\n",
    r"<reply>\n\n=99\n\n",
    r"<reply>hello",
    r"<reply>\x01!",
]
# A reply, and at once the front of another, which the next reply continues.
FRONTS = [
    r"<reply>=",
    r"<reply>?",
    r"<reply>=_x\n",
    r"<reply>=<id+1>",
    r"<reply>?<id+1>",
    r"<reply>=<id+1>_",
    r"<reply>_\n=",
]
ANY = [JUNK, HARMLESS, WORDY, STRANGE_IDS, REFUSALS, LONG, MORE, FRONTS]

# ---- in place of one reply

# To a genmove.
MOVES = [
    *answers("resign", "RESIGN", "Resign_", "rEsIgN", "resign_resign", "resigns"),
    *answers("pass", "PASS", "pAsS", "pass_pass", "<text>_#"),
    *answers("<old>", "<old>", "<off>", "<fresh>", "a1", "Z25", "I5", "i1", "A0", "A01", "A26"),
    *answers("A1_B2", r"A1\nB2", r"A1\x2c", "b_A1", r"_\t", "#"),
    r"=<id>\n\n",
    r"=<id>A1\n\n",
    r"=<id>resign\n\n",
    r"=<id>\n\n=<id>_A1\n\n",
    r"<reply>=<id+1>\n\n",
]
# To a genmove too: the engine closes its input before it replies. Nothing else is on its way then.
SHUT = Deed("<reply>", SHUTS)
# .. and writes the front of another reply besides.
SHUT_AND_MORE = [SHUT, Deed("<reply>=", SHUTS), Deed(r"<reply>\n_=", SHUTS)]
# To the last move, which the other side made: it is refused at each of these plays, one after the
# other. The engine doesn't do it.
ROWS = [["p1", "p2", "p3"], ["p1-2", "p2-3"], ["p1-3", "p2-4"], ["p1-4", "p2-5"], ["p1-2000"]]
# To the last move too: it is refused, and more follows at once than was asked for, or the front of
# a reply, or nothing more at all.
REFUSED_AND_MORE = [
    *deeds(r"?<id>_no\n\nhello", r"?<id>_no\n\n=\n\n", r"?<id>_no\n\n?<id>_no\n\n"),
    *deeds(r"?<id>_no\n\n=<id+1>\n\n", r"?<id>_no\n\n="),
    Deed(r"?<id>_no\n\n", ENDS),
    Deed(r"?<id>_no\n\n", CLOSES),
]
# The same, where the same read loses the engine.
REFUSED_AND_LOST = deeds(r"?<id>_no\n\nhello", r"?<id>_no\n\n=<id>\n\n", r"\n?<id>\n\n_!")
# To an undo, besides the endings.
UNDOES = [
    *(Deed(refusal, REFUSES) for refusal in REFUSALS),
    *deeds(r"hello\n\n", r"<id>_ok\n\n", r"=<id-1>\n\n", r"=\n\n", r"?<id+1>_no\n\n", r"?_no\n\n"),
    *deeds(r"=<id>_as_you_like\n\n", r"\r\n_=00<id>\n\n"),
    *deeds("<reply><reply>", "<reply>=", r"<8193*\n>"),
    SHUT,
]
# To a handicap: right answers, and wrong ones.
STONES = [
    *answers("<reversed>", "<reversed>", "<lines>", "<lower>", r"_\t<text>_"),
    *answers("<text>_A1", "<text>_<text>", "<text>_pass", r"<lines>\nC3", r"<text>\x2c", "<old>"),
    *answers("C3_C3", "pass", "A1"),
    r"=<id>\n\n",
    r"=<id><text>\n\n",
]
# To quit, when the match is over.
QUITS = [
    *(Deed(template, then) for template in ("", "<reply>") for then in (ENDS, CLOSES)),
    Deed("=1", ENDS),
    *deeds(r"hello\n", r"?_no\n\n", r"<8193*\n>", "<reply><reply>"),
]
# Before the first command.
GREETINGS = [
    Deed("", ENDS),
    Deed("", CLOSES),
    *deeds(r"\n_\r\n", r"=\n\n", r"=1\n\n", r"=2\n\n", r"?1_no\n\n", "=", "=1"),
    *deeds(r"hello\n", "#", r"<8193*\n>"),
]

# ---- how an engine writes all of its replies

STYLES = [
    r"=<id>_<text>\r\n\r\n",
    r"=00<id>_<lower>\n\n",
    r"=<id>\t<text>_\n\n",
    r"=<id><text>\n\n",
    r"=<id>\n<text>\n\n",
    r"\n_<reply>",
    r"\x07<reply>\x7f",
    r"<reply>\n\n\n",
]
# With bytes before and after each reply, as many as make the longer replies too long.
LONG_STYLES = [
    r"<%d*\n><reply><%d*\n>",
    r"<%d*\x01><reply><%d*_>",
    r"<%d*_><reply><%d*\t>",
    r"<%d*\n><reply><%d*\x00>",
]
