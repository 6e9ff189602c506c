"""Numbers of the library, each with its explanation.

They are why a call is rejected, why a side fails, and how a match ends.
library/declare writes this module. Names are those of vintsaky.h without the prefix."""
from enum import IntEnum

from ._library import Explained


class Cause(Explained):
    """Why a call is rejected: its error.

    DONE: No error.
    BAD_COLOUR: Not a colour or side: use 1 (Black) or 2 (White).
    BAD_VERTEX: Not a vertex: use 256 times the row plus the column, each 1 to 25, or 0 (a pass)
        where allowed.
    BAD_RULE: Not a ko rule: use 1 (simple ko) or 2 (positional superko).
    BAD_SIZE: The size must be 1 to 25.
    BAD_KOMI: The komi must be -1,999,999,999 to 1,999,999,999 half points.
    BAD_TEXT: The text can't be parsed, or isn't allowed in a reply.
    NO_ROOM: A buffer or array is shorter than the call needs.
    FULL: The record is full: it has 2,000 moves, the maximum.
    OFF_BOARD: The point isn't on a board of this size.
    OCCUPIED: A stone is on the point.
    SUICIDE: The new stone's chain would have no liberty.
    KO: The move would repeat a board that the ko rule forbids.
    NOTHING_TO_UNDO: The record has no move to undo.
    NOT_EMPTY: The board and the record must be empty.
    BAD_HANDICAP: Odd sizes from 9 allow 2 to 9 stones, 7 and even sizes from 8 allow 2 to 4; never
        a negative number.
    NO_MOVE: The record has no move with this number, counted from 0.
    NO_STONE: No stone is on the point.
    NOT_ASKED: The engine is waiting for nothing, or for something that this call doesn't supply.
    NO_WORD: The line has no word with this number, counted from 0 after the id.
    NO_ID: The line or the reply has no id.
    BAD_LENGTH: A name must have 1 to 32 bytes.
    BAD_BYTE: A name may have only bytes 33 to 126, except #.
    ONLY_DIGITS: A name can't have only digits, as an id has.
    IN_TABLE: The protocol already has a command of this name.
    ADDED_BEFORE: A custom command of this name was already added.
    TOO_MANY: The engine already has 32 custom commands, the maximum.
    BAD_MAX_MOVES: The move limit must be 1 to 2,000.
    BAD_MAX_RESTARTS: The restart limit must be 0 to 1,000.
    NOT_NEXT: Not the call that the match expects next.
    NOT_OVER: The match is not over yet.
    NO_LINE: No command line was read, or the last one was too long.
    BAD_COMMAND: Not a command: use 1 to 8.
    BAD_ID: The id must be 0 to 2,147,483,647, or -1 for none.
    DOWN: The side isn't up (it was not started, or it went down), or the match is over.
    IS_OVER: The match is already over.
    BAD_REASON: A reason must be empty (loss on time), or 1 to 20 letters (a-z, A-Z) and spaces; not
        a forfeit's cause.
    """

    DONE = 0
    BAD_COLOUR = 1
    BAD_VERTEX = 2
    BAD_RULE = 3
    BAD_SIZE = 4
    BAD_KOMI = 5
    BAD_TEXT = 6
    NO_ROOM = 7
    FULL = 8
    OFF_BOARD = 9
    OCCUPIED = 10
    SUICIDE = 11
    KO = 12
    NOTHING_TO_UNDO = 13
    NOT_EMPTY = 14
    BAD_HANDICAP = 15
    NO_MOVE = 16
    NO_STONE = 17
    NOT_ASKED = 18
    NO_WORD = 19
    NO_ID = 20
    BAD_LENGTH = 21
    BAD_BYTE = 22
    ONLY_DIGITS = 23
    IN_TABLE = 24
    ADDED_BEFORE = 25
    TOO_MANY = 26
    BAD_MAX_MOVES = 27
    BAD_MAX_RESTARTS = 28
    NOT_NEXT = 29
    NOT_OVER = 30
    NO_LINE = 31
    BAD_COMMAND = 32
    BAD_ID = 33
    DOWN = 34
    IS_OVER = 35
    BAD_REASON = 36


class Loss(IntEnum):
    """Why a side fails by its output.

    NO_STATUS: What it wrote isn't a reply: it begins with neither = nor ?. It goes down.
    OVERLONG: More than 8,192 bytes came since its last reply. It goes down.
    WRONG_ID: The reply doesn't have the id of the oldest unanswered command. It goes down.
    UNASKED: A reply came when no command was unanswered. It goes down.
    UNFIT: It failed at a setup command, or placed other handicap stones. It is unfit.
    REFUSES_PLAY: It refused a play that isn't retaken. It forfeits.
    KEEPS_MOVE: It didn't undo its move, which the other side refused. The other side forfeits.
    NO_MOVE: It failed at a genmove. It forfeits.
    NO_VERTEX: Its answer to a genmove is neither a vertex nor a resignation. It forfeits.
    FULL: Its move is illegal: the record is full. It forfeits.
    OFF_BOARD: Its move is illegal: the point isn't on the board. It forfeits.
    OCCUPIED: Its move is illegal: a stone is on the point. It forfeits.
    SUICIDE: Its move is illegal: suicide. It forfeits.
    KO: Its move is illegal: ko. It forfeits.
    """

    NO_STATUS = 1
    OVERLONG = 2
    WRONG_ID = 3
    UNASKED = 4
    UNFIT = 5
    REFUSES_PLAY = 6
    KEEPS_MOVE = 7
    NO_MOVE = 8
    NO_VERTEX = 9
    FULL = 10
    OFF_BOARD = 11
    OCCUPIED = 12
    SUICIDE = 13
    KO = 14


class Ending(IntEnum):
    """How a match ended.

    BY_SCORE: two passes ended the game
    BY_RESIGNATION: the side resigned
    BY_LIMIT: the record has as many moves as the match allows
    BY_REFUSED_PLAY: the side refused a play that isn't retaken, or that the other side didn't undo:
        it forfeits
    BY_NO_MOVE: the side failed at a genmove: it forfeits
    BY_NO_VERTEX: the side answered a genmove by what is neither a vertex nor a resignation: it
        forfeits
    BY_ILLEGAL_MOVE: the side answered a genmove by an illegal move: it forfeits
    BY_UNFIT: the side failed at a setup command, or placed other handicap stones: it is unfit
    BY_ABANDONED: the side went down too often
    BY_TIME: the side lost on time, by a ruling
    BY_RULING: the side lost by a ruling with a reason
    """

    BY_SCORE = 1
    BY_RESIGNATION = 2
    BY_LIMIT = 3
    BY_REFUSED_PLAY = 4
    BY_NO_MOVE = 5
    BY_NO_VERTEX = 6
    BY_ILLEGAL_MOVE = 7
    BY_UNFIT = 8
    BY_ABANDONED = 9
    BY_TIME = 10
    BY_RULING = 11
