"""The constants of vintsaky.h, its handles, and the table of its calls.

library/declare writes this module. Names are those of vintsaky.h without the prefix; only calls
keep their whole names."""
import ctypes
from ctypes import POINTER, c_char, c_char_p, c_void_p
from ctypes import c_bool, c_float, c_int32, c_size_t, c_uint8, c_uint32, c_uint64
from typing import Any, Dict, Tuple

INTERFACE = 1
VERSION = 0x010000
BLACK = 1
WHITE = 2
SIMPLE = 1
POSITIONAL = 2
PASS = 0
MORE = 0
OTHER = 3
REPLY = 4
ENDED = 5
START = 1
SEND = 2
WAIT = 3
OVER = 4
BOARDSIZE = 1
KOMI = 2
CLEAR_BOARD = 3
FIXED_HANDICAP = 4
PLAY = 5
GENMOVE = 6
UNDO = 7
QUIT = 8
LINE = 1
TOO_LONG = 2
READ = 1
NO_REPLY = 2
LONG_REPLY = 3
RESIGN = 65535


class GameHandle(ctypes.Structure):
    """The handle of a game: its address."""

    _fields_ = [("at", c_void_p)]


class EngineHandle(ctypes.Structure):
    """The handle of a sans-IO engine."""

    _fields_ = [("at", c_void_p)]


class MatchHandle(ctypes.Structure):
    """The handle of a match."""

    _fields_ = [("at", c_void_p)]


class LinesHandle(ctypes.Structure):
    """The handle of a reader of command lines."""

    _fields_ = [("at", c_void_p)]


class RepliesHandle(ctypes.Structure):
    """The handle of a reader of replies."""

    _fields_ = [("at", c_void_p)]


# Each call of vintsaky.h: the type of its result, and those of its arguments. Texts that are read
# are c_char_p, bytes are c_void_p, and texts that are written are POINTER(c_char).
CALLS: Dict[str, Tuple[Any, Tuple[Any, ...]]] = {
    "vintsaky_interface_1": (None, ()),
    "vintsaky_version": (c_uint32, ()),
    "vintsaky_cause_text": (c_size_t, (c_uint32, POINTER(c_char), c_size_t)),
    "vintsaky_read_colour": (c_uint32, (c_char_p, c_size_t, POINTER(c_uint32))),
    "vintsaky_colour_text": (c_uint32, (c_uint32, POINTER(c_char), c_size_t, POINTER(c_size_t))),
    "vintsaky_point": (c_uint32, (c_uint32, c_uint32, POINTER(c_uint32))),
    "vintsaky_read_vertex": (c_uint32, (c_char_p, c_size_t, POINTER(c_uint32))),
    "vintsaky_vertex_text": (c_uint32, (c_uint32, POINTER(c_char), c_size_t, POINTER(c_size_t))),
    "vintsaky_read_komi": (c_uint32, (c_char_p, c_size_t, POINTER(c_int32))),
    "vintsaky_komi_text": (c_uint32, (c_int32, POINTER(c_char), c_size_t, POINTER(c_size_t))),
    "vintsaky_write_command": (
        c_uint32,
        (c_int32, c_uint32, c_int32, c_uint32, POINTER(c_char), c_size_t, POINTER(c_size_t)),
    ),
    "vintsaky_write_reply": (
        c_uint32,
        (c_int32, c_uint32, c_char_p, c_size_t, POINTER(c_char), c_size_t, POINTER(c_size_t)),
    ),
    "vintsaky_game_place": (None, (POINTER(GameHandle), c_void_p)),
    "vintsaky_game_bytes": (c_size_t, ()),
    "vintsaky_game_align": (c_size_t, ()),
    "vintsaky_game_size": (c_uint32, (POINTER(GameHandle),)),
    "vintsaky_game_komi": (c_int32, (POINTER(GameHandle),)),
    "vintsaky_game_handicap": (c_uint32, (POINTER(GameHandle),)),
    "vintsaky_game_turn": (c_uint32, (POINTER(GameHandle),)),
    "vintsaky_game_length": (c_size_t, (POINTER(GameHandle),)),
    "vintsaky_game_score": (c_int32, (POINTER(GameHandle),)),
    "vintsaky_game_finished": (c_bool, (POINTER(GameHandle),)),
    "vintsaky_game_hash": (c_uint64, (POINTER(GameHandle),)),
    "vintsaky_game_copy": (None, (POINTER(GameHandle), POINTER(GameHandle))),
    "vintsaky_game_begin": (c_uint32, (POINTER(GameHandle), c_uint32, c_uint32, c_int32)),
    "vintsaky_game_play": (c_uint32, (POINTER(GameHandle), c_uint32, c_uint32)),
    "vintsaky_game_legal": (c_uint32, (POINTER(GameHandle), c_uint32, c_uint32)),
    "vintsaky_game_undo": (c_uint32, (POINTER(GameHandle),)),
    "vintsaky_game_set_komi": (c_uint32, (POINTER(GameHandle), c_int32)),
    "vintsaky_game_place_handicap": (c_uint32, (POINTER(GameHandle), c_uint32)),
    "vintsaky_game_legal_points": (
        c_uint32,
        (POINTER(GameHandle), c_uint32, POINTER(c_uint32), c_size_t, POINTER(c_size_t)),
    ),
    "vintsaky_game_taken_by_last_move": (
        c_size_t,
        (POINTER(GameHandle), POINTER(c_uint32), c_size_t),
    ),
    "vintsaky_game_stone_at": (c_uint32, (POINTER(GameHandle), c_uint32, POINTER(c_uint32))),
    "vintsaky_game_chain": (
        c_uint32,
        (POINTER(GameHandle), c_uint32, POINTER(c_uint32), POINTER(c_uint32)),
    ),
    "vintsaky_game_made": (
        c_uint32,
        (POINTER(GameHandle), c_size_t, POINTER(c_uint32), POINTER(c_uint32)),
    ),
    "vintsaky_game_captured": (c_uint32, (POINTER(GameHandle), c_uint32, POINTER(c_uint32))),
    "vintsaky_game_rule": (c_uint32, (POINTER(GameHandle),)),
    "vintsaky_game_board_text": (c_size_t, (POINTER(GameHandle), POINTER(c_char), c_size_t)),
    "vintsaky_game_index": (c_uint32, (POINTER(GameHandle), c_uint32, POINTER(c_size_t))),
    "vintsaky_game_point_at": (c_uint32, (POINTER(GameHandle), c_size_t, POINTER(c_uint32))),
    "vintsaky_game_board": (c_size_t, (POINTER(GameHandle), POINTER(c_uint8), c_size_t)),
    "vintsaky_game_legal_mask": (
        c_uint32,
        (POINTER(GameHandle), c_uint32, POINTER(c_uint8), c_size_t, POINTER(c_size_t)),
    ),
    "vintsaky_game_is_own_eye": (
        c_uint32,
        (POINTER(GameHandle), c_uint32, c_uint32, POINTER(c_uint32)),
    ),
    "vintsaky_game_chain_points": (
        c_uint32,
        (POINTER(GameHandle), c_uint32, POINTER(c_uint32), c_size_t, POINTER(c_size_t)),
    ),
    "vintsaky_game_chain_liberties": (
        c_uint32,
        (POINTER(GameHandle), c_uint32, POINTER(c_uint32), c_size_t, POINTER(c_size_t)),
    ),
    "vintsaky_game_ko_point": (c_uint32, (POINTER(GameHandle), c_uint32, POINTER(c_uint32))),
    "vintsaky_game_random_move": (
        c_uint32,
        (POINTER(GameHandle), c_uint32, c_uint64, POINTER(c_uint32)),
    ),
    "vintsaky_game_position_hash": (c_uint32, (POINTER(GameHandle), c_uint32, POINTER(c_uint64))),
    "vintsaky_game_playout": (c_uint32, (POINTER(GameHandle), c_uint32, c_uint64, c_uint32)),
    "vintsaky_game_rollout": (
        c_uint32,
        (POINTER(GameHandle), c_uint32, c_uint64, c_uint32, POINTER(c_int32)),
    ),
    "vintsaky_games_play": (
        c_uint32,
        (POINTER(GameHandle), c_size_t, POINTER(c_uint32), c_size_t, POINTER(c_uint8), c_size_t),
    ),
    "vintsaky_games_restart": (
        c_uint32,
        (
            POINTER(GameHandle),
            c_size_t,
            c_uint32,
            POINTER(c_uint8),
            c_size_t,
            POINTER(c_int32),
            c_size_t,
        ),
    ),
    "vintsaky_games_planes": (
        c_uint32,
        (POINTER(GameHandle), c_size_t, c_uint32, POINTER(c_uint8), c_size_t),
    ),
    "vintsaky_games_planes_f32": (
        c_uint32,
        (POINTER(GameHandle), c_size_t, c_uint32, POINTER(c_float), c_size_t),
    ),
    "vintsaky_games_masks": (c_uint32, (POINTER(GameHandle), c_size_t, POINTER(c_uint8), c_size_t)),
    "vintsaky_games_masks_f32": (
        c_uint32,
        (POINTER(GameHandle), c_size_t, POINTER(c_float), c_size_t),
    ),
    "vintsaky_games_rollouts": (
        c_uint32,
        (
            POINTER(GameHandle),
            c_size_t,
            POINTER(c_uint64),
            c_size_t,
            c_uint32,
            POINTER(c_int32),
            c_size_t,
        ),
    ),
    "vintsaky_engine_place": (None, (POINTER(EngineHandle), c_void_p)),
    "vintsaky_engine_bytes": (c_size_t, ()),
    "vintsaky_engine_align": (c_size_t, ()),
    "vintsaky_engine_ended": (c_bool, (POINTER(EngineHandle),)),
    "vintsaky_engine_begin": (c_uint32, (POINTER(EngineHandle), c_uint32)),
    "vintsaky_engine_feed": (
        c_uint32,
        (POINTER(EngineHandle), c_void_p, c_size_t, POINTER(c_size_t)),
    ),
    "vintsaky_engine_wait": (c_uint32, (POINTER(EngineHandle),)),
    "vintsaky_engine_choose": (c_uint32, (POINTER(EngineHandle), c_uint32)),
    "vintsaky_engine_answer": (c_uint32, (POINTER(EngineHandle), c_uint32, c_char_p, c_size_t)),
    "vintsaky_engine_decline": (c_uint32, (POINTER(EngineHandle),)),
    "vintsaky_engine_set_name": (c_uint32, (POINTER(EngineHandle), c_char_p, c_size_t)),
    "vintsaky_engine_set_version": (c_uint32, (POINTER(EngineHandle), c_char_p, c_size_t)),
    "vintsaky_engine_add_command": (c_uint32, (POINTER(EngineHandle), c_char_p, c_size_t)),
    "vintsaky_engine_copy_game": (None, (POINTER(EngineHandle), POINTER(GameHandle))),
    "vintsaky_engine_reply": (c_size_t, (POINTER(EngineHandle), POINTER(c_char), c_size_t)),
    "vintsaky_engine_word": (
        c_uint32,
        (POINTER(EngineHandle), c_size_t, POINTER(c_char), c_size_t, POINTER(c_size_t)),
    ),
    "vintsaky_engine_id": (c_uint32, (POINTER(EngineHandle), POINTER(c_uint32))),
    "vintsaky_match_place": (None, (POINTER(MatchHandle), c_void_p)),
    "vintsaky_match_bytes": (c_size_t, ()),
    "vintsaky_match_align": (c_size_t, ()),
    "vintsaky_match_begin": (
        c_uint32,
        (POINTER(MatchHandle), c_uint32, c_int32, c_uint32, c_uint32, c_uint32),
    ),
    "vintsaky_match_next": (c_uint32, (POINTER(MatchHandle), POINTER(c_uint32))),
    "vintsaky_match_started": (c_uint32, (POINTER(MatchHandle), c_uint32)),
    "vintsaky_match_send": (
        c_uint32,
        (POINTER(MatchHandle), c_uint32, POINTER(c_char), c_size_t, POINTER(c_size_t)),
    ),
    "vintsaky_match_hear": (
        c_uint32,
        (POINTER(MatchHandle), c_uint32, c_void_p, c_size_t, POINTER(c_uint32)),
    ),
    "vintsaky_match_hear_reporting": (
        c_uint32,
        (
            POINTER(MatchHandle),
            c_uint32,
            c_void_p,
            c_size_t,
            POINTER(c_uint32),
            POINTER(c_uint32),
            POINTER(c_uint32),
            POINTER(c_char),
            c_size_t,
            POINTER(c_size_t),
            POINTER(c_char),
            c_size_t,
            POINTER(c_size_t),
        ),
    ),
    "vintsaky_match_owed": (
        c_uint32,
        (
            POINTER(MatchHandle),
            c_uint32,
            POINTER(c_uint32),
            POINTER(c_char),
            c_size_t,
            POINTER(c_size_t),
            POINTER(c_char),
            c_size_t,
            POINTER(c_size_t),
        ),
    ),
    "vintsaky_match_status": (
        c_uint32,
        (POINTER(MatchHandle), c_uint32, POINTER(c_uint32), POINTER(c_uint32), POINTER(c_uint32)),
    ),
    "vintsaky_match_lost": (c_uint32, (POINTER(MatchHandle), c_uint32)),
    "vintsaky_match_in_step": (c_uint32, (POINTER(MatchHandle), c_uint32, POINTER(c_uint32))),
    "vintsaky_match_restarts": (c_uint32, (POINTER(MatchHandle), c_uint32, POINTER(c_uint32))),
    "vintsaky_match_retakes": (c_uint32, (POINTER(MatchHandle), c_uint32)),
    "vintsaky_match_taking_back": (c_uint32, (POINTER(MatchHandle),)),
    "vintsaky_match_verdict": (
        c_uint32,
        (POINTER(MatchHandle), POINTER(c_uint32), POINTER(c_uint32), POINTER(c_int32)),
    ),
    "vintsaky_match_copy_game": (None, (POINTER(MatchHandle), POINTER(GameHandle))),
    "vintsaky_match_result": (
        c_uint32,
        (POINTER(MatchHandle), c_uint32, POINTER(c_char), c_size_t, POINTER(c_size_t)),
    ),
    "vintsaky_match_record": (c_size_t, (POINTER(MatchHandle), POINTER(c_char), c_size_t)),
    "vintsaky_match_adjudicate": (c_uint32, (POINTER(MatchHandle), c_uint32, c_char_p, c_size_t)),
    "vintsaky_match_reason": (c_size_t, (POINTER(MatchHandle), POINTER(c_char), c_size_t)),
    "vintsaky_lines_place": (None, (POINTER(LinesHandle), c_void_p)),
    "vintsaky_lines_bytes": (c_size_t, ()),
    "vintsaky_lines_align": (c_size_t, ()),
    "vintsaky_lines_feed": (
        c_uint32,
        (POINTER(LinesHandle), c_void_p, c_size_t, POINTER(c_size_t)),
    ),
    "vintsaky_lines_id": (c_uint32, (POINTER(LinesHandle), POINTER(c_uint32))),
    "vintsaky_lines_word": (
        c_uint32,
        (POINTER(LinesHandle), c_size_t, POINTER(c_char), c_size_t, POINTER(c_size_t)),
    ),
    "vintsaky_replies_place": (None, (POINTER(RepliesHandle), c_void_p)),
    "vintsaky_replies_bytes": (c_size_t, ()),
    "vintsaky_replies_align": (c_size_t, ()),
    "vintsaky_replies_feed": (
        c_uint32,
        (POINTER(RepliesHandle), c_void_p, c_size_t, POINTER(c_size_t)),
    ),
    "vintsaky_replies_ok": (c_bool, (POINTER(RepliesHandle),)),
    "vintsaky_replies_id": (c_uint32, (POINTER(RepliesHandle), POINTER(c_uint32))),
    "vintsaky_replies_text": (c_size_t, (POINTER(RepliesHandle), POINTER(c_char), c_size_t)),
}
