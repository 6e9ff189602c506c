"""Which lessons notice the bugs of tests/engines/wrong, and which bugs nothing notices.

Most rows were worked out from the bug's source and from the tables of the lessons, in
crates/gtp_check_course/src, before a check was run. A bug that the course notices is in OTHERS with
the lessons that notice it, unless those of its subject do. A bug that the course doesn't notice is
in UNNOTICED with the reason.
"""
from __future__ import annotations

from typing import Dict, Tuple

Lessons = Tuple[str, ...]

# the lesson about a subject
SUBJECTS: Dict[str, Lessons] = {
    "replies": ("start",),
    "errors": ("errors",),
    "ids": ("start",),
    "lines": ("start",),
    "sizes": ("sizes",),
    "komi": ("komi",),
    "captures": ("captures",),
    "ko": ("ko",),
    "suicide": ("suicide",),
    "turns": ("start",),
    "undo": ("ko",),
    "handicap": ("handicaps",),
    # also of a point that is written as another one: on a full board that has a stone
    "genmove": ("genmoves",),
    "records": ("record",),
    "games": ("handicaps",),
    "restarts": ("restarts",),
}

# the bugs that other lessons notice
OTHERS: Dict[Lessons, Tuple[str, ...]] = {
    ("start",): (
        # what every probe takes back
        "nothing_is_taken_back empty_record_is_undone genmoves_stay refused_play_is_undone",
        "chosen_move_is_not_made byte_order_mark greeting first_read_is_lost",
        "first_genmove_is_of_19 undo_needs_a_genmove",
        # after a restart: a probe of the point of a ko, and an `undo` before any move
        "old_ko_stays old_moves_are_undone game_is_resumed_at_its_first_move",
    ),
    ("start", "sizes"): ("old_colour_stays book_has_no_sizes",),
    ("placed",): (
        # the stone of a move that was chosen is surrounded, and is captured or isn't
        "stone_by_turn no_colour_is_read first_stone_is_blacks handicap_makes_the_engine_white",
    ),
    ("errors",): (
        "no_reply_to_an_unknown_command unknown_is_a_failure unread_komi_is_zero",
        # a size that is no number is refused, and clears the board
        "refused_size_clears_the_board",
        # the line that asks whether a command is known that no engine has
        "lines_of_thirty_one",
    ),
    ("sizes",): (
        # ids of three digits: so many commands has one engine in this lesson
        "ids_are_bytes",
        # each point of a board, one after the other, and moves of the engine's own on it
        "every_second_stone_is_taken nothing_below_is_taken chain_joins_itself",
        "taken_stones_are_bytes undo_plays_in_turns chosen_point_stays_taken",
        "undo_gives_no_room_back marks_are_bytes log_of_4096_lines chains_of_361",
        "two_moves_are_taken_back",
        # two passes on 1x1, and the first `undo` after them
        "last_pass_stays",
        "komi_of_zero_is_unread regions_are_filled_by_recursion result_comes_after_two_passes",
        # on 1x1 the middle is no move, and no point can be drawn
        "first_move_is_the_middle last_draw_is_played chosen_pass_is_a_point",
        # 9x9 comes after 1x1, which has no neighbours
        "tables_of_another_size neighbours_are_kept room_of_the_first_size",
        # full boards of 19x19 and more, and points past 255 that are taken back
        "search_has_room_for_sixteen_points moves_are_bytes",
    ),
    ("komi",): (
        "score_runs_into_the_id prisoners_stay_at_undo undo_sets_komi_back",
        "prisoners_of_the_game_before",
        # a score after a handicap
        "handicap_sets_komi points_for_a_handicap_stay",
    ),
    ("captures",): (
        "note_at_a_capture capture_is_suicide atari_is_no_suicide",
        "last_taken_chain_comes_back",
        # a chain gets a liberty by a capture, and a play is legal that was suicide before
        "suicide_is_noted",
        # legal retakes
        "ko_after_a_chain ko_after_two_stones",
        # the capture of two stones, and its `undo`
        "one_captured_stone_comes_back prisoners_allow_suicide",
        # ids of more than 32,767: so many commands has one engine in this lesson
        "ids_are_shorts",
    ),
    ("joining",): (
        "joined_chain_counts_twice",
        # refused as suicide, and legal
        "joining_is_suicide far_liberties_are_forgotten eye_is_suicide",
    ),
    ("ko",): (
        # ids of four digits
        "ids_have_three_digits ids_have_commas",
        # refused as suicide, and legal
        "one_liberty_is_suicide first_neighbour_decides",
        "both_chains_die shared_liberty_counts_once colours_by_turn",
        "ko_stays stones_of_the_game_before taken_stones_of_the_game_before",
        "boards_of_earlier_games",
        # where hardly a point is legal
        "takes_ko_back_after_undo",
    ),
    ("handicaps",): (
        # on 23x23 U20 has a stone of a handicap, and is probed
        "tt_is_a_pass",
        "rows_are_one_character rows_are_sixteen_apart white_begins_with_a_handicap",
        "first_move_is_the_middle_of_a_handicap",
        # right after a handicap there is no move to undo
        "handicap_is_undone undo_forgets_the_handicap passes_stay_at_undo",
        # scores of each size, by many komis
        "score_has_a_comma even_score_is_a_word",
    ),
    ("genmoves",): (
        # the third of five genmoves is of the colour that moved last
        "genmove_out_of_turn",
        # after a full board with three gaps, which are filled before the next move is asked for
        "choice_of_the_game_before",
        # it takes a ko itself, where it has four points to choose from
        "ko_after_a_genmove",
    ),
    ("record",): ("two_passes_end_the_game",),
    ("restarts",): (
        "ko_is_compared_by_is",
        # a genmove after 60 drawn moves on 5x5
        "points_twice",
    ),
    ("games",): ("ends_at_the_third_game colour_of_the_first_genmove",),
    # random games: long chains and play between them, two boards with equal counts, more than eight
    # boards, a board with other colours, a probe after 100 moves; the second size is smaller than
    # the first
    ("drawn",): (
        "sixteen_stones_at_most liberties_have_four_bits names_of_taken_stones_stay",
        "third_chain_is_not_joined taken_chain_gives_one_liberty eight_boards_alone",
        "ko_of_equal_counts third_time_is_refused hash_ignores_colours ko_outlives_a_second_move",
        "refused_suicide_takes_liberties chain_numbers_are_bytes first_of_a_block_stays",
        "edges_of_a_larger_board",
        # passes in a row, and many boards under positional ko
        "dead_stones_go_after_two_passes numbers_of_fifteen_bits",
    ),
}
# bugs that are noticed by chance, as checks have shown
CHANCE: Dict[Lessons, Tuple[str, ...]] = {
    # A chain is captured that has two stones at the play, and later the engine chooses one of its
    # points twice.
    ("genmoves",): ("empty_points_are_listed_twice",),
}
NOTICED = {
    name: lessons
    for rows in (OTHERS, CHANCE)
    for lessons, names in rows.items()
    for name in " ".join(names).split()
}

NOT_SENT = "no command is written in that form"
KEPT_IN_PART = "an engine may keep only a part of the history, which undos in a row use up"
WITHIN_A_UNIT = "its scores contradict each other by no more than one unit of their last digit"
# bugs that the course doesn't notice, and why
UNNOTICED = {
    "whole_komi_alone": WITHIN_A_UNIT,
    "komi_of_four_characters": WITHIN_A_UNIT,
    "empty_board_is_blacks": "a score of an empty board is an opinion",
    "score_has_six_digits": "a score may end with an exponent",
    "quit_has_no_reply": "the answer to `quit` isn't judged",
    "known_is_yes": "any success of `known_command` is right",
    "letters_of_any_case": NOT_SENT,
    "id_of_zero_is_none": "ids begin with 1",
    "ids_are_its_own_count": "ids go up by one from 1, so that is right here",
    "id_stays": "each command has an id",
    "comment_is_a_word": NOT_SENT,
    "comment_has_a_reply": NOT_SENT,
    "blank_line_has_a_reply": NOT_SENT,
    "cr_stays": NOT_SENT,
    "control_characters_stay": NOT_SENT,
    "tab_is_no_space": NOT_SENT,
    "spaces_before_a_line": NOT_SENT,
    "capital_colours_are_unread": NOT_SENT,
    "small_vertices_are_unread": NOT_SENT,
    "capital_pass_is_unread": NOT_SENT,
    "refused_size_counts": "it takes each size that is asked",
    "even_score_has_a_colour": "`B+0` is the number 0",
    "ids_are_floats": "ids stay below 16777217",
    "komi_is_a_single": "each komi that is sent is a float of 32 bits, as in the standard",
    "lead_is_a_byte": "only scores of empty boards are asked",
    "quit_is_not_known": "the answer to `quit` isn't judged",
    "known_by_its_beginning": "any success of `known_command` is right",
    "two_passes_end_the_choice": "no `genmove` is asked after two passes",
    "moves_taken_back_fill_a_list": KEPT_IN_PART,
    "undo_once": KEPT_IN_PART,
    "eight_moves_are_kept": KEPT_IN_PART,
    "ko_forgotten_at_a_suicide": "no ko is open where a suicide is asked",
    "games_are_counted_in_a_byte": "there was another stone since that of 256 games before",
    "stones_on_lines_of_their_own": "the points of a handicap are read from all lines of the reply",
}

# bugs that make an engine wait for more input before it answers, so that `timeout` has to end it
WAITING = {
    "one_newline",
    "one_newline_where_there_is_no_text",
    "second_line_of_a_read_is_lost",
    "first_read_is_lost",
    "replies_are_held",
}
# Bugs whose answers depend on how the commands are cut into reads, on earlier processes, or on the
# depth of the stack. Pasted into another process, their conversation may be answered otherwise.
NOT_PASTED = {
    *WAITING,
    # what is shown is the reply to a command that was sent ahead
    "no_reply_to_an_unknown_command",
    *("reads_of_sixty_four", "id_of_the_last_line_of_a_read", "last_line_of_a_read_is_first"),
    *("trial_is_over", "note_after_a_crash", "eleventh_start_fails"),
    *("old_game_is_a_book", "old_game_comes_back", "old_board_comes_back_at_undo"),
    *("old_moves_are_undone", "old_ko_stays", "game_is_resumed_at_its_first_move"),
    *("old_colour_stays", "book_has_no_sizes", "regions_are_filled_by_recursion"),
}


def lessons_of(name: str, subject: str) -> Lessons:
    """Returns the lessons that notice a bug."""
    return NOTICED.get(name, SUBJECTS[subject])
