/* vintsaky.h: the rules of Go, the controller of a match and the engine of the Go Text Protocol, as a library.
 *
 * Each object lies in memory that the caller provides, with at least the size and the alignment that its _bytes and _align return. The
 * memory must be the object's alone. While the object is used, neither the memory nor the handle may move. Don't copy a handle. Place
 * an object before you use it. You may place it again, and needn't destroy it. Only one thread at a time may use an object. It may be
 * another thread each time, if something orders the uses, as a lock does.
 *
 * No pointer may be NULL, even if the length or the _room that belongs to it is 0. A pointer with a length or a _room must lead to at
 * least that many bytes or items. What the pointers of one call lead to (objects, handles, buffers, numbers) must not overlap; only
 * vintsaky_game_copy may be given one game twice. All other arguments may have any value. No call allocates memory, blocks, or reads or
 * writes anything except its object and the caller's buffers. A call of a match needs at most 320 kB of stack, and any other call at
 * most 160 kB.
 *
 * A call that can be rejected returns 0 if it was done, and otherwise an error. If several errors apply, it returns the first of them,
 * in the order in which its comment lists the errors. After an error the object is unchanged, and nothing was written. A text is
 * written with a NUL after it if the buffer has space for both, and otherwise not at all. Its length, without the NUL, is returned or
 * written in both cases, so you can repeat a call that only reads with a larger buffer. So a short buffer is no error, except in
 * vintsaky_match_send, whose command would be lost, and in the calls over many games. A text that has what an engine wrote may itself
 * contain a NUL. */

/* Written by library/declare from the comments of the exports in crates/vintsaky/src and from vintsaky.h.in: edit those. */
#ifndef VINTSAKY_H
#define VINTSAKY_H

#include <stdbool.h>
#include <stddef.h>
#include <stdint.h>
#include <stdlib.h>

#ifdef __cplusplus
extern "C" {
#endif

/* The number of the interface. A program can be linked only with a library of the same number: each file that includes this header
 * refers to vintsaky_interface_1, which a library of another number doesn't have. */
#define VINTSAKY_INTERFACE 1
void vintsaky_interface_1(void);
#ifdef __GNUC__
__attribute__((used))
#endif
static void (*const vintsaky_interface)(void) = vintsaky_interface_1;

/* The version of this header, in the form in which vintsaky_version returns the library's version: 65536 times the first number, plus
 * 256 times the second, plus the third. */
#define VINTSAKY_VERSION 0x010000

/* ---- numbers ---- */

/* The sizes of objects and their alignment as compile-time constants: what _bytes and _align return. If cargo built the library, _bytes
 * and _align may return less, so these constants are enough for it too. */
#define VINTSAKY_GAME_BYTES ((size_t)35640)
#define VINTSAKY_ENGINE_BYTES ((size_t)41472)
#define VINTSAKY_MATCH_BYTES ((size_t)62648)
#define VINTSAKY_LINES_BYTES ((size_t)2056)
#define VINTSAKY_REPLIES_BYTES ((size_t)16432)
#define VINTSAKY_ALIGN ((size_t)8)

/* Buffer sizes that hold any text of a kind, with its NUL: the line of a command, a reply, what a side wrote since its last whole
 * reply, a board, the result line of a match, the moves of a match, the reason of a ruling. VINTSAKY_MOST_POINTS and
 * VINTSAKY_MOST_MOVES are no buffer sizes: they are the most points of a board and the most moves of a record. */
#define VINTSAKY_COMMAND_ROOM ((size_t)65)
#define VINTSAKY_REPLY_ROOM ((size_t)2049)
#define VINTSAKY_WROTE_ROOM ((size_t)81)
#define VINTSAKY_BOARD_ROOM ((size_t)2001)
#define VINTSAKY_RESULT_ROOM ((size_t)97)
#define VINTSAKY_RECORD_ROOM ((size_t)10001)
#define VINTSAKY_REASON_ROOM ((size_t)21)
#define VINTSAKY_MOST_POINTS ((size_t)625)
#define VINTSAKY_MOST_MOVES ((size_t)2000)

/* errors: why a call is rejected */
enum {
    VINTSAKY_DONE = 0,
    VINTSAKY_BAD_COLOUR = 1, /* Not a colour or side: use 1 (Black) or 2 (White). */
    VINTSAKY_BAD_VERTEX = 2, /* Not a vertex: use 256 times the row plus the column, each 1 to 25, or 0 (a pass) where allowed. */
    VINTSAKY_BAD_RULE = 3, /* Not a ko rule: use 1 (simple ko) or 2 (positional superko). */
    VINTSAKY_BAD_SIZE = 4, /* The size must be 1 to 25. */
    VINTSAKY_BAD_KOMI = 5, /* The komi must be -1,999,999,999 to 1,999,999,999 half points. */
    VINTSAKY_BAD_TEXT = 6, /* The text can't be parsed, or isn't allowed in a reply. */
    VINTSAKY_NO_ROOM = 7, /* A buffer or array is shorter than the call needs. */
    VINTSAKY_FULL = 8, /* The record is full: it has 2,000 moves, the maximum. */
    VINTSAKY_OFF_BOARD = 9, /* The point isn't on a board of this size. */
    VINTSAKY_OCCUPIED = 10, /* A stone is on the point. */
    VINTSAKY_SUICIDE = 11, /* The new stone's chain would have no liberty. */
    VINTSAKY_KO = 12, /* The move would repeat a board that the ko rule forbids. */
    VINTSAKY_NOTHING_TO_UNDO = 13, /* The record has no move to undo. */
    VINTSAKY_NOT_EMPTY = 14, /* The board and the record must be empty. */
    VINTSAKY_BAD_HANDICAP = 15, /* Odd sizes from 9 allow 2 to 9 stones, 7 and even sizes from 8 allow 2 to 4; never a negative number. */
    VINTSAKY_NO_MOVE = 16, /* The record has no move with this number, counted from 0. */
    VINTSAKY_NO_STONE = 17, /* No stone is on the point. */
    VINTSAKY_NOT_ASKED = 18, /* The engine is waiting for nothing, or for something that this call doesn't supply. */
    VINTSAKY_NO_WORD = 19, /* The line has no word with this number, counted from 0 after the id. */
    VINTSAKY_NO_ID = 20, /* The line or the reply has no id. */
    VINTSAKY_BAD_LENGTH = 21, /* A name must have 1 to 32 bytes. */
    VINTSAKY_BAD_BYTE = 22, /* A name may have only bytes 33 to 126, except #. */
    VINTSAKY_ONLY_DIGITS = 23, /* A name can't have only digits, as an id has. */
    VINTSAKY_IN_TABLE = 24, /* The protocol already has a command of this name. */
    VINTSAKY_ADDED_BEFORE = 25, /* A custom command of this name was already added. */
    VINTSAKY_TOO_MANY = 26, /* The engine already has 32 custom commands, the maximum. */
    VINTSAKY_BAD_MAX_MOVES = 27, /* The move limit must be 1 to 2,000. */
    VINTSAKY_BAD_MAX_RESTARTS = 28, /* The restart limit must be 0 to 1,000. */
    VINTSAKY_NOT_NEXT = 29, /* Not the call that the match expects next. */
    VINTSAKY_NOT_OVER = 30, /* The match is not over yet. */
    VINTSAKY_NO_LINE = 31, /* No command line was read, or the last one was too long. */
    VINTSAKY_BAD_COMMAND = 32, /* Not a command: use 1 to 8. */
    VINTSAKY_BAD_ID = 33, /* The id must be 0 to 2,147,483,647, or -1 for none. */
    VINTSAKY_DOWN = 34, /* The side isn't up (it was not started, or it went down), or the match is over. */
    VINTSAKY_IS_OVER = 35, /* The match is already over. */
    VINTSAKY_BAD_REASON = 36, /* A reason must be empty (loss on time), or 1 to 20 letters (a-z, A-Z) and spaces; not a forfeit's cause. */
};

/* colours of stones, and the sides that play them */
enum { VINTSAKY_BLACK = 1, VINTSAKY_WHITE = 2 };

/* ko rules: simple ko, and positional superko */
enum { VINTSAKY_SIMPLE = 1, VINTSAKY_POSITIONAL = 2 };

/* A vertex is a pass, or a point: 256 times its row plus its column, both from 1 to 25, counted from the lower left corner. Only
 * vintsaky_engine_choose accepts a resignation. */
#define VINTSAKY_PASS ((uint32_t)0)
#define VINTSAKY_RESIGN ((uint32_t)65535)

/* what vintsaky_engine_feed returns: VINTSAKY_BLACK or VINTSAKY_WHITE if the engine waits for that colour's choice, or one of these */
enum {
    VINTSAKY_MORE = 0,  /* all bytes were used: read more, which no other result asks for */
    VINTSAKY_OTHER = 3, /* a command that isn't in the protocol's table: answer or decline it, then write the reply */
    VINTSAKY_REPLY = 4, /* a line was answered, also a quit: write the reply */
    VINTSAKY_ENDED = 5  /* a quit was answered before: stop */
};

/* what vintsaky_match_next returns: start this side's engine, send it a command, wait for its output; or the match is over */
enum { VINTSAKY_START = 1, VINTSAKY_SEND = 2, VINTSAKY_WAIT = 3, VINTSAKY_OVER = 4 };

/* why a side fails by its output, or 0 if it doesn't. A match asks for no move once its record is full, so VINTSAKY_LOSS_FULL
 * never occurs. */
enum {
    VINTSAKY_LOSS_NO_STATUS = 1,    /* What it wrote isn't a reply: it begins with neither = nor ?. It goes down. */
    VINTSAKY_LOSS_OVERLONG = 2,     /* More than 8,192 bytes came since its last reply. It goes down. */
    VINTSAKY_LOSS_WRONG_ID = 3,     /* The reply doesn't have the id of the oldest unanswered command. It goes down. */
    VINTSAKY_LOSS_UNASKED = 4,      /* A reply came when no command was unanswered. It goes down. */
    VINTSAKY_LOSS_UNFIT = 5,        /* It failed at a setup command, or placed other handicap stones. It is unfit. */
    VINTSAKY_LOSS_REFUSES_PLAY = 6, /* It refused a play that isn't retaken. It forfeits. */
    VINTSAKY_LOSS_KEEPS_MOVE = 7,   /* It didn't undo its move, which the other side refused. The other side forfeits. */
    VINTSAKY_LOSS_NO_MOVE = 8,      /* It failed at a genmove. It forfeits. */
    VINTSAKY_LOSS_NO_VERTEX = 9,    /* Its answer to a genmove is neither a vertex nor a resignation. It forfeits. */
    VINTSAKY_LOSS_FULL = 10,        /* Its move is illegal: the record is full. It forfeits. */
    VINTSAKY_LOSS_OFF_BOARD = 11,   /* Its move is illegal: the point isn't on the board. It forfeits. */
    VINTSAKY_LOSS_OCCUPIED = 12,    /* Its move is illegal: a stone is on the point. It forfeits. */
    VINTSAKY_LOSS_SUICIDE = 13,     /* Its move is illegal: suicide. It forfeits. */
    VINTSAKY_LOSS_KO = 14           /* Its move is illegal: ko. It forfeits. */
};

/* how a match ended */
enum {
    VINTSAKY_BY_SCORE = 1,        /* two passes ended the game */
    VINTSAKY_BY_RESIGNATION = 2,  /* the side resigned */
    VINTSAKY_BY_LIMIT = 3,        /* the record has as many moves as the match allows */
    VINTSAKY_BY_REFUSED_PLAY = 4, /* the side refused a play that isn't retaken, or that the other side didn't undo: it forfeits */
    VINTSAKY_BY_NO_MOVE = 5,      /* the side failed at a genmove: it forfeits */
    VINTSAKY_BY_NO_VERTEX = 6,    /* the side answered a genmove by what is neither a vertex nor a resignation: it forfeits */
    VINTSAKY_BY_ILLEGAL_MOVE = 7, /* the side answered a genmove by an illegal move: it forfeits */
    VINTSAKY_BY_UNFIT = 8,        /* the side failed at a setup command, or placed other handicap stones: it is unfit */
    VINTSAKY_BY_ABANDONED = 9,    /* the side went down too often */
    VINTSAKY_BY_TIME = 10,        /* the side lost on time, by a ruling */
    VINTSAKY_BY_RULING = 11       /* the side lost by a ruling with a reason */
};

/* the commands that vintsaky_write_command writes */
enum { VINTSAKY_BOARDSIZE = 1, VINTSAKY_KOMI = 2, VINTSAKY_CLEAR_BOARD = 3, VINTSAKY_FIXED_HANDICAP = 4 };
enum { VINTSAKY_PLAY = 5, VINTSAKY_GENMOVE = 6, VINTSAKY_UNDO = 7, VINTSAKY_QUIT = 8 };

/* what vintsaky_lines_feed returns, if it isn't 0: a command line, or a command line that is too long */
enum { VINTSAKY_LINE = 1, VINTSAKY_TOO_LONG = 2 };

/* what vintsaky_replies_feed returns, if it isn't 0: a reply, bytes that aren't a reply, or a reply that is too long */
enum { VINTSAKY_READ = 1, VINTSAKY_NO_REPLY = 2, VINTSAKY_LONG_REPLY = 3 };

/* opaque handles */
typedef struct { void *at; } vintsaky_game;
typedef struct { void *at; } vintsaky_engine;
typedef struct { void *at; } vintsaky_match;
typedef struct { void *at; } vintsaky_lines;
typedef struct { void *at; } vintsaky_replies;

/* ---- the library ---- */

/* Returns the version of the library: see VINTSAKY_VERSION. */
uint32_t vintsaky_version(void);

/* Writes the sentence that explains an error, and returns its length. Every number has one, even 0 and unknown ones. */
size_t vintsaky_cause_text(uint32_t cause, char *text, size_t text_room);

/* ---- values ---- */

/* Reads a colour: b, w, black or white, in upper or lower case or a mix of both.
 * Errors: VINTSAKY_BAD_TEXT. Nothing is written. */
uint32_t vintsaky_read_colour(const char *text, size_t text_length, uint32_t *colour);

/* Writes a colour as the protocol spells it, b or w, and the length of that text.
 * Errors: VINTSAKY_BAD_COLOUR. Nothing is written. */
uint32_t vintsaky_colour_text(uint32_t colour, char *text, size_t text_room, size_t *count);

/* Writes the number of the point at a column and a row, each from 1 to 25.
 * Errors: VINTSAKY_BAD_VERTEX. Nothing is written. */
uint32_t vintsaky_point(uint32_t column, uint32_t row, uint32_t *vertex);

/* Reads a vertex as the protocol spells it: pass, or a column letter and a row number, in upper or lower case.
 * Errors: VINTSAKY_BAD_TEXT. Nothing is written. */
uint32_t vintsaky_read_vertex(const char *text, size_t text_length, uint32_t *vertex);

/* Writes a vertex as the protocol spells it, and the length of that text.
 * Errors: VINTSAKY_BAD_VERTEX. Nothing is written. */
uint32_t vintsaky_vertex_text(uint32_t vertex, char *text, size_t text_room, size_t *count);

/* Reads a komi in points, as the protocol spells it, and writes it in half points.
 * Errors: VINTSAKY_BAD_TEXT. Nothing is written. */
uint32_t vintsaky_read_komi(const char *text, size_t text_length, int32_t *half_points);

/* Writes a komi, which is given in half points, as the protocol spells it in points, and the length of that text.
 * Errors: VINTSAKY_BAD_KOMI. Nothing is written. */
uint32_t vintsaky_komi_text(int32_t half_points, char *text, size_t text_room, size_t *count);

/* ---- writing lines ---- */

/* Writes the line of a command with its newline, at most 64 bytes, and its length. An id of -1 means none. value is the size of
 * boardsize, the half points of komi, the number of stones of fixed_handicap, or the colour of play and genmove; vertex is that of
 * play. An argument that the command doesn't have is ignored.
 * Errors: VINTSAKY_BAD_ID, VINTSAKY_BAD_COMMAND, VINTSAKY_BAD_SIZE, VINTSAKY_BAD_KOMI, VINTSAKY_BAD_HANDICAP (only for a negative
 * number), VINTSAKY_BAD_COLOUR or VINTSAKY_BAD_VERTEX, the first of these that applies. Nothing is written. */
uint32_t vintsaky_write_command(
    int32_t id, uint32_t command, int32_t value, uint32_t vertex, char *text, size_t text_room, size_t *count);

/* Writes a reply, at most 2,014 bytes, and its length: a success if ok isn't 0, else a failure. An id of -1 means none. The text may
 * have up to 2,000 bytes, each a newline or one of 32 to 126, without two newlines in a row, and without a space or newline at its
 * beginning or end.
 * Errors: VINTSAKY_BAD_ID, or else VINTSAKY_BAD_TEXT if the text isn't allowed in a reply. Nothing is written. */
uint32_t vintsaky_write_reply(
    int32_t id, uint32_t ok, const char *said, size_t said_length, char *text, size_t text_room, size_t *count);

/* ---- games ---- */

/* Initialises a game in the caller's memory, and its handle. It has size 19, no komi and simple ko. */
void vintsaky_game_place(vintsaky_game *out, void *at);

/* Returns the size of a game in bytes. */
size_t vintsaky_game_bytes(void);

/* Returns the alignment of a game in bytes. */
size_t vintsaky_game_align(void);

/* Returns the size of the board, 1 to 25. */
uint32_t vintsaky_game_size(vintsaky_game *game);

/* Returns the komi in half points. */
int32_t vintsaky_game_komi(vintsaky_game *game);

/* Returns the number of handicap stones that were placed, or 0. */
uint32_t vintsaky_game_handicap(vintsaky_game *game);

/* Returns the colour whose turn it is: the one that didn't make the last move. Before the first move it is Black, or White if handicap
 * stones were placed. */
uint32_t vintsaky_game_turn(vintsaky_game *game);

/* Returns the number of moves in the record. */
size_t vintsaky_game_length(vintsaky_game *game);

/* Returns the area score with every stone alive, after komi, in half points: positive if Black leads. */
int32_t vintsaky_game_score(vintsaky_game *game);

/* Returns whether the last two moves are passes. */
bool vintsaky_game_finished(vintsaky_game *game);

/* Returns a hash of the board and its size. Equal boards of one size have equal hashes. So different hashes show that board or size
 * differ; equal hashes show nothing. */
uint64_t vintsaky_game_hash(vintsaky_game *game);

/* Copies another game into this one, with its record, its komi and its ko rule. A game that is given for both is unchanged. */
void vintsaky_game_copy(vintsaky_game *game, vintsaky_game *other);

/* Resets the game to an empty board, with this ko rule, size and komi.
 * Errors: VINTSAKY_BAD_RULE, VINTSAKY_BAD_SIZE or VINTSAKY_BAD_KOMI, the first of these that applies. The game is unchanged. */
uint32_t vintsaky_game_begin(vintsaky_game *game, uint32_t rule, uint32_t size, int32_t half_komi);

/* Plays a move of either colour, whoever moved last.
 * Errors: VINTSAKY_BAD_COLOUR, or else VINTSAKY_BAD_VERTEX, or else why the move is illegal: VINTSAKY_FULL, VINTSAKY_OFF_BOARD,
 * VINTSAKY_OCCUPIED, VINTSAKY_SUICIDE or VINTSAKY_KO. The game is unchanged. */
uint32_t vintsaky_game_play(vintsaky_game *game, uint32_t colour, uint32_t vertex);

/* Returns 0 if a colour may make a move next, or else why the move is illegal.
 * Errors: Those of vintsaky_game_play, except VINTSAKY_FULL. */
uint32_t vintsaky_game_legal(vintsaky_game *game, uint32_t colour, uint32_t vertex);

/* Undoes the last move.
 * Errors: VINTSAKY_NOTHING_TO_UNDO if the record has no move. The game is unchanged. */
uint32_t vintsaky_game_undo(vintsaky_game *game);

/* Sets the komi. The board and the record are unchanged.
 * Errors: VINTSAKY_BAD_KOMI. The game is unchanged. */
uint32_t vintsaky_game_set_komi(vintsaky_game *game, int32_t half_komi);

/* Places handicap stones on their fixed points.
 * Errors: VINTSAKY_NOT_EMPTY, or else VINTSAKY_BAD_HANDICAP. The game is unchanged. */
uint32_t vintsaky_game_place_handicap(vintsaky_game *game, uint32_t stones);

/* Writes the number of points where a colour may play next and, if the buffer holds all of them, these points, row by row from A1. The
 * call ignores that a full record takes no more moves.
 * Errors: VINTSAKY_BAD_COLOUR. Nothing is written. */
uint32_t vintsaky_game_legal_points(vintsaky_game *game, uint32_t colour, uint32_t *points, size_t points_room, size_t *count);

/* Writes the points whose stones the last move captured, row by row from A1, if the buffer holds all of them. Returns how many there
 * are. */
size_t vintsaky_game_taken_by_last_move(vintsaky_game *game, uint32_t *points, size_t points_room);

/* Writes the colour of the stone on a point, or 0 if it is empty.
 * Errors: VINTSAKY_BAD_VERTEX, also for a pass, or else VINTSAKY_OFF_BOARD. Nothing is written. */
uint32_t vintsaky_game_stone_at(vintsaky_game *game, uint32_t vertex, uint32_t *colour);

/* Writes how many stones and how many liberties the chain on a point has.
 * Errors: VINTSAKY_BAD_VERTEX, also for a pass, or else VINTSAKY_OFF_BOARD or VINTSAKY_NO_STONE. Nothing is written. */
uint32_t vintsaky_game_chain(vintsaky_game *game, uint32_t vertex, uint32_t *stones, uint32_t *liberties);

/* Writes a move of the record, counted from 0.
 * Errors: VINTSAKY_NO_MOVE if the record has no such move. Nothing is written. */
uint32_t vintsaky_game_made(vintsaky_game *game, size_t number, uint32_t *colour, uint32_t *vertex);

/* Writes how many stones a colour has captured.
 * Errors: VINTSAKY_BAD_COLOUR. Nothing is written. */
uint32_t vintsaky_game_captured(vintsaky_game *game, uint32_t colour, uint32_t *stones);

/* Returns the number of the ko rule. */
uint32_t vintsaky_game_rule(vintsaky_game *game);

/* Writes the board as text, as an engine answers showboard, and returns its length. */
size_t vintsaky_game_board_text(vintsaky_game *game, char *text, size_t text_room);

/* Writes the index of a point, by which a search keeps a list with one value for each point. It is counted from 0 in board order: row
 * by row from A1, as A1, B1, .., A2, B2.
 * Errors: VINTSAKY_BAD_VERTEX, also for a pass, or else VINTSAKY_OFF_BOARD. Nothing is written. */
uint32_t vintsaky_game_index(vintsaky_game *game, uint32_t vertex, size_t *index);

/* Writes the number of the point with this index.
 * Errors: VINTSAKY_OFF_BOARD if the board has no such index. Nothing is written. */
uint32_t vintsaky_game_point_at(vintsaky_game *game, size_t index, uint32_t *vertex);

/* Writes one byte for each point in board order, if the buffer holds all of them: the colour of its stone, or 0 if it is empty. Returns
 * how many there are. */
size_t vintsaky_game_board(vintsaky_game *game, uint8_t *bytes, size_t bytes_room);

/* Writes one byte for each point in board order, if the buffer holds all of them, and how many there are: 1 where a colour may play
 * next, else 0. The call ignores that a full record takes no more moves.
 * Errors: VINTSAKY_BAD_COLOUR. Nothing is written. */
uint32_t vintsaky_game_legal_mask(vintsaky_game *game, uint32_t colour, uint8_t *bytes, size_t bytes_room, size_t *count);

/* Writes 1 if a point is an own eye of a colour, which a playout doesn't fill, else 0. An own eye is empty, and all its neighbours are
 * stones of the colour. The other colour has a stone on at most one of its diagonals, and on none if the point is on the edge.
 * Errors: VINTSAKY_BAD_COLOUR, or else VINTSAKY_BAD_VERTEX, also for a pass, or else VINTSAKY_OFF_BOARD. Nothing is written. */
uint32_t vintsaky_game_is_own_eye(vintsaky_game *game, uint32_t colour, uint32_t vertex, uint32_t *holds);

/* Writes how many stones a chain has and, if the buffer holds all of them, their points, row by row from A1.
 * Errors: Those of vintsaky_game_chain. */
uint32_t vintsaky_game_chain_points(vintsaky_game *game, uint32_t vertex, uint32_t *points, size_t points_room, size_t *count);

/* Writes how many liberties a chain has and, if the buffer holds all of them, these points, row by row from A1 and each once.
 * Errors: Those of vintsaky_game_chain. */
uint32_t vintsaky_game_chain_liberties(vintsaky_game *game, uint32_t vertex, uint32_t *points, size_t points_room, size_t *count);

/* Writes the ko point of a colour: the one empty point where its play would bring back the board before the last move. If there is
 * none, it writes 0, the number of a pass.
 * Errors: VINTSAKY_BAD_COLOUR. Nothing is written. */
uint32_t vintsaky_game_ko_point(vintsaky_game *game, uint32_t colour, uint32_t *vertex);

/* Writes the move that a random word chooses for a colour. Of the n points where the colour may play next and that aren't its own eyes,
 * this is number word mod n, counted from 0 in board order. If there is no such point, it is a pass. Each of the first 2^64 mod n
 * points is chosen by one word more than each of the others, a bias that you can neglect. The call ignores that a full record takes no
 * more moves.
 * Errors: VINTSAKY_BAD_COLOUR. Nothing is written. */
uint32_t vintsaky_game_random_move(vintsaky_game *game, uint32_t colour, uint64_t word, uint32_t *vertex);

/* Writes a hash of the position with a colour to move: of the board, its size, that colour and its ko point. Positions that are equal
 * in these have equal hashes. So different hashes show a difference; equal hashes show nothing. The hash leaves out the komi, the ko
 * rule, whether the last move was a pass, and the record, on which positional superko depends.
 * Errors: VINTSAKY_BAD_COLOUR. Nothing is written. */
uint32_t vintsaky_game_position_hash(vintsaky_game *game, uint32_t colour, uint64_t *hash);

/* Plays on at random: this colour first, and then both in turn. Each plays a random point of those where it may play and that aren't
 * its own eyes, or passes if there is none. The playout ends after two passes in a row, where a pass just before the call counts too;
 * after limit moves; or when the record has 2,000. The same game, colour, seed and limit always make the same moves, by random words of
 * 64 bits from the PCG64 generator of the Rust crate rand_pcg, which is made of the seed by its seed_from_u64. At the call the empty
 * points are listed in board order. At a turn with n points left to choose from, the next word chooses one of the first n: number (word
 * >> 32) * n >> 32, counted from 0. If the colour may not play there, or it is its own eye, the point changes places with the last of
 * the n, and n is one less. Otherwise it is played: the last point of the whole list moves to its place, and the points of captured
 * stones are appended in board order. If no point is left, the colour passes, without a word. The next turn takes the list as it is
 * then.
 * Errors: VINTSAKY_BAD_COLOUR. The game is unchanged. */
uint32_t vintsaky_game_playout(vintsaky_game *game, uint32_t colour, uint64_t seed, uint32_t limit);

/* Writes the score that the game would have after vintsaky_game_playout with the same arguments, as vintsaky_game_score counts it. The
 * game is unchanged.
 * Errors: VINTSAKY_BAD_COLOUR. Nothing is written. */
uint32_t vintsaky_game_rollout(vintsaky_game *game, uint32_t colour, uint64_t seed, uint32_t limit, int32_t *half_points);

/* ---- many games ---- */

/* An array of handles comes with its length. The games may have any sizes. Each game must have been placed, and none may be in the
 * array twice. */

/* Plays one move in each game, for the colour whose turn it is, as vintsaky_game_turn returns it. The number of a move is the index of
 * its point, or the number of points of the board for a pass. Writes one byte for each game: 0, or the error for which this game
 * rejects its move. A game that rejects its move is unchanged, and the others are played. The error is VINTSAKY_OFF_BOARD for a number
 * above that of a pass, and otherwise what vintsaky_game_play returns.
 * Errors: VINTSAKY_NO_ROOM if moves or causes has fewer items than there are games. No move is made. */
uint32_t vintsaky_games_play(
    vintsaky_game *games, size_t games_length, const uint32_t *moves, size_t moves_length, uint8_t *causes, size_t causes_room);

/* Writes one byte for each game: 1 if its last two moves are passes, else 2 if its record has at least limit moves or is full, else 0.
 * For 1 and 2 it writes the game's score in half points, and then removes the game's moves; size, komi, ko rule and handicap stay. For
 * 0 it writes the score 0, and the game is unchanged.
 * Errors: VINTSAKY_NO_ROOM if over or half_points has fewer items than there are games. No game changes. */
uint32_t vintsaky_games_restart(vintsaky_game *games, size_t games_length, uint32_t limit, uint8_t *over, size_t over_room,
    int32_t *half_points, size_t half_points_room);

/* Writes the planes of each game, one game after the other. A plane has one byte for each point in board order: 1 where a stone of one
 * colour is, else 0. First come the stones of the colour whose turn it is, then those of the other; then both for the board one move
 * earlier, and so on, for as many moves as earlier says. If a game has fewer moves, the planes of the missing boards are all 0.
 * Errors: VINTSAKY_NO_ROOM if the buffer doesn't hold the planes of all games. A game of size n has 2 * n * n bytes for each board.
 * Nothing is written. */
uint32_t vintsaky_games_planes(vintsaky_game *games, size_t games_length, uint32_t earlier, uint8_t *bytes, size_t bytes_room);

/* Writes the same planes as floating-point numbers of 32 bits: 1.0 and 0.0.
 * Errors: Those of vintsaky_games_planes. */
uint32_t vintsaky_games_planes_f32(vintsaky_game *games, size_t games_length, uint32_t earlier, float *floats, size_t floats_room);

/* Writes a mask for each game, one game after the other. It has one byte for the move of each number: 1 if the colour whose turn it is
 * may make it, else 0. The last one is for a pass, and always 1. The call ignores that a full record takes no more moves.
 * Errors: VINTSAKY_NO_ROOM if the buffer doesn't hold the masks of all games. A game of size n has n * n + 1 bytes. Nothing is
 * written. */
uint32_t vintsaky_games_masks(vintsaky_game *games, size_t games_length, uint8_t *bytes, size_t bytes_room);

/* Writes the same masks as floating-point numbers of 32 bits: 1.0 and 0.0.
 * Errors: Those of vintsaky_games_masks. */
uint32_t vintsaky_games_masks_f32(vintsaky_game *games, size_t games_length, float *floats, size_t floats_room);

/* Writes the score of one rollout of each game, in half points, as vintsaky_game_rollout writes it. Each game has its own seed, and the
 * colour whose turn it is moves first.
 * Errors: VINTSAKY_NO_ROOM if seeds or half_points has fewer items than there are games. Nothing is written. */
uint32_t vintsaky_games_rollouts(vintsaky_game *games, size_t games_length, const uint64_t *seeds, size_t seeds_length, uint32_t limit,
    int32_t *half_points, size_t half_points_room);

/* ---- engines ---- */

/* Initialises a sans-IO engine in the caller's memory, and its handle. It has simple ko, and has received nothing. */
void vintsaky_engine_place(vintsaky_engine *out, void *at);

/* Returns the size of an engine in bytes. */
size_t vintsaky_engine_bytes(void);

/* Returns the alignment of an engine in bytes. */
size_t vintsaky_engine_align(void);

/* Returns whether the session has ended, by a quit. */
bool vintsaky_engine_ended(vintsaky_engine *engine);

/* Resets the engine, under a ko rule. It loses its name, its version and its custom commands. Call it only before the engine's first
 * byte. Later the engine would lose its game, and what it hasn't answered; no call rejects that.
 * Errors: VINTSAKY_BAD_RULE. The engine is unchanged. */
uint32_t vintsaky_engine_begin(vintsaky_engine *engine, uint32_t rule);

/* Takes the next chunk, up to and including the newline of the first line that has a word, or all of it. Writes how many bytes were
 * used: feed the others next. Returns what came of the used bytes. While the engine waits for a choice or an answer, and after the end,
 * no byte is used, and the same result is returned again. A line whose words, joined by single spaces, have more than 1,000 bytes is
 * answered by a failure. */
uint32_t vintsaky_engine_feed(vintsaky_engine *engine, const void *bytes, size_t bytes_length, size_t *used);

/* Returns what the engine waits for: 0 for nothing, VINTSAKY_BLACK or VINTSAKY_WHITE for the choice of a move, VINTSAKY_OTHER for an
 * answer. */
uint32_t vintsaky_engine_wait(vintsaky_engine *engine);

/* Supplies the choice that the engine waits for: a move or a resignation.
 * Errors: VINTSAKY_BAD_VERTEX, or else VINTSAKY_NOT_ASKED, or else why the move is illegal: VINTSAKY_OFF_BOARD, VINTSAKY_OCCUPIED,
 * VINTSAKY_SUICIDE or VINTSAKY_KO. The engine is unchanged, and still waits for a choice if it did before. */
uint32_t vintsaky_engine_choose(vintsaky_engine *engine, uint32_t vertex);

/* Answers a command that isn't in the protocol's table: by a success if ok isn't 0, else by a failure.
 * Errors: VINTSAKY_NOT_ASKED, or else VINTSAKY_BAD_TEXT if the text isn't allowed in a reply. The engine is unchanged. */
uint32_t vintsaky_engine_answer(vintsaky_engine *engine, uint32_t ok, const char *text, size_t text_length);

/* Answers a command that isn't in the protocol's table by a failure: unknown command.
 * Errors: VINTSAKY_NOT_ASKED. The engine is unchanged. */
uint32_t vintsaky_engine_decline(vintsaky_engine *engine);

/* Sets the text that answers name from now on.
 * Errors: VINTSAKY_BAD_TEXT if it has more than 200 bytes, or isn't allowed in a reply. The engine is unchanged. */
uint32_t vintsaky_engine_set_name(vintsaky_engine *engine, const char *text, size_t text_length);

/* Sets the text that answers version from now on.
 * Errors: Those of vintsaky_engine_set_name. */
uint32_t vintsaky_engine_set_version(vintsaky_engine *engine, const char *text, size_t text_length);

/* Adds a custom command.
 * Errors: VINTSAKY_BAD_LENGTH, VINTSAKY_BAD_BYTE, VINTSAKY_ONLY_DIGITS, VINTSAKY_IN_TABLE, VINTSAKY_ADDED_BEFORE or VINTSAKY_TOO_MANY,
 * the first of these that applies. The engine is unchanged. */
uint32_t vintsaky_engine_add_command(vintsaky_engine *engine, const char *name, size_t name_length);

/* Copies the engine's game into another one. */
void vintsaky_engine_copy_game(vintsaky_engine *engine, vintsaky_game *game);

/* Writes the last reply, and returns its length: 0 before the first reply, and at most 2,048. */
size_t vintsaky_engine_reply(vintsaky_engine *engine, char *text, size_t text_room);

/* Writes a word of the command line for which the engine waits for a choice or an answer. Words are counted from 0 after the id. Also
 * writes the length of the word: at most 1,000 bytes.
 * Errors: VINTSAKY_NOT_ASKED if nothing is waited for, or else VINTSAKY_NO_WORD. Nothing is written. */
uint32_t vintsaky_engine_word(vintsaky_engine *engine, size_t number, char *text, size_t text_room, size_t *count);

/* Writes the id of the command line for which the engine waits for a choice or an answer.
 * Errors: VINTSAKY_NOT_ASKED if nothing is waited for, or else VINTSAKY_NO_ID. Nothing is written. */
uint32_t vintsaky_engine_id(vintsaky_engine *engine, uint32_t *id);

/* ---- matches ---- */

/* Initialises a match in the caller's memory, and its handle. It has size 19, no komi, no handicap, at most 2,000 moves, and no
 * restart. */
void vintsaky_match_place(vintsaky_match *out, void *at);

/* Returns the size of a match in bytes. */
size_t vintsaky_match_bytes(void);

/* Returns the alignment of a match in bytes. */
size_t vintsaky_match_align(void);

/* Begins a match between two engines that aren't started yet.
 * Errors: VINTSAKY_BAD_SIZE, VINTSAKY_BAD_KOMI, VINTSAKY_BAD_HANDICAP, VINTSAKY_BAD_MAX_MOVES or VINTSAKY_BAD_MAX_RESTARTS, the first
 * of these that applies. The match is unchanged. */
uint32_t vintsaky_match_begin(
    vintsaky_match *held, uint32_t size, int32_t half_komi, uint32_t handicap, uint32_t max_moves, uint32_t max_restarts);

/* Returns what to do next, as a number. Writes the side with which to do it, or 0 if the match is over, as it is after a ruling. */
uint32_t vintsaky_match_next(vintsaky_match *held, uint32_t *side);

/* Reports that a side was started. If it can't be started, call this all the same, and then vintsaky_match_lost.
 * Errors: VINTSAKY_BAD_COLOUR, or else VINTSAKY_NOT_NEXT if its start isn't what is next. The match is unchanged. */
uint32_t vintsaky_match_started(vintsaky_match *held, uint32_t side);

/* Writes the next command for a side, and its length. It counts as sent.
 * Errors: VINTSAKY_BAD_COLOUR, or else VINTSAKY_NOT_NEXT if no command for this side is next, or else VINTSAKY_NO_ROOM if the buffer
 * has fewer than 65 bytes, even for a shorter line. The match is unchanged, and nothing is written. */
uint32_t vintsaky_match_send(vintsaky_match *held, uint32_t side, char *text, size_t text_room, size_t *count);

/* Takes a side's output, in any chunks. Writes why the side fails by it, or 0. The output of a side that is down is ignored, and so is
 * all output once the match is over, also by a ruling.
 * Errors: VINTSAKY_BAD_COLOUR. The match is unchanged, and nothing is written. */
uint32_t vintsaky_match_hear(vintsaky_match *held, uint32_t side, const void *bytes, size_t bytes_length, uint32_t *loss);

/* Takes a side's output as vintsaky_match_hear does, and writes more about it. If the side refused a play that is retaken, retake
 * becomes the number of this retake at its move number, 1 to 3; otherwise it becomes 0. For a loss, or else for a retake, the call
 * writes how many commands the side hadn't answered, including the one that this reply answers; the oldest of these commands, as it was
 * sent but without its newline; and the first 80 bytes of the reply. If the bytes aren't a reply, it writes the first 80 of all bytes
 * that came since the last whole reply. Each text comes with its length. Without a loss or a retake, the numbers are 0 and the texts
 * empty.
 * Errors: VINTSAKY_BAD_COLOUR. The match is unchanged, and nothing is written. */
uint32_t vintsaky_match_hear_reporting(vintsaky_match *held, uint32_t side, const void *bytes, size_t bytes_length, uint32_t *loss,
    uint32_t *retake, uint32_t *unanswered, char *command, size_t command_room, size_t *command_count, char *wrote, size_t wrote_room,
    size_t *wrote_count);

/* Writes what a side owes: how many commands it hasn't answered; the oldest of them, as it was sent but without its newline, or an
 * empty text; and the first 80 bytes that it wrote since its last whole reply. Each text comes with its length.
 * Errors: VINTSAKY_BAD_COLOUR, or else VINTSAKY_DOWN, also if the match is over. Nothing is written. */
uint32_t vintsaky_match_owed(vintsaky_match *held, uint32_t side, uint32_t *unanswered, char *command, size_t command_room,
    size_t *command_count, char *wrote, size_t wrote_room, size_t *wrote_count);

/* Writes how many commands of its script a side has confirmed, how many commands it hasn't answered, and 1 if a genmove is among the
 * unanswered ones, else 0. The script consists of the setup commands and a play for each move of the record. It doesn't matter whether
 * the match is over.
 * Errors: VINTSAKY_BAD_COLOUR, or else VINTSAKY_DOWN if the side isn't up. Nothing is written. */
uint32_t vintsaky_match_status(vintsaky_match *held, uint32_t side, uint32_t *confirmed, uint32_t *unanswered, uint32_t *asked);

/* Reports that a side is gone: its output has ended, a read or a write failed, or it couldn't be started. After a ruling nothing
 * changes.
 * Errors: VINTSAKY_BAD_COLOUR. The match is unchanged. */
uint32_t vintsaky_match_lost(vintsaky_match *held, uint32_t side);

/* Writes 1 if a side is in step: it is up, owes no answer, and has confirmed its whole script, as vintsaky_match_status counts it. Else
 * it writes 0.
 * Errors: VINTSAKY_BAD_COLOUR. Nothing is written. */
uint32_t vintsaky_match_in_step(vintsaky_match *held, uint32_t side, uint32_t *holds);

/* Writes how often a side was restarted.
 * Errors: VINTSAKY_BAD_COLOUR. Nothing is written. */
uint32_t vintsaky_match_restarts(vintsaky_match *held, uint32_t side, uint32_t *restarts);

/* Returns how often the move of this number, counted from 1, was retaken because it was refused: at most 3, and 0 for a number without
 * a retake. */
uint32_t vintsaky_match_retakes(vintsaky_match *held, uint32_t number);

/* Returns the side whose last move is to be undone because the other side refused it, or 0. */
uint32_t vintsaky_match_taking_back(vintsaky_match *held);

/* Writes how the match ended, the side concerned (or 0), and the score in half points (positive: Black leads; or 0). By a ruling, the
 * side is the one that loses.
 * Errors: VINTSAKY_NOT_OVER. Nothing is written. */
uint32_t vintsaky_match_verdict(vintsaky_match *held, uint32_t *ending, uint32_t *side, int32_t *half_points);

/* Copies the match's game into another one. */
void vintsaky_match_copy_game(vintsaky_match *held, vintsaky_game *game);

/* Writes the result line of a match that is over, without its newline, and its length. number is the number of the game in that line.
 * If Black loses by a ruling, the verdict is W+T, or W+F(REASON) if there is a reason.
 * Errors: VINTSAKY_NOT_OVER. Nothing is written. */
uint32_t vintsaky_match_result(vintsaky_match *held, uint32_t number, char *text, size_t text_room, size_t *count);

/* Writes the moves of a match as twogtp --record prints them, without the newline, and returns their length. */
size_t vintsaky_match_record(vintsaky_match *held, char *text, size_t text_room);

/* Ends a match that isn't over: the side loses. An empty reason means that it loses on time. Otherwise the reason has 1 to 20 letters
 * and spaces, and is none of refused play, no move, no vertex and illegal move. After that only vintsaky_match_begin changes the match.
 * Errors: VINTSAKY_BAD_COLOUR, or else VINTSAKY_IS_OVER, or else VINTSAKY_BAD_REASON. The match is unchanged. */
uint32_t vintsaky_match_adjudicate(vintsaky_match *held, uint32_t side, const char *reason, size_t reason_length);

/* Writes the reason of the ruling that ended a match, and returns its length: 0 if the side lost on time, or if there is no ruling. */
size_t vintsaky_match_reason(vintsaky_match *held, char *text, size_t text_room);

/* ---- readers of command lines ---- */

/* Initialises a reader of command lines in the caller's memory, and its handle. It has received nothing. */
void vintsaky_lines_place(vintsaky_lines *out, void *at);

/* Returns the size of such a reader in bytes. */
size_t vintsaky_lines_bytes(void);

/* Returns the alignment of such a reader in bytes. */
size_t vintsaky_lines_align(void);

/* Takes the next chunk, up to and including the newline that ends a line with a word, or all of it. Writes how many bytes were used.
 * Returns 0 if no such line ended, VINTSAKY_LINE for a command line, and VINTSAKY_TOO_LONG for a line whose words, joined by single
 * spaces, have more than 1,000 bytes. */
uint32_t vintsaky_lines_feed(vintsaky_lines *lines, const void *bytes, size_t bytes_length, size_t *used);

/* Writes the id of the line that was read last.
 * Errors: VINTSAKY_NO_LINE if none was read or it was too long, or else VINTSAKY_NO_ID. Nothing is written. */
uint32_t vintsaky_lines_id(vintsaky_lines *lines, uint32_t *id);

/* Writes a word of the line that was read last, counted from 0 after the id, and its length: at most 1,000 bytes.
 * Errors: VINTSAKY_NO_LINE if none was read or it was too long, or else VINTSAKY_NO_WORD. Nothing is written. */
uint32_t vintsaky_lines_word(vintsaky_lines *lines, size_t number, char *text, size_t text_room, size_t *count);

/* ---- readers of replies ---- */

/* Initialises a reader of replies in the caller's memory, and its handle. It has received nothing. */
void vintsaky_replies_place(vintsaky_replies *out, void *at);

/* Returns the size of such a reader in bytes. */
size_t vintsaky_replies_bytes(void);

/* Returns the alignment of such a reader in bytes. */
size_t vintsaky_replies_align(void);

/* Takes the next chunk, up to and including the byte that ends a reply or shows a fault, or all of it. Writes how many bytes were used.
 * Returns 0 if there was no such byte, VINTSAKY_READ for a reply, VINTSAKY_NO_REPLY if the bytes are not a reply, and
 * VINTSAKY_LONG_REPLY if more than 8,192 bytes came since the last reply. After a fault no byte is used, and the same is returned
 * again: place the reader again. */
uint32_t vintsaky_replies_feed(vintsaky_replies *replies, const void *bytes, size_t bytes_length, size_t *used);

/* Returns whether the reply that was read last is a success: false before the first reply. */
bool vintsaky_replies_ok(vintsaky_replies *replies);

/* Writes the id of the reply that was read last.
 * Errors: VINTSAKY_NO_ID, also before the first reply. Nothing is written. */
uint32_t vintsaky_replies_id(vintsaky_replies *replies, uint32_t *id);

/* Writes the text of the reply that was read last, and returns its length: 0 before the first reply, and at most 8,192. */
size_t vintsaky_replies_text(vintsaky_replies *replies, char *text, size_t text_room);

/* ---- memory from malloc ---- */

/* For each kind of object, such as vintsaky_game_new and vintsaky_game_free:
 * - _new initialises an object as _place does, in memory that it allocates with malloc. It returns false if there is no memory.
 * - _free frees the memory of an object that _new made. The object can't be used afterwards. */
#define VINTSAKY_IN_MALLOC(kind)                                         \
    static inline bool vintsaky_##kind##_new(vintsaky_##kind *out) {     \
        void *at = malloc(vintsaky_##kind##_bytes());                    \
        if (at != NULL) vintsaky_##kind##_place(out, at);                \
        return at != NULL;                                               \
    }                                                                    \
    static inline void vintsaky_##kind##_free(vintsaky_##kind *held) {   \
        free(held->at);                                                  \
        held->at = NULL;                                                 \
    }

VINTSAKY_IN_MALLOC(game)
VINTSAKY_IN_MALLOC(engine)
VINTSAKY_IN_MALLOC(match)
VINTSAKY_IN_MALLOC(lines)
VINTSAKY_IN_MALLOC(replies)
#undef VINTSAKY_IN_MALLOC

#ifdef __cplusplus
}
#endif

#endif
