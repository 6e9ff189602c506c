/* Calls each function of the library, in C99 or in C++. What has to come of a call is worked out by hand from the pages in docs/.
 *
 * Prints a line for each result that is another one. Status 1 where there is such a line, 2 where there is no memory. With THREADS that
 * many threads do all this at once, ROUNDS times each, on objects of their own and on STACK_KB kB of stack. With NO_MAIN it is included
 * by a program that calls the functions itself. */
#include "vintsaky.h"
#include <stdio.h>
#include <string.h>
#ifdef THREADS
#include <pthread.h>
#define OF_THREAD __thread
#else
#define OF_THREAD
#endif

enum { A1 = 257, B1 = 258, C1 = 259, A2 = 513, B2 = 514, A3 = 769, D4 = 1028, F1 = 262, Q16 = 4112 };
static OF_THREAD char text[1024];
static OF_THREAD size_t count, used;
static OF_THREAD int wrong;

static void is(const char *file, int line, long long wanted, long long got) {
    if (wanted == got) return;
    printf("%s, line %d: %lld in place of %lld\n", file, line, got, wanted);
    wrong = 1;
}

/* The buffer has this text, a NUL after it, and this is its length. */
static void says(const char *file, int line, const char *wanted, size_t length) {
    if (strcmp(wanted, text) == 0 && strlen(wanted) == length) return;
    printf("%s, line %d: '%s' with length %lu in place of '%s'\n", file, line, text, (unsigned long)length, wanted);
    wrong = 1;
}

#define IS(wanted, got) is(__FILE__, __LINE__, (long long)(wanted), (long long)(got))
/* The header's sizes are those of the proved library. Cargo lays objects out more tightly: there they are the most. */
#ifdef AT_MOST
#define HAS_ROOM(room, size) IS(1, (size) > 0 && (size) <= (room))
#define HAS_ALIGN(align) IS(0, VINTSAKY_ALIGN % (align))
#else
#define HAS_ROOM(room, size) IS(room, size)
#define HAS_ALIGN(align) IS(VINTSAKY_ALIGN, align)
#endif
#define SAYS(wanted, length) says(__FILE__, __LINE__, wanted, length)
#define TEXT text, sizeof text
#define GIVEN(words) words, strlen(words)

#include "each_call_games.h"

static void of_the_library(void) {
    vintsaky_interface_1();
    IS(VINTSAKY_VERSION, vintsaky_version());
    HAS_ROOM(VINTSAKY_GAME_BYTES, vintsaky_game_bytes());
    HAS_ROOM(VINTSAKY_ENGINE_BYTES, vintsaky_engine_bytes());
    HAS_ROOM(VINTSAKY_MATCH_BYTES, vintsaky_match_bytes());
    HAS_ROOM(VINTSAKY_LINES_BYTES, vintsaky_lines_bytes());
    HAS_ROOM(VINTSAKY_REPLIES_BYTES, vintsaky_replies_bytes());
    HAS_ALIGN(vintsaky_game_align());
    HAS_ALIGN(vintsaky_engine_align());
    HAS_ALIGN(vintsaky_match_align());
    HAS_ALIGN(vintsaky_lines_align());
    HAS_ALIGN(vintsaky_replies_align());
    SAYS("The record is full: it has 2,000 moves, the maximum.", vintsaky_cause_text(VINTSAKY_FULL, TEXT));
}

static void of_values(void) {
    uint32_t number = 0;
    int32_t komi = 0;
    IS(VINTSAKY_DONE, vintsaky_read_colour(GIVEN("White"), &number));
    IS(VINTSAKY_WHITE, number);
    IS(VINTSAKY_DONE, vintsaky_colour_text(VINTSAKY_WHITE, TEXT, &count));
    SAYS("w", count);
    IS(VINTSAKY_DONE, vintsaky_point(4, 4, &number));
    IS(D4, number);
    IS(VINTSAKY_DONE, vintsaky_read_vertex(GIVEN("q16"), &number));
    IS(Q16, number);
    IS(VINTSAKY_DONE, vintsaky_vertex_text(Q16, TEXT, &count));
    SAYS("Q16", count);
    IS(VINTSAKY_DONE, vintsaky_read_komi(GIVEN("-6.5"), &komi));
    IS(-13, komi);
    IS(VINTSAKY_DONE, vintsaky_komi_text(-13, TEXT, &count));
    SAYS("-6.5", count);
    IS(VINTSAKY_DONE, vintsaky_write_command(7, VINTSAKY_PLAY, VINTSAKY_BLACK, D4, TEXT, &count));
    SAYS("7 play b D4\n", count);
    IS(VINTSAKY_DONE, vintsaky_write_reply(-1, 0, GIVEN("no"), TEXT, &count));
    SAYS("? no\n\n", count);
}

/* White on A1 is taken by Black's stones on A2 and B1, of a board of 5x5 with komi 7.5. */
static void of_a_capture(vintsaky_game *game) {
    uint32_t colour = 9, vertex = 9, stones = 9, liberties = 9, points[25];
    IS(VINTSAKY_DONE, vintsaky_game_begin(game, VINTSAKY_POSITIONAL, 5, 15));
    IS(-15, vintsaky_game_score(game));
    IS(VINTSAKY_DONE, vintsaky_game_play(game, VINTSAKY_WHITE, A1));
    IS(VINTSAKY_DONE, vintsaky_game_play(game, VINTSAKY_BLACK, A2));
    IS(VINTSAKY_DONE, vintsaky_game_chain(game, A1, &stones, &liberties));
    IS(1, stones);
    IS(1, liberties);
    IS(VINTSAKY_DONE, vintsaky_game_play(game, VINTSAKY_BLACK, B1));
    IS(1, vintsaky_game_taken_by_last_move(game, points, 25));
    IS(A1, points[0]);
    IS(VINTSAKY_DONE, vintsaky_game_captured(game, VINTSAKY_BLACK, &stones));
    IS(1, stones);
    IS(VINTSAKY_DONE, vintsaky_game_stone_at(game, B1, &colour));
    IS(VINTSAKY_BLACK, colour);
    IS(VINTSAKY_DONE, vintsaky_game_made(game, 0, &colour, &vertex));
    IS(VINTSAKY_WHITE, colour);
    IS(A1, vertex);
    IS(VINTSAKY_SUICIDE, vintsaky_game_legal(game, VINTSAKY_WHITE, A1));
    IS(VINTSAKY_DONE, vintsaky_game_legal_points(game, VINTSAKY_WHITE, points, 25, &count));
    IS(22, count);
    IS(C1, points[0]);
    IS(50 - 15, vintsaky_game_score(game));
}

/* A game stays as it was where it is given for both: by one handle, and by two to the same game. */
static void of_a_copy_of_itself(vintsaky_game *game) {
    vintsaky_game same = *game;
    uint32_t colour = 9, vertex = 9, stones = 9;
    uint64_t hash;
    IS(VINTSAKY_DONE, vintsaky_game_play(game, VINTSAKY_BLACK, B1));
    hash = vintsaky_game_hash(game);
    vintsaky_game_copy(game, game);
    vintsaky_game_copy(game, &same);
    IS(3, vintsaky_game_length(game));
    IS(VINTSAKY_DONE, vintsaky_game_made(game, 0, &colour, &vertex));
    IS(VINTSAKY_WHITE, colour);
    IS(A1, vertex);
    IS(1, hash == vintsaky_game_hash(game));
    IS(VINTSAKY_DONE, vintsaky_game_captured(game, VINTSAKY_BLACK, &stones));
    IS(1, stones);
    IS(VINTSAKY_DONE, vintsaky_game_undo(game));
    IS(VINTSAKY_DONE, vintsaky_game_stone_at(game, A1, &colour));
    IS(VINTSAKY_WHITE, colour);
    IS(2, vintsaky_game_length(game));
}

/* On the board of `of_a_capture`, where Black has stones on A2 and B1, and A1 is his eye. */
static void of_points(vintsaky_game *game) {
    uint32_t vertex = 9, points[25];
    uint8_t bytes[25];
    size_t index = 9, sum = 0;
    IS(VINTSAKY_DONE, vintsaky_game_index(game, A2, &index));
    IS(5, index);
    IS(VINTSAKY_OFF_BOARD, vintsaky_game_index(game, F1, &index));
    IS(VINTSAKY_DONE, vintsaky_game_point_at(game, 5, &vertex));
    IS(A2, vertex);
    IS(VINTSAKY_OFF_BOARD, vintsaky_game_point_at(game, 25, &vertex));
    IS(25, vintsaky_game_board(game, bytes, sizeof bytes));
    for (index = 0; index < sizeof bytes; index++) IS(index == 1 || index == 5 ? VINTSAKY_BLACK : 0, bytes[index]);
    IS(VINTSAKY_DONE, vintsaky_game_legal_mask(game, VINTSAKY_WHITE, bytes, sizeof bytes, &count));
    IS(25, count);
    for (index = 0; index < sizeof bytes; index++) sum += bytes[index];
    IS(22, sum);
    IS(0, bytes[0] | bytes[1] | bytes[5]);
    IS(VINTSAKY_DONE, vintsaky_game_chain_points(game, A2, points, 25, &count));
    IS(1, count);
    IS(A2, points[0]);
    IS(VINTSAKY_DONE, vintsaky_game_chain_liberties(game, A2, points, 25, &count));
    IS(3, count);
    IS(A1, points[0]);
    IS(B2, points[1]);
    IS(A3, points[2]);
    IS(VINTSAKY_NO_STONE, vintsaky_game_chain_points(game, A1, points, 25, &count));
}

/* There too: Black may play on 22 points but his eye, from C1 to E1, then from B2 on. White may play on the same. */
static void of_random_moves(vintsaky_game *game) {
    uint32_t vertex = 9, holds = 9;
    IS(VINTSAKY_DONE, vintsaky_game_is_own_eye(game, VINTSAKY_BLACK, A1, &holds));
    IS(1, holds);
    IS(VINTSAKY_DONE, vintsaky_game_is_own_eye(game, VINTSAKY_WHITE, A1, &holds));
    IS(0, holds);
    IS(VINTSAKY_DONE, vintsaky_game_random_move(game, VINTSAKY_BLACK, 3, &vertex));
    IS(B2, vertex);
    IS(VINTSAKY_DONE, vintsaky_game_random_move(game, VINTSAKY_WHITE, 22 * ((uint64_t)1 << 33), &vertex));
    IS(C1, vertex);
}

/* A buffer of so many bytes, each of them an x, as malloc gives it: valgrind and a sanitizer see each byte beyond. */
static char *buffer(size_t bytes) {
    char *made = (char *)malloc(bytes);
    if (!made) exit(2);
    memset(made, 'x', bytes);
    return made;
}

/* All of a buffer is written where there is room for all, else none. */
static void is_written(char *made, size_t room, size_t needed) {
    size_t at, kept = 0;
    for (at = 0; at < room; at++) kept += made[at] == 'x';
    IS(room < needed ? room : room - needed, kept);
    free(made);
}

/* Buffers that are too short, as long as what is written, and longer: of a text with its NUL, of points, and of bytes. */
static void of_rooms(vintsaky_game *game) {
    size_t room;
    char *made;
    IS(VINTSAKY_DONE, vintsaky_game_begin(game, VINTSAKY_SIMPLE, 2, 0));
    for (room = 0; room < 40; room++) {
        made = buffer(room);
        IS(32, vintsaky_game_board_text(game, made, room));
        is_written(made, room, 33);
        made = buffer(room);
        IS(VINTSAKY_DONE, vintsaky_vertex_text(Q16, made, room, &count));
        IS(3, count);
        is_written(made, room, 4);
        made = buffer(room * sizeof(uint32_t));
        IS(VINTSAKY_DONE, vintsaky_game_legal_points(game, VINTSAKY_BLACK, (uint32_t *)(void *)made, room, &count));
        IS(4, count);
        is_written(made, room * sizeof(uint32_t), 4 * sizeof(uint32_t));
        made = buffer(room);
        IS(4, vintsaky_game_board(game, (uint8_t *)made, room));
        is_written(made, room, 4);
    }
}

/* Where Black has a ko point: after a pass he has none, and all else of the position is the same. */
static void of_hashes(vintsaky_game *game) {
    uint64_t black = 9, white = 9, later = 9;
    IS(VINTSAKY_DONE, vintsaky_game_position_hash(game, VINTSAKY_BLACK, &black));
    IS(VINTSAKY_DONE, vintsaky_game_position_hash(game, VINTSAKY_WHITE, &white));
    IS(0, black == white);
    IS(VINTSAKY_DONE, vintsaky_game_play(game, VINTSAKY_BLACK, VINTSAKY_PASS));
    IS(VINTSAKY_DONE, vintsaky_game_position_hash(game, VINTSAKY_WHITE, &later));
    IS(1, white == later);
    IS(VINTSAKY_DONE, vintsaky_game_position_hash(game, VINTSAKY_BLACK, &later));
    IS(0, black == later);
}

/* Black's B1 took A1, and White's play there would take nothing. White's A1 takes B1 where C1 is White's, and B1 is the ko. */
static void of_a_ko(vintsaky_game *game) {
    uint32_t vertex = 9;
    IS(VINTSAKY_DONE, vintsaky_game_ko_point(game, VINTSAKY_WHITE, &vertex));
    IS(VINTSAKY_PASS, vertex);
    IS(VINTSAKY_DONE, vintsaky_game_begin(game, VINTSAKY_SIMPLE, 5, 0));
    IS(VINTSAKY_DONE, vintsaky_game_play(game, VINTSAKY_BLACK, B1));
    IS(VINTSAKY_DONE, vintsaky_game_play(game, VINTSAKY_WHITE, C1));
    IS(VINTSAKY_DONE, vintsaky_game_play(game, VINTSAKY_BLACK, A2));
    IS(VINTSAKY_DONE, vintsaky_game_play(game, VINTSAKY_WHITE, B2));
    IS(VINTSAKY_DONE, vintsaky_game_play(game, VINTSAKY_WHITE, A1));
    IS(VINTSAKY_DONE, vintsaky_game_ko_point(game, VINTSAKY_BLACK, &vertex));
    IS(B1, vertex);
    IS(VINTSAKY_KO, vintsaky_game_legal(game, VINTSAKY_BLACK, B1));
    IS(VINTSAKY_DONE, vintsaky_game_ko_point(game, VINTSAKY_WHITE, &vertex));
    IS(VINTSAKY_PASS, vertex);
    of_hashes(game);
}

/* On 1x1 nobody may play, so that both pass; on 9x9 the first five moves are no passes. */
static void of_playouts(vintsaky_game *game) {
    uint32_t colour = 9, vertex = 9, number;
    int32_t half_points = 9;
    IS(VINTSAKY_DONE, vintsaky_game_begin(game, VINTSAKY_SIMPLE, 1, 1));
    IS(VINTSAKY_DONE, vintsaky_game_rollout(game, VINTSAKY_BLACK, 7, 2000, &half_points));
    IS(-1, half_points);
    IS(0, vintsaky_game_length(game));
    IS(VINTSAKY_DONE, vintsaky_game_playout(game, VINTSAKY_BLACK, 7, 2000));
    IS(2, vintsaky_game_length(game));
    IS(1, vintsaky_game_finished(game));
    IS(VINTSAKY_DONE, vintsaky_game_begin(game, VINTSAKY_SIMPLE, 9, 0));
    IS(VINTSAKY_DONE, vintsaky_game_playout(game, VINTSAKY_WHITE, UINT64_MAX, 5));
    IS(5, vintsaky_game_length(game));
    for (number = 0; number < 5; number++) {
        IS(VINTSAKY_DONE, vintsaky_game_made(game, number, &colour, &vertex));
        IS(number % 2 ? VINTSAKY_BLACK : VINTSAKY_WHITE, colour);
        IS(0, vertex == VINTSAKY_PASS);
    }
}

static void of_searches(void) {
    vintsaky_game game;
    if (!vintsaky_game_new(&game)) exit(2);
    of_a_capture(&game);
    of_points(&game);
    of_random_moves(&game);
    of_a_ko(&game);
    of_rooms(&game);
    of_playouts(&game);
    vintsaky_game_free(&game);
}

static void of_games(void) {
    vintsaky_game game, other;
    uint64_t hash;
    if (!vintsaky_game_new(&game) || !vintsaky_game_new(&other)) exit(2);
    IS(0, vintsaky_game_bytes() % vintsaky_game_align());
    IS(VINTSAKY_SIMPLE, vintsaky_game_rule(&game));
    of_a_capture(&game);
    IS(VINTSAKY_POSITIONAL, vintsaky_game_rule(&game));
    hash = vintsaky_game_hash(&game);
    IS(VINTSAKY_DONE, vintsaky_game_undo(&game));
    IS(0, hash == vintsaky_game_hash(&game));
    IS(VINTSAKY_DONE, vintsaky_game_set_komi(&game, -3));
    vintsaky_game_copy(&other, &game);
    IS(2, vintsaky_game_length(&other));
    of_a_copy_of_itself(&game);
    IS(-3, vintsaky_game_komi(&other));
    IS(0, vintsaky_game_finished(&other));
    IS(VINTSAKY_NOT_EMPTY, vintsaky_game_place_handicap(&other, 2));
    IS(VINTSAKY_DONE, vintsaky_game_begin(&other, VINTSAKY_SIMPLE, 2, 0));
    SAYS(". . 2\n. . 1\nA B\ncaptures B 0 W 0", vintsaky_game_board_text(&other, TEXT));
    IS(2, vintsaky_game_size(&other));
    IS(0, vintsaky_game_handicap(&other));
    vintsaky_game_free(&game);
    vintsaky_game_free(&other);
}

static uint32_t feed(vintsaky_engine *engine, const char *words) {
    uint32_t came = vintsaky_engine_feed(engine, GIVEN(words), &used);
    IS(strlen(words), used);
    return came;
}

static void of_own_commands(vintsaky_engine *engine) {
    uint32_t id = 0;
    IS(VINTSAKY_DONE, vintsaky_engine_add_command(engine, GIVEN("hello")));
    IS(VINTSAKY_OTHER, feed(engine, "8 hello world\n"));
    IS(VINTSAKY_OTHER, vintsaky_engine_wait(engine));
    IS(VINTSAKY_DONE, vintsaky_engine_word(engine, 1, TEXT, &count));
    SAYS("world", count);
    IS(VINTSAKY_DONE, vintsaky_engine_id(engine, &id));
    IS(8, id);
    IS(VINTSAKY_DONE, vintsaky_engine_answer(engine, 1, GIVEN("hi")));
    SAYS("=8 hi\n\n", vintsaky_engine_reply(engine, TEXT));
    IS(VINTSAKY_OTHER, feed(engine, "time_left b 10 0\n"));
    IS(VINTSAKY_DONE, vintsaky_engine_decline(engine));
    SAYS("? unknown command\n\n", vintsaky_engine_reply(engine, TEXT));
}

static void of_engines(void) {
    vintsaky_engine engine;
    vintsaky_game game;
    if (!vintsaky_engine_new(&engine) || !vintsaky_game_new(&game)) exit(2);
    IS(0, vintsaky_engine_bytes() % vintsaky_engine_align());
    IS(VINTSAKY_DONE, vintsaky_engine_begin(&engine, VINTSAKY_POSITIONAL));
    IS(VINTSAKY_DONE, vintsaky_engine_set_name(&engine, GIVEN("mine")));
    IS(VINTSAKY_DONE, vintsaky_engine_set_version(&engine, GIVEN("2.1")));
    IS(VINTSAKY_REPLY, feed(&engine, "1 name\n"));
    SAYS("=1 mine\n\n", vintsaky_engine_reply(&engine, TEXT));
    IS(VINTSAKY_REPLY, feed(&engine, "version\n"));
    SAYS("= 2.1\n\n", vintsaky_engine_reply(&engine, TEXT));
    of_own_commands(&engine);
    IS(VINTSAKY_BLACK, feed(&engine, "7 genmove b\n"));
    IS(VINTSAKY_DONE, vintsaky_engine_choose(&engine, D4));
    SAYS("=7 D4\n\n", vintsaky_engine_reply(&engine, TEXT));
    vintsaky_engine_copy_game(&engine, &game);
    IS(1, vintsaky_game_length(&game));
    IS(VINTSAKY_POSITIONAL, vintsaky_game_rule(&game));
    IS(0, vintsaky_engine_ended(&engine));
    IS(VINTSAKY_REPLY, feed(&engine, "quit\n"));
    IS(1, vintsaky_engine_ended(&engine));
    vintsaky_engine_free(&engine);
    vintsaky_game_free(&game);
}

/* The next command is for this side, and it is this one. */
static void sends(int line, vintsaky_match *held, uint32_t side, const char *wanted) {
    uint32_t next_side = 0;
    is(__FILE__, line, VINTSAKY_SEND, vintsaky_match_next(held, &next_side));
    is(__FILE__, line, side, next_side);
    is(__FILE__, line, VINTSAKY_DONE, vintsaky_match_send(held, side, TEXT, &count));
    says(__FILE__, line, wanted, count);
}

static void hears(int line, vintsaky_match *held, uint32_t side, const char *words) {
    uint32_t loss = 9;
    is(__FILE__, line, VINTSAKY_DONE, vintsaky_match_hear(held, side, GIVEN(words), &loss));
    is(__FILE__, line, 0, loss);
}

#define SENDS(side, wanted) sends(__LINE__, held, side, wanted)
#define HEARS(side, words) hears(__LINE__, held, side, words)

/* A side is brought to the beginning of a game on 2x2. */
static void set_up(vintsaky_match *held, uint32_t side) {
    uint32_t other = 9, confirmed = 9, unanswered = 9, asked = 9, holds = 9;
    char wrote[8];
    size_t wrote_count = 9;
    IS(VINTSAKY_NO_ROOM, vintsaky_match_send(held, side, text, sizeof "1 boardsize 2\n" - 1, &count));
    SENDS(side, "1 boardsize 2\n");
    SENDS(side, "2 komi 0\n");
    SENDS(side, "3 clear_board\n");
    IS(VINTSAKY_WAIT, vintsaky_match_next(held, &other));
    IS(side, other);
    HEARS(side, "=1\n\n=");
    IS(VINTSAKY_DONE, vintsaky_match_status(held, side, &confirmed, &unanswered, &asked));
    IS(1, confirmed);
    IS(2, unanswered);
    IS(0, asked);
    IS(VINTSAKY_DONE, vintsaky_match_owed(held, side, &unanswered, TEXT, &count, wrote, sizeof wrote, &wrote_count));
    IS(2, unanswered);
    SAYS("2 komi 0", count);
    IS(1, wrote_count);
    IS('=', wrote[0]);
    HEARS(side, "2\n\n=3\n\n");
    IS(VINTSAKY_DONE, vintsaky_match_in_step(held, side, &holds));
    IS(1, holds);
}

/* White refuses Black's move, which is taken back. */
static void retake(vintsaky_match *held) {
    uint32_t loss = 9, retaken = 9, unanswered = 9;
    char command[64];
    size_t command_count = 9;
    SENDS(VINTSAKY_BLACK, "4 genmove b\n");
    HEARS(VINTSAKY_BLACK, "=4 A1\n\n");
    SENDS(VINTSAKY_WHITE, "4 play b A1\n");
    IS(VINTSAKY_DONE, vintsaky_match_hear_reporting(held, VINTSAKY_WHITE, GIVEN("?4 no\n\n"), &loss, &retaken, &unanswered, command,
        sizeof command, &command_count, TEXT, &count));
    IS(0, loss);
    IS(1, retaken);
    IS(1, unanswered);
    IS(11, command_count);
    IS(0, strcmp("4 play b A1", command));
    IS(0, strncmp("?4 no", text, 5));
    IS(VINTSAKY_BLACK, vintsaky_match_taking_back(held));
    IS(1, vintsaky_match_retakes(held, 1));
    SENDS(VINTSAKY_BLACK, "5 undo\n");
    HEARS(VINTSAKY_BLACK, "=5\n\n");
    IS(0, vintsaky_match_taking_back(held));
}

static void begin(vintsaky_match *held) {
    uint32_t side = 9;
    IS(VINTSAKY_DONE, vintsaky_match_begin(held, 2, 0, 0, 10, 1));
    IS(VINTSAKY_START, vintsaky_match_next(held, &side));
    IS(VINTSAKY_BLACK, side);
    IS(VINTSAKY_DONE, vintsaky_match_started(held, VINTSAKY_BLACK));
}

/* A referee ends a match: White is late, and what it writes then isn't heard. The next match ends for a reason. */
static void of_rulings(vintsaky_match *held) {
    uint32_t ending = 9, side = 9, loss = 9;
    int32_t half_points = 9;
    begin(held);
    IS(VINTSAKY_BAD_COLOUR, vintsaky_match_adjudicate(held, 3, GIVEN("late")));
    IS(VINTSAKY_BAD_REASON, vintsaky_match_adjudicate(held, VINTSAKY_WHITE, GIVEN("no move")));
    IS(VINTSAKY_DONE, vintsaky_match_adjudicate(held, VINTSAKY_WHITE, GIVEN("")));
    IS(VINTSAKY_IS_OVER, vintsaky_match_adjudicate(held, VINTSAKY_BLACK, GIVEN("late!")));
    IS(VINTSAKY_OVER, vintsaky_match_next(held, &side));
    IS(0, side);
    IS(VINTSAKY_DONE, vintsaky_match_hear(held, VINTSAKY_BLACK, GIVEN("hello\n"), &loss));
    IS(0, loss);
    IS(VINTSAKY_DONE, vintsaky_match_lost(held, VINTSAKY_BLACK));
    IS(VINTSAKY_DONE, vintsaky_match_verdict(held, &ending, &side, &half_points));
    IS(VINTSAKY_BY_TIME, ending);
    IS(VINTSAKY_WHITE, side);
    IS(0, half_points);
    IS(VINTSAKY_DONE, vintsaky_match_result(held, 3, TEXT, &count));
    SAYS("game 3: B+T moves 0 restarts 0 0", count);
    SAYS("", vintsaky_match_reason(held, TEXT));
    begin(held);
    IS(VINTSAKY_DONE, vintsaky_match_adjudicate(held, VINTSAKY_BLACK, GIVEN("too late")));
    IS(VINTSAKY_DONE, vintsaky_match_verdict(held, &ending, &side, &half_points));
    IS(VINTSAKY_BY_RULING, ending);
    IS(VINTSAKY_BLACK, side);
    SAYS("too late", vintsaky_match_reason(held, TEXT));
    IS(VINTSAKY_DONE, vintsaky_match_result(held, 4, TEXT, &count));
    SAYS("game 4: W+F(too late) moves 0 restarts 0 0", count);
}

/* On 7x7 Black has two stones, and White begins. Two passes end the match: all points are Black's, less a komi of half a point. */
static void of_a_handicap(vintsaky_match *held) {
    static const char *const owed[] = {"1 boardsize 7\n", "2 komi 0.5\n", "3 clear_board\n", "4 fixed_handicap 2\n"};
    uint32_t ending = 9, side = 9, number;
    int32_t half_points = 9;
    IS(VINTSAKY_DONE, vintsaky_match_begin(held, 7, 1, 2, 10, 0));
    for (side = VINTSAKY_BLACK; side <= VINTSAKY_WHITE; side++) IS(VINTSAKY_DONE, vintsaky_match_started(held, side));
    for (side = VINTSAKY_BLACK; side <= VINTSAKY_WHITE; side++) {
        for (number = 0; number < 4; number++) SENDS(side, owed[number]);
        HEARS(side, "=1\n\n=2\n\n=3\n\n=4 C3 E5\n\n");
    }
    SENDS(VINTSAKY_WHITE, "5 genmove w\n");
    HEARS(VINTSAKY_WHITE, "=5 pass\n\n");
    SENDS(VINTSAKY_BLACK, "5 play w pass\n");
    HEARS(VINTSAKY_BLACK, "=5\n\n");
    SENDS(VINTSAKY_BLACK, "6 genmove b\n");
    HEARS(VINTSAKY_BLACK, "=6 PASS\n\n");
    IS(VINTSAKY_OVER, vintsaky_match_next(held, &side));
    IS(VINTSAKY_DONE, vintsaky_match_verdict(held, &ending, &side, &half_points));
    IS(VINTSAKY_BY_SCORE, ending);
    IS(0, side);
    IS(98 - 1, half_points);
    IS(VINTSAKY_DONE, vintsaky_match_result(held, 1, TEXT, &count));
    SAYS("game 1: B+48.5 moves 2 restarts 0 0", count);
}

static void of_matches(void) {
    vintsaky_match match, *held = &match;
    vintsaky_game game;
    uint32_t ending = 9, side = 9, restarts = 9;
    int32_t half_points = 9;
    if (!vintsaky_match_new(held) || !vintsaky_game_new(&game)) exit(2);
    IS(0, vintsaky_match_bytes() % vintsaky_match_align());
    begin(held);
    IS(VINTSAKY_DONE, vintsaky_match_lost(held, VINTSAKY_BLACK));
    IS(VINTSAKY_DONE, vintsaky_match_started(held, VINTSAKY_BLACK));
    IS(VINTSAKY_DONE, vintsaky_match_restarts(held, VINTSAKY_BLACK, &restarts));
    IS(1, restarts);
    begin(held);
    IS(VINTSAKY_DONE, vintsaky_match_started(held, VINTSAKY_WHITE));
    set_up(held, VINTSAKY_BLACK);
    set_up(held, VINTSAKY_WHITE);
    retake(held);
    SENDS(VINTSAKY_BLACK, "6 genmove b\n");
    HEARS(VINTSAKY_BLACK, "=6 B1\n\n");
    SENDS(VINTSAKY_WHITE, "5 play b B1\n");
    HEARS(VINTSAKY_WHITE, "=5\n\n");
    SENDS(VINTSAKY_WHITE, "6 genmove w\n");
    IS(VINTSAKY_NOT_OVER, vintsaky_match_verdict(held, &ending, &side, &half_points));
    HEARS(VINTSAKY_WHITE, "=6 resign\n\n");
    IS(VINTSAKY_OVER, vintsaky_match_next(held, &side));
    IS(VINTSAKY_DONE, vintsaky_match_verdict(held, &ending, &side, &half_points));
    IS(VINTSAKY_BY_RESIGNATION, ending);
    IS(VINTSAKY_WHITE, side);
    IS(0, half_points);
    IS(VINTSAKY_DONE, vintsaky_match_result(held, 3, TEXT, &count));
    SAYS("game 3: B+R moves 1 restarts 0 0", count);
    SAYS("B1", vintsaky_match_record(held, TEXT));
    vintsaky_match_copy_game(held, &game);
    IS(1, vintsaky_game_length(&game));
    of_a_handicap(held);
    of_rulings(held);
    vintsaky_match_free(held);
    vintsaky_game_free(&game);
}

static void of_lines(void) {
    vintsaky_lines lines;
    uint32_t id = 0;
    if (!vintsaky_lines_new(&lines)) exit(2);
    IS(0, vintsaky_lines_bytes() % vintsaky_lines_align());
    IS(0, vintsaky_lines_feed(&lines, GIVEN("5 play"), &used));
    IS(VINTSAKY_LINE, vintsaky_lines_feed(&lines, GIVEN(" b D4\nname\n"), &used));
    IS(6, used);
    IS(VINTSAKY_DONE, vintsaky_lines_id(&lines, &id));
    IS(5, id);
    IS(VINTSAKY_DONE, vintsaky_lines_word(&lines, 2, TEXT, &count));
    SAYS("D4", count);
    vintsaky_lines_free(&lines);
}

static void of_replies(void) {
    vintsaky_replies replies;
    uint32_t id = 0;
    if (!vintsaky_replies_new(&replies)) exit(2);
    IS(0, vintsaky_replies_bytes() % vintsaky_replies_align());
    IS(VINTSAKY_READ, vintsaky_replies_feed(&replies, GIVEN("=5 A1\n\n=6\n\n"), &used));
    IS(7, used);
    IS(1, vintsaky_replies_ok(&replies));
    IS(VINTSAKY_DONE, vintsaky_replies_id(&replies, &id));
    IS(5, id);
    SAYS("A1", vintsaky_replies_text(&replies, TEXT));
    vintsaky_replies_free(&replies);
}

/* Errors: numbers that stand for nothing, and what isn't there. */
static void of_mistakes(void) {
    vintsaky_game game;
    vintsaky_lines lines;
    vintsaky_replies replies;
    uint32_t number = 0, vertex = 0;
    if (!vintsaky_game_new(&game) || !vintsaky_lines_new(&lines) || !vintsaky_replies_new(&replies)) exit(2);
    IS(VINTSAKY_BAD_RULE, vintsaky_game_begin(&game, 3, 5, 0));
    IS(VINTSAKY_BAD_SIZE, vintsaky_game_begin(&game, VINTSAKY_SIMPLE, 26, 0));
    IS(VINTSAKY_BAD_KOMI, vintsaky_game_set_komi(&game, 2000000000));
    IS(VINTSAKY_BAD_COLOUR, vintsaky_game_play(&game, 3, A1));
    IS(VINTSAKY_BAD_VERTEX, vintsaky_game_play(&game, VINTSAKY_BLACK, 26 * 256 + 1));
    IS(VINTSAKY_NO_MOVE, vintsaky_game_made(&game, 0, &number, &vertex));
    IS(VINTSAKY_NO_LINE, vintsaky_lines_id(&lines, &number));
    IS(VINTSAKY_BAD_COMMAND, vintsaky_write_command(-1, 9, 0, 0, TEXT, &count));
    IS(VINTSAKY_BAD_ID, vintsaky_write_reply(-2, 1, GIVEN(""), TEXT, &count));
    IS(VINTSAKY_NO_REPLY, vintsaky_replies_feed(&replies, GIVEN("hello\n"), &used));
    IS(VINTSAKY_NO_REPLY, vintsaky_replies_feed(&replies, GIVEN("=5\n\n"), &used));
    IS(0, used);
    SAYS("Unknown error number.", vintsaky_cause_text(37, TEXT));
    vintsaky_game_free(&game);
    vintsaky_lines_free(&lines);
    vintsaky_replies_free(&replies);
}

#ifndef NO_MAIN
static void each_call(void) {
    of_the_library();
    of_values();
    of_games();
    of_searches();
    of_many_games();
    of_engines();
    of_matches();
    of_lines();
    of_replies();
    of_mistakes();
}

#ifdef THREADS
static void *run(void *given) {
    int round;
    for (round = 0; round < ROUNDS && !wrong; round++) each_call();
    *(int *)given = wrong;
    return NULL;
}

int main(void) {
    pthread_t threads[THREADS];
    pthread_attr_t attributes;
    int came[THREADS], failed = 0, at;
    pthread_attr_init(&attributes);
    if (pthread_attr_setstacksize(&attributes, STACK_KB * 1024)) return 2;
    for (at = 0; at < THREADS; at++)
        if (pthread_create(&threads[at], &attributes, run, &came[at])) return 2;
    for (at = 0; at < THREADS; at++) {
        pthread_join(threads[at], NULL);
        failed += came[at];
    }
    return failed != 0;
}
#else
int main(void) {
    each_call();
    return wrong;
}
#endif
#endif
