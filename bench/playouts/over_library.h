/* What playouts.c measures over the library. */
#include "vintsaky.h"

#include "single.h"

static vintsaky_game root, held;
static uint32_t moves; /* of a playout, whose vertices these are; both colours move by turns */
static uint32_t made[VINTSAKY_MOST_MOVES], listed[VINTSAKY_MOST_POINTS];

static bool start(void) {
    return vintsaky_game_new(&root) && vintsaky_game_new(&held);
}

static void make_root(void) {
    vintsaky_game_begin(&root, VINTSAKY_SIMPLE, lines, HALF_KOMI);
    vintsaky_game_copy(&held, &root);
}

static int64_t make_rollouts(void) {
    int64_t sum = 0;
    int32_t half_points = 0;
    for (uint64_t seed = 0; seed < count; seed++) {
        vintsaky_game_rollout(&root, VINTSAKY_BLACK, seed, UINT32_MAX, &half_points);
        sum += half_points;
    }
    return sum;
}

static int64_t make_single(void) {
    int64_t sum = 0;
    for (uint64_t seed = 0; seed < count; seed++) {
        vintsaky_game_copy(&held, &root);
        sum += single_rollout(&held, VINTSAKY_BLACK, seed);
    }
    return sum;
}

/* ---- a play, an undo, a copy */

static void make_moves(void) {
    uint32_t colour;
    make_root();
    single_rollout(&held, VINTSAKY_BLACK, 0);
    moves = (uint32_t)vintsaky_game_length(&held);
    for (uint32_t at = 0; at < moves; at++) vintsaky_game_made(&held, at, &colour, &made[at]);
}

static int64_t play_moves(void) {
    for (uint32_t at = 0; at < moves; at++) vintsaky_game_play(&held, at % 2 ? VINTSAKY_WHITE : VINTSAKY_BLACK, made[at]);
    return (int64_t)vintsaky_game_length(&held);
}

static int64_t undo_moves(void) {
    while (vintsaky_game_undo(&held) == VINTSAKY_DONE) {}
    return (int64_t)vintsaky_game_length(&held);
}

static int64_t copy_game(void) {
    for (uint32_t at = 0; at < moves; at++) vintsaky_game_copy(&root, &held);
    return (int64_t)vintsaky_game_length(&root);
}

/* ---- all legal points under positional ko */

/* Plays so many random points, own eyes too: a pass only where none may be played. */
static void make_long_game(void) {
    generator words = generator_of(1);
    uint32_t colour = VINTSAKY_BLACK;
    vintsaky_game_begin(&held, VINTSAKY_POSITIONAL, lines, HALF_KOMI);
    for (int at = 0; at < BEFORE; at++, colour = 3 - colour) {
        uint32_t tries = 4 * lines * lines, vertex;
        do vertex = (draw(&words, lines) + 1) * ROW + draw(&words, lines) + 1;
        while (vintsaky_game_play(&held, colour, vertex) != VINTSAKY_DONE && --tries > 0);
        if (tries == 0) vintsaky_game_play(&held, colour, VINTSAKY_PASS);
    }
}

static int64_t list_points(void) {
    size_t points = 0;
    vintsaky_game_legal_points(&held, VINTSAKY_BLACK, listed, VINTSAKY_MOST_POINTS, &points);
    return (int64_t)points;
}

static void leave(void) {
}

static void run(void) {
    measure("rollouts", count, make_root, make_rollouts);
    measure("single", count, make_root, make_single);
    make_moves();
    measure("plays", moves, make_root, play_moves);
    measure("copies", moves, make_moves, copy_game);
    measure("undos", moves, make_moves, undo_moves);
    make_long_game();
    measure("positional", 1, leave, list_points);
}
