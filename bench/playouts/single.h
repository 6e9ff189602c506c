/* A playout as a caller writes it over single calls of the library: a mirror of the board in an array, the empty points in a list, and a
 * play as the test of legality. It makes the moves of vintsaky_game_rollout, and comes to the same score. */
#include "words.h"

enum { EDGE = 3, ROW = 256, PLACES = 27 * ROW };
static const uint32_t steps[4] = {1, (uint32_t)-1, ROW, (uint32_t)-ROW};
static const uint32_t diagonals[4] = {ROW + 1, ROW - 1, (uint32_t)-ROW + 1, (uint32_t)-ROW - 1};

static uint8_t stone[PLACES]; /* what is on each vertex */
static uint32_t order[VINTSAKY_MOST_POINTS], empty;

static void read_board(vintsaky_game *game) {
    uint8_t bytes[VINTSAKY_MOST_POINTS], *next = bytes;
    uint32_t size = vintsaky_game_size(game);
    vintsaky_game_board(game, bytes, sizeof bytes);
    memset(stone, EDGE, sizeof stone);
    empty = 0;
    for (uint32_t row = 1; row <= size; row++)
        for (uint32_t vertex = row * ROW + 1; vertex <= row * ROW + size; vertex++) {
            stone[vertex] = *next++;
            if (stone[vertex] == 0) order[empty++] = vertex;
        }
}

static inline bool is_own_eye(uint32_t vertex, uint32_t colour) {
    uint32_t others = 0, edges = 0;
    for (int at = 0; at < 4; at++) {
        uint8_t near = stone[vertex + steps[at]];
        if (near != EDGE && near != colour) return false;
    }
    for (int at = 0; at < 4; at++) {
        uint8_t near = stone[vertex + diagonals[at]];
        others += near == 3 - colour, edges += near == EDGE;
    }
    return others < (edges ? 1 : 2);
}

/* The point at this place of the order was played: what the play took comes behind. */
static inline void note_play(vintsaky_game *game, uint32_t drawn, uint32_t colour) {
    stone[order[drawn]] = (uint8_t)colour;
    order[drawn] = order[--empty];
    size_t taken = vintsaky_game_taken_by_last_move(game, order + empty, VINTSAKY_MOST_POINTS - empty);
    for (; taken > 0; taken--) stone[order[empty++]] = 0;
}

static inline void turn(vintsaky_game *game, uint32_t colour, generator *words) {
    for (uint32_t left = empty; left > 0;) {
        uint32_t drawn = draw(words, left), vertex = order[drawn];
        if (!is_own_eye(vertex, colour) && vintsaky_game_play(game, colour, vertex) == VINTSAKY_DONE) {
            note_play(game, drawn, colour);
            return;
        }
        left--;
        order[drawn] = order[left], order[left] = vertex;
    }
    vintsaky_game_play(game, colour, VINTSAKY_PASS);
}

/* The score after a playout, in half points. The game is a copy, and is played on. */
static int32_t single_rollout(vintsaky_game *game, uint32_t colour, uint64_t seed) {
    generator words = generator_of(seed);
    read_board(game);
    for (; !vintsaky_game_finished(game) && vintsaky_game_length(game) < VINTSAKY_MOST_MOVES; colour = 3 - colour)
        turn(game, colour, &words);
    return vintsaky_game_score(game);
}
