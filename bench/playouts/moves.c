/* Plays on the board by hand what a line asks for, for the tests: its size, half points of komi, the colour that begins, the seed and the
 * limit; how many moves come before, and of each its colour and its vertex. It prints the vertices of the playout's moves, a colon, and
 * the score in half points. A vertex is as in vintsaky.h: a row times 256 and a column, or 0 for a pass. */
#include <inttypes.h>
#include <stdio.h>

#include "by_hand.h"

static board held;

/* The place of a point in the order, which has it. */
static uint32_t find(int place) {
    uint32_t at = 0;
    while (held.order[at] != place) at++;
    return at;
}

static void make(int colour, int vertex) {
    if (vertex == 0) pass(&held);
    else play(&held, find(vertex / 256 * ROW + vertex % 256), colour);
}

static void print_playout(int colour, uint64_t seed, uint32_t limit) {
    generator words = generator_of(seed);
    list_empty(&held);
    for (uint32_t moves = 0; !is_over(&held, moves, limit); moves++, colour = other(colour)) {
        int place = turn(&held, colour, &words);
        printf("%d ", place / ROW * 256 + place % ROW);
    }
    printf(": %d\n", score(&held));
}

int main(void) {
    int size, half_komi, colour, before, mover, vertex;
    uint64_t seed;
    uint32_t limit;
    while (scanf("%d %d %d %" SCNu64 " %" SCNu32 " %d", &size, &half_komi, &colour, &seed, &limit, &before) == 6) {
        begin(&held, size, half_komi);
        while (before-- > 0 && scanf("%d %d", &mover, &vertex) == 2) make(mover, vertex);
        print_playout(colour, seed, limit);
    }
    return 0;
}
