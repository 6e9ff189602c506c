/* What bench/playouts/run measures, in C. With BY_HAND it is over the board by hand, else over the library.
 *
 * A line has the size, what was done, the nanoseconds of the best of several rounds, how often it was done in one, and what came of it. */
#define _POSIX_C_SOURCE 199309L
#include <inttypes.h>
#include <stdbool.h>
#include <stdio.h>
#include <string.h>
#include <time.h>

enum { ROUNDS = 100, HALF_KOMI = 15, BEFORE = 1000 };
static uint32_t lines, count; /* the size of the board, and how many rollouts are made */

static uint64_t now(void) {
    struct timespec time;
    clock_gettime(CLOCK_MONOTONIC, &time);
    return (uint64_t)time.tv_sec * 1000000000u + (uint64_t)time.tv_nsec;
}

/* Measures a work, which returns what came of it; before each round it is made ready. */
static void measure(const char *what, uint64_t times, void (*ready)(void), int64_t (*work)(void)) {
    uint64_t best = UINT64_MAX;
    int64_t came = 0;
    for (int round = 0; round < ROUNDS; round++) {
        ready();
        uint64_t start = now();
        came = work();
        uint64_t time = now() - start;
        if (time < best) best = time;
    }
    printf("%" PRIu32 " %s %" PRIu64 " %" PRIu64 " %" PRId64 "\n", lines, what, best, times, came);
}

#ifdef BY_HAND
#include "by_hand.h"

static board root, held;

static void make_root(void) {
    begin(&root, (int)lines, HALF_KOMI);
}

static int64_t make_rollouts(void) {
    int64_t sum = 0;
    for (uint64_t seed = 0; seed < count; seed++) {
        generator words = generator_of(seed);
        held = root;
        playout(&held, BLACK, &words, UINT32_MAX);
        sum += score(&held);
    }
    return sum;
}

static void run(void) {
    measure("rollouts", count, make_root, make_rollouts);
}

static bool start(void) {
    return true;
}
#else
#include "over_library.h"
#endif

int main(void) {
    static const uint32_t sizes[2] = {9, 19}, counts[2] = {100, 25};
    if (!start()) return 1;
    for (int at = 0; at < 2; at++) lines = sizes[at], count = counts[at], run();
    return 0;
}
