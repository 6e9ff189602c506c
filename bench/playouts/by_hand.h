/* A board as one writes it by hand in C for playouts alone, without a proof: an array with an edge around the board, chains as rings of
 * their stones, of each chain the number of its pseudo-liberties, simple ko as one point. There is no record, and nothing is taken back.
 *
 * `playout` makes the moves of vintsaky_game_playout under simple ko, move for move: tests/library/test_playouts.py compares them. */
#include <stdbool.h>
#include <stdint.h>
#include <string.h>

#include "words.h"

enum { EMPTY, BLACK, WHITE, EDGE };
enum { COLUMN = 1, ROW = 32, PLACES = 27 * ROW, MOST_POINTS = 625, MOST_MOVES = 2000, NOWHERE = 0 };
enum { ONE_BLACK = 1, ONE_WHITE = 16, ALL = 4 };

typedef struct {
    uint8_t stone[PLACES];   /* what is on each place */
    uint8_t beside[PLACES];  /* how many stones are beside it: the low four bits of Black, the high four of White; an edge counts as both */
    uint16_t chain[PLACES];  /* of a stone the place that names its chain: that of one of its stones */
    uint16_t next[PLACES];   /* of a stone the next one of its chain, in a ring */
    uint16_t pseudo[PLACES]; /* of a chain its pseudo-liberties: pairs of a stone and an empty point beside it */
    uint16_t stones[PLACES]; /* of a chain its stones */
    uint16_t order[MOST_POINTS]; /* the empty points, in the order in which they are drawn */
    uint32_t empty;
    int size, half_komi;
    int ko, ko_colour; /* the point on which this colour may not play, or NOWHERE */
    int made, passes;  /* moves of the record, and how many passes are its last ones */
} board;

static const int steps[4] = {COLUMN, -COLUMN, ROW, -ROW};
static const int diagonals[4] = {ROW + COLUMN, ROW - COLUMN, -ROW + COLUMN, -ROW - COLUMN};

static inline int other(int colour) {
    return BLACK + WHITE - colour;
}

static inline uint8_t one_of(int stone) {
    return stone == BLACK ? ONE_BLACK : stone == WHITE ? ONE_WHITE : stone == EDGE ? ONE_BLACK + ONE_WHITE : 0;
}

/* How many places beside this one have a stone of this colour, or are edge. */
static inline int count_beside(const board *b, int place, int colour) {
    return colour == BLACK ? b->beside[place] & 15 : b->beside[place] >> 4;
}

static void list_empty(board *b) {
    b->empty = 0;
    for (int row = 1; row <= b->size; row++)
        for (int place = row * ROW + 1; place <= row * ROW + b->size; place++)
            if (b->stone[place] == EMPTY) b->order[b->empty++] = (uint16_t)place;
}

static void begin(board *b, int size, int half_komi) {
    memset(b, 0, sizeof *b);
    b->size = size, b->half_komi = half_komi;
    memset(b->stone, EDGE, sizeof b->stone);
    for (int row = 1; row <= size; row++) memset(b->stone + row * ROW + 1, EMPTY, (size_t)size);
    list_empty(b);
    for (uint32_t i = 0; i < b->empty; i++)
        for (int at = 0; at < 4; at++) b->beside[b->order[i]] += one_of(b->stone[b->order[i] + steps[at]]);
}

static inline bool is_own_eye(const board *b, int place, int colour) {
    if (count_beside(b, place, colour) != ALL) return false;
    int others = 0, edges = 0;
    for (int at = 0; at < 4; at++) {
        int stone = b->stone[place + diagonals[at]];
        others += stone == other(colour), edges += stone == EDGE;
    }
    return others < (edges ? 1 : 2);
}

/* Each chain beside the place loses or gains a pseudo-liberty for each of its stones there. */
static inline void count_pseudo(board *b, int place, int change) {
    for (int at = 0; at < 4; at++) {
        int near = place + steps[at];
        if (b->stone[near] != EDGE) b->pseudo[b->chain[near]] = (uint16_t)(b->pseudo[b->chain[near]] + change);
    }
}

/* May a stone of this colour be put on this empty place? */
static inline bool is_legal(board *b, int place, int colour) {
    bool is_free = false;
    if (b->ko == place && b->ko_colour == colour) return false;
    for (int at = 0; at < 4; at++)
        if (b->stone[place + steps[at]] == EMPTY) return true;
    count_pseudo(b, place, -1);
    for (int at = 0; at < 4; at++) {
        int near = place + steps[at], stone = b->stone[near];
        if (stone != EDGE) is_free |= stone == colour ? b->pseudo[b->chain[near]] > 0 : b->pseudo[b->chain[near]] == 0;
    }
    count_pseudo(b, place, 1);
    return is_free;
}

/* A stone comes to a place, or where the sign is -1 goes from it: those beside it count it. */
static inline void count_stone(board *b, int place, int colour, int sign) {
    int change = sign * one_of(colour);
    for (int at = 0; at < 4; at++) b->beside[place + steps[at]] = (uint8_t)(b->beside[place + steps[at]] + change);
}

static inline void put(board *b, int place, int colour) {
    b->stone[place] = (uint8_t)colour;
    count_stone(b, place, colour, 1);
    b->chain[place] = b->next[place] = (uint16_t)place;
    b->stones[place] = 1, b->pseudo[place] = 0;
    for (int at = 0; at < 4; at++) {
        int near = place + steps[at];
        if (b->stone[near] == EMPTY) b->pseudo[place]++;
        else b->pseudo[b->chain[near]]--; /* that of the edge, which nobody reads, may wrap */
    }
}

/* Two chains become one, by the name of the larger one. */
static inline void join(board *b, int one, int two) {
    int kept = b->stones[one] < b->stones[two] ? two : one, gone = one + two - kept, place = gone;
    b->pseudo[kept] = (uint16_t)(b->pseudo[kept] + b->pseudo[gone]);
    b->stones[kept] = (uint16_t)(b->stones[kept] + b->stones[gone]);
    do b->chain[place] = (uint16_t)kept, place = b->next[place];
    while (place != gone);
    uint16_t after = b->next[kept];
    b->next[kept] = b->next[gone], b->next[gone] = after;
}

/* Takes a chain from the board. Its points come behind the others in the order. */
static inline void take(board *b, int chain) {
    int place = chain;
    do {
        count_stone(b, place, b->stone[place], -1);
        b->stone[place] = EMPTY;
        b->order[b->empty++] = (uint16_t)place;
        place = b->next[place];
    } while (place != chain);
    do {
        for (int at = 0; at < 4; at++) b->pseudo[b->chain[place + steps[at]]]++;
        place = b->next[place];
    } while (place != chain);
}

/* What the order has from this place on is put into the board's order. */
static inline void sort_from(board *b, uint32_t first) {
    for (uint32_t i = first + 1; i < b->empty; i++) {
        uint16_t moved = b->order[i];
        uint32_t at = i;
        for (; at > first && b->order[at - 1] > moved; at--) b->order[at] = b->order[at - 1];
        b->order[at] = moved;
    }
}

/* Plays the point at this place of the order: the last of the order takes the place, and what is taken comes behind. */
static inline void play(board *b, uint32_t drawn, int colour) {
    int place = b->order[drawn];
    bool is_surrounded = count_beside(b, place, other(colour)) == ALL;
    b->order[drawn] = b->order[--b->empty];
    uint32_t kept = b->empty;
    put(b, place, colour);
    for (int at = 0; at < 4; at++) {
        int near = place + steps[at], stone = b->stone[near];
        if (stone == colour && b->chain[near] != b->chain[place]) join(b, b->chain[place], b->chain[near]);
        if (stone == other(colour) && b->pseudo[b->chain[near]] == 0) take(b, b->chain[near]);
    }
    sort_from(b, kept);
    b->ko = is_surrounded && b->empty == kept + 1 ? b->order[kept] : NOWHERE;
    b->ko_colour = other(colour);
    b->made++, b->passes = 0;
}

static inline void pass(board *b) {
    b->ko = NOWHERE;
    b->made++, b->passes++;
}

/* Draws points until one comes that may be played and is no own eye; passes where there is none. Returns the place, or NOWHERE. */
static inline int turn(board *b, int colour, generator *words) {
    for (uint32_t left = b->empty; left > 0;) {
        uint32_t drawn = draw(words, left);
        uint16_t place = b->order[drawn];
        if (!is_own_eye(b, place, colour) && is_legal(b, place, colour)) {
            play(b, drawn, colour);
            return place;
        }
        left--;
        b->order[drawn] = b->order[left], b->order[left] = place;
    }
    pass(b);
    return NOWHERE;
}

/* Is the playout over, which has made so many moves? */
static inline bool is_over(const board *b, uint32_t moves, uint32_t limit) {
    return b->passes >= 2 || moves == limit || b->made == MOST_MOVES;
}

/* Makes moves of both colours by turns. Returns how many. */
static inline uint32_t playout(board *b, int colour, generator *words, uint32_t limit) {
    uint32_t moves = 0;
    list_empty(b);
    for (; !is_over(b, moves, limit); moves++, colour = other(colour)) turn(b, colour, words);
    return moves;
}

/* What is beside a place, a bit for each kind. */
static inline int kinds_beside(const board *b, int place) {
    return 1 << b->stone[place + COLUMN] | 1 << b->stone[place - COLUMN] | 1 << b->stone[place + ROW] | 1 << b->stone[place - ROW];
}

/* Marks a whole empty region. How many points it has; the kinds of what is beside them are added. */
static int region(const board *b, int first, uint8_t *marked, int *kinds) {
    uint16_t found[MOST_POINTS];
    int count = 1;
    found[0] = (uint16_t)first, marked[first] = 1;
    for (int i = 0; i < count; i++) {
        *kinds |= kinds_beside(b, found[i]);
        for (int at = 0; at < 4; at++) {
            int near = found[i] + steps[at];
            if (b->stone[near] == EMPTY && !marked[near]) marked[near] = 1, found[count++] = (uint16_t)near;
        }
    }
    return count;
}

/* What the region of an empty point adds to Black's lead, once for all its points. Most regions are one point. */
static inline int lead_of(const board *b, int place, uint8_t *marked) {
    int kinds = kinds_beside(b, place), points = marked[place] ? 0 : 1;
    if (points && kinds & 1 << EMPTY) points = region(b, place, marked, &kinds);
    bool by_black = kinds & 1 << BLACK, by_white = kinds & 1 << WHITE;
    return (by_black - by_white) * points;
}

/* Black's area less White's, and less the komi, in half points. */
static inline int score(const board *b) {
    uint8_t marked[PLACES] = {0};
    int lead = 0;
    for (int row = 1; row <= b->size; row++)
        for (int place = row * ROW + 1; place <= row * ROW + b->size; place++) {
            int stone = b->stone[place];
            lead += stone == EMPTY ? lead_of(b, place, marked) : stone == BLACK ? 1 : -1;
        }
    return 2 * lead - b->half_komi;
}
