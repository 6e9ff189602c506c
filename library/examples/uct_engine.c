/* An engine that searches by UCT: a tree of moves, with a copy of the game in each node, and random playouts by the library.
 *
 * usage: uct_engine [PLAYOUTS [SEED]]: PLAYOUTS playouts for each choice, 1000 by default */
#include "vintsaky.h"
#include <math.h>
#include <stdio.h>
#include <unistd.h>

enum { MOST_NODES = 1 << 20 };
typedef struct {
    uint32_t vertex, colour; /* the move that leads here, and its colour */
    vintsaky_game game;      /* the game after that move, from the first visit on */
    uint32_t first, count;   /* the nodes after this one, from the second visit on */
    double visits, wins;     /* playouts through this node, and how many of them its colour won; a draw counts half */
} node;

static node *nodes;
static uint32_t used, playouts = 1000;
static uint64_t seed;

static void add(uint32_t vertex, uint32_t colour) {
    nodes[used++] = (node){.vertex = vertex, .colour = colour};
}

/* Adds the moves after a node, if the game isn't over and there is space: a pass, and all legal points except own eyes. */
static void expand(node *at) {
    uint32_t points[VINTSAKY_MOST_POINTS], colour = 3 - at->colour, is_eye = 0;
    size_t count = 0;
    if (vintsaky_game_finished(&at->game) || MOST_NODES - used <= VINTSAKY_MOST_POINTS) return;
    vintsaky_game_legal_points(&at->game, colour, points, VINTSAKY_MOST_POINTS, &count);
    at->first = used;
    for (size_t i = 0; i < count; i++) {
        vintsaky_game_is_own_eye(&at->game, colour, points[i], &is_eye);
        if (!is_eye) add(points[i], colour);
    }
    add(VINTSAKY_PASS, colour);
    at->count = used - at->first;
}

/* How promising a node is: its share of wins, and more if it has few visits. */
static double promise(const node *at, double log_above) {
    return at->visits == 0 ? INFINITY : at->wins / at->visits + sqrt(log_above / at->visits);
}

static node *most_promising(const node *at) {
    double log_above = log(at->visits), most = -1;
    node *best = NULL;
    for (node *next = &nodes[at->first]; next < &nodes[at->first + at->count]; next++)
        if (promise(next, log_above) > most) most = promise(next, log_above), best = next;
    return best;
}

/* The value of a playout from a node to the colour that made its move: 1 for a win, 1/2 for a draw. */
static double play_out(node *at) {
    int32_t half_points = 0;
    vintsaky_game_rollout(&at->game, 3 - at->colour, seed++, VINTSAKY_MOST_MOVES, &half_points);
    return half_points == 0 ? 0.5 : (half_points > 0) == (at->colour == VINTSAKY_BLACK);
}

/* Makes a playout below a node, which has its game. Returns its value to the node's colour: that of a draw if there is no memory. */
static double visit(node *at) {
    double worth;
    if (at->visits > 0 && at->count == 0) expand(at);
    node *next = at->count > 0 ? most_promising(at) : NULL;
    if (next && next->visits == 0 && vintsaky_game_new(&next->game)) {
        vintsaky_game_copy(&next->game, &at->game);
        vintsaky_game_play(&next->game, next->colour, next->vertex);
    }
    worth = !next ? play_out(at) : next->game.at ? 1 - visit(next) : 0.5;
    at->visits++, at->wins += worth;
    return worth;
}

/* Chooses for a colour the vertex that was visited most; of several, the one that won most. */
static uint32_t choose(vintsaky_engine *engine, uint32_t colour) {
    used = 0, add(VINTSAKY_PASS, 3 - colour);
    if (!vintsaky_game_new(&nodes[0].game)) return VINTSAKY_PASS;
    vintsaky_engine_copy_game(engine, &nodes[0].game);
    expand(&nodes[0]);
    for (uint32_t i = 0; i < playouts; i++) visit(&nodes[0]);
    node *best = &nodes[nodes[0].first];
    for (node *next = best; next < &nodes[nodes[0].first + nodes[0].count]; next++)
        if (next->visits > best->visits || (next->visits == best->visits && next->wins > best->wins)) best = next;
    for (uint32_t i = 0; i < used; i++) vintsaky_game_free(&nodes[i].game);
    return nodes[0].count > 0 ? best->vertex : VINTSAKY_PASS;
}

/* Handles what came of a chunk of the input, and writes the reply. Returns false if that fails. */
static bool reply(vintsaky_engine *engine, uint32_t came) {
    char text[VINTSAKY_REPLY_ROOM];
    if (came == VINTSAKY_OTHER) vintsaky_engine_decline(engine);
    if (came == VINTSAKY_BLACK || came == VINTSAKY_WHITE)
        if (vintsaky_engine_choose(engine, choose(engine, came)) != VINTSAKY_DONE) return false;
    return fwrite(text, 1, vintsaky_engine_reply(engine, text, sizeof text), stdout) > 0 && fflush(stdout) == 0;
}

int main(int count, char **words) {
    vintsaky_engine engine = {NULL};
    char in[4096];
    bool is_right = (nodes = malloc(MOST_NODES * sizeof *nodes)) != NULL && vintsaky_engine_new(&engine);
    if (count > 1) playouts = (uint32_t)strtoul(words[1], NULL, 10);
    if (count > 2) seed = strtoull(words[2], NULL, 10) << 32;
    for (ssize_t held; is_right && !vintsaky_engine_ended(&engine) && (held = read(0, in, sizeof in)) > 0;)
        for (size_t at = 0, taken; is_right && at < (size_t)held && !vintsaky_engine_ended(&engine); at += taken) {
            uint32_t came = vintsaky_engine_feed(&engine, in + at, (size_t)held - at, &taken);
            is_right = came == VINTSAKY_MORE || reply(&engine, came);
        }
    return vintsaky_engine_free(&engine), free(nodes), is_right ? 0 : 1;
}
