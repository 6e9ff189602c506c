/* An engine that plays a random legal point, unless only own stones surround it. The library does the rest.
 *
 * usage: random_engine [SEED] */
#include "vintsaky.h"
#include <stdio.h>
#include <unistd.h>

static vintsaky_game game;

/* Is the point off the board, or is a stone of the colour there? */
static bool is_own(uint32_t colour, uint32_t vertex) {
    uint32_t found;
    return vintsaky_game_stone_at(&game, vertex, &found) != VINTSAKY_DONE || found == colour;
}

static bool is_eye(uint32_t colour, uint32_t vertex) {
    return is_own(colour, vertex + 1) && is_own(colour, vertex - 1) && is_own(colour, vertex + 256) && is_own(colour, vertex - 256);
}

/* Chooses the vertex for a colour: put your own search here. */
static uint32_t choose(vintsaky_engine *engine, uint32_t colour) {
    uint32_t points[625];
    size_t count = 0, kept = 0;
    vintsaky_engine_copy_game(engine, &game);
    vintsaky_game_legal_points(&game, colour, points, 625, &count);
    for (size_t i = 0; i < count; i++)
        if (!is_eye(colour, points[i])) points[kept++] = points[i];
    return kept ? points[(size_t)rand() % kept] : VINTSAKY_PASS;
}

/* Handles what came of a chunk of the input, and writes the reply. Returns false if it can't be written, or if the choice is rejected:
 * then there is no reply yet, since the engine still waits for a choice. */
static bool reply(vintsaky_engine *engine, uint32_t came) {
    char text[VINTSAKY_REPLY_ROOM];
    uint32_t cause = VINTSAKY_DONE;
    if (came == VINTSAKY_OTHER) cause = vintsaky_engine_decline(engine);
    if (came == VINTSAKY_BLACK || came == VINTSAKY_WHITE) cause = vintsaky_engine_choose(engine, choose(engine, came));
    if (cause != VINTSAKY_DONE) {
        vintsaky_cause_text(cause, text, sizeof text);
        fprintf(stderr, "random_engine: the choice is rejected: %s\n", text);
        return false;
    }
    return fwrite(text, 1, vintsaky_engine_reply(engine, text, sizeof text), stdout) > 0 && fflush(stdout) == 0;
}

int main(int count, char **words) {
    vintsaky_engine engine = {NULL};
    char in[4096];
    bool is_right = vintsaky_engine_new(&engine) && vintsaky_game_new(&game);
    srand(count > 1 ? (unsigned)atoi(words[1]) : 1);
    for (ssize_t held; is_right && !vintsaky_engine_ended(&engine) && (held = read(0, in, sizeof in)) > 0;)
        for (size_t at = 0, used; is_right && at < (size_t)held && !vintsaky_engine_ended(&engine); at += used) {
            uint32_t came = vintsaky_engine_feed(&engine, in + at, (size_t)held - at, &used);
            is_right = came == VINTSAKY_MORE || reply(&engine, came);
        }
    vintsaky_engine_free(&engine), vintsaky_game_free(&game);
    return is_right ? 0 : 1;
}
