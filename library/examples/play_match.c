/* A tournament program: plays two engines against each other, with the library's controller. An engine that exits or breaks the protocol
 * is restarted, at most twice, and the reason is written to standard error. usage: play_match SIZE HALF_KOMI BLACK WHITE */
#include "vintsaky.h"
#include <signal.h>
#include <stdio.h>
#include <sys/wait.h>
#include <unistd.h>

enum { GONE = 15 };
static const char *const losses[] = {"", "no reply", "overlong", "wrong id", "unasked", "unfit", "refuses a play", "keeps its move",
    "no move", "no vertex", "record full", "off the board", "occupied", "suicide", "ko", "its output ended"};
static vintsaky_match match;
static int to[3], from[3], child[3];
static char text[16384];
static size_t length;

static bool start(uint32_t side, const char *command) {
    int in[2], out[2];
    if (pipe(in) || pipe(out) || (child[side] = fork()) < 0) return false;
    if (child[side] == 0) {
        dup2(in[0], 0), dup2(out[1], 1);
        for (int file = 3; file < 64; file++) close(file);
        execl("/bin/sh", "sh", "-c", command, (char *)0);
        _exit(127);
    }
    close(in[0]), close(out[1]);
    to[side] = in[1], from[side] = out[0];
    return true;
}

static void end(uint32_t side) { /* by a quit if its engine owes no answer */
    uint32_t confirmed, unanswered = 1, asked;
    if (child[side] <= 0) return;
    vintsaky_match_status(&match, side, &confirmed, &unanswered, &asked);
    if (unanswered || write(to[side], "quit\n", 5) != 5) kill(child[side], SIGKILL);
    for (close(to[side]); read(from[side], text, sizeof text) > 0;) {}
    close(from[side]), waitpid(child[side], NULL, 0), child[side] = 0;
}

static uint32_t take(uint32_t next, uint32_t side, const char *command) { /* returns why its engine fails, or 0 */
    uint32_t loss = 0;
    if (next == VINTSAKY_START) return end(side), vintsaky_match_started(&match, side), start(side, command) ? 0 : GONE;
    if (next == VINTSAKY_SEND)
        return vintsaky_match_send(&match, side, text, sizeof text, &length), write(to[side], text, length) != (ssize_t)length ? GONE : 0;
    ssize_t held = read(from[side], text, sizeof text);
    if (held > 0) vintsaky_match_hear(&match, side, text, (size_t)held, &loss);
    return held > 0 ? loss : GONE;
}

int main(int count, char **words) {
    uint32_t side, next, loss;
    if (count != 5 || !vintsaky_match_new(&match)) return 2;
    if (vintsaky_match_begin(&match, (uint32_t)atoi(words[1]), atoi(words[2]), 0, 1000, 2) != VINTSAKY_DONE) return 2;
    for (signal(SIGPIPE, SIG_IGN); (next = vintsaky_match_next(&match, &side)) != VINTSAKY_OVER;) {
        if ((loss = take(next, side, words[2 + side])) != 0) fprintf(stderr, "%s: %s\n", words[2 + side], losses[loss]);
        if (loss == GONE) vintsaky_match_lost(&match, side);
    }
    if (vintsaky_match_result(&match, 1, text, sizeof text, &length) == VINTSAKY_DONE) puts(text);
    return end(VINTSAKY_BLACK), end(VINTSAKY_WHITE), 0;
}
