/* An engine that answers at once, for bench/twogtp: its moves are a list that it makes with the size of the board, 60 plays on 9x9
 * and 200 on 19x19, none of which captures; then it passes. It checks nothing. With an argument N it ends without an answer when
 * it is asked for a move after N moves or more. */
#include <stdio.h>
#include <stdlib.h>
#include <string.h>
#include <unistd.h>

static int size = 19;
static int plays = 200;
static int made;
static int last = -1; /* after this number of moves it ends when it is asked for one */

/* Black fills columns from the left, row by row, White from the right. */
static int vertex(char *text, int number) {
    int columns = size / 2;
    int column = number / 2 % columns;
    int row = 1 + number / 2 / columns;
    if (number % 2) column = size - 1 - column;
    return sprintf(text, " %c%d", "ABCDEFGHJKLMNOPQRST"[column], row);
}

static int answer(char *text, const char *name, const char *argument) {
    if (!strcmp(name, "play")) made++;
    else if (!strcmp(name, "genmove")) {
        int number = made++;
        return number < plays ? vertex(text, number) : sprintf(text, " pass");
    } else if (!strcmp(name, "boardsize")) {
        size = atoi(argument);
        plays = size == 9 ? 60 : 200;
        made = 0;
    } else if (!strcmp(name, "clear_board")) made = 0;
    else if (!strcmp(name, "protocol_version")) return sprintf(text, " 2");
    else if (!strcmp(name, "name")) return sprintf(text, " instant");
    else if (!strcmp(name, "known_command")) return sprintf(text, " false");
    else if (!strcmp(name, "get_random_seed")) return sprintf(text, " 1");
    else if (!strcmp(name, "final_score")) return sprintf(text, " 0");
    return 0;
}

static int reply(const char *line) {
    char id[16] = "", name[64] = "", argument[64] = "", text[64] = "", whole[256];
    if (sscanf(line, "%15[0-9] %63s %63s", id, name, argument) < 2) {
        id[0] = 0;
        sscanf(line, "%63s %63s", name, argument);
    }
    if (last >= 0 && made >= last && !strcmp(name, "genmove")) return 0;
    answer(text, name, argument);
    int length = sprintf(whole, "=%s%s\n\n", id, text);
    return write(1, whole, (size_t)length) == length && strcmp(name, "quit");
}

int main(int count_of_words, char **words) {
    if (count_of_words > 1) last = atoi(words[1]);
    static char buffer[4096];
    size_t held = 0;
    for (;;) {
        ssize_t count = read(0, buffer + held, sizeof buffer - 1 - held);
        if (count <= 0) return 0;
        held += (size_t)count;
        buffer[held] = 0;
        char *at = buffer;
        char *newline;
        while ((newline = strchr(at, '\n'))) {
            *newline = 0;
            if (!reply(at)) return 0;
            at = newline + 1;
        }
        held -= (size_t)(at - buffer);
        memmove(buffer, at, held);
    }
}
