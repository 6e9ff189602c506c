/* The machine's limit for a check: it starts an engine as often, and sends it the same commands, eight on their way at most, and none
 * after a `genmove`, a `boardsize`, or an `undo` with two spaces before it, before that is answered. It looks at nothing but the ends of
 * replies.
 *
 * usage: limit FOLDER STARTS ENGINE ARGUMENT..    with sent.0, sent.1, .. */
#define _GNU_SOURCE
#include <fcntl.h>
#include <signal.h>
#include <spawn.h>
#include <stdio.h>
#include <stdlib.h>
#include <string.h>
#include <sys/mman.h>
#include <sys/stat.h>
#include <sys/wait.h>
#include <unistd.h>

extern char **environ;

static void give_up(const char *why) {
    perror(why);
    exit(1);
}

/* Reads, and returns how many replies ended. */
static int hear(int from) {
    static char buffer[4096];
    static char last;
    ssize_t held = read(from, buffer, sizeof buffer);
    int ended = 0;
    if (held <= 0) give_up("read");
    for (ssize_t i = 0; i < held; i++) {
        if (buffer[i] == '\n' && last == '\n') ended++, last = 0;
        else last = buffer[i];
    }
    return ended;
}

static int is_alone(const char *line, const char *end) {
    size_t length = (size_t)(end - line);
    return memmem(line, length, " genmove", 8) || memmem(line, length, " boardsize", 10) || memmem(line, length, "  undo", 6);
}

/* Sends all these lines, and hears the replies. */
static void converse(int to, int from, const char *line, const char *end) {
    int unanswered = 0, alone = 0;
    while (line < end) {
        const char *first = line;
        while (line < end && unanswered < 8 && !alone) {
            const char *next = (const char *)memchr(line, '\n', (size_t)(end - line)) + 1;
            int is_next = is_alone(line, next);
            if (is_next && unanswered > 0) break;
            alone = is_next;
            unanswered++;
            line = next;
        }
        if (line > first && write(to, first, (size_t)(line - first)) != line - first) give_up("write");
        unanswered -= hear(from);
        if (unanswered == 0) alone = 0;
    }
    while (unanswered > 0) unanswered -= hear(from);
}

int main(int count, char **words) {
    char name[4096];
    if (count < 4) return 2;
    for (int number = 0; number < atoi(words[2]); number++) {
        int in[2], out[2];
        pid_t process;
        struct stat state;
        posix_spawn_file_actions_t actions;
        snprintf(name, sizeof name, "%s/sent.%d", words[1], number);
        int file = open(name, O_RDONLY | O_CLOEXEC);
        if (file < 0 || fstat(file, &state)) give_up(name);
        char *lines = mmap(NULL, (size_t)state.st_size, PROT_READ, MAP_PRIVATE, file, 0);
        if (lines == MAP_FAILED || pipe2(in, O_CLOEXEC) || pipe2(out, O_CLOEXEC)) give_up("pipe");
        posix_spawn_file_actions_init(&actions);
        posix_spawn_file_actions_adddup2(&actions, in[0], 0);
        posix_spawn_file_actions_adddup2(&actions, out[1], 1);
        if (posix_spawnp(&process, words[3], &actions, NULL, words + 3, environ)) give_up(words[3]);
        close(in[0]);
        close(out[1]);
        converse(in[1], out[0], lines, lines + state.st_size);
        close(in[1]);
        close(out[0]);
        kill(process, SIGKILL);
        waitpid(process, NULL, 0);
        close(file);
    }
}
