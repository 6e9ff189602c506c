/* The machine's limit for a controller: it starts two engines a game, sends them as many commands as `twogtp` does and reads a
 * reply to each, says `quit` to both, kills them and waits for them. It looks at nothing but the end of a reply and the vertex
 * that it hands on.
 *
 * usage: limit ENGINE SIZE GAMES */
#define _GNU_SOURCE
#include <fcntl.h>
#include <signal.h>
#include <spawn.h>
#include <stdio.h>
#include <stdlib.h>
#include <string.h>
#include <sys/wait.h>
#include <unistd.h>

extern char **environ;

struct side { pid_t process; int to, from, sent; };

static void give_up(const char *why) {
    perror(why);
    exit(1);
}

static struct side start(char *program) {
    int in[2], out[2];
    char *words[] = {program, NULL};
    struct side side = {0};
    posix_spawn_file_actions_t actions;
    if (pipe2(in, O_CLOEXEC) || pipe2(out, O_CLOEXEC)) give_up("pipe");
    posix_spawn_file_actions_init(&actions);
    posix_spawn_file_actions_adddup2(&actions, in[0], 0);
    posix_spawn_file_actions_adddup2(&actions, out[1], 1);
    if (posix_spawnp(&side.process, program, &actions, NULL, words, environ)) give_up(program);
    posix_spawn_file_actions_destroy(&actions);
    close(in[0]);
    close(out[1]);
    side.to = in[1];
    side.from = out[0];
    return side;
}

/* Sends a command with the next id, waits for the whole reply, and leaves it in `reply`. */
static void ask(struct side *side, const char *command, char *reply) {
    char line[64];
    int length = sprintf(line, "%d %s\n", ++side->sent, command);
    size_t held = 0;
    if (write(side->to, line, (size_t)length) != length) give_up("write");
    do {
        ssize_t count = read(side->from, reply + held, 4095 - held);
        if (count <= 0) give_up("read");
        held += (size_t)count;
    } while (held < 2 || reply[held - 1] != '\n' || reply[held - 2] != '\n');
    reply[held - 2] = 0;
}

static void end(struct side *side) {
    close(side->to);
    close(side->from);
    kill(side->process, SIGKILL);
    waitpid(side->process, NULL, 0);
}

static int game(char *program, int size, char *reply) {
    struct side sides[2];
    char command[64];
    int passes = 0, moves = 0;
    for (int i = 0; i < 2; i++) sides[i] = start(program);
    for (int i = 0; i < 2; i++) {
        sprintf(command, "boardsize %d", size);
        ask(&sides[i], command, reply);
        ask(&sides[i], "komi 6.5", reply);
        ask(&sides[i], "clear_board", reply);
    }
    for (;;) {
        int mover = moves % 2;
        ask(&sides[mover], mover ? "genmove w" : "genmove b", reply);
        char *vertex = strchr(reply, ' ');
        if (!vertex) give_up("genmove");
        moves++;
        passes = strcmp(vertex, " pass") ? 0 : passes + 1;
        if (passes == 2) break;
        sprintf(command, "play %c%.8s", mover ? 'w' : 'b', vertex);
        ask(&sides[1 - mover], command, reply);
    }
    for (int i = 0; i < 2; i++) ask(&sides[i], "quit", reply);
    for (int i = 0; i < 2; i++) end(&sides[i]);
    return moves;
}

int main(int count, char **words) {
    static char reply[4096];
    if (count != 4) {
        fprintf(stderr, "usage: limit ENGINE SIZE GAMES\n");
        return 2;
    }
    for (int number = 1; number <= atoi(words[3]); number++) {
        printf("game %d: moves %d\n", number, game(words[1], atoi(words[2]), reply));
    }
    return 0;
}
