/* How much stack the calls of each family take: those of tests/shared/each_call.c, on a stack of its own right after pages that can't be
 * touched, as small as can be. What the same takes without a call of the library isn't taken off.
 *
 * usage: stack LIMIT OF_MATCHES    prints a line a family: its name and the bytes. FAILED where they are more than the limit of all
 *                                  calls, or that of a match's. */
#define _DEFAULT_SOURCE
#define NO_MAIN
#include "../shared/each_call.c"
#include <signal.h>
#include <sys/mman.h>
#include <sys/wait.h>
#include <ucontext.h>
#include <unistd.h>

enum { MOST = 1 << 20 };

static ucontext_t outside, inside;

/* The engine's other commands. */
static void of_commands(void) {
    static const char *const lines[] = {"boardsize 25\n", "komi 7.5\n", "fixed_handicap 9\n", "showboard\n", "play w D4\n", "play b D4\n",
        "genmove w\n", "final_score\n", "undo\n", "clear_board\n", "place_free_handicap 9\n", "set_free_handicap A1 B2\n", "list_commands\n",
        "known_command play\n", "protocol_version\n", "no_command\n", "quit\n"};
    vintsaky_engine engine;
    size_t at;
    if (!vintsaky_engine_new(&engine)) exit(2);
    for (at = 0; at < sizeof lines / sizeof *lines; at++) {
        uint32_t came = feed(&engine, lines[at]);
        if (came == VINTSAKY_WHITE) vintsaky_engine_choose(&engine, VINTSAKY_PASS);
        if (came == VINTSAKY_OTHER) vintsaky_engine_decline(&engine);
    }
    vintsaky_engine_free(&engine);
}

static void games(void) {
    of_the_library();
    of_values();
    of_games();
    of_searches();
    of_many_games();
    of_mistakes();
}

static void engines(void) {
    of_engines();
    of_commands();
}

static const struct {
    const char *name;
    void (*make_calls)(void);
} families[] = {{"games", games}, {"engines", engines}, {"matches", of_matches}, {"lines", of_lines}, {"replies", of_replies}};

/* MOST bytes, after as many that can't be touched: a frame may be greater than a page. */
static void *guarded_stack(void) {
    char *all = mmap(NULL, 2 * MOST, PROT_NONE, MAP_PRIVATE | MAP_ANONYMOUS, -1, 0);
    if (all == MAP_FAILED || mprotect(all + MOST, MOST, PROT_READ | PROT_WRITE)) exit(2);
    return all + MOST;
}

static void end(int number) {
    _exit(number == SIGSEGV || number == SIGBUS ? 1 : 2);
}

/* In a process of its own: do the calls of the family end on a stack of so many bytes? */
static int fits(void (*make_calls)(void), size_t bytes) {
    int status;
    pid_t child = fork();
    if (child == 0) {
        static char own[65536];
        stack_t stack = {.ss_sp = own, .ss_size = sizeof own};
        struct sigaction action = {.sa_handler = end, .sa_flags = SA_ONSTACK};
        sigaltstack(&stack, NULL);
        sigaction(SIGSEGV, &action, NULL);
        sigaction(SIGBUS, &action, NULL);
        getcontext(&inside);
        inside.uc_stack.ss_sp = guarded_stack();
        inside.uc_stack.ss_size = bytes;
        inside.uc_link = &outside;
        makecontext(&inside, make_calls, 0);
        swapcontext(&outside, &inside);
        fflush(stdout), _exit(wrong ? 2 : 0);
    }
    if (child < 0 || waitpid(child, &status, 0) < 0 || !WIFEXITED(status) || WEXITSTATUS(status) > 1) exit(2);
    return WEXITSTATUS(status) == 0;
}

/* The least bytes on which they end, up to some 64. */
static size_t least(void (*make_calls)(void)) {
    size_t low = 1024, high = MOST;
    while (high - low > 64) {
        size_t middle = (low + high) / 2 / 16 * 16;
        if (fits(make_calls, middle)) high = middle;
        else low = middle;
    }
    return high;
}

int main(int words, char **word) {
    int failures = 0;
    size_t at;
    if (words != 3) return 2;
    for (at = 0; at < sizeof families / sizeof *families; at++) {
        size_t bytes = least(families[at].make_calls);
        int is_over = bytes > strtoull(word[families[at].make_calls == of_matches ? 2 : 1], NULL, 10);
        printf("%s%s %zu\n", is_over ? "FAILED: " : "", families[at].name, bytes);
        fflush(stdout);
        failures += is_over;
    }
    return failures != 0;
}
