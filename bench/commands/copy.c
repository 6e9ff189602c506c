/* The machine's limit for a program that answers lines: it copies its input, with one write a line. */
#include <string.h>
#include <unistd.h>

int main(void) {
    static char buffer[4096];
    size_t held = 0;
    for (;;) {
        ssize_t count = read(0, buffer + held, sizeof buffer - held);
        if (count <= 0) return 0;
        held += (size_t)count;
        char *at = buffer;
        char *end = buffer + held;
        char *newline;
        while ((newline = memchr(at, '\n', (size_t)(end - at)))) {
            if (write(1, at, (size_t)(newline + 1 - at)) < 0) return 1;
            at = newline + 1;
        }
        held = (size_t)(end - at);
        memmove(buffer, at, held);
    }
}
