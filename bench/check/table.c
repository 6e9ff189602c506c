/* An engine that answers at once: its replies are in a file, in the order of the commands. Each of its starts has the next file.
 *
 * usage: table FOLDER [each]    with replies.0, replies.1, .. and a file `starts`, whose bytes count the starts
 * It writes the replies to all that it read at once, and with `each` every reply before it looks at the next command, as gtp_engine does. */
#include <fcntl.h>
#include <stdio.h>
#include <string.h>
#include <sys/mman.h>
#include <sys/stat.h>
#include <unistd.h>

int main(int count, char **words) {
    char name[4096];
    static char buffer[4096];
    struct stat state;
    if (count != 2 && count != 3) return 2;
    snprintf(name, sizeof name, "%s/starts", words[1]);
    int starts = open(name, O_WRONLY | O_CREAT | O_APPEND, 0644);
    if (starts < 0 || fstat(starts, &state) || write(starts, "x", 1) != 1) return 1;
    snprintf(name, sizeof name, "%s/replies.%ld", words[1], (long)state.st_size);
    int file = open(name, O_RDONLY);
    if (file < 0 || fstat(file, &state)) return 1;
    char *reply = mmap(NULL, (size_t)state.st_size, PROT_READ, MAP_PRIVATE, file, 0), *end = reply + state.st_size;
    if (reply == MAP_FAILED) return 1;
    for (;;) {
        ssize_t held = read(0, buffer, sizeof buffer);
        if (held <= 0) return 0;
        char *from = reply;
        for (ssize_t i = 0; i < held; i++)
            if (buffer[i] == '\n') {
                while (reply < end && !(*reply++ == '\n' && reply < end && *reply++ == '\n')) continue;
                if (count == 3 && write(1, from, (size_t)(reply - from)) < 0) return 1;
                if (count == 3) from = reply;
            }
        if (count == 2 && write(1, from, (size_t)(reply - from)) < 0) return 1;
    }
}
