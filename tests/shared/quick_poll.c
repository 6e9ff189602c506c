/* Loaded before the C library (LD_PRELOAD) into a program: each poll waits a hundredth of the time that it is asked to.
   Other programs that are started with it are left alone. */
#define _GNU_SOURCE
#include <poll.h>
#include <stdlib.h>
#include <time.h>

__attribute__((constructor)) static void begin(void) { unsetenv("LD_PRELOAD"); }

int poll(struct pollfd *asked, nfds_t count, int milliseconds) {
    struct timespec time = {milliseconds / 100000, milliseconds % 100000 * 10000L};
    return ppoll(asked, count, milliseconds < 0 ? NULL : &time, NULL);
}
