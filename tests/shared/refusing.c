/* Loaded before the C library (LD_PRELOAD) into a program: refuses the request for memory whose number
   REFUSED says, counted from 1, and leaves a file COUNTED with the number of requests that came. Other programs that are
   started with it are left alone: the variables are taken out of the environment as soon as they are read. */
#define _GNU_SOURCE
#include <dlfcn.h>
#include <errno.h>
#include <fcntl.h>
#include <stdio.h>
#include <stdlib.h>
#include <string.h>
#include <unistd.h>

static long refused, came;
static char counted[4096];

__attribute__((constructor)) static void begin(void) {
    const char *number = getenv("REFUSED"), *file = getenv("COUNTED");
    if (number) refused = atol(number);
    if (file) snprintf(counted, sizeof counted, "%s", file);
    unsetenv("LD_PRELOAD");
    unsetenv("REFUSED");
    unsetenv("COUNTED");
    came = 0;
}

__attribute__((destructor)) static void end(void) {
    if (!counted[0]) return;
    int file = open(counted, O_WRONLY | O_CREAT | O_TRUNC, 0644);
    if (file >= 0) dprintf(file, "%ld\n", came);
}

static int is_refused(void) {
    came++;
    if (came != refused) return 0;
    errno = ENOMEM;
    return 1;
}

void *malloc(size_t size) {
    static void *(*real)(size_t);
    if (!real) real = dlsym(RTLD_NEXT, "malloc");
    return is_refused() ? NULL : real(size);
}

void *realloc(void *old, size_t size) {
    static void *(*real)(void *, size_t);
    if (!real) real = dlsym(RTLD_NEXT, "realloc");
    return is_refused() ? NULL : real(old, size);
}

void *aligned_alloc(size_t alignment, size_t size) {
    static void *(*real)(size_t, size_t);
    if (!real) real = dlsym(RTLD_NEXT, "aligned_alloc");
    return is_refused() ? NULL : real(alignment, size);
}

int posix_memalign(void **place, size_t alignment, size_t size) {
    static int (*real)(void **, size_t, size_t);
    if (!real) real = dlsym(RTLD_NEXT, "posix_memalign");
    return is_refused() ? ENOMEM : real(place, alignment, size);
}
