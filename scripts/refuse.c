// A library that is loaded before a program. It refuses the allocation of the number REFUSE, counted from 1, and then writes a
// byte to the file descriptor 3, if that is open. With REFUSE_ON it refuses each later allocation too.
#define _GNU_SOURCE
#include <dlfcn.h>
#include <errno.h>
#include <stdlib.h>
#include <unistd.h>

static long turn = -1, count = 0;
static int goes_on;

static int refused(void) {
    if (turn < 0) {
        const char *number = getenv("REFUSE");
        turn = number ? atol(number) : 0;
        goes_on = getenv("REFUSE_ON") != NULL;
    }
    if (++count != turn) return goes_on && turn > 0 && count > turn;
    if (write(3, "x", 1) < 0) errno = 0;
    return 1;
}

void *malloc(size_t size) {
    static void *(*next)(size_t);
    if (!next) next = dlsym(RTLD_NEXT, "malloc");
    return refused() ? (errno = ENOMEM, NULL) : next(size);
}

void *realloc(void *old, size_t size) {
    static void *(*next)(void *, size_t);
    if (!next) next = dlsym(RTLD_NEXT, "realloc");
    return refused() ? (errno = ENOMEM, NULL) : next(old, size);
}
