// Refuses the program one piece of memory, the one with the number in the variable REFUSED: loaded before the C library.
#define _GNU_SOURCE
#include <dlfcn.h>
#include <errno.h>
#include <stdlib.h>

static int is_refused(void) {
    static long left = -1;
    if (left == -1) {
        const char *number = getenv("REFUSED");
        left = number ? atol(number) : 0;
    }
    if (left == 0 || --left != 0) return 0;
    errno = ENOMEM;
    return 1;
}

void *malloc(size_t size) {
    static void *(*next)(size_t);
    if (!next) next = dlsym(RTLD_NEXT, "malloc");
    return is_refused() ? NULL : next(size);
}

void *realloc(void *piece, size_t size) {
    static void *(*next)(void *, size_t);
    if (!next) next = dlsym(RTLD_NEXT, "realloc");
    return is_refused() ? NULL : next(piece, size);
}
