// Answers the first question for a lock with the error whose number is in the variable UNLOCKED: loaded before the C library.
#define _GNU_SOURCE
#include <dlfcn.h>
#include <errno.h>
#include <stdlib.h>

int flock(int file, int how) {
    static int (*next)(int, int), asked;
    const char *number = getenv("UNLOCKED");
    if (number && !asked++) {
        errno = atoi(number);
        return -1;
    }
    if (!next) next = dlsym(RTLD_NEXT, "flock");
    return next(file, how);
}
