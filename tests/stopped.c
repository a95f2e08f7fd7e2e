// Kills the program at one place of what it writes, the one with the number in the variable STOPPED: loaded before the C library. The
// places are those before each write, new length, new mode, removal and file that is made; of a write of several words also those after
// its first word, midway, and before its last, or between any two where STOPPED_BETWEEN is words. The last word may have fewer bytes than
// the others. Where no place has the number, how many there are is said on standard error at the end. Where STOPPED_RECORD is the number of
// a descriptor, each of these calls is written to it before it is made, with its bytes. The clock stands still, so that the same commands
// write the same bytes each time.
#define _GNU_SOURCE
#include <dlfcn.h>
#include <fcntl.h>
#include <signal.h>
#include <stdarg.h>
#include <stdint.h>
#include <stdio.h>
#include <stdlib.h>
#include <string.h>
#include <sys/stat.h>
#include <sys/uio.h>
#include <time.h>
#include <unistd.h>

#define WORD 4
#define FILES 64

// What stands before the bytes of a call in the record: which call it is, the file's name, where it is written or how long it gets, and
// how many bytes follow.
struct call {
    char what;
    char name[31];
    uint64_t place, count;
};

static unsigned long passed, wanted;
static int between_words, record = -1;
static char names[FILES][31];

__attribute__((constructor)) static void begin(void) {
    const char *number = getenv("STOPPED"), *between = getenv("STOPPED_BETWEEN"), *into = getenv("STOPPED_RECORD");
    wanted = number ? strtoul(number, NULL, 10) : 0;
    between_words = between && strcmp(between, "words") == 0;
    if (into) record = atoi(into);
}

__attribute__((destructor)) static void end(void) {
    char line[32];
    int length = snprintf(line, sizeof line, "%lu\n", passed);
    if (write(2, line, length) < 0) _exit(1);
}

static int is_stopped(void) {
    return ++passed == wanted;
}

static void stop(void) {
    kill(getpid(), SIGKILL);
}

static void note(char what, const char *name, uint64_t place, const void *bytes, size_t count) {
    struct call call = {what, "", place, count};
    struct iovec parts[] = {{&call, sizeof call}, {(void *)bytes, count}};
    if (record < 0) return;
    strncpy(call.name, name, sizeof call.name - 1);
    if (writev(record, parts, 2) != (ssize_t)(sizeof call + count)) _exit(1);
}

static const char *name_of(int file) {
    return file >= 0 && file < FILES ? names[file] : "";
}

ssize_t pwrite(int file, const void *bytes, size_t count, off_t place) {
    static ssize_t (*next)(int, const void *, size_t, off_t);
    size_t words = (count + WORD - 1) / WORD, fronts[] = {0, 1, words / 2, words - 1};
    size_t most = between_words ? words : words < 2 ? 1 : 4;
    if (!next) next = dlsym(RTLD_NEXT, "pwrite");
    for (size_t n = 0; n < most || n == 0; n++) {
        size_t front = between_words ? n : fronts[n];
        if (!between_words && n > 0 && front <= fronts[n - 1]) continue;
        if (!is_stopped()) continue;
        if (front > 0) next(file, bytes, front * WORD, place);
        stop();
    }
    note('w', name_of(file), place, bytes, count);
    return next(file, bytes, count, place);
}

int ftruncate(int file, off_t length) {
    static int (*next)(int, off_t);
    if (!next) next = dlsym(RTLD_NEXT, "ftruncate");
    if (is_stopped()) stop();
    note('l', name_of(file), length, NULL, 0);
    return next(file, length);
}

int fchmod(int file, mode_t mode) {
    static int (*next)(int, mode_t);
    if (!next) next = dlsym(RTLD_NEXT, "fchmod");
    if (is_stopped()) stop();
    note('m', name_of(file), mode, NULL, 0);
    return next(file, mode);
}

int unlink(const char *name) {
    static int (*next)(const char *);
    if (!next) next = dlsym(RTLD_NEXT, "unlink");
    if (is_stopped()) stop();
    note('r', name, 0, NULL, 0);
    return next(name);
}

int open(const char *name, int how, ...) {
    static int (*next)(const char *, int, ...);
    mode_t mode = 0;
    int file;
    if (!next) next = dlsym(RTLD_NEXT, "open");
    if (how & O_CREAT) {
        va_list rest;
        va_start(rest, how);
        mode = va_arg(rest, mode_t);
        va_end(rest);
        if (is_stopped()) stop();
        note('c', name, 0, NULL, 0);
    }
    file = next(name, how, mode);
    if (file >= 0 && file < FILES) strncpy(names[file], name, sizeof names[file] - 1);
    return file;
}

int clock_gettime(clockid_t clock, struct timespec *now) {
    static int (*next)(clockid_t, struct timespec *);
    if (!next) next = dlsym(RTLD_NEXT, "clock_gettime");
    if (clock != CLOCK_REALTIME) return next(clock, now);
    now->tv_sec = 4102444800;
    now->tv_nsec = 0;
    return 0;
}
