// Swaps a file with other things, one after another, until the file GOING is gone, and then prints how many times, and how:
// GOING PRESENT ABSENT FILE OTHERS... The file is there for up to PRESENT microseconds at a time, and away for up to ABSENT. It is
// exchanged with what takes its place, so something always has its name. Where the file system has no exchange, a second name of the
// other is renamed over it, and then one of its own.
#define _GNU_SOURCE
#include <errno.h>
#include <fcntl.h>
#include <stdio.h>
#include <stdlib.h>
#include <time.h>
#include <unistd.h>

static char own_name[4096], other_name[4096];
static int has_exchange = 1;

// Of each length as many pauses as of its half: long ones let slow programs through, and short ones meet quick programs midway.
static void pause_up_to(long most) {
    long nanoseconds = most * 1000 >> random() % 8;
    struct timespec it = {nanoseconds / 1000000000, nanoseconds % 1000000000};
    nanosleep(&it, NULL);
}

static int exchange(const char *file, const char *other) {
    return renameat2(AT_FDCWD, file, AT_FDCWD, other, RENAME_EXCHANGE);
}

// Leaves 0 where the other has the name of the file.
static int put(const char *file, const char *other) {
    if (has_exchange) {
        if (exchange(file, other) == 0) return 0;
        if (errno != EINVAL && errno != ENOSYS) return -1;
        has_exchange = 0;
    }
    snprintf(own_name, sizeof own_name, "%s.own", other);
    snprintf(other_name, sizeof other_name, "%s.next", other);
    if (link(other, other_name) != 0) return -1;
    return link(file, own_name) != 0 ? -1 : rename(other_name, file);
}

static int put_back(const char *file, const char *other) {
    return has_exchange ? exchange(file, other) : rename(own_name, file);
}

int main(int count, char **words) {
    if (count < 6) return 2;
    const char *going = words[1], *file = words[4];
    unsigned long swaps = 0;
    srandom(getpid());
    for (int n = 5; access(going, F_OK) == 0; n = n + 1 < count ? n + 1 : 5) {
        pause_up_to(atol(words[2]));
        if (put(file, words[n]) != 0) {
            // A folder has no second name.
            if (errno == EPERM && !has_exchange) continue;
            return 1;
        }
        pause_up_to(atol(words[3]));
        if (put_back(file, words[n]) != 0) return 1;
        swaps++;
    }
    printf("%lu %s\n", swaps, has_exchange ? "exchange" : "rename");
    return 0;
}
