// Preloaded into a program, this has each sync of a file take SYNC_MICROSECONDS more, as on a disk that has to be waited for.
#define _GNU_SOURCE
#include <stdlib.h>
#include <sys/syscall.h>
#include <time.h>
#include <unistd.h>

static int slow(int file, long call) {
    const char *text = getenv("SYNC_MICROSECONDS");
    long micro = text ? atol(text) : 0;
    struct timespec wait = {.tv_sec = micro / 1000000, .tv_nsec = micro % 1000000 * 1000};
    while (nanosleep(&wait, &wait) != 0)
        ;
    return (int)syscall(call, file);
}

int fdatasync(int file) { return slow(file, SYS_fdatasync); }
int fsync(int file) { return slow(file, SYS_fsync); }
