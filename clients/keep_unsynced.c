// Preloaded into a program, this notes what its files held before each write that is not synced yet, so that whoever kills the program may take such writes
// back, as a machine that stops may: in the file that UNSYNCED names, for each write the number of the file (that of its device and its node), its place, how
// long the file was, how many bytes were written, how many of these the file had, and these. A sync that is done says so by a note of -1 for the place.
// Nothing of a write reaches the file before its note is there.
#define _GNU_SOURCE
#include <fcntl.h>
#include <stdint.h>
#include <stdlib.h>
#include <string.h>
#include <sys/stat.h>
#include <sys/syscall.h>
#include <unistd.h>

struct note {
    uint64_t node;
    int64_t at, length;
    uint64_t count, had;
};

static int notes = -1;

// One call puts a note whole, or the program ends before it.
static void put_note(const struct note *note, const char *before) {
    if (notes < 0)
        notes = open(getenv("UNSYNCED"), O_WRONLY | O_CREAT | O_APPEND, 0600);
    char bytes[sizeof *note + note->had];
    memcpy(bytes, note, sizeof *note);
    memcpy(bytes + sizeof *note, before, note->had);
    if (syscall(SYS_write, notes, bytes, sizeof bytes) != (long)sizeof bytes)
        abort();
}

static ssize_t put(int file, const void *bytes, size_t count, off_t at) {
    struct stat stat;
    char *before = malloc(count + 1);
    if (!before || fstat(file, &stat) != 0)
        abort();
    long had = syscall(SYS_pread64, file, before, count, at);
    struct note note = {.node = stat.st_ino, .at = at, .length = stat.st_size, .count = count, .had = had < 0 ? 0 : (uint64_t)had};
    put_note(&note, before);
    free(before);
    return syscall(SYS_pwrite64, file, bytes, count, at);
}

ssize_t pwrite(int file, const void *bytes, size_t count, off_t at) { return put(file, bytes, count, at); }
ssize_t pwrite64(int file, const void *bytes, size_t count, off_t at) { return put(file, bytes, count, at); }

static int settle(int file, long call) {
    struct stat stat;
    int done = (int)syscall(call, file);
    if (done == 0 && fstat(file, &stat) == 0 && S_ISREG(stat.st_mode)) {
        struct note note = {.node = stat.st_ino, .at = -1};
        put_note(&note, "");
    }
    return done;
}

int fdatasync(int file) { return settle(file, SYS_fdatasync); }
int fsync(int file) { return settle(file, SYS_fsync); }
