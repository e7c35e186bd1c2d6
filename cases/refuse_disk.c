// Preloaded into a program, this refuses one of the calls by which it writes a file, or ends it there as a crash of the machine would, by three words of
// the environment: DISK_KIND is "put" (pwrite) or "sync" (fdatasync, fsync), for a call that fails, and "crash" for an end at any of these; DISK_CALL
// is N for the Nth such call, and DISK_KEEPS says what a crash leaves of each write since the last sync of its file: "all", "none", "front" (its
// first half), "back" (the other half), "last" (of the last write all, of those before it none). The first refusal is told on the standard error. Where DISK_COUNT
// is set, its end tells how many writes and syncs there were.
#define _GNU_SOURCE
#include <errno.h>
#include <stdio.h>
#include <stdlib.h>
#include <string.h>
#include <sys/mman.h>
#include <sys/stat.h>
#include <sys/syscall.h>
#include <unistd.h>

// A write since the last sync: what stood in its range before, and how long the file was.
struct write {
    int file;
    off_t at, length;
    size_t count, had;
    char *before;
};

static struct write writes[256];
static int noted;
static unsigned long calls, made, synced;

__attribute__((destructor)) static void tell(void) {
    if (getenv("DISK_COUNT"))
        dprintf(2, "%lu writes, %lu syncs\n", made, synced);
}

static int is_due(const char *kind) {
    const char *wanted = getenv("DISK_KIND"), *call = getenv("DISK_CALL");
    if (!wanted || !call || strcmp(wanted, kind) != 0)
        return 0;
    if (++calls != strtoul(call, NULL, 10))
        return 0;
    if (syscall(SYS_write, 2, "refused\n", 8) != 8)
        abort();
    return 1;
}

static int keeps(const char *word) {
    const char *wanted = getenv("DISK_KEEPS");
    return wanted && strcmp(wanted, word) == 0;
}

// Puts back what stood in a part of a write's range.
static void undo(const struct write *it, size_t from, size_t to) {
    if (from < it->had && from < to) {
        size_t end = to < it->had ? to : it->had;
        if (syscall(SYS_pwrite64, it->file, it->before + from, end - from, it->at + (off_t)from) != (long)(end - from))
            abort();
    }
}

// What was not synced is lost, or a part of it.
static void crash(void) {
    for (int i = noted; i-- > 0;) {
        const struct write *it = &writes[i];
        if (keeps("all") || (keeps("last") && i == noted - 1))
            continue;
        if (keeps("none") || keeps("last")) {
            undo(it, 0, it->count);
            if (keeps("none") && ftruncate(it->file, it->length) != 0)
                abort();
        } else if (keeps("front")) {
            undo(it, it->count / 2, it->count);
        } else {
            undo(it, 0, it->count / 2);
        }
    }
    _exit(137);
}

static void note(int file, size_t count, off_t at) {
    struct stat stat;
    if (noted == 256 || fstat(file, &stat) != 0)
        abort();
    struct write *it = &writes[noted++];
    *it = (struct write){.file = file, .at = at, .length = stat.st_size, .count = count, .before = mmap(NULL, count + 1, PROT_READ | PROT_WRITE, MAP_PRIVATE | MAP_ANONYMOUS, -1, 0)};
    if (it->before == MAP_FAILED)
        abort();
    long had = syscall(SYS_pread64, file, it->before, count, at);
    it->had = had < 0 ? 0 : (size_t)had;
}

static ssize_t put(int file, const void *bytes, size_t count, off_t at) {
    made++;
    if (is_due("put")) {
        errno = ENOSPC;
        return -1;
    }
    note(file, count, at);
    long done = syscall(SYS_pwrite64, file, bytes, count, at);
    if (is_due("crash"))
        crash();
    return done;
}

ssize_t pwrite(int file, const void *bytes, size_t count, off_t at) { return put(file, bytes, count, at); }
ssize_t pwrite64(int file, const void *bytes, size_t count, off_t at) { return put(file, bytes, count, at); }

static int settle(int file, long call) {
    synced++;
    if (is_due("crash"))
        crash();
    if (is_due("sync")) {
        errno = EIO;
        return -1;
    }
    int left = 0;
    for (int i = 0; i < noted; i++)
        if (writes[i].file != file)
            writes[left++] = writes[i];
    noted = left;
    return (int)syscall(call, file);
}

int fdatasync(int file) { return settle(file, SYS_fdatasync); }
int fsync(int file) { return settle(file, SYS_fsync); }
