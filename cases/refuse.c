// Preloaded into a program, this refuses one of the calls that the program makes of the C library, by two words of the environment:
// REFUSED_KIND is "memory", "read" (of the standard input) or "write" (to the standard output), and REFUSED_CALL is N for the Nth such
// call, or N.. for that one and each after it. The first refusal is told on the standard error, by the line "refused".
// Where REFUSED_KIND is "pieces" nothing is refused: each read of the input gives one byte, and each write to the output takes one.
// The program is killed when the process that started it ends, so that one that hangs is not left behind.
#define _GNU_SOURCE
#include <errno.h>
#include <signal.h>
#include <stddef.h>
#include <stdlib.h>
#include <string.h>
#include <sys/prctl.h>
#include <sys/syscall.h>
#include <unistd.h>

// What glibc's calls do.
extern void *__libc_malloc(size_t);
extern void *__libc_calloc(size_t, size_t);
extern void *__libc_realloc(void *, size_t);
extern void *__libc_memalign(size_t, size_t);

static const char *refused_kind = "";
// The number of the call that is refused first, and whether each later one is refused too.
static unsigned long first;
static int are_later_refused;
// So many calls of that kind were made.
static unsigned long calls;

__attribute__((constructor)) static void end_with_parent(void) {
    if (prctl(PR_SET_PDEATHSIG, SIGKILL) != 0)
        abort();
}

__attribute__((constructor)) static void read_words(void) {
    const char *kind = getenv("REFUSED_KIND");
    const char *call = getenv("REFUSED_CALL");
    if (kind && call) {
        char *rest;
        refused_kind = kind;
        first = strtoul(call, &rest, 10);
        are_later_refused = *rest == '.';
    }
}

// Whether this call, of this kind, is refused.
static int is_refused(const char *kind) {
    if (strcmp(kind, refused_kind) != 0)
        return 0;
    calls++;
    if (calls == first && syscall(SYS_write, 2, "refused\n", 8) != 8)
        abort();
    return calls == first || (calls > first && are_later_refused);
}

// How many bytes a call may move that is asked to move so many.
static size_t moved(size_t count) {
    return count > 1 && strcmp(refused_kind, "pieces") == 0 ? 1 : count;
}

static int is_memory_refused(void) {
    int refused = is_refused("memory");
    if (refused)
        errno = ENOMEM;
    return refused;
}

void *malloc(size_t size) {
    return is_memory_refused() ? NULL : __libc_malloc(size);
}

void *calloc(size_t count, size_t size) {
    return is_memory_refused() ? NULL : __libc_calloc(count, size);
}

void *realloc(void *block, size_t size) {
    return is_memory_refused() ? NULL : __libc_realloc(block, size);
}

void *aligned_alloc(size_t alignment, size_t size) {
    return is_memory_refused() ? NULL : __libc_memalign(alignment, size);
}

void *memalign(size_t alignment, size_t size) {
    return aligned_alloc(alignment, size);
}

int posix_memalign(void **block, size_t alignment, size_t size) {
    void *made = aligned_alloc(alignment, size);
    if (!made)
        return ENOMEM;
    *block = made;
    return 0;
}

ssize_t read(int file, void *bytes, size_t count) {
    if (file == 0 && is_refused("read")) {
        errno = EIO;
        return -1;
    }
    return syscall(SYS_read, file, bytes, file == 0 ? moved(count) : count);
}

ssize_t write(int file, const void *bytes, size_t count) {
    if (file == 1 && is_refused("write")) {
        errno = EIO;
        return -1;
    }
    return syscall(SYS_write, file, bytes, file == 1 ? moved(count) : count);
}

ssize_t __write(int file, const void *bytes, size_t count) {
    return write(file, bytes, count);
}
