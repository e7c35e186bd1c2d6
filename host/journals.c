/* The files of journals. The library has what is in them in memory, and notes what is to be done to them: here that is
 * done, before a reply leaves. If it fails, the worker ends, and sends nothing more. The next worker opens the files
 * again, and has the zone take no updates until all files are read again. */
#include "host.h"

#define TRY 10 /* milliseconds after which a file that is locked is tried again */

static struct file {
    int fd;
    char *path;
    bool *has_failed, is_changed; /* whether its journal could not be written, and whether something was done to it */
} *files; /* each journal has two */
static size_t opened;
static uint8_t fault[256];

/* Whether no other process or zone has a file, and none gets it from now on. It is waited for so many seconds. */
static bool is_locked(int fd, int seconds) {
    struct flock all = {.l_type = F_WRLCK, .l_whence = SEEK_SET};
    int tries = seconds * 1000 / TRY, is;
    while ((is = fcntl(fd, F_OFD_SETLK, &all)) != 0 && errno == EAGAIN && tries-- > 0)
        poll(NULL, 0, TRY);
    return is == 0;
}

/* Brings a file to the disk, and that it is in its folder. */
static bool is_synced(const struct file *it) {
    int folder = open(dirname(strdupa(it->path)), O_RDONLY | O_DIRECTORY | O_CLOEXEC);
    bool is = folder >= 0 && fsync(it->fd) == 0 && fsync(folder) == 0;
    if (folder >= 0)
        close(folder);
    return is;
}

/* Opens the next file, which is made if it is missing, and reads it: its bytes, or NULL. */
static uint8_t *open_file(const char *path, const char *end, int seconds, size_t *len) {
    struct file *it = files + opened;
    struct stat is;
    uint8_t *bytes = NULL;
    if (asprintf(&it->path, "%s%s", path, end) < 0)
        return (say("no memory"), NULL);
    it->fd = open(it->path, O_RDWR | O_CREAT | O_CLOEXEC | O_NONBLOCK, 0600);
    opened++;
    if (it->fd >= 0 && fstat(it->fd, &is) == 0 && !S_ISREG(is.st_mode))
        say("%s: it is not a regular file", it->path);
    else if (it->fd < 0 || !is_locked(it->fd, seconds) || !is_synced(it) || (bytes = read_all(it->fd, len)) == NULL)
        say("%s: %s", it->path, errno == EAGAIN ? "another process or zone has this journal" : strerror(errno));
    return bytes;
}

static bool write_all(int fd, const uint8_t *bytes, size_t len, uint64_t at) {
    for (ssize_t put; len > 0; bytes += put, len -= (size_t)put, at += (uint64_t)put)
        if ((put = pwrite(fd, bytes, len, (off_t)at)) <= 0)
            return false;
    return true;
}

/* Does an operation. Of one that writes, these are the bytes after the first so many. */
static bool do_one(int fd, const struct zone_service_operation *it, size_t from, const uint8_t *bytes, size_t len) {
    return it->kind == ZONE_SERVICE_WRITE        ? write_all(fd, bytes, len, it->at + from)
           : it->kind == ZONE_SERVICE_SET_LENGTH ? ftruncate(fd, (off_t)it->at) == 0
                                                 : fdatasync(fd) == 0;
}

/* Does what is noted of a file, in its order: whether it is done. errno says why not. */
static bool do_all(size_t place) {
    static uint8_t bytes[1 << 16];
    struct zone_service_operation it;
    size_t number = 0, from = 0, got;
    uint32_t is;
    while ((is = zone_service_operation(&settings->service, place / 2, place % 2, number, &it, from, bytes,
                                        sizeof bytes, &got)) == ZONE_SERVICE_DONE) {
        files[place].is_changed = true;
        if (!do_one(files[place].fd, &it, from, bytes, got))
            return false;
        from += got;
        if (it.kind != ZONE_SERVICE_WRITE || from >= it.count)
            number++, from = 0;
    }
    errno = ENOMEM;
    return is == ZONE_SERVICE_NO_OPERATION;
}

/* Does what is noted of both files of a journal: whether it is done. If not, it is counted, and other workers know. */
static bool is_written(size_t place) {
    size_t failed = do_all(place) ? place + 1 : place;
    if (failed > place && do_all(failed))
        return true;
    warn("%s: the journal is not written, and its zone takes no updates until all files are read again",
         files[failed].path);
    *files[place].has_failed = true;
    __atomic_fetch_add(&shared->journal_failures, 1, __ATOMIC_RELAXED);
    return false;
}

/* Does what is noted of all files. */
static void write_down(void) {
    for (size_t place = 0; place < opened; place += 2)
        if (!is_written(place))
            _exit(1);
    zone_service_operations_done(&settings->service);
}

/* Has the library open the journal of NAME=FILE, in FILE and FILE-wal. */
static int open_journal(const char *text, bool *has_failed, int seconds) {
    const char *mark = strchr(text, '='), *path = mark + 1;
    size_t place = opened, len[2], fault_len = 0;
    uint32_t serials[2], is = ZONE_SERVICE_FAULT;
    bool takes_updates;
    uint8_t *first = open_file(path, "", seconds, &len[0]), *second = NULL;
    if (first != NULL && (second = open_file(path, "-wal", seconds, &len[1])) != NULL)
        is = zone_service_open_journal(&settings->service, (const uint8_t *)text, (size_t)(mark - text), first, len[0],
                                       second, len[1], serials, &takes_updates, fault, sizeof fault, &fault_len);
    free(first);
    free(second);
    if (is != ZONE_SERVICE_DONE)
        return second == NULL ? -1 : complain("%s: %.*s", path, (int)fault_len, (const char *)fault);
    if (serials[0] != serials[1])
        warnx("%s: the journal counts, with serial %u, and not the zone file, with serial %u", path, serials[1],
              serials[0]);
    files[place].has_failed = has_failed;
    if (*has_failed || !is_written(place) || !takes_updates)
        zone_service_stop_updates(&settings->service, place / 2);
    zone_service_operations_done(&settings->service);
    files[place].is_changed = files[place + 1].is_changed = false;
    return 0;
}

int journals_open(int seconds) {
    files = calloc(2 * (size_t)settings->count, sizeof *files);
    int wrong = files == NULL ? complain("no memory") : 0;
    EACH_GIVEN (it)
        if (!wrong && strcmp(it->option->name, "--journal") == 0 && !is_failed(it->text))
            wrong = open_journal(it->text, &settings->has_failed[it - settings->given], seconds);
    malloc_trim(0); /* to read a journal takes some times its length */
    return wrong;
}

void journals_hold(void) {
    if (opened > 0)
        zone_service_begin_batch(&settings->service);
}

void journals_settle(void) {
    if (opened > 0 && zone_service_end_batch(&settings->service) != ZONE_SERVICE_DONE) {
        warnx("no memory: the updates at hand are not written");
        _exit(1);
    }
    if (opened > 0)
        write_down();
}

void journals_compact(void) {
    size_t fault_len = 0;
    for (size_t place = 0; place < opened; place++) {
        if (files[place].is_changed &&
            zone_service_compact(&settings->service, place / 2, fault, sizeof fault, &fault_len) != ZONE_SERVICE_DONE)
            warnx("%s: %.*s", files[place].path, (int)fault_len, (const char *)fault);
        if (files[place].is_changed)
            write_down();
        files[place].is_changed = false;
    }
}

bool journals_close(void) {
    static bool has_closed;
    for (; opened > 0; has_closed = true)
        close(files[--opened].fd);
    return has_closed;
}
