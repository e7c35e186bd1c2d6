/* The Unix socket where zonedctl asks the parent. A client sends a line, a command, and gets lines once that is done:
 * the first is ok, or failed, and after failed a line says why. */
#include "host.h"

int control = -1;

int control_listen(void) {
    const char *path = given("--control");
    struct sockaddr_un at = {.sun_family = AF_UNIX};
    struct stat there;
    if (path == NULL)
        return 0;
    if (strlen(path) >= sizeof at.sun_path)
        return complain("--control: \"%s\" has more than %zu bytes", path, sizeof at.sun_path - 1);
    control = socket(AF_UNIX, SOCK_STREAM | SOCK_NONBLOCK | SOCK_CLOEXEC, 0);
    strcpy(at.sun_path, path);
    if (stat(path, &there) == 0 && S_ISSOCK(there.st_mode))
        unlink(path);
    if (bind(control, (struct sockaddr *)&at, sizeof at) != 0 || chmod(path, 0660) != 0 || listen(control, 64) != 0)
        return complain("--control: \"%s\": %s", path, strerror(errno));
    return 0;
}

/* What is not as it should be with a zone or a journal, or nothing. */
static const char *lack(const struct given *it) {
    if (is_zone(it))
        return it->refused == NULL ? "" : it->bytes != NULL ? " (not taken: as before)" : " (not taken: SERVFAIL)";
    if (settings->has_failed[it - settings->given])
        return " (not written: no updates)";
    return is_failed(it->text) ? " (not opened)" : "";
}

static void write_zones(int fd) {
    EACH_GIVEN (it)
        if (is_zone(it) || strcmp(it->option->name, "--journal") == 0)
            dprintf(fd, "%s %s%s\n", it->option->name + 2, it->text, lack(it));
}

static const char *name;          /* what a client's line has after a command */
static const struct given *asked; /* the zone of this name */

static bool find_zone(void) {
    asked = find(settings, "--zone", name);
    if (asked == NULL)
        say("\"%s\" is not a zone of this server", name);
    return asked != NULL;
}

/* How long the two files of a journal are. */
static intmax_t journal_length(const char *path) {
    struct stat first = {.st_size = 0}, second = {.st_size = 0};
    char other[PATH_MAX];
    snprintf(other, sizeof other, "%s-wal", path);
    stat(path, &first);
    stat(other, &second);
    return first.st_size + second.st_size;
}

static void write_zone(int fd) {
    const struct given *journal = find(settings, "--journal", asked->text);
    const char *file = strchr(asked->text, '='), *why = asked->refused;
    uint64_t serial = __atomic_load_n(&settings->serials[asked - settings->given], __ATOMIC_RELAXED);
    char at[32] = "never";
    if (asked->bytes != NULL)
        strftime(at, sizeof at, "%Y-%m-%d %H:%M:%S UTC", gmtime(&asked->loaded));
    dprintf(fd, "zone: %.*s\nstate: %s%s\nloaded: %s\nfile: %s\n", (int)(file - asked->text), asked->text,
            why == NULL            ? "served"
            : asked->bytes != NULL ? "as before: "
                                   : "failed: ",
            why != NULL ? why : "", at, file + 1);
    if (serial != NO_SERIAL)
        dprintf(fd, "serial: %ju\n", (uintmax_t)serial);
    dprintf(fd, "notices-waiting: %ju\n", (uintmax_t)__atomic_load_n(&shared->notices, __ATOMIC_RELAXED));
    if (journal != NULL)
        dprintf(fd, "journal: %s%s\njournal-bytes: %jd\n", strchr(journal->text, '=') + 1, lack(journal),
                journal_length(strchr(journal->text, '=') + 1));
}

/* From now on each worker writes the query log, into a file that it opens again. */
static bool begin_log(void) {
    const char *path = given("--query-log");
    int file = path != NULL ? open_log(path) : -1;
    if (path == NULL)
        say("--query-log is not given");
    else if (file < 0)
        say("%s: %s", path, strerror(errno));
    else
        shared->log_turn += 2 - shared->log_turn % 2;
    return file >= 0 && close(file) == 0;
}

static bool end_log(void) {
    shared->log_turn |= 1;
    return true;
}

static const struct command {
    const char *line; /* with a blank at its end if a name comes after it */
    bool (*obey)(void);
    void (*write)(int fd);
} commands[] = {{"status", NULL, write_status},    {"zones", NULL, write_zones}, {"zonestatus ", find_zone, write_zone},
                {"stats", NULL, statistics_write}, {"reload", reload, NULL},     {"querylog on", begin_log, NULL},
                {"querylog off", end_log, NULL},   {"stop", end_all, NULL}};

/* Does what a line says, and replies. */
static void obey(int fd, const char *line) {
    const struct command *it = commands, *end = commands + sizeof commands / sizeof *commands;
    size_t len;
    while (it < end &&
           (len = strlen(it->line), strncmp(it->line, line, len) != 0 || (line[len] != 0 && it->line[len - 1] != ' ')))
        it++;
    if (it == end)
        say("\"%s\" is not a command of zonedctl", line);
    else
        name = line + strlen(it->line);
    bool is_done = it < end && (it->obey == NULL || it->obey());
    dprintf(fd, is_done ? "ok\n%s" : "failed\n%s\n", is_done ? "" : said);
    if (is_done && it->write != NULL)
        it->write(fd);
}

void control_answer(void) {
    static const struct timeval second = {.tv_sec = 1};
    char line[300];
    int fd = accept4(control, NULL, NULL, SOCK_CLOEXEC);
    setsockopt(fd, SOL_SOCKET, SO_RCVTIMEO, &second, sizeof second);
    setsockopt(fd, SOL_SOCKET, SO_SNDTIMEO, &second, sizeof second);
    ssize_t got = recv(fd, line, sizeof line - 1, 0);
    if (got > 0) {
        line[got] = 0;
        line[strcspn(line, "\n")] = 0;
        obey(fd, line);
    }
    shutdown(fd, SHUT_RDWR); /* a worker that has begun meanwhile has it open, too */
    close(fd);
}
