/* zoned: sockets, processes, files and signals around the proved library zone_service. docs/reference/zoned.md says how
 * it is started. The parent opens the sockets, lets its privileges go, has the library read the files, and forks the
 * workers, which share what was read. SIGHUP reads the files again: if all are taken, new workers begin, and the old
 * ones end after the replies at hand; else the old ones go on. A worker that ends by itself is begun again. SIGTERM
 * ends all. If zones have journals, there is one worker, which opens them once the one before has closed them. */
#include "host.h"

#define SECOND 1000 /* milliseconds */

static struct worker {
    struct sockets sockets;
    pid_t pid, old; /* the process, and the one before, which is to end; 0 or less if there is none */
} workers[MOST_WORKERS];
static int running;                      /* how many workers there are */
static uint64_t started, begun, retired; /* when the first one began, one last began, and was last to end */
static char **arguments;
static char failure[sizeof said]; /* what was wrong with the files that were read last, if something was */
bool is_over;

/* Tells systemd, where it asked (sd_notify(3)). */
static void notify(const char *text) {
    const char *path = getenv("NOTIFY_SOCKET");
    struct sockaddr_un to = {.sun_family = AF_UNIX};
    size_t len = path != NULL ? strlen(path) : 0;
    if (len == 0 || len >= sizeof to.sun_path)
        return;
    memcpy(to.sun_path, path, len);
    to.sun_path[0] = *path == '@' ? 0 : *path;
    int fd = socket(AF_UNIX, SOCK_DGRAM | SOCK_CLOEXEC, 0);
    if (connect(fd, (struct sockaddr *)&to, (socklen_t)(offsetof(struct sockaddr_un, sun_path) + len)) == 0)
        send(fd, text, strlen(text), MSG_NOSIGNAL);
    close(fd);
}

static int let_privileges_go(void) {
    const char *name = given("--user");
    struct passwd *user = name != NULL ? getpwnam(name) : NULL;
    if (name != NULL && (user == NULL || initgroups(user->pw_name, user->pw_gid) != 0 || setgid(user->pw_gid) != 0 ||
                         setuid(user->pw_uid) != 0))
        return complain("--user: %s: \"%s\"", user == NULL ? "no such user" : strerror(errno), name);
    return prctl(PR_SET_NO_NEW_PRIVS, 1, 0, 0, 0);
}

/* Closes the sockets of all workers, except those of one, if it is given: a socket that any process has open gets
 * clients, also if nobody reads from it. Sockets of systemd are those of every worker. */
static void leave_sockets(const struct worker *but) {
    for (const struct worker *it = workers; it < workers + running; it++)
        for (int i = 0; i < it->sockets.count; i++)
            if (but == NULL || it->sockets.all[i].fd != but->sockets.all[i].fd)
                close(it->sockets.all[i].fd);
}

void say_limits(const char *what) {
    const char *why = strerror(errno);
    struct rlimit processes, files, memory;
    getrlimit(RLIMIT_NPROC, &processes);
    getrlimit(RLIMIT_NOFILE, &files);
    getrlimit(RLIMIT_AS, &memory);
    say("%s: %s (limits, -1 for none: %jd processes of this user, %jd descriptors, %jd bytes of memory)", what, why,
        (intmax_t)processes.rlim_cur, (intmax_t)files.rlim_cur, (intmax_t)memory.rlim_cur);
}

/* Makes a worker end. One that was to end before is killed, so that there are never more than two generations. */
static void retire(struct worker *worker) {
    if (worker->old > 0)
        kill(worker->old, SIGKILL);
    kill(worker->pid, SIGTERM);
    worker->old = worker->pid;
    worker->pid = 0;
    retired = milliseconds(CLOCK_MONOTONIC);
}

/* Becomes a worker. The parent hears once it has opened the journals, or why it has not. */
static _Noreturn void become(struct worker *worker, struct settings *before, pid_t parent, const int ready[2]) {
    prctl(PR_SET_PDEATHSIG, SIGTERM);
    signal(SIGTERM, SIG_DFL);
    signal(SIGINT, SIG_DFL);
    close(ready[0]);
    close(control);
    leave_sockets(worker);
    forget(before);
    let_end(true);
    bool is_ready = journals_open(worker->old > 0 ? 2 * LAST_SECONDS : 2) == 0;
    let_end(false);
    is_ready &= write(ready[1], said, is_ready ? 1 : strlen(said)) > 0;
    close(ready[1]);
    if (worker == workers)
        notify_begin();
    _exit(is_ready && getppid() == parent ? work(&worker->sockets) : 1);
}

/* Waits until a worker is ready: whether it is. The one before is killed if it keeps the journals for too long. */
static bool is_ready(struct worker *worker, int told) {
    struct pollfd it = {.fd = told, .events = POLLIN};
    let_end(true);
    if (poll(&it, 1, (LAST_SECONDS + 1) * SECOND) == 0 && worker->old > 0)
        kill(worker->old, SIGKILL);
    ssize_t got = read(told, said, sizeof said - 1);
    let_end(false);
    said[got > 0 ? got : 0] = 0;
    if (got <= 0)
        say("a worker did not begin");
    return got == 1 && *said == 0;
}

/* Begins a worker, which forgets the settings of before: whether it is ready. */
static bool begin_one(struct worker *worker, struct settings *before) {
    int ready[2] = {-1, -1};
    pid_t parent = getpid();
    *said = 0;
    begun = milliseconds(CLOCK_MONOTONIC);
    worker->pid = pipe2(ready, O_CLOEXEC) == 0 ? fork() : -1;
    if (worker->pid == 0)
        become(worker, before, parent, ready);
    if (worker->pid < 0)
        say_limits("cannot begin a worker");
    close(ready[1]);
    bool is = worker->pid > 0 && is_ready(worker, ready[0]);
    close(ready[0]);
    worker->pid = is ? worker->pid : 0;
    return is;
}

/* Begins the workers that are missing, or puts new ones into the place of all, which forget the settings of before, if
 * these are given: whether each could begin. SIGALRM tries again what could not. It waits a second at most until those
 * before take no more messages. */
static bool begin(bool is_anew, struct settings *before) {
    bool could = true;
    int tries = SECOND;
    uint64_t left = __atomic_load_n(&shared->left, __ATOMIC_ACQUIRE);
    for (struct worker *worker = workers; worker < workers + running; worker++) {
        if (worker->pid > 0 && is_anew) {
            retire(worker);
            left++;
        }
        if (worker->pid <= 0)
            could &= begin_one(worker, before);
    }
    if (!could)
        alarm(1);
    while (is_anew && __atomic_load_n(&shared->left, __ATOMIC_ACQUIRE) < left && tries-- > 0)
        poll(NULL, 0, 1);
    return could;
}

/* Has systemd know that it is ready, and what was wrong with the files that were read last. */
static void notify_ready(const char *how) {
    char text[sizeof failure + 64];
    snprintf(text, sizeof text, "STATUS=%s%s\nREADY=1\n", how, failure);
    notify(text);
}

/* Without journals nothing can be wrong once the files are read, so the zones of before go first, and no worker has
 * both. With them the new worker may not begin. If only zone files are refused, all others are taken. */
bool reload(void) {
    struct settings *before = settings;
    notify("RELOADING=1\n");
    let_end(true);
    bool is_read = read_arguments(arguments) == 0 && load(before) == 0, is_taken;
    let_end(false);
    if (is_read && given("--journal") == NULL) {
        forget(before);
        before = NULL;
    }
    is_taken = is_read && (begin(true, before) || before == NULL);
    if (is_taken)
        sum_up();
    memcpy(failure, said, sizeof said);
    struct settings *left = is_taken ? before : settings;
    settings = is_taken ? settings : before;
    if (is_read && !is_taken) {
        warnx("the settings of before hold again");
        begin(true, left);
    }
    forget(left);
    memcpy(said, failure, sizeof said);
    notify_ready(is_taken ? "" : "The last reload failed: ");
    return *failure == 0;
}

void write_status(int fd) {
    dprintf(fd, "zoned %s: process %d, for %ju seconds\n", ZONED_VERSION, getpid(),
            (uintmax_t)(milliseconds(CLOCK_MONOTONIC) - started) / SECOND);
    for (int i = 0; i < running; i++)
        dprintf(fd, "worker %d: process %d\n", i, workers[i].pid);
    dprintf(fd, "zones: %d; refused zone files: %d\nthe last start or reload: %s\n", settings->zones, settings->refused,
            *failure != 0 ? failure : "nothing is wrong");
}

/* Notes the end of a child, if one has ended: its number, or what waitpid(2) says. */
static pid_t note_end(bool is_told) {
    pid_t ended = waitpid(-1, NULL, WNOHANG);
    for (int i = 0; ended > 0 && i < running; i++) {
        if (workers[i].pid == ended && is_told)
            warnx("worker %d ended", i);
        workers[i].pid = workers[i].pid == ended ? 0 : workers[i].pid;
        workers[i].old = workers[i].old == ended ? 0 : workers[i].old;
    }
    return ended;
}

/* Sends a signal to all workers, also to those that are to end. */
static void signal_all(int number) {
    for (const struct worker *it = workers; it < workers + running; it++) {
        if (it->pid > 0)
            kill(it->pid, number);
        if (it->old > 0)
            kill(it->old, number);
    }
}

/* Kills the workers that were to end and have not. */
static void kill_late(void) {
    bool is_late = milliseconds(CLOCK_MONOTONIC) > retired + (LAST_SECONDS + 1) * SECOND;
    for (const struct worker *it = workers; it < workers + running; it++)
        if (it->old > 0 && is_late)
            kill(it->old, SIGKILL);
        else if (it->old > 0)
            alarm(1);
}

/* Begins workers that ended by themselves, at most once a second. */
static void replace_ended(void) {
    while (note_end(true) > 0)
        ;
    /* (the parent waits by SIGALRM, so that it hears of its own end) */
    if (milliseconds(CLOCK_MONOTONIC) < begun + SECOND)
        alarm(1);
    else
        begin(false, NULL);
}

/* Waits until all children have ended, at most so many seconds: whether they have. */
static bool have_ended(int seconds) {
    static const struct timespec step = {.tv_nsec = 10000000};
    uint64_t end = milliseconds(CLOCK_MONOTONIC) + (uint64_t)seconds * SECOND;
    pid_t ended;
    while ((ended = note_end(false)) >= 0 && milliseconds(CLOCK_MONOTONIC) < end)
        nanosleep(&step, NULL);
    return ended < 0;
}

/* Ends all: the workers after the replies at hand, and what has not ended by then at once. It calls only what
 * signal-safety(7) lists, since it may come while files are read. */
bool end_all(void) {
    is_over = true;
    notify("STOPPING=1\n");
    leave_sockets(NULL);
    close(metrics);
    close(control);
    signal_all(SIGTERM);
    if (!have_ended(LAST_SECONDS)) {
        signal_all(SIGKILL);
        have_ended(1);
    }
    return true;
}

static void end_now(int number __attribute__((unused))) {
    end_all();
    _exit(0);
}

void let_end(bool is_let) {
    sigset_t ends;
    sigemptyset(&ends);
    sigaddset(&ends, SIGTERM);
    sigaddset(&ends, SIGINT);
    sigprocmask(is_let ? SIG_UNBLOCK : SIG_BLOCK, &ends, NULL);
}

/* Opens descriptors 0 to 2 if they are closed, so that no socket is one of them. Takes as many descriptors as the
 * system allows. A write to a pipe that nobody reads, or beyond the limit of files, fails then, and ends nothing. */
static void prepare(void) {
    struct rlimit files;
    int fd = 0;
    while (fd >= 0 && fd <= 2)
        fd = open("/dev/null", O_RDWR);
    close(fd);
    if (getrlimit(RLIMIT_NOFILE, &files) == 0) {
        files.rlim_cur = files.rlim_max;
        setrlimit(RLIMIT_NOFILE, &files);
    }
    signal(SIGPIPE, SIG_IGN);
    signal(SIGXFSZ, SIG_IGN);
    program_invocation_short_name = "zoned";
}

/* Waits for a signal, and answers zonedctl meanwhile: whether this is to end all. */
static bool is_to_end(int signals) {
    struct pollfd both[] = {{.fd = signals, .events = POLLIN}, {.fd = control, .events = POLLIN}};
    struct signalfd_siginfo it = {.ssi_signo = 0};
    poll(both, 2, -1);
    if (both[1].revents != 0)
        control_answer();
    if (!is_over && read(signals, &it, sizeof it) == sizeof it && it.ssi_signo == SIGHUP)
        reload();
    return is_over || it.ssi_signo == SIGTERM || it.ssi_signo == SIGINT;
}

int main(int count __attribute__((unused)), char **words) {
    static const int awaited[] = {SIGHUP, SIGTERM, SIGINT, SIGCHLD, SIGALRM};
    sigset_t signals;
    sigemptyset(&signals);
    for (size_t i = 0; i < sizeof awaited / sizeof *awaited; i++)
        sigaddset(&signals, awaited[i]);
    sigprocmask(SIG_BLOCK, &signals, NULL);
    prepare();
    arguments = words;
    if (read_arguments(arguments) != 0)
        return 2;
    if (settings->is_check)
        return (let_end(true), load(NULL) != 0 || settings->refused > 0);
    running = settings->numbers[WORKERS];
    for (int i = -1; i < running; i++)
        if (open_sockets(i < 0 ? NULL : &workers[i].sockets) != 0)
            return 1;
    const struct sigaction ends = {.sa_handler = end_now, .sa_mask = signals};
    sigaction(SIGTERM, &ends, NULL);
    sigaction(SIGINT, &ends, NULL);
    let_end(true);
    /* The files are read without privileges, as they will be at a reload. */
    if (let_privileges_go() != 0 || load(NULL) != 0)
        return 1;
    let_end(false);
    started = milliseconds(CLOCK_MONOTONIC);
    if (share() != 0 || metrics_listen() != 0 || control_listen() != 0 || !begin(true, NULL))
        return 1;
    sum_up();
    memcpy(failure, said, sizeof said);
    notify_ready("");
    for (int fd = signalfd(-1, &signals, SFD_CLOEXEC | SFD_NONBLOCK); !is_to_end(fd); kill_late())
        replace_ended();
    if (!is_over)
        end_all();
    return 0;
}
