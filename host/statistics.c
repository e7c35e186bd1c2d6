/* What all workers have counted, in memory that they share and that outlasts each: for zonedctl, and over HTTP. */
#include "host.h"

#define MOST_TEXT 8192

int metrics = -1;
struct shared *shared;

int share(void) {
    shared = mmap(NULL, sizeof *shared, PROT_READ | PROT_WRITE, MAP_SHARED | MAP_ANONYMOUS, -1, 0);
    return shared != MAP_FAILED ? 0 : complain("no memory");
}

void statistics_add(void) {
    static uint64_t before[COUNTERS];
    uint64_t counted[COUNTERS];
    zone_service_counters(&settings->service, (struct zone_service_counters *)counted);
    for (size_t i = 0; i < COUNTERS; i++)
        if (counted[i] != before[i])
            __atomic_fetch_add(&shared->counters[i], counted[i] - before[i], __ATOMIC_RELAXED);
    memcpy(before, counted, sizeof before);
}

/* Puts the counters into a text, as Prometheus reads them. */
static char *count(char text[MOST_TEXT]) {
    size_t len = 0;
    uint64_t sums[COUNTERS], failures = __atomic_load_n(&shared->journal_failures, __ATOMIC_RELAXED);
    for (size_t i = 0; i < COUNTERS; i++)
        sums[i] = __atomic_load_n(&shared->counters[i], __ATOMIC_RELAXED);
    zone_service_statistics((struct zone_service_counters *)sums, (uint8_t *)text, MOST_TEXT, &len);
    snprintf(text + len, MOST_TEXT - len,
             "# TYPE zoned_journal_failures_total counter\nzoned_journal_failures_total %ju\n", (uintmax_t)failures);
    return text;
}

void statistics_write(int fd) {
    char text[MOST_TEXT], *rest = count(text), *line, name[32], label[16], value[16];
    uintmax_t n, all = 0;
    while ((line = strsep(&rest, "\n")) != NULL)
        if (sscanf(line, "zoned_%31[a-z_]{%15[a-z]=\"%15[^\"]\"} %ju", name, label, value, &n) == 4) {
            bool is_transport = strcmp(label, "transport") == 0;
            all += is_transport ? n : 0;
            dprintf(fd, "num.%s%s=%ju\n", is_transport ? "" : *label == 'c' ? "rcode." : "unanswered.", value, n);
        } else if (sscanf(line, "zoned_%31[a-z_] %ju", name, &n) == 2)
            dprintf(fd, "num.%.*s=%ju\n", (int)strlen(name) - 6, name, n);
    dprintf(fd, "num.queries=%ju\n", all);
}

int metrics_listen(void) {
    static const int on = 1, seconds = 5;
    const char *text = given("--metrics");
    struct addrinfo *at = text != NULL ? find_address("--metrics", text, "") : NULL;
    if (at == NULL)
        return text == NULL ? 0 : -1;
    struct source from = source_of((const void *)at->ai_addr);
    bool is_own = from.len == 4 ? *from.bytes == 127 : IN6_IS_ADDR_LOOPBACK((const struct in6_addr *)from.bytes);
    metrics = socket(at->ai_family, SOCK_STREAM | SOCK_NONBLOCK | SOCK_CLOEXEC, 0);
    setsockopt(metrics, SOL_SOCKET, SO_REUSEADDR, &on, sizeof on);
    setsockopt(metrics, IPPROTO_TCP, TCP_DEFER_ACCEPT, &seconds, sizeof seconds);
    bool is_open = is_own && bind(metrics, at->ai_addr, at->ai_addrlen) == 0 && listen(metrics, 8) == 0;
    freeaddrinfo(at);
    return is_open ? 0 : complain("--metrics: \"%s\": %s", text, is_own ? strerror(errno) : "not a loopback address");
}

/* The system hands a connection over once a request has come, or after seconds without one, so that each is closed at
 * once. Only the first line of a request is looked at (RFC 9112 section 3). */
void metrics_answer(struct watch *listener) {
    static char request[1 << 16]; /* what is left unread would reset the connection */
    char text[MOST_TEXT];
    int fd = accept4(listener->fd, NULL, NULL, SOCK_NONBLOCK | SOCK_CLOEXEC);
    ssize_t got = fd < 0 ? 0 : recv(fd, request, sizeof request - 1, 0);
    if (got > 0) {
        request[got] = 0;
        bool is_whole = strchr(request, '\n') != NULL, is_get = strncmp(request, "GET ", 4) == 0;
        bool is_there = is_whole && strncmp(request, "GET /metrics ", 13) == 0;
        dprintf(fd, "HTTP/1.1 %s\r\nContent-Type: text/plain; version=0.0.4\r\nConnection: close\r\n\r\n%s",
                !is_whole   ? "400 Bad Request"
                : !is_get   ? "405 Method Not Allowed\r\nAllow: GET"
                : !is_there ? "404 Not Found"
                            : "200 OK",
                is_there ? count(text) : "");
    }
    if (fd >= 0)
        close(fd);
}
