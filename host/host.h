/* What the parts of the host share. */
#pragma once

#include "zone_service.h"

#include <arpa/inet.h>
#include <err.h>
#include <errno.h>
#include <fcntl.h>
#include <grp.h>
#include <libgen.h>
#include <limits.h>
#include <linux/sockios.h>
#include <malloc.h>
#include <netdb.h>
#include <netinet/in.h>
#include <netinet/tcp.h>
#include <poll.h>
#include <pwd.h>
#include <signal.h>
#include <stdarg.h>
#include <stdio.h>
#include <stdlib.h>
#include <string.h>
#include <sys/epoll.h>
#include <sys/ioctl.h>
#include <sys/mman.h>
#include <sys/prctl.h>
#include <sys/queue.h>
#include <sys/resource.h>
#include <sys/signalfd.h>
#include <sys/socket.h>
#include <sys/stat.h>
#include <sys/un.h>
#include <sys/wait.h>
#include <time.h>
#include <unistd.h>

#define MOST_SOCKETS 32
#define MOST_WORKERS 64
#define LAST_SECONDS 5 /* in which a worker that is to end sends the replies at hand */

/* The options with a number, which settings.c explains. */
enum number { NO_NUMBER, MAX_UDP, WORKERS, LOG_EVERY, RATE, SLIP, TCP_IDLE, TCP_MOST, TCP_CLIENT, NUMBERS };

/* An option: a number that is set within bounds, or a text. The library gets a text by set as it is, by set_pair as the
 * two parts of NAME=TEXT; of one that names a file, what is in the file. */
struct option {
    const char *name, *says;
    uint32_t (*set)(zone_service *, const uint8_t *, size_t, uint8_t *, size_t, size_t *);
    uint32_t (*set_pair)(zone_service *, const uint8_t *, size_t, const uint8_t *, size_t, uint8_t *, size_t, size_t *);
    bool is_file;
    enum number number;
    int least, most, usual;
};

/* The options, and the server that the library made of them. */
struct settings {
    struct given {
        const struct option *option;
        char *text;
        uint8_t *bytes; /* of a zone: what its file had when it was taken, or NULL if it never was */
        size_t len;
        time_t loaded; /* when it was taken */
        char *refused; /* why its file is not taken now, or NULL */
    } *given;          /* options with a text, in their order */
    int count, zones, refused, numbers[NUMBERS];
    bool is_check;        /* the files are only to be read */
    bool *has_failed;     /* for each text: a journal that could not be written. All processes share these */
    uint64_t *serials;    /* and of a zone the serial that was announced last, or NO_SERIAL. These too */
    zone_service service; /* at NULL if there is none */
};
extern struct settings *settings;
#define NO_SERIAL UINT64_MAX
#define EACH_GIVEN(g) for (struct given *g = settings->given; g < settings->given + settings->count; g++)
static inline bool is_zone(const struct given *it) {
    return it->option->set_pair == zone_service_add_zone;
}

/* What all processes share: what the workers counted, how many notices wait, how many workers have closed their sockets
 * to end, and a number that grows when they are to begin a query log, and is odd if they are to have none. */
#define COUNTERS (sizeof(struct zone_service_counters) / sizeof(uint64_t))
extern struct shared {
    uint64_t counters[COUNTERS], journal_failures, notices, left;
    uint32_t log_turn;
} *shared;

/* settings.c: find is the last option of this name, for the zone with whose name a text begins if that is given, or NULL;
 * given its text. is_failed: queries for a zone get SERVFAIL, since its file was never taken. read_arguments makes new
 * settings, and keeps the number of workers and the settings of before, if there are any. load makes the server that they
 * ask for, from their files; a zone whose file is refused is as before. Both are 0, or another number with a line on the
 * standard error. sum_up puts into said which zone files are refused. read_all is the bytes of an open file, or NULL.
 * forget frees settings, if there are any. say reports what is wrong, and keeps it in said. */
const char *given(const char *option);
const struct given *find(const struct settings *in, const char *option, const char *zone);
bool is_failed(const char *zone);
int read_arguments(char **arguments);
int load(const struct settings *before);
void sum_up(void);
uint8_t *read_all(int fd, size_t *len);
void forget(struct settings *old);
extern char said[512];
void say(const char *format, ...) __attribute__((format(printf, 1, 2)));
#define complain(...) (say(__VA_ARGS__), -1)

/* What a worker waits for, and what it does with the events that came. */
struct watch {
    int fd;
    void (*ready)(struct watch *);
    uint32_t events, came; /* those waited for, which wait_for keeps, and those that came */
};

/* The sockets of a worker, and what else it waits for all the time. */
struct sockets {
    struct watch all[MOST_SOCKETS + 2];
    int count;
};

/* sockets.c: how many sockets systemd has opened. open takes these, and opens those at given addresses; if there is no
 * place for them, it only looks whether nobody has these addresses. 0, or -1 with a line on the standard error.
 * find_address is the address that an option names, for freeaddrinfo, or NULL with such a line; the text has its port if
 * none is usual. */
struct addrinfo *find_address(const char *option, const char *text, const char *usual);
int adopted_sockets(void);
int open_sockets(struct sockets *sockets);

/* worker.c: work serves until SIGTERM, then sends the replies at hand, for at most LAST_SECONDS. open_log opens the
 * query log: its descriptor, or -1. wait_for makes a worker wait for these events of a descriptor, or for none: 0, or
 * -1. milliseconds is a clock's time. */
extern uint64_t now, moment; /* of events at hand: seconds since 1970, and milliseconds of a clock that is never set */
uint64_t milliseconds(clockid_t clock);
int work(struct sockets *sockets);
int open_log(const char *path);
int wait_for(struct watch *watch, uint32_t events);

/* statistics.c: share makes shared. add adds what the server counted since the last time. write sends all as text, with
 * the names of nsd-control(8). metrics_answer answers a client over HTTP.
 * control.c: control_answer answers a client.
 * share and .._listen, which opens the socket that an option asks for, are 0, or -1 with a line on the standard error. */
extern int metrics, control; /* sockets, or less than 0 */
int share(void);
void statistics_add(void);
void statistics_write(int fd);
int metrics_listen(void);
void metrics_answer(struct watch *listener);
int control_listen(void);
void control_answer(void);

/* The bytes of an address. An IPv4 address that came by a socket of IPv6 (RFC 4291 section 2.5.5.2) has its 4. */
struct source {
    const uint8_t *bytes;
    size_t len;
    uint16_t port;
};
static inline struct source source_of(const struct sockaddr_storage *address) {
    const struct sockaddr_in *v4 = (const void *)address;
    const struct sockaddr_in6 *v6 = (const void *)address;
    if (address->ss_family == AF_INET6 && IN6_IS_ADDR_V4MAPPED(&v6->sin6_addr))
        return (struct source){v6->sin6_addr.s6_addr + 12, 4, ntohs(v6->sin6_port)};
    if (address->ss_family == AF_INET6)
        return (struct source){v6->sin6_addr.s6_addr, 16, ntohs(v6->sin6_port)};
    return (struct source){(const uint8_t *)&v4->sin_addr, 4, ntohs(v4->sin_port)};
}

/* journals.c: open has the library open all journals, in files that no other process has, for which it waits so many
 * seconds: 0, or -1 with a line on the standard error. Between hold and settle updates are held. settle writes them to
 * the disk, before any reply leaves; if that fails, the process ends. compact makes journals shorter that are too long.
 * close lets others have the files: whether there are any. No message is answered after that. */
int journals_open(int seconds);
void journals_hold(void);
void journals_settle(void);
void journals_compact(void);
bool journals_close(void);

/* notify.c: begin has this worker tell other servers of changes of zones. A turn does what is to be done now; so many
 * events came before it. patience is how many milliseconds later the next turn is needed, or -1. */
void notify_begin(void);
void notify_turn(int events);
int notify_patience(void);

/* udp.c: answers what waits at a socket. */
void udp_ready(struct watch *socket);

/* tcp.c: how many connections there are; accept takes one that waits; expire closes those that are idle too long or too
 * many: milliseconds until the next one is, or -1; leave answers what has come, and closes each once that is sent. */
extern int tcp_count;
void tcp_accept(struct watch *listener);
int tcp_expire(void);
void tcp_leave(void);

/* main.c: reload reads all files again: whether they are taken, and new workers have begun. write_status reports
 * processes, and the last reload. end_all ends all, so that is_over. let_end lets SIGTERM and SIGINT end all at once,
 * while something may take long, or makes them wait again. say_limits reports what failed, why, and the limits of the
 * process. */
extern bool is_over;
bool reload(void);
void write_status(int fd);
bool end_all(void);
void let_end(bool is_let);
void say_limits(const char *what);
