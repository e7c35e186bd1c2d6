/* Notices that zones have changed (RFC 1996), which the first worker sends. The library says which zones have another
 * serial than was announced last, to whom what is sent and when, and what an answer means. */
#include "host.h"

#include <sys/random.h>

#define STEP 10        /* milliseconds between two turns if there is more to do at once */
#define ROUND 64       /* datagrams that are sent in a turn, or taken */
#define LOOKS 512      /* zones that are looked at in a turn, as the worker begins */
#define UNDER_WAY 1000 /* so many notices wait until no more zones are looked at, as the worker begins */
#define LATE(count) (50 + (count) / 16) /* milliseconds after a message in which its update may be found */

struct zone {
    size_t number;    /* of the library */
    uint64_t *serial; /* the one that was announced last */
};
static struct zone *zones, *updated;            /* all zones, and those that take updates */
static size_t zone_count, updated_count, begun; /* how many they are, and how many were looked at as the worker began */
static size_t waiting;                          /* how many notices wait */
static struct watch sockets[2] = {{.fd = -1}, {.fd = -1}}; /* of IPv4 and of IPv6 */
static uint64_t looked;                                    /* when the zones that take updates were looked at last */
static bool has_come;                                      /* whether a message may have come since then */

void notify_begin(void) {
    zones = calloc(2 * (size_t)settings->zones + 1, sizeof *zones);
    if (zones == NULL)
        return warnx("no memory: nobody is notified of changes of zones");
    updated = zones + settings->zones;
    EACH_GIVEN (g)
        if (is_zone(g)) {
            zones[zone_count] = (struct zone){zone_count, &settings->serials[g - settings->given]};
            if (find(settings, "--allow-update", g->text) != NULL)
                updated[updated_count++] = zones[zone_count];
            zone_count++;
        }
}

/* Whether a zone was looked at. If not, it is looked at again later. */
static bool look(const struct zone *it) {
    uint64_t serial = *it->serial; /* zonedctl reads it meanwhile */
    bool is = zone_service_look(&settings->service, it->number, &serial, moment) == ZONE_SERVICE_DONE;
    __atomic_store_n(it->serial, serial, __ATOMIC_RELAXED);
    return is;
}

/* Says what became of a notice, if there is something to say. */
static void tell(const uint8_t *text, size_t len) {
    if (len > 0)
        warnx("%.*s", (int)len, (const char *)text);
}

/* Hears the answers at hand. */
static void hear(struct watch *socket) {
    static uint8_t bytes[4096], text[512];
    struct sockaddr_storage from;
    socklen_t room = sizeof from;
    ssize_t got;
    for (int i = 0;
         i < ROUND && (got = recvfrom(socket->fd, bytes, sizeof bytes, MSG_DONTWAIT, (void *)&from, &room)) >= 0;
         i++, room = sizeof from) {
        const struct sockaddr_in *v4 = (const void *)&from;
        const struct sockaddr_in6 *v6 = (const void *)&from;
        bool is_v6 = from.ss_family == AF_INET6; /* one that stands for an address of IPv4 too, as it was sent to */
        const uint8_t *address = is_v6 ? v6->sin6_addr.s6_addr : (const uint8_t *)&v4->sin_addr;
        size_t len = 0;
        zone_service_hear(&settings->service, address, is_v6 ? 16 : 4, ntohs(is_v6 ? v6->sin6_port : v4->sin_port),
                          bytes, (size_t)got, text, sizeof text, &len);
        tell(text, len);
    }
}

/* The socket for an address of so many bytes, or less than 0. */
static int socket_for(size_t len) {
    struct watch *it = &sockets[len == 16];
    if (it->fd < 0) {
        *it = (struct watch){.fd = socket(len == 16 ? AF_INET6 : AF_INET, SOCK_DGRAM | SOCK_NONBLOCK | SOCK_CLOEXEC, 0),
                             .ready = hear};
        if (it->fd >= 0)
            wait_for(it, EPOLLIN);
    }
    return it->fd;
}

/* Sends a datagram. What the system does not take is sent again later, as what is lost. */
static void send_to(const uint8_t address[16], size_t len, uint16_t port, const uint8_t *bytes, size_t count) {
    struct sockaddr_in v4 = {.sin_family = AF_INET, .sin_port = htons(port)};
    struct sockaddr_in6 v6 = {.sin6_family = AF_INET6, .sin6_port = htons(port)};
    memcpy(len == 16 ? (void *)&v6.sin6_addr : (void *)&v4.sin_addr, address, len);
    sendto(socket_for(len), bytes, count, MSG_DONTWAIT, len == 16 ? (void *)&v6 : (void *)&v4,
           len == 16 ? sizeof v6 : sizeof v4);
}

/* Sends what is due, and says which notices are given up. */
static void send_due(void) {
    static uint8_t bytes[4096], text[512];
    uint8_t address[16];
    uint16_t id, port;
    size_t len, count;
    for (int i = 0; i < ROUND && getrandom(&id, sizeof id, 0) == sizeof id &&
                    zone_service_notice(&settings->service, moment, id, address, &len, &port, bytes, sizeof bytes,
                                        &count) == ZONE_SERVICE_DONE;
         i++)
        send_to(address, len, port, bytes, count);
    while (zone_service_give_up(&settings->service, moment, text, sizeof text, &len) == ZONE_SERVICE_DONE)
        tell(text, len);
}

/* Whether there is nothing to do until all files are read again. */
static bool is_quiet(void) {
    return begun == zone_count && updated_count == 0 && waiting == 0;
}

void notify_turn(int events) {
    if (is_quiet())
        return;
    has_come |= events > 0;
    zone_service_notices(&settings->service, &waiting);
    for (int i = 0; i < LOOKS && begun < zone_count && waiting < UNDER_WAY && look(&zones[begun]); i++, begun++)
        zone_service_notices(&settings->service, &waiting);
    if (has_come && moment >= looked + LATE(updated_count)) {
        has_come = false;
        for (size_t i = 0; i < updated_count; i++)
            has_come |= !look(&updated[i]);
        looked = moment;
    }
    send_due();
    zone_service_notices(&settings->service, &waiting);
    __atomic_store_n(&shared->notices, waiting, __ATOMIC_RELAXED);
}

int notify_patience(void) {
    uint64_t next = is_quiet() ? UINT64_MAX : zone_service_notices(&settings->service, &waiting);
    if (begun < zone_count && waiting < UNDER_WAY)
        next = 0;
    else if (updated_count > 0 && has_come && next > looked + LATE(updated_count))
        next = looked + LATE(updated_count);
    return next == UINT64_MAX        ? -1
           : next < moment + STEP    ? STEP
           : next - moment > INT_MAX ? INT_MAX
                                     : (int)(next - moment);
}
