// Sends messages to a server on loopback over UDP as so many clients, each of which sends the next of its own once the last was answered, and prints how many
// nanoseconds each took until its answer came, and at the end those of all together.
//
//     update_clients PORT CLIENTS SECONDS < MESSAGES
//
// A message stands behind its length, of two bytes; they go to the clients by turns. An answer with another code than 0 ends it with status 1, and so does one
// that does not come within SECONDS.
#include <arpa/inet.h>
#include <poll.h>
#include <stdio.h>
#include <stdlib.h>
#include <string.h>
#include <sys/socket.h>
#include <time.h>
#include <unistd.h>

enum { MOST_CLIENTS = 64, MOST_MESSAGES = 1 << 20 };

struct message {
    unsigned char *bytes;
    size_t len;
};

static struct message messages[MOST_MESSAGES];
static long taken[MOST_MESSAGES];
static size_t count;

static void fail(const char *what) {
    fprintf(stderr, "update_clients: %s\n", what);
    exit(1);
}

static long now(void) {
    struct timespec it;
    clock_gettime(CLOCK_MONOTONIC, &it);
    return it.tv_sec * 1000000000L + it.tv_nsec;
}

static void read_messages(void) {
    unsigned char length[2];
    while (fread(length, 1, 2, stdin) == 2) {
        struct message *it = &messages[count];
        if (count++ == MOST_MESSAGES)
            fail("too many messages");
        it->len = (size_t)length[0] << 8 | length[1];
        it->bytes = malloc(it->len);
        if (it->len < 12 || !it->bytes || fread(it->bytes, 1, it->len, stdin) != it->len)
            fail("a message is cut");
    }
}

static int client_of(int port) {
    struct sockaddr_in at = {.sin_family = AF_INET, .sin_port = htons((unsigned short)port), .sin_addr.s_addr = htonl(INADDR_LOOPBACK)};
    int it = socket(AF_INET, SOCK_DGRAM, 0);
    if (it < 0 || connect(it, (struct sockaddr *)&at, sizeof at) != 0)
        fail("no socket");
    return it;
}

static void ask(int client, size_t place) {
    taken[place] = now();
    if (send(client, messages[place].bytes, messages[place].len, 0) != (ssize_t)messages[place].len)
        fail("a message is not sent");
}

// Whether the answer that waits is that of this message.
static int is_answered(int client, size_t place) {
    unsigned char reply[65535];
    ssize_t len = recv(client, reply, sizeof reply, 0);
    if (len < 12 || memcmp(reply, messages[place].bytes, 2) != 0)
        return 0;
    if (reply[3] & 15)
        fail("a message was refused");
    taken[place] = now() - taken[place];
    return 1;
}

int main(int argc, char **argv) {
    if (argc != 4)
        fail("PORT CLIENTS SECONDS");
    size_t clients = (size_t)atoi(argv[2]), places[MOST_CLIENTS], left;
    struct pollfd at[MOST_CLIENTS];
    read_messages();
    if (clients == 0 || clients > MOST_CLIENTS || count < clients)
        fail("so many clients have no messages");
    for (size_t it = 0; it < clients; it++)
        at[it] = (struct pollfd){.fd = client_of(atoi(argv[1])), .events = POLLIN};
    long began = now();
    for (size_t it = 0; it < clients; it++)
        ask(at[it].fd, places[it] = it);
    for (left = count; left > 0;) {
        if (poll(at, clients, atoi(argv[3]) * 1000) <= 0)
            fail("no answer came");
        for (size_t it = 0; it < clients; it++) {
            if (!(at[it].revents & POLLIN) || places[it] >= count || !is_answered(at[it].fd, places[it]))
                continue;
            left--;
            if ((places[it] += clients) < count)
                ask(at[it].fd, places[it]);
        }
    }
    began = now() - began;
    for (size_t it = 0; it < count; it++)
        printf("%ld\n", taken[it]);
    printf("%ld\n", began);
    return 0;
}
