// The cases, each run on all sides that have the call.
//
//   bench instructions [WORD]   under callgrind, which counts within the functions named measured* alone, and writes one
//                               file for each measurement; what is printed is of how many rounds it is
//   bench times [WORD]          nanoseconds of processor time for one round
//   bench allocations [WORD]    how often one round asks for memory; only in a build with COUNT_ALLOCATIONS
//   bench memory [WORD]         in such a build: the most bytes that are held while the input is made ready, in the place of what a round came
//                               to, and with one round
//
// WORD stands in the names of the cases that are run. A line of the output: case, size, side, what one round came to,
// and the figures of the mode.
#include "bench.h"
#include "inputs.h"

#include <dirent.h>
#include <inttypes.h>
#include <malloc.h>
#include <stdio.h>
#include <stdlib.h>
#include <string.h>
#include <time.h>
#include <valgrind/callgrind.h>

enum call {
    READ_REQUEST,
    READ_MESSAGE,
    WRITE_MESSAGE,
    ANSWER_REQUEST,
    ANSWER_TRANSFER,
    SERVE,
    SERVE_OVER_TCP,
    SERVE_FILTERED,
    UPDATE,
    FIND_ZONE,
    ALLOW,
    READ_BLOCKLIST,
    IS_BLOCKED
};

struct side {
    const char *name;
    uint64_t (*read_request)(const uint8_t *, size_t, uint64_t);
    uint64_t (*read_message)(const uint8_t *, size_t, uint64_t);
    uint64_t (*write_message)(const uint8_t *, size_t, uint16_t, uint64_t);
    uint64_t (*answer_request)(const uint8_t *, size_t, const uint8_t *, size_t, uint64_t);
    uint64_t (*answer_transfer)(const uint8_t *, size_t, const uint8_t *, size_t, uint64_t);
    uint64_t (*serve)(const uint8_t *, size_t, const uint8_t *, size_t, uint64_t);
    uint64_t (*serve_over_tcp)(const uint8_t *, size_t, const uint8_t *, size_t, uint64_t);
    uint64_t (*serve_filtered)(const uint8_t *, size_t, const uint8_t *, size_t, const uint8_t *, size_t, uint64_t);
    uint64_t (*update)(const uint8_t *, size_t, const uint8_t *, size_t, uint64_t);
    uint64_t (*find_zone)(const uint8_t *, size_t, const uint8_t *, size_t, uint64_t);
    uint64_t (*allow)(const uint8_t *, size_t, uint32_t, uint64_t);
    uint64_t (*read_blocklist)(const uint8_t *, size_t, uint64_t);
    uint64_t (*is_blocked)(const uint8_t *, size_t, const uint8_t *, size_t, uint64_t);
};

static const struct side sides[] = {
    {"ours", bench_calls_read_request, bench_calls_read_message, bench_calls_write_message,
     bench_calls_answer_request, bench_calls_answer_transfer, bench_calls_serve, bench_calls_serve_over_tcp, bench_calls_serve_filtered,
     bench_calls_update, bench_calls_find_zone, bench_calls_allow, bench_calls_read_blocklist, bench_calls_is_blocked},
    {"peer", peer_read_request, peer_read_message, peer_write_message, peer_answer_request, peer_answer_transfer,
     NULL, NULL, NULL, peer_update, peer_find_zone, NULL, NULL, peer_is_blocked},
    {"ldns", NULL, ldns_read_message, ldns_write_message, NULL, NULL, NULL, NULL, NULL, NULL, NULL, NULL, NULL, NULL},
};

#define SIDES (sizeof sides / sizeof sides[0])

struct job {
    char name[64];
    uint32_t size;
    enum call call;
    // The message, zone, names, networks or list; then the request, the updates or the name, where there are any.
    struct bytes input;
    struct bytes second;
    // The limit, the address, or how many names are blocked.
    uint32_t number;
    // A bit for each side that does not take the input, where a side may refuse it.
    unsigned refused_by;
};

// Whether a side may refuse the input of a case, and is then left out there.
static int may_refuse;

static int has_call(const struct side *side, const struct job *job)
{
    if (job->refused_by & 1u << (side - sides))
        return 0;
    switch (job->call) {
    case READ_REQUEST:
        return side->read_request != NULL;
    case READ_MESSAGE:
        return side->read_message != NULL;
    case WRITE_MESSAGE:
        // ldns has no limit.
        return side->write_message != NULL && (job->number == UINT16_MAX || strcmp(side->name, "ldns") != 0);
    case ANSWER_REQUEST:
        return side->answer_request != NULL;
    case ANSWER_TRANSFER:
        // The peer looks through all records for each that it takes, and needs minutes for the largest zone.
        return side->answer_transfer != NULL && (job->size < 100000 || strcmp(side->name, "ours") == 0);
    case SERVE:
        return side->serve != NULL;
    case SERVE_OVER_TCP:
        return side->serve_over_tcp != NULL;
    case SERVE_FILTERED:
        return side->serve_filtered != NULL;
    case UPDATE:
        return side->update != NULL;
    case FIND_ZONE:
        return side->find_zone != NULL;
    case ALLOW:
        return side->allow != NULL;
    case READ_BLOCKLIST:
        return side->read_blocklist != NULL;
    case IS_BLOCKED:
        return side->is_blocked != NULL;
    }
    return 0;
}

static uint64_t run_or_refuse(const struct side *side, const struct job *job, uint64_t rounds)
{
    const struct bytes *in = &job->input, *second = &job->second;
    uint64_t answer = WRONG;
    switch (job->call) {
    case READ_REQUEST:
        answer = side->read_request(in->at, in->len, rounds);
        break;
    case READ_MESSAGE:
        answer = side->read_message(in->at, in->len, rounds);
        break;
    case WRITE_MESSAGE:
        answer = side->write_message(in->at, in->len, (uint16_t)job->number, rounds);
        break;
    case ANSWER_REQUEST:
        answer = side->answer_request(in->at, in->len, second->at, second->len, rounds);
        break;
    case ANSWER_TRANSFER:
        answer = side->answer_transfer(in->at, in->len, second->at, second->len, rounds);
        break;
    case SERVE:
        answer = side->serve(in->at, in->len, second->at, second->len, rounds);
        break;
    case SERVE_OVER_TCP:
        answer = side->serve_over_tcp(in->at, in->len, second->at, second->len, rounds);
        break;
    case SERVE_FILTERED: {
        struct bytes list = blocked_names(job->number);
        answer = side->serve_filtered(list.at, list.len, in->at, in->len, second->at, second->len, rounds);
        free(list.at);
        break;
    }
    case UPDATE:
        answer = side->update(in->at, in->len, second->at, second->len, rounds);
        break;
    case FIND_ZONE:
        answer = side->find_zone(in->at, in->len, second->at, second->len, rounds);
        break;
    case ALLOW:
        answer = side->allow(in->at, in->len, job->number, rounds);
        break;
    case READ_BLOCKLIST:
        answer = side->read_blocklist(in->at, in->len, rounds);
        break;
    case IS_BLOCKED:
        answer = side->is_blocked(in->at, in->len, second->at, second->len, rounds);
        break;
    }
    return answer;
}

static uint64_t run(const struct side *side, const struct job *job, uint64_t rounds)
{
    uint64_t answer = run_or_refuse(side, job, rounds);
    if (answer == WRONG) {
        fprintf(stderr, "bench: %s cannot do %s at %u\n", side->name, job->name, job->size);
        exit(1);
    }
    return answer;
}

static void print_front(const struct side *side, const struct job *job, uint64_t answer)
{
    printf("%s\t%u\t%s\t%" PRIu64 "\t", job->name, job->size, side->name, answer);
}

// What one round comes to.
static uint64_t answer_of_round(const struct side *side, const struct job *job)
{
    return run(side, job, 2) - run(side, job, 1);
}

// How many rounds are counted. What may be refused may take a side long.
static uint64_t rounds_to_count(const struct job *job)
{
    return may_refuse ? 1 : job->size < 100 ? 100 : job->size < 1000 ? 20 : 5;
}

static void count_instructions(const struct side *side, const struct job *job)
{
    char label[128];
    snprintf(label, sizeof label, "%s|%u|%s", job->name, job->size, side->name);
    // The first round may meet an allocator that has nothing at hand yet.
    run(side, job, 1);
    CALLGRIND_ZERO_STATS;
    run(side, job, rounds_to_count(job));
    CALLGRIND_DUMP_STATS_AT(label);
    print_front(side, job, answer_of_round(side, job));
    printf("%" PRIu64 "\n", rounds_to_count(job));
}

// Of processor time, so that what else the machine runs counts little.
static double seconds(void)
{
    struct timespec now;
    clock_gettime(CLOCK_PROCESS_CPUTIME_ID, &now);
    return (double)now.tv_sec + 1e-9 * (double)now.tv_nsec;
}

static double time_of(const struct side *side, const struct job *job, uint64_t rounds)
{
    double start = seconds();
    run(side, job, rounds);
    return seconds() - start;
}

// So many rounds that they take 20 ms at least, and three times as long as making the input.
static uint64_t rounds_to_time(const struct side *side, const struct job *job)
{
    double setup = time_of(side, job, 1);
    uint64_t rounds = 2;
    while (rounds < 1u << 28) {
        double spent = time_of(side, job, rounds);
        if (spent > 0.02 && spent > 3 * setup)
            break;
        rounds *= 2;
    }
    return rounds;
}

#define REPEATS 7

// The sides take turns, so that what else the machine does meets all of them; the least of each counts.
static void measure_times(const struct job *job)
{
    uint64_t rounds[SIDES] = {0};
    double one[SIDES], all[SIDES];
    for (size_t s = 0; s < SIDES; s++) {
        one[s] = all[s] = 1e9;
        if (has_call(&sides[s], job))
            rounds[s] = rounds_to_time(&sides[s], job);
    }
    for (int i = 0; i < REPEATS; i++) {
        for (size_t s = 0; s < SIDES; s++) {
            if (rounds[s] == 0)
                continue;
            double first = time_of(&sides[s], job, 1), whole = time_of(&sides[s], job, rounds[s]);
            one[s] = first < one[s] ? first : one[s];
            all[s] = whole < all[s] ? whole : all[s];
        }
    }
    for (size_t s = 0; s < SIDES; s++) {
        if (rounds[s] == 0)
            continue;
        print_front(&sides[s], job, answer_of_round(&sides[s], job));
        printf("%.1f\n", 1e9 * (all[s] - one[s]) / (double)(rounds[s] - 1));
    }
}

#ifdef COUNT_ALLOCATIONS
// Calls that asked for memory; bytes that are held now, and the most that were.
static uint64_t allocations, held, most_held;

// The allocator of all sides, which counts each call that asks for memory.
extern void *__libc_malloc(size_t), *__libc_calloc(size_t, size_t), *__libc_realloc(void *, size_t);
extern void *__libc_memalign(size_t, size_t);
extern void __libc_free(void *);

static void *counted(void *at)
{
    allocations++;
    if (at != NULL)
        held += malloc_usable_size(at);
    if (held > most_held)
        most_held = held;
    return at;
}

void *malloc(size_t size) { return counted(__libc_malloc(size)); }

void *calloc(size_t count, size_t size) { return counted(__libc_calloc(count, size)); }

void *realloc(void *at, size_t size)
{
    size_t was = at == NULL ? 0 : malloc_usable_size(at);
    void *now = __libc_realloc(at, size);
    if (now != NULL)
        held -= was;
    return counted(now);
}

int posix_memalign(void **at, size_t alignment, size_t size)
{
    *at = counted(__libc_memalign(alignment, size));
    return *at == NULL;
}

void free(void *at)
{
    if (at != NULL)
        held -= malloc_usable_size(at);
    __libc_free(at);
}

static uint64_t allocations_in(const struct side *side, const struct job *job, uint64_t rounds)
{
    uint64_t before = allocations;
    run(side, job, rounds);
    return allocations - before;
}

static void count_allocations(const struct side *side, const struct job *job)
{
    uint64_t rounds = rounds_to_count(job);
    uint64_t one = allocations_in(side, job, 1), all = allocations_in(side, job, 1 + rounds);
    print_front(side, job, answer_of_round(side, job));
    printf("%.1f\n", (double)(all - one) / (double)rounds);
}

// How many bytes are held at most, beyond what was held before, while the input is made ready and so many rounds run.
static uint64_t most_held_in(const struct side *side, const struct job *job, uint64_t rounds)
{
    uint64_t before = most_held = held;
    run(side, job, rounds);
    return most_held - before;
}

static void count_memory(const struct side *side, const struct job *job)
{
    uint64_t ready = most_held_in(side, job, 0), one = most_held_in(side, job, 1);
    print_front(side, job, ready);
    printf("%" PRIu64 "\n", one);
}
#else
static void count_memory(const struct side *side, const struct job *job)
{
    (void)side;
    (void)job;
    fprintf(stderr, "bench: built without COUNT_ALLOCATIONS\n");
    exit(2);
}

static void count_allocations(const struct side *side, const struct job *job)
{
    (void)side;
    (void)job;
    fprintf(stderr, "bench: built without COUNT_ALLOCATIONS\n");
    exit(2);
}
#endif

static const char *mode, *word;

static void measure(const char *name, uint32_t size, enum call call, struct bytes input, struct bytes second, uint32_t number)
{
    struct job job = {.size = size, .call = call, .input = input, .second = second, .number = number};
    snprintf(job.name, sizeof job.name, "%s", name);
    if (strstr(name, word) != NULL) {
        for (size_t s = 0; may_refuse && s < SIDES; s++)
            if (has_call(&sides[s], &job) && run_or_refuse(&sides[s], &job, 1) == WRONG)
                job.refused_by |= 1u << s;
        if (strcmp(mode, "times") == 0)
            measure_times(&job);
        for (size_t s = 0; s < SIDES; s++) {
            if (!has_call(&sides[s], &job))
                continue;
            if (strcmp(mode, "instructions") == 0)
                count_instructions(&sides[s], &job);
            else if (strcmp(mode, "allocations") == 0)
                count_allocations(&sides[s], &job);
            else if (strcmp(mode, "memory") == 0)
                count_memory(&sides[s], &job);
        }
        fflush(stdout);
    }
    free(input.at);
    free(second.at);
}

static const struct bytes none;

// Each number of records in a message.
static const uint32_t counts[] = {1, 13, 100, 1000};
// Each number of entries of a map or a list.
static const uint32_t entries[] = {1, 1000, 100000};
// Each number of records of a zone that is transferred or updated.
static const uint32_t records[] = {10, 1000, 100000};

#define EACH(i, list) for (size_t i = 0; i < sizeof list / sizeof list[0]; i++)

static void measure_messages(void)
{
    measure("decode a query with EDNS, as a request", 1, READ_REQUEST, edns_query(), none, 0);
    measure("decode a query with EDNS, as a message", 1, READ_MESSAGE, edns_query(), none, 0);
    EACH(i, counts)
        measure("decode A records of one owner", counts[i], READ_MESSAGE, addresses(counts[i]), none, 0);
    EACH(i, counts)
        measure("decode MX records of nested names", counts[i], READ_MESSAGE, exchanges(counts[i]), none, 0);
    EACH(i, counts)
        measure("encode A records of one owner", counts[i], WRITE_MESSAGE, addresses(counts[i]), none, UINT16_MAX);
    EACH(i, counts)
        measure("encode MX records of nested names", counts[i], WRITE_MESSAGE, exchanges(counts[i]), none, UINT16_MAX);
    EACH(i, counts)
        measure("encode A records within 512 bytes", counts[i], WRITE_MESSAGE, addresses(counts[i]), none, 512);
    EACH(i, counts)
        measure("encode MX records within 512 bytes", counts[i], WRITE_MESSAGE, exchanges(counts[i]), none, 512);
}

static void measure_replies(void)
{
    EACH(i, counts)
        measure("reply in place, a hit", counts[i], ANSWER_REQUEST, zone(counts[i]), address_query("www.example.com."), 0);
    measure("reply in place, NXDomain", 1, ANSWER_REQUEST, zone(1), address_query("none.example.com."), 0);
    measure("reply in place, Refused", 1, ANSWER_REQUEST, zone(1), address_query("www.example.net."), 0);
}

// Messages, as programs serve them: datagrams, and messages of a connection. The zone has 1,004 sets and answers as
// RFC 1034 says.
static void measure_served(void)
{
    measure("served, an address", 1004, SERVE, standard_zone(), address_query("h500.example.com."), 0);
    measure("served, an address of 120 labels", 1004, SERVE, standard_zone(), deep_query(), 0);
    measure("served, no data", 1004, SERVE, standard_zone(), query("h500.example.com.", 28), 0);
    measure("served, NXDomain", 1004, SERVE, standard_zone(), address_query("none.example.com."), 0);
    measure("served, a wildcard", 1004, SERVE, standard_zone(), address_query("x.w.example.com."), 0);
    measure("served, a referral", 1004, SERVE, standard_zone(), address_query("www.c.example.com."), 0);
    measure("served over TCP, an address", 1004, SERVE_OVER_TCP, standard_zone(), address_query("h500.example.com."), 0);
    measure("served over TCP, NXDomain", 1004, SERVE_OVER_TCP, standard_zone(), address_query("none.example.com."), 0);
    measure("served, an address past a block list", 1004, SERVE_FILTERED, standard_zone(), address_query("h500.example.com."), 1000);
}

// An update that adds names and one that deletes them again; the zone is then as before, but for its serial.
static void measure_zones(void)
{
    static const uint32_t names[] = {1, 10, 1000};
    EACH(i, records)
        measure("transfer of a zone", records[i], ANSWER_TRANSFER, large_zone(records[i]), transfer_query(), 0);
    EACH(n, names) {
        char title[64];
        snprintf(title, sizeof title, "update: names added and deleted, %u", names[n]);
        EACH(i, records)
            measure(title, records[i], UPDATE, large_zone(records[i]), additions_and_deletions(names[n], 0), 0);
    }
    EACH(i, records)
        measure("update: all sets of a name deleted", records[i], UPDATE, large_zone(records[i]), additions_and_deletions(1, 1), 0);
}

static void measure_maps(void)
{
    EACH(i, entries) {
        char name[64];
        snprintf(name, sizeof name, "z%u.example.", entries[i] / 2);
        measure("zone lookup, at the apex", entries[i], FIND_ZONE, zone_names(entries[i]), one_name(name), 0);
    }
    EACH(i, entries) {
        char name[64];
        snprintf(name, sizeof name, "www.z%u.example.", entries[i] / 2);
        measure("zone lookup, one label below", entries[i], FIND_ZONE, zone_names(entries[i]), one_name(name), 0);
    }
    EACH(i, entries) {
        char name[64];
        snprintf(name, sizeof name, "a.b.c.d.e.f.g.h.z%u.example.", entries[i] / 2);
        measure("zone lookup, eight labels below", entries[i], FIND_ZONE, zone_names(entries[i]), one_name(name), 0);
    }
    EACH(i, entries)
        measure("zone lookup, no zone", entries[i], FIND_ZONE, zone_names(entries[i]), one_name("www.other.test."), 0);
    EACH(i, entries)
        measure("access by networks", entries[i], ALLOW, networks(entries[i]), none, (10u << 24) + (entries[i] / 2 << 8) + 1);
}

// The names asked for are beside each other in the list: the name in its middle, and names below that one, which no
// wildcard is above.
static void measure_blocklist(void)
{
    char name[64];
    EACH(i, entries)
        measure("read a list of blocked names", entries[i], READ_BLOCKLIST, blocked_names(entries[i]), none, 0);
    EACH(i, entries) {
        snprintf(name, sizeof name, "z%u.example.", entries[i] / 2);
        measure("blocklist, a hit", entries[i], IS_BLOCKED, blocked_names(entries[i]), one_name(name), 0);
    }
    EACH(i, entries) {
        snprintf(name, sizeof name, "www.z%u.example.", entries[i] / 2);
        measure("blocklist, a miss of three labels", entries[i], IS_BLOCKED, blocked_names(entries[i]), one_name(name), 0);
    }
    EACH(i, entries) {
        snprintf(name, sizeof name, "a.b.c.d.e.f.g.z%u.example.", entries[i] / 2);
        measure("blocklist, a miss of nine labels", entries[i], IS_BLOCKED, blocked_names(entries[i]), one_name(name), 0);
    }
}

static struct bytes bytes_of_file(const char *path)
{
    struct bytes made = {.room = UINT16_MAX};
    FILE *file = fopen(path, "rb");
    made.at = malloc(made.room);
    if (file == NULL || made.at == NULL) {
        perror(path);
        exit(1);
    }
    made.len = fread(made.at, 1, made.room, file);
    fclose(file);
    return made;
}

static int is_shown(const struct dirent *entry) { return entry->d_name[0] != '.'; }

// The messages that hostile.py wrote. A side that does not take one is left out there.
static void measure_hostile(const char *folder)
{
    may_refuse = 1;
    struct dirent **found;
    int count = scandir(folder, &found, is_shown, alphasort);
    for (int i = 0; i < count; i++) {
        char path[512], name[64];
        snprintf(path, sizeof path, "%s/%s", folder, found[i]->d_name);
        snprintf(name, sizeof name, "long, %.50s", found[i]->d_name);
        measure(name, UINT16_MAX, READ_MESSAGE, bytes_of_file(path), none, 0);
        free(found[i]);
    }
    if (count >= 0)
        free(found);
}

int main(int argc, char **argv)
{
    char folder[256];
    if (argc < 2 || argc > 3) {
        fprintf(stderr, "usage: bench instructions|times|allocations|memory [WORD]\n");
        return 2;
    }
    mode = argv[1];
    word = argc == 3 ? argv[2] : "";
    measure_messages();
    measure_replies();
    measure_served();
    measure_zones();
    measure_maps();
    measure_blocklist();
    // They lie beside this program.
    snprintf(folder, sizeof folder, "%.*shostile", (int)(strrchr(argv[0], '/') == NULL ? 0 : strrchr(argv[0], '/') - argv[0] + 1), argv[0]);
    measure_hostile(folder);
    return 0;
}
