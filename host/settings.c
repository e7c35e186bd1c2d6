/* The arguments and the configuration file of zoned, and the server that the proved library makes of them. */
#include "host.h"

#define STEP 1024 /* options for which memory is taken at a time */
#define ROOM 64   /* bytes that the settings of a byte of a configuration may take */

struct settings *settings;
char said[512];

void say(const char *format, ...) {
    va_list words;
    va_start(words, format);
    vsnprintf(said, sizeof said, format, words);
    va_end(words);
    warnx("%s", said);
}

/* In the order in which the library gets them. */
static const struct option options[] = {
    {"--listen", "ADDRESS[@PORT], over UDP and TCP; port 53", .set = NULL},
    {"--blocklist", "FILE of names that are blocked, a line each", .set = zone_service_set_blocklist, .is_file = true},
    {"--keys", "FILE of the keys that sign messages (TSIG)", .set = zone_service_set_keys, .is_file = true},
    {"--nsid", "TEXT that identifies this server", .set = zone_service_set_identifier},
    {"--allow", "NET that may ask; no other may then", .set = zone_service_set_allowed},
    {"--deny", "NET that may not", .set = zone_service_set_denied},
    {"--zone", "NAME=FILE: the zone at NAME, from a zone file", .set_pair = zone_service_add_zone, .is_file = true},
    {"--allow-transfer", "NET that may have zones transferred, nobody by default: ZONE=NET for one zone",
     .set = zone_service_set_transfer_allowed, .set_pair = zone_service_set_zone_transfer_allowed},
    {"--deny-transfer", "NET, part of an allowed one, that may not: ZONE=NET for one zone",
     .set = zone_service_set_transfer_denied, .set_pair = zone_service_set_zone_transfer_denied},
    {"--allow-transfer-key", "NAME of a key that may, from anywhere: ZONE=NAME for one zone",
     .set = zone_service_allow_transfer_key, .set_pair = zone_service_allow_zone_transfer_key},
    {"--allow-update", "'ZONE=KEY [zone|subdomain NAME|name NAME|self] [TYPE..]': who may update what",
     .set_pair = zone_service_allow_update},
    {"--journal", "NAME=FILE: the updates of the zone at NAME are kept in FILE and FILE-wal", .set = NULL},
    {"--notify", "yes, explicit or no: who is told of changes, the servers of NS records too, configured ones, nobody",
     .set = zone_service_set_notify},
    {"--also-notify", "ADDRESS[@PORT] that is told of changes of all zones; of one: NAME=ADDRESS[@PORT]",
     .set = zone_service_also_notify, .set_pair = zone_service_also_notify_of},
    {"--control", "PATH of a Unix socket where zonedctl asks it", .set = NULL},
    {"--metrics", "ADDRESS@PORT of loopback, where Prometheus reads its counters over HTTP", .set = NULL},
    {"--query-log", "PATH of a file to which a line for each query is put", .set = NULL},
    {"--user", "NAME of the user that it becomes once its sockets are open", .set = NULL},
    {"--query-log-every", "of so many queries one has a line", .number = LOG_EVERY, 1, 1000000, 1},
    {"--max-udp", "bytes of a reply over UDP at most", .number = MAX_UDP, 512, 65535, 1232},
    {"--rate-limit", "replies over UDP a second to a network of clients, 0 for all", .number = RATE, 0, 1000000, 0},
    {"--rate-slip", "of those above it each so many says TC, 0 for none", .number = SLIP, 0, 1000, 2},
    {"--workers", "processes that serve, one where a zone takes updates", .number = WORKERS, 1, MOST_WORKERS, 1},
    {"--tcp-idle", "seconds until a connection that does not get on is closed", .number = TCP_IDLE, 1, 3600, 10},
    {"--tcp-most", "connections of a worker", .number = TCP_MOST, 1, 100000, 1000},
    {"--tcp-client", "connections of a client and worker", .number = TCP_CLIENT, 1, 100000, 100},
    {.name = NULL}};

/* The length of the zone's name that a text begins with, without the dot at its end. */
static size_t name_length(const char *text) {
    size_t len = strcspn(text, "=");
    return len > 1 && text[len - 1] == '.' ? len - 1 : len;
}

const struct given *find(const struct settings *in, const char *option, const char *zone) {
    size_t len = zone != NULL ? name_length(zone) : 0;
    for (const struct given *g = in->given + in->count; g > in->given;)
        if (strcmp((--g)->option->name, option) == 0 &&
            (zone == NULL || (name_length(g->text) == len && strncasecmp(g->text, zone, len) == 0)))
            return g;
    return NULL;
}

const char *given(const char *option) {
    const struct given *it = find(settings, option, NULL);
    return it != NULL ? it->text : NULL;
}

static void help(void) {
    puts("zoned --listen ADDRESS[@PORT].. --zone NAME=FILE.. [OPTION]..\n"
         "  --config FILE        of settings in TOML, as if these options stood here: option = value\n"
         "  --check              read the files, report what is wrong with them, and end\n  --version, --help");
    for (const struct option *o = options; o->name != NULL; o++)
        printf(o->most ? "  %-20s %s: %d to %d; %d\n" : "  %-20s %s\n", o->name, o->says, o->least, o->most, o->usual);
    exit(0);
}

/* Keeps the text of an option: 0, or -1. */
static int keep(const struct option *option, const char *text) {
    size_t room = (size_t)(settings->count + STEP) * sizeof *settings->given;
    struct given *more = settings->count % STEP > 0 ? settings->given : realloc(settings->given, room);
    char *copy = strdup(text);
    if (more == NULL || copy == NULL)
        return complain("no memory");
    settings->given = more;
    settings->given[settings->count++] = (struct given){.option = option, .text = copy};
    return 0;
}

/* Takes an option, of its name with so many dashes. Its help begins with the form of its text. */
static int put_option(const char *name, int dashes, const char *text) {
    const struct option *o = options;
    char *rest;
    while (o->name != NULL && strcmp(name, o->name + 2 - dashes) != 0)
        o++;
    if (o->name == NULL && strcmp(name, "--config") != 0)
        return complain("\"%s\" is not an option; zoned --help lists them", name);
    if (text == NULL)
        return complain("%s has no value", name);
    size_t form = strcspn(o->says, ":"), front = strcspn(text, "=");
    if (memchr(o->says, '=', form) != NULL && (front == 0 || strlen(text) < front + 2))
        return complain("%s: \"%s\" is not %.*s", o->name, text, (int)form, o->says);
    if (o->number == NO_NUMBER)
        return keep(o, text);
    long n = strtol(text, &rest, 10);
    if (rest == text || *rest != 0 || n < o->least || n > o->most)
        return complain("%s: \"%s\" is not a number from %d to %d", o->name, text, o->least, o->most);
    settings->numbers[o->number] = (int)n;
    return 0;
}

uint8_t *read_all(int fd, size_t *len) {
    struct stat is = {.st_size = 0};
    uint8_t *bytes = NULL, *more;
    ssize_t got = fstat(fd, &is) == 0 ? 1 : -1;
    size_t step = (size_t)is.st_size + 1;
    for (*len = 0; got > 0 && (more = realloc(bytes, *len + step)) != NULL; *len += got > 0 ? (size_t)got : 0)
        got = read(fd, (bytes = more) + *len, step);
    if (got == 0)
        return (more = realloc(bytes, *len + 1)) != NULL ? more : bytes;
    free(bytes);
    return NULL;
}

/* The bytes of a file, or NULL. It must be a regular file, since to open or read another one may take forever. */
static uint8_t *read_file(const char *path, size_t *len) {
    struct stat is;
    int fd = open(path, O_RDONLY | O_CLOEXEC | O_NONBLOCK);
    bool is_other = fd >= 0 && fstat(fd, &is) == 0 && !S_ISREG(is.st_mode);
    uint8_t *bytes = fd < 0 || is_other ? NULL : read_all(fd, len);
    if (bytes == NULL)
        say("%s: cannot be read: %s", path, is_other ? "it is not a regular file" : strerror(errno));
    if (fd >= 0)
        close(fd);
    return bytes;
}

/* What the library says of a setting: why it is not taken, or of a list of blocked names what of it was skipped. */
static uint8_t fault[256];
static size_t fault_len;
#define FAULT fault, sizeof fault, &fault_len

/* Reports it, if there is something, and returns the library's number. What begins with a line is of the file. */
static int told(const char *file, const char *what, uint32_t set) {
    const char *says = (const char *)fault, *blank = says[strspn(says, "0123456789")] == ':' ? "" : " ";
    if (set != ZONE_SERVICE_DONE || fault_len > 0)
        say("%s:%s%.*s", *blank == 0 ? file : what, blank, (int)fault_len, says);
    return (int)set;
}

/* The names of all options, with a zero after each. */
static const uint8_t *option_names(size_t *len) {
    static uint8_t names[512];
    *len = 0;
    for (const struct option *o = options; o->name != NULL; o++)
        *len += strlen(strcpy((char *)names + *len, o->name + 2)) + 1;
    return names;
}

/* Takes the settings of a configuration file. The library puts a name and a value for each, with a zero after both. The
 * names of an option and of a zone are put again for each of their values. */
static int read_config(const char *path) {
    size_t len, names_len, put = 0;
    uint8_t *text = read_file(path, &len);
    const uint8_t *names = option_names(&names_len);
    char *read = text != NULL ? malloc(ROOM * (len + 1)) : NULL;
    int wrong = text == NULL   ? -1
                : read == NULL ? complain("no memory")
                               : told(path, path,
                                      zone_service_read_settings(names, names_len, text, len, (uint8_t *)read,
                                                                 ROOM * (len + 1), &put, FAULT));
    free(text);
    for (char *at = read; !wrong && at < read + put; at += strlen(at) + 1) {
        const char *name = at;
        wrong = put_option(name, 0, at += strlen(at) + 1);
    }
    free(read);
    return wrong;
}

bool is_failed(const char *zone) {
    const struct given *it = find(settings, "--zone", zone);
    return it != NULL && it->bytes == NULL;
}

/* Whether options go together: 0, or -1. */
static int agree(void) {
    bool loses = false, listens = given("--listen") != NULL, is_adopted = adopted_sockets() > 0;
    EACH_GIVEN (g)
        loses |= strcmp(g->option->name, "--allow-update") == 0 && find(settings, "--journal", g->text) == NULL;
    if (given("--zone") == NULL)
        return complain("--zone is missing");
    if (listens && is_adopted)
        return complain("--listen is given, and systemd has opened the sockets (LISTEN_FDS)");
    if (!listens && !is_adopted && !settings->is_check)
        return complain("--listen is missing");
    if (given("--allow-update") != NULL && settings->numbers[WORKERS] > 1)
        return complain("--allow-update needs one worker: only one of several would see an update");
    if (loses)
        warnx("updates %sare lost when it ends, and when files are read again",
              given("--journal") != NULL ? "of zones without a journal " : "");
    return 0;
}

int read_arguments(char **arguments) {
    int wrong = 0, running = settings != NULL ? settings->numbers[WORKERS] : 0;
    if ((settings = calloc(1, sizeof *settings)) == NULL)
        return complain("no memory");
    for (const struct option *o = options; o->name != NULL; o++)
        settings->numbers[o->number] = o->usual;
    for (char **a = arguments + 1; !wrong && *a != NULL; a++)
        if (strcmp(*a, "--help") == 0 || strcmp(*a, "-h") == 0)
            help();
        else if (strcmp(*a, "--version") == 0)
            exit(puts("zoned " ZONED_VERSION) < 0);
        else if (strcmp(*a, "--check") == 0)
            settings->is_check = true;
        else if (strcmp(*a, "--config") == 0 && a[1] != NULL)
            wrong = read_config(*++a);
        else
            wrong = put_option(*a, 2, a[1]), a++;
    if (running > 0)
        settings->numbers[WORKERS] = running;
    return wrong ? -1 : agree();
}

/* A zone whose file is refused is served as before, or its queries are answered SERVFAIL: 0, or another number. */
static int keep_zone(struct given *g, const struct settings *before) {
    const struct given *old = before != NULL ? find(before, "--zone", g->text) : NULL;
    const uint8_t *name = (const uint8_t *)g->text;
    size_t len = strcspn(g->text, "=");
    bool is_kept = old != NULL && old->bytes != NULL;
    g->refused = strdup(said);
    if (is_kept && (g->bytes = malloc(old->len + 1)) != NULL) {
        g->len = old->len;
        g->loaded = old->loaded;
        memcpy(g->bytes, old->bytes, g->len);
    }
    if (g->refused == NULL || (is_kept && g->bytes == NULL))
        return complain("no memory");
    int wrong = (int)(is_kept ? zone_service_add_zone(&settings->service, name, len, g->bytes, g->len, FAULT)
                              : zone_service_fail_zone(&settings->service, name, len, FAULT));
    if (!wrong && !settings->is_check)
        is_kept ? warnx("%s: the zone is served as before", g->text)
                : warnx("%s: queries for the zone get SERVFAIL until a reload", g->text);
    settings->refused++;
    return wrong;
}

/* Gives the library a text, or what is in its file: 0, or another number. What a zone's file has is kept. */
static int set(struct given *g, const struct settings *before) {
    const struct option *o = g->option;
    const uint8_t *name = (const uint8_t *)g->text;
    const char *mark = o->set_pair != NULL ? strchr(g->text, '=') : NULL, *value = mark != NULL ? mark + 1 : g->text;
    char what[sizeof said];
    snprintf(what, sizeof what, "%s: \"%.250s\"", o->name, g->text);
    size_t len = strlen(value);
    uint8_t *bytes = o->is_file ? read_file(value, &len) : (uint8_t *)strdup(value);
    uint32_t is = bytes == NULL  ? ZONE_SERVICE_FAULT
                  : mark == NULL ? o->set(&settings->service, bytes, len, FAULT)
                                 : o->set_pair(&settings->service, name, (size_t)(mark - g->text), bytes, len, FAULT);
    if (bytes != NULL)
        told(value, o->is_file && mark == NULL ? value : what, is);
    settings->zones += is_zone(g);
    if (is == ZONE_SERVICE_DONE && is_zone(g)) {
        *g = (struct given){o, g->text, bytes, len, time(NULL), NULL};
        return 0;
    }
    free(bytes);
    return is == ZONE_SERVICE_FAULT && is_zone(g) ? keep_zone(g, before) : (int)is;
}

/* Memory that all processes share, or NULL. */
static void *share_zeros(size_t len) {
    void *at = mmap(NULL, len, PROT_READ | PROT_WRITE, MAP_SHARED | MAP_ANONYMOUS, -1, 0);
    return at != MAP_FAILED ? at : NULL;
}

/* Keeps which serials of zones were announced. */
static void keep_serials(const struct settings *before) {
    EACH_GIVEN (g) {
        const struct given *old = before != NULL && is_zone(g) ? find(before, "--zone", g->text) : NULL;
        settings->serials[g - settings->given] = old != NULL ? before->serials[old - before->given] : NO_SERIAL;
    }
}

int load(const struct settings *before) {
    const int *n = settings->numbers;
    zone_service *service = &settings->service;
    settings->has_failed = share_zeros((size_t)settings->count);
    settings->serials = share_zeros((size_t)settings->count * sizeof(uint64_t));
    if (settings->has_failed == NULL || settings->serials == NULL ||
        zone_service_create(&service->at) != ZONE_SERVICE_DONE)
        return complain("no memory");
    keep_serials(before);
    int wrong =
        told(NULL, "--max-udp", zone_service_set_max_udp(service, (uint16_t)n[MAX_UDP], FAULT)) ||
        told(NULL, "--rate-limit", zone_service_set_rate_limit(service, (uint32_t)n[RATE], (uint32_t)n[SLIP], FAULT));
    for (const struct option *o = options; o->name != NULL; o++)
        EACH_GIVEN (g)
            if (!wrong && g->option == o && (o->set != NULL || o->set_pair != NULL))
                wrong = set(g, before);
    wrong = wrong ? wrong : told(NULL, "--allow-update", zone_service_serve_zones(service, FAULT));
    malloc_trim(0);
    return wrong;
}

void sum_up(void) {
    const struct given *g = settings->given;
    *said = 0;
    while (settings->refused > 0 && g->refused == NULL)
        g++;
    if (settings->refused > 0)
        snprintf(said, sizeof said, "refused zone files: %d of %d; the first: %s", settings->refused, settings->zones,
                 g->refused);
}

void forget(struct settings *old) {
    if (old == NULL)
        return;
    if (old->service.at != NULL)
        zone_service_free(old->service);
    if (old->has_failed != NULL)
        munmap(old->has_failed, (size_t)old->count);
    if (old->serials != NULL)
        munmap(old->serials, (size_t)old->count * sizeof(uint64_t));
    for (struct given *g = old->given; g < old->given + old->count; g++) {
        free(g->text);
        free(g->bytes);
        free(g->refused);
    }
    free(old->given);
    free(old);
    malloc_trim(0);
}
