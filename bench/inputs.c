// The bytes that the cases are run on (RFC 1035 section 4).
#include "inputs.h"

#include <stdio.h>
#include <stdlib.h>
#include <string.h>

enum { TYPE_A = 1, TYPE_NS = 2, TYPE_SOA = 6, TYPE_MX = 15, TYPE_OPT = 41, TYPE_AXFR = 252, TYPE_ANY = 255, CLASS_IN = 1, CLASS_ANY = 255 };

// Where the name of the first question stands.
#define QUESTION 12
// A place from here on has no pointer.
#define POINTER_END 0x4000

static void put(struct bytes *to, const void *from, size_t len)
{
    if (to->len + len > to->room) {
        to->room = 2 * (to->len + len);
        to->at = realloc(to->at, to->room);
        if (to->at == NULL)
            abort();
    }
    memcpy(to->at + to->len, from, len);
    to->len += len;
}

static void put8(struct bytes *to, uint8_t n) { put(to, &n, 1); }

static void put16(struct bytes *to, uint16_t n)
{
    put8(to, n >> 8);
    put8(to, n & 0xff);
}

static void put32(struct bytes *to, uint32_t n)
{
    put16(to, n >> 16);
    put16(to, n & 0xffff);
}

static void put_label(struct bytes *to, const char *label, size_t len)
{
    put8(to, (uint8_t)len);
    put(to, label, len);
}

// A name whose text ends in a dot.
static void put_name(struct bytes *to, const char *name)
{
    while (*name != '\0') {
        size_t len = strcspn(name, ".");
        put_label(to, name, len);
        name += len + 1;
    }
    put8(to, 0);
}

static void put_pointer(struct bytes *to, size_t place) { put16(to, 0xc000 | (uint16_t)place); }

// Id, flags, and how many questions, answers and additional records.
static void put_header(struct bytes *to, uint16_t flags, uint16_t answers, uint16_t additionals)
{
    put16(to, 0x1234);
    put16(to, flags);
    put16(to, 1);
    put16(to, answers);
    put16(to, 0);
    put16(to, additionals);
}

static void put_question(struct bytes *to, const char *name, uint16_t type)
{
    put_name(to, name);
    put16(to, type);
    put16(to, CLASS_IN);
}

// What stands between owner and data. The length is of the data.
static void put_fields(struct bytes *to, uint16_t type, uint16_t len)
{
    put16(to, type);
    put16(to, CLASS_IN);
    put32(to, 3600);
    put16(to, len);
}

struct bytes edns_query(void)
{
    struct bytes made = {0};
    put_header(&made, 0x0100, 0, 1);
    put_question(&made, "www.example.com.", TYPE_A);
    put8(&made, 0);
    put16(&made, TYPE_OPT);
    put16(&made, 1232);
    put32(&made, 0);
    put16(&made, 0);
    return made;
}

struct bytes query(const char *name, uint16_t type)
{
    struct bytes made = {0};
    put_header(&made, 0x0100, 0, 0);
    put_question(&made, name, type);
    return made;
}

struct bytes address_query(const char *name) { return query(name, TYPE_A); }

// 192.0.0.0 and so on.
static void put_address(struct bytes *to, uint32_t i) { put32(to, 0xc0000000u + i); }

struct bytes addresses(uint32_t count)
{
    struct bytes made = {0};
    put_header(&made, 0x8500, (uint16_t)count, 0);
    put_question(&made, "www.example.com.", TYPE_A);
    for (uint32_t i = 0; i < count; i++) {
        put_pointer(&made, QUESTION);
        put_fields(&made, TYPE_A, 4);
        put_address(&made, i);
    }
    return made;
}

struct bytes exchanges(uint32_t count)
{
    struct bytes made = {0};
    put_header(&made, 0x8500, (uint16_t)count, 0);
    put_question(&made, "example.com.", TYPE_MX);
    for (uint32_t i = 0; i < count; i++) {
        char label[16];
        size_t len = (size_t)snprintf(label, sizeof label, "n%u", i);
        size_t owner = made.len;
        int has_pointer = owner < POINTER_END;
        put_label(&made, label, len);
        put_pointer(&made, QUESTION);
        put_fields(&made, TYPE_MX, (uint16_t)(2 + 3 + 2 + (has_pointer ? 0 : 1 + len)));
        put16(&made, (uint16_t)i);
        put_label(&made, "mx", 2);
        if (!has_pointer)
            put_label(&made, label, len);
        put_pointer(&made, has_pointer ? owner : QUESTION);
    }
    return made;
}

// SOA and NS of example.com., whose name is the question's.
static void put_apex(struct bytes *to)
{
    put_pointer(to, QUESTION);
    put_fields(to, TYPE_SOA, 5 + 8 + 20);
    put_label(to, "ns", 2);
    put_pointer(to, QUESTION);
    put_label(to, "admin", 5);
    put_pointer(to, QUESTION);
    uint32_t numbers[] = {7, 3600, 1800, 604800, 86400};
    for (size_t i = 0; i < 5; i++)
        put32(to, numbers[i]);
    put_pointer(to, QUESTION);
    put_fields(to, TYPE_NS, 5);
    put_label(to, "ns", 2);
    put_pointer(to, QUESTION);
}

struct bytes zone(uint32_t count)
{
    struct bytes made = {0};
    put_header(&made, 0x8500, (uint16_t)(3 + count), 0);
    put_question(&made, "example.com.", TYPE_SOA);
    put_apex(&made);
    put_label(&made, "ns", 2);
    put_pointer(&made, QUESTION);
    put_fields(&made, TYPE_A, 4);
    put32(&made, 0xc0000202);
    for (uint32_t i = 0; i < count; i++) {
        put_label(&made, "www", 3);
        put_pointer(&made, QUESTION);
        put_fields(&made, TYPE_A, 4);
        put_address(&made, i);
    }
    return made;
}

// A label of a letter and a number, below the question's name.
static void put_host(struct bytes *to, char letter, uint32_t i)
{
    char label[16];
    put_label(to, label, (size_t)snprintf(label, sizeof label, "%c%u", letter, i));
    put_pointer(to, QUESTION);
}

// The records of the zone from `start` on, and up to `end`.
static struct bytes zone_part(uint32_t start, uint32_t end)
{
    struct bytes made = {0};
    put_header(&made, 0x8400, (uint16_t)(end - start), 0);
    put_question(&made, "example.com.", TYPE_AXFR);
    if (start == 0)
        put_apex(&made);
    for (uint32_t i = start == 0 ? 2 : start; i < end; i++) {
        put_host(&made, 'h', i);
        put_fields(&made, TYPE_A, 4);
        put_address(&made, i);
    }
    return made;
}

struct bytes large_zone(uint32_t count)
{
    struct bytes made = {0};
    for (uint32_t start = 0; start < count; start += 1000) {
        struct bytes part = zone_part(start, count - start < 1000 ? count : start + 1000);
        put16(&made, (uint16_t)part.len);
        put(&made, part.at, part.len);
        free(part.at);
    }
    return made;
}

// The text of so many labels `a`.
static char *labels_a(char *text, size_t count)
{
    text[0] = '\0';
    for (size_t i = 0; i < count; i++)
        memcpy(text + 2 * i, "a.", 3);
    return text;
}

// Labels behind one another, the question's name behind them.
static void put_below(struct bytes *to, const char *labels)
{
    while (*labels != '\0') {
        size_t len = strcspn(labels, ".");
        put_label(to, labels, len);
        labels += len + 1;
    }
    put_pointer(to, QUESTION);
}

static void put_address_below(struct bytes *to, const char *labels)
{
    put_below(to, labels);
    put_fields(to, TYPE_A, 4);
    put_address(to, 0);
}

// A server of the zone c.example.com., whose label has two bytes.
static void put_server_of_c(struct bytes *to, const char *label)
{
    put_below(to, "c.");
    put_fields(to, TYPE_NS, 3 + 2 + 2);
    put_label(to, label, 2);
    put_label(to, "c", 1);
    put_pointer(to, QUESTION);
}

struct bytes standard_zone(void)
{
    struct bytes made = large_zone(998), part = {0};
    char deep[2 * 118 + 1];
    put_header(&part, 0x8400, 7, 0);
    put_question(&part, "example.com.", TYPE_AXFR);
    put_address_below(&part, "ns.");
    put_address_below(&part, "*.w.");
    put_server_of_c(&part, "n1");
    put_server_of_c(&part, "n2");
    put_address_below(&part, "n1.c.");
    put_address_below(&part, "n2.c.");
    put_address_below(&part, labels_a(deep, 118));
    put16(&made, (uint16_t)part.len);
    put(&made, part.at, part.len);
    free(part.at);
    return made;
}

struct bytes deep_query(void)
{
    char deep[2 * 118 + sizeof "example.com."];
    strcat(labels_a(deep, 118), "example.com.");
    return address_query(deep);
}

struct bytes transfer_query(void)
{
    struct bytes made = {0};
    put_header(&made, 0x0000, 0, 0);
    put_question(&made, "example.com.", TYPE_AXFR);
    return made;
}

struct bytes additions_and_deletions(uint32_t count, int all_sets)
{
    struct bytes made = {0};
    put16(&made, 0x1234);
    // Opcode Update.
    put16(&made, 5 << 11);
    put16(&made, 1);
    put16(&made, (uint16_t)count);
    put16(&made, (uint16_t)count);
    put16(&made, 0);
    put_question(&made, "example.com.", TYPE_SOA);
    for (uint32_t i = 0; i < count; i++) {
        put_host(&made, 'n', i);
        put_fields(&made, TYPE_A, 4);
        put_address(&made, i);
    }
    for (uint32_t i = 0; i < count; i++) {
        put_host(&made, 'n', i);
        put16(&made, all_sets ? TYPE_ANY : TYPE_A);
        put16(&made, CLASS_ANY);
        put32(&made, 0);
        put16(&made, 0);
    }
    return made;
}

struct bytes zone_names(uint32_t count)
{
    struct bytes made = {0};
    for (uint32_t i = 0; i < count; i++) {
        char name[32];
        snprintf(name, sizeof name, "z%u.example.", i);
        put_name(&made, name);
    }
    return made;
}

struct bytes blocked_names(uint32_t count)
{
    struct bytes made = {0};
    for (uint32_t i = 0; i < count; i++) {
        char line[32];
        int len = snprintf(line, sizeof line, "%sz%u.example.\n", i % 2 == 0 ? "" : "*.", i);
        put(&made, line, (size_t)len);
    }
    return made;
}

struct bytes one_name(const char *name)
{
    struct bytes made = {0};
    put_name(&made, name);
    return made;
}

struct bytes networks(uint32_t count)
{
    struct bytes made = {0};
    for (uint32_t i = 0; i < count; i++) {
        put32(&made, (10u << 24) + (i << 8));
        put8(&made, 24);
    }
    return made;
}
