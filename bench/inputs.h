// The bytes that the cases are run on.
#ifndef INPUTS_H
#define INPUTS_H

#include <stddef.h>
#include <stdint.h>

struct bytes {
    uint8_t *at;
    size_t len;
    size_t room;
};

// A query for the address of www.example.com. with EDNS (RFC 6891), a payload of 1232 bytes.
struct bytes edns_query(void);
// A query for the address of a name, without EDNS.
struct bytes address_query(const char *name);
// A query for a name and a type, without EDNS.
struct bytes query(const char *name, uint16_t type);
// A response with `count` addresses of www.example.com., each owner a pointer to the question.
struct bytes addresses(uint32_t count);
// A response with `count` MX records: the owners n0.example.com., n1.example.com. and so on, the exchange of each
// mx below its owner. Names are compressed (RFC 1035 section 4.1.4).
struct bytes exchanges(uint32_t count);
// The zone example.com. as the answers of a message: SOA, NS, the server's address, and `count` addresses of www.
struct bytes zone(uint32_t count);
// The zone example.com. with `count` records, SOA and NS among them, the others addresses of h0.example.com.,
// h1.example.com. and so on: the answers of messages of at most 1,000, each behind its length (RFC 1035 section 4.2.2).
struct bytes large_zone(uint32_t count);
// The zone example.com. of 1,004 sets, as large_zone has them: 998 as there, the address of ns, of *.w, and of a name of 120 labels, and a
// zone below, c, with two servers in it and their addresses.
struct bytes standard_zone(void);
// A query for the address of its name of 120 labels.
struct bytes deep_query(void);
// A query for a transfer of example.com. (RFC 5936).
struct bytes transfer_query(void);
// An update of example.com. (RFC 2136): the answers add an address to each of `count` names, n0.example.com. and so on; the
// authorities delete these sets again, or, where asked for, all sets of these names.
struct bytes additions_and_deletions(uint32_t count, int all_sets);
// `count` names, z0.example., z1.example. and so on, one behind the other.
struct bytes zone_names(uint32_t count);
// `count` lines of a list of blocked names: z0.example., *.z1.example., z2.example. and so on, each other line a
// wildcard.
struct bytes blocked_names(uint32_t count);
// One name.
struct bytes one_name(const char *name);
// `count` networks of 256 IPv4 addresses, from 10.0.0.0/24 on: four bytes and the length of the prefix each.
struct bytes networks(uint32_t count);

#endif
