// The calls that are measured. Each makes what it needs from bytes, then makes one call `rounds` times, and answers a
// number that tells what the calls came to; WRONG where the bytes are no input for it or memory was refused.
#ifndef BENCH_H
#define BENCH_H

#include <stddef.h>
#include <stdint.h>

#define WRONG UINT64_MAX

// Ours: the crate bench_calls. Its allocator takes no place among the arguments.
uint64_t bench_calls_read_request(const uint8_t *bytes, size_t len, uint64_t rounds);
uint64_t bench_calls_read_message(const uint8_t *bytes, size_t len, uint64_t rounds);
uint64_t bench_calls_write_message(const uint8_t *bytes, size_t len, uint16_t limit, uint64_t rounds);
uint64_t bench_calls_answer_request(const uint8_t *zone, size_t zone_len, const uint8_t *bytes, size_t len, uint64_t rounds);
uint64_t bench_calls_answer_transfer(const uint8_t *zone, size_t zone_len, const uint8_t *bytes, size_t len, uint64_t rounds);
uint64_t bench_calls_serve(const uint8_t *zone, size_t zone_len, const uint8_t *bytes, size_t len, uint64_t rounds);
uint64_t bench_calls_serve_over_tcp(const uint8_t *zone, size_t zone_len, const uint8_t *bytes, size_t len, uint64_t rounds);
uint64_t bench_calls_serve_filtered(const uint8_t *list, size_t list_len, const uint8_t *zone, size_t zone_len, const uint8_t *bytes, size_t len,
                                    uint64_t rounds);
uint64_t bench_calls_update(const uint8_t *zone, size_t zone_len, const uint8_t *updates, size_t len, uint64_t rounds);
uint64_t bench_calls_find_zone(const uint8_t *zones, size_t zones_len, const uint8_t *wanted, size_t len, uint64_t rounds);
uint64_t bench_calls_allow(const uint8_t *networks, size_t len, uint32_t address, uint64_t rounds);
uint64_t bench_calls_read_blocklist(const uint8_t *text, size_t len, uint64_t rounds);
uint64_t bench_calls_is_blocked(const uint8_t *list, size_t list_len, const uint8_t *name, size_t len, uint64_t rounds);

// The peer: trust-dns 0.22, in peer/src/lib.rs.
uint64_t peer_read_request(const uint8_t *bytes, size_t len, uint64_t rounds);
uint64_t peer_read_message(const uint8_t *bytes, size_t len, uint64_t rounds);
uint64_t peer_write_message(const uint8_t *bytes, size_t len, uint16_t limit, uint64_t rounds);
uint64_t peer_answer_request(const uint8_t *zone, size_t zone_len, const uint8_t *bytes, size_t len, uint64_t rounds);
uint64_t peer_answer_transfer(const uint8_t *zone, size_t zone_len, const uint8_t *bytes, size_t len, uint64_t rounds);
uint64_t peer_update(const uint8_t *zone, size_t zone_len, const uint8_t *updates, size_t len, uint64_t rounds);
uint64_t peer_find_zone(const uint8_t *zones, size_t zones_len, const uint8_t *wanted, size_t len, uint64_t rounds);
uint64_t peer_is_blocked(const uint8_t *list, size_t list_len, const uint8_t *name, size_t len, uint64_t rounds);

// ldns, in ldns_calls.c. It writes without a limit.
uint64_t ldns_read_message(const uint8_t *bytes, size_t len, uint64_t rounds);
uint64_t ldns_write_message(const uint8_t *bytes, size_t len, uint16_t limit, uint64_t rounds);

#endif
