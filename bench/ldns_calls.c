// The calls of ldns that are measured. The calls alone stand in functions whose names begin with `measured`.
#include "bench.h"

#include <ldns/ldns.h>
#include <stdlib.h>

__attribute__((noipa)) static uint64_t measured_read_message(const uint8_t *bytes, size_t len, uint64_t rounds)
{
    uint64_t read = 0;
    for (uint64_t i = 0; i < rounds; i++) {
        ldns_pkt *message = NULL;
        if (ldns_wire2pkt(&message, bytes, len) != LDNS_STATUS_OK)
            return WRONG;
        read += ldns_pkt_ancount(message);
        ldns_pkt_free(message);
    }
    return read;
}

// Reads a message; how many answers were read in all rounds.
uint64_t ldns_read_message(const uint8_t *bytes, size_t len, uint64_t rounds)
{
    return measured_read_message(bytes, len, rounds);
}

__attribute__((noipa)) static uint64_t measured_write_message(const ldns_pkt *message, uint64_t rounds)
{
    uint64_t written = 0;
    for (uint64_t i = 0; i < rounds; i++) {
        uint8_t *made = NULL;
        size_t size = 0;
        if (ldns_pkt2wire(&made, message, &size) != LDNS_STATUS_OK)
            return WRONG;
        written += size;
        free(made);
    }
    return written;
}

// Writes a message without a limit; how many bytes were written in all rounds.
uint64_t ldns_write_message(const uint8_t *bytes, size_t len, uint16_t limit, uint64_t rounds)
{
    (void)limit;
    ldns_pkt *message = NULL;
    if (ldns_wire2pkt(&message, bytes, len) != LDNS_STATUS_OK)
        return WRONG;
    uint64_t written = measured_write_message(message, rounds);
    ldns_pkt_free(message);
    return written;
}
