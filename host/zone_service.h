/* zone_service.h: a server of DNS zones without a socket or a file, proved (crates/zone_service).
 *
 * What is proved: each call is safe on every input that keeps the rules below, and returns. zone_service_answer makes of
 * a message what the rules of a server and its zones make of it: out begins with its replies, each after its length, and
 * the numbers are those below. zone_service_answer_stream does so for each message that it takes. No call for a message
 * changes the keys and the rules. An update that one call answered is in the zones from which the next call answers.
 * What the caller must do, and nothing checks:
 *
 *  - A handle is one that zone_service_create put, and that zone_service_free did not take. It is given to one call at a
 *    time, and stays in the thread or process in which it was made. A forked child of a process without threads may go on
 *    with its own copy. Servers share nothing: each thread may have one of its own.
 *  - A pointer with a length is to that many bytes, never NULL, which nobody else changes during the call. What is written
 *    to (out, fault, length, taken, written, waiting, counters) overlaps nothing else that is passed.
 *  - No call from a signal handler. malloc, realloc and free come from one allocator that aligns as C says.
 *
 * Calls that may fail return one of these numbers: */
#ifndef ZONE_SERVICE_H
#define ZONE_SERVICE_H

#include <stdbool.h>
#include <stddef.h>
#include <stdint.h>

#ifdef __cplusplus
extern "C" {
#endif

enum {
    ZONE_SERVICE_DONE = 0,
    ZONE_SERVICE_DENIED = 1,       /* the address may not use the server; the bytes are not read */
    ZONE_SERVICE_RESPONSE = 2,     /* the message is itself a response, and gets none */
    ZONE_SERVICE_UNREADABLE = 3,   /* the bytes are fewer than a header has (RFC 1035 section 4.1) */
    ZONE_SERVICE_MEMORY = 4,       /* an allocation failed; the zones are as before */
    ZONE_SERVICE_MEMORY_AFTER = 5, /* an allocation failed for the replies to a message that was handled */
    ZONE_SERVICE_NO_ADDRESS = 6,   /* the source is not an address of 4 or 16 bytes */
    ZONE_SERVICE_FAULT = 7,        /* a setting is not taken; fault says why */
    ZONE_SERVICE_LIMITED = 8,      /* the reply to a datagram is dropped, since its network got as many as it may */
    ZONE_SERVICE_NO_OPERATION = 9, /* not so many operations are noted of a file */
    ZONE_SERVICE_NO_NOTICE = 10    /* no notice is due, or none is given up */
};

/* A reply is at most this long, with its length before it. A buffer of this size takes at least one. */
#define ZONE_SERVICE_FRAME 65537

/* A server, as its address. Only these functions look at it. It may be moved and copied as a pointer may, but only one
 * copy of it is used. */
typedef struct zone_service {
    void *at;
} zone_service;

/* Makes a server without zones, which everybody may use and have transfers of. *at is its address afterwards, and some
 * address or NULL before:
 *     zone_service service = {NULL};
 *     if (zone_service_create(&service.at) == ZONE_SERVICE_DONE) ..
 * DONE, or MEMORY. */
uint32_t zone_service_create(void **at);

/* Frees a server, which is then gone. */
void zone_service_free(zone_service service);

/* Settings, made before the first message, in any order, with these exceptions: a list of blocked names is for the zones
 * that are added after it, the keys come before what names one, and a zone before the rules of its transfers. Each returns
 * DONE; or FAULT or MEMORY, and puts a text that says why into fault, of at most room bytes and without a zero after it;
 * *length is how many they are. After DONE it is 0, unless lines of a list of blocked names were skipped. After FAULT and
 * MEMORY the server is to be freed: a list of networks may be as before or not, rules of a zone's transfers may be begun,
 * and zone_service_add_zone may have put its zone in place of another zone of
 * that name. Only after FAULT of a zone's file, zone_service_fail_zone may be called in its place. The place in a file
 * comes first, as LINE: or LINE:COLUMN:. No text has a part of a file of keys.
 *
 * zone_service_set_blocklist: the names that the lines of a list give, in any of the forms of
 *     docs/reference/zone-files.md, at least one; a second list takes the place of the first. If lines are skipped, the
 *     text after DONE says how many, and the numbers of the first three.
 * zone_service_set_keys: the keys that sign messages (TSIG, RFC 8945), from the bytes of their file, at least one: BIND's
 *     key statements, Knot's key section, or lines as dig -y takes them. Those of a second file take the place of the
 *     first.
 * zone_service_add_zone: the zone at a name (with or without a dot at its end), from the bytes of its zone file, in any
 *     encoding. It is served from then on. $INCLUDE is a fault.
 * zone_service_fail_zone: a name whose zone has no file that is taken: each query for it is answered SERVFAIL.
 * zone_service_allow_update: a rule of who may update what in the zone of a name (RFC 2136), one more by each call:
 *     KEY [zone|subdomain NAME|name NAME|self] [TYPE..]. Without one a zone takes no update.
 * zone_service_serve_zones: after the last zone and rule, once: gives the zones that were added their rules. No zone
 *     takes updates before. FAULT if a rule is of no zone. A question for the DS records of a zone's apex is answered by
 *     the zone above it, if that is served too (RFC 4035 section 3.1.4.1).
 * zone_service_set_allowed, .._denied: a network, as 192.0.2.0/24, whose addresses may use the server, or may not; one
 *     more by each call. Everybody may if none is allowed, else only addresses of allowed networks. The longest network
 *     that has an address decides.
 * zone_service_set_transfer_allowed, .._denied: the same for transfers (AXFR, IXFR) by those who may use the server, of
 *     whom nobody may have one if no network is allowed.
 * zone_service_allow_transfer_key: the name of a key. Requests with a good signature by it have transfers from every
 *     address that may use the server.
 * zone_service_set_zone_transfer_allowed, .._denied, zone_service_allow_zone_transfer_key: the same for the zone of a
 *     name, which was added before; FAULT if there is none. A zone for which one of these is called is judged by them, and
 *     no more by the three calls for all zones.
 * zone_service_set_max_udp: how many bytes a reply over UDP has at most, from 512 to 65,535; 1,232 if it is not called.
 * zone_service_set_rate_limit: how many replies to datagrams a network of clients (24 bits of IPv4, 56 of IPv6) gets in a
 *     second, and of how many above that one is sent without records and with TC, while the others are dropped (0: all
 *     are). All are sent if the rate is 0, or it is not called. It takes a mebibyte.
 * zone_service_set_identifier: what identifies the server to clients that ask (RFC 5001), up to 65,531 bytes. */
uint32_t zone_service_set_blocklist(zone_service *service, const uint8_t *text, size_t len, uint8_t *fault, size_t room, size_t *length);
uint32_t zone_service_add_zone(zone_service *service, const uint8_t *name, size_t name_len, const uint8_t *text, size_t len,
                               uint8_t *fault, size_t room, size_t *length);
uint32_t zone_service_fail_zone(zone_service *service, const uint8_t *name, size_t len, uint8_t *fault, size_t room, size_t *length);
uint32_t zone_service_allow_update(zone_service *service, const uint8_t *name, size_t name_len, const uint8_t *rule, size_t len,
                                   uint8_t *fault, size_t room, size_t *length);
uint32_t zone_service_serve_zones(zone_service *service, uint8_t *fault, size_t room, size_t *length);
uint32_t zone_service_set_keys(zone_service *service, const uint8_t *text, size_t len, uint8_t *fault, size_t room, size_t *length);
uint32_t zone_service_allow_transfer_key(zone_service *service, const uint8_t *name, size_t len, uint8_t *fault, size_t room, size_t *length);
uint32_t zone_service_set_allowed(zone_service *service, const uint8_t *network, size_t len, uint8_t *fault, size_t room, size_t *length);
uint32_t zone_service_set_denied(zone_service *service, const uint8_t *network, size_t len, uint8_t *fault, size_t room, size_t *length);
uint32_t zone_service_set_transfer_allowed(zone_service *service, const uint8_t *network, size_t len, uint8_t *fault, size_t room,
                                           size_t *length);
uint32_t zone_service_set_transfer_denied(zone_service *service, const uint8_t *network, size_t len, uint8_t *fault, size_t room,
                                          size_t *length);
uint32_t zone_service_set_zone_transfer_allowed(zone_service *service, const uint8_t *zone, size_t zone_len, const uint8_t *network, size_t len,
                                                uint8_t *fault, size_t room, size_t *length);
uint32_t zone_service_set_zone_transfer_denied(zone_service *service, const uint8_t *zone, size_t zone_len, const uint8_t *network, size_t len,
                                               uint8_t *fault, size_t room, size_t *length);
uint32_t zone_service_allow_zone_transfer_key(zone_service *service, const uint8_t *zone, size_t zone_len, const uint8_t *name, size_t len,
                                              uint8_t *fault, size_t room, size_t *length);
uint32_t zone_service_set_max_udp(zone_service *service, uint16_t size, uint8_t *fault, size_t room, size_t *length);
uint32_t zone_service_set_rate_limit(zone_service *service, uint32_t rate, uint32_t slip, uint8_t *fault, size_t room, size_t *length);
uint32_t zone_service_set_identifier(zone_service *service, const uint8_t *text, size_t len, uint8_t *fault, size_t room, size_t *length);

/* Reads a configuration file in TOML 1.1: puts its settings to the front of out, the name and the value of each with a
 * zero after both, in the order of their names; *written is how many bytes they are. The host decides what a setting
 * means. A text is one value, a whole number that is not negative its digits, an array one value for each item, and a
 * table one, KEY=VALUE, for each member. An array of tables of the name zone gives zone, NAME=FILE, of each,
 * allow-update, NAME=KEY RULE TYPE.., of each table of its update, and allow-transfer, deny-transfer and
 * allow-transfer-key, NAME=TEXT, of each text that it has under these names. names are the options that there are, each with a zero
 * after it. DONE; or FAULT or MEMORY, and a text in fault, as above: with the line if the file is no TOML, has a name of
 * no option, or a value of another kind; or if out has no room. */
uint32_t zone_service_read_settings(const uint8_t *names, size_t names_len, const uint8_t *text, size_t len, uint8_t *out, size_t room, size_t *written,
                                    uint8_t *fault, size_t fault_room, size_t *length);

/* Answers a message that came from an address (4 or 16 bytes, the first one highest) and port, over a stream or as a
 * datagram, at a time in seconds since 1970. DONE if it has replies: they are written to the front of out, each after its
 * length in two bytes (RFC 1035 section 4.2.2), as many as there is room for; *written is how many bytes they take, and
 * *waiting how many replies are left for zone_service_take. The next message that has replies lets those go. LIMITED:
 * *written is 0, and out may be written to. After any other number except FAULT the message has no reply, *written is 0,
 * out is as it was, and replies that waited wait still. */
uint32_t zone_service_answer(zone_service *service, const uint8_t *message, size_t len, const uint8_t *source, size_t source_len,
                             uint16_t port, bool stream, uint64_t now, uint8_t *out, size_t room, size_t *written, size_t *waiting);

/* Answers the messages that are whole at the front of a stream's bytes, each after its length, one after the other, as
 * zone_service_answer does, up to one that has no reply, whose number it returns. Replies that waited before it are let
 * go. *taken is how many bytes the messages are, with their lengths, *written how many bytes of replies were written, and
 * *waiting how many replies to the last are left for zone_service_take. DONE: it went on while a whole message was there,
 * out had room for a reply of any size (ZONE_SERVICE_FRAME), and no reply waited. So if none waits and *written is at
 * most room - ZONE_SERVICE_FRAME, nothing whole is left. */
uint32_t zone_service_answer_stream(zone_service *service, const uint8_t *bytes, size_t len, const uint8_t *source, size_t source_len,
                                    uint16_t port, uint64_t now, uint8_t *out, size_t room, size_t *taken, size_t *written,
                                    size_t *waiting);

/* Writes more of the replies that wait to the front of out, as zone_service_answer does, and returns how many bytes they
 * take: 0 only if none waits, or out has no room for the next. */
size_t zone_service_take(zone_service *service, uint8_t *out, size_t room, size_t *waiting);

/* Journals. An update of a zone with a journal is on the disk before it is answered (RFC 2136 section 3.5), if the
 * caller does what is said here. A journal is two files of the caller. The library has what is in them in memory, opens
 * none, and notes operations, which the caller does. Before zone_service_open_journal the caller locks both files for as
 * long as the server lives, syncs them and their folder, and reads them whole. A file that is missing is made, and has
 * no bytes.
 *
 * zone_service_open_journal, after zone_service_serve_zones and before the first message, once for a zone that takes
 *     updates: takes the bytes of both files. Journals have the numbers 0, 1, .. in the order of these calls that answered
 *     DONE. serials are those of the zone by its file and by its journal, which counts from then on, and the zone file
 *     does not; a journal without an entry gets the zone as it is. *takes_updates is false if the zone takes none. DONE,
 *     and operations are noted; or FAULT or MEMORY with a text, as settings have it, and the files and the zone are as
 *     they were. If only the zone could not be written to the journal, the zone is as the journal says, and takes no
 *     updates.
 * zone_service_begin_batch: from now on updates are held: they are made in memory and answered, and noted later.
 * zone_service_end_batch: notes the updates that are held, those of a zone with two syncs. DONE; or MEMORY, and the
 *     process must end before any reply of the batch leaves.
 * zone_service_operation: the operation of this number, from 0 on, that is noted of a file, 0 or 1, of a journal. WRITE:
 *     count bytes at this place of the file, of which those after the first `from` are put to the front of out, as many
 *     as it has room for; *written is how many. SET_LENGTH: the file has `at` bytes from then on. SYNC: all that was done
 *     to the file before is brought to the disk (fdatasync). DONE; NO_OPERATION; or MEMORY, after which the process must
 *     end.
 * zone_service_operations_done: all that was noted of all files is done, for each file in its order. Nothing is noted
 *     after that, and replies may leave.
 * zone_service_stop_updates: an operation of a journal failed: from now on its zone refuses updates, and nothing more is
 *     noted of its files. No reply of the batch may leave. The zone may have updates that the files lack; a process that
 *     opens the files again has exactly theirs.
 * zone_service_compact, outside of a batch: notes how a journal that is too long is made shorter, in its other file.
 *     DONE; FAULT with a text, if it is too long and stays so, or if operations are noted of its files: then nothing is
 *     done; or MEMORY. */
enum { ZONE_SERVICE_WRITE = 0, ZONE_SERVICE_SET_LENGTH = 1, ZONE_SERVICE_SYNC = 2 };
struct zone_service_operation {
    uint32_t kind;
    uint64_t at;
    size_t count;
};
uint32_t zone_service_open_journal(zone_service *service, const uint8_t *zone, size_t zone_len, const uint8_t *first,
                                   size_t first_len, const uint8_t *second, size_t second_len, uint32_t serials[2],
                                   bool *takes_updates, uint8_t *fault, size_t room, size_t *length);
void zone_service_begin_batch(zone_service *service);
uint32_t zone_service_end_batch(zone_service *service);
uint32_t zone_service_operation(zone_service *service, size_t journal, uint32_t file, size_t number,
                                struct zone_service_operation *operation, size_t from, uint8_t *out, size_t room,
                                size_t *written);
void zone_service_operations_done(zone_service *service);
void zone_service_stop_updates(zone_service *service, size_t journal);
uint32_t zone_service_compact(zone_service *service, size_t journal, uint8_t *fault, size_t room, size_t *length);

/* Notices that zones have changed (RFC 1996), over UDP. Times are milliseconds of a clock that does not go back. The caller
 * has the sockets, and for each zone, in the order in which zones were added, the serial that was announced last, which
 * is 2^64 - 1 if none was.
 *
 * zone_service_set_notify, a setting: who is told: no (nobody), explicit (the configured servers), or yes (these, and the
 *     hosts of the zone's NS records whose addresses are in zones of this server, except the primary that the SOA record
 *     names). It is explicit if it is not called.
 * zone_service_also_notify, .._of, settings, after the zones: a server, ADDRESS[@PORT] with port 53 if there is none, that
 *     is told of all zones, or of one that was added; one more by each call.
 * zone_service_look, after zone_service_serve_zones and after the journals are opened, and again after updates: looks at
 *     a zone. If it has another serial than *serial, it is announced to all that are told of it, and *serial is its
 *     serial. What still waits of the zone is dropped. A zone without an SOA record is not announced. DONE; or MEMORY, and
 *     nothing has changed.
 * zone_service_notice: puts the notice that is due next to the front of out, and to whom it is sent: *len is how many of
 *     the 16 bytes its address has, 4 or 16. It counts as sent with this id, which is to be random. A notice has
 *     at most 512 bytes. DONE, NO_NOTICE, or MEMORY.
 * zone_service_give_up: takes out a notice that got no answer, and puts a text that says so, *length bytes long. DONE, or
 *     NO_NOTICE.
 * zone_service_hear: a datagram came from this address and port. If it answers a notice, that is not sent again. If it
 *     refuses it, a text says so, else *length is 0. DONE; NO_ADDRESS; or MEMORY, and the notice is sent again.
 * zone_service_notices: when a notice is due or given up next, or 2^64 - 1 if none waits. *waiting is how many wait. */
uint32_t zone_service_set_notify(zone_service *service, const uint8_t *text, size_t len, uint8_t *fault, size_t room, size_t *length);
uint32_t zone_service_also_notify(zone_service *service, const uint8_t *text, size_t len, uint8_t *fault, size_t room, size_t *length);
uint32_t zone_service_also_notify_of(zone_service *service, const uint8_t *zone, size_t zone_len, const uint8_t *text, size_t len,
                                     uint8_t *fault, size_t room, size_t *length);
uint32_t zone_service_look(zone_service *service, size_t number, uint64_t *serial, uint64_t now);
uint32_t zone_service_notice(zone_service *service, uint64_t now, uint16_t id, uint8_t address[16], size_t *len, uint16_t *port,
                             uint8_t *out, size_t room, size_t *written);
uint32_t zone_service_give_up(zone_service *service, uint64_t now, uint8_t *text, size_t room, size_t *length);
uint32_t zone_service_hear(zone_service *service, const uint8_t *source, size_t source_len, uint16_t port, const uint8_t *bytes,
                           size_t len, uint8_t *text, size_t room, size_t *length);
uint64_t zone_service_notices(zone_service *service, size_t *waiting);

/* zone_service_set_query_log: the next message with replies and then one in so many has a line; none if that is 0, or
 *     it is not called.
 * zone_service_take_log: writes lines that wait to the front of out, as many of their bytes as there is room for, and
 *     returns how many; what is left comes with the next call. A line is the time, the address, udp or tcp, the name,
 *     class and type of the first question, the code of the first reply and its bytes, with a blank between, and a line
 *     feed. Of the bytes of a name only letters, digits, -, _ and * are in it as they are. If more than 256 KiB wait, no
 *     more come, so that ZONE_SERVICE_LOG bytes are room for all. If an allocation fails, a line does not come. */
#define ZONE_SERVICE_LOG (264 << 10)
void zone_service_set_query_log(zone_service *service, uint32_t every);
size_t zone_service_take_log(zone_service *service, uint8_t *out, size_t room);

/* What a server has done since it was made. Each number stops at 2^64 - 1, so that none ever falls. */
struct zone_service_counters {
    uint64_t udp, tcp;                               /* messages that came as datagrams, and over streams */
    uint64_t received;                               /* bytes of these, without the lengths before them */
    uint64_t denied, responses, unreadable, dropped; /* messages without a reply: DENIED, RESPONSE, UNREADABLE, MEMORY */
    uint64_t limited;                                /* and LIMITED */
    uint64_t codes[16];                              /* replies that were written, by the code in their headers */
    uint64_t truncated;                              /* those that are truncated */
    uint64_t sent;                                   /* bytes of replies, without the lengths before them */
};
void zone_service_counters(zone_service *service, struct zone_service_counters *counters);

/* Puts the text in which monitoring reads such numbers (Prometheus' text-based format) to the front of out, as far as
 * there is room; it has less than 2,048 bytes. *length is how many they are. DONE, or MEMORY, and *length is 0. */
uint32_t zone_service_statistics(const struct zone_service_counters *counters, uint8_t *out, size_t room, size_t *length);

#ifdef __cplusplus
}
#endif

#endif
