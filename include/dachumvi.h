/* Dachumvi: the channel of a stub DNS resolver, without sockets, threads or callbacks of its own.
 *
 * A caller asks; sends what dachumvi_start tells it to, where to; hands in what came (dachumvi_arrive), that time
 * passed (dachumvi_expire) or that a link failed (dachumvi_fault); and takes completed requests one by one
 * (dachumvi_take). So it fits any event loop, and nothing calls back.
 *
 * What happened is the channel's journal. It takes no memory, unless the channel was made to keep it; then its text can
 * be had (dachumvi_copy_journal), which areplay checks.
 *
 * Each call is proved to do what its comment says, for every channel that these calls have made (crates/channel_c,
 * and crates/boxed_channel below it). The comments use these words. A request is what was asked; its number counts
 * the accepted ones from 1. A leg is one question of a request, an attempt one sending of a leg's question. A server
 * is named by its key: those of the resolv.conf have 0, 1 and so on. Link 0 is UDP, any other number a link over TCP
 * to one server. A moment is in milliseconds, on any clock that doesn't go back.
 *
 * What nothing checks is C's part:
 *   - a word is zero when it is first passed, and C doesn't write to it; it may be moved, but one copy of it is used;
 *   - one call at a time is made on a word, from the thread that made its channel;
 *   - a pointer that isn't null leads to what its type says, and one with a length to so many bytes, at most PTRDIFF_MAX;
 *     what a call writes overlaps nothing else that it is passed;
 *   - link against out/libchannel_c.a and the toolchain's c/liblibc_c.a (malloc, realloc and free). */
#ifndef DACHUMVI_H
#define DACHUMVI_H
#include <stdbool.h>
#include <stddef.h>
#include <stdint.h>

#ifdef __cplusplus
extern "C" {
#endif

/* What C keeps of a channel: its word. It is zero before dachumvi_make and behind dachumvi_free, and then there is no
 * channel in it, as every call says that is made on it; C sets it to DACHUMVI_EMPTY before, and leaves it alone from then
 * on. */
typedef struct {
    void *at;
    uint32_t made;
} dachumvi_channel;
#define DACHUMVI_EMPTY {NULL, 0}

/* How a call ended. */
enum dachumvi_answer {
    DACHUMVI_DONE = 0,         /* it did what it is for */
    DACHUMVI_CLOSED = 1,       /* the channel was destroyed */
    DACHUMVI_NO_MEMORY = 2,    /* want of memory; what stood before stands */
    DACHUMVI_NOTHING = 3,      /* there was nothing to do */
    DACHUMVI_NO_ID = 4,        /* all 65,536 identifiers are in flight */
    DACHUMVI_BAD_FAMILY = 5,   /* a family that is neither 0, 4 nor 6 */
    DACHUMVI_BAD_LENGTH = 6,   /* an address of neither 4 nor 16 bytes */
    DACHUMVI_LARGE_RESOLV = 7, /* the text of resolv.conf has more than 65,536 bytes */
    DACHUMVI_LARGE_HOSTS = 8,  /* the text of the hosts file has more than 4,194,304 bytes */
    DACHUMVI_NOT_KEPT = 9,     /* the channel was made without a kept journal */
    DACHUMVI_NO_CHANNEL = 10,  /* there is no channel in the word: none was made, or it was freed */
    DACHUMVI_HAS_CHANNEL = 11, /* there is a channel in the word already */
    DACHUMVI_NULL = 12         /* a pointer is null */
};

/* How a request ended: the numbers of c-ares. */
enum dachumvi_status {
    DACHUMVI_SUCCESS = 0,
    DACHUMVI_ENODATA = 1,
    DACHUMVI_EFORMERR = 2,
    DACHUMVI_ESERVFAIL = 3,
    DACHUMVI_ENOTFOUND = 4,
    DACHUMVI_ENOTIMP = 5,
    DACHUMVI_EREFUSED = 6,
    DACHUMVI_EBADNAME = 8,
    DACHUMVI_EBADRESP = 10,
    DACHUMVI_ECONNREFUSED = 11,
    DACHUMVI_ETIMEOUT = 12,
    DACHUMVI_EDESTRUCTION = 16,
    DACHUMVI_ECANCELLED = 24
};

/* Which addresses are wanted. */
enum dachumvi_family {
    DACHUMVI_ANY = 0,
    DACHUMVI_V4 = 4,
    DACHUMVI_V6 = 6
};

/* Record types that are asked for most, and the Internet class (RFC 1035, sections 3.2.2 and 3.2.4; RFC 3596). */
enum dachumvi_kind {
    DACHUMVI_A = 1,
    DACHUMVI_PTR = 12,
    DACHUMVI_AAAA = 28,
    DACHUMVI_IN = 1
};

/* An attempt that was begun. */
typedef struct {
    uint64_t number; /* the request's */
    uint64_t link;   /* 0: one datagram; else bytes of this link over TCP, which is opened where it isn't yet */
    size_t length;   /* how many bytes are to be sent */
    uint32_t server; /* its key */
    uint16_t id;     /* the query's identifier */
    uint16_t port;   /* where the server listens */
    uint8_t leg;     /* the request's leg */
} dachumvi_attempt;

/* A leg of a request. */
typedef struct {
    uint64_t number; /* the request's */
    uint8_t leg;
} dachumvi_leg;

/* A request that has completed. */
typedef struct {
    uint64_t number;  /* the request's */
    size_t message;   /* how many bytes its reply has; 0 where there is none, as of addresses */
    size_t addresses; /* how many addresses it has */
    uint8_t status;   /* a dachumvi_status */
} dachumvi_request;

/* How much there is. */
typedef struct {
    uint64_t pending; /* requests that haven't completed */
    uint64_t ready;   /* requests that have, and weren't taken */
    uint64_t waiting; /* legs whose attempt is to be started */
    uint64_t flying;  /* attempts that are in flight */
} dachumvi_counts;

/* Each call answers with one of these numbers. NULL comes exactly where one of its pointers is null, also one to no bytes;
 * nothing is written then. Else NO_CHANNEL comes exactly where there is no channel in the word, from each call but
 * dachumvi_make, and nothing is written. The comments below say the other answers. */

/* Makes a channel by the text of a resolv.conf (resolv.conf(5)) and of a hosts file (hosts(5)), and writes its word.
 * What isn't understood in a text is passed over; no text at all sets the defaults, with a server at 127.0.0.1 port
 * 53. With `keeps` the journal is kept, and the text of the hosts file with it: each entry then takes memory that only
 * dachumvi_free gives back, and so does each message that came, strays too. Answers HAS_CHANNEL exactly where there is a
 * channel in the word; else LARGE_RESOLV exactly where that text is above its limit; else LARGE_HOSTS exactly where that
 * one is; else DONE; or NO_MEMORY. Where it isn't DONE, nothing is written. */
uint32_t dachumvi_make(const uint8_t *resolv, size_t resolv_length, const uint8_t *hosts, size_t hosts_length, bool keeps,
                       dachumvi_channel *channel);

/* Gives back all that the channel owns, and leaves a word without a channel. Its pending requests are never answered.
 * Answers DONE. */
uint32_t dachumvi_free(dachumvi_channel *channel);

/* Asks for records of this name, which is a text (RFC 1035, section 5.1), and writes the request's number: the next
 * one. A text that is no name, of whatever length, is accepted, and completes at once with EBADNAME. Answers DONE;
 * CLOSED exactly where the channel was destroyed, but where memory was wanting before, for a copy of the name; or
 * NO_MEMORY. Behind any other than DONE nothing is written and the journal is as it was. */
uint32_t dachumvi_query(dachumvi_channel *channel, const uint8_t *name, size_t length, uint16_t kind, uint16_t class_,
                        uint64_t *number);

/* The same, for the name's candidates by the search list, one after the other. */
uint32_t dachumvi_search(dachumvi_channel *channel, const uint8_t *name, size_t length, uint16_t kind, uint16_t class_,
                         uint64_t *number);

/* The same, for the addresses of a host, by its name or its own text: of both families by ANY, or of one. They are
 * sorted (RFC 6724) unless nosort is set. Answers BAD_FAMILY for any other family, and nothing changes. */
uint32_t dachumvi_address(dachumvi_channel *channel, const uint8_t *host, size_t length, uint32_t family, bool nosort,
                          uint64_t *number);

/* The same, for the names of an address of 4 or 16 bytes, its first byte the highest: PTR records of its reverse
 * name. Answers BAD_LENGTH for any other length, and nothing changes; else CLOSED wherever the channel was destroyed,
 * since no name is copied before. */
uint32_t dachumvi_reverse(dachumvi_channel *channel, const uint8_t *address, size_t length, uint64_t *number);

/* Begins an attempt of the first leg that waits at this moment, and tells it: at the server and over the link where
 * it has to go, with the first free identifier from `word` upwards, which should be random. The bits of `mix`,
 * random too, give the letters their case where the options say so. Answers DONE; NOTHING exactly where no leg
 * waits; NO_ID where one does and all identifiers are in flight; or NO_MEMORY. Behind any other than DONE nothing is
 * written. */
uint32_t dachumvi_start(dachumvi_channel *channel, uint16_t word, uint16_t mix, uint64_t at, dachumvi_attempt *attempt);

/* Copies what the attempt begun last is to send: over link 0 one datagram, else bytes of a stream, where the query
 * stands behind two bytes with its length. As many bytes are copied as there is room for, and the call writes how
 * many; those behind them stay. Answers DONE. */
uint32_t dachumvi_copy_bytes(dachumvi_channel *channel, uint8_t *out, size_t length, size_t *copied);

/* Copies the address of its server in the same way: 4 bytes or 16, the highest first. Before the first attempt this is
 * 0.0.0.0, and no bytes are to be sent. */
uint32_t dachumvi_copy_server(dachumvi_channel *channel, uint8_t *out, size_t length, size_t *copied);

/* Takes in a message of any length that came from this server over this link, without the two bytes of a stream, and
 * tells the leg whose attempt it answers, by server, link, identifier and question. Answers DONE; NOTHING where it
 * answers no attempt in flight; or NO_MEMORY, and the message was not taken in. */
uint32_t dachumvi_arrive(dachumvi_channel *channel, uint32_t server, uint64_t link, const uint8_t *message, size_t length,
                         dachumvi_leg *leg);

/* Lets the attempt that is due first expire, if it is due at this moment, and tells whose it was. Answers DONE: call
 * it again; NOTHING exactly where none is due; or NO_MEMORY. */
uint32_t dachumvi_expire(dachumvi_channel *channel, uint64_t at, dachumvi_leg *leg);

/* Fails all attempts that are in flight on this server over this link, and writes how many there were. Answers DONE
 * or NO_MEMORY, and then none has failed. */
uint32_t dachumvi_fault(dachumvi_channel *channel, uint32_t server, uint64_t link, uint64_t at, uint64_t *count);

/* Writes when the attempt is due that is due first. Answers DONE, or NOTHING exactly where none is in flight. */
uint32_t dachumvi_next_due(dachumvi_channel *channel, uint64_t *at);

/* Writes how much there is. Answers DONE. */
uint32_t dachumvi_count(dachumvi_channel *channel, dachumvi_counts *counts);

/* Answers DONE where an attempt is in flight on this server over this link, and NOTHING where none is: a link over TCP
 * that isn't busy may be closed. */
uint32_t dachumvi_link_busy(dachumvi_channel *channel, uint32_t server, uint64_t link);

/* Moves out the first request that has completed, in the order of completion, and tells it: each request once.
 * Answers DONE, or NOTHING exactly where none is ready. */
uint32_t dachumvi_take(dachumvi_channel *channel, dachumvi_request *request);

/* Copies the reply (RFC 1035, section 4.1) of the request taken last, as dachumvi_copy_bytes copies: none before the
 * first was taken. */
uint32_t dachumvi_copy_message(dachumvi_channel *channel, uint8_t *out, size_t length, size_t *copied);

/* Copies the address at this index, from 0, of the request taken last: 4 bytes or 16, the highest first. There is
 * none at an index that isn't below its count, and 0 bytes are copied. */
uint32_t dachumvi_copy_address(dachumvi_channel *channel, size_t index, uint8_t *out, size_t length, size_t *copied);

/* Copies the text of the journal in the same way, and writes how many bytes it has, which may be more than were copied:
 * the channel's options, its hosts file and what happened, as docs/JOURNAL.md describes them and as `adig --journal` puts
 * them. Answers DONE; NOT_KEPT exactly where the channel was made without a kept journal; or NO_MEMORY. Behind any other
 * than DONE nothing is written. The channel is as it was. */
uint32_t dachumvi_copy_journal(dachumvi_channel *channel, uint8_t *out, size_t length, size_t *size);

/* Completes every pending request with ECANCELLED, and writes how many there were. Answers DONE. */
uint32_t dachumvi_cancel(dachumvi_channel *channel, uint64_t *count);

/* Destroys the channel: every pending request completes with EDESTRUCTION, and none is accepted any more. Requests
 * that have completed can still be taken. Answers DONE, or CLOSED exactly where the channel was destroyed before. */
uint32_t dachumvi_destroy(dachumvi_channel *channel);

#ifdef __cplusplus
}
#endif
#endif
