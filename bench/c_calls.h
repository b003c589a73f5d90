/* For programs that try the calls of include/dachumvi.h: a channel, its calls by one name each, and answers that are compared with
 * those that are wanted, and counted. */
#include "../include/dachumvi.h"
#include <inttypes.h>
#include <stdio.h>
#include <stdlib.h>
#include <string.h>

#define BYTES(text) ((const uint8_t *)(text))

static int right, wrong;
static dachumvi_channel channel = DACHUMVI_EMPTY;

static inline void says(const char *what, uint64_t wanted, uint64_t found) {
    if (found == wanted) right++;
    else wrong++, printf("FAILS: %s: %" PRIu64 ", not %" PRIu64 "\n", what, found, wanted);
}

/* Prints how many were right. The status that the program ends with: 1 where one wasn't. */
static inline int said(const char *about) {
    printf("%d answers about %s are right\n", right, about);
    return wrong > 0;
}

static inline void make(const char *resolv, const char *hosts, bool keeps) {
    says("make", DACHUMVI_DONE, dachumvi_make(BYTES(resolv), strlen(resolv), BYTES(hosts), strlen(hosts), keeps, &channel));
}

static inline void is_freed(void) {
    says("free", DACHUMVI_DONE, dachumvi_free(&channel));
}

/* Asks for addresses of IPv4 of a name, by the next number. */
static inline void is_asked(const void *name, size_t length, uint64_t next) {
    uint64_t number = 0;
    says("query", DACHUMVI_DONE, dachumvi_query(&channel, name, length, DACHUMVI_A, DACHUMVI_IN, &number));
    says("its number", next, number);
}

/* Begins an attempt, with an identifier from 7 upwards. */
static inline dachumvi_attempt start(uint64_t at) {
    dachumvi_attempt attempt = {0};
    says("start", DACHUMVI_DONE, dachumvi_start(&channel, 7, 0, at, &attempt));
    return attempt;
}

static inline uint32_t arrive(uint32_t server, uint64_t link, const void *message, size_t length) {
    dachumvi_leg leg;
    return dachumvi_arrive(&channel, server, link, message, length, &leg);
}

/* Takes this request, which has this status. */
static inline void is_taken(uint64_t number, uint8_t status) {
    dachumvi_request request = {0};
    says("take", DACHUMVI_DONE, dachumvi_take(&channel, &request));
    says("its number", number, request.number), says("its status", status, request.status);
}

typedef uint32_t copying(dachumvi_channel *, uint8_t *, size_t, size_t *);

/* A call copies as many of these bytes as there is room for, and what stands behind them stays. It writes how many were copied;
 * of a journal, how many there are. */
static inline void is_copied(const char *what, copying *call, const void *wanted, size_t length) {
    const size_t rooms[] = {0, 1, 2, 3, length > 0 ? length - 1 : 0, length, length + 1, length + 9};
    for (size_t at = 0; at < sizeof rooms / sizeof *rooms; at++) {
        size_t room = rooms[at], laid = room < length ? room : length, count = SIZE_MAX, stayed = 0;
        uint8_t *out = memset(malloc(room + 9), 0xa5, room + 9); /* those behind the room stay too */
        says(what, DACHUMVI_DONE, call(&channel, out, room, &count));
        says(what, call == dachumvi_copy_journal ? length : laid, count);
        says(what, 0, memcmp(out, wanted, laid) != 0);
        while (laid + stayed < room + 9 && out[laid + stayed] == 0xa5) stayed++;
        says(what, room + 9 - laid, stayed);
        free(out);
    }
}
