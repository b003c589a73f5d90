/* Words without a channel: each call on one answers so and writes nothing, before dachumvi_make and behind dachumvi_free;
 * and dachumvi_make leaves a channel that is there. And pointers that are null: each call says so, for each of its pointers,
 * and writes nothing. Prints how many answers were right, and ends with 1 where one wasn't. */
#include "c_calls.h"

#define ABSENT(call) says(#call, DACHUMVI_NO_CHANNEL, dachumvi_##call)

/* All calls but dachumvi_make, on a word without a channel. */
static void absent(dachumvi_channel *word) {
    static const uint8_t bytes[] = {'a', 0, 0, 1};
    uint8_t out[8];
    uint64_t number = 7;
    size_t size = 7;
    dachumvi_attempt attempt;
    dachumvi_leg leg;
    dachumvi_request request;
    dachumvi_counts counts;
    memset(out, 7, sizeof out), memset(&attempt, 7, sizeof attempt), memset(&leg, 7, sizeof leg);
    memset(&request, 7, sizeof request), memset(&counts, 7, sizeof counts);
    ABSENT(query(word, bytes, 1, DACHUMVI_A, DACHUMVI_IN, &number));
    ABSENT(search(word, bytes, 1, DACHUMVI_A, DACHUMVI_IN, &number));
    ABSENT(address(word, bytes, 1, DACHUMVI_ANY, false, &number));
    ABSENT(address(word, bytes, 1, 5, false, &number));
    ABSENT(reverse(word, bytes, 4, &number));
    ABSENT(reverse(word, bytes, 3, &number));
    ABSENT(start(word, 1, 2, 3, &attempt));
    ABSENT(copy_bytes(word, out, sizeof out, &size));
    ABSENT(copy_server(word, out, sizeof out, &size));
    ABSENT(arrive(word, 0, 0, bytes, sizeof bytes, &leg));
    ABSENT(expire(word, 3, &leg));
    ABSENT(fault(word, 0, 0, 3, &number));
    ABSENT(next_due(word, &number));
    ABSENT(count(word, &counts));
    ABSENT(link_busy(word, 0, 0));
    ABSENT(take(word, &request));
    ABSENT(copy_message(word, out, sizeof out, &size));
    ABSENT(copy_address(word, 0, out, sizeof out, &size));
    ABSENT(copy_journal(word, out, sizeof out, &size));
    ABSENT(cancel(word, &number));
    ABSENT(destroy(word));
    ABSENT(free(word));
    says("what is written", 7, number == 7 && size == 7 && memchr(out, 0, sizeof out) == NULL ? 7 : 0);
    says("what is told", 7, ((uint8_t *)&attempt)[0] == 7 && leg.leg == 7 && request.status == 7 && ((uint8_t *)&counts)[0] == 7 ? 7 : 0);
}

#define NULLS(call) says(#call, DACHUMVI_NULL, dachumvi_##call)

/* All calls on a word, with each of their pointers null; NULL also comes first where there is no channel. */
static void nulls(dachumvi_channel *word) {
    static const uint8_t bytes[] = {'a', 0, 0, 1};
    const dachumvi_channel before = *word;
    uint8_t out[8];
    uint64_t number = 7;
    size_t size = 7;
    dachumvi_attempt attempt;
    dachumvi_leg leg;
    dachumvi_request request;
    dachumvi_counts counts;
    memset(out, 7, sizeof out), memset(&attempt, 7, sizeof attempt), memset(&leg, 7, sizeof leg);
    memset(&request, 7, sizeof request), memset(&counts, 7, sizeof counts);
    NULLS(make(NULL, 0, bytes, 1, false, word)), NULLS(make(bytes, 1, NULL, 0, false, word));
    NULLS(make(bytes, 1, bytes, 1, true, NULL)), NULLS(make(NULL, 9, NULL, 9, true, NULL));
    NULLS(free(NULL));
    NULLS(query(NULL, bytes, 1, DACHUMVI_A, DACHUMVI_IN, &number));
    NULLS(query(word, NULL, 0, DACHUMVI_A, DACHUMVI_IN, &number)), NULLS(query(word, NULL, 1, DACHUMVI_A, DACHUMVI_IN, &number));
    NULLS(query(word, bytes, 1, DACHUMVI_A, DACHUMVI_IN, NULL));
    NULLS(search(NULL, bytes, 1, DACHUMVI_A, DACHUMVI_IN, &number));
    NULLS(search(word, NULL, 0, DACHUMVI_A, DACHUMVI_IN, &number)), NULLS(search(word, bytes, 1, DACHUMVI_A, DACHUMVI_IN, NULL));
    NULLS(address(NULL, bytes, 1, DACHUMVI_ANY, false, &number));
    NULLS(address(word, NULL, 0, 5, false, &number)), NULLS(address(word, bytes, 1, 5, false, NULL));
    NULLS(reverse(NULL, bytes, 4, &number)), NULLS(reverse(word, NULL, 3, &number)), NULLS(reverse(word, bytes, 3, NULL));
    NULLS(start(NULL, 1, 2, 3, &attempt)), NULLS(start(word, 1, 2, 3, NULL));
    NULLS(copy_bytes(NULL, out, 8, &size)), NULLS(copy_bytes(word, NULL, 0, &size)), NULLS(copy_bytes(word, out, 8, NULL));
    NULLS(copy_server(NULL, out, 8, &size)), NULLS(copy_server(word, NULL, 8, &size)), NULLS(copy_server(word, out, 8, NULL));
    NULLS(arrive(NULL, 0, 0, bytes, 4, &leg)), NULLS(arrive(word, 0, 0, NULL, 0, &leg)), NULLS(arrive(word, 0, 0, bytes, 4, NULL));
    NULLS(expire(NULL, 3, &leg)), NULLS(expire(word, 3, NULL));
    NULLS(fault(NULL, 0, 0, 3, &number)), NULLS(fault(word, 0, 0, 3, NULL));
    NULLS(next_due(NULL, &number)), NULLS(next_due(word, NULL));
    NULLS(count(NULL, &counts)), NULLS(count(word, NULL));
    NULLS(link_busy(NULL, 0, 0));
    NULLS(take(NULL, &request)), NULLS(take(word, NULL));
    NULLS(copy_message(NULL, out, 8, &size)), NULLS(copy_message(word, NULL, 8, &size)), NULLS(copy_message(word, out, 8, NULL));
    NULLS(copy_address(NULL, 0, out, 8, &size)), NULLS(copy_address(word, 0, NULL, 8, &size)), NULLS(copy_address(word, 0, out, 8, NULL));
    NULLS(copy_journal(NULL, out, 8, &size)), NULLS(copy_journal(word, NULL, 8, &size)), NULLS(copy_journal(word, out, 8, NULL));
    NULLS(cancel(NULL, &number)), NULLS(cancel(word, NULL));
    NULLS(destroy(NULL));
    says("the word", 1, before.at == word->at && before.made == word->made);
    says("what is written", 7, number == 7 && size == 7 && memchr(out, 0, sizeof out) == NULL ? 7 : 0);
    says("what is told", 7, ((uint8_t *)&attempt)[0] == 7 && leg.leg == 7 && request.status == 7 && ((uint8_t *)&counts)[0] == 7 ? 7 : 0);
}

int main(void) {
    dachumvi_channel word = DACHUMVI_EMPTY, other;
    uint8_t none[1] = {0};
    uint64_t number = 0;
    dachumvi_counts counts;
    memset(&other, 0, sizeof other);
    nulls(&word), absent(&word), absent(&other);
    says("make", DACHUMVI_DONE, dachumvi_make(none, 0, none, 0, false, &word));
    says("query", DACHUMVI_DONE, dachumvi_query(&word, (const uint8_t *)"a", 1, DACHUMVI_A, DACHUMVI_IN, &number));
    says("make again", DACHUMVI_HAS_CHANNEL, dachumvi_make(none, 0, none, 0, false, &word));
    says("count", DACHUMVI_DONE, dachumvi_count(&word, &counts));
    nulls(&word);
    says("count", DACHUMVI_DONE, dachumvi_count(&word, &counts));
    says("pending", 1, counts.pending);
    says("cancel", DACHUMVI_DONE, dachumvi_cancel(&word, &number));
    says("cancelled", 1, number);
    says("destroy", DACHUMVI_DONE, dachumvi_destroy(&word));
    says("destroy again", DACHUMVI_CLOSED, dachumvi_destroy(&word));
    other = word; /* a word may be moved */
    says("free", DACHUMVI_DONE, dachumvi_free(&other));
    absent(&other);
    says("make behind free", DACHUMVI_DONE, dachumvi_make(none, 0, none, 0, true, &other));
    says("free behind that", DACHUMVI_DONE, dachumvi_free(&other));
    absent(&other);
    return said("words and null pointers");
}
