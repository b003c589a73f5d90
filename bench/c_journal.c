/* The text of a kept journal, which is written by hand from docs/JOURNAL.md, and that there is none of one that isn't kept. Prints how
 * many answers were right, and ends with 1 where one wasn't. */
#include "c_calls.h"

/* The text of `is_told`. What the resolv.conf doesn't set has its default, and a request of C's has no step. */
static const char TEXT[] =
    "journal 1\n"
    "option 2000 3 1 0 00000010 0 0 1232\n"
    "server 192.0.2.53 53\n"
    "hosts 3139322e302e322e3720686f73740a\n"
    "0 0 accept 1 q 612e62 1 1 ( 0 )\n"
    "0 0 accept 2 s 78 1 1 ( 0 )\n"
    "0 0 accept 3 a 686f7374 1 1 ( 0 )\n"
    "0 0 accept 4 r 2001:db8::1 ( 0 )\n"
    "0 0 start 1 0 0 0 7 - 100\n"
    "0 0 start 2 0 0 0 8 - 101\n"
    "0 0 arrive 0 0 -\n"
    "0 0 arrive 3 5 0001ff\n"
    "0 0 expire 1 0 2100\n"
    "0 0 fault 0 0 2101\n"
    "0 0 take 3\n"
    "0 0 cancel\n"
    "0 0 take 1\n"
    "0 0 destroy\n"
    "end\n";

/* A run of which each call that makes an entry is one, and others, which make none, stand between. Whether its text can be had. */
static void is_told(bool keeps) {
    uint64_t number, count;
    dachumvi_leg leg;
    dachumvi_counts counts;
    make("nameserver 192.0.2.53\n", "192.0.2.7 host\n", keeps);
    is_asked("a.b", 3, 1);
    says("search", DACHUMVI_DONE, dachumvi_search(&channel, BYTES("x"), 1, DACHUMVI_A, DACHUMVI_IN, &number));
    says("bad family", DACHUMVI_BAD_FAMILY, dachumvi_address(&channel, BYTES("host"), 4, 5, true, &number));
    says("address", DACHUMVI_DONE, dachumvi_address(&channel, BYTES("host"), 4, DACHUMVI_V4, true, &number));
    says("bad length", DACHUMVI_BAD_LENGTH, dachumvi_reverse(&channel, BYTES("host"), 3, &number));
    says("reverse", DACHUMVI_DONE, dachumvi_reverse(&channel, BYTES("\x20\x01\x0d\xb8\0\0\0\0\0\0\0\0\0\0\0\1"), 16, &number));
    says("number", 4, number), says("id", 7, start(100).id), says("id", 8, start(101).id);
    says("empty message", DACHUMVI_NOTHING, arrive(0, 0, "", 0)), says("stray", DACHUMVI_NOTHING, arrive(3, 5, "\0\1\xff", 3));
    says("next due", DACHUMVI_DONE, dachumvi_next_due(&channel, &number)), says("due", 2100, number);
    says("not due", DACHUMVI_NOTHING, dachumvi_expire(&channel, 2099, &leg));
    says("expire", DACHUMVI_DONE, dachumvi_expire(&channel, 2100, &leg)), says("leg's request", 1, leg.number);
    says("busy", DACHUMVI_DONE, dachumvi_link_busy(&channel, 0, 0));
    says("fault", DACHUMVI_DONE, dachumvi_fault(&channel, 0, 0, 2101, &count)), says("failed", 1, count);
    says("not busy", DACHUMVI_NOTHING, dachumvi_link_busy(&channel, 0, 0));
    is_taken(3, DACHUMVI_SUCCESS);
    says("cancel", DACHUMVI_DONE, dachumvi_cancel(&channel, &count)), says("cancelled", 3, count);
    is_taken(1, DACHUMVI_ECANCELLED);
    says("count", DACHUMVI_DONE, dachumvi_count(&channel, &counts)), says("ready", 2, counts.ready);
    says("destroy", DACHUMVI_DONE, dachumvi_destroy(&channel)), says("destroy again", DACHUMVI_CLOSED, dachumvi_destroy(&channel));
    says("closed", DACHUMVI_CLOSED, dachumvi_query(&channel, BYTES("a"), 1, DACHUMVI_A, DACHUMVI_IN, &number));
    if (keeps) is_copied("journal", dachumvi_copy_journal, TEXT, sizeof TEXT - 1);
    else {
        uint8_t out[4] = {7, 7, 7, 7};
        size_t size = 5;
        says("no journal", DACHUMVI_NOT_KEPT, dachumvi_copy_journal(&channel, out, sizeof out, &size));
        says("nothing written", 5, size), says("nothing laid", 0, memcmp(out, "\7\7\7\7", 4) != 0);
    }
    is_freed();
}

int main(void) {
    is_told(true), is_told(false);
    return said("a journal");
}
