/* Lengths: which a call takes as they are and which it answers by name, and what a buffer that is too small leaves. Prints how many
 * answers were right, and ends with 1 where one wasn't. */
#include "c_calls.h"

/* The query for the addresses of IPv4 of `x.test.`, with identifier 7, recursion desired (RFC 1035, section 4.1) and an OPT record
 * that offers 1,232 bytes (RFC 6891, section 6.1.2), behind its length (RFC 1035, section 4.2.2); and its reply, 192.0.2.1. */
static const char STREAM[] =
    "\0\x23\0\x07\x01\0\0\x01\0\0\0\0\0\x01\x01x\x04test\0\0\x01\0\x01\0\0\x29\x04\xd0\0\0\0\0\0\0";
static const char REPLY[] =
    "\0\x07\x81\x80\0\x01\0\x01\0\0\0\0\x01x\x04test\0\0\x01\0\x01\xc0\x0c\0\x01\0\x01\0\0\0\x3c\0\x04\xc0\0\x02\x01";
enum { QUERY_LENGTH = 35, REPLY_LENGTH = 40 };

static uint32_t copy_first(dachumvi_channel *word, uint8_t *out, size_t room, size_t *copied) {
    return dachumvi_copy_address(word, 0, out, room, copied);
}
static uint32_t copy_second(dachumvi_channel *word, uint8_t *out, size_t room, size_t *copied) {
    return dachumvi_copy_address(word, 1, out, room, copied);
}
static uint32_t copy_no_such(dachumvi_channel *word, uint8_t *out, size_t room, size_t *copied) {
    return dachumvi_copy_address(word, SIZE_MAX, out, room, copied);
}

/* A text above its limit is answered with its name, that of resolv.conf first, and one at its limit is taken. */
static void texts(void) {
    enum { MOST_RESOLV = 65536, MOST_HOSTS = 4194304 };
    uint8_t *lines = memset(malloc(MOST_HOSTS + 1), '\n', MOST_HOSTS + 1);
    const struct { size_t resolv, hosts; uint32_t answer; } rows[] = {
        {0, 0, DACHUMVI_DONE},
        {MOST_RESOLV, MOST_HOSTS, DACHUMVI_DONE},
        {MOST_RESOLV + 1, 0, DACHUMVI_LARGE_RESOLV},
        {MOST_RESOLV, MOST_HOSTS + 1, DACHUMVI_LARGE_HOSTS},
        {MOST_RESOLV + 1, MOST_HOSTS + 1, DACHUMVI_LARGE_RESOLV}};
    for (size_t at = 0; at < sizeof rows / sizeof *rows; at++)
        for (int keeps = 0; keeps < 2; keeps++) {
            uint32_t answer = rows[at].answer;
            says("texts", answer, dachumvi_make(lines, rows[at].resolv, lines, rows[at].hosts, keeps, &channel));
            says("their word", answer ? DACHUMVI_NO_CHANNEL : DACHUMVI_DONE, dachumvi_free(&channel));
        }
    free(lines);
}

/* A name of any length is accepted. Above 255 bytes in a message, or with a label above 63, it is none (RFC 1035, section 2.3.4). */
static void names(void) {
    enum { LONGEST = 1 << 24 };
    char *name = malloc(LONGEST);
    const struct { size_t length, label; bool is_name; } rows[] = {
        {0, 63, false}, {1, 63, true}, {63, 63, true}, {64, 64, false},
        {253, 63, true}, {254, 63, false}, {65536, 63, false}, {LONGEST, 63, false}};
    make("", "", false);
    for (size_t at = 0; at < sizeof rows / sizeof *rows; at++) {
        uint64_t count;
        for (size_t dot = 0; dot < rows[at].length; dot++) name[dot] = (dot + 1) % (rows[at].label + 1) == 0 ? '.' : 'a';
        is_asked(name, rows[at].length, at + 1);
        says("cancel", DACHUMVI_DONE, dachumvi_cancel(&channel, &count)), says("pending", rows[at].is_name, count);
        is_taken(at + 1, rows[at].is_name ? DACHUMVI_ECANCELLED : DACHUMVI_EBADNAME);
    }
    is_freed(), free(name);
}

/* An address has 4 or 16 bytes, and a family is 0, 4 or 6; else nothing is written, and no number is spent. */
static void addresses(void) {
    const uint8_t bytes[32] = {192, 0, 2, 1};
    uint64_t number = 99, asked = 0;
    make("", "", false);
    for (size_t length = 0; length <= sizeof bytes; length++) {
        bool is_one = length == 4 || length == 16;
        uint32_t answer = dachumvi_reverse(&channel, bytes, length, &number);
        says("address", is_one ? DACHUMVI_DONE : DACHUMVI_BAD_LENGTH, answer);
        says("its number", is_one ? ++asked : 99, number), number = 99;
    }
    for (uint32_t family = UINT32_MAX; family != 9; family++) {
        bool is_one = family == DACHUMVI_ANY || family == DACHUMVI_V4 || family == DACHUMVI_V6;
        uint32_t answer = dachumvi_address(&channel, BYTES("a"), 1, family, false, &number);
        says("family", is_one ? DACHUMVI_DONE : DACHUMVI_BAD_FAMILY, answer);
        says("its number", is_one ? ++asked : 99, number), number = 99;
    }
    is_freed();
}

/* A message of any length is taken in, and one that isn't the reply, byte by byte, answers nothing. */
static void messages(void) {
    enum { LONGEST = 1 << 20 };
    char *message = calloc(1, LONGEST);
    memcpy(message, REPLY, REPLY_LENGTH);
    make("nameserver 192.0.2.53", "192.0.2.7 host\n2001:db8::7 host\n", false);
    is_copied("no attempt", dachumvi_copy_bytes, "", 0);
    is_copied("no reply", dachumvi_copy_message, "", 0), is_copied("no address", copy_first, "", 0);
    is_asked("x.test.", 7, 1);
    dachumvi_attempt attempt = start(100);
    says("link", 0, attempt.link), says("length", QUERY_LENGTH, attempt.length), says("port", 53, attempt.port), says("id", 7, attempt.id);
    is_copied("datagram", dachumvi_copy_bytes, STREAM + 2, QUERY_LENGTH);
    is_copied("server", dachumvi_copy_server, "\xc0\0\2\x35", 4);
    const size_t lengths[] = {0, 1, REPLY_LENGTH - 1, REPLY_LENGTH + 1, 65535, 65536, LONGEST};
    for (size_t at = 0; at < sizeof lengths / sizeof *lengths; at++)
        says("message", DACHUMVI_NOTHING, arrive(0, 0, message, lengths[at]));
    says("other link", DACHUMVI_NOTHING, arrive(0, 1, REPLY, REPLY_LENGTH));
    says("other server", DACHUMVI_NOTHING, arrive(1, 0, REPLY, REPLY_LENGTH));
    says("reply", DACHUMVI_DONE, arrive(0, 0, REPLY, REPLY_LENGTH));
    says("its copy", DACHUMVI_NOTHING, arrive(0, 0, REPLY, REPLY_LENGTH));
    is_taken(1, DACHUMVI_SUCCESS), is_copied("message", dachumvi_copy_message, REPLY, REPLY_LENGTH);
    for (uint32_t family = DACHUMVI_V4; family <= DACHUMVI_V6; family += 2) {
        uint64_t number = family / 2, asked; /* the second request, and the third */
        says("host", DACHUMVI_DONE, dachumvi_address(&channel, BYTES("host"), 4, family, true, &asked));
        says("its number", number, asked), is_taken(number, DACHUMVI_SUCCESS);
        if (family == DACHUMVI_V4) is_copied("address", copy_first, "\xc0\0\2\7", 4);
        else is_copied("address", copy_first, "\x20\x01\x0d\xb8\0\0\0\0\0\0\0\0\0\0\0\7", 16);
        is_copied("second address", copy_second, "", 0), is_copied("no such address", copy_no_such, "", 0);
        is_copied("no message", dachumvi_copy_message, "", 0);
    }
    is_freed(), free(message);
    make("nameserver 2001:db8::53\noptions use-vc", "", false);
    is_asked("x.test.", 7, 1), attempt = start(100);
    says("a link over TCP", 1, attempt.link != 0), says("length", QUERY_LENGTH + 2, attempt.length);
    is_copied("stream", dachumvi_copy_bytes, STREAM, QUERY_LENGTH + 2);
    is_copied("server", dachumvi_copy_server, "\x20\x01\x0d\xb8\0\0\0\0\0\0\0\0\0\0\0\x53", 16);
    is_freed();
}

int main(void) {
    texts(), names(), addresses(), messages();
    return said("lengths");
}
