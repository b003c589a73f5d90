/* adns: the addresses of the names among its words, over the channel of include/dachumvi.h, with poll and sockets.
 *   adns [-s SERVER] [-r RESOLV.CONF] [-h HOSTS] [-o OPTIONS] [-f 4|6] [-n TIMES] [-j JOURNAL] NAME ..
 * The server is asked at port 53; without one, those of the resolv.conf are. Options are those of its `options` line. A
 * request's line has the name, the status by its number, and the addresses. Into the file JOURNAL goes the text of what
 * happened, for areplay. It ends with 0 if all statuses are 0, with 1 if one isn't, and with 2 where it can't go on. */
#define _GNU_SOURCE
#include "../../include/dachumvi.h"
#include <arpa/inet.h>
#include <errno.h>
#include <poll.h>
#include <stdio.h>
#include <stdlib.h>
#include <string.h>
#include <sys/random.h>
#include <sys/socket.h>
#include <time.h>
#include <unistd.h>
enum { SOCKETS = 64, WINDOW = 64, MOST = 2 + 65535 };

/* A socket to a server: link 0 is one of datagrams, any other a link over TCP. */
struct socket {
    uint64_t link;
    uint32_t server;
    int fd;
    size_t got, queued; /* of a link: bytes that came and are no whole message, and bytes to be written */
    uint8_t in[MOST], out[MOST];
};

static dachumvi_channel channel = DACHUMVI_EMPTY;
static struct socket *sockets[SOCKETS];
static nfds_t held;
static char **names;
static uint64_t asked, taken, total, name_count;
static uint32_t family, status;
static size_t copied;

static void stop(const char *why) {
    exit((fprintf(stderr, "adns: %s\n", why), 2));
}
static uint64_t now(void) {
    struct timespec time;
    clock_gettime(CLOCK_MONOTONIC, &time);
    return (uint64_t)time.tv_sec * 1000 + (uint64_t)time.tv_nsec / 1000000;
}

/* All attempts over this link fail. */
static void fault(uint32_t server, uint64_t link) {
    uint64_t count;
    if (dachumvi_fault(&channel, server, link, now(), &count) != DACHUMVI_DONE) stop("no memory");
}

static void close_at(nfds_t at) {
    close(sockets[at]->fd), free(sockets[at]), sockets[at] = sockets[--held];
}

/* A socket that is connected, or is to be, to the server of the attempt begun last; or -1. */
static int connected(int type, uint16_t port) {
    struct sockaddr_in v4 = {.sin_family = AF_INET, .sin_port = htons(port)};
    struct sockaddr_in6 v6 = {.sin6_family = AF_INET6, .sin6_port = htons(port)};
    uint8_t bytes[16];
    bool is_v4 = !dachumvi_copy_server(&channel, bytes, sizeof bytes, &copied) && copied == 4;
    memcpy(is_v4 ? (void *)&v4.sin_addr : (void *)&v6.sin6_addr, bytes, is_v4 ? 4 : 16);
    const struct sockaddr *to = is_v4 ? (struct sockaddr *)&v4 : (struct sockaddr *)&v6;
    int fd = socket(to->sa_family, type | SOCK_NONBLOCK | SOCK_CLOEXEC, 0);
    if (fd < 0 || connect(fd, to, is_v4 ? sizeof v4 : sizeof v6) == 0 || errno == EINPROGRESS) return fd;
    return close(fd), -1;
}

/* The socket of this attempt's link, which is opened where there is none; or nothing. */
static struct socket *socket_of(const dachumvi_attempt *attempt) {
    for (nfds_t at = 0; at < held; at++)
        if (sockets[at]->server == attempt->server && sockets[at]->link == attempt->link) return sockets[at];
    struct socket *made = held < SOCKETS ? calloc(1, sizeof *made) : NULL;
    if (made == NULL) return NULL;
    *made = (struct socket){.link = attempt->link, .server = attempt->server};
    made->fd = connected(attempt->link == 0 ? SOCK_DGRAM : SOCK_STREAM, attempt->port);
    if (made->fd >= 0) return sockets[held++] = made;
    return free(made), NULL;
}

/* Begins every attempt that waits, and sends its bytes, or puts them behind those of its link. */
static void start_all(void) {
    dachumvi_attempt attempt;
    uint16_t words[2];
    for (;;) {
        if (getrandom(words, sizeof words, 0) != sizeof words) stop("no random words");
        if (dachumvi_start(&channel, words[0], words[1], now(), &attempt) != DACHUMVI_DONE) return;
        struct socket *to = socket_of(&attempt);
        bool goes = to != NULL && attempt.length <= MOST - to->queued;
        if (goes) goes = !dachumvi_copy_bytes(&channel, to->out + to->queued, MOST - to->queued, &copied);
        if (goes && attempt.link == 0) goes = send(to->fd, to->out, attempt.length, 0) >= 0;
        else if (goes) to->queued += attempt.length;
        if (!goes) fault(attempt.server, attempt.link);
    }
}

static void arrived(const struct socket *from, const uint8_t *message, size_t length) {
    dachumvi_leg leg;
    uint32_t answer = dachumvi_arrive(&channel, from->server, from->link, message, length, &leg);
    if (answer == DACHUMVI_NO_MEMORY) stop("no memory");
}

/* Reads what came over the socket. Whether it has failed or ended. */
static bool receive(struct socket *from) {
    ssize_t count = recv(from->fd, from->in + from->got, MOST - from->got, 0);
    if (count < 0) return errno != EAGAIN && errno != EINTR;
    if (from->link == 0) return arrived(from, from->in, (size_t)count), false;
    from->got += (size_t)count;
    for (size_t end; from->got >= 2 && (end = 2 + 256u * from->in[0] + from->in[1]) <= from->got; from->got -= end) {
        arrived(from, from->in + 2, end - 2);
        memmove(from->in, from->in + end, from->got - end);
    }
    return count == 0;
}

/* Writes what is queued for a link. Whether it has failed. */
static bool flush(struct socket *to) {
    ssize_t count = send(to->fd, to->out, to->queued, MSG_NOSIGNAL);
    if (count < 0) return errno != EAGAIN && errno != EINTR;
    return memmove(to->out, to->out + count, to->queued -= (size_t)count), false;
}

/* Waits until something comes or is due, and hands it to the channel. */
static void wait_once(void) {
    struct pollfd polled[SOCKETS];
    dachumvi_leg leg;
    uint64_t due, moment = now();
    int most = dachumvi_next_due(&channel, &due) != DACHUMVI_DONE ? 0 : due <= moment ? 0 : (int)(due - moment);
    for (nfds_t at = 0; at < held; at++)
        polled[at] = (struct pollfd){.fd = sockets[at]->fd, .events = POLLIN | (sockets[at]->queued ? POLLOUT : 0)};
    if (poll(polled, held, most) < 0 && errno != EINTR) stop("poll");
    for (nfds_t at = held; at-- > 0;) {
        struct socket *one = sockets[at];
        bool failed = (polled[at].revents & POLLOUT) && one->queued && flush(one);
        failed = ((polled[at].revents & (POLLIN | POLLERR | POLLHUP)) && receive(one)) || failed;
        if (failed) fault(one->server, one->link);
        if (one->link != 0 && (failed || dachumvi_link_busy(&channel, one->server, one->link))) close_at(at);
    }
    while (dachumvi_expire(&channel, now(), &leg) == DACHUMVI_DONE) {}
}

/* Asks further names, so that no more than WINDOW are pending. */
static void ask_all(void) {
    for (uint64_t number; asked < total && asked - taken < WINDOW; asked++) {
        const char *name = names[asked % name_count];
        if (dachumvi_address(&channel, (const uint8_t *)name, strlen(name), family, false, &number)) stop("not asked");
    }
}

/* Prints each request that has completed. The numbers count the names that were asked, from 1. */
static void print_all(void) {
    for (dachumvi_request request; dachumvi_take(&channel, &request) == DACHUMVI_DONE; taken++) {
        if (request.status != DACHUMVI_SUCCESS) status = 1;
        printf("%s %d", names[(request.number - 1) % name_count], request.status);
        for (size_t at = 0; at < request.addresses; at++) {
            uint8_t bytes[16];
            char text[INET6_ADDRSTRLEN];
            bool is_v4 = !dachumvi_copy_address(&channel, at, bytes, sizeof bytes, &copied) && copied == 4;
            printf(" %s", inet_ntop(is_v4 ? AF_INET : AF_INET6, bytes, text, sizeof text));
        }
        putchar('\n');
    }
}

/* Puts the bytes of a file into a block, or none where it can't be read. */
static size_t read_file(const char *path, uint8_t *block, size_t room) {
    FILE *file = fopen(path, "r");
    size_t length = file ? fread(block, 1, room, file) : 0;
    return file ? fclose(file), length : 0;
}

/* Writes the text of the journal to a file, if it has no more bytes than areplay reads. */
static void write_journal(const char *path) {
    static uint8_t text[1 << 24];
    size_t size;
    FILE *file = fopen(path, "w");
    if (dachumvi_copy_journal(&channel, text, sizeof text, &size) || size > sizeof text) stop("no journal to write");
    if (!file || fwrite(text, 1, size, file) != size || fclose(file) != 0) stop("journal not written");
}

int main(int count, char **words) {
    static uint8_t resolv[65537], hosts[4194305];
    const char *given[128] = {['f'] = "0", ['h'] = "/etc/hosts", ['n'] = "1", ['o'] = "", ['r'] = "/etc/resolv.conf", ['s'] = ""};
    for (int option; (option = getopt(count, words, "f:h:j:n:o:r:s:")) != -1; given[option] = optarg)
        if (option == '?') stop("no such option");
    if (optind >= count) stop("no name");
    names = words + optind, name_count = (uint64_t)(count - optind), family = (uint32_t)atoi(given['f']);
    total = name_count * strtoull(given['n'], NULL, 10);
    char more[512];
    size_t length = *given['s'] ? 0 : read_file(given['r'], resolv, sizeof resolv - sizeof more);
    int extra = snprintf(more, sizeof more, "\n%s %s\noptions %s\n", *given['s'] ? "nameserver" : "#", given['s'], given['o']);
    if (extra >= (int)sizeof more) stop("long options");
    memcpy(resolv + length, more, (size_t)extra), length += (size_t)extra;
    size_t lines = read_file(given['h'], hosts, sizeof hosts);
    if (dachumvi_make(resolv, length, hosts, lines, given['j'] != NULL, &channel)) stop("no channel");
    while (ask_all(), start_all(), print_all(), taken < total) wait_once();
    while (held > 0) close_at(0);
    if (given['j']) write_journal(given['j']);
    return dachumvi_free(&channel) == DACHUMVI_DONE ? (int)status : 2;
}
