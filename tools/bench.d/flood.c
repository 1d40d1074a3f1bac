/* Clients that flood a server: tools/bench-server --floods compiles this, and measures what others get meanwhile. It is no part of
 * the product.
 *
 *     flood HOST:PORT KIND LINKS SECONDS
 *
 * It makes so many links, each with a context of device 0, whose rate is 44,100. When all are set up it writes the line `floods`.
 * Then each link sends requests of one kind as fast as they are taken, and takes all answers as they come. It makes no pause: it
 * waits only while the server neither takes nor gives. After so many seconds, or at SIGTERM, it writes a line and ends:
 *
 *     sent BYTES taken BYTES in SECONDS
 *
 * What it sent counts once it is answered, and NoOps at once. What the server had not read by then is gone with it. An answer that
 * does not belong to the kind ends it with status 1, and a link that ends or fails with status 2. The kinds:
 *
 *     records    Records of 16,000 bytes of lin16 that were captured a moment ago
 *     times      GetTimes
 *     lin16      the longest Plays of lin16, which end within the four seconds that a server keeps
 *     mu255      the same of mu-law
 *     noops      NoOps, which are not answered
 *     refused    Plays of no data in a context that is not there
 */
#define _GNU_SOURCE
#include <arpa/inet.h>
#include <errno.h>
#include <fcntl.h>
#include <netinet/in.h>
#include <netinet/tcp.h>
#include <poll.h>
#include <signal.h>
#include <stdbool.h>
#include <stdint.h>
#include <stdio.h>
#include <stdlib.h>
#include <string.h>
#include <sys/socket.h>
#include <time.h>
#include <unistd.h>

enum { MOST_LINKS = 32, BLOCK = 65536, ROOM = 1 << 20, PATIENCE_MILLIS = 100 };
enum { MU_LAW = 0, LIN16 = 2 };
enum { ERROR = 0, REPLY = 1 };
enum { NO_OP = 1, GET_TIME = 2, CREATE_AC = 3, PLAY = 6, RECORD = 7 };
/* what a Record asks for, what a Play has, both in bytes, and how far ahead of the device it is played, in frames */
enum { RECORDED = 16000, PLAYED = 16368, AHEAD = 2 * 44100 };

/* A kind of request: its size with its data, what answers it, and how much of it may be unanswered, in bytes. If Records were too
   many, they would be answered so late that their sound is kept no more; a NoOp is not answered, and so not counted. */
static const struct kind {
    const char *name;
    int opcode, type, size, answer;
    int64_t most_unanswered;
} kinds[] = {
    {"records", RECORD, LIN16, 16, REPLY, BLOCK},
    {"times", GET_TIME, LIN16, 4, REPLY, ROOM},
    {"lin16", PLAY, LIN16, 16 + PLAYED, REPLY, ROOM},
    {"mu255", PLAY, MU_LAW, 16 + PLAYED, REPLY, ROOM},
    {"noops", NO_OP, LIN16, 4, REPLY, INT64_MAX},
    {"refused", PLAY, LIN16, 16, ERROR, ROOM},
};

/* A message begins with 8 bytes, and each one that comes here has a word after these: the time of the device, in a reply. */
struct link {
    uint8_t block[BLOCK], head[12];
    size_t sent, held, skipped; /* of the block; of the head; what is still to come of a body */
    int64_t unanswered;
};

static const struct kind *kind;
static struct link links[MOST_LINKS];
static struct pollfd polled[MOST_LINKS];
static nfds_t count;
static uint32_t now; /* of the device, as it was told last */
static uint64_t sent, taken;
static uint8_t room[ROOM];
static volatile sig_atomic_t ended;

static void end(int signal)
{
    (void)signal;
    ended = 1;
}

static void fail(const char *what, int status)
{
    fprintf(stderr, "flood: %s\n", what);
    exit(status);
}

static double seconds(void)
{
    struct timespec read;
    clock_gettime(CLOCK_MONOTONIC, &read);
    return read.tv_sec + read.tv_nsec / 1e9;
}

static uint32_t word(const uint8_t *at) { return (uint32_t)at[0] << 24 | at[1] << 16 | at[2] << 8 | at[3]; }

static void put(uint8_t *at, uint32_t word)
{
    for (int n = 0; n < 4; n++)
        at[n] = (uint8_t)(word >> (24 - 8 * n));
}

/* Writes a request but for its data. Its first body word is a context. */
static void state(uint8_t *at, int opcode, int size, uint32_t context, uint32_t time, uint32_t bytes)
{
    put(at, (uint32_t)opcode << 24 | (uint32_t)size / 4);
    if (size >= 16) {
        put(at + 4, context);
        put(at + 8, time);
        put(at + 12, bytes);
    }
}

/* A block of requests, by the time of the device as it is known now. */
static void fill(struct link *link)
{
    bool records = kind->opcode == RECORD, refused = kind->answer == ERROR;
    /* a Record of what was captured in the last moment but one */
    uint32_t time = records ? now - RECORDED : now + AHEAD, bytes = records ? RECORDED : refused ? 0 : PLAYED;
    for (int at = 0; at + kind->size <= BLOCK; at += kind->size)
        state(link->block + at, kind->opcode, kind->size, refused ? 2 : 1, time, bytes);
}

static void give(struct link *link, int socket)
{
    if (link->sent == 0)
        fill(link);
    size_t whole = BLOCK / kind->size * kind->size;
    ssize_t got = send(socket, link->block + link->sent, whole - link->sent, MSG_NOSIGNAL);
    if (got < 0 && errno != EAGAIN)
        fail("a link fails", 2);
    if (got > 0) {
        link->sent = (link->sent + got) % whole;
        link->unanswered += got;
        sent += got;
    }
}

/* An answer has begun: all but its body's first word is still to come. */
static void answered(struct link *link)
{
    uint32_t words = word(link->head + 4);
    if (link->head[0] != kind->answer || kind->opcode == NO_OP || words == 0)
        fail("an answer of another kind", 1);
    if (kind->answer == REPLY)
        now = word(link->head + 8);
    link->held = 0;
    link->skipped = 4 * ((size_t)words - 1);
    link->unanswered -= kind->size;
}

static void take(struct link *link, int socket)
{
    ssize_t got = recv(socket, room, ROOM, 0);
    if (got == 0 || (got < 0 && errno != EAGAIN))
        fail("a link ends", 2);
    for (ssize_t at = 0; at < got;) {
        if (link->skipped > 0) {
            size_t passed = link->skipped < (size_t)(got - at) ? link->skipped : (size_t)(got - at);
            link->skipped -= passed;
            at += passed;
        } else {
            link->head[link->held++] = room[at++];
            if (link->held == sizeof link->head)
                answered(link);
        }
    }
    taken += got > 0 ? got : 0;
}

/* Takes so many bytes of a link that still waits for its answers. */
static const uint8_t *awaited(int socket, size_t bytes)
{
    if (recv(socket, room, bytes, MSG_WAITALL) != (ssize_t)bytes)
        fail("a link is not set up", 2);
    return room;
}

/* A link that is set up, has a context, and was told the time of the device. */
static int set_up(const struct sockaddr_in *address)
{
    int link = socket(AF_INET, SOCK_STREAM | SOCK_CLOEXEC, 0), one = 1;
    /* what the system still keeps of a flood is dropped as its link is closed */
    setsockopt(link, SOL_SOCKET, SO_LINGER, &(struct linger){1, 0}, sizeof(struct linger));
    setsockopt(link, IPPROTO_TCP, TCP_NODELAY, &one, sizeof one);
    if (connect(link, (const struct sockaddr *)address, sizeof *address))
        fail("a link is not made", 2);
    uint8_t asked[8 + 16 + 4] = "AFB\0\0\1";
    state(asked + 8, CREATE_AC, 16, 1, (uint32_t)kind->type << 24 | 1 << 16, 0);
    state(asked + 24, GET_TIME, 4, 0, 0, 0);
    if (send(link, asked, sizeof asked, MSG_NOSIGNAL) != (ssize_t)sizeof asked)
        fail("a link is not set up", 2);
    awaited(link, 4 * (size_t)word(awaited(link, 8) + 4));
    if (word(awaited(link, 8)) != (REPLY << 24 | CREATE_AC << 16 | 1))
        fail("a context is refused", 1);
    now = word(awaited(link, 12) + 8);
    fcntl(link, F_SETFL, O_NONBLOCK);
    return link;
}

static void flood(double until)
{
    while (!ended && seconds() < until) {
        for (nfds_t n = 0; n < count; n++)
            polled[n].events = POLLIN | (links[n].unanswered < kind->most_unanswered ? POLLOUT : 0);
        if (poll(polled, count, PATIENCE_MILLIS) <= 0)
            continue;
        for (nfds_t n = 0; n < count; n++) {
            if (polled[n].revents & ~POLLOUT)
                take(links + n, polled[n].fd);
            if (polled[n].revents & POLLOUT)
                give(links + n, polled[n].fd);
        }
    }
}

int main(int words, char **texts)
{
    char *port = words == 5 ? strchr(texts[1], ':') : NULL;
    for (const struct kind *each = kinds; port && each < kinds + sizeof kinds / sizeof *kinds; each++)
        if (strcmp(each->name, texts[2]) == 0)
            kind = each;
    if (!kind || (count = strtoul(texts[3], NULL, 10)) < 1 || count > MOST_LINKS)
        fail("flood HOST:PORT KIND LINKS SECONDS", 2);
    *port++ = 0;
    signal(SIGTERM, end);
    struct sockaddr_in address = {.sin_family = AF_INET, .sin_port = htons(atoi(port)), .sin_addr.s_addr = inet_addr(texts[1])};
    for (nfds_t n = 0; n < count; n++)
        polled[n].fd = set_up(&address);
    /* the data of plays is no silence, and stays as it is */
    for (nfds_t n = 0; n < count; n++)
        for (int at = 0; at < BLOCK; at++)
            links[n].block[at] = (uint8_t)(at * 31 + 7);
    puts("floods");
    fflush(stdout);
    double begun = seconds();
    flood(begun + strtod(texts[4], NULL));
    double took = seconds() - begun;
    for (nfds_t n = 0; n < count && kind->opcode != NO_OP; n++)
        sent -= links[n].unanswered;
    printf("sent %llu taken %llu in %.3f\n", (unsigned long long)sent, (unsigned long long)taken, took);
    return 0;
}
