/* What the least server of this protocol costs: tools/bench-server compiles it, and measures afd beside it. It is no part of the
 * product.
 *
 *     floor serve ADDRESS WAITS < CONFIGURATION
 *
 * It is called as afd is, and has silent devices of mu-law or lin16. It does setups, GetTime, CreateAC and Play, which is mixed into
 * a ring of four seconds and waits where it ends after it. What a device hands out is encoded, and gone. Whatever else a client
 * sends, or what is refused, closes its link. There are no records, gains, preemption, controls, events or telephone lines.
 */
#define _GNU_SOURCE
#include <arpa/inet.h>
#include <errno.h>
#include <netinet/in.h>
#include <netinet/tcp.h>
#include <stdbool.h>
#include <stdint.h>
#include <stdio.h>
#include <stdlib.h>
#include <string.h>
#include <sys/epoll.h>
#include <sys/socket.h>
#include <time.h>
#include <unistd.h>

enum { DEVICES = 8, LINKS = 32, CONTEXTS = 16, MOST_FRAMES = 4096, PAUSE_MILLIS = 10 };
enum { INPUT = 32768, OUTPUT = 4096, LONGEST_FRAME = 16384, LONGEST_REPLY = 112 };
enum { MU_LAW = 0, LIN16 = 2 };
enum { GET_TIME = 2, CREATE_AC = 3, PLAY = 6 };

struct device {
    int type;
    uint32_t rate, start, horizon;
    uint64_t gone_by; /* frames since the start */
    int16_t *ring;
};

struct context {
    bool used;
    uint32_t number;
    int type;
    struct device *device;
};

struct link {
    int socket;
    bool open, set_up, readable, ended, waits;
    uint16_t sequence;
    size_t held, said;
    struct context contexts[CONTEXTS];
    _Alignas(8) uint8_t input[INPUT];
    _Alignas(8) uint8_t output[OUTPUT];
};

static struct device devices[DEVICES];
static int device_count, epoll;
static struct link links[LINKS];
static int16_t levels[256];
_Alignas(16) uint8_t sound[2 * MOST_FRAMES]; /* what a device hands out; not static, so that the compiler lays it there */

static uint32_t word(const uint8_t *at) { return (uint32_t)at[0] << 24 | at[1] << 16 | at[2] << 8 | at[3]; }
static uint32_t half(const uint8_t *at) { return at[0] << 8 | at[1]; }
static uint32_t now(const struct device *device) { return device->start + (uint32_t)device->gone_by; }

static int16_t mu_law_level(int octet)
{
    int low = ~octet & 255, level = (((low & 15) * 8 + 132) << (low >> 4 & 7)) - 132;
    return low & 128 ? -level : level;
}

static uint8_t mu_law_octet(int level)
{
    int sign = level < 0 ? 128 : 0, size = level < 0 ? -level : level;
    size = (size > 32635 ? 32635 : size) + 132;
    int segment = 24 - __builtin_clz(size);
    return ~(sign | segment << 4 | (size >> (segment + 3) & 15));
}

/* One loop for each type, so that the compiler puts those of lin16 on lanes. Data stands at whole words. */
static void encode(const int16_t *from, size_t frames, int type)
{
    uint16_t *wide = (uint16_t *)sound;
    if (type == LIN16)
        for (size_t n = 0; n < frames; n++)
            wide[n] = htons(from[n]);
    else
        for (size_t n = 0; n < frames; n++)
            sound[n] = mu_law_octet(from[n]);
}

static int16_t sum(int one, int other)
{
    int both = one + other;
    return both > INT16_MAX ? INT16_MAX : both < INT16_MIN ? INT16_MIN : both;
}

static void mix(int16_t *restrict into, const uint8_t *restrict data, size_t frames, int type)
{
    const uint16_t *wide = (const uint16_t *)data;
    if (type == LIN16)
        for (size_t n = 0; n < frames; n++)
            into[n] = sum(into[n], (int16_t)ntohs(wide[n]));
    else
        for (size_t n = 0; n < frames; n++)
            into[n] = sum(into[n], levels[data[n]]);
}

/* Hands out what is due of a device. */
static void tick(struct device *device, uint64_t millis)
{
    uint64_t due = millis * device->rate / 1000;
    while (device->gone_by < due) {
        uint64_t at = device->gone_by % device->horizon, frames = due - device->gone_by;
        if (frames > MOST_FRAMES)
            frames = MOST_FRAMES;
        if (frames > device->horizon - at)
            frames = device->horizon - at;
        encode(device->ring + at, frames, device->type);
        memset(device->ring + at, 0, frames * sizeof *device->ring);
        device->gone_by += frames;
    }
}

static bool flush(struct link *link)
{
    size_t said = link->said;
    link->said = 0;
    return said == 0 || send(link->socket, link->output, said, MSG_NOSIGNAL) == (ssize_t)said;
}

/* Appends a reply: its head, and a body of so many words. */
static bool reply(struct link *link, int opcode, const uint32_t *body, uint32_t words)
{
    if (link->said + LONGEST_REPLY > OUTPUT && !flush(link))
        return false;
    uint32_t *at = (uint32_t *)(link->output + link->said);
    *at++ = htonl(1u << 24 | (uint32_t)opcode << 16 | link->sequence);
    *at++ = htonl(words);
    for (uint32_t n = 0; n < words; n++)
        *at++ = htonl(body[n]);
    link->said += 8 + 4 * words;
    return true;
}

static bool set_up(struct link *link)
{
    uint32_t body[2 + 3 * DEVICES] = {1 << 16, device_count}, *at = body + 2;
    for (const struct device *device = devices; device < devices + device_count; device++) {
        *at++ = (uint32_t)device->type << 24 | 1 << 16;
        *at++ = device->rate;
        *at++ = device->horizon;
    }
    link->set_up = true;
    return memcmp(link->input, "AFB\0\0\1", 6) == 0 && reply(link, 0, body, at - body);
}

static bool create(struct link *link, const uint8_t *frame)
{
    bool known = frame[1] < device_count && (frame[8] == MU_LAW || frame[8] == LIN16);
    bool served = known && frame[9] == 1 && frame[10] == 0 && word(frame + 12) == 0;
    struct context *place = NULL;
    for (struct context *context = link->contexts; context < link->contexts + CONTEXTS; context++) {
        if (!context->used && !place)
            place = context;
        served &= !context->used || context->number != word(frame + 4);
    }
    if (!served || !place)
        return false;
    *place = (struct context){true, word(frame + 4), frame[8], devices + frame[1]};
    return reply(link, CREATE_AC, NULL, 0);
}

static bool play(struct link *link, const uint8_t *frame, size_t size)
{
    struct context *context = link->contexts;
    while (context < link->contexts + CONTEXTS && !(context->used && context->number == word(frame + 4)))
        context++;
    uint32_t count = word(frame + 12), width;
    if (context == link->contexts + CONTEXTS || count > size - 16 || size - 16 - count > 3)
        return false;
    width = context->type == LIN16 ? 2 : 1;
    if (count % width)
        return false;
    struct device *device = context->device;
    int64_t from = (int32_t)(word(frame + 8) - now(device)), to = from + count / width;
    link->waits = count > 0 && to > device->horizon;
    if (link->waits)
        return true;
    for (int64_t ahead = from < 0 ? 0 : from; ahead < to;) {
        size_t at = (device->gone_by + ahead) % device->horizon, frames = to - ahead;
        if (frames > device->horizon - at)
            frames = device->horizon - at;
        mix(device->ring + at, frame + 16 + (ahead - from) * width, frames, context->type);
        ahead += frames;
    }
    uint32_t time = now(device);
    return frame[1] & 1 || reply(link, PLAY, &time, 1);
}

/* Performs one request. False: the link is to be closed. */
static bool perform(struct link *link, const uint8_t *frame, size_t size)
{
    if (frame[0] == PLAY && size >= 16)
        return play(link, frame, size);
    if (frame[0] == CREATE_AC && size == 16)
        return create(link, frame);
    if (frame[0] != GET_TIME || size != 4 || frame[1] >= device_count)
        return false;
    uint32_t time = now(devices + frame[1]);
    return reply(link, GET_TIME, &time, 1);
}

/* Performs what stands whole in the input, until one request waits. */
static bool perform_all(struct link *link)
{
    size_t done = 0;
    link->waits = false;
    while (link->held - done >= (link->set_up ? 4 : 8)) {
        const uint8_t *frame = link->input + done;
        size_t size = 8;
        if (link->set_up) {
            size = 4 * half(frame + 2);
            if (size == 0 || size > LONGEST_FRAME)
                return false;
            if (link->held - done < size)
                break;
            link->sequence++;
            if (!perform(link, frame, size))
                return false;
            if (link->waits) {
                link->sequence--;
                break;
            }
        } else if (!set_up(link)) {
            return false;
        }
        done += size;
    }
    link->held -= done;
    memmove(link->input, link->input + done, link->held);
    return flush(link);
}

static bool serve(struct link *link)
{
    if (!perform_all(link))
        return false;
    while (link->readable && !link->waits) {
        size_t room = INPUT - link->held;
        ssize_t got = recv(link->socket, link->input + link->held, room, 0);
        if (got == 0 || (got < 0 && errno != EAGAIN))
            return false;
        /* if there were fewer than there was room for, no more are there, but perhaps the end */
        link->readable = got == (ssize_t)room || (got > 0 && link->ended);
        link->held += got > 0 ? got : 0;
        if (!perform_all(link))
            return false;
    }
    return true;
}

static void serve_or_close(struct link *link)
{
    if (!serve(link)) {
        close(link->socket);
        link->open = false;
    }
}

static void take_links(int listener)
{
    int socket, one = 1;
    while ((socket = accept4(listener, NULL, NULL, SOCK_NONBLOCK | SOCK_CLOEXEC)) >= 0) {
        struct link *link = links;
        while (link < links + LINKS && link->open)
            link++;
        if (link == links + LINKS) {
            close(socket);
            continue;
        }
        link->socket = socket;
        link->open = true;
        link->set_up = link->readable = link->ended = link->waits = false;
        link->sequence = link->held = link->said = 0;
        memset(link->contexts, 0, sizeof link->contexts);
        setsockopt(socket, IPPROTO_TCP, TCP_NODELAY, &one, sizeof one);
        epoll_ctl(epoll, EPOLL_CTL_ADD, socket, &(struct epoll_event){EPOLLIN | EPOLLRDHUP | EPOLLET, {.ptr = link}});
    }
}

static uint64_t milliseconds(void)
{
    struct timespec read;
    clock_gettime(CLOCK_MONOTONIC, &read);
    return (uint64_t)read.tv_sec * 1000 + read.tv_nsec / 1000000;
}

static void run(int listener, uint64_t waits)
{
    uint64_t begun = milliseconds();
    for (; waits > 0; waits--) {
        struct epoll_event events[LINKS + 1];
        int count = epoll_wait(epoll, events, LINKS + 1, PAUSE_MILLIS);
        uint64_t passed = milliseconds() - begun;
        for (struct device *device = devices; device < devices + device_count; device++)
            tick(device, passed);
        for (struct link *link = links; link < links + LINKS; link++)
            if (link->open && link->waits)
                serve_or_close(link);
        for (int n = 0; n < count; n++) {
            struct link *link = events[n].data.ptr;
            if (!link) {
                take_links(listener);
            } else if (link->open) {
                link->readable = true;
                link->ended |= (events[n].events & EPOLLRDHUP) != 0;
                if (!link->waits)
                    serve_or_close(link);
            }
        }
    }
}

static void attach(void)
{
    char type[8];
    uint32_t rate, start;
    while (device_count < DEVICES && scanf(" device %7s %u %u silent", type, &rate, &start) == 3) {
        int16_t *ring = calloc(4 * rate, sizeof *ring);
        if (!ring)
            exit(7);
        devices[device_count++] = (struct device){strcmp(type, "mu255") ? LIN16 : MU_LAW, rate, start, 4 * rate, 0, ring};
    }
}

int main(int count, char **words)
{
    char *port = count == 4 ? strchr(words[2], ':') : NULL;
    if (!port)
        return 2;
    *port++ = 0;
    for (int octet = 0; octet < 256; octet++)
        levels[octet] = mu_law_level(octet);
    struct sockaddr_in address = {.sin_family = AF_INET, .sin_port = htons(atoi(port)), .sin_addr.s_addr = inet_addr(words[2])};
    int one = 1, listener = socket(AF_INET, SOCK_STREAM | SOCK_NONBLOCK | SOCK_CLOEXEC, 0);
    setsockopt(listener, SOL_SOCKET, SO_REUSEADDR, &one, sizeof one);
    epoll = epoll_create1(EPOLL_CLOEXEC);
    attach();
    if (bind(listener, (struct sockaddr *)&address, sizeof address) || listen(listener, 1024))
        return 8;
    epoll_ctl(epoll, EPOLL_CTL_ADD, listener, &(struct epoll_event){EPOLLIN, {.ptr = NULL}});
    run(listener, strtoull(words[3], NULL, 10));
    return 11;
}
