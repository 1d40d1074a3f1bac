/* What C makes of the work on samples, for tools/bench to set beside ours: decoding and encoding by G.711, a gain, a sum and
   big-endian samples, on blocks that stay in the first cache. It is no part of the product.

   samples WORK BLOCK ROUNDS: does one work on a block of so many samples, so many times. */
#include <stdint.h>
#include <stdio.h>
#include <stdlib.h>
#include <string.h>

enum { MOST = 4096 };

static int16_t decoded[256], samples[MOST], others[MOST];
static uint8_t codes[MOST], bytes[2 * MOST];

/* The sample of a mu-law byte, by which the table is filled. */
static int16_t expanded(uint8_t byte)
{
    uint8_t code = (uint8_t)~byte;
    int magnitude = (((code & 15) * 8 + 132) << (code >> 4 & 7)) - 132;
    return (int16_t)(code & 0x80 ? -magnitude : magnitude);
}

__attribute__((noinline)) static void decode(const uint8_t *restrict in, int16_t *restrict out, size_t n)
{
    for (size_t i = 0; i < n; i++)
        out[i] = decoded[in[i]];
}

/* Without a branch and without a table: the segment is the place of the highest bit. */
__attribute__((noinline)) static void encode(const int16_t *restrict in, uint8_t *restrict out, size_t n)
{
    for (size_t i = 0; i < n; i++) {
        int sign = in[i] >> 15;
        int magnitude = (in[i] ^ sign) - sign;
        int biased = (magnitude > 32635 ? 32635 : magnitude) + 132;
        int segment = 24 - __builtin_clz((unsigned)biased);
        out[i] = (uint8_t)~((sign & 0x80) | segment << 4 | (biased >> (segment + 3) & 15));
    }
}

__attribute__((noinline)) static void gain(int16_t *run, size_t n, int16_t multiplier)
{
    for (size_t i = 0; i < n; i++) {
        int scaled = run[i] * multiplier / 1024;
        run[i] = (int16_t)(scaled < -32768 ? -32768 : scaled > 32767 ? 32767 : scaled);
    }
}

__attribute__((noinline)) static void mix(int16_t *restrict onto, const int16_t *restrict from, size_t n)
{
    for (size_t i = 0; i < n; i++) {
        int sum = onto[i] + from[i];
        onto[i] = (int16_t)(sum < -32768 ? -32768 : sum > 32767 ? 32767 : sum);
    }
}

__attribute__((noinline)) static void swap_in(const uint8_t *restrict in, int16_t *restrict out, size_t n)
{
    for (size_t i = 0; i < n; i++)
        out[i] = (int16_t)(in[2 * i] << 8 | in[2 * i + 1]);
}

__attribute__((noinline)) static void swap_out(const int16_t *restrict in, uint8_t *restrict out, size_t n)
{
    for (size_t i = 0; i < n; i++) {
        out[2 * i] = (uint8_t)(in[i] >> 8);
        out[2 * i + 1] = (uint8_t)in[i];
    }
}

static int is(const char *word, const char *other)
{
    return strcmp(word, other) == 0;
}

static int work(const char *kind, size_t n, unsigned long rounds)
{
    if (is(kind, "decode"))
        while (rounds-- > 0)
            decode(codes, samples, n);
    else if (is(kind, "encode"))
        while (rounds-- > 0)
            encode(samples, codes, n);
    else if (is(kind, "gain"))
        while (rounds-- > 0)
            gain(samples, n, 2043);
    else if (is(kind, "mix"))
        while (rounds-- > 0)
            mix(samples, others, n);
    else if (is(kind, "swap_in"))
        while (rounds-- > 0)
            swap_in(bytes, samples, n);
    else if (is(kind, "swap_out"))
        while (rounds-- > 0)
            swap_out(samples, bytes, n);
    else
        return 0;
    return 1;
}

int main(int count, char **words)
{
    if (count != 4)
        return 2;
    size_t n = strtoul(words[2], NULL, 10);
    if (n > MOST)
        return 2;
    for (int i = 0; i < 256; i++)
        decoded[i] = expanded((uint8_t)i);
    for (size_t i = 0; i < n; i++) {
        samples[i] = (int16_t)(i * 7919);
        others[i] = (int16_t)(i * 104729);
        codes[i] = (uint8_t)(i * 31);
    }
    if (!work(words[1], n, strtoul(words[3], NULL, 10)))
        return 2;
    printf("%d\n", samples[n / 2] + codes[n / 2] + bytes[n / 2]);
    return 0;
}
