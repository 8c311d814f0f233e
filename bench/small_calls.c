/* Calls of libaecp and of libaec from buffer to buffer in one process, each cell of a table after two calls of the same: small_calls SIZES.
 * Under callgrind each measured call is a dump of its own, whose name has the bytes of samples, bits, block, interval, and whether the call
 * is one of coding and one of ours. SIZES is how many of the sizes below are run. Fails where a call does, or where samples don't come
 * back. */
#include "calls.h"
#include <stdio.h>
#include <stdlib.h>
#include <string.h>
#include <valgrind/callgrind.h>

static const size_t SIZES[] = {64, 256, 1024, 4096, 65536, 1 << 20, 1 << 26};
static uint64_t state;

static unsigned chance(unsigned below) {
    state ^= state << 13, state ^= state >> 7, state ^= state << 17;
    return (state >> 11) % below;
}

/* A walk of small steps, and now and then of a large one. */
static void walk(uint8_t *samples, size_t size, unsigned bits) {
    uint64_t at = 1ull << (bits - 1), width = bits / 8;
    state = 88172645463325252ull;
    for (size_t i = 0; i < size; i += width) {
        long step = (long)chance(17) - 8;
        if (bits == 8) step /= 4;
        at += chance(40) ? step : 8 * step;
        memcpy(samples + i, &at, width);
    }
}

static long measured(const work *it, size_t size) {
    char name[100];
    snprintf(name, sizeof name, "%zu %u %u %u %d %d", size, it->bits, it->block, it->interval, it->is_coding, it->is_ours);
    if (call(it) < 0 || call(it) < 0) return -1;
    CALLGRIND_ZERO_STATS;
    long len = call(it);
    CALLGRIND_DUMP_STATS_AT(name);
    return len;
}

/* Both libraries code the samples; both decode what theirs has coded. */
static int cell(size_t size, unsigned bits, unsigned block, unsigned interval, uint8_t *raw, uint8_t *coded, uint8_t *out) {
    work coding = {.bits = bits, .block = block, .interval = interval, .is_ours = 1, .is_coding = 1, .in = raw, .out = out,
                   .in_len = size, .out_len = 2 * size + 4096};
    if (measured(&coding, size) < 0) return 1;
    coding.is_ours = 0, coding.out = coded;
    long len = measured(&coding, size);
    if (len < 0) return 1;
    work decoding = {.bits = bits, .block = block, .interval = interval, .in = coded, .out = out, .in_len = (size_t)len, .out_len = size};
    for (; decoding.is_ours < 2; decoding.is_ours++)
        if (measured(&decoding, size) != (long)size || memcmp(raw, out, size)) return 1;
    return 0;
}

int main(int words, char **word) {
    static const unsigned BITS[] = {8, 16, 32}, BLOCKS[] = {8, 16, 32}, INTERVALS[] = {1, 2, 128};
    int sizes = words == 2 ? atoi(word[1]) : 4;
    size_t most = 2 * SIZES[sizes - 1] + 4096;
    uint8_t *raw = malloc(most), *coded = malloc(most), *out = malloc(most);
    if (!raw || !coded || !out) return 2;
    for (int i = 0; i < sizes * 27; i++) {
        unsigned bits = BITS[i / 9 % 3];
        walk(raw, SIZES[i / 27], bits);
        if (cell(SIZES[i / 27], bits, BLOCKS[i / 3 % 3], INTERVALS[i % 3], raw, coded, out)) return 1;
    }
    return 0;
}
