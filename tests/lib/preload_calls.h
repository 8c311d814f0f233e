/* What preload_calls.c and preload_ends.c share: the count of checks, chance, buffers, samples, and
 * the comparison of a decoding call with libaec's own. */
#define _GNU_SOURCE
#include <dlfcn.h>
#include <libaec.h>
#include <stdatomic.h>
#include <stdbool.h>
#include <stdint.h>
#include <stdio.h>
#include <stdlib.h>
#include <string.h>
#include <sys/mman.h>

enum { SAMPLES = 9000, SIZE = 1 << 18, PAGE = 4096, SHOWN = 20 };

typedef int buffer_call(struct aec_stream *);
static buffer_call *libaec_encode, *libaec_decode;
static atomic_ulong passed, failed, decoded;

/* The case that a thread works on, for messages. */
static _Thread_local unsigned long seed_now, case_now;
static _Thread_local uint64_t chance_state;

/* Counts a check, and prints it if it fails. */
static bool holds(bool is_so, const char *what, const struct aec_stream *s) {
    if (is_so) {
        passed++;
    } else if (failed++ < SHOWN) {
        printf("FAILED: seed %lu, case %lu: %s (bits %u, block size %u, interval %u, flags %u)\n", seed_now, case_now, what,
               s->bits_per_sample, s->block_size, s->rsi, s->flags);
    }
    return is_so;
}

/* Returns a number below `most`. */
static uint64_t below(uint64_t most) {
    chance_state += 0x9E3779B97F4A7C15u;
    uint64_t z = chance_state;
    z = (z ^ z >> 30) * 0xBF58476D1CE4E5B9u;
    z = (z ^ z >> 27) * 0x94D049BB133111EBu;
    return (z ^ z >> 31) % most;
}

static bool one_in(unsigned n) { return below(n) == 0; }

static unsigned one_of(const unsigned *list, size_t len) { return list[below(len)]; }
#define ONE_OF(...) one_of((const unsigned[]){__VA_ARGS__}, sizeof((const unsigned[]){__VA_ARGS__}) / sizeof(unsigned))

/* Returns the end of a buffer of `size` bytes. The page after it has no access. */
static unsigned char *guarded(size_t size) {
    size_t whole = (size + PAGE - 1) / PAGE * PAGE;
    unsigned char *at = mmap(NULL, whole + PAGE, PROT_READ | PROT_WRITE, MAP_PRIVATE | MAP_ANONYMOUS, -1, 0);
    if (at == MAP_FAILED || mprotect(at + whole, PAGE, PROT_NONE)) {
        puts("0 passed, 1 failed: no memory for the buffers");
        exit(1);
    }
    return at + whole;
}

/* The ends of a thread's buffers: of the samples, of two streams and of two outputs. */
struct ends {
    unsigned char *samples, *stream, *streams[2], *outs[2];
};

static size_t width_of(const struct aec_stream *s) {
    if (s->bits_per_sample <= 8) return 1;
    if (s->bits_per_sample <= 16) return 2;
    return s->bits_per_sample <= 24 && s->flags & AEC_DATA_3BYTE ? 3 : 4;
}

/* Writes samples of a kind that is drawn. If `with_unfit`, some are above the width or have copies of the sign in the unused bits. */
static void draw_samples(const struct aec_stream *s, unsigned char *at, size_t count, bool with_unfit) {
    unsigned bits = s->bits_per_sample >= 1 && s->bits_per_sample <= 32 ? s->bits_per_sample : 16;
    size_t width = width_of(s), kind = below(7), step = 1 + below(9);
    uint64_t mask = (UINT64_C(1) << bits) - 1, x = below(mask + 1);
    bool with_sign = with_unfit && s->flags & AEC_DATA_SIGNED && one_in(3), with_wide = with_unfit && one_in(12);
    for (size_t i = 0; i < count; i++) {
        if (kind == 0) x = 0;
        if (kind == 1) x = below(mask + 1);
        if (kind == 2) x = (x + below(2 * step + 1) - step) & mask;
        if (kind == 3 && one_in(500)) x = below(mask + 1);
        if (kind == 4) x = one_in(30) ? below(mask + 1) : 0;
        if (kind == 5) x = below(3) & mask;
        if (kind == 6) x = i / 300 % 2 ? 0 : below(mask + 1) & mask >> i / 40 % 30;
        uint64_t stored = x;
        if (with_sign && x >> (bits - 1)) stored |= ~mask;
        if (with_wide && one_in(50)) stored = below(UINT64_C(1) << 32);
        for (size_t k = 0; k < width; k++) at[i * width + (s->flags & AEC_DATA_MSB ? width - 1 - k : k)] = stored >> 8 * k;
    }
}

/* Calls once, with these buffers. */
static int call(buffer_call *it, struct aec_stream *s, unsigned char *in, size_t in_len, unsigned char *out, size_t out_len) {
    s->next_in = in;
    s->avail_in = in_len;
    s->next_out = out;
    s->avail_out = out_len;
    s->total_in = s->total_out = 77;
    return it(s);
}

/* Returns whether both calls say that as much was read of a stream of `len` bytes. If libaec
 * decodes a part of a block, the library may say that all was read. */
static bool is_read_alike(const struct aec_stream *s, unsigned char *stream, size_t len,
                          bool is_part) {
    bool is_all = s[0].next_in == stream + len && s[0].avail_in == 0 && s[0].total_in == len;
    return (is_part && is_all) || !memcmp(&s[0], &s[1], offsetof(struct aec_stream, next_out));
}

/* Decodes a stream by both into `room` bytes. Compares all that the calls return, and the whole
 * rooms. If the stream `is_other` than a coder's, the library may not say that it read more of it
 * than libaec. */
static void compare_decoded(const struct aec_stream *parameters, struct ends *at,
                            unsigned char *stream, size_t stream_len, size_t room, bool is_other) {
    struct aec_stream s[2] = {*parameters, *parameters};
    buffer_call *calls[2] = {aec_buffer_decode, libaec_decode};
    int status[2];
    for (int k = 0; k < 2; k++) {
        memset(at->outs[k] - room, 0xA5, room);
        status[k] = call(calls[k], &s[k], stream, stream_len, at->outs[k] - room, room);
    }
    decoded++;
    bool is_part = status[1] == AEC_OK && room % (width_of(parameters) * parameters->block_size);
    holds(status[0] == status[1], "decode: status", parameters);
    holds(is_read_alike(s, stream, stream_len, is_part && !is_other), "decode: input", parameters);
    holds(s[0].total_out == s[1].total_out, "decode: total_out", parameters);
    holds(s[0].avail_out == s[1].avail_out, "decode: avail_out", parameters);
    bool is_place = at->outs[0] - s[0].next_out == at->outs[1] - s[1].next_out;
    holds(is_place, "decode: next_out", parameters);
    holds(memcmp(at->outs[0] - room, at->outs[1] - room, room) == 0, "decode: samples", parameters);
}

/* What a thread does: `work` for each case. */
struct part {
    void (*work)(struct ends *);
    unsigned long seed, cases;
};

static void *try_part(void *given) {
    const struct part *part = given;
    struct ends at = {guarded(SIZE), guarded(SIZE), {guarded(SIZE), guarded(SIZE)}, {guarded(SIZE), guarded(SIZE)}};
    seed_now = part->seed;
    for (case_now = 0; case_now < part->cases; case_now++) {
        chance_state = part->seed << 32 ^ case_now;
        part->work(&at);
    }
    return NULL;
}

/* Finds libaec's own calls, and fills in the seed and the number of cases. Ends the program if the
 * library isn't preloaded. */
static struct part prepare(int argc, char **argv) {
    void *libaec = dlopen("libaec.so.0", RTLD_NOW);
    if (argc != 4 || !libaec) exit(2);
    *(void **)&libaec_encode = dlsym(libaec, "aec_buffer_encode");
    *(void **)&libaec_decode = dlsym(libaec, "aec_buffer_decode");
    if (!libaec_encode || !libaec_decode) exit(2);
    if (libaec_encode == aec_buffer_encode || libaec_decode == aec_buffer_decode) {
        puts("0 passed, 1 failed: the library isn't preloaded");
        exit(1);
    }
    return (struct part){NULL, strtoul(argv[2], NULL, 10), strtoul(argv[3], NULL, 10)};
}

/* Prints the counts. Returns the status of the program. */
static int end(void) {
    printf("%lu passed, %lu failed, %lu decoded\n", passed, failed, decoded);
    return failed ? 1 : 0;
}
