/* Compares aec_buffer_encode and aec_buffer_decode as examples/preload/ does them with libaec's own, call by call. tests/preload.py builds
 * this program, and runs it with the library preloaded:
 *
 *     preload_calls cases SEED CASES      random parameters, samples, rooms, and damaged streams
 *     preload_calls threads SEED CASES    the same in eight threads at once, CASES in each
 *     preload_calls memory SEED CASES     long samples and streams, with so little memory that libaecp must refuse
 *
 * Each buffer ends where a page without access begins. Prints the checks that fail and, last, how
 * many passed, and how many streams the library was asked to decode. Ends with status 1 if one
 * failed. */
#include "preload_calls.h"
#include <pthread.h>
#include <sys/resource.h>

enum { THREADS = 8 };

/* Draws parameters, with the call's bad ones among them if asked. */
static void draw_parameters(struct aec_stream *s, bool with_bad) {
    memset(s, 0, sizeof *s);
    s->bits_per_sample = one_in(3) ? ONE_OF(8, 12, 16, 24, 32) : 1 + below(32);
    s->block_size = ONE_OF(8, 16, 32, 64, 8, 16, 32, 64, 10, 22, 62, 2, 4, 6);
    s->rsi = ONE_OF(1, 2, 3, 5, 16, 63, 64, 65, 128, 200, 4096);
    s->flags = below(32) | (one_in(4) ? 0 : AEC_DATA_PREPROCESS);
    if (s->bits_per_sample > 4 && !one_in(20)) s->flags &= ~AEC_RESTRICTED;
    if (one_in(40)) s->flags |= AEC_PAD_RSI;
    bool is_standard = s->block_size == 8 || s->block_size == 16 || s->block_size == 32 || s->block_size == 64;
    if (!is_standard ? !one_in(10) : one_in(4)) s->flags |= AEC_NOT_ENFORCE;
    if (!with_bad) return;
    if (one_in(60)) s->bits_per_sample = ONE_OF(0, 33, 4000000000);
    if (one_in(60)) s->block_size = ONE_OF(1, 7, 9, 66, 128);
    if (one_in(60)) s->rsi = ONE_OF(4097, 5000, 70000);
    if (one_in(60)) s->flags |= 128;
}

/* Decodes both streams by libaec into `room` bytes, and compares what comes out. */
static void compare_streams(const struct aec_stream *made, struct ends *at, size_t room) {
    struct aec_stream s[2] = {made[0], made[1]};
    int status[2];
    for (int k = 0; k < 2; k++) {
        memset(at->outs[k] - room, 0xA5, room);
        unsigned char *stream = at->streams[k] - SIZE;
        status[k] = call(libaec_decode, &s[k], stream, made[k].total_out, at->outs[k] - room, room);
    }
    holds(status[0] == status[1], "encode: status of decoding the two streams", made);
    holds(s[0].total_out == s[1].total_out, "encode: length of the two streams' samples", made);
    holds(memcmp(at->outs[0] - room, at->outs[1] - room, room) == 0, "encode: samples of the two streams", made);
}

/* Codes samples by both. Returns the length of libaec's stream, or 0. Keeps it in `stream`. */
static void try_encode(struct aec_stream *parameters, struct ends *at, size_t count, size_t more) {
    size_t width = width_of(parameters), len = count * width + more;
    unsigned char *samples = at->samples - len;
    /* With little room, libaec 1.0.6 writes outside its buffer for unfit samples and for the longest blocks. */
    bool is_roomy = !one_in(4) || parameters->bits_per_sample * parameters->block_size > 1900;
    draw_samples(parameters, samples, count, is_roomy);
    for (size_t k = 0; k < more; k++) samples[count * width + k] = below(256);
    struct aec_stream s[2] = {*parameters, *parameters};
    buffer_call *calls[2] = {aec_buffer_encode, libaec_encode};
    size_t room = SIZE;
    if (!is_roomy) { /* about the length that is needed */
        struct aec_stream tried = *parameters;
        call(libaec_encode, &tried, samples, len, at->streams[1] - SIZE, SIZE);
        size_t needed = tried.total_out <= SIZE ? tried.total_out : 0;
        room = one_in(3) ? below(needed + 1) : needed + (one_in(2) ? 0 : below(4)) - (needed > 3 && one_in(2) ? below(4) : 0);
    }
    int status[2];
    for (int k = 0; k < 2; k++) status[k] = call(calls[k], &s[k], samples, len, at->streams[k] - SIZE, room);
    bool is_better = status[1] == AEC_STREAM_ERROR && status[0] == AEC_OK && s[0].total_out <= room;
    if (!holds(status[0] == status[1] || is_better, "encode: status", parameters)) return;
    if (is_better) { /* a shorter stream than libaec's fits */
        status[1] = call(libaec_encode, &s[1], samples, len, at->streams[1] - SIZE, SIZE);
        holds(status[1] == AEC_OK && s[0].total_out < s[1].total_out, "encode: a stream that fits is shorter", parameters);
    }
    if (status[0] != AEC_OK) {
        holds(!memcmp(&s[0], &s[1], offsetof(struct aec_stream, next_out)), "encode, refused: input", parameters);
        holds(s[0].total_out == s[1].total_out && s[0].avail_out == s[1].avail_out, "encode, refused: output", parameters);
        return;
    }
    holds(!memcmp(&s[0], &s[1], offsetof(struct aec_stream, next_out)), "encode: input", parameters);
    holds(s[0].total_out <= s[1].total_out, "encode: a stream longer than libaec's", parameters);
    ptrdiff_t after[2];
    for (int k = 0; k < 2; k++) after[k] = s[k].next_out - (at->streams[k] - SIZE) - (ptrdiff_t)s[k].total_out;
    holds(after[0] == after[1], "encode: next_out", parameters);
    holds(s[0].avail_out + s[0].total_out == room, "encode: avail_out", parameters);
    compare_streams(s, at, count * width);
}

/* Damages a stream of `len` bytes, with room for more after it. Returns its new length. */
static size_t damage(unsigned char *at, size_t len, size_t most) {
    size_t kind = below(24); /* from 11 on sound */
    if (kind == 0 && len) len = below(len + 1);
    if (kind == 1 && len) len -= 1;
    if (kind == 2 || kind == 3)
        for (size_t k = below(5) + 1; k && len; k--) at[below(len)] ^= 1 << below(8);
    if (kind == 4 && len) at[len - 1] = 0;
    if (kind == 5 && len) {
        size_t first = below(len), part = below(len - first) + 1;
        memset(at + first, one_in(3) ? 0xFF : 0, part);
    }
    if (kind == 6 || kind == 7)
        for (size_t more = 1 + below(one_in(4) ? 300 : 9); more && len < most; more--) at[len++] = kind == 6 ? 0 : below(256);
    if (kind == 8 && len) at[len - 1] |= below(1 << (1 + below(7)));
    if (kind == 9) {
        len = below(600);
        for (size_t i = 0; i < len; i++) at[i] = below(256);
    }
    if (kind == 10) {
        len = below(600);
        for (size_t i = 0; i < len; i++) at[i] = one_in(6) ? 1 << below(8) : 0;
    }
    return len;
}

/* Decodes a stream that may be damaged by both. */
static void try_decode(struct aec_stream *parameters, struct ends *at, size_t count) {
    size_t width = width_of(parameters), stream_len = 0;
    draw_samples(parameters, at->samples - count * width, count, true);
    unsigned char *work = at->stream - SIZE;
    struct aec_stream made = *parameters;
    made.flags &= ~AEC_PAD_RSI;
    if (call(one_in(2) ? aec_buffer_encode : libaec_encode, &made, at->samples - count * width, count * width, work, SIZE) == AEC_OK)
        stream_len = made.total_out;
    stream_len = damage(work, stream_len, SIZE);
    unsigned char *stream = at->stream - stream_len; /* so that it ends at the page without access */
    memmove(stream, work, stream_len);
    size_t room = count * width;
    if (one_in(4)) room = one_in(3) ? below(room + 40) : room + (one_in(2) ? below(5) : width * below(parameters->block_size));
    compare_decoded(parameters, at, stream, stream_len, room, false);
}

/* Decodes a stream with a pair whose sum is 13: 91 zero bits before a 1. libaec rejects it, libaecp doesn't. */
static void try_long_pair(struct ends *at) {
    struct aec_stream s = {.bits_per_sample = 8, .block_size = 64, .rsi = 1};
    unsigned char *stream = at->stream - 16; /* 000, 1, the pair, 31 pairs of zeros, a filler bit */
    memset(stream, 0, 12);
    memset(stream + 12, 0xFF, 4);
    stream[0] = 0x10;
    stream[11] = 1;
    stream[15] = 0xFE;
    compare_decoded(&s, at, stream, 16, 64, true);
}

/* Decodes a block that is longer than without compression: k = 1, eight times 28 zeros and a 1,
 * eight low bits. At the end of a stream libaec rejects it, libaecp doesn't. */
static void try_long_block(struct ends *at) {
    struct aec_stream s = {.bits_per_sample = 8, .block_size = 8, .rsi = 1};
    unsigned char *stream = at->stream - 31;
    memset(stream, 0, 31);
    stream[0] = 2 << 5;
    for (size_t bit = 2 + 29; bit <= 2 + 8 * 29; bit += 29) stream[bit / 8] |= 0x80 >> bit % 8;
    compare_decoded(&s, at, stream, 31, 8, true);
}

static void try_case(struct ends *at) {
    struct aec_stream parameters;
    if (case_now == 0) try_long_pair(at);
    if (case_now == 0) try_long_block(at);
    size_t count = one_in(10) ? below(20) : below(SAMPLES);
    draw_parameters(&parameters, true);
    if (one_in(3)) count -= count % (parameters.block_size ? parameters.block_size : 1);
    try_encode(&parameters, at, count, one_in(15) ? below(width_of(&parameters)) : 0);
    draw_parameters(&parameters, false);
    size_t interval = (size_t)parameters.block_size * parameters.rsi;
    size_t whole = one_in(2) && interval <= count ? interval : parameters.block_size;
    try_decode(&parameters, at, one_in(4) ? count : count - count % whole);
}

static void try_threads(unsigned long seed, unsigned long cases) {
    pthread_t threads[THREADS];
    struct part parts[THREADS];
    for (int k = 0; k < THREADS; k++) {
        parts[k] = (struct part){try_case, seed + k, cases};
        if (pthread_create(&threads[k], NULL, try_part, &parts[k])) exit(2);
    }
    for (int k = 0; k < THREADS; k++) pthread_join(threads[k], NULL);
}

/* Codes and decodes 32 MiB of random samples: first with all memory, then when only 4 MiB more than now may be allocated. So the second
 * time libaecp must refuse, and libaec be called. */
static void try_memory(void) {
    const size_t len = 32u << 20, room = len + (len >> 3);
    unsigned char *samples = guarded(len) - len, *stream = guarded(room) - room, *back = guarded(len) - len;
    for (size_t i = 0; i < len; i++) samples[i] = below(64);
    struct aec_stream s = {.bits_per_sample = 8, .block_size = 16, .rsi = 128, .flags = AEC_DATA_PREPROCESS};
    for (int with_limit = 0; with_limit < 2; with_limit++) {
        memset(stream, 1, room);
        memset(back, 1, len);
        unsigned long pages = 0;
        FILE *file = fopen("/proc/self/statm", "r");
        if (!file || fscanf(file, "%lu", &pages) != 1) exit(2);
        fclose(file);
        struct rlimit limit = {pages * PAGE + (4u << 20), RLIM_INFINITY};
        if (with_limit && setrlimit(RLIMIT_AS, &limit)) exit(2);
        holds(call(aec_buffer_encode, &s, samples, len, stream, room) == AEC_OK, "memory: encode", &s);
        size_t stream_len = s.total_out;
        holds(call(aec_buffer_decode, &s, stream, stream_len, back, len) == AEC_OK, "memory: decode", &s);
        holds(memcmp(samples, back, len) == 0, "memory: samples", &s);
    }
}

int main(int argc, char **argv) {
    struct part all = prepare(argc, argv);
    all.work = try_case;
    if (strcmp(argv[1], "threads") == 0)
        try_threads(all.seed, all.cases);
    else if (strcmp(argv[1], "memory") == 0)
        try_memory();
    else
        try_part(&all);
    return end();
}
