/* Compares aec_buffer_decode as examples/preload/ does it with libaec's own, for streams of any
 * number of samples, and for what can be wrong at their ends. tests/preload.py builds this program,
 * and runs it with the library preloaded:
 *
 *     preload_ends whole SEED CASES      sound streams: the library must take each
 *     preload_ends cut SEED CASES        cut streams, and streams that other bits follow: it must
 *                                        pass on each
 *     preload_ends damaged SEED CASES    streams with each of their last bits changed; less room
 *
 * Prints the checks that fail and, last, how many passed, and how many streams the library was
 * asked to decode. Ends with status 1 if one failed. */
#include "preload_calls.h"

/* Draws parameters that libaecp has, and a number of samples near that of whole blocks, segments or
 * intervals. Codes these samples by one of both, and moves the stream to the end of its buffer.
 * Returns its length. */
static size_t draw_stream(struct aec_stream *s, struct ends *at, size_t *count) {
    memset(s, 0, sizeof *s);
    s->bits_per_sample = one_in(3) ? 1 + below(32) : ONE_OF(8, 16, 24, 32);
    s->block_size = one_in(3) ? 8 + 2 * below(29) : ONE_OF(8, 16, 32, 64);
    s->rsi = ONE_OF(1, 2, 3, 5, 64, 65, 128, 130, 4096);
    s->flags = AEC_NOT_ENFORCE | below(8);
    s->flags = one_in(4) ? s->flags & ~AEC_DATA_SIGNED : s->flags | AEC_DATA_PREPROCESS;
    if (s->bits_per_sample <= 4 && one_in(2)) s->flags |= AEC_RESTRICTED;
    size_t unit = s->block_size * ONE_OF(1, 9, 64, s->rsi);
    *count = unit * below(4) + ONE_OF(0, 1, s->block_size / 2, s->block_size - 1);
    if (*count > SAMPLES) *count = SAMPLES - below(100);
    if (*count == 0) *count = 1;
    size_t len = *count * width_of(s);
    draw_samples(s, at->samples - len, *count, false);
    struct aec_stream made = *s;
    buffer_call *coder = one_in(2) ? aec_buffer_encode : libaec_encode;
    int status = call(coder, &made, at->samples - len, len, at->streams[0] - SIZE, SIZE);
    holds(status == AEC_OK, "encode, to decode", s);
    memcpy(at->stream - made.total_out, at->streams[0] - SIZE, made.total_out);
    return made.total_out;
}

/* Decodes 63 samples of 2 bits, in a block of 31 pairs with the number 3 and one with the number 0.
 * So many bits are enough for a pair whose number is above 90, which libaec rejects. */
static void try_pairs(struct ends *at) {
    struct aec_stream s = {.bits_per_sample = 2, .block_size = 64, .rsi = 1};
    unsigned char *stream = at->stream - 17;
    memset(stream, 0x11, 16);
    stream[16] = 0x80;
    compare_decoded(&s, at, stream, 17, 63, false);
}

/* Decodes a sound stream. */
static void try_whole(struct ends *at) {
    struct aec_stream s;
    if (case_now == 0) try_pairs(at);
    size_t count, len = draw_stream(&s, at, &count), room = count * width_of(&s);
    compare_decoded(&s, at, at->stream - len, len, room, false);
}

/* Decodes seven of the samples 0 to 7, which have 31 bits, followed by a bit 1. */
static void try_last_bit(struct ends *at) {
    struct aec_stream s = {.bits_per_sample = 8, .block_size = 8, .rsi = 2};
    s.flags = AEC_DATA_PREPROCESS;
    memcpy(at->stream - 4, (const unsigned char[]){0x20, 0x09, 0x24, 0x93}, 4);
    compare_decoded(&s, at, at->stream - 4, 4, 7, true);
}

/* Decodes a stream without its last bytes; with one or more zero or other bytes after it; twice in
 * a row. */
static void try_cut(struct ends *at) {
    struct aec_stream s;
    if (case_now == 0) try_last_bit(at);
    size_t count, len = draw_stream(&s, at, &count), room = count * width_of(&s);
    for (size_t cut = 1; cut < len && cut < 40; cut += 1 + below(3)) {
        memmove(at->stream - len + cut, at->streams[0] - SIZE, len - cut);
        compare_decoded(&s, at, at->stream - len + cut, len - cut, room, true);
    }
    for (int kind = 0; kind < 5; kind++) {
        size_t more = kind == 4 ? len : kind < 2 ? 1 : 20 + below(300);
        unsigned char *stream = at->stream - len - more;
        memcpy(stream, at->streams[0] - SIZE, len);
        for (size_t k = 0; k < more; k++)
            stream[len + k] = kind == 4 ? stream[k] : kind % 2 ? 1 + below(255) : 0;
        compare_decoded(&s, at, stream, len + more, room, true);
    }
}

/* Decodes a stream with each of its last bits changed in turn; then with less room. */
static void try_damaged(struct ends *at) {
    struct aec_stream s;
    size_t count, len = draw_stream(&s, at, &count), room = count * width_of(&s);
    unsigned char *stream = at->stream - len;
    for (size_t bit = 0; bit < 8 * len && bit < 160; bit++) {
        stream[len - 1 - bit / 8] ^= 1 << bit % 8;
        compare_decoded(&s, at, stream, len, room, false);
        stream[len - 1 - bit / 8] ^= 1 << bit % 8;
    }
    for (size_t less = 1; less < count && less < 200; less += 1 + below(9))
        compare_decoded(&s, at, stream, len, room - less * width_of(&s), false);
}

int main(int argc, char **argv) {
    struct part part = prepare(argc, argv);
    if (strcmp(argv[1], "whole") == 0) part.work = try_whole;
    if (strcmp(argv[1], "cut") == 0) part.work = try_cut;
    if (strcmp(argv[1], "damaged") == 0) part.work = try_damaged;
    if (!part.work) return 2;
    try_part(&part);
    return end();
}
