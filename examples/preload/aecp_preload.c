/* Takes the calls aec_buffer_encode and aec_buffer_decode of a program that uses libaec, and does them with libaecp:
 *
 *     LD_PRELOAD=.../aecp_preload.so grib_get_data message.grib
 *
 * A call is taken only if libaecp does the whole of it, and if libaec is known to return the same: status, samples and members of
 * `struct aec_stream`, but for how much of the stream was read if its last block isn't full. Every other call is passed on to libaec,
 * with its stream unchanged. A coded stream may have other bytes than libaec's; it is never longer. README.md says what isn't promised.
 *
 * At the end of a process, the library appends a line with the numbers of calls to the file that the environment variable
 * AECP_PRELOAD_REPORT names.
 */
#define _GNU_SOURCE
#include <aecp.h>
#include <dlfcn.h>
#include <endian.h>
#include <libaec.h>
#include <stdatomic.h>
#include <stdio.h>
#include <stdlib.h>
#include <string.h>

typedef int buffer_call(struct aec_stream *);

enum { ENCODE, DECODE, SPARE_ROOM = 512 };
static const char *const names[] = {"aec_buffer_encode", "aec_buffer_decode"};
static atomic_ulong taken[2], passed_on[2];

/* The flags that libaecp knows, without AEC_PAD_RSI. */
static const unsigned known_flags = AEC_DATA_SIGNED | AEC_DATA_3BYTE | AEC_DATA_MSB | AEC_DATA_PREPROCESS | AEC_RESTRICTED | AEC_NOT_ENFORCE;

/* Passes a call on to the library that follows this one, which is libaec, since this one is linked with it. */
static int pass_on(int which, struct aec_stream *s) {
    static _Atomic(buffer_call *) next[2];
    buffer_call *call = next[which];
    if (!call) {
        *(void **)&call = dlsym(RTLD_NEXT, names[which]);
        if (!call) return AEC_MEM_ERROR;
        next[which] = call;
    }
    passed_on[which]++;
    return call(s);
}

/* Returns the number of bytes of a stored sample. */
static size_t stored_width(const aecp_options *o) {
    if (o->bits <= 8) return 1;
    if (o->bits <= 16) return 2;
    return o->bits <= 24 && o->three_byte ? 3 : 4;
}

/* Fills in the options of a stream. Returns false for parameters that libaecp hasn't, or that libaec refuses. */
static bool read_options(const struct aec_stream *s, aecp_options *o) {
    bool is_standard = s->block_size == 8 || s->block_size == 16 || s->block_size == 32 || s->block_size == 64;
    bool is_even = s->block_size >= 8 && s->block_size <= 64 && s->block_size % 2 == 0;
    *o = (aecp_options){
        .bits = s->bits_per_sample,
        .block_size = s->block_size,
        .interval = s->rsi,
        .is_signed = s->flags & AEC_DATA_SIGNED,
        .msb_first = s->flags & AEC_DATA_MSB,
        .three_byte = s->flags & AEC_DATA_3BYTE,
        .preprocess = s->flags & AEC_DATA_PREPROCESS,
        .restricted = s->flags & AEC_RESTRICTED && s->bits_per_sample <= 8, /* above, the flag changes nothing in libaec */
        .even_blocks = !is_standard,
    };
    if (o->bits < 1 || o->bits > 32 || o->interval < 1 || o->interval > 4096 || s->flags & ~known_flags) return false;
    if (o->restricted && o->bits > 4) return false;
    return is_standard || (is_even && s->flags & AEC_NOT_ENFORCE);
}

/* Returns whether libaecp may be asked: both buffers are there, and they have no byte in common. */
static bool are_buffers_apart(const struct aec_stream *s) {
    uintptr_t in = (uintptr_t)s->next_in, out = (uintptr_t)s->next_out;
    return in && out && s->avail_in && s->avail_out && (in + s->avail_in <= out || out + s->avail_out <= in);
}

/* Returns whether the unused bits of all stored samples are zeros. */
static bool are_unused_bits_zeros(const struct aec_stream *s, const aecp_options *o, size_t width) {
    unsigned char used[4] = {0}, seen[4] = {0};
    for (size_t bit = 0; bit < o->bits; bit++) used[o->msb_first ? width - 1 - bit / 8 : bit / 8] |= 1u << bit % 8;
    for (size_t i = 0; i < s->avail_in; i += width)
        for (size_t k = 0; k < width; k++) seen[k] |= s->next_in[i + k];
    for (size_t k = 0; k < width; k++)
        if (seen[k] & ~used[k]) return false;
    return true;
}

/* Reports that all input was read, and so many bytes were written. After coding, libaec's `next_out` is the place of the last byte. */
static int done(int which, struct aec_stream *s, size_t written) {
    s->total_in = s->avail_in;
    s->next_in += s->avail_in;
    s->avail_in = 0;
    s->total_out = written;
    s->next_out += which == ENCODE ? written - 1 : written;
    s->avail_out -= written;
    taken[which]++;
    return AEC_OK;
}

int aec_buffer_encode(struct aec_stream *s) {
    aecp_options o;
    aecp_reply reply;
    if (!read_options(s, &o) || !are_buffers_apart(s)) return pass_on(ENCODE, s);
    size_t width = stored_width(&o);
    if (s->avail_in % width) return pass_on(ENCODE, s);
    /* libaec codes a signed sample with copies of its sign in the unused bits as another one. */
    if (o.is_signed && o.bits < 8 * width && !are_unused_bits_zeros(s, &o, width)) return pass_on(ENCODE, s);
    /* With less room left, libaec's `next_out` depends on the last block. */
    if (s->avail_out <= SPARE_ROOM) return pass_on(ENCODE, s);
    if (aecp_encode(&o, s->next_in, s->avail_in, s->next_out, s->avail_out - SPARE_ROOM, &reply)) return pass_on(ENCODE, s);
    return done(ENCODE, s, reply.len);
}

/* A place in a stream, in bits. */
struct place {
    const unsigned char *bytes;
    size_t len, bit;
};

/* Returns at least 57 bits, the first as the most significant one; after the stream zeros. */
static uint64_t peek(const struct place *at) {
    size_t byte = at->bit / 8;
    uint64_t word = 0;
    if (byte + sizeof word <= at->len)
        memcpy(&word, at->bytes + byte, sizeof word);
    else if (byte < at->len)
        memcpy(&word, at->bytes + byte, at->len - byte);
    return be64toh(word) << at->bit % 8;
}

/* Skips `left` fundamental sequences: zeros and a 1 each. Without them, goes past the end. */
static void skip_sequences(struct place *at, unsigned left) {
    while (at->bit < 8 * at->len) {
        unsigned bits = left < 19 ? 3 * left : 57;
        uint64_t word = peek(at) >> (64 - bits);
        unsigned ones = __builtin_popcountll(word);
        if (ones >= left) {
            for (; ones > left; ones--) word &= word - 1;
            at->bit += bits - __builtin_ctzll(word);
            return;
        }
        left -= ones;
        at->bit += bits;
    }
    at->bit = 8 * at->len + 1;
}

/* Returns whether each of so many fundamental sequences has at most 90 zeros. */
static bool are_short(struct place at, unsigned sequences) {
    for (size_t first = at.bit; sequences; sequences--, first = at.bit) {
        skip_sequences(&at, 1);
        if (at.bit - first > 91) return false;
    }
    return true;
}

/* Skips the number of a run of zero blocks. Returns how many blocks it has; `left` are left in the
 * segment. */
static unsigned skip_run(struct place *at, unsigned left) {
    size_t first = at->bit;
    skip_sequences(at, 1);
    size_t number = at->bit - first - 1;
    return number == 4 ? left : number < 4 ? number + 1 : number;
}

/* Skips a coded data set. `block` is the number of its first block in its interval. Returns how
 * many blocks it has. Returns 0 if libaec may reject it: a pair whose number is above 90, or near
 * the end of the stream a block that is longer than without compression. */
static unsigned skip_set(struct place *at, const aecp_options *o, unsigned block) {
    unsigned id_len = o->bits > 16 ? 5 : o->bits > 8 ? 4 : o->restricted ? (o->bits + 1) / 2 : 3;
    uint64_t word = peek(at);
    unsigned id = word >> (64 - id_len);
    size_t longest = at->bit + id_len + (size_t)o->bits * o->block_size;
    if (id == (1u << id_len) - 1) {
        at->bit = longest;
        return 1;
    }
    bool has_reference = o->preprocess && block == 0, is_pairs = !id && word << id_len >> 63;
    at->bit += id_len + !id + (has_reference ? o->bits : 0);
    if (!id && !is_pairs) {
        unsigned in_segment = 64 - block % 64, in_interval = o->interval - block;
        return skip_run(at, in_segment < in_interval ? in_segment : in_interval);
    }
    unsigned sequences = is_pairs ? o->block_size / 2 : o->block_size - has_reference;
    struct place first = *at;
    skip_sequences(at, sequences);
    bool may_be_long = is_pairs && at->bit - first.bit > 90 + sequences;
    if (may_be_long && !are_short(first, sequences)) return 0;
    if (!is_pairs) at->bit += (size_t)(id - 1) * sequences;
    return at->bit <= longest;
}

/* Returns whether the stream ends with the coded data set of the last wanted sample: whether this
 * set ends in the last byte, and only zero bits follow it. */
static bool is_whole(const struct aec_stream *s, const aecp_options *o, size_t samples) {
    struct place at = {s->next_in, s->avail_in, 0};
    size_t end = 8 * s->avail_in, left = (samples - 1) / o->block_size + 1;
    for (unsigned block = 0; left;) {
        unsigned blocks = skip_set(&at, o, block);
        if (!blocks || at.bit > end) return false;
        left -= left < blocks ? left : blocks;
        block = (block + blocks) % o->interval;
    }
    return end - at.bit < 8 && !peek(&at);
}

/* Returns whether `is_whole` isn't needed for a stream of whole blocks: decoding all of it shows the
 * same if its last byte isn't zero. It has no pair whose number is above 90 if no ten bytes in a row
 * are zeros. It doesn't end with a run that goes on beyond the wanted samples, unless its last bits
 * are 00001. A stream that is longer than any coder's would only cost memory. */
static bool is_plain(const struct aec_stream *s, const aecp_options *o, size_t samples) {
    static const unsigned char zeros[10];
    const unsigned char *last = s->next_in + s->avail_in - 1;
    unsigned bits = (s->avail_in > 1 ? last[-1] : 0) << 8 | *last;
    if (samples % o->block_size || s->avail_in > aecp_bound(o, samples)) return false;
    if (*last == 0 || (bits >> __builtin_ctz(bits) & 0x1f) == 1) return false;
    return !memmem(s->next_in, s->avail_in, zeros, sizeof zeros);
}

/* Decodes the first `count` samples, or all. Returns whether they fill the output buffer. */
static bool decode(const struct aec_stream *s, const aecp_options *o, uint64_t count) {
    aecp_reader reader = AECP_READER;
    aecp_reply reply;
    unsigned char *out = s->next_out, *end = out + s->avail_out;
    if (aecp_reader_open(o, count, s->next_in, s->avail_in, &reader, &reply)) return false;
    while (!aecp_reader_next(&reader, out, end - out, &reply) && reply.len) out += reply.len;
    aecp_reader_close(&reader);
    return !reply.fault && out == end;
}

int aec_buffer_decode(struct aec_stream *s) {
    aecp_options o;
    if (!read_options(s, &o) || !are_buffers_apart(s)) return pass_on(DECODE, s);
    size_t width = stored_width(&o), samples = s->avail_out / width;
    if (s->avail_out % width) return pass_on(DECODE, s);
    /* Without preprocessing, libaec fills the unused bits of signed samples with zeros. */
    if (o.is_signed && !o.preprocess && o.bits < 8 * width) return pass_on(DECODE, s);
    bool is_all = is_plain(s, &o, samples);
    if (!is_all && !is_whole(s, &o, samples)) return pass_on(DECODE, s);
    if (!decode(s, &o, is_all ? AECP_ALL : samples)) return pass_on(DECODE, s);
    return done(DECODE, s, s->avail_out);
}

__attribute__((destructor)) static void report(void) {
    const char *path = getenv("AECP_PRELOAD_REPORT");
    FILE *file = path ? fopen(path, "a") : NULL;
    if (!file) return;
    fprintf(file, "encode: %lu taken, %lu passed on; decode: %lu taken, %lu passed on\n", taken[ENCODE], passed_on[ENCODE], taken[DECODE],
            passed_on[DECODE]);
    fclose(file);
}
