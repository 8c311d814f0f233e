/* aecp.h: lossless coding of integer samples in the format CCSDS 121.0-B-3, from buffer to buffer.
 *
 * A coded stream contains neither its options nor its sample count. Keep both with the stream: no call is sure to notice wrong ones.
 *
 * Every caller must ensure, since no call can check: only the pointer to an empty buffer may be NULL; each length is that of its buffer;
 * `out` and `reply` overlap nothing else that is passed; a bool is 0 or 1; if you replace malloc, replace realloc and free too. Make no
 * call in a signal handler, or in a forked child of a process with threads.
 *
 * Between calls the library keeps only what handles, coders and readers hold. Every buffer stays the caller's. A call frees what it
 * allocates before it returns, except what an open handle, coder or reader holds. Several threads may call at once, each with an `out`, a
 * `reply`, and a handle, coder or reader of its own. They may share inputs.
 *
 * Whatever samples, streams and scripts contain, each call returns; none prints, waits or ends the process. A thread needs a stack of 32
 * KiB for aecp_edit, and of 16 KiB for the other calls. These sizes, which the tests use, include some 8 KiB of the thread's own, and 4 KiB
 * unused.
 */
#ifndef AECP_H
#define AECP_H

#include <stdbool.h>
#include <stddef.h>
#include <stdint.h>

#ifdef __cplusplus
extern "C" {
#define AECP_UINT32(n) static_cast<uint32_t>(n)
#else
#define AECP_UINT32(n) ((uint32_t)(n))
#endif

/* The version of this header, 1.1.0: 10,000 times its first number, plus 100 times its second, plus its third. aecp_version returns that of
 * the library, which may differ; it allocates nothing. From 1.1.0 on, the structs and calls below change only with the first number, and
 * then the soname changes too (now libaecp.so.1). A greater second number means that calls were added. */
#define AECP_VERSION 10100
#define AECP_VERSION_STRING "1.1.0"
uint32_t aecp_version(void);

/* How samples are stored and coded. A stored sample of 1 to 8 bits takes one byte, of 9 to 16 two, else four (but see three_byte). */
typedef struct {
    uint32_t bits;       /* bits per sample, 1 to 32 */
    uint32_t block_size; /* samples in a block: 8, 16, 32 or 64, and with even_blocks every even number from 8 to 64 */
    uint32_t interval;   /* blocks in a reference sample interval, 1 to 4096 */
    bool is_signed;      /* samples are signed (libaec: AEC_DATA_SIGNED) */
    bool msb_first;      /* stored samples are big-endian, not little-endian (AEC_DATA_MSB) */
    bool three_byte;     /* samples of 17 to 24 bits are stored in three bytes (AEC_DATA_3BYTE); others as without it */
    bool preprocess;     /* predict each sample from the one before; usually set it (AEC_DATA_PREPROCESS) */
    bool pad;            /* fill each interval up to a byte boundary; violates the standard */
    bool restricted;     /* the restricted set of code options, for at most 4 bits (AEC_RESTRICTED) */
    bool even_blocks;    /* see block_size; violates the standard (AEC_NOT_ENFORCE) */
} aecp_options;

/* The default options: block_size 16, interval 128. Traps: the program `aec` has 8 and 2 without options; `preprocess` is false in
 * `aecp_options o = {0}`. */
#define AECP_OPTIONS(n) {AECP_UINT32(n), 16, 128, false, false, false, true, false, false, false}

/* How a call ended. If `fault` is 0, `len` is the length of the result, in bytes unless the call says otherwise. If `fault` is
 * AECP_NO_ROOM, `len` is the length that the result needs. For other faults `place` is what the fault's comment says, or 0. */
typedef struct {
    uint32_t fault;
    uint64_t place;
    uint64_t len;
} aecp_reply;

/* The faults. These numbers keep their meaning. */
enum {
    AECP_OK = 0,
    AECP_BITS_PER_SAMPLE = 1,
    AECP_BLOCK_SIZE = 2,       /* `even_blocks` is off, and `block_size` isn't 8, 16, 32 or 64 */
    AECP_INTERVAL = 3,
    AECP_RESTRICTED_WIDTH = 4,
    AECP_SAMPLE_RANGE = 5,     /* place: index of the first sample that is out of range. Index 0 is the first sample of encode or of all
                                * feeds together, or the first value of append, overwrite, insert or the script's line */
    AECP_TRUNCATED = 6,        /* place: bit where the incomplete or missing coded data set begins */
    AECP_VALUE_TOO_LARGE = 7,  /* place: bit where the coded data set begins */
    AECP_RUN_TOO_LONG = 8,     /* place: bit where the coded data set begins */
    AECP_TOO_MANY_SAMPLES = 9, /* place: the greatest number, 2^32 */
    AECP_OUT_OF_RANGE = 10,    /* place: the number of samples */
    AECP_SPENT = 11,           /* a workspace codes at most 2^64 - 1 intervals in all; the edit needs more */
    AECP_MEMORY = 12,          /* 13 and 14 are faults of files, which no call here returns */
    AECP_SCRIPT = 15,          /* place: the first line that isn't an edit, counted from 1 */
    AECP_STREAM_TOO_LONG = 16, /* place: the greatest length in bytes, 2^40; the command aec allows 2^35 */
    AECP_EVEN_BLOCK_SIZE = 17, /* `even_blocks` is on, and `block_size` isn't an even number from 8 to 64 */
    AECP_NO_ROOM = 18,         /* len: the bytes, or samples, that the result needs */
    AECP_NOT_OPEN = 19,        /* the handle, coder or reader isn't open, or was opened as another of these; the coder is finished */
    AECP_BIT_OUT_OF_RANGE = 20 /* place: the number of bits of `coded`. No interval begins at this bit: it is past their end,
                                * or, with `pad`, it isn't the first bit of a byte */
};

/* As a sample count: all samples that the stream decodes to, including the filler at its end. */
#define AECP_ALL UINT64_MAX

/* Every call with a `reply`, except aecp_text, returns `reply->fault`; aecp_edit and aecp_apply return `reply->reply.fault`. If a call that
 * fills `out` returns 0, its result is the first `len` bytes of `out` (in aecp_read: samples; in aecp_offsets: offsets), and what follows
 * them is unchanged.
 * Otherwise all of `out` is unchanged, and the call may be repeated. NO_ROOM is returned only if there is no other fault. To learn the
 * length, pass an empty `out`, even NULL: the call still does its whole work. The length of a buffer is its number of bytes, but that of a
 * buffer of int64_t or uint64_t is its number of items. Below, 'options' means the faults 1 to 4 and 17, which come before all others. */

/* Codes stored samples. Bytes at the end that don't fill a sample are dropped. Faults: options, SAMPLE_RANGE, TOO_MANY_SAMPLES, MEMORY,
 * NO_ROOM. Allocates at most the sum of 72 KiB, twice the code's length, and eight bytes for each sample of an interval (at least 32 KiB).
 * Traps: `samples_len` is bytes, but aecp_bound takes samples; keep the sample count, which decoding needs; unused bits must be zeros, or
 * with `is_signed` either zeros or copies of the sign bit: with 12 bits, 0x0800 and 0xF800 are then both -2048. */
uint32_t aecp_encode(const aecp_options *options, const void *samples, size_t samples_len, uint8_t *out, size_t out_len,
                     aecp_reply *reply);

/* Decodes the first `count` samples of a stream, or all with AECP_ALL. The result has 1, 2, 3 or 4 bytes for each sample; unused bits are
 * zeros, or with `is_signed` copies of the sign bit. Ignores bytes of the stream after these samples. Faults: options, TRUNCATED,
 * VALUE_TOO_LARGE, RUN_TOO_LONG, TOO_MANY_SAMPLES, STREAM_TOO_LONG, MEMORY, NO_ROOM. Allocates:
 * - twelve bytes for each sample of an interval (up to 48 KiB if that is more);
 * - 64 KiB;
 * - a copy of the whole stream with AECP_ALL, else of its first aecp_bound(options, count) bytes, or of all if these don't decode;
 * - up to 16 MiB, if `block_size` times the bytes of a stored sample is at most 32.
 * Trap: AECP_ALL decodes filler too, and accepts many cut streams; 1.5 MB can decode to 2^32 samples. */
uint32_t aecp_decode(const aecp_options *options, uint64_t count, const uint8_t *coded, size_t coded_len, void *out,
                     size_t out_len, aecp_reply *reply);

/* Decodes `len` of the first `count` samples, from sample `first` on, counted from 0. Faults: OUT_OF_RANGE, and those of aecp_decode,
 * anywhere in the `count` samples, since it checks them all. Allocates eight bytes for each sample of an interval (at least 16 KiB), and as
 * much of the stream as aecp_decode. Trap: `first` and `len` are samples, `out_len` is bytes. */
uint32_t aecp_range(const aecp_options *options, uint64_t count, uint64_t first, uint64_t len, const uint8_t *coded,
                    size_t coded_len, void *out, size_t out_len, aecp_reply *reply);

/* Finds where the intervals of the first `count` samples begin, or of all samples with AECP_ALL: writes to `out`, for each interval in
 * order, its offset: the bit of the stream where it begins, counted from 0. `reply->len` is the number of intervals. An interval has
 * `block_size` times `interval` samples; the last one may have fewer. Checks all these samples as aecp_decode does, without storing them.
 * Faults: options, TRUNCATED, VALUE_TOO_LARGE, RUN_TOO_LONG, TOO_MANY_SAMPLES, STREAM_TOO_LONG, MEMORY, NO_ROOM. Allocates a copy of the
 * stream, and at most 24 bytes for each interval. Trap: `out_len` and `reply->len` are numbers of offsets, not of bytes. */
uint32_t aecp_offsets(const aecp_options *options, uint64_t count, const uint8_t *coded, size_t coded_len, uint64_t *out,
                      size_t out_len, aecp_reply *reply);

/* Decodes `count` samples from bit `bit` of `coded` on, or with AECP_ALL all samples from there on, as aecp_decode does if the stream begins
 * at that bit. If the bit is the offset of interval i, these are the samples from the first sample of that interval on. `coded` may begin
 * anywhere before the interval, at a whole byte: subtract the bits that are left out from the offset, and the call copies only the rest.
 * Faults: options; then BIT_OUT_OF_RANGE; then those of aecp_decode. The bits of faults are counted from the first bit of `coded`.
 * Allocates a copy of `coded`, and at most 24 bytes for each sample, counted in whole blocks. Traps: at a bit that is no offset of this
 * stream the call returns wrong samples or a fault; `count` is a number of samples after the bit, not of the whole stream. */
uint32_t aecp_decode_at(const aecp_options *options, uint64_t bit, uint64_t count, const uint8_t *coded, size_t coded_len, void *out,
                        size_t out_len, aecp_reply *reply);

/* How aecp_edit or aecp_apply ended. `samples` is the number of samples after the edits, with AECP_NO_ROOM too, and 0 after every other
 * fault. If an edit of the script is refused, `line` is its line, counted from 1, and `reply` says why. Else `line` is 0, also for
 * AECP_SCRIPT, where `reply.place` is the line. */
typedef struct {
    aecp_reply reply;
    uint64_t line;
    uint64_t samples;
} aecp_edit_reply;

/* Applies a script of edits, as docs/COMMAND.md describes it, to the first `count` samples of a stream, or to all with AECP_ALL, and
 * writes the edited stream to `out`. All lines apply, or none. Returns `reply->reply.fault`. Faults, in this order: options; SCRIPT; those
 * of aecp_decode except NO_ROOM; those of one edit, with its line: OUT_OF_RANGE, TOO_MANY_SAMPLES, SAMPLE_RANGE, SPENT; NO_ROOM. Instead
 * of these, except options, MEMORY may be returned, with a line only if the edit there was applied alone. Many edits are applied together
 * (docs/SPEED.md says which). Allocates at most the sum of: six times the longer of both streams; twice the script; 40 bytes for each 12
 * bytes of the script, up to 640 KiB; 24 bytes for each byte of the script, up to 6 MiB; eight bytes for each sample of four intervals; 32
 * bytes for each interval; 16 for each value of the longest line. Trap: keep `samples` with the edited stream. With AECP_ALL the filler of
 * the last block becomes samples. */
uint32_t aecp_edit(const aecp_options *options, uint64_t count, const void *script, size_t script_len, const uint8_t *coded,
                   size_t coded_len, uint8_t *out, size_t out_len, aecp_edit_reply *reply);

/* Returns a length in bytes that suffices for the code of that many samples, whatever they are; 0 if the options are refused or there are
 * more than 2^32 samples. Allocates nothing. Trap: it takes a number of samples, not of bytes, and also returns 0 for no samples. */
uint64_t aecp_bound(const aecp_options *options, uint64_t samples);

/* Writes the message of a reply to `out`, cut to `out_len` - 1 bytes, and a zero byte. Returns the length of the whole message without the
 * zero byte. Allocates; if that fails, the message is "out of memory". Trap: with `out_len` 0 no zero is written. */
size_t aecp_text(const aecp_reply *reply, char *out, size_t out_len);

/* A handle, whose members only the library uses. Initialize it with AECP_HANDLE or zeros. From aecp_open or aecp_load to aecp_close it
 * holds a workspace: a list of samples in coded form. Don't copy a handle that holds one. One thread at a time may use a handle, even to
 * read: every call takes the workspace out of the handle and puts it back. In calls with a handle samples are numbers, not stored bytes. A
 * refused edit changes no sample. */
typedef struct {
    void *at;
    bool full;
} aecp_handle;

#define AECP_HANDLE {NULL, false}

/* Opens an empty workspace of at most 2^32 samples. On success what the handle held is freed; after a fault the handle is
 * unchanged. Faults: options, MEMORY. aecp_close frees the workspace. Trap: aecp_open frees arbitrary memory if the handle is
 * uninitialized. */
uint32_t aecp_open(const aecp_options *options, aecp_handle *handle, aecp_reply *reply);

/* Opens, as aecp_open does, a workspace with the first `count` samples of a stream, or all with AECP_ALL. `reply->len` is their number;
 * aecp_calls then returns the number of their intervals. Faults: those of aecp_decode except NO_ROOM and STREAM_TOO_LONG. During the call
 * it also holds the stream and eight bytes a sample. Trap: the samples are coded anew, so aecp_write may return other bytes than another
 * coder wrote. */
uint32_t aecp_load(const aecp_options *options, uint64_t count, const uint8_t *coded, size_t coded_len, aecp_handle *handle,
                   aecp_reply *reply);

/* Frees the workspace. Does nothing if none is open. Trap: a handle that is dropped without it leaks its memory. */
void aecp_close(aecp_handle *handle);

/* The five edits. Each returns `reply->fault`, and `reply->len` is the number of intervals that it coded: those that it touches, and those
 * that it codes again (see the traps of aecp_append and aecp_remove). An edit refused for MEMORY changes no sample, but may have coded
 * intervals, and aecp_calls counts these.
 *
 * aecp_append appends samples. Faults: SAMPLE_RANGE, TOO_MANY_SAMPLES, SPENT, MEMORY, NOT_OPEN. Allocates their code. Trap: each call codes
 * the last interval again if that isn't full, so one call with many samples is faster than many calls with one. */
uint32_t aecp_append(aecp_handle *handle, const int64_t *values, size_t values_len, aecp_reply *reply);

/* Keeps the first `count` samples. Faults: OUT_OF_RANGE, SPENT, MEMORY, NOT_OPEN. Trap: truncating can fail with MEMORY, since an interval
 * that is kept in part is coded again. */
uint32_t aecp_truncate(aecp_handle *handle, uint64_t count, aecp_reply *reply);

/* Removes `len` samples, from sample `first` on. Faults: OUT_OF_RANGE, SPENT, MEMORY, NOT_OPEN. Trap: if `len` isn't a multiple of an
 * interval's samples, all later intervals are coded again; likewise in aecp_insert if `values_len` isn't a multiple. */
uint32_t aecp_remove(aecp_handle *handle, uint64_t first, uint64_t len, aecp_reply *reply);

/* Replaces `values_len` samples by the values, from sample `first` on. Faults: OUT_OF_RANGE, SAMPLE_RANGE, SPENT, MEMORY, NOT_OPEN.
 * Allocates a copy of the values. Trap: it never makes the list longer. */
uint32_t aecp_overwrite(aecp_handle *handle, uint64_t first, const int64_t *values, size_t values_len, aecp_reply *reply);

/* Inserts values before sample `first`, or after the last sample if `first` is the number of samples. Faults: those of aecp_append, and
 * OUT_OF_RANGE. Allocates a copy of the values. Trap: `first` can't be greater than the number of samples. */
uint32_t aecp_insert(aecp_handle *handle, uint64_t first, const int64_t *values, size_t values_len, aecp_reply *reply);

/* Applies a script of edits, as docs/COMMAND.md describes it, to the workspace. All lines apply, or none. `reply->reply.len` is the number
 * of intervals that it coded: it codes each changed interval once, however many edits change it, and copies the code of the others. So it
 * is faster than the five calls for many edits, and slower for one. Returns `reply->reply.fault`. Faults, in this order: NOT_OPEN;
 * STREAM_TOO_LONG, if the script is longer than 2^40 bytes; SCRIPT; those of one edit, with its line: OUT_OF_RANGE, TOO_MANY_SAMPLES,
 * SAMPLE_RANGE, SPENT. MEMORY, without a line, may be returned instead of SCRIPT and of these. Allocates at most the sum of: twice the new
 * code; 16 bytes for each interval; 24 for each byte of the script; eight for each sample of three intervals. Trap: it builds the whole
 * new code, even for a single edit. */
uint32_t aecp_apply(aecp_handle *handle, const void *script, size_t script_len, aecp_edit_reply *reply);

/* Writes `len` samples, from sample `first` on, to `out`. Faults: OUT_OF_RANGE, MEMORY, NO_ROOM, NOT_OPEN. Allocates at most
 * 24 bytes for each sample of the intervals that contain these samples. Trap: `out_len` and `reply->len` are numbers of samples, not of
 * bytes. */
uint32_t aecp_read(aecp_handle *handle, uint64_t first, uint64_t len, int64_t *out, size_t out_len, aecp_reply *reply);

/* Writes the stream of all samples to `out`. aecp_decode needs the number of samples too. Faults: MEMORY, NO_ROOM, NOT_OPEN. Allocates at
 * most twice the code. Trap: keep the result of aecp_size with the stream. */
uint32_t aecp_write(aecp_handle *handle, uint8_t *out, size_t out_len, aecp_reply *reply);

/* aecp_size returns the number of samples. aecp_calls returns the number of intervals coded since the workspace was opened, also by edits
 * refused for MEMORY. They allocate nothing. Trap: both are 0 if the handle holds no workspace. */
uint64_t aecp_size(aecp_handle *handle);
uint64_t aecp_calls(aecp_handle *handle);

/* A coder that takes samples in pieces. Only the library uses its members. Initialize it with AECP_CODER or zeros. It is open from
 * aecp_coder_open to aecp_coder_close; after aecp_coder_finish only aecp_coder_take works. Don't copy an open coder. One thread at a time
 * may use a coder. The bytes taken are those of one aecp_encode of all samples, wherever the pieces were cut. */
typedef struct {
    void *at;
    bool full;
} aecp_coder;

#define AECP_CODER {NULL, false}

/* Opens a coder of at most 2^32 samples. On success what `coder` held is freed; after a fault it is unchanged. Faults: options,
 * MEMORY. Trap: aecp_coder_open frees arbitrary memory if the coder is uninitialized. */
uint32_t aecp_coder_open(const aecp_options *options, aecp_coder *coder, aecp_reply *reply);

/* Codes more stored samples; a sample may be cut in two. `reply->len` is the number of bytes that aecp_coder_take would now write. Faults:
 * SAMPLE_RANGE, TOO_MANY_SAMPLES, MEMORY, NOT_OPEN. Each later feed returns the first fault again. Keeps the code that isn't taken yet, and
 * less than an interval of samples. Trap: bytes come interval by interval, so a call may yield none. */
uint32_t aecp_coder_feed(aecp_coder *coder, const void *samples, size_t samples_len, aecp_reply *reply);

/* Ends the stream. An incomplete sample is dropped. `reply->len` is the number of bytes that aecp_coder_take would now write, the last of
 * the stream. Faults: that of an earlier feed, MEMORY, NOT_OPEN. Trap: after finish, even a failed one, feed and finish return NOT_OPEN. If
 * finish fails, the samples of the last interval are lost. */
uint32_t aecp_coder_finish(aecp_coder *coder, aecp_reply *reply);

/* Writes all coded bytes that weren't taken yet to `out`. Faults: MEMORY, NO_ROOM, NOT_OPEN. Allocates at most twice what it writes.
 * Trap: don't call it after a fault of feed, since the stream is incomplete. */
uint32_t aecp_coder_take(aecp_coder *coder, uint8_t *out, size_t out_len, aecp_reply *reply);

/* Frees the coder. Does nothing if none is open. */
void aecp_coder_close(aecp_coder *coder);

/* A reader returns the samples of a stream interval by interval, and keeps a copy of the stream. Only the library uses its members.
 * Initialize it with AECP_READER or zeros. It is open from aecp_reader_open to aecp_reader_close. Don't copy an open reader. One thread at
 * a time may use a reader. The bytes of all intervals, joined, are those of one aecp_decode. This loop reads them:
 * while (!aecp_reader_next(&reader, out, out_len, &reply) && reply.len) fwrite(out, 1, reply.len, file);
 * After it `reply.fault` says whether all were read. */
typedef struct {
    void *at;
    bool full;
} aecp_reader;

#define AECP_READER {NULL, false}

/* Opens a reader of a stream's first `count` samples, or of all with AECP_ALL, at sample 0. `reply->len` is the length in bytes of the
 * samples of a whole interval. On success what `reader` held is freed; after a fault it is unchanged. Faults: options,
 * TOO_MANY_SAMPLES, MEMORY. Allocates the length of the stream, and eight bytes a sample of an interval. Traps: it reads no sample yet, so
 * a bad stream opens too; aecp_reader_open frees arbitrary memory if the reader is uninitialized. */
uint32_t aecp_reader_open(const aecp_options *options, uint64_t count, const uint8_t *coded, size_t coded_len, aecp_reader *reader,
                          aecp_reply *reply);

/* Writes the stored samples of the next interval to `out`. `reply->len` is 0 if all samples were read. Faults: TRUNCATED, VALUE_TOO_LARGE,
 * RUN_TOO_LONG, TOO_MANY_SAMPLES, NO_ROOM, NOT_OPEN. Allocates nothing. After a fault the reader is where it was. Trap: damage may be
 * noticed late, so samples of earlier intervals may be wrong. */
uint32_t aecp_reader_next(aecp_reader *reader, void *out, size_t out_len, aecp_reply *reply);

/* Goes to the start of `interval`, counted from 0, or to the end if the stream has fewer intervals. `reply->len` is the number of samples
 * before that place. The interval UINT64_MAX always means the end. Faults: TRUNCATED, VALUE_TOO_LARGE, RUN_TOO_LONG, TOO_MANY_SAMPLES,
 * NOT_OPEN. After a fault the reader is where it was. Trap: it reads every interval that it passes; going back starts at interval 0. */
uint32_t aecp_reader_go_to(aecp_reader *reader, uint64_t interval, aecp_reply *reply);

/* Frees the reader. Does nothing if none is open. */
void aecp_reader_close(aecp_reader *reader);

#ifdef __cplusplus
}
#endif

#endif
