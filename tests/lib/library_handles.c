/* Tests a handle of libaecp for tests/library.py: every call on it, its refusals, and the samples after them; a coder and a reader; and
 * eight threads with a handle each. Prints what goes wrong, and last how many checks passed.
 * `library_handles WAY KIND` only opens a workspace, a stream (aecp_load), a coder or a reader, and
 * frees it in a way: see `open_in_a_way`. The words "refuse" and "grant" on standard error mark the
 * part in which allocated and freed blocks count. */
#include <aecp.h>
#include <pthread.h>
#include <stdio.h>
#include <string.h>
#include <unistd.h>

enum { MANY = 20, THREADS = 8, TURNS = 50 };

static unsigned passed, failed;

static void check(int holds, const char *what) {
    if (holds)
        passed++;
    else
        failed++, printf("wrong: %s\n", what);
}

static void holds(aecp_handle *handle, const int64_t *wanted, size_t count, const char *what) {
    int64_t out[MANY];
    aecp_reply reply;
    check(aecp_size(handle) == count, what);
    check(aecp_read(handle, 0, count, out, MANY, &reply) == AECP_OK && reply.len == count, what);
    check(memcmp(out, wanted, count * sizeof out[0]) == 0, what);
}

static void try_edits(aecp_handle *handle) {
    const int64_t ramp[] = {0, 1, 2, 3, 4, 5, 6, 7}, nines[] = {9, 9};
    aecp_reply reply;
    check(aecp_append(handle, ramp, 8, &reply) == AECP_OK && reply.len == 1, "append");
    holds(handle, ramp, 8, "appended");
    check(aecp_overwrite(handle, 1, nines, 2, &reply) == AECP_OK, "overwrite");
    holds(handle, (const int64_t[]){0, 9, 9, 3, 4, 5, 6, 7}, 8, "overwritten");
    check(aecp_insert(handle, 8, nines, 2, &reply) == AECP_OK, "insert");
    holds(handle, (const int64_t[]){0, 9, 9, 3, 4, 5, 6, 7, 9, 9}, 10, "inserted");
    check(aecp_remove(handle, 0, 3, &reply) == AECP_OK, "remove");
    holds(handle, (const int64_t[]){3, 4, 5, 6, 7, 9, 9}, 7, "removed");
    check(aecp_truncate(handle, 5, &reply) == AECP_OK, "truncate");
    holds(handle, (const int64_t[]){3, 4, 5, 6, 7}, 5, "truncated");
    check(aecp_calls(handle) == 5, "calls");
}

static void try_refusals(aecp_handle *handle) {
    const int64_t wanted[] = {3, 4, 5, 6, 7}, wide[] = {1, 256};
    int64_t out[MANY] = {-1, -1, -1, -1};
    aecp_reply reply;
    check(aecp_append(handle, wide, 2, &reply) == AECP_SAMPLE_RANGE && reply.place == 1, "append of 256");
    check(aecp_insert(handle, 6, wide, 1, &reply) == AECP_OUT_OF_RANGE && reply.place == 5, "insert behind");
    check(aecp_overwrite(handle, 4, wanted, 2, &reply) == AECP_OUT_OF_RANGE, "overwrite behind");
    check(aecp_truncate(handle, 6, &reply) == AECP_OUT_OF_RANGE, "truncate behind");
    check(aecp_remove(handle, 5, 1, &reply) == AECP_OUT_OF_RANGE, "remove behind");
    check(aecp_read(handle, 3, 3, out, MANY, &reply) == AECP_OUT_OF_RANGE && out[0] == -1, "read behind");
    check(aecp_read(handle, 0, 3, out, 2, &reply) == AECP_NO_ROOM && reply.len == 3 && out[0] == -1, "read without room");
    check(aecp_read(handle, 0, 3, out, 3, &reply) == AECP_OK && out[2] == 5 && out[3] == -1, "read into three");
    holds(handle, wanted, 5, "refused");
}

/* Returns the fault of a script on a workspace, whose samples must stay if there is a fault. */
static uint32_t refusal(aecp_handle *handle, const char *script, uint64_t line, uint64_t place) {
    const int64_t wanted[] = {3, 4, 5, 6, 7};
    uint64_t calls = aecp_calls(handle);
    aecp_edit_reply made = {{99, 99, 99}, 99, 99};
    uint32_t fault = aecp_apply(handle, script, strlen(script), &made);
    check(fault == made.reply.fault && made.reply.len == 0 && made.samples == 0, script);
    check(made.line == line && made.reply.place == place && aecp_calls(handle) == calls, script);
    holds(handle, wanted, 5, script);
    return fault;
}

/* Tests scripts that are refused: for their first line that is no edit, else for their first edit that doesn't fit. */
static void try_bad_scripts(aecp_handle *handle) {
    check(refusal(handle, "append 1\n\nAppend 1\nturn 7\n", 0, 3) == AECP_SCRIPT, "no edit");
    check(refusal(handle, "append 256\n+\n", 0, 2) == AECP_SCRIPT, "no edit after one that doesn't fit");
    check(refusal(handle, "# five\nappend 1 2\ntruncate 8\nremove 9 1\n", 3, 7) == AECP_OUT_OF_RANGE, "truncate behind");
    check(refusal(handle, "append 1\nremove 0 6\noverwrite 0 9", 3, 0) == AECP_OUT_OF_RANGE, "overwrite of none");
    check(refusal(handle, "insert 1 2 3 256\n", 1, 2) == AECP_SAMPLE_RANGE, "insert of 256");
    check(refusal(handle, "overwrite 0 -1\n", 1, 0) == AECP_SAMPLE_RANGE, "overwrite by -1");
}

/* Tests scripts on workspaces of 48 zeros in intervals of 16 samples: an interval of zeros has the 14 bits 0000 00000000 01 (run of 2),
 * and one with a 1 at place 4 has 4 + 8 + 8 for its first block, by the second extension 0001 00000000 1 1 00001 1, and 5 for the
 * second, 0000 1. */
static void try_scripts(void) {
    const uint8_t one[] = {0x00, 0x04, 0x40, 0x30, 0xC2, 0x00, 0x08}, front[] = {0x10, 0x0C, 0x30, 0x80, 0x02};
    const char *overwrite = "overwrite 20 1\n", *remove = "# the first interval\nremove 0 16\n\nappend\n";
    aecp_options options = AECP_OPTIONS(8);
    aecp_handle handle = AECP_HANDLE;
    aecp_edit_reply made = {{99, 99, 99}, 99, 99};
    int64_t zeros[48] = {0};
    uint8_t out[MANY];
    aecp_reply reply;
    options.block_size = 8;
    options.interval = 2;
    check(aecp_open(&options, &handle, &reply) == AECP_OK && aecp_append(&handle, zeros, 48, &reply) == AECP_OK, "48 zeros");
    check(aecp_apply(&handle, overwrite, strlen(overwrite), &made) == AECP_OK && made.reply.len == 1, "apply");
    check(made.reply.place == 0 && made.line == 0 && made.samples == 48 && aecp_calls(&handle) == 4, "applied");
    check(aecp_write(&handle, out, MANY, &reply) == AECP_OK && reply.len == 7 && memcmp(out, one, 7) == 0, "a 1 at place 20");
    check(aecp_apply(&handle, remove, strlen(remove), &made) == AECP_OK && made.reply.len == 0 && made.samples == 32, "remove");
    check(aecp_write(&handle, out, MANY, &reply) == AECP_OK && reply.len == 5 && memcmp(out, front, 5) == 0, "a 1 at place 4");
    check(aecp_apply(&handle, 0, 0, &made) == AECP_OK && made.reply.len == 0 && made.samples == 32, "apply of NULL");
    check(aecp_calls(&handle) == 4, "calls of scripts");
    aecp_close(&handle);
}

static void try_stream(const aecp_options *options, aecp_handle *handle) {
    uint8_t out[MANY], plain[MANY], coded[MANY];
    aecp_reply reply, direct;
    const uint8_t stored[] = {3, 4, 5, 6, 7};
    check(aecp_write(handle, out, 1, &reply) == AECP_NO_ROOM, "write without room");
    check(aecp_write(handle, out, sizeof out, &reply) == AECP_OK, "write");
    check(aecp_encode(options, stored, 5, coded, sizeof coded, &direct) == AECP_OK && direct.len == reply.len, "length");
    check(memcmp(coded, out, direct.len) == 0, "stream");
    check(aecp_decode(options, 5, out, reply.len, plain, sizeof plain, &direct) == AECP_OK, "decode");
    check(direct.len == 5 && memcmp(plain, stored, 5) == 0, "decoded");
    aecp_handle other = AECP_HANDLE;
    check(aecp_load(options, 5, out, reply.len, &other, &direct) == AECP_OK && direct.len == 5, "load");
    holds(&other, (const int64_t[]){3, 4, 5, 6, 7}, 5, "loaded");
    check(aecp_load(options, 9, out, reply.len, &other, &direct) == AECP_TRUNCATED, "load of nine");
    check(aecp_size(&other) == 5 && aecp_calls(&other) == 1, "refused load");
    check(aecp_load(options, 0, out, 0, &other, &direct) == AECP_OK && aecp_size(&other) == 0, "load of none");
    aecp_close(&other);
}

static void try_empty(aecp_handle *handle) {
    uint8_t bytes[1] = {7};
    int64_t out[1] = {7};
    aecp_edit_reply made = {{99, 99, 99}, 99, 99};
    aecp_reply reply;
    check(aecp_size(handle) == 0 && aecp_calls(handle) == 0, "size of none");
    check(aecp_append(handle, out, 1, &reply) == AECP_NOT_OPEN, "append to none");
    check(aecp_overwrite(handle, 0, out, 1, &reply) == AECP_NOT_OPEN, "overwrite of none");
    check(aecp_insert(handle, 0, out, 1, &reply) == AECP_NOT_OPEN, "insert into none");
    check(aecp_remove(handle, 0, 0, &reply) == AECP_NOT_OPEN, "remove of none");
    check(aecp_truncate(handle, 0, &reply) == AECP_NOT_OPEN, "truncate of none");
    check(aecp_apply(handle, "turn", 4, &made) == AECP_NOT_OPEN && made.reply.fault == AECP_NOT_OPEN, "apply to none");
    check(made.reply.place == 0 && made.reply.len == 0 && made.line == 0 && made.samples == 0, "reply of apply to none");
    check(aecp_read(handle, 0, 0, out, 1, &reply) == AECP_NOT_OPEN && out[0] == 7, "read of none");
    check(aecp_write(handle, bytes, 1, &reply) == AECP_NOT_OPEN && bytes[0] == 7, "write of none");
    aecp_close(handle);
}

/* Calls on a handle that was opened as another kind: they do nothing, and what it holds stays. */
static void try_other_kind(const aecp_options *options) {
    aecp_coder coder = AECP_CODER;
    aecp_handle *handle = (aecp_handle *)&coder;
    int64_t out[1] = {7};
    aecp_edit_reply made;
    aecp_reply reply;
    check(aecp_coder_open(options, &coder, &reply) == AECP_OK, "open a coder");
    check(aecp_append(handle, out, 1, &reply) == AECP_NOT_OPEN, "append to a coder");
    check(aecp_apply(handle, 0, 0, &made) == AECP_NOT_OPEN, "apply to a coder");
    check(aecp_read(handle, 0, 0, out, 1, &reply) == AECP_NOT_OPEN && out[0] == 7, "read of a coder");
    check(aecp_size(handle) == 0 && aecp_calls(handle) == 0, "size of a coder");
    check(aecp_reader_go_to((aecp_reader *)&coder, 0, &reply) == AECP_NOT_OPEN, "a coder is no reader");
    check(aecp_coder_finish(&coder, &reply) == AECP_OK, "the coder stays");
    check(aecp_open(options, handle, &reply) == AECP_OK, "open a workspace in its place");
    check(aecp_coder_feed(&coder, 0, 0, &reply) == AECP_NOT_OPEN && aecp_size(handle) == 0, "feed of a workspace");
    aecp_coder_close(&coder);
    check(aecp_append(handle, out, 1, &reply) == AECP_NOT_OPEN, "append to a closed one");
}

/* Passes NULL for no values and for buffers of no bytes. */
static void try_nulls(const aecp_options *options) {
    const int64_t wanted[] = {3, 4, 5};
    aecp_handle handle = AECP_HANDLE;
    aecp_reply reply;
    check(aecp_load(options, AECP_ALL, 0, 0, &handle, &reply) == AECP_OK && reply.len == 0, "load of NULL");
    check(aecp_load(options, 1, 0, 0, &handle, &reply) == AECP_TRUNCATED && reply.place == 0, "load of one of NULL");
    check(aecp_write(&handle, 0, 0, &reply) == AECP_OK && reply.len == 0, "write of none to NULL");
    check(aecp_append(&handle, wanted, 3, &reply) == AECP_OK, "append of three");
    check(aecp_append(&handle, 0, 0, &reply) == AECP_OK && reply.len == 0, "append of NULL");
    check(aecp_overwrite(&handle, 3, 0, 0, &reply) == AECP_OK && reply.len == 0, "overwrite by NULL");
    check(aecp_overwrite(&handle, 4, 0, 0, &reply) == AECP_OUT_OF_RANGE && reply.place == 3, "overwrite behind by NULL");
    check(aecp_insert(&handle, 3, 0, 0, &reply) == AECP_OK && reply.len == 0, "insert of NULL");
    check(aecp_insert(&handle, 4, 0, 0, &reply) == AECP_OUT_OF_RANGE && reply.place == 3, "insert of NULL behind");
    check(aecp_read(&handle, 3, 0, 0, 0, &reply) == AECP_OK && reply.len == 0, "read of none to NULL");
    check(aecp_read(&handle, 0, 2, 0, 0, &reply) == AECP_NO_ROOM && reply.len == 2, "read of two to NULL");
    check(aecp_write(&handle, 0, 0, &reply) == AECP_NO_ROOM && reply.len > 0, "write to NULL");
    holds(&handle, wanted, 3, "nulls");
    aecp_close(&handle);
}

/* Tests calls on handles. Not threads: for these the C library allocates memory that it keeps. */
static void try_calls(void) {
    aecp_options options = AECP_OPTIONS(8), none = AECP_OPTIONS(33);
    aecp_handle handle = AECP_HANDLE;
    aecp_reply reply;
    options.block_size = 8;
    options.interval = 1;
    try_empty(&handle);
    check(aecp_open(&none, &handle, &reply) == AECP_BITS_PER_SAMPLE && aecp_size(&handle) == 0, "open of 33 bits");
    check(aecp_open(&options, &handle, &reply) == AECP_OK, "open");
    holds(&handle, 0, 0, "opened");
    try_edits(&handle);
    try_refusals(&handle);
    try_bad_scripts(&handle);
    check(aecp_open(&none, &handle, &reply) == AECP_BITS_PER_SAMPLE && aecp_size(&handle) == 5, "refused open");
    try_stream(&options, &handle);
    try_nulls(&options);
    try_scripts();
    try_other_kind(&options);
    check(aecp_open(&options, &handle, &reply) == AECP_OK && aecp_size(&handle) == 0, "opened again");
    aecp_close(&handle);
    try_empty(&handle);
}

typedef struct {
    aecp_handle handle;
    aecp_coder coder;
    aecp_reader reader;
} opened;

/* Opens one of a kind, and lets it hold samples or code. */
static void open_one(const aecp_options *options, const char *kind, opened *it) {
    const uint8_t coded[] = {0x20, 0x09, 0x24, 0x92};
    const int64_t values[8] = {0, 1, 2, 3, 4, 5, 6, 7};
    uint8_t out[MANY] = {0, 1, 2, 3, 4, 5, 6, 7};
    aecp_reply reply = {99, 0, 0};
    if (!strcmp(kind, "workspace") && !aecp_open(options, &it->handle, &reply))
        aecp_append(&it->handle, values, 8, &reply);
    else if (!strcmp(kind, "stream"))
        aecp_load(options, 8, coded, sizeof coded, &it->handle, &reply);
    else if (!strcmp(kind, "coder") && !aecp_coder_open(options, &it->coder, &reply))
        aecp_coder_feed(&it->coder, out, 8, &reply);
    else if (!strcmp(kind, "reader")
             && !aecp_reader_open(options, 8, coded, sizeof coded, &it->reader, &reply))
        aecp_reader_next(&it->reader, out, MANY, &reply);
    check(reply.fault == AECP_OK, kind);
}

/* Opens another in place of what is open, with options that are refused. */
static void open_refused(opened *it, const char *kind) {
    aecp_options none = AECP_OPTIONS(33);
    aecp_reply reply = {0, 0, 0};
    if (it->handle.full) aecp_open(&none, &it->handle, &reply);
    if (it->coder.full) aecp_coder_open(&none, &it->coder, &reply);
    if (it->reader.full) aecp_reader_open(&none, 8, 0, 0, &it->reader, &reply);
    check(reply.fault == AECP_BITS_PER_SAMPLE, kind);
}

/* Opens one of a kind. Then, in the way `closed`, closes it; in the way `replaced`, opens another
 * in its place and closes that; in the way `refused`, opens another with options that are refused,
 * and closes the first; in the way `lost`, closes nothing. */
static void open_in_a_way(const char *way, const char *kind) {
    aecp_options options = AECP_OPTIONS(8);
    opened it = {AECP_HANDLE, AECP_CODER, AECP_READER};
    options.block_size = 8;
    options.interval = 1;
    open_one(&options, kind, &it);
    if (!strcmp(way, "replaced")) open_one(&options, kind, &it);
    if (!strcmp(way, "refused")) open_refused(&it, kind);
    if (!strcmp(way, "lost")) return;
    aecp_close(&it.handle);
    aecp_coder_close(&it.coder);
    aecp_reader_close(&it.reader);
}

/* In each turn appends a zero, and sets the sample before it to the thread's number. Sets the number to 0 if all samples are right. */
static void *work(void *given) {
    int64_t *number = given, zero = 0, out[TURNS], right = 0;
    aecp_options options = AECP_OPTIONS(8);
    aecp_handle handle = AECP_HANDLE;
    aecp_reply reply;
    options.block_size = 8;
    options.interval = 1;
    if (aecp_open(&options, &handle, &reply)) return 0;
    for (uint64_t i = 0; i < TURNS; i++) {
        if (aecp_append(&handle, &zero, 1, &reply) || (i && aecp_overwrite(&handle, i - 1, number, 1, &reply))) return 0;
    }
    if (aecp_read(&handle, 0, TURNS, out, TURNS, &reply)) return 0;
    for (int i = 0; i < TURNS; i++) right += out[i] == (i < TURNS - 1 ? *number : 0);
    aecp_close(&handle);
    *number = right == TURNS ? 0 : *number;
    return 0;
}

enum { PIECES = 1000, LONG = 2 * PIECES };

/* Feeds samples of 16 bits byte by byte, and takes the stream as it comes. Returns its length. */
static size_t in_pieces(aecp_coder *coder, const uint8_t *samples, uint8_t *out) {
    aecp_reply reply;
    size_t len = 0;
    for (int i = 0; i < LONG; i++) {
        check(aecp_coder_feed(coder, samples + i, 1, &reply) == AECP_OK, "feed");
        uint64_t ready = reply.len;
        if (ready == 0) continue;
        check(aecp_coder_take(coder, out + len, ready - 1, &reply) == AECP_NO_ROOM && reply.len == ready, "take without room");
        check(aecp_coder_take(coder, out + len, ready, &reply) == AECP_OK && reply.len == ready, "take");
        len += ready;
    }
    check(aecp_coder_feed(coder, samples, 1, &reply) == AECP_OK, "feed half of a sample");
    check(aecp_coder_finish(coder, &reply) == AECP_OK, "finish");
    check(aecp_coder_take(coder, out + len, LONG - len, &reply) == AECP_OK, "take the last");
    return len + reply.len;
}

/* Tests a coder opened twice, its stream against that of one call, and its refusals. */
static void try_coder(void) {
    aecp_options options = AECP_OPTIONS(16), narrow = AECP_OPTIONS(1), none = AECP_OPTIONS(0);
    aecp_coder coder = AECP_CODER;
    uint8_t samples[LONG], pieces[LONG], whole[LONG];
    aecp_reply reply;
    options.interval = 3;
    for (int i = 0; i < LONG; i++) samples[i] = (uint8_t)(i % 2 ? 3 : i * i % 200);
    check(aecp_coder_feed(&coder, samples, LONG, &reply) == AECP_NOT_OPEN, "feed of none");
    check(aecp_coder_finish(&coder, &reply) == AECP_NOT_OPEN && aecp_coder_take(&coder, pieces, LONG, &reply) == AECP_NOT_OPEN, "none");
    check(aecp_coder_open(&options, &coder, &reply) == AECP_OK && aecp_coder_feed(&coder, samples, 99, &reply) == AECP_OK, "open");
    check(aecp_coder_open(&none, &coder, &reply) == AECP_BITS_PER_SAMPLE, "open without bits");
    check(aecp_coder_open(&options, &coder, &reply) == AECP_OK && reply.len == 0, "open again");
    size_t len = in_pieces(&coder, samples, pieces);
    check(aecp_encode(&options, samples, LONG, whole, LONG, &reply) == AECP_OK, "encode");
    check(reply.len == len && memcmp(pieces, whole, len) == 0, "pieces and whole");
    check(aecp_coder_feed(&coder, samples, 2, &reply) == AECP_NOT_OPEN, "feed of a finished one");
    check(aecp_coder_finish(&coder, &reply) == AECP_NOT_OPEN, "finish of a finished one");
    check(aecp_coder_take(&coder, 0, 0, &reply) == AECP_OK && reply.len == 0, "take nothing");
    check(aecp_coder_open(&narrow, &coder, &reply) == AECP_OK, "open for one bit");
    check(aecp_coder_feed(&coder, (const uint8_t[]){1, 0}, 2, &reply) == AECP_OK, "feed bits");
    for (int turn = 0; turn < 2; turn++)
        check(aecp_coder_feed(&coder, (const uint8_t[]){1, 2, 3}, 3, &reply) == AECP_SAMPLE_RANGE && reply.place == 3, "feed of 2");
    check(aecp_coder_finish(&coder, &reply) == AECP_SAMPLE_RANGE && reply.place == 3, "finish after 2");
    aecp_coder_close(&coder);
    aecp_coder_close(&coder);
}

/* Reads samples of 16 bits from where the reader is, interval by interval, each first with too little room. Returns their length. */
static size_t in_intervals(aecp_reader *reader, size_t most, uint8_t *out) {
    aecp_reply reply;
    size_t len = 0;
    while (aecp_reader_next(reader, out + len, 0, &reply) == AECP_NO_ROOM) {
        uint64_t next = reply.len;
        check(next > 0 && next <= most, "length of an interval");
        check(aecp_reader_next(reader, out + len, next - 1, &reply) == AECP_NO_ROOM && reply.len == next, "next without room");
        check(aecp_reader_next(reader, out + len, LONG - len, &reply) == AECP_OK && reply.len == next, "next");
        len += next;
    }
    check(reply.fault == AECP_OK && reply.len == 0, "the end");
    return len;
}

/* Tests a reader opened twice, its samples from the first on and from an interval on, and its refusals. */
static void try_reader(void) {
    aecp_options options = AECP_OPTIONS(16), none = AECP_OPTIONS(0);
    aecp_reader reader = AECP_READER;
    uint8_t samples[LONG], coded[LONG], back[LONG];
    aecp_reply reply;
    options.interval = 3;
    for (int i = 0; i < LONG; i++) samples[i] = (uint8_t)(i % 2 ? 3 : i * i % 200);
    check(aecp_encode(&options, samples, LONG, coded, LONG, &reply) == AECP_OK, "encode");
    size_t len = reply.len;
    check(aecp_reader_next(&reader, back, LONG, &reply) == AECP_NOT_OPEN, "next of none");
    check(aecp_reader_go_to(&reader, 0, &reply) == AECP_NOT_OPEN, "go to in none");
    check(aecp_reader_open(&options, PIECES, coded, len, &reader, &reply) == AECP_OK && reply.len == 96, "open");
    check(aecp_reader_open(&none, PIECES, coded, len, &reader, &reply) == AECP_BITS_PER_SAMPLE, "open without bits");
    check(aecp_reader_open(&options, (1ull << 32) + 1, coded, len, &reader, &reply) == AECP_TOO_MANY_SAMPLES, "open for too many");
    check(in_intervals(&reader, 96, back) == LONG && memcmp(back, samples, LONG) == 0, "all intervals");
    check(aecp_reader_open(&options, PIECES, coded, len, &reader, &reply) == AECP_OK, "open again");
    check(aecp_reader_go_to(&reader, 5, &reply) == AECP_OK && reply.len == 5 * 48, "go to 5");
    check(in_intervals(&reader, 96, back) == LONG - 480 && memcmp(back, samples + 480, LONG - 480) == 0, "from 5 on");
    check(aecp_reader_go_to(&reader, 2, &reply) == AECP_OK && reply.len == 2 * 48, "go back to 2");
    check(aecp_reader_next(&reader, back, 96, &reply) == AECP_OK && memcmp(back, samples + 192, 96) == 0, "the third");
    check(aecp_reader_go_to(&reader, UINT64_MAX, &reply) == AECP_OK && reply.len == PIECES, "to the end");
    check(aecp_reader_next(&reader, 0, 0, &reply) == AECP_OK && reply.len == 0, "nothing there");
    check(aecp_reader_open(&options, PIECES, coded, len / 2, &reader, &reply) == AECP_OK, "open a cut one");
    check(aecp_reader_go_to(&reader, 99, &reply) == AECP_TRUNCATED && reply.place > 0, "go behind the cut");
    uint64_t bit = reply.place;
    check(aecp_reader_next(&reader, back, 96, &reply) == AECP_OK && memcmp(back, samples, 96) == 0, "where it was");
    while (aecp_reader_next(&reader, back, 96, &reply) == AECP_OK) check(reply.len == 96, "before the cut");
    check(reply.fault == AECP_TRUNCATED && reply.place == bit, "the cut");
    check(aecp_reader_open(&options, 0, 0, 0, &reader, &reply) == AECP_OK, "open NULL");
    check(aecp_reader_next(&reader, 0, 0, &reply) == AECP_OK && reply.len == 0, "none of NULL");
    aecp_reader_close(&reader);
    aecp_reader_close(&reader);
}

static void try_threads(void) {
    pthread_t all[THREADS];
    int64_t numbers[THREADS];
    for (int i = 0; i < THREADS; i++) {
        numbers[i] = i + 1;
        check(pthread_create(&all[i], 0, work, &numbers[i]) == 0, "thread");
    }
    for (int i = 0; i < THREADS; i++) check(pthread_join(all[i], 0) == 0 && numbers[i] == 0, "a thread's handle");
}

int main(int count, char **words) {
    if (count != 1 && count != 3) return 2;
    if (write(2, "refuse\n", 7) != 7) return 2;
    if (count == 3)
        open_in_a_way(words[1], words[2]);
    else
        try_calls(), try_coder(), try_reader();
    if (write(2, "grant\n", 6) != 6) return 2;
    if (count == 1) try_threads();
    printf("%u passed, %u failed\n", passed, failed);
    return failed != 0;
}
