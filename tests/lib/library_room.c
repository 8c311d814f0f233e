/* Makes one call of libaecp for tests/lib/library_room.py: `library_room CALL KIND BITS BLOCK INTERVAL
 * SAMPLES COUNT`. KIND is zeros or noise, SAMPLES the number of samples, COUNT how many of them the
 * call asks for. Before the call the program makes all buffers and the code of the samples, and
 * opens what the call needs. The words "refuse" and "grant" on standard error mark the call, in
 * which allocated bytes count. Prints the fault, the length of the result, the length of the code of
 * all samples, and aecp_bound of COUNT. The calls inserts, overwrites and appends apply a script of COUNT
 * such lines by aecp_apply, the calls edit_inserts, edit_overwrites and edit_appends by aecp_edit. Their
 * result is the edited stream. */
#include <aecp.h>
#include <inttypes.h>
#include <stdio.h>
#include <stdlib.h>
#include <string.h>
#include <unistd.h>

static const char *call;
static aecp_options options;
static uint64_t total, count;
static size_t samples_len, coded_len, room;
static uint8_t *samples, *coded, *back;
static int64_t *numbers;
static uint64_t *begins;
static char *script;
static aecp_handle handle;
static aecp_coder coder;
static aecp_reader reader;

static int is(const char *name) {
    return !strcmp(call, name);
}

/* Whether the call applies a script of COUNT lines by aecp_edit. */
static int is_edit(void) {
    return !strncmp(call, "edit_", 5);
}

/* Whether the lines of such a script, for aecp_edit or aecp_apply, have this name. */
static int lines_are(const char *name) {
    return !strcmp(is_edit() ? call + 5 : call, name);
}

static int is_list(void) {
    return lines_are("inserts") || lines_are("overwrites") || lines_are("appends");
}

/* Fills the samples with noise of all their bits. */
static void fill(size_t width) {
    uint32_t state = 1;
    for (uint64_t i = 0; i < total; i++) {
        state = state * 1664525u + 1013904223u;
        uint32_t value = state >> (32 - options.bits);
        for (size_t b = 0; b < width; b++) samples[i * width + b] = (uint8_t)(value >> (8 * b));
    }
}

/* Makes the samples, their code and the buffers. Returns whether it could. */
static int is_made(const char *kind) {
    size_t width = options.bits > 16 ? 4 : options.bits > 8 ? 2 : 1;
    aecp_reply reply;
    samples_len = width * total;
    room = aecp_bound(&options, total + (is_list() ? count : 0)) + samples_len;
    samples = calloc(samples_len + 1, 1);
    coded = malloc(room);
    back = malloc(room);
    begins = calloc(total + 1, sizeof *begins);
    numbers = is("read") ? calloc(count, sizeof *numbers) : 0;
    if (!samples || !coded || !back || !begins || (is("read") && !numbers)) return 0;
    if (!strcmp(kind, "noise")) fill(width);
    if (aecp_encode(&options, samples, samples_len, coded, room, &reply)) return 0;
    coded_len = reply.len;
    return 1;
}

/* Writes a script of COUNT lines of equal length, at scattered places. Returns whether it could. */
static int is_written(void) {
    const char *line = lines_are("inserts") ? "insert %07u 1\n" : "overwrite %07u 1\n";
    const char *form = lines_are("appends") ? "append 1\n" : line;
    char *at = script = malloc(20 * count + 1);
    uint32_t state = 1;
    for (uint64_t i = 0; script && i < count; i++) {
        state = state * 1664525u + 1013904223u;
        at += sprintf(at, form, (unsigned)((uint64_t)state * total >> 32));
    }
    return script != 0;
}

/* Opens what the call needs. Returns whether it could. */
static int is_opened(void) {
    aecp_reply reply;
    if (is("feed")) return !aecp_coder_open(&options, &coder, &reply);
    if (is("take")) {
        if (aecp_coder_open(&options, &coder, &reply)) return 0;
        if (aecp_coder_feed(&coder, samples, samples_len, &reply)) return 0;
        return !aecp_coder_finish(&coder, &reply);
    }
    if (is("next")) return !aecp_reader_open(&options, count, coded, coded_len, &reader, &reply);
    if (is_list() && !is_written()) return 0;
    if (is("read") || is("write") || is("asked") || (is_list() && !is_edit()))
        return !aecp_load(&options, AECP_ALL, coded, coded_len, &handle, &reply);
    return 1;
}

/* Reads all intervals. */
static uint32_t read_all(aecp_reply *reply) {
    size_t at = 0;
    while (!aecp_reader_next(&reader, back + at, room - at, reply) && reply->len) at += reply->len;
    reply->len = at;
    return reply->fault;
}

/* Makes the calls that only return a number. */
static uint32_t asked(aecp_reply *reply) {
    reply->len = aecp_size(&handle);
    return !(aecp_bound(&options, count) && aecp_calls(&handle) && aecp_version() == AECP_VERSION);
}

/* Appends three samples. */
static uint32_t edited(aecp_reply *reply) {
    const char *script = "append 1 2 3\n";
    aecp_edit_reply made;
    aecp_edit(&options, count, script, strlen(script), coded, coded_len, back, room, &made);
    *reply = made.reply;
    return made.reply.fault;
}

/* Writes the stream that the script leaves. */
static uint32_t edited_by_list(aecp_reply *reply) {
    aecp_edit_reply made;
    aecp_edit(&options, AECP_ALL, script, strlen(script), coded, coded_len, back, room, &made);
    *reply = made.reply;
    return made.reply.fault;
}

/* Applies the script. */
static uint32_t applied(aecp_reply *reply) {
    aecp_edit_reply made;
    aecp_apply(&handle, script, strlen(script), &made);
    *reply = made.reply;
    return made.reply.fault;
}

/* Returns the middle of the samples asked for. */
static uint32_t ranged(aecp_reply *reply) {
    uint64_t first = count / 2, len = count / 4;
    return aecp_range(&options, count, first, len, coded, coded_len, back, room, reply);
}

/* Makes the call. Returns its fault. */
static uint32_t made(aecp_reply *reply) {
    if (is("encode")) return aecp_encode(&options, samples, samples_len, back, room, reply);
    if (is("decode")) return aecp_decode(&options, count, coded, coded_len, back, room, reply);
    if (is("range")) return ranged(reply);
    if (is("offsets"))
        return aecp_offsets(&options, count, coded, coded_len, begins, total, reply);
    if (is("decode_at"))
        return aecp_decode_at(&options, 0, count, coded, coded_len, back, room, reply);
    if (is("edit")) return edited(reply);
    if (is("feed")) return aecp_coder_feed(&coder, samples, samples_len, reply);
    if (is("take")) return aecp_coder_take(&coder, back, room, reply);
    if (is("reader"))
        return aecp_reader_open(&options, count, coded, coded_len, &reader, reply);
    if (is("next")) return read_all(reply);
    if (is("read")) return aecp_read(&handle, 0, count, numbers, count, reply);
    if (is("write")) return aecp_write(&handle, back, room, reply);
    if (is_list()) return is_edit() ? edited_by_list(reply) : applied(reply);
    return is("asked") ? asked(reply) : 99;
}

int main(int words_len, char **words) {
    aecp_reply reply = {99, 99, 99};
    if (words_len != 8) return 2;
    call = words[1];
    options = (aecp_options)AECP_OPTIONS((uint32_t)strtoul(words[3], 0, 10));
    options.block_size = (uint32_t)strtoul(words[4], 0, 10);
    options.interval = (uint32_t)strtoul(words[5], 0, 10);
    total = strtoull(words[6], 0, 10);
    count = strtoull(words[7], 0, 10);
    if (!is_made(words[2]) || !is_opened()) return 3;
    if (write(2, "refuse\n", 7) != 7) return 2;
    uint32_t number = made(&reply);
    if (write(2, "grant\n", 6) != 6) return 2;
    if (is_list() && !is_edit() && number == 0 && aecp_write(&handle, 0, 0, &reply) != AECP_NO_ROOM) return 4;
    printf("%" PRIu32 " %" PRIu64 " %zu ", number, reply.len, coded_len);
    printf("%" PRIu64 "\n", aecp_bound(&options, count));
    return 0;
}
