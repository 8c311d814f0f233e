/* Calls of libaecp for tests/library.py. `library_calls CALL BITS BLOCK INTERVAL FLAGS COUNT FIRST LEN ROOM HEX` makes one call with a
 * buffer of ROOM bytes, and prints its fault, place and length, the bytes of the result, and its text. FLAGS are the letters of the
 * program's options, and e for --even-blocks. `library_calls threads` codes and decodes in eight threads at once. `library_calls nulls`
 * passes NULL for buffers of no bytes. The bytes before and after a call's buffer must stay unchanged. */
#include <aecp.h>
#include <pthread.h>
#include <stdio.h>
#include <stdlib.h>
#include <string.h>
#include <unistd.h>

enum { EDGE = 16, MOST = 1 << 16, THREADS = 8, ROUNDS = 200, SAMPLES = 3000 };

typedef struct {
    const char *call;
    aecp_options options;
    uint64_t count, first, len;
    size_t room, given_len;
    uint8_t *given;
} asked;

static _Alignas(uint64_t) uint8_t buffer[EDGE + MOST + EDGE];

/* How many bytes an item of the call's result has. */
static size_t unit(const asked *it) {
    return strcmp(it->call, "offsets") ? 1 : sizeof(uint64_t);
}

/* Loads a workspace, inserts three numbers before place FIRST, and writes the stream. A refused edit must not change the size. */
static uint32_t edited(const asked *it, uint8_t *out, aecp_reply *reply) {
    const int64_t values[] = {9, 9, 9};
    aecp_handle handle = AECP_HANDLE;
    uint32_t number = aecp_load(&it->options, it->count, it->given, it->given_len, &handle, reply);
    uint64_t size = aecp_size(&handle);
    if (number == 0) number = aecp_insert(&handle, it->first, values, 3, reply);
    if (number != 0 && aecp_size(&handle) != size) number = 98;
    if (number == 0) number = aecp_write(&handle, out, it->room, reply);
    aecp_close(&handle);
    return number;
}

/* Does the same by a script. A refused edit must name line 1, and only an edited stream has samples. */
static uint32_t scripted(const asked *it, uint8_t *out, aecp_reply *reply) {
    char script[64];
    aecp_edit_reply made = {{99, 99, 99}, 99, 99};
    int len = snprintf(script, sizeof script, "insert %llu 9 9 9\n", (unsigned long long)it->first);
    uint32_t number = aecp_edit(&it->options, it->count, script, (size_t)len, it->given, it->given_len, out, it->room, &made);
    *reply = made.reply;
    if (number == 0 || number == AECP_NO_ROOM) return made.samples == it->count + 3 && made.line == 0 ? number : 97;
    return made.samples == 0 && made.line == (number == AECP_OUT_OF_RANGE) ? number : made.line == 1 && number == AECP_MEMORY ? number : 96;
}

/* Does the same by a script on a workspace. Only applied edits change the size, and a refusal for memory names no line. */
static uint32_t applied(const asked *it, uint8_t *out, aecp_reply *reply) {
    char script[64];
    aecp_handle handle = AECP_HANDLE;
    aecp_edit_reply made = {{99, 99, 99}, 99, 99};
    int len = snprintf(script, sizeof script, "insert %llu 9\nappend\ninsert %llu 9 9\n", (unsigned long long)it->first,
                       (unsigned long long)it->first);
    uint32_t number = aecp_load(&it->options, it->count, it->given, it->given_len, &handle, reply);
    if (number == 0) {
        number = aecp_apply(&handle, script, (size_t)len, &made);
        *reply = made.reply;
        uint64_t size = number == 0 ? it->count + 3 : it->count;
        if (aecp_size(&handle) != size || made.samples != (number == 0 ? size : 0) || made.line != 0) number = 95;
    }
    if (number == 0) number = aecp_write(&handle, out, it->room, reply);
    aecp_close(&handle);
    return number;
}

static uint32_t made(const asked *it, uint8_t *out, aecp_reply *reply) {
    if (!strcmp(it->call, "encode"))
        return aecp_encode(&it->options, it->given, it->given_len, out, it->room, reply);
    if (!strcmp(it->call, "decode"))
        return aecp_decode(&it->options, it->count, it->given, it->given_len, out, it->room, reply);
    if (!strcmp(it->call, "decode_at"))
        return aecp_decode_at(&it->options, it->first, it->count, it->given, it->given_len, out, it->room, reply);
    if (!strcmp(it->call, "offsets"))
        return aecp_offsets(&it->options, it->count, it->given, it->given_len, (uint64_t *)(void *)out, it->room / unit(it), reply);
    if (!strcmp(it->call, "edit")) return edited(it, out, reply);
    if (!strcmp(it->call, "script")) return scripted(it, out, reply);
    if (!strcmp(it->call, "apply")) return applied(it, out, reply);
    return aecp_range(&it->options, it->count, it->first, it->len, it->given, it->given_len, out, it->room, reply);
}

static int is_untouched(const uint8_t *from, const uint8_t *to) {
    while (from < to)
        if (*from++ != 0xA5) return 0;
    return 1;
}

/* Makes one call, between the words that tests/lib/refusing.py looks for on standard error. */
static int try_call(const asked *it) {
    aecp_reply reply = {99, 99, 99};
    char text[200];
    uint8_t *out = buffer + EDGE;
    memset(buffer, 0xA5, sizeof buffer);
    if (write(2, "refuse\n", 7) != 7) return 2;
    uint32_t number = made(it, out, &reply);
    if (write(2, "grant\n", 6) != 6) return 2;
    size_t filled = number == 0 ? reply.len * unit(it) : 0;
    if (filled > it->room || number != reply.fault) return 3;
    if (!is_untouched(buffer, out) || !is_untouched(out + filled, buffer + sizeof buffer)) return 4;
    size_t length = aecp_text(&reply, text, sizeof text);
    if (length != strlen(text)) return 5;
    printf("%u %llu %llu ", number, (unsigned long long)reply.place, (unsigned long long)reply.len);
    for (size_t i = 0; i < filled; i++) printf("%02x", out[i]);
    printf(" %s\n", text);
    return 0;
}

static aecp_options options_of(char **words) {
    const char *flags = words[3];
    aecp_options options = AECP_OPTIONS((uint32_t)strtoul(words[0], 0, 10));
    options.block_size = (uint32_t)strtoul(words[1], 0, 10);
    options.interval = (uint32_t)strtoul(words[2], 0, 10);
    options.is_signed = strchr(flags, 's') != 0;
    options.msb_first = strchr(flags, 'm') != 0;
    options.three_byte = strchr(flags, '3') != 0;
    options.preprocess = strchr(flags, 'N') == 0;
    options.pad = strchr(flags, 'p') != 0;
    options.restricted = strchr(flags, 't') != 0;
    options.even_blocks = strchr(flags, 'e') != 0;
    return options;
}

static int call(char **words) {
    static uint8_t given[MOST];
    asked it = {words[0], options_of(words + 1), strtoull(words[5], 0, 10), strtoull(words[6], 0, 10), strtoull(words[7], 0, 10),
                strtoul(words[8], 0, 10), strlen(words[9]) / 2, given};
    if (it.room > MOST || it.given_len > MOST) return 2;
    for (size_t i = 0; i < it.given_len; i++) {
        unsigned byte;
        if (sscanf(words[9] + 2 * i, "%2x", &byte) != 1) return 2;
        given[i] = (uint8_t)byte;
    }
    return try_call(&it);
}

/* Codes and decodes random samples, again and again. */
static void *work(void *seed) {
    aecp_options options = AECP_OPTIONS(16);
    unsigned state = *(unsigned *)seed;
    uint64_t room = aecp_bound(&options, SAMPLES);
    uint8_t samples[2 * SAMPLES], back[2 * SAMPLES], *coded = malloc(room);
    aecp_reply reply;
    for (int round = 0; coded && round < ROUNDS; round++) {
        for (size_t i = 0; i < sizeof samples; i++) samples[i] = (uint8_t)(rand_r(&state) >> (round % 8 + 8) & 0xFF >> round % 8);
        if (aecp_encode(&options, samples, sizeof samples, coded, room, &reply)) break;
        if (aecp_decode(&options, SAMPLES, coded, reply.len, back, sizeof back, &reply)) break;
        if (reply.len != sizeof back || memcmp(samples, back, sizeof back)) break;
        if (round == ROUNDS - 1) *(unsigned *)seed = 0;
    }
    free(coded);
    return 0;
}

static int threads(void) {
    pthread_t all[THREADS];
    unsigned seeds[THREADS];
    for (unsigned i = 0; i < THREADS; i++) {
        seeds[i] = i + 1;
        if (pthread_create(&all[i], 0, work, &seeds[i])) return 2;
    }
    int right = 0;
    for (int i = 0; i < THREADS; i++) right += !pthread_join(all[i], 0) && seeds[i] == 0;
    printf("%d of %d threads\n", right, THREADS);
    return 0;
}

static void say(const char *call, uint32_t number, const aecp_reply *reply) {
    printf("%s %u %llu\n", call, number, (unsigned long long)reply->len);
}

/* Passes NULL for buffers of no bytes, where no buffer is needed and where one is. */
static int nulls(void) {
    aecp_options options = AECP_OPTIONS(8);
    uint8_t samples[8] = {0, 1, 2, 3, 4, 5, 6, 7}, coded[8];
    aecp_reply reply = {99, 99, 99}, made;
    if (aecp_encode(&options, samples, 8, coded, 8, &made)) return 2;
    say("encode", aecp_encode(&options, 0, 0, 0, 0, &reply), &reply);
    say("decode", aecp_decode(&options, 0, 0, 0, 0, 0, &reply), &reply);
    say("decode", aecp_decode(&options, AECP_ALL, 0, 0, 0, 0, &reply), &reply);
    say("range", aecp_range(&options, AECP_ALL, 0, 0, 0, 0, 0, 0, &reply), &reply);
    say("decode", aecp_decode(&options, 1, 0, 0, 0, 0, &reply), &reply);
    say("encode", aecp_encode(&options, samples, 8, 0, 0, &reply), &reply);
    say("decode", aecp_decode(&options, 8, coded, made.len, 0, 0, &reply), &reply);
    say("range", aecp_range(&options, 8, 2, 3, coded, made.len, 0, 0, &reply), &reply);
    printf("text %zu\n", aecp_text(&reply, 0, 0));
    say("offsets", aecp_offsets(&options, 0, 0, 0, 0, 0, &reply), &reply);
    say("offsets", aecp_offsets(&options, 8, coded, made.len, 0, 0, &reply), &reply);
    say("decode_at", aecp_decode_at(&options, 0, 0, 0, 0, 0, 0, &reply), &reply);
    say("decode_at", aecp_decode_at(&options, 0, 8, coded, made.len, 0, 0, &reply), &reply);
    aecp_edit_reply edited;
    uint32_t number = aecp_edit(&options, AECP_ALL, 0, 0, 0, 0, 0, 0, &edited);
    say("edit", number, &edited.reply);
    number = aecp_edit(&options, 8, 0, 0, coded, made.len, 0, 0, &edited);
    say("edit", number, &edited.reply);
    return 0;
}

int main(int count, char **words) {
    if (count == 2 && !strcmp(words[1], "threads")) return threads();
    if (count == 2 && !strcmp(words[1], "nulls")) return nulls();
    if (count == 11) return call(words + 1);
    fputs("library_calls CALL BITS BLOCK INTERVAL FLAGS COUNT FIRST LEN ROOM HEX, or library_calls threads, or library_calls nulls\n", stderr);
    return 2;
}
