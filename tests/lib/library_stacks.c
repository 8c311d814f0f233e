/* Measures how much stack a call of libaecp takes, for library_memory.py: `library_stacks CALL KIB` makes a call with many settings,
 * each time in a thread with a stack of KIB KiB that has no memory below it. Prints how many bytes of the stack were written at most.
 * With the call `none` that is what a thread itself takes. */
#include <aecp.h>
#include <pthread.h>
#include <stdio.h>
#include <stdlib.h>
#include <string.h>
#include <sys/mman.h>

enum { SAMPLES = 3000, FRONT = 1000, PART = 700, ROOM = 8 * SAMPLES, GUARD = 1 << 20, PAINT = 0xA5 };

static const char *call;
static uint8_t samples[4 * SAMPLES], coded[ROOM], back[ROOM];
static int64_t values[SAMPLES], numbers[SAMPLES];
static uint64_t begins[SAMPLES];
static aecp_options options;
static aecp_handle handle;
static aecp_coder coder;
static aecp_reader reader;
static size_t samples_len, coded_len;

/* Fills `samples` and `values` with zeros and values of all widths in turn. */
static void fill(void) {
    size_t width = options.bits > 16 ? 4 : options.bits > 8 ? 2 : 1;
    unsigned seed = options.bits;
    samples_len = width * SAMPLES;
    for (size_t i = 0; i < SAMPLES; i++) {
        uint32_t value = i / 300 % 3 == 0 ? 0 : (uint32_t)rand_r(&seed) << 1;
        value >>= 32 - options.bits;
        value >>= i / 64 % options.bits;
        for (size_t b = 0; b < width; b++) samples[i * width + b] = (uint8_t)(value >> (8 * b));
        values[i] = value;
    }
}

/* Writes a script with each kind of edit; the last one appends the first 100 values. Returns its length. */
static size_t write_script(char *script) {
    int len = sprintf(script, "insert %d 0 1\nremove 0 700\noverwrite 5 1 0\ntruncate 900\nappend", FRONT);
    for (int i = 0; i < 100; i++) len += sprintf(script + len, " %lld", (long long)values[i]);
    return (size_t)len;
}

/* Edits a stream by the script. */
static int is_edited(void) {
    static char script[8000];
    aecp_edit_reply edited;
    size_t len = write_script(script);
    if (aecp_edit(&options, SAMPLES, script, len, coded, coded_len, back, ROOM, &edited)) return 0;
    return edited.samples == 1000;
}

/* Edits the workspace by the script. */
static int is_applied(void) {
    static char script[8000];
    aecp_edit_reply applied;
    return !aecp_apply(&handle, script, write_script(script), &applied) && applied.samples == 1000;
}

static int is(const char *name) {
    return !strcmp(call, name);
}

/* Makes the call. Returns whether it ends as it must. */
static int ends(void) {
    aecp_reply reply = {0, 0, 0};
    if (is("none")) return 1;
    if (is("version")) return aecp_version() == AECP_VERSION;
    if (is("encode")) return !aecp_encode(&options, samples, samples_len, back, ROOM, &reply);
    if (is("decode")) return !aecp_decode(&options, SAMPLES, coded, coded_len, back, ROOM, &reply);
    if (is("offsets")) return !aecp_offsets(&options, SAMPLES, coded, coded_len, begins, SAMPLES, &reply) && reply.len;
    if (is("decode_at")) return !aecp_decode_at(&options, 0, SAMPLES, coded, coded_len, back, ROOM, &reply);
    if (is("range")) return !aecp_range(&options, SAMPLES, FRONT, PART, coded, coded_len, back, ROOM, &reply);
    if (is("edit")) return is_edited();
    if (is("bound")) return aecp_bound(&options, SAMPLES) >= coded_len;
    if (is("open")) return !aecp_open(&options, &handle, &reply);
    if (is("load")) return !aecp_load(&options, SAMPLES, coded, coded_len, &handle, &reply);
    if (is("append")) return !aecp_append(&handle, values, PART, &reply);
    if (is("truncate")) return !aecp_truncate(&handle, FRONT + 1, &reply);
    if (is("remove")) return !aecp_remove(&handle, FRONT, PART, &reply);
    if (is("overwrite")) return !aecp_overwrite(&handle, FRONT, values, PART, &reply);
    if (is("insert")) return !aecp_insert(&handle, FRONT, values, PART, &reply);
    if (is("apply")) return is_applied();
    if (is("read")) return !aecp_read(&handle, FRONT, PART, numbers, SAMPLES, &reply);
    if (is("write")) return !aecp_write(&handle, back, ROOM, &reply);
    if (is("size")) return aecp_size(&handle) == SAMPLES;
    if (is("calls")) return aecp_calls(&handle) > 0;
    if (is("close")) return aecp_close(&handle), aecp_size(&handle) == 0;
    if (is("coder_open")) return !aecp_coder_open(&options, &coder, &reply);
    if (is("coder_feed")) return !aecp_coder_feed(&coder, samples, samples_len, &reply);
    if (is("coder_finish")) return !aecp_coder_finish(&coder, &reply);
    if (is("coder_take")) return !aecp_coder_take(&coder, back, ROOM, &reply);
    if (is("coder_close")) return aecp_coder_close(&coder), 1;
    if (is("reader_open")) return !aecp_reader_open(&options, SAMPLES, coded, coded_len, &reader, &reply);
    if (is("reader_next")) return !aecp_reader_next(&reader, back, ROOM, &reply) && reply.len;
    if (is("reader_go_to")) return !aecp_reader_go_to(&reader, UINT64_MAX, &reply) && reply.len == SAMPLES;
    if (is("reader_close")) return aecp_reader_close(&reader), 1;
    if (is("text")) {
        char text[80];
        int longest = 0;
        for (reply = (aecp_reply){0, UINT64_MAX, UINT64_MAX}; reply.fault < 22; reply.fault++)
            longest |= aecp_text(&reply, text, sizeof text) > 30;
        return longest;
    }
    return 0;
}

static void *work(void *ended) {
    *(int *)ended = ends();
    return 0;
}

/* Makes the call in a thread with a stack of `size` bytes. Returns how many of these are written, 0 if it doesn't end as it must. */
static size_t taken(size_t size) {
    uint8_t *memory = mmap(0, GUARD + size, PROT_NONE, MAP_PRIVATE | MAP_ANONYMOUS, -1, 0), *stack = memory + GUARD;
    pthread_attr_t attributes;
    pthread_t thread;
    int ended = 0;
    size_t left = 0;
    if (memory == MAP_FAILED || mprotect(stack, size, PROT_READ | PROT_WRITE)) return 0;
    memset(stack, PAINT, size);
    if (pthread_attr_init(&attributes) || pthread_attr_setstack(&attributes, stack, size)) return 0;
    if (pthread_create(&thread, &attributes, work, &ended) || pthread_join(thread, 0)) return 0;
    while (left < size && stack[left] == PAINT) left++;
    munmap(memory, GUARD + size);
    return ended ? size - left : 0;
}

/* Does the same with the current settings and samples for them. Refused settings take nothing. */
static int try_settings(size_t size, size_t *most) {
    aecp_reply reply;
    fill();
    if (aecp_encode(&options, samples, samples_len, coded, ROOM, &reply)) return reply.fault <= AECP_RESTRICTED_WIDTH;
    coded_len = reply.len;
    if (aecp_load(&options, SAMPLES, coded, coded_len, &handle, &reply)) return 0;
    if (aecp_coder_open(&options, &coder, &reply) || aecp_coder_feed(&coder, samples, samples_len / 2, &reply)) return 0;
    if (aecp_reader_open(&options, SAMPLES, coded, coded_len, &reader, &reply)) return 0;
    size_t bytes = taken(size);
    aecp_close(&handle);
    aecp_coder_close(&coder);
    aecp_reader_close(&reader);
    if (bytes > *most) *most = bytes;
    return bytes > 0;
}

int main(int count, char **words) {
    const uint32_t sizes[] = {8, 10, 16, 32, 64}, widths[] = {1, 3, 8, 12, 16, 20, 32}, intervals[] = {1, 128, 4096};
    size_t most = 0;
    if (count != 3) return 2;
    call = words[1];
    for (int i = 0; i < 5 * 7 * 3 * 4; i++) {
        options = (aecp_options)AECP_OPTIONS(widths[i % 7]);
        options.block_size = sizes[i / 7 % 5];
        options.interval = intervals[i / 35 % 3];
        options.even_blocks = options.block_size == 10;
        options.preprocess = i / 105 % 2 == 0;
        options.pad = options.restricted = i / 210 % 2;
        if (!try_settings(1024 * strtoul(words[2], 0, 10), &most)) return 1;
    }
    printf("%zu\n", most);
    return 0;
}
