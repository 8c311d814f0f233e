/* One call of libaecp or of libaec, from buffer to buffer. The answer of decoding has `out_len` bytes. */
#include <aecp.h>
#include <libaec.h>

typedef struct {
    unsigned bits, is_signed, block, interval;
    int is_ours, is_coding;
    uint8_t *in, *out;
    size_t in_len, out_len;
} work;

static long ours(const work *it) {
    aecp_options options = AECP_OPTIONS(it->bits);
    aecp_reply reply;
    uint64_t storage = it->bits <= 8 ? 1 : it->bits <= 16 ? 2 : 4;
    options.is_signed = it->is_signed;
    options.block_size = it->block;
    options.interval = it->interval;
    uint32_t fault = it->is_coding
                         ? aecp_encode(&options, it->in, it->in_len, it->out, it->out_len, &reply)
                         : aecp_decode(&options, it->out_len / storage, it->in, it->in_len, it->out, it->out_len, &reply);
    return fault ? -1 : (long)reply.len;
}

static long theirs(const work *it) {
    struct aec_stream stream = {.next_in = it->in,
                                .avail_in = it->in_len,
                                .next_out = it->out,
                                .avail_out = it->out_len,
                                .bits_per_sample = it->bits,
                                .block_size = it->block,
                                .rsi = it->interval,
                                .flags = AEC_DATA_PREPROCESS | (it->is_signed ? AEC_DATA_SIGNED : 0)};
    int fault = it->is_coding ? aec_buffer_encode(&stream) : aec_buffer_decode(&stream);
    return fault ? -1 : (long)stream.total_out;
}

static long call(const work *it) { return it->is_ours ? ours(it) : theirs(it); }
