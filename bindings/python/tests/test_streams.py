"""Coding and decoding in pieces, from a bit on, and edits by a script."""

import array
import random

import aecp
import pytest
from helpers import CODED, EIGHT

OPTIONS = aecp.Options(8, block_size=8, interval=2)
# 48 zeros are three intervals of 14 bits (FORMAT: The whole stream).
ZEROS, ZERO_OFFSETS = bytes.fromhex("000400100040"), [0, 14, 28]


@pytest.mark.parametrize("size", [1, 2, 3, 5, 16, 63, 1000])
@pytest.mark.parametrize(
    "options",
    [OPTIONS, aecp.Options(16), aecp.Options(24, three_byte=True, interval=1), aecp.Options(32)],
    ids=str,
)
def test_samples_in_pieces(options, size):
    """The pieces of an Encoder are the stream of all samples, wherever these are cut, and `count`
    has the whole samples so far."""
    stored = random.Random(size).randbytes(12 * 83)
    coder, out = aecp.Encoder(options), []
    for at in range(0, len(stored), size):
        out.append(coder.feed(stored[at : at + size]))
        assert coder.count == min(at + size, len(stored)) // options.storage
    out.append(coder.finish())
    assert b"".join(out) == aecp.encode(stored, options) and all(type(it) is bytes for it in out)
    assert coder.count == len(stored) // options.storage


def test_intervals_that_became_complete():
    """feed returns the bytes of an interval as soon as its last sample is fed."""
    coder = aecp.Encoder(aecp.Options(8, block_size=8, interval=1, pad=True))
    assert coder.feed(EIGHT[:7]) == b""
    assert coder.feed(EIGHT[7:]) == CODED
    assert coder.feed(b"") == b"" and coder.finish() == b""


def test_an_incomplete_sample_is_dropped():
    """finish drops the bytes at the end that make no whole sample."""
    coder = aecp.Encoder(aecp.Options(16))
    first = coder.feed(b"\1\2\3")
    assert coder.count == 1
    assert first + coder.finish() == aecp.encode(b"\1\2", aecp.Options(16))


def test_the_fault_of_an_encoder_stays():
    """After a sample out of range, each feed and finish raise its fault, with its index among
    all."""
    coder = aecp.Encoder(aecp.Options(4))
    coder.feed(b"\1\2\3")
    for samples in (b"\4\x10", b"\1", b""):
        with pytest.raises(aecp.SampleRefused, match="^sample 4 is out of range$") as caught:
            coder.feed(samples)
        assert caught.value.index == 4 and coder.count == 3
    with pytest.raises(aecp.SampleRefused):
        coder.finish()
    with pytest.raises(aecp.NotOpen):
        coder.finish()


def test_a_refused_feed_counts_nothing():
    """Samples that a feed refuses aren't counted."""
    coder = aecp.Encoder(aecp.Options(16))
    coder.feed(bytes(10))
    with pytest.raises(TypeError):
        coder.feed([1, 2])
    assert coder.count == 5


def test_intervals_one_by_one():
    """A Decoder returns interval by interval, then nothing, and can go anywhere."""
    decoder = aecp.Decoder(ZEROS, 40, OPTIONS)
    sizes = [len(decoder.next_bytes()) for _ in range(5)]
    assert sizes == [16, 16, 8, 0, 0]
    assert [decoder.go_to(place) for place in (0, 2, 1, 3, 2**64 - 1)] == [0, 32, 16, 40, 40]
    decoder.go_to(1)
    assert len(decoder.next_bytes()) == 16 and len(decoder.next_bytes()) == 8
    assert iter(decoder) is decoder


@pytest.mark.parametrize("count", [None, 0, 1, 15, 16, 17, 32, 47, 48])
def test_the_count_of_a_decoder(count):
    """A Decoder returns exactly the first `count` samples, or all."""
    samples = bytes(range(48))
    decoder = aecp.Decoder(aecp.encode(samples, OPTIONS), count, OPTIONS)
    got = b"".join(iter(decoder.next_bytes, b""))
    assert got == samples[:count]


def test_what_a_decoder_returns_is_the_caller_s_own():
    """The samples of an interval stay when the next one is read."""
    samples = bytes(range(32))
    decoder = aecp.Decoder(aecp.encode(samples, OPTIONS), 32, OPTIONS)
    first = decoder.next_bytes()
    assert type(first) is bytearray
    decoder.next_bytes()
    assert first == samples[:16]
    first.append(0)


def test_a_decoder_holds_a_copy():
    """A Decoder holds a copy of the stream, which may change afterwards."""
    coded = bytearray(CODED)
    decoder = aecp.Decoder(coded, 8, OPTIONS)
    coded[:] = bytes(9)
    assert decoder.next_bytes() == EIGHT


def test_the_fault_of_a_decoder():
    """A fault is raised when its interval is reached, and the decoder stays where it was."""
    decoder = aecp.Decoder(ZEROS, 49, OPTIONS)
    assert decoder.go_to(2) == 32
    assert decoder.next_bytes() == bytes(16)
    for call in (decoder.next_bytes, lambda: decoder.go_to(4), decoder.next_bytes):
        with pytest.raises(
            aecp.StreamRefused, match="^coded data is cut short at bit 42$"
        ) as caught:
            call()
        assert caught.value.bit == 42
    decoder.go_to(0)
    assert decoder.next_bytes() == bytes(16)


def test_offsets():
    """The offsets are those of the worked stream, as an array of 64-bit numbers."""
    offsets = aecp.offsets(ZEROS, 48, OPTIONS)
    assert (type(offsets).__name__, offsets.typecode) == ("array", "Q")
    assert list(offsets) == list(aecp.offsets(ZEROS, None, OPTIONS)) == ZERO_OFFSETS
    for count, length in ((0, 0), (1, 1), (16, 1), (17, 2), (33, 3)):
        assert list(aecp.offsets(ZEROS, count, OPTIONS)) == ZERO_OFFSETS[:length]
    with pytest.raises(aecp.StreamRefused) as caught:
        aecp.offsets(ZEROS, 49, OPTIONS)
    assert caught.value.bit == 42


def test_more_offsets_than_were_guessed():
    """Without a count, there can be more intervals than bytes of the stream divided by blocks."""
    options = aecp.Options(1, block_size=64, interval=1, preprocess=False)
    coded = aecp.encode(bytes(64 * 1000), options)
    offsets = aecp.offsets(coded, None, options)
    assert len(offsets) == 1000 > len(coded) and offsets == aecp.offsets(coded, 64000, options)
    assert list(offsets) == [offsets[1] * i for i in range(1000)]


def test_samples_from_a_bit_on():
    """Samples from an offset on, with the bytes before it and without."""
    assert aecp.decode_bytes_at(b"\xff" + CODED, 8, 5, OPTIONS) == EIGHT[:5]
    assert aecp.decode_bytes_at(ZEROS, 14, 17, OPTIONS) == bytes(17)
    assert aecp.decode_bytes_at(ZEROS, 28, None, OPTIONS) == bytes(16)
    assert aecp.decode_bytes_at(CODED, 32, None, OPTIONS) == b""


@pytest.mark.parametrize(("bit", "pad"), [(33, False), (2**64 - 1, False), (4, True)])
def test_a_bit_where_no_interval_begins(bit, pad):
    """A bit after the end, or inside a byte with padding, is refused with the stream's bits."""
    with pytest.raises(
        aecp.BitRefused, match="^the bit is past the stream's 32 bits or, "
    ) as caught:
        aecp.decode_bytes_at(CODED, bit, 0, aecp.Options(8, block_size=8, interval=2, pad=pad))
    assert (caught.value.bits, caught.value.number) == (32, 20)


@pytest.mark.parametrize(
    "script", ["insert 2 9 9 9", b"insert 2 9 9 9", bytearray(b"insert 2 9 9 9\n")]
)
def test_a_script(script):
    """A script, as text or bytes, edits a stream; the result has its count."""
    wanted = [0, 1, 9, 9, 9, 2, 3, 4, 5, 6, 7]
    coded, count = aecp.edit(CODED, 8, script, OPTIONS)
    assert type(coded) is bytes and type(count) is int
    assert (list(aecp.decode_bytes(coded, count, OPTIONS)), count) == (wanted, 11)
    assert coded == aecp.Workspace(OPTIONS, wanted).tobytes()


def test_the_count_of_an_edited_stream():
    """A script applies to the first `count` samples, or to all with the filler of the last
    block."""
    assert aecp.edit(CODED, 5, "", OPTIONS)[1] == 5
    assert aecp.edit(b"\x00\x78", None, "append 1", OPTIONS)[1] == 9
    assert aecp.edit(b"", 0, "", OPTIONS) == (b"", 0)


def test_a_long_script():
    """An edited stream may be far longer than the stream and the script."""
    options = aecp.Options(32, block_size=8, interval=1)
    script = "append" + " 1 4294967295" * 20000
    coded, count = aecp.edit(b"", 0, script, options)
    assert count == 40000 and len(coded) > 150000
    assert (
        aecp.decode_bytes(coded, count, options)
        == array.array("I", [1, 2**32 - 1] * 20000).tobytes()
    )


def test_an_edited_stream_that_is_far_longer():
    """A short script may make a stream many times as long as before."""
    options = aecp.Options(32, block_size=8, interval=2)
    # Each interval has equal samples, until one more sample moves all others.
    stored = array.array(
        "I", [i * 2654435761 % 2**32 for i in range(2000) for _ in range(16)]
    ).tobytes()
    before = aecp.encode(stored, options)
    coded, count = aecp.edit(before, 32000, "insert 0 5", options)
    assert count == 32001 and len(coded) > 2 * len(before) + 8192
    assert aecp.decode_bytes(coded, count, options) == b"\5\0\0\0" + stored


REFUSED = [
    ("append 1\nappend 2 x", aecp.ScriptRefused, 2, 2),
    ("\n\nfly 1", aecp.ScriptRefused, 3, 3),
    ("append 1\nremove 9 1", aecp.RangeRefused, 2, 9),
    ("append 1 2 300", aecp.SampleRefused, 1, 2),
    ("append 1\nappend 2\noverwrite 8 1 256", aecp.SampleRefused, 3, 1),
]


@pytest.mark.parametrize(("script", "kind", "line", "place"), REFUSED)
def test_a_refused_script(script, kind, line, place):
    """A refused line is named, and so is its place."""
    with pytest.raises(kind, match=f"line {line}") as caught:
        aecp.edit(CODED, 8, script, OPTIONS)
    assert (caught.value.line, caught.value.place) == (line, place)


def test_a_script_for_a_wrong_stream():
    """A refused stream has no line."""
    with pytest.raises(aecp.StreamRefused, match="^coded data is cut short at bit 31$") as caught:
        aecp.edit(CODED, 9, "append 1", OPTIONS)
    assert (caught.value.line, caught.value.bit) == (0, 31)
