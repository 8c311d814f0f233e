"""Coding, and decoding as bytes: worked values, and each kind of buffer of the standard library."""

import array
import ctypes
import struct
import sys

import aecp
import pytest
from helpers import CODED, EIGHT, kinds_of

OPTIONS = aecp.Options(8, block_size=8, interval=2)
KINDS = list(kinds_of(b""))


@pytest.fixture(params=["with numpy", "without numpy"], autouse=True)
def _modules(request):
    """Runs each test with numpy, and without."""
    request.getfixturevalue("numpy" if request.param == "with numpy" else "without_numpy")


@pytest.mark.parametrize("kind", KINDS)
def test_samples_in_each_kind_of_buffer(kind):
    """Eight samples are coded as by hand, in each kind of buffer, which stays as it is."""
    samples = kinds_of(EIGHT)[kind]
    coded = aecp.encode(samples, OPTIONS)
    assert type(coded) is bytes and coded == CODED
    assert bytes(samples) == EIGHT


@pytest.mark.parametrize("kind", KINDS)
def test_a_stream_in_each_kind_of_buffer(kind):
    """The worked stream is decoded, whole and in part, from each kind of buffer."""
    coded = kinds_of(CODED)[kind]
    stored = aecp.decode_bytes(coded, 8, OPTIONS)
    assert type(stored) is bytearray and stored == EIGHT
    assert aecp.decode_range_bytes(coded, 8, 2, 3, OPTIONS) == EIGHT[2:5]
    assert aecp.decode_bytes_at(coded, 0, 5, OPTIONS) == EIGHT[:5]
    assert list(aecp.offsets(coded, 8, OPTIONS)) == [0]
    assert bytes(coded) == CODED


@pytest.mark.parametrize("kind", KINDS)
def test_nothing_in_each_kind_of_buffer(kind):
    """No samples make no bytes, and no bytes make no samples."""
    nothing = kinds_of(b"")[kind]
    assert aecp.encode(nothing, OPTIONS) == b""
    assert aecp.decode_bytes(nothing, None, OPTIONS) == b""
    assert aecp.decode_bytes(nothing, 0, OPTIONS) == b""
    assert aecp.decode_range_bytes(nothing, 0, 0, 0, OPTIONS) == b""
    assert list(aecp.offsets(nothing, None, OPTIONS)) == []


def test_worked_values():
    """A block of sevens, with and without its filler, and a cut stream, by hand."""
    assert aecp.decode_bytes(b"\x00\x78", 5, OPTIONS) == b"\x07" * 5
    assert aecp.decode_bytes(b"\x00\x78", None, OPTIONS) == b"\x07" * 8
    with pytest.raises(aecp.StreamRefused, match="^coded data is cut short at bit 31$") as caught:
        aecp.decode_bytes(CODED, 9, OPTIONS)
    assert (caught.value.bit, caught.value.number) == (31, 6)
    with pytest.raises(aecp.SampleRefused, match="^sample 1 is out of range$") as caught:
        aecp.encode(b"\x0f\x10", aecp.Options(4))
    assert caught.value.index == 1


def test_more_samples_than_were_guessed():
    """Without a count, a stream of a few bytes may have thousands of samples."""
    coded = aecp.encode(bytes(9992), OPTIONS)
    assert len(coded) * 4 < 9992
    assert aecp.decode_bytes(coded, None, OPTIONS) == bytes(9992)
    assert aecp.decode_bytes_at(coded, 0, None, OPTIONS) == bytes(9992)
    assert aecp.decode_range_bytes(coded, None, 1, 9990, OPTIONS) == bytes(9990)


def test_an_incomplete_sample_is_dropped():
    """Bytes at the end that make no whole sample are dropped."""
    for options in (aecp.Options(16), aecp.Options(24, three_byte=True), aecp.Options(32)):
        data = bytes(range(24))
        for more in range(1, options.storage):
            assert aecp.encode(data + bytes(more), options) == aecp.encode(data, options)


def test_numbers_of_two_bytes():
    """Numbers of two bytes come back as they were stored."""
    options, numbers = aecp.Options(16), array.array("H", range(100))
    stored = numbers.tobytes()
    if sys.byteorder == "big":
        stored = bytes(n for i in range(100) for n in (i, 0))
    assert aecp.decode_bytes(aecp.encode(stored, options), 100, options) == stored


def test_items_that_lie_apart():
    """Items that don't lie side by side are refused."""
    apart = memoryview(bytes(16))[::2]
    with pytest.raises(TypeError, match="^the bytes of samples must lie one after the other$"):
        aecp.encode(apart, OPTIONS)
    with pytest.raises(TypeError, match="^the bytes of coded must lie one after the other$"):
        aecp.decode_bytes(apart, 8, OPTIONS)


# A typecode, bits and numbers.
INTEGERS = [
    ("H", 16, [0, 1, 258, 65535]),
    ("h", 12, [-2048, -1, 0, 515]),
    ("I", 32, [7, 2**31, 66051]),
    ("i", 20, [-5, 4, 66051]),
]
C_TYPES = {"H": ctypes.c_uint16, "h": ctypes.c_int16, "I": ctypes.c_uint32, "i": ctypes.c_int32}


def _integers_of(numbers, code):
    """Returns the numbers in each kind of buffer of this typecode."""
    held, kind = array.array(code, numbers), C_TYPES[code]
    in_c = [(it * len(numbers))(*numbers) for it in (kind, kind.__ctype_le__, kind.__ctype_be__)]
    return [held, memoryview(held), memoryview(held.tobytes()).cast(code), *in_c]


@pytest.mark.parametrize("msb_first", [False, True])
@pytest.mark.parametrize(("code", "bits", "numbers"), INTEGERS)
def test_buffers_of_integers(code, bits, numbers, msb_first):
    """Integers in either byte order are coded like the same numbers stored as the options say."""
    options = aecp.Options(bits, signed=code.islower(), msb_first=msb_first)
    stored = struct.pack(f"{'>' if msb_first else '<'}{len(numbers)}{code}", *numbers)
    wanted = aecp.encode(stored, options)
    assert aecp.decode_bytes(wanted, len(numbers), options) == stored
    for held in _integers_of(numbers, code):
        before, coder = bytes(held), aecp.Encoder(options)
        assert aecp.encode(held, options) == wanted
        assert coder.feed(held) + coder.finish() == wanted
        assert coder.count == len(numbers)
        assert bytes(held) == before
    apart = memoryview(array.array(code, numbers * 2))[::2]
    for call in (aecp.encode, lambda given, options: aecp.Encoder(options).feed(given)):
        with pytest.raises(TypeError, match="^the bytes of samples must lie one after the other$"):
            call(apart, options)


OF_BYTES = [
    aecp.Options(8),
    aecp.Options(8, signed=True),
    aecp.Options(16, msb_first=True),
    aecp.Options(32, signed=True),
    aecp.Options(24, three_byte=True),
]


@pytest.mark.parametrize("options", OF_BYTES, ids=str)
def test_buffers_of_bytes(options):
    """Buffers whose items are bytes, of any format and shape, are stored samples."""
    data = bytes(range(64))
    same = [
        bytearray(data),
        array.array("b", data),
        (ctypes.c_ubyte * 64)(*data),
        (ctypes.c_byte * 64)(*data),
        (ctypes.c_char * 64)(*data),
        memoryview(data).cast("B", (8, 8)),
        *(memoryview(data).cast(code) for code in ("B", "b", "c", "@B")),
    ]
    wanted = aecp.encode(data, options)
    for held in same:
        assert aecp.encode(held, options) == wanted, memoryview(held).format


MODELS = [
    {"bits": 8, "block_size": 8, "interval": 2},
    {"bits": 16, "signed": True, "msb_first": True},
    {"bits": 3, "restricted": True, "pad": True, "interval": 3},
    {"bits": 24, "three_byte": True, "preprocess": False},
    {"bits": 32, "block_size": 64, "interval": 1, "signed": True},
    {"bits": 12, "block_size": 10, "even_blocks": True},
]


@pytest.mark.parametrize("named", MODELS, ids=str)
def test_streams_of_the_plain_coder(models, named):
    """The stream is that of the plain coder, which was written from FORMAT.md, with each option."""
    defaults = {"block_size": 16, "interval": 128}
    settings = models("settings").Settings(**{**defaults, **named})
    options, stream = aecp.Options(**named), models("plain_coder").stream
    span = options.most - options.least + 1
    samples = [options.least + (7 * i * i + i // 5) % min(span, 99) for i in range(1000)]
    stored = settings.stored(samples)
    coded = stream(samples, settings)
    assert aecp.encode(stored, options) == coded
    assert aecp.decode_bytes(coded, 1000, options) == stored
    assert aecp.Workspace(options, samples).tobytes() == coded
    assert list(aecp.Workspace.of_coded(coded, 1000, options)) == samples
