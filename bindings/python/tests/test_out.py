"""`out`, which is filled from its start, or refused and left unchanged; and counts that are too
great."""

import subprocess
import sys

import aecp
import aecp.calls
import pytest
from helpers import CODED

OPTIONS, STORED = aecp.Options(16), bytes(range(100)) * 2
SHORT = aecp.Options(16, block_size=8, interval=2)
CALLS = {
    "decode_bytes": lambda coded, out: aecp.decode_bytes(coded, 100, OPTIONS, out=out),
    "decode_range_bytes": lambda coded, out: aecp.decode_range_bytes(
        coded, 100, 0, 100, OPTIONS, out=out
    ),
    "decode_bytes_at": lambda coded, out: aecp.decode_bytes_at(coded, 0, 100, OPTIONS, out=out),
}
ARRAY_CALLS = {
    "decode": lambda coded, out: aecp.decode(coded, 100, OPTIONS, out=out),
    "decode_range": lambda coded, out: aecp.decode_range(coded, 100, 0, 100, OPTIONS, out=out),
    "decode_at": lambda coded, out: aecp.decode_at(coded, 0, 100, OPTIONS, out=out),
}


@pytest.fixture(scope="module")
def coded():
    """The stream of 100 samples."""
    return aecp.encode(STORED, OPTIONS)


@pytest.mark.parametrize("call", CALLS.values(), ids=CALLS)
def test_out_is_filled_from_its_start(call, coded):
    """The result is a memoryview of the part that was filled; the bytes after it stay."""
    room = bytearray(b"\xee" * 210)
    filled = call(coded, room)
    assert type(filled) is memoryview and filled == STORED
    assert room == STORED + b"\xee" * 10
    filled[0] = 77
    assert room[0] == 77


def test_a_range_is_written_to_the_start_of_out(coded):
    """A range fills `out` from its start."""
    room = bytearray(b"\xee" * 8)
    assert aecp.decode_range_bytes(coded, 100, 5, 3, OPTIONS, out=room) == STORED[10:16]
    assert room == STORED[10:16] + b"\xee" * 2


def test_samples_from_a_bit_on_are_written_to_the_start_of_out():
    """So do samples from an offset on."""
    coded, room = aecp.encode(STORED, SHORT), bytearray(b"\xee" * 8)
    bit = aecp.offsets(coded, 100, SHORT)[2]
    assert aecp.decode_bytes_at(coded, bit, 3, SHORT, out=room) == STORED[64:70]
    assert room == STORED[64:70] + b"\xee" * 2


@pytest.mark.parametrize("call", CALLS.values(), ids=CALLS)
def test_out_is_too_short(call, coded):
    """If `out` is a byte too short, NoRoom says how many bytes are needed, and `out` stays."""
    short = bytearray(b"\xee" * 199)
    with pytest.raises(aecp.NoRoom, match=" 200 bytes$") as caught:
        call(coded, short)
    assert (caught.value.number, short) == (18, b"\xee" * 199)
    with pytest.raises(aecp.NoRoom, match=" 200 bytes$"):
        call(coded, bytearray())


@pytest.mark.parametrize("call", CALLS.values(), ids=CALLS)
@pytest.mark.parametrize(
    ("out", "text"),
    [
        (bytes(200), "out must be memory that can be written and lies in one piece"),
        (
            memoryview(bytearray(400))[::2],
            "out must be memory that can be written and lies in one piece",
        ),
        ([0] * 200, "out must be memory that can be written, not list"),
        (200, "out must be memory that can be written, not int"),
    ],
    ids=["bytes", "apart", "list", "int"],
)
def test_out_of_another_kind(call, coded, out, text):
    """What can't be written, or doesn't lie in one piece, is refused."""
    with pytest.raises(TypeError, match=f"^{text}$"):
        call(coded, out)


@pytest.mark.parametrize("call", CALLS.values(), ids=CALLS)
def test_out_stays_after_a_fault(call, coded):
    """After a fault of the stream `out` is unchanged, and can grow again."""
    room = bytearray(b"\xee" * 200)
    with pytest.raises(aecp.StreamRefused):
        call(coded[:-2], room)
    assert room == b"\xee" * 200
    room.append(0)


def test_out_of_no_bytes():
    """No samples fill nothing."""
    for out in (bytearray(), bytearray(b"\xee" * 3)):
        before = bytes(out)
        assert aecp.decode_bytes(b"", 0, OPTIONS, out=out) == b"" and out == before


@pytest.mark.parametrize("call", ARRAY_CALLS.values(), ids=ARRAY_CALLS)
def test_out_is_an_array(numpy, call, coded):
    """An array to fill shares its memory with the result."""
    wanted = numpy.frombuffer(STORED, "<u2")
    for made in (numpy.full(120, 7, "<u2"), numpy.full((6, 20), 7, "<u2")):
        filled = call(coded, made)
        assert filled.shape == (100,) and filled.dtype == made.dtype and (filled == wanted).all()
        assert (made.reshape(-1)[:100] == wanted).all() and (made.reshape(-1)[100:] == 7).all()
        assert numpy.shares_memory(filled, made)


@pytest.mark.parametrize("call", ARRAY_CALLS.values(), ids=ARRAY_CALLS)
def test_arrays_that_cannot_be_filled(numpy, call, coded):
    """Arrays of another dtype, apart, in columns, and what is no array are refused and left
    alone."""
    arrays = [numpy.zeros(200, dtype) for dtype in ("<i2", ">u2", "u1", "<u4", "f2")]
    arrays += [numpy.zeros(200, "<u2")[::2], numpy.zeros((50, 2), "<u2", order="F")]
    for out in [*arrays, bytearray(200), [0] * 100]:
        with pytest.raises(
            TypeError, match="^out must be a numpy array of the dtype <u2 in C order$"
        ):
            call(coded, out)
        assert not numpy.any(out)


def test_arrays_that_cannot_be_written(numpy, coded):
    """An array that is too short, or can't be written, is refused and left alone."""
    short = numpy.zeros(99, "<u2")
    with pytest.raises(aecp.NoRoom, match=" 200 bytes$"):
        aecp.decode(coded, 100, OPTIONS, out=short)
    frozen = numpy.zeros(100, "<u2")
    frozen.flags.writeable = False
    with pytest.raises(
        TypeError, match="^out must be memory that can be written and lies in one piece$"
    ):
        aecp.decode(coded, 100, OPTIONS, out=frozen)
    assert not short.any() and not frozen.any()


# The most memory that a process used is read from /proc: getrusage also counts that of its parent.
WRONG_COUNT = """
import re, resource, aecp
options = aecp.Options(16, block_size=8, interval=1)
coded = aecp.encode(bytes(range(256)) * 2000, options)
calls = (
    lambda: aecp.decode_bytes(coded, 2**31, options),
    lambda: aecp.decode_range_bytes(coded, 2**31, 0, 2**31, options),
    lambda: aecp.decode_bytes_at(coded, 0, 2**31, options),
    lambda: aecp.offsets(coded, 2**31, options),
)
for call in calls:
    try:
        call()
        raise SystemExit("a wrong count is taken")
    except aecp.StreamRefused:
        pass
resource.setrlimit(resource.RLIMIT_AS, (2**30, 2**30))
try:
    aecp.decode_bytes(coded, 2**31, options)
except aecp.StreamRefused:
    with open("/proc/self/status") as file:
        print(int(re.search("VmHWM:(.*) kB", file.read())[1]) < 200 * 1024)
"""


def test_a_wrong_count_takes_no_memory():
    """A count of 2^31 of a short stream is refused before memory is taken, also if there is
    little."""
    ended = subprocess.run([sys.executable, "-c", WRONG_COUNT], capture_output=True, text=True)
    assert (ended.returncode, ended.stdout, ended.stderr) == (0, "True\n", "")


def test_a_wrong_count_asks_for_little_memory(monkeypatch):
    """The memory that a call asks for is at most what the stream's bytes can mean."""
    sizes = []

    def room_for(size):
        sizes.append(size)
        return bytearray(size)

    monkeypatch.setattr(aecp.calls, "room_for", room_for)
    for call in (
        lambda: aecp.decode_bytes(CODED, 2**31, SHORT),
        lambda: aecp.decode_range_bytes(CODED, 2**31, 0, 2**31, SHORT),
        lambda: aecp.decode_bytes_at(CODED, 0, 2**31, SHORT),
    ):
        with pytest.raises(aecp.StreamRefused):
            call()
    # A coded bit means at most a run of 64 blocks of 64 samples.
    assert 0 < max(sizes) <= 8 * len(CODED) * 64 * 64 * SHORT.storage


ZEROS = """
import resource, aecp
options = aecp.Options(32, block_size=64, interval=4096, pad=True)
coded = aecp.encode(bytes(1 << 26), options) * 16
resource.setrlimit(resource.RLIMIT_AS, (2**29, 2**29))
try:
    aecp.decode_bytes(coded, 2**28, options)
except MemoryError as fault:
    print(type(fault).__name__, fault)
"""


def test_samples_that_memory_cannot_hold():
    """If memory can't hold the samples that a stream really has, the call raises MemoryError."""
    ended = subprocess.run([sys.executable, "-c", ZEROS], capture_output=True, text=True)
    assert ended.returncode == 0 and ended.stderr == ""
    assert ended.stdout.strip() == "MemoryError the samples take 1073741824 bytes"
