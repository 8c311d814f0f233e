"""Arguments of another kind, in another order or of another size: refused with a message that names
the argument and what it must be."""

import array
import ctypes

import aecp
import pytest
from helpers import CODED

OPTIONS, WIDE = aecp.Options(8, block_size=8, interval=2), aecp.Options(16)
TAKEN = r"samples must be bytes, or an array of uint16 \(options.dtype\), not "
# Calls that take a stream, a count and options.
TAKING = {
    "decode_bytes": aecp.decode_bytes,
    "decode_range_bytes": lambda coded, count, options: aecp.decode_range_bytes(
        coded, count, 0, 1, options
    ),
    "decode_bytes_at": lambda coded, count, options: aecp.decode_bytes_at(coded, 0, count, options),
    "offsets": aecp.offsets,
    "edit": lambda coded, count, options: aecp.edit(coded, count, "", options),
    "of_coded": aecp.Workspace.of_coded,
    "Decoder": aecp.Decoder,
}
CODING = {
    "encode": aecp.encode,
    "feed": lambda samples, options: aecp.Encoder(options).feed(samples),
}


@pytest.mark.parametrize("call", CODING.values(), ids=CODING)
@pytest.mark.parametrize("samples", [[1, 2, 3], 5, None, "text"], ids=repr)
def test_samples_of_another_kind(samples, call):
    """Lists, numbers and text are no stored samples."""
    with pytest.raises(TypeError, match=f"^{TAKEN}{type(samples).__name__}$"):
        call(samples, WIDE)


@pytest.mark.parametrize("call", CODING.values(), ids=CODING)
def test_a_workspace_is_no_samples(call):
    """Neither is a workspace."""
    with pytest.raises(TypeError, match=f"^{TAKEN}Workspace$"):
        call(aecp.Workspace(WIDE, [1]), WIDE)


@pytest.mark.parametrize("call", CODING.values(), ids=CODING)
def test_samples_of_three_bytes(call):
    """For samples of three bytes the message names no array."""
    with pytest.raises(TypeError, match="^samples must be bytes, not list$"):
        call([1], aecp.Options(20, three_byte=True))
    with pytest.raises(TypeError, match="^samples must be bytes, not an array of uint32$"):
        call(array.array("I"), aecp.Options(24, three_byte=True))


ITEMS = [
    (array.array("f", [1.5]), "float32"),
    (array.array("f"), "float32"),
    (memoryview(array.array("d", [1.5])), "float64"),
    (array.array("h", [1, 2, 3, 4]), "int16"),
    (array.array("I", [1, 2, 3, 4]), "uint32"),
    (array.array("Q", [1, 2, 3, 4]), "uint64"),
    ((ctypes.c_void_p * 2)(), "format '<P'"),
    ((ctypes.c_bool * 2)(), r"format '<\?'"),
    (memoryview(bytes(2)).cast("?"), r"format '\?'"),
]


@pytest.mark.parametrize("call", CODING.values(), ids=CODING)
@pytest.mark.parametrize(("held", "name"), ITEMS)
def test_buffers_of_another_type(held, name, call):
    """Buffers of floats, pointers, bools and integers of another size or sign are refused, also
    empty ones."""
    with pytest.raises(TypeError, match=f"^{TAKEN}an array of {name}$"):
        call(held, WIDE)


@pytest.mark.parametrize("call", CODING.values(), ids=CODING)
def test_the_type_that_is_named(call):
    """The message names the type of the options."""
    text = (
        r"^samples must be bytes, or an array of uint8 \(options.dtype\), not an array of uint16$"
    )
    with pytest.raises(TypeError, match=text):
        call(array.array("H"), aecp.Options(8))
    text = (
        r"^samples must be bytes, or an array of int32 \(options.dtype\), not an array of uint32$"
    )
    with pytest.raises(TypeError, match=text):
        call(array.array("I"), aecp.Options(20, signed=True))


@pytest.mark.parametrize("call", TAKING.values(), ids=TAKING)
@pytest.mark.parametrize("wrong", ["a", [1, 2], None, 5], ids=repr)
def test_a_stream_of_another_kind(wrong, call):
    """What has no buffer is no stream."""
    with pytest.raises(TypeError, match=f"^coded must be bytes, not {type(wrong).__name__}$"):
        call(wrong, 8, OPTIONS)


@pytest.mark.parametrize("call", TAKING.values(), ids=TAKING)
def test_a_stream_in_pieces(call):
    """Bytes that don't lie side by side are no stream."""
    with pytest.raises(TypeError, match="^the bytes of coded must lie one after the other$"):
        call(memoryview(CODED + CODED)[::2], 8, OPTIONS)


@pytest.mark.parametrize("call", TAKING.values(), ids=TAKING)
@pytest.mark.parametrize("count", [True, 9.0, "9", b"9", [9]], ids=repr)
def test_a_count_of_another_kind(count, call):
    """A count is a whole number, and no bool."""
    with pytest.raises(TypeError, match="^count must be a whole number, not "):
        call(CODED, count, OPTIONS)


@pytest.mark.parametrize("call", TAKING.values(), ids=TAKING)
@pytest.mark.parametrize("count", [2**32 + 1, 2**63, 2**64 - 2, 2**64 - 1])
def test_too_many_samples(count, call):
    """Counts from 2^32 + 1 to 2^64 - 1 are too many samples."""
    with pytest.raises(aecp.LimitPassed, match=f"^more than {2**32} samples$") as caught:
        call(CODED, count, OPTIONS)
    assert (caught.value.limit, caught.value.place, caught.value.number) == (2**32, 2**32, 9)


@pytest.mark.parametrize("call", TAKING.values(), ids=TAKING)
@pytest.mark.parametrize("count", [2**64, 2**64 + 32, -1])
def test_counts_that_do_not_fit_64_bits(count, call):
    """Other counts don't fit 64 bits."""
    with pytest.raises(ValueError, match=r"^count must be 0 to 2\^64 - 1$") as caught:
        call(CODED, count, OPTIONS)
    assert type(caught.value) is ValueError


@pytest.mark.parametrize("number", [-1, 2**64])
@pytest.mark.parametrize(
    ("name", "call"),
    [
        ("first", lambda it: aecp.decode_range_bytes(CODED, 8, it, 1, OPTIONS)),
        ("length", lambda it: aecp.decode_range_bytes(CODED, 8, 1, it, OPTIONS)),
        ("bit", lambda it: aecp.decode_bytes_at(CODED, it, 1, OPTIONS)),
        ("interval", lambda it: aecp.Decoder(CODED, 8, OPTIONS).go_to(it)),
    ],
)
def test_places_of_another_size(name, call, number):
    """A place, a length, a bit and an interval must fit 64 bits, and be whole numbers."""
    with pytest.raises(ValueError, match=rf"^{name} must be 0 to 2\^64 - 1$"):
        call(number)
    for wrong in (1.0, True, "1", None):
        with pytest.raises(TypeError, match=f"^{name} must be a whole number, not {wrong!r}$"):
            call(wrong)


@pytest.mark.parametrize("script", [["append 1"], 5, None], ids=repr)
def test_a_script_of_another_kind(script):
    """A script is text or bytes."""
    with pytest.raises(
        TypeError, match=f"^script must be text or bytes, not {type(script).__name__}$"
    ):
        aecp.edit(CODED, 8, script, OPTIONS)


def test_ranges_outside():
    """A range outside the samples is refused with their count."""
    for first, length in ((0, 9), (8, 1), (9, 0), (2**64 - 1, 1), (1, 2**64 - 1)):
        with pytest.raises(aecp.RangeRefused, match="^position outside the 8 samples$") as caught:
            aecp.decode_range_bytes(CODED, 8, first, length, OPTIONS)
        assert caught.value.count == 8 and isinstance(caught.value, IndexError)
    assert aecp.decode_range_bytes(CODED, 8, 8, 0, OPTIONS) == b""


def test_the_kinds_of_faults():
    """Each fault is a ValueError; some are IndexErrors or MemoryErrors too."""
    assert issubclass(aecp.Fault, ValueError)
    for name in aecp.__all__:
        it = getattr(aecp, name)
        if name.endswith("Refused") or name in ("LimitPassed", "NoMemory", "NoRoom", "NotOpen"):
            assert issubclass(it, aecp.Fault)
            assert issubclass(it, IndexError) == (name in ("RangeRefused", "BitRefused"))
            assert issubclass(it, MemoryError) == (name == "NoMemory")


def test_the_docstring():
    """The docstring's script has the two characters of a line break, not the break."""
    assert r"insert 100 7 8 9\nremove 0 5\n" in aecp.__doc__
