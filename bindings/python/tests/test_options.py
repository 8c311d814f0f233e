"""Options: what their numbers and flags may be, and what follows from them."""

import copy
import dataclasses
import pickle

import aecp
import pytest
from helpers import CODED

NUMBERS = {"bits": 16, "block_size": 16, "interval": 128}
FLAGS = ("signed", "msb_first", "three_byte", "preprocess", "pad", "restricted", "even_blocks")
CALLS = {
    "encode": lambda options: aecp.encode(bytes(64), options),
    "decode": lambda options: aecp.decode_bytes(CODED, 32, options),
    "decode_range": lambda options: aecp.decode_range_bytes(CODED, 32, 0, 1, options),
    "decode_at": lambda options: aecp.decode_bytes_at(CODED, 0, 32, options),
    "offsets": lambda options: aecp.offsets(CODED, 32, options),
    "edit": lambda options: aecp.edit(CODED, 32, "", options),
    "Workspace": aecp.Workspace,
    "Workspace, no samples": lambda options: aecp.Workspace(options, aecp.Options(8)),
    "of_coded": lambda options: aecp.Workspace.of_coded(CODED, 32, options),
    "Encoder": aecp.Encoder,
    "Decoder": lambda options: aecp.Decoder(CODED, 32, options),
}


@pytest.mark.parametrize("name", NUMBERS)
@pytest.mark.parametrize("wrong", ["16", 16.0, True, None, b"\x10", [16]])
def test_numbers_of_another_kind(name, wrong):
    """What is no whole number is refused by its name."""
    with pytest.raises(TypeError, match=f"^{name} must be a whole number, not "):
        aecp.Options(**{**NUMBERS, name: wrong})


@pytest.mark.parametrize("name", FLAGS)
@pytest.mark.parametrize("wrong", ["no", 1, 0, None, 1.0])
def test_flags_of_another_kind(name, wrong):
    """What is no bool is refused by its name."""
    with pytest.raises(TypeError, match=f"^{name} must be True or False, not {wrong!r}$"):
        aecp.Options(8, **{name: wrong})


@pytest.mark.parametrize("name", FLAGS)
@pytest.mark.parametrize("flag", [True, False])
def test_bools_of_numpy(numpy, name, flag):
    """A bool of numpy is a flag, and becomes one of Python; a number of numpy isn't."""
    made = aecp.Options(16, **{name: numpy.bool_(flag)})
    assert made == aecp.Options(16, **{name: flag})
    assert type(getattr(made, name)) is bool
    with pytest.raises(TypeError, match=f"^{name} must be True or False, not "):
        aecp.Options(16, **{name: numpy.int64(flag)})


@pytest.mark.parametrize("name", NUMBERS)
def test_numbers_of_numpy(numpy, name):
    """A whole number of numpy becomes one of Python; a bool and a float of numpy are refused."""
    made = aecp.Options(**{**NUMBERS, name: numpy.int64(8)})
    assert made == aecp.Options(**{**NUMBERS, name: 8}) and type(getattr(made, name)) is int
    assert hash(made) == hash(aecp.Options(**{**NUMBERS, name: 8}))
    for wrong in (numpy.bool_(True), numpy.float64(8)):
        with pytest.raises(TypeError, match=f"^{name} must be a whole number, not "):
            aecp.Options(**{**NUMBERS, name: wrong})


@pytest.mark.parametrize("call", CALLS.values(), ids=CALLS)
@pytest.mark.parametrize("name", NUMBERS)
def test_numbers_that_do_not_fit_32_bits(name, call):
    """A number that doesn't fit 32 bits is refused, and not cut to 32 bits."""
    for wide in (
        2**32 + NUMBERS[name],
        2**64 + NUMBERS[name],
        NUMBERS[name] - 2**32,
        -1,
        2**32,
    ):
        with pytest.raises(ValueError, match=rf"^{name} must be 0 to 2\^32 - 1$") as caught:
            call(aecp.Options(**{**NUMBERS, name: wide}))
        assert type(caught.value) is ValueError


@pytest.mark.parametrize("call", CALLS.values(), ids=CALLS)
@pytest.mark.parametrize("name", NUMBERS)
def test_the_greatest_number(name, call):
    """2^32 - 1 is refused as a number that the format doesn't have."""
    with pytest.raises(aecp.OptionsRefused):
        call(aecp.Options(**{**NUMBERS, name: 2**32 - 1}))


WRONG = [
    (aecp.Options(0), 1, "bits per sample must be 1 to 32"),
    (aecp.Options(33), 1, "bits per sample must be 1 to 32"),
    (aecp.Options(8, block_size=12), 2, "block size must be 8, 16, 32 or 64"),
    (aecp.Options(8, interval=0), 3, "reference sample interval must be 1 to 4096"),
    (aecp.Options(8, interval=4097), 3, "reference sample interval must be 1 to 4096"),
    (aecp.Options(5, restricted=True), 4, "restricted codes need 4 bits per sample or fewer"),
    (aecp.Options(8, block_size=9, even_blocks=True), 17, "block size must be even, 8 to 64"),
]


@pytest.mark.parametrize("call", CALLS.values(), ids=CALLS)
@pytest.mark.parametrize(("options", "number", "text"), WRONG)
def test_options_that_the_format_lacks(options, number, text, call):
    """Each call refuses options that the format doesn't have, with their number and text."""
    with pytest.raises(aecp.OptionsRefused, match=f"^{text}$") as caught:
        call(options)
    assert (caught.value.number, caught.value.place, caught.value.line) == (number, 0, 0)


@pytest.mark.parametrize("call", CALLS.values(), ids=CALLS)
@pytest.mark.parametrize("wrong", [None, {"bits": 16}, [1, 2], 9, b""], ids=repr)
def test_what_is_no_options(call, wrong):
    """Anything but Options is refused by its name."""
    text = f"^options must be aecp.Options, not {type(wrong).__name__}$"
    with pytest.raises(TypeError, match=text):
        call(wrong)


STORED = [
    (aecp.Options(1), 1, "<u1", 0, 1),
    (aecp.Options(8, signed=True), 1, "<i1", -128, 127),
    (aecp.Options(9), 2, "<u2", 0, 511),
    (aecp.Options(16, msb_first=True), 2, ">u2", 0, 65535),
    (aecp.Options(16, three_byte=True), 2, "<u2", 0, 65535),
    (aecp.Options(17, signed=True), 4, "<i4", -65536, 65535),
    (aecp.Options(24), 4, "<u4", 0, 2**24 - 1),
    (aecp.Options(25, three_byte=True, msb_first=True), 4, ">u4", 0, 2**25 - 1),
    (aecp.Options(32, signed=True), 4, "<i4", -(2**31), 2**31 - 1),
]


@pytest.mark.parametrize(("options", "storage", "dtype", "least", "most"), STORED)
def test_how_samples_are_stored(options, storage, dtype, least, most):
    """The bytes, the dtype and the range of samples."""
    assert (options.storage, options.dtype) == (storage, dtype)
    assert (options.least, options.most) == (least, most)


@pytest.mark.parametrize("bits", [17, 24])
def test_samples_of_three_bytes_have_no_dtype(bits):
    """Samples of 17 to 24 bits can be stored in three bytes, which no dtype has."""
    options = aecp.Options(bits, three_byte=True)
    assert options.storage == 3
    with pytest.raises(ValueError, match="^numpy has no integers of three bytes: use bytes$"):
        options.dtype


def test_options_cannot_change():
    """Options are frozen, equal if all members are, and copies and pickles equal them."""
    options = aecp.Options(12, signed=True, pad=True)
    with pytest.raises(dataclasses.FrozenInstanceError):
        options.bits = 8
    assert options != aecp.Options(12, signed=True)
    assert pickle.loads(pickle.dumps(options)) == copy.deepcopy(options) == options
    defaults = aecp.Options(8)
    assert (defaults.block_size, defaults.interval, defaults.preprocess) == (16, 128, True)
    assert not any(getattr(defaults, name) for name in FLAGS if name != "preprocess")
