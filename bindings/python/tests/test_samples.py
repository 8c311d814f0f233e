"""What the edits of a workspace take as samples: whole numbers, alone and in lists, and nothing
else."""

import array

import aecp
import pytest

OPTIONS = aecp.Options(16)
CALLS = {
    "append": lambda work, samples: work.append(samples),
    "insert": lambda work, samples: work.insert(0, samples),
    "overwrite": lambda work, samples: work.overwrite(0, samples),
    "constructor": lambda work, samples: aecp.Workspace(OPTIONS, samples),
}

WRONG = {
    "bytes": lambda: bytes(8),
    "bytearray": lambda: bytearray(8),
    "memoryview": lambda: memoryview(bytes(8)),
    "text": lambda: "12345678",
    "bool": lambda: True,
    "float": lambda: 1.0,
    "None": lambda: None,
    "bool in a list": lambda: [1, True],
    "float in a list": lambda: [1.5],
    "text in a list": lambda: ["1"],
    "None in a tuple": lambda: (1, None),
    "bool in an iterator": lambda: iter([1, True]),
    "array of floats": lambda: array.array("d", [1.0]),
    "array of text": lambda: array.array("w" if "w" in array.typecodes else "u", "1"),
}

WRONG_ARRAYS = {
    "floats": lambda numpy: numpy.ones(2),
    "bools": lambda numpy: numpy.ones(2, bool),
    "masked": lambda numpy: numpy.ma.masked_array([1, 2], [0, 1]),
    "masked, nothing hidden": lambda numpy: numpy.ma.masked_array([1, 2]),
    "two dimensions": lambda numpy: numpy.ones((2, 2), int),
    "objects": lambda numpy: numpy.array([1, 2], object),
    "float32": lambda numpy: numpy.float32(1),
    "bool_": lambda numpy: numpy.bool_(1),
    "bool_ in a list": lambda numpy: [numpy.bool_(1)],
    "float64 in a list": lambda numpy: [numpy.float64(1)],
}

RIGHT = {
    "array": lambda: array.array("H", [1, 2]),
    "array of 64 bits": lambda: array.array("q", [1, 2]),
    "list": lambda: [1, 2],
    "tuple": lambda: (1, 2),
    "iterator": lambda: iter([1, 2]),
    "generator": lambda: (number for number in (1, 2)),
    "range": lambda: range(1, 3),
    "dict": lambda: {1: 0, 2: 0},
    "workspace": lambda: aecp.Workspace(OPTIONS, [1, 2]),
    "whole numbers of another class": lambda: [Whole(1), Whole(2)],
}


class Whole:
    """A whole number of another class."""

    def __init__(self, number):
        self.number = number

    def __index__(self):
        return self.number


def _frozen(numpy):
    """Returns an array that can't be written."""
    frozen = numpy.array([1, 2])
    frozen.flags.writeable = False
    return frozen


RIGHT_ARRAYS = {
    **{
        name: lambda numpy, name=name: numpy.array([1, 2], name)
        for name in ("u1", "i1", "<u2", ">u2", "<i4", ">i4", ">i8", "<i8", "u8", ">u8")
    },
    "apart": lambda numpy: numpy.array([1, 0, 2, 0])[::2],
    "backwards": lambda numpy: numpy.array([2, 1])[::-1],
    "numpy numbers": lambda numpy: list(numpy.array([1, 2], "u2")),
    "frozen": _frozen,
}


@pytest.fixture
def work():
    """A workspace with one sample."""
    with aecp.Workspace(OPTIONS, [9]) as work:
        yield work


@pytest.mark.parametrize("call", CALLS.values(), ids=CALLS)
@pytest.mark.parametrize("samples", WRONG.values(), ids=WRONG)
def test_what_is_no_whole_number(work, samples, call):
    """Bytes, text, bools, floats and None are refused, alone and in lists, and nothing changes."""
    with pytest.raises(TypeError, match="."):
        call(work, samples())
    assert list(work) == [9]


@pytest.mark.parametrize("call", CALLS.values(), ids=CALLS)
@pytest.mark.parametrize("samples", WRONG_ARRAYS.values(), ids=WRONG_ARRAYS)
def test_arrays_that_are_no_list_of_whole_numbers(numpy, work, samples, call):
    """Arrays of floats or bools, masked ones, and ones of two dimensions are refused."""
    with pytest.raises(TypeError, match="."):
        call(work, samples(numpy))
    assert list(work) == [9]


TEXTS = [
    (bytes(8), r"bytes can't be taken as samples: pass numbers, for example list\(data\)"),
    ("12", r"str can't be taken as samples: pass numbers, for example list\(data\)"),
    ([1, True], "a sample must be a whole number, not True"),
    ([1.5], "a sample must be a whole number, not 1.5"),
    (array.array("d"), "samples are whole numbers, not an array of the type 'd'"),
]


@pytest.mark.parametrize(("samples", "text"), TEXTS)
def test_the_text_of_a_refusal(work, samples, text):
    """The message says what can't be taken."""
    with pytest.raises(TypeError, match=f"^{text}$"):
        work.append(samples)


def test_the_text_of_a_refused_array(numpy, work):
    """The message says what an array is, and what to call."""
    for samples, text in (
        (numpy.ones(2), "samples are whole numbers, not an array of float64"),
        (
            numpy.ones((2, 1), int),
            r"samples are a list, not an array of 2 dimensions: use its ravel\(\)",
        ),
        (
            numpy.ma.masked_array([1]),
            r"an array with a mask can't .*: use its filled\(\) or compressed\(\)",
        ),
    ):
        with pytest.raises(TypeError, match=f"^{text}$"):
            work.append(samples)


@pytest.mark.parametrize("sample", [True, 1.0, "1", None, [1], b"1"])
def test_a_single_sample_that_is_set(work, sample):
    """What is no whole number can't be set at a place."""
    with pytest.raises(TypeError, match="."):
        work[0] = sample
    assert list(work) == [9]


@pytest.mark.parametrize("samples", RIGHT.values(), ids=RIGHT)
def test_samples_that_are_taken(work, samples):
    """Lists, arrays and other iterables of whole numbers are taken by each call."""
    work.append(samples())
    assert list(work) == [9, 1, 2]
    work.insert(1, samples())
    work.overwrite(3, samples())
    work[:1] = samples()
    assert list(work) == [1, 2, 1, 2, 1, 2]
    assert aecp.Workspace(OPTIONS, samples()) == [1, 2]


@pytest.mark.parametrize("samples", RIGHT_ARRAYS.values(), ids=RIGHT_ARRAYS)
def test_arrays_that_are_taken(numpy, work, samples):
    """Arrays of integers of any size and byte order are taken, and stay as they are."""
    given = samples(numpy)
    work.append(given)
    assert list(work) == [9, 1, 2]
    work[:1] = given
    assert list(work) == [1, 2, 1, 2] and list(given) == [1, 2]


@pytest.mark.parametrize("dtype", ["<i2", ">i2", "<i4", ">i4", "<i8", ">i8", "<u2", ">u2", ">u4"])
def test_large_numbers_of_arrays(numpy, dtype):
    """Numbers of several bytes keep their value and sign in either byte order."""
    options = aecp.Options(17, signed=True)
    numbers = [258, 513, 32767] + ([-258, -32768] if "i" in dtype else [])
    with aecp.Workspace(options, numpy.array(numbers, dtype)) as work:
        assert list(work) == numbers


@pytest.mark.parametrize("code", "bBhHiIlLqQ")
def test_arrays_of_the_standard_library(code):
    """Arrays of each typecode of integers keep their numbers."""
    numbers = [1, 100] + ([-100] if code.islower() else [200])
    with aecp.Workspace(aecp.Options(9, signed=True), array.array(code, numbers)) as work:
        assert list(work) == numbers


@pytest.mark.parametrize("number", [2**63, -(2**63) - 1, 2**64])
def test_numbers_of_65_bits(work, number):
    """A number that doesn't fit 64 bits with a sign is refused with OverflowError."""
    for samples in (number, [1, number], iter([number])):
        with pytest.raises(OverflowError):
            work.append(samples)
    assert list(work) == [9]


def test_arrays_of_numbers_of_65_bits(numpy, work):
    """So is one in an array of 64 bits without a sign."""
    for samples in (
        array.array("Q", [2**63]),
        numpy.array([1, 2**63], "u8"),
        numpy.array([2**64 - 1], ">u8"),
    ):
        with pytest.raises(OverflowError):
            work.append(samples)
    assert list(work) == [9]


@pytest.mark.parametrize("name", ["int", "int64", "array"])
def test_a_number_is_no_list(request, name):
    """A number in place of an iterable is refused and changes nothing, except in append, insert and
    overwrite."""
    number = 5 if name == "int" else getattr(request.getfixturevalue("numpy"), name)(5)
    kind = "ndarray" if name == "array" else name
    work = aecp.Workspace(OPTIONS, range(9))
    for call in (
        lambda: work.__setitem__(slice(1, 4), number),
        lambda: work.__setitem__(slice(None, None, 2), number),
        lambda: work.extend(number),
        lambda: work.__iadd__(number),
        lambda: aecp.Workspace(OPTIONS, number),
    ):
        with pytest.raises(
            TypeError, match=f"^samples must be a list or another iterable, not {kind}$"
        ):
            call()
        assert list(work) == list(range(9))
    work.append(number)
    work.insert(0, number)
    work.overwrite(1, number)
    assert list(work) == [5, 5, 1, 2, 3, 4, 5, 6, 7, 8, 5]


def test_single_numbers_and_iterables():
    """append, insert and overwrite take a number; extend and += take iterators."""
    work = aecp.Workspace(OPTIONS, range(9))
    work.append(5)
    work.insert(0, 6)
    work.overwrite(1, 7)
    work.extend(iter([1, 2]))
    work += (number for number in (3, 4))
    assert list(work) == [6, 7, 1, 2, 3, 4, 5, 6, 7, 8, 5, 1, 2, 3, 4]


def test_a_number_of_numpy(numpy, work):
    """A single number of numpy is taken like one of Python, also at a place."""
    work.append(numpy.uint8(3))
    work.append(numpy.array(4, ">u2"))
    work[0] = numpy.int64(7)
    assert list(work) == [7, 3, 4]


def test_an_iterator_is_not_taken_in_vain():
    """If a slice or the options are refused because of their type, no sample is taken."""
    taken = iter([1, 2, 3])
    for call in (lambda: aecp.Workspace({"bits": 16}, taken), lambda: aecp.Workspace(None, taken)):
        with pytest.raises(TypeError):
            call()
    assert list(taken) == [1, 2, 3]


def test_lists_need_no_numpy(without_numpy):
    """Lists and arrays of the standard library are taken without numpy."""
    with aecp.Workspace(OPTIONS, [1, 2]) as work:
        work.append(array.array("H", [3]))
        work += (4,)
        work[1:3] = [7]
        assert list(work) == [1, 7, 4] and list(work[::-1]) == [4, 7, 1]
