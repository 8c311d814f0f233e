"""numpy's arrays: coded in any shape and byte order, decoded into arrays; others are refused."""

import subprocess

import aecp
import pytest

numpy = pytest.importorskip("numpy")

OPTIONS = aecp.Options(12, signed=True)
SAMPLES = numpy.arange(-300, 300, dtype="<i2")
# The type of the items and the bits of a sample.
TYPES = {"u1": 8, "i1": 8, "<u2": 16, ">i2": 12, "<u4": 32, ">u4": 24, "<i4": 20}
TAKEN = r"samples must be bytes, or an array of uint16 \(options.dtype\), not "


@pytest.fixture(scope="module")
def coded():
    """The stream of SAMPLES, coded from bytes."""
    return aecp.encode(SAMPLES.tobytes(), OPTIONS)


def _settings_of(dtype, bits):
    """Returns the names and values of options for arrays of a type."""
    order = dtype.str[0] == ">"
    return {"bits": bits, "signed": dtype.kind == "i", "msb_first": order}


def _drawn(dtype, bits):
    """Returns 3,000 samples that move in small steps."""
    steps = numpy.random.default_rng(bits).integers(-3, 4, 3000).cumsum()
    least = -(1 << bits - 1) if dtype.kind == "i" else 0
    return ((steps - least) % (1 << bits) + least).astype(dtype)


def _same(array, wanted):
    """Returns whether two arrays have the same samples, shape and dtype."""
    return (
        array.dtype == wanted.dtype
        and array.shape == wanted.shape
        and bool((array == wanted).all())
    )


@pytest.mark.parametrize(("name", "bits"), TYPES.items())
def test_arrays_come_back(name, bits):
    """Arrays of each type are decoded as they were, whole and in part."""
    dtype = numpy.dtype(name)
    options, array = aecp.Options(**_settings_of(dtype, bits)), _drawn(dtype, bits)
    coded = aecp.encode(array, options)
    assert type(coded) is bytes and coded == aecp.encode(array.tobytes(), options)
    assert _same(aecp.decode(coded, len(array), options), array)
    assert _same(aecp.decode_range(coded, len(array), 1000, 77, options), array[1000:1077])
    offsets = aecp.offsets(coded, len(array), options)
    assert _same(aecp.decode_at(coded, offsets[1], 77, options), array[2048:2125])


@pytest.mark.parametrize(("name", "bits"), TYPES.items())
def test_streams_of_the_plain_coder(models, name, bits):
    """The stream of an array is that of the plain coder, which was written from FORMAT.md."""
    dtype = numpy.dtype(name)
    named, array = _settings_of(dtype, bits), _drawn(dtype, bits)
    settings = models("settings").Settings(block_size=16, interval=128, **named)
    wanted = models("plain_coder").stream(array.tolist(), settings)
    assert aecp.encode(array, aecp.Options(**named)) == wanted


@pytest.mark.parametrize(("name", "bits"), TYPES.items())
def test_streams_of_the_program(program, tmp_path, name, bits):
    """The stream of an array is that of the program for its bytes."""
    dtype = numpy.dtype(name)
    array, path = _drawn(dtype, bits), tmp_path / "samples"
    path.write_bytes(array.tobytes())
    signs = ["-s"] * (dtype.kind == "i") + ["-m"] * (dtype.str[0] == ">")
    words = ["-n", str(bits), "-j", "16", "-r", "128", *signs]
    subprocess.run([program, *words, path, tmp_path / "stream"], check=True, timeout=60)
    options = aecp.Options(**_settings_of(dtype, bits))
    assert aecp.encode(array, options) == (tmp_path / "stream").read_bytes()


@pytest.mark.parametrize("count", [600, 100, 1, 0])
def test_a_count(coded, count):
    """`decode` returns the first samples of a stream."""
    assert _same(aecp.decode(coded, count, OPTIONS), SAMPLES[:count])
    assert _same(aecp.decode_range(coded, 600, 600 - count, count, OPTIONS), SAMPLES[600 - count :])


def _frozen(array):
    """Returns a copy that can't be written."""
    frozen = array.copy()
    frozen.flags.writeable = False
    return frozen


SHAPES = {
    "three dimensions": lambda: SAMPLES.reshape(10, 3, 20),
    "frozen": lambda: _frozen(SAMPLES),
    "apart": lambda: numpy.repeat(SAMPLES, 2)[::2],
    "backwards": lambda: SAMPLES[::-1].copy()[::-1],
    "the other order": lambda: SAMPLES.astype(">i2"),
    "the other order, apart": lambda: numpy.repeat(SAMPLES.astype(">i2"), 2)[::2],
    "columns": lambda: numpy.asfortranarray(SAMPLES.reshape(20, 30)),
    "a subclass": lambda: SAMPLES.view(numpy.recarray),
}


@pytest.mark.parametrize("make", SHAPES.values(), ids=SHAPES)
def test_arrays_of_any_form(coded, make):
    """Arrays of any shape, order and place in memory are coded by rows, and stay as they are."""
    array = make()
    before = array.copy()
    assert aecp.encode(array, OPTIONS) == coded
    coder = aecp.Encoder(OPTIONS)
    assert coder.feed(array) + coder.finish() == coded
    assert (array == before).all()


def test_small_arrays():
    """An array of a single number has one sample; an empty array and an empty stream have none."""
    assert aecp.encode(numpy.array(7, "<i2"), OPTIONS) == aecp.encode(b"\7\0", OPTIONS)
    assert aecp.encode(SAMPLES[:0], OPTIONS) == b""
    assert aecp.encode(SAMPLES[:0].reshape(3, 0), OPTIONS) == b""
    assert _same(aecp.decode(b"", 0, OPTIONS), SAMPLES[:0])


def test_a_turned_array():
    """A transposed array is coded by its own rows."""
    turned = SAMPLES.reshape(20, 30).T
    assert aecp.encode(turned, OPTIONS) == aecp.encode(turned.tobytes(), OPTIONS)


@pytest.mark.parametrize("name", ["int8", "int16", "int32", "int64", "uint8", "uint64"])
def test_integers_of_another_type(name):
    """Integers of another size or sign are refused, with the call that converts them."""
    hint = r": use samples.astype\(options.dtype\) if all samples fit"
    text = rf"^samples must be an array of uint16 \(options.dtype\), not of {name}{hint}$"
    for call in (aecp.encode, lambda given, options: aecp.Encoder(options).feed(given)):
        with pytest.raises(TypeError, match=text):
            call(numpy.arange(9, dtype=name), aecp.Options(16))


@pytest.mark.parametrize("name", ["float32", "float64", "bool", "object"])
def test_arrays_of_no_integers(name):
    """Floats, bools and objects are refused."""
    with pytest.raises(
        TypeError, match=rf"^samples must be an array of uint16 \(options.dtype\), not of {name}$"
    ):
        aecp.encode(numpy.ones(9, name), aecp.Options(16))


@pytest.mark.parametrize("dtype", ["u2", "i4", "f8", "i1"])
def test_arrays_for_signed_options(dtype):
    """So are arrays of another dtype if samples are signed."""
    with pytest.raises(
        TypeError, match=r"^samples must be an array of int16 \(options.dtype\), not of "
    ):
        aecp.encode(SAMPLES.astype(dtype), OPTIONS)


@pytest.mark.parametrize("mask", [None, [True, False]])
def test_masked_arrays(mask):
    """A masked array is refused, also if it hides nothing."""
    masked = (
        numpy.ma.masked_array([1, 2], mask, "<u2")
        if mask
        else numpy.ma.masked_array([1], dtype="<u2")
    )
    text = r"^an array with a mask can't be coded: use its filled\(\)$"
    for call in (aecp.encode, lambda given, options: aecp.Encoder(options).feed(given)):
        with pytest.raises(TypeError, match=text):
            call(masked, aecp.Options(16))


@pytest.mark.parametrize("msb_first", [False, True])
@pytest.mark.parametrize("order", "<>")
def test_memoryviews_of_arrays(order, msb_first):
    """A memoryview of an array is coded like the array, in either byte order."""
    options = aecp.Options(16, msb_first=msb_first)
    samples = numpy.array([1, 258, 65535], f"{order}u2")
    wanted = aecp.encode(samples.astype(options.dtype).tobytes(), options)
    assert aecp.encode(memoryview(samples), options) == aecp.encode(samples, options) == wanted


def test_a_memoryview_of_floats():
    """A memoryview of floats is refused."""
    with pytest.raises(TypeError, match=f"^{TAKEN}an array of float32$"):
        aecp.encode(memoryview(numpy.ones(2, "f4")), aecp.Options(16))


def test_a_stream_in_an_array(coded):
    """A stream can be in an array of bytes, also in one that can't be written; not in one apart."""
    held = numpy.frombuffer(coded, "u1")
    for it in (held, held.copy(), _frozen(held)):
        assert _same(aecp.decode(it, 600, OPTIONS), SAMPLES)
    with pytest.raises(TypeError, match="^the bytes of coded must lie one after the other$"):
        aecp.decode_bytes(numpy.frombuffer(bytes(16), "u1")[::2], 8, OPTIONS)


def test_samples_of_three_bytes():
    """Samples of three bytes can't be arrays, neither given nor returned."""
    options = aecp.Options(24, three_byte=True)
    coded = aecp.encode(bytes(range(30)), options)
    text = "^numpy has no integers of three bytes: use bytes$"
    for call in (
        lambda: aecp.encode(numpy.arange(9, dtype="<u4"), options),
        lambda: aecp.decode(coded, 10, options),
        lambda: aecp.decode_range(coded, 10, 0, 1, options),
        lambda: next(aecp.Decoder(coded, 10, options)),
    ):
        with pytest.raises(ValueError, match=text):
            call()


@pytest.mark.parametrize("name", ["decode", "decode_range", "decode_at"])
def test_what_is_no_options(name):
    """Calls that return arrays name the options, also beside an array to fill."""
    words = {"decode": (9,), "decode_range": (9, 0, 9), "decode_at": (0, 9)}[name]
    for out in (None, numpy.zeros(9, "<u2")):
        with pytest.raises(TypeError, match="^options must be aecp.Options, not NoneType$"):
            getattr(aecp, name)(bytes(9), *words, None, out=out)


def test_the_arrays_of_a_decoder(coded):
    """A Decoder yields an array for each interval."""
    options = aecp.Options(12, signed=True, block_size=8, interval=8)
    arrays = list(aecp.Decoder(aecp.encode(SAMPLES, options), 600, options))
    assert [len(it) for it in arrays] == [64] * 9 + [24]
    assert _same(numpy.concatenate(arrays), SAMPLES)
    assert arrays[0].flags.writeable


def test_a_workspace_as_an_array():
    """numpy takes a workspace as an array of 64-bit numbers, or of another type."""
    work = aecp.Workspace(OPTIONS, SAMPLES)
    assert _same(numpy.asarray(work), SAMPLES.astype("i8"))
    assert _same(numpy.asarray(work, "<i2"), SAMPLES) and _same(work.__array__("<i2"), SAMPLES)
    made = numpy.array(work)
    made[0] = 5
    assert work[0] == -300


def test_without_numpy(coded, without_numpy):
    """Without numpy, calls that return arrays say which others to use, and lose nothing."""
    text = "^arrays need numpy: use decode_bytes, decode_range_bytes or next_bytes$"
    decoder = aecp.Decoder(coded, 600, OPTIONS)
    for call in (
        lambda: aecp.decode(coded, 600, OPTIONS),
        lambda: aecp.decode_range(coded, 600, 0, 1, OPTIONS),
        lambda: aecp.decode_at(coded, 0, 1, OPTIONS),
        lambda: next(decoder),
    ):
        with pytest.raises(ImportError, match=text):
            call()
    assert decoder.next_bytes() == SAMPLES.tobytes()
