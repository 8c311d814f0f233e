"""The codec for numcodecs: chunks of integers of either byte order, and parts of them."""

import array
import os
import subprocess
import sys

import aecp
import pytest

numpy = pytest.importorskip("numpy")
numcodecs = pytest.importorskip("numcodecs")

from aecp.codec import HEAD, Aecp  # noqa: E402 - it needs numcodecs

SAMPLES = (numpy.random.default_rng(16).integers(-3, 4, 3000).cumsum() % 65536).astype("<u2")
# A chunk's options and the type of its items: in the options' byte order, or in the other one.
CODECS = [Aecp(16), Aecp(16, msb_first=True), Aecp(16, signed=True, block_size=8, interval=3)]


def _id_of(it):
    return str(it.options) if isinstance(it, Aecp) else str(it)


def test_a_chunk_comes_back():
    """A chunk of integers is decoded as it was."""
    coded = Aecp(16).encode(SAMPLES)
    assert type(coded) is bytes and len(coded) < SAMPLES.nbytes
    assert numpy.frombuffer(Aecp(16).decode(coded), "<u2").tolist() == SAMPLES.tolist()


def test_a_chunk_is_a_count_and_a_stream():
    """A chunk has the count, with a bit for the other byte order, and the stream of the samples."""
    stream = aecp.encode(SAMPLES, aecp.Options(16))
    assert Aecp(16).encode(SAMPLES) == (3000).to_bytes(HEAD, "little") + stream
    turned = aecp.encode(SAMPLES, aecp.Options(16, msb_first=True))
    head = (3000 + 2**31).to_bytes(HEAD, "little")
    assert Aecp(16).encode(SAMPLES.astype(">u2")) == head + turned


def test_the_configuration():
    """numcodecs makes the same codec from its configuration, with each option."""
    codec = Aecp(12, block_size=8, interval=3, signed=True, msb_first=True, pad=True)
    config = codec.get_config()
    numbers = {"id": "aecp", "bits": 12, "block_size": 8, "interval": 3}
    assert config == {**numbers, "signed": True, "msb_first": True, "pad": True}
    assert Aecp(16).get_config() == {"id": "aecp", "bits": 16, "block_size": 16, "interval": 128}
    numcodecs.register_codec(Aecp)
    again = numcodecs.get_codec(config)
    assert type(again) is Aecp and again.usual == codec.usual and again == codec
    data = (SAMPLES % 2048).astype(">i2")
    assert again.decode(codec.encode(data)) == data.tobytes()


@pytest.mark.parametrize("codec", CODECS, ids=_id_of)
@pytest.mark.parametrize("order", "<>")
def test_either_byte_order(codec, order):
    """A chunk is as short in either byte order of its items, and comes back in the same one."""
    data = (SAMPLES % 32768).astype(f"{order}{'i' if codec.usual.signed else 'u'}2")
    other = data.astype(data.dtype.newbyteorder())
    coded = codec.encode(data)
    assert len(coded) == len(codec.encode(other))
    assert (
        codec.decode(coded) == data.tobytes()
        and codec.decode(codec.encode(other)) == other.tobytes()
    )
    room = numpy.empty(len(data), data.dtype)
    assert codec.decode(coded, out=room) is not None and (room == data).all()


def test_chunks_of_bytes():
    """Bytes are stored samples in the options' byte order; so are arrays of one-byte items."""
    for data in (
        SAMPLES.tobytes(),
        bytearray(SAMPLES.tobytes()),
        SAMPLES.view("u1"),
        SAMPLES.view("i1"),
    ):
        coded = Aecp(16).encode(data)
        assert coded == Aecp(16).encode(SAMPLES)
        assert Aecp(16).decode(coded) == SAMPLES.tobytes()
    assert Aecp(16).decode(Aecp(16).encode(b"")) == b""


GIVEN = {
    **{
        name: lambda name=name: numpy.array([1, 0, 0, 1], name)
        for name in ("<i2", ">u2", "u1", "i1", "?")
    },
    "two dimensions": lambda: numpy.array([[1, 2], [3, 4]], "<u2"),
    "array": lambda: array.array("H", [1, 2]),
    "bytes": lambda: bytes(4),
}


@pytest.mark.parametrize("make", GIVEN.values(), ids=GIVEN)
def test_chunks_that_are_taken(make):
    """Integers of two bytes, signed or not, and items of one byte come back as the same bytes."""
    given, codec = make(), Aecp(16)
    assert codec.decode(codec.encode(given)) == bytes(memoryview(given).cast("B"))


@pytest.mark.parametrize("name", ["float32", "float16", "int32", "uint64", "complex64"])
def test_chunks_of_another_type(name):
    """Floats and integers of another size are refused."""
    text = f"^a chunk must be bytes, or integers of 2 bytes each, not {name}$"
    with pytest.raises(TypeError, match=text):
        Aecp(16).encode(numpy.ones(4, name))


def test_other_chunks():
    """So are buffers of floats, masked arrays, and bytes that make no whole samples."""
    with pytest.raises(
        TypeError, match="^a chunk must be bytes, or integers of 2 bytes each, not float32$"
    ):
        Aecp(16).encode(array.array("f", [1.5]))
    mask = numpy.ma.masked_array([1, 2], [0, 1], dtype="<u2")
    with pytest.raises(
        TypeError, match=r"^an array with a mask can't be coded: use its filled\(\)$"
    ):
        Aecp(16).encode(mask)
    with pytest.raises(ValueError, match="^5 bytes are no whole samples of 2$"):
        Aecp(16).encode(bytes(5))
    with pytest.raises(aecp.SampleRefused):
        Aecp(12).encode(numpy.array([4096], "<u2"))


def test_wrong_options():
    """The options are those of aecp.Options, and are checked when the codec is made."""
    with pytest.raises(TypeError, match="^bits must be a whole number, not '16'$"):
        Aecp("16")
    with pytest.raises(TypeError):
        Aecp(16, size=3)


@pytest.mark.parametrize("codec", CODECS, ids=_id_of)
@pytest.mark.parametrize("order", "<>")
def test_a_part_of_a_chunk(codec, order):
    """`decode_partial` returns some samples, in the chunk's byte order, or copies them to `out`."""
    data = (SAMPLES % 32768).astype(f"{order}{'i' if codec.usual.signed else 'u'}2")
    coded = codec.encode(data)
    for start, nitems in ((0, 1), (0, 3000), (1000, 77), (2999, 1), (3000, 0), (5, 0)):
        wanted = data[start : start + nitems]
        assert codec.decode_partial(coded, start, nitems) == wanted.tobytes()
        room = numpy.empty(nitems, data.dtype)
        codec.decode_partial(coded, start, nitems, out=room)
        assert (room == wanted).all()


@pytest.mark.parametrize(
    ("start", "nitems"), [(0, 3001), (2999, 2), (3001, 0), (-1, 2), (5, -1), (-5, 3)]
)
def test_a_part_outside_the_chunk(start, nitems):
    """A part outside the samples of the chunk is refused, also inside the filler of the last
    block."""
    coded = Aecp(16).encode(SAMPLES)
    with pytest.raises(
        aecp.RangeRefused, match=f"^the range {start}:{nitems} is outside the 3000 "
    ) as caught:
        Aecp(16).decode_partial(coded, start, nitems)
    assert caught.value.count == 3000


def test_a_part_needs_no_later_samples():
    """`decode_partial` decodes no sample after the part, so a damaged end is no harm."""
    coded = Aecp(16).encode(SAMPLES)
    assert Aecp(16).decode_partial(coded[:-10], 0, 100) == SAMPLES[:100].tobytes()
    with pytest.raises(aecp.StreamRefused):
        Aecp(16).decode(coded[:-10])


def test_the_example_registers_the_codec(checkout, monkeypatch):
    """examples/aecp_numcodecs.py registers the codec."""
    numcodecs.registry.codec_registry.pop("aecp", None)
    monkeypatch.syspath_prepend(str(checkout / "examples"))
    monkeypatch.delitem(sys.modules, "aecp_numcodecs", raising=False)
    import aecp_numcodecs

    assert aecp_numcodecs.Aecp is Aecp
    codec = numcodecs.get_codec({"id": "aecp", "bits": 16})
    assert type(codec) is Aecp and codec.decode(Aecp(16).encode(SAMPLES)) == SAMPLES.tobytes()


def _record_of(project, folder):
    """Writes the record of an installed module, with the entry point that pyproject.toml has."""
    with open(project, encoding="utf-8") as file:
        entry = file.read().split('[project.entry-points."numcodecs.codecs"]\n')[1].splitlines()[0]
    place = folder / "aecp-1.2.3.dist-info"
    place.mkdir()
    points = f"[numcodecs.codecs]\n{entry}\n".replace('"', "")
    (place / "entry_points.txt").write_text(points, encoding="utf-8")
    (place / "METADATA").write_text(
        "Metadata-Version: 2.1\nName: aecp\nVersion: 1.2.3\n", encoding="utf-8"
    )


def test_the_entry_point(tmp_path):
    """numcodecs finds the codec by its name if the module is installed. Beside a module that isn't
    installed, as in a checkout, is a pyproject.toml: the test writes the record."""
    project = os.path.join(os.path.dirname(os.path.dirname(aecp.__file__)), "pyproject.toml")
    if os.path.exists(project):
        _record_of(project, tmp_path)
    made = "numcodecs.get_codec({'id': 'aecp', 'bits': 16})"
    code = rf"import numcodecs; print({made}.decode(b'\0\0\0\0'))"
    paths = os.pathsep.join([str(tmp_path), os.environ["PYTHONPATH"]])
    given = {**os.environ, "PYTHONPATH": paths}
    ended = subprocess.run([sys.executable, "-c", code], env=given, capture_output=True, text=True)
    assert (ended.returncode, ended.stdout, ended.stderr) == (0, "bytearray(b'')\n", "")


def test_arrays_of_zarr(tmp_path):
    """zarr keeps an array of its format 2 by the codec, and reads it and its parts back."""
    zarr = pytest.importorskip("zarr")
    data, path = SAMPLES[:2048].reshape(32, 64), str(tmp_path / "array")
    if zarr.__version__.startswith("2."):
        zarr.save_array(path, data, chunks=(10, 64), compressor=Aecp(16))
    else:
        zarr.create_array(path, data=data, chunks=(10, 64), compressors=Aecp(16), zarr_format=2)
    stored = zarr.open_array(path, mode="r")
    sizes = {name: os.path.getsize(os.path.join(path, name)) for name in os.listdir(path)}
    assert (stored[:] == data).all()
    assert len([name for name in sizes if name[0] != "."]) == 4 and sum(sizes.values()) < data.nbytes, sizes
    assert (stored[3:25, 7] == data[3:25, 7]).all()
