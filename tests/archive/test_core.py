"""Worked shapes of aecp.archive: every option, padded streams, no samples, one, zeros, shapes."""

from __future__ import annotations

import io
import os
import pickle
import subprocess
import sys
import zlib
from typing import Any

import pytest

sys.path.insert(0, os.path.join(os.path.dirname(__file__), "..", "..", "bindings", "python"))

import aecp  # noqa: E402
from aecp import Options, archive  # noqa: E402
from aecp.archive import _file, _history, _index, _restoring, _saving, _stored, _strict  # noqa: E402

numpy = pytest.importorskip("numpy")

OPTIONS = [
    Options(16),
    Options(16, pad=True),
    Options(12, signed=True, msb_first=True),
    Options(8, 8, 1),
    Options(1, 64, 2),
    Options(4, restricted=True),
    Options(24, three_byte=True, msb_first=True),
    Options(20, signed=True, three_byte=True),
    Options(32, 64, 4096, signed=True),
    Options(16, 10, 3, even_blocks=True),
    Options(16, preprocess=False),
]


def stored(options: Options, count: int, seed: int = 1) -> bytes:
    """Returns stored samples by chance, in the range of the options."""
    chance = numpy.random.default_rng(seed)
    values = chance.integers(options.least, options.most + 1, count).tolist()
    order, size = "big" if options.msb_first else "little", options.storage
    return b"".join(it.to_bytes(size, order, signed=options.signed) for it in values)


def written(options: Options, samples: bytes, **more: Any) -> bytes:
    file = io.BytesIO()
    writer = archive.Writer(file, options)
    for at in range(0, len(samples), 77_777):
        writer.write(samples[at : at + 77_777])
    writer.finish(**more)
    return file.getvalue()


@pytest.mark.parametrize("options", OPTIONS, ids=str)
@pytest.mark.parametrize("count", [0, 1, 7, 2048, 60_000])
def test_every_option(options: Options, count: int) -> None:
    samples, size = stored(options, count), options.storage
    with archive.ArchiveFile.of_bytes(written(options, samples)) as file:
        assert (file.facts.options, file.facts.count) == (options, count)
        assert file.stream() == aecp.encode(samples, options)
        assert b"".join(file.pieces()) == samples
        file.judge_all()
        assert file.bad_groups() == []
        for first in {0, count // 3, max(count - 5, 0)}:
            part = b"".join(file.pieces(first, min(5, count - first)))
            assert part == samples[first * size : (first + 5) * size]


@pytest.mark.parametrize("options", OPTIONS, ids=str)
def test_groups_are_the_fewest_intervals(options: Options) -> None:
    count, interval = 100_000, options.block_size * options.interval
    samples, size = stored(options, count), options.storage
    file = archive.ArchiveFile.of_bytes(written(options, samples))
    stream, groups = file.stream(), list(file.index.groups())
    assert (groups[0].bit, groups[0].first) == (0, 0)
    assert sum(group.length for group in groups) == count
    for group in groups:
        data = stream[group.bit // 8 : -(-group.end // 8)]
        assert zlib.crc32(data) == group.crc
        assert group.first % interval == 0 and not (options.pad and group.bit % 8)
        code = aecp.encode(samples[group.first * size :][: group.length * size], options)
        if group is not groups[-1]:
            assert group.end - group.bit >= 131_072
            assert abs(8 * len(code) - (group.end - group.bit)) < 8
            fewer = samples[group.first * size :][: (group.length - interval) * size]
            assert 8 * len(aecp.encode(fewer, options)) < 131_072 + 8


def test_zeros_are_a_big_group() -> None:
    data = written(Options(16), bytes(30_000_000))
    with archive.ArchiveFile.of_bytes(data) as file:
        assert len(file.index) == 3 and file.index[0].length > 7_000_000
        assert max(map(len, file.pieces())) <= 4 << 20
        assert sum(map(len, file.pieces())) == 30_000_000
        assert b"".join(file.pieces(7_456_760, 20)) == bytes(40)
        file.judge_all()


@pytest.mark.parametrize("dtype", ["<i2", ">u2", "|u1", "|i1", "<u4", ">i4", "<i8", ">u8", "|b1"])
@pytest.mark.parametrize("shape", [(), (0,), (5,), (30, 70), (3, 0), (4, 5, 6, 7)])
def test_arrays_come_back(dtype: str, shape: tuple[int, ...]) -> None:
    chance = numpy.random.default_rng(1)
    values = chance.integers(0, 2 if dtype == "|b1" else 100, shape)
    array = numpy.asarray(values - (50 if dtype[1] == "i" else 0)).astype(dtype)
    data = aecp.pack(array)
    again = aecp.unpack(data)
    assert again.dtype == numpy.dtype(dtype) and again.shape == shape
    assert (again == array).all()
    assert archive.ArchiveFile.of_bytes(data).facts.options.bits <= 7


KEYS = [
    3, -1, (2, 3), (2, 3, 4), ..., (..., 1), slice(2, 4), slice(None, None, -2), slice(5, 5),
    (slice(None), 3, slice(40, 2, -7)), (None, 1, slice(0, 2)), (slice(1, 6, 2), ..., slice(5, 6)),
    [0, 2], (slice(6, 9), slice(1, 1)),
]  # fmt: skip


@pytest.mark.parametrize("key", KEYS, ids=str)
def test_parts_are_those_of_the_array(tmp_path: Any, key: Any) -> None:
    array = numpy.random.default_rng(2).integers(0, 4000, (7, 60, 70)).astype("<u2")
    path = tmp_path / "a.aec"
    with aecp.create(path, Options(12), array.shape) as file:
        for frame in array:
            file.write(frame)
    with aecp.open(path) as samples:
        part = samples[key]
        assert part.dtype == array.dtype and part.shape == array[key].shape
        assert (part == array[key]).all()
        assert (numpy.asarray(samples) == array).all()
        assert all((mine == frame).all() for mine, frame in zip(samples, array))
        assert (pickle.loads(pickle.dumps(samples))[3] == array[3]).all()


PARTS = [5, -1, slice(3, 9), slice(9, 3), slice(70_000, 2, -70), slice(-5, None)]


@pytest.mark.parametrize("key", PARTS)
def test_parts_of_a_list(key: Any) -> None:
    values = numpy.random.default_rng(2).integers(0, 4000, 150_000).astype("<i2")
    found = archive.Samples(archive.ArchiveFile.of_bytes(aecp.pack(values)))
    assert found[key].dtype == values.dtype
    assert numpy.array_equal(found[key], values[key])
    assert found._plain_item(3) == values[3]
    assert all(mine == value for mine, value in zip(found, values))
    with pytest.raises(IndexError):
        found[150_000]


def test_an_array_without_dimensions() -> None:
    found = archive.Samples(archive.ArchiveFile.of_bytes(aecp.pack(numpy.array(7, "<u2"))))
    assert found[()] == 7 and found.shape == () and numpy.asarray(found).shape == ()
    for refused in (len, list):
        with pytest.raises(TypeError):
            refused(found)


def test_damage_is_local(tmp_path: Any) -> None:
    samples = stored(Options(16), 200_000)
    data = bytearray(written(Options(16), samples))
    data[100_000] ^= 4
    with archive.ArchiveFile.of_bytes(data) as file:
        (lost,) = file.bad_groups()
        assert lost.length <= 10_240 and lost.first <= 50_000 < lost.first + lost.length
        with pytest.raises(archive.Damaged) as caught:
            file.judge_all()
        assert (caught.value.kind, caught.value.range) == ("bad group", lost)
        assert b"".join(file.pieces(0, lost.first)) == samples[: 2 * lost.first]
        for first, length in (lost, (lost.first, 1), (lost.first + lost.length - 1, 2)):
            with pytest.raises(archive.Damaged):
                list(file.pieces(first, length))
        found = archive.Samples(file)
        with pytest.raises(archive.Damaged):
            found[lost.first]
        assert found[lost.first - 1] == int.from_bytes(samples[2 * lost.first - 2 :][:2], "little")
        assert found.bad_ranges() == [lost]


def test_a_file_of_bytes_in_pieces(tmp_path: Any) -> None:
    samples = stored(Options(24, three_byte=True), 1_000_000)
    path = os.path.join(tmp_path, "a.aec")
    with aecp.create(path, Options(24, three_byte=True)) as file:
        file.write(io.BytesIO(samples))
    with aecp.open(path) as found:
        assert found.dtype == numpy.dtype("<u4")
        assert found[999_999] == int.from_bytes(samples[-3:], "little")
    with pytest.raises(archive.Exists):
        aecp.create(path, Options(16))
    with pytest.raises(KeyError), aecp.create(path + "2", Options(16)) as file:
        file.write(bytes(100))
        raise KeyError
    assert os.listdir(tmp_path) == ["a.aec"]


@pytest.mark.parametrize("is_msb", [False, True])
def test_samples_of_three_bytes_are_integers(is_msb: bool) -> None:
    options = Options(20, signed=True, three_byte=True, msb_first=is_msb)
    values = numpy.array([-524_288, -1, 0, 1, 524_287, -70_000] * 500, ">i4" if is_msb else "<i4")
    data = aecp.pack(values, bits=20, three_byte=True)
    file = archive.ArchiveFile.of_bytes(data)
    assert file.facts.options == options and file.facts.samples.bytes == 9000
    assert (aecp.unpack(data) == values).all() and aecp.unpack(data).dtype == values.dtype


def test_a_codec_decodes_parts() -> None:
    codec = pytest.importorskip("aecp.codec").Aecp(16)
    array = numpy.arange(5000, dtype=">u2")
    chunk = codec.encode(array)
    assert bytes(codec.decode_partial(chunk, 4000, 60)) == array[4000:4060].tobytes()
    with pytest.raises(aecp.RangeRefused):
        codec.decode_partial(chunk, 4990, 11)


def test_unused_bits_are_refused() -> None:
    with pytest.raises(archive.Refused, match="unused bits"):
        written(Options(12, signed=True), b"\x00\x08")


def test_history_comes_back_and_repeats_are_stored_once() -> None:
    facts = archive.Facts(Options(16), 4, archive.Sum(8, "a" * 64), archive.Sum(9, "b" * 64), shape=(2, 2))
    script = archive.Script.of(os.urandom(40_000))  # more than zlib itself can find again
    inverse = archive.Difference(1, 2, zlib.compress(b"xyz"))
    state, edit = facts.state, _history.edit_entry(facts, facts.state, 3, script, inverse)
    history = [_history.keep_entry(state), edit, edit, edit]
    assert _history.history_of(_history.packed_history(history)) == history
    once = len(_history.packed_history(history[:2]))
    assert len(_history.packed_history(history)) < once + 300
    assert _history.last_edit(history) == 3
    undone = _history.with_undo(history, 3, state)
    assert _history.last_edit(undone) == 2 and undone[4].edit == 3
    short = _history.forgotten(undone, 2)
    assert [entry.what for entry in short] == ["forget", "edit", "undo"]
    assert (short[0].entries, short[2].edit) == (3, 1)
    shorter = _history.forgotten(short, 1)
    assert (shorter[0].entries, shorter[1].edit) == (4, None)
    assert _history.history_of(_history.packed_history(shorter)) == shorter


@pytest.mark.parametrize("script", [None, b"overwrite 5 1\n"])
@pytest.mark.parametrize("earlier, later", [(b"abcdef", b"abXdef"), (b"", b"ab"), (b"aa", b"aaaa")])
def test_inverses(earlier: bytes, later: bytes, script: Any) -> None:
    inverse = _stored.least_inverse(earlier, later, script and archive.Script.of(script))
    assert isinstance(inverse, archive.Difference)
    assert _stored.apply_difference(inverse, later, len(earlier)) == earlier
    if len(earlier) > 2:
        with pytest.raises(archive.Damaged):
            _stored.apply_difference(inverse, later[:2], len(earlier))


def test_a_script_is_taken_if_it_is_less() -> None:
    for tried in (archive.Script.of(b"overwrite 5 1\n"), archive.Values(b"12345")):
        assert _stored.least_inverse(os.urandom(3000), os.urandom(3000), tried) == tried


def test_replacements(tmp_path: Any) -> None:
    path = os.path.join(tmp_path, "a.aec")
    with _saving.new_file(path) as file:
        file.write(b"one")
        assert sum(name.startswith(".aecp-") for name in os.listdir(tmp_path)) == 1
        _saving.remove_leftovers(str(tmp_path))  # this run is alive
    os.chmod(path, 0o640)
    with _saving.locked(path) as status:
        with pytest.raises(_saving.Busy), _saving.locked(path, wait=False):
            pass
        with _saving.replacement(path, status) as file:
            file.write(b"two")
    assert (open(path, "rb").read(), os.stat(path).st_mode & 0o777) == (b"two", 0o640)
    with pytest.raises(archive.Refused), _saving.replacement(path, status) as file:
        file.write(b"three")
    link = os.path.join(tmp_path, "b.aec")
    os.symlink(path, link)
    with pytest.raises(archive.Refused, match="symbolic link"), _saving.locked(link):
        pass
    with pytest.raises(archive.Exists), _saving.new_file(link):
        pass
    assert sorted(os.listdir(tmp_path)) == ["a.aec", "b.aec"]


@pytest.mark.parametrize("ways", [0, 1, 2])
def test_names_on_other_file_systems(tmp_path: Any, monkeypatch: Any, ways: int) -> None:
    def refuse(*_: Any, **__: Any) -> None:
        raise OSError(95, "not supported")

    for name in ("rename_exclusive", "link_and_unlink")[:ways]:
        monkeypatch.setattr(_saving, name, refuse)
    path = os.path.join(tmp_path, "a.aec")
    for raises in (False, True):
        try:
            _saving.rename_to_new(hidden(tmp_path), path)
            assert not raises
        except archive.Exists:
            assert raises
            os.unlink(os.path.join(tmp_path, ".aecp-00000000.new"))
    assert os.listdir(tmp_path) == ["a.aec"]


def hidden(folder: Any) -> str:
    path = os.path.join(folder, ".aecp-00000000.new")
    with open(path, "wb") as file:
        file.write(b"x")
    return path


def test_leftovers_of_the_dead_go(tmp_path: Any) -> None:
    path = hidden(tmp_path)
    os.symlink("/etc/passwd", os.path.join(tmp_path, ".aecp-00000001.new"))
    os.mkfifo(os.path.join(tmp_path, ".aecp-00000002.new"))
    _saving.remove_leftovers(str(tmp_path))
    assert not os.path.exists(path) and len(os.listdir(tmp_path)) == 2


def test_pipes_and_folders_are_refused(tmp_path: Any) -> None:
    pipe = os.path.join(tmp_path, "a.aec")
    os.mkfifo(pipe)
    for path in (pipe, str(tmp_path), "/dev/null"):
        with pytest.raises(archive.Refused):
            _file.opened(path)
    with pytest.raises(FileNotFoundError):
        aecp.open(os.path.join(tmp_path, "none"))


def test_limits() -> None:
    data = aecp.pack(numpy.zeros(1000, "<u2"))
    with pytest.raises(archive.Refused):
        aecp.unpack(data, 999)
    assert len(aecp.unpack(data, 1000)) == 1000


def test_without_numpy_and_without_a_library(tmp_path: Any) -> None:
    path = os.path.join(tmp_path, "a.aec")
    code = f"""
import array, sys
sys.modules["numpy"] = None
import aecp
values = array.array("i", [-5, 7, 100, 3] * 1000)
data = aecp.pack(values)
assert aecp.unpack(data) == values
with aecp.create({path!r}, aecp.Options(12, signed=True, msb_first=True)) as file:
    file.write(array.array("h", range(-2000, 2000)))
with aecp.open({path!r}) as samples:
    assert samples[0] == -2000 and samples[-1] == 1999 and len(samples) == 4000
    assert samples[10:20:3].tolist() == [-1990, -1987, -1984, -1981]
    assert samples[20:10:-3].tolist() == [-1980, -1983, -1986, -1989]
    assert list(samples)[:2] == [-2000, -1999]
"""
    subprocess.run([sys.executable, "-c", code], check=True, env={**os.environ, **PATH})
    script = os.path.join(tmp_path, "aecp")
    with open(script, "w", encoding="ascii") as file:
        file.write("import aecp\naecp.Options(8)\nprint(aecp.encode)\n")
    given = {**os.environ, **PATH, "AECP_LIBRARY": "/none"}
    subprocess.run([sys.executable, script], check=True, env=given, stdout=subprocess.DEVNULL)


PATH = {"PYTHONPATH": os.path.join(os.path.dirname(__file__), "..", "..", "bindings", "python")}


def test_index_of_a_long_list_is_small() -> None:
    data = written(Options(16), stored(Options(16), 1 << 20))
    file = archive.ArchiveFile.of_bytes(data)
    assert len(file.index) * _index.ENTRY.size <= len(file.stream()) / 1000


def test_a_name_that_occurs_twice_is_refused() -> None:
    assert _strict.parse(b'{"a":1,"b":1}', 9) == {"a": 1, "b": 1}
    with pytest.raises(_strict.Wrong):
        _strict.parse(b'{"a":1,"a":1}', 9)


def test_the_part_of_a_damaged_range_that_is_asked_for() -> None:
    lost = archive.Range(10, 20)
    for first, length, part in ((15, 10, (15, 10)), (0, 15, (10, 5)), (25, 99, (25, 5)), (0, 99, (10, 20))):
        assert _restoring.within(lost, first, length) == part
    assert _restoring.within(lost, 30, 9).length == _restoring.within(lost, 0, 10).length == 0


@pytest.mark.parametrize("count", [0, 1, 1 << 21, (1 << 21) + 1, 5 << 20])
def test_a_long_fill(count: int) -> None:
    file = io.BytesIO()
    _restoring.write_fill(file, b"ab", count)
    assert file.getvalue() == b"ab" * count
