"""`aecp.create`, `aecp.pack` and `aecp.unpack`."""

from __future__ import annotations

import dataclasses
import io
import os
import random
from typing import Any

import aecp
import pytest
from hypothesis import given
from hypothesis import strategies as st
from hypothesis.extra import numpy as arrays
from making import USUAL, leftovers, made, options_of, read, samples_for, settings_by_chance, sound_parts, walk
from plain_form import demand_sound, parts_of
from running import How, Hooks, in_child
from lib.settings import Settings

numpy = pytest.importorskip("numpy")


def fresh(folder: Any) -> str:
    """Returns a path in the folder, which is emptied."""
    for name in os.listdir(folder):
        os.unlink(os.path.join(folder, name))
    return os.path.join(folder, "f.aec")


@given(st.data())
def test_pieces_make_the_same_file(tmp_path: Any, data: Any) -> None:
    settings = data.draw(settings_by_chance())
    samples = data.draw(samples_for(settings))
    stored, path = settings.stored(samples), fresh(tmp_path)
    with aecp.create(path, options_of(settings)) as file:
        at = 0
        while at < len(stored):
            size = settings.storage() * data.draw(st.integers(1, 70))
            piece = stored[at : at + size]
            file.write(io.BytesIO(piece) if data.draw(st.booleans()) else piece)
            at += size
    assert sound_parts(path).stream == bytes(aecp.encode(stored, options_of(settings)))


def test_arrays_bytes_and_files_are_written(tmp_path: Any) -> None:
    array = numpy.array(walk(1, 5000), dtype="u2")
    path = str(tmp_path / "f.aec")
    with aecp.create(path, aecp.Options(16), shape=(3, 5000)) as file:
        file.write(array)
        file.write(array.tobytes())
        file.write(io.BytesIO(array.tobytes()))
    with aecp.open(path) as file:
        assert (numpy.asarray(file) == numpy.stack([array] * 3)).all()


def test_an_exception_discards(tmp_path: Any) -> None:
    with pytest.raises(KeyError):
        with aecp.create(str(tmp_path / "f.aec"), aecp.Options(16)) as file:
            file.write(b"12" * 100000)
            raise KeyError
    assert os.listdir(tmp_path) == []


@pytest.mark.parametrize("late", [False, True])
def test_never_over_an_existing_file(tmp_path: Any, late: bool) -> None:
    path = tmp_path / "f.aec"
    if not late:
        path.write_bytes(b"mine")
    with pytest.raises(FileExistsError):
        with aecp.create(str(path), aecp.Options(16)) as file:
            file.write(b"1234")
            path.write_bytes(b"mine")
    assert path.read_bytes() == b"mine" and os.listdir(tmp_path) == ["f.aec"]


def test_never_over_a_dangling_link(tmp_path: Any) -> None:
    os.symlink(tmp_path / "other", tmp_path / "f.aec")
    with pytest.raises(FileExistsError):
        made(str(tmp_path / "f.aec"), [1, 2, 3])
    assert os.listdir(tmp_path) == ["f.aec"] and os.path.islink(tmp_path / "f.aec")


def test_the_file_appears_at_the_end_alone(tmp_path: Any) -> None:
    with aecp.create(str(tmp_path / "f.aec"), aecp.Options(16)) as file:
        file.write(b"1234")
        assert [name for name in os.listdir(tmp_path) if not name.startswith(".aecp-")] == []
    assert os.listdir(tmp_path) == ["f.aec"]


def test_a_shape_that_does_not_fit_is_refused(tmp_path: Any) -> None:
    from aecp.archive import Refused

    for shape in ((3, 5), (17,), (0,), (4, 4, 2)):
        with pytest.raises((Refused, ValueError)):
            made(str(tmp_path / "f.aec"), walk(1, 16), shape=shape)
    assert os.listdir(tmp_path) == []
    made(str(tmp_path / "f.aec"), walk(1, 16), shape=(2, 1, 8))
    assert sound_parts(str(tmp_path / "f.aec")).fields["shape"] == [2, 1, 8]


def test_bad_samples_are_refused(tmp_path: Any) -> None:
    from aecp.archive import Refused

    path = str(tmp_path / "f.aec")
    with pytest.raises(aecp.SampleRefused):
        made(path, [5000], Settings(bits=12, block_size=16)._replace(bits=16))  # right: 16 bits take it
        os.unlink(path)
        with aecp.create(path, aecp.Options(12)) as file:
            file.write(b"\xff\xff")
    with pytest.raises((Refused, ValueError)):
        with aecp.create(path, aecp.Options(16)) as file:
            file.write(b"abc")
    with pytest.raises(TypeError):
        with aecp.create(path, aecp.Options(16)) as file:
            file.write(numpy.zeros(4, dtype="f4"))
    with pytest.raises(aecp.OptionsRefused):
        with aecp.create(path, aecp.Options(0)) as file:
            file.write(b"")
    assert os.listdir(tmp_path) == []


@given(
    st.data(),
    st.sampled_from(["u1", "i1", "<u2", ">u2", "<i2", ">i2", "<u4", ">u4", "<i4", ">i4"]),
    arrays.array_shapes(min_dims=0, max_dims=5, min_side=0, max_side=9),
)
def test_pack_and_unpack(data: Any, dtype: str, shape: tuple[int, ...]) -> None:
    array = data.draw(arrays.arrays(numpy.dtype(dtype), shape))
    packed = aecp.pack(array)
    options = aecp.Options(**parts_of(packed).fields["options"])
    parts = demand_sound(packed, lambda coded, count: aecp.decode_bytes(coded, count, options))
    got = aecp.unpack(packed)
    assert got.shape == array.shape and got.dtype == array.dtype and (got == array).all()
    assert parts.fields["samples"]["count"] == array.size and parts.fields["dtype"] == array.dtype.str
    assert options.signed == (array.dtype.kind == "i") and options.storage <= array.dtype.itemsize


def test_pack_takes_as_few_bits_as_it_needs() -> None:
    for values, dtype, bits in (([0, 4095], "u2", 12), ([-2048, 2047], "i2", 12), ([0, 4096], "u2", 13), ([0, 2**31], "u4", 32)):
        packed = aecp.pack(numpy.array(values, dtype=dtype))
        found = parts_of(packed).fields["options"]["bits"]
        assert found == bits and (aecp.unpack(packed) == numpy.array(values, dtype=dtype)).all()


def test_pack_takes_parts_of_arrays_and_refuses_others() -> None:
    array = numpy.arange(600, dtype="u2").reshape(20, 30)
    for view in (array[::2, ::3], array.T, array[::-1], numpy.asfortranarray(array)):
        assert (aecp.unpack(aecp.pack(view)) == view).all()
    wide = numpy.array([-5, 7], dtype="i8")
    assert (aecp.unpack(aecp.pack(wide)) == wide).all()
    with pytest.raises((TypeError, aecp.SampleRefused)):
        aecp.pack(numpy.array([1 << 40]))
    for wrong in (numpy.zeros(3), numpy.array(["a"]), numpy.array([None])):
        with pytest.raises(TypeError):
            aecp.pack(wrong)
    with pytest.raises(aecp.SampleRefused):
        aecp.pack(array, bits=8 + 1)


def test_unpack_checks_everything() -> None:
    from aecp.archive import Damaged, Refused

    packed = aecp.pack(numpy.array(walk(1, 3000), dtype="u2"))
    chance = random.Random(1)
    for _ in range(300):
        bit = chance.randrange(8 * len(packed))
        changed = bytearray(packed)
        changed[bit // 8] ^= 128 >> bit % 8
        with pytest.raises(Damaged):
            aecp.unpack(bytes(changed))
    for size in {0, 1, 31, 32, 33, len(packed) // 2, len(packed) - 1}:
        with pytest.raises(Damaged):
            aecp.unpack(packed[:size])
    for more in (b"\0", b"x" * 40):
        with pytest.raises(Damaged):
            aecp.unpack(packed + more)
    with pytest.raises(Refused):
        aecp.unpack(packed, limit=2999)
    # Sealed again, with the sum of other samples.
    parts = parts_of(packed)
    parts.fields["samples"]["sha256"] = "0" * 64
    with pytest.raises(Damaged):
        aecp.unpack(parts.sealed())


def test_writes_in_constant_memory(tmp_path: Any) -> None:
    """Writes 128 MiB with 64 MiB of address space more than at the start."""

    def work() -> None:
        import resource

        with open("/proc/self/statm", encoding="ascii") as statm:
            size = int(statm.read().split()[0]) * 4096
        resource.setrlimit(resource.RLIMIT_AS, (size + (64 << 20), size + (64 << 20)))
        piece = bytes(range(256)) * 4096
        with aecp.create("f.aec", aecp.Options(16, pad=True)) as file:
            for _ in range(128):
                file.write(piece)
        with aecp.open("f.aec") as file:
            assert len(file) == 64 << 20 and bytes(file[-128:].tobytes()) == piece[-256:]

    ran = in_child(str(tmp_path), work, How(seconds=120))
    assert ran.status == 0, ran.err


def test_what_was_written_is_decoded_before_it_appears(tmp_path: Any, monkeypatch: Any) -> None:
    """A coder that codes other samples is noticed."""
    real = aecp.Encoder.feed

    def wrong(self: Any, samples: Any) -> bytes:
        data = bytearray(bytes(memoryview(samples).cast("B")))
        if data:
            data[0] ^= 1
        return real(self, bytes(data))

    monkeypatch.setattr(aecp.Encoder, "feed", wrong)
    from aecp.archive import Refused

    with pytest.raises(Refused):
        made(str(tmp_path / "f.aec"), walk(1, 3000))
    assert os.listdir(tmp_path) == []


@pytest.mark.parametrize("part", ["trailer", "history"])
def test_what_was_written_is_read_again_before_it_appears(tmp_path: Any, monkeypatch: Any, part: str) -> None:
    """A file that a reader would refuse, or that says something else, is noticed."""
    from aecp.archive import Refused, _writer

    real = _writer.ending
    history = _writer.packed_history([])

    def ending(facts: Any, index: bytes, entries: bytes) -> bytes:
        if part == "history":
            return real(facts, index, history)
        return real(dataclasses.replace(facts, written="yesterday"), index, entries)

    monkeypatch.setattr(_writer, "ending", ending)
    with pytest.raises(Refused, match="can't be read again"):
        made(str(tmp_path / "f.aec"), walk(1, 3000))
    assert os.listdir(tmp_path) == []


def test_a_full_disk_leaves_nothing(tmp_path: Any) -> None:
    for room in (0, 1, 100, 1000, 5000):

        def work() -> None:
            made("f.aec", walk(1, 9000))

        ran = in_child(str(tmp_path), work, How(hooks=Hooks(room=room)))
        assert ran.status == 71 and "No space left" in ran.err
        assert os.listdir(tmp_path) == []


def test_leftovers_of_a_killed_process(tmp_path: Any) -> None:
    """Removes the hidden files of a process that is gone, and none of one that is alive."""
    from aecp.archive import _saving

    ready, end = os.pipe(), os.pipe()

    def work() -> None:
        with aecp.create("alive.aec", aecp.Options(16)) as file:
            file.write(b"1234")
            os.write(ready[1], b"x")
            os.read(end[0], 1)

    from running import Started

    alive = Started(str(tmp_path), work, How())
    os.read(ready[0], 1)
    before = set(leftovers(tmp_path))
    dead = Started(str(tmp_path), work, How())
    os.read(ready[0], 1)
    assert len(set(leftovers(tmp_path)) - before) == 1
    dead.kill()
    dead.ended()
    _saving.remove_leftovers(str(tmp_path))
    assert set(leftovers(tmp_path)) == before
    os.write(end[1], b"xx")
    assert alive.ended().status == 0
    assert os.listdir(tmp_path) == ["alive.aec"]
    assert read(tmp_path, "alive.aec").startswith(bytes(aecp.encode(b"1234", aecp.Options(16))))


def test_usual_is_what_the_tests_mean() -> None:
    assert USUAL.interval_len() == 64
