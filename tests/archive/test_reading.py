"""`aecp.open`: an object like an array, which reads only what is asked for."""

from __future__ import annotations

import copy
import os
import pickle
import random
import subprocess
import sys
import threading
import time
from typing import Any

import aecp
import pytest
from hypothesis import given
from hypothesis import strategies as st
from making import FAST, USUAL, flip, made, noise, parts_at, samples_for, settings_by_chance, walk
from running import How, done, in_child
from lib.settings import Settings

numpy = pytest.importorskip("numpy")


@given(st.data())
def test_slices_are_those_of_a_list(tmp_path: Any, data: Any) -> None:
    settings = data.draw(settings_by_chance())._replace(three_byte=False)
    samples = data.draw(samples_for(settings))
    path = str(tmp_path / "f.aec")
    if os.path.exists(path):
        os.unlink(path)
    made(path, samples, settings)
    count = len(samples)
    places = st.one_of(st.none(), st.integers(-count - 3, count + 3))
    with aecp.open(path) as file:
        assert (len(file), file.size, file.count, file.ndim, tuple(file.shape)) == (count, count, count, 1, (count,))
        for _ in range(6):
            part = slice(data.draw(places), data.draw(places), data.draw(st.sampled_from([None, 1, 2, 7, -1, -3])))
            assert list(file[part]) == samples[part]
            at = data.draw(st.integers(-count - 3, count + 3))
            if -count <= at < count:
                assert file[at] == samples[at]
            else:
                with pytest.raises(IndexError):
                    file[at]
        assert list(file) == samples


@pytest.fixture(scope="module")
def large(tmp_path_factory: Any) -> tuple[str, list[int]]:
    """An archive of 60,000 samples by chance: eight groups."""
    samples = noise("large", 60000)
    return made(str(tmp_path_factory.mktemp("large") / "f.aec"), samples, USUAL), samples


def test_parts_across_groups(large: Any) -> None:
    path, samples = large
    chance = random.Random(1)
    bounds = [it.interval * 64 for it in parts_at(path).groups]
    assert len(bounds) > 5
    with aecp.open(path) as file:
        for bound in bounds + [60000]:
            for first in (bound - 65, bound - 1, bound, bound + 1):
                for length in (1, 2, 64, 9000):
                    first = max(first, 0)
                    assert list(file[first : first + length]) == samples[first : first + length]
        for _ in range(100):
            first, end = chance.randrange(60000), chance.randrange(60001)
            step = chance.choice([1, 2, 1000, -1, -999])
            assert list(file[first:end:step]) == samples[first:end:step]


def test_shapes_are_indexed_as_arrays_are(tmp_path: Any) -> None:
    array = numpy.array(noise(3, 4 * 50 * 300), dtype="u2").reshape(4, 50, 300)
    path = str(tmp_path / "f.aec")
    with aecp.create(path, aecp.Options(16), shape=array.shape) as file:
        file.write(array)
    ways: list[Any] = [
        0, -1, 3, slice(1, 3), slice(None, None, -1), Ellipsis, (0, 5), (2, slice(3, 40, 7)), (1, slice(10, 20), slice(5, 90)),
        (Ellipsis, 7), (0, Ellipsis), (slice(None), 3), (slice(0, 4, 2), slice(None), -1), (3, 49, 299), (slice(2, 2),), (-1, -1, -1),
        (slice(None), slice(-5, None), slice(None, None, -3)), (),
    ]  # fmt: skip
    with aecp.open(path) as file:
        assert (tuple(file.shape), file.ndim, file.size, len(file), numpy.dtype(file.dtype)) == (array.shape, 3, array.size, 4, array.dtype)
        for way in ways:
            got = numpy.asarray(file[way])
            assert got.shape == array[way].shape and (got == array[way]).all(), way
        for got, wanted in zip(file, array):
            assert (numpy.asarray(got) == wanted).all()
        for wrong in (4, -5, (0, 50), (0, 0, 300), (0, 0, 0, 0), (0, 0, 0, slice(None))):
            with pytest.raises(IndexError):
                file[wrong]
        with pytest.raises((TypeError, IndexError)):
            file["x"]


@pytest.mark.parametrize("dtype", ["u1", "i1", "<u2", ">u2", "<i2", ">i2", "<u4", ">i4"])
def test_numpy_takes_it(tmp_path: Any, dtype: str) -> None:
    array = numpy.array(noise(dtype, 3000, 7), dtype=dtype)
    path = str(tmp_path / "f.aec")
    order = dtype[0] == ">"
    with aecp.create(path, aecp.Options(8 * array.itemsize, signed=array.dtype.kind == "i", msb_first=order)) as file:
        file.write(array)
    with aecp.open(path) as file:
        got = numpy.asarray(file)
        assert (got == array).all() and got.dtype == array.dtype
        assert numpy.asarray(file, dtype="f8").dtype == numpy.dtype("f8")
        assert (numpy.asarray(file[5:9]) == array[5:9]).all()
        one, two = numpy.array(file), numpy.array(file)
        one[0] += 1
        assert two[0] == array[0] and file[0] == array[0], "a result is the caller's own"


def test_parts_are_the_caller_s_own(large: Any) -> None:
    path, samples = large
    with aecp.open(path) as file:
        part = file[100:110]
        part[:] = 0
        assert list(file[100:110]) == samples[100:110]
        numpy.asarray(file[100:110])[:] = 0
        assert list(file[100:110]) == samples[100:110]


def test_parts_of_long_groups(tmp_path: Any) -> None:
    """A group of 16 KiB of code may have millions of samples: each part has the right ones."""
    wanted = numpy.zeros(9 << 20, dtype="u1")
    wanted[:: 100_003] = 7
    wanted[1 :: 700_001] = 9
    path = str(tmp_path / "f.aec")
    with aecp.create(path, aecp.Options(8, block_size=64, interval=64)) as file:
        file.write(wanted)
    assert len(parts_at(path).groups) <= 3
    chance = random.Random(1)
    with aecp.open(path) as file:
        for first in [0, 1, 4095, 4096, 4 << 20, (4 << 20) + 1, wanted.size - 5] + [chance.randrange(wanted.size) for _ in range(5)]:
            for length in (5, 100_010):
                assert (file[first : first + length] == wanted[first : first + length]).all(), (first, length)
        assert (numpy.asarray(file) == wanted).all()
        assert [tuple(it) for it in file.bad_ranges()] == []


def test_only_the_groups_needed_are_read(large: Any, tmp_path: Any) -> None:
    path, samples = large
    other = str(tmp_path / "f.aec")
    with open(path, "rb") as source, open(other, "wb") as target:
        target.write(source.read())
    groups = parts_at(path).groups
    flip(other, groups[3].bit + 5000)
    first, end = groups[3].interval * 64, groups[4].interval * 64
    with aecp.open(other) as file:
        assert list(file[:first]) == samples[:first]
        assert list(file[end:]) == samples[end:]
        for part in (slice(first, first + 1), slice(end - 1, end), slice(0, 60000), slice(first - 1, first + 1)):
            with pytest.raises(Exception) as fault:
                file[part]
            assert isinstance(fault.value, damaged()), fault.value
        assert [tuple(it) for it in file.bad_ranges()] == [(first, end - first)]
        assert list(file[first - 10 : first]) == samples[first - 10 : first], "it goes on after a fault"
        with pytest.raises(damaged()):
            numpy.asarray(file)
        with pytest.raises(damaged()):
            list(file)


def damaged() -> Any:
    from aecp.archive import Damaged

    return Damaged


def test_every_flipped_bit_is_noticed(large: Any, tmp_path: Any) -> None:
    path, samples = large
    groups = parts_at(path).groups
    chance = random.Random(5)
    data = open(path, "rb").read()
    size = len(parts_at(path).stream)
    for _ in range(60):
        bit = chance.randrange(8 * size)
        other = str(tmp_path / "f.aec")
        changed = bytearray(data)
        changed[bit // 8] ^= 128 >> bit % 8
        open(other, "wb").write(changed)
        with aecp.open(other) as file:
            ranges = [tuple(it) for it in file.bad_ranges()]
        owner = max(i for i, it in enumerate(groups) if it.bit // 8 <= bit // 8)
        starts = [it.interval * 64 for it in groups] + [60000]
        assert (starts[owner], starts[owner + 1] - starts[owner]) in merged_parts(ranges, starts), (bit, ranges)
        assert sum(length for _, length in ranges) <= 2 * 8192 + 200, "damage stays where it is"


def merged_parts(ranges: Any, starts: list[int]) -> list[tuple[int, int]]:
    """Returns the groups that ranges cover, whether or not neighbours are one range."""
    return [
        (a, b - a) for a, b in zip(starts, starts[1:]) if any(first <= a and b <= first + length for first, length in ranges)
    ]


def test_reads_in_the_time_of_what_is_read(tmp_path: Any, times: int) -> None:
    mib = 64 if times > 1 else 16
    path = str(tmp_path / "f.aec")
    piece = numpy.random.default_rng(1).integers(0, 1 << 16, (1 << 20) // 2, dtype="u2")
    with aecp.create(path, aecp.Options(16)) as file:
        for _ in range(mib):
            file.write(piece)
    best = 1.0
    for _ in range(40):
        begun = time.perf_counter()
        with aecp.open(path) as file:
            got = file[-10:]
        best = min(best, time.perf_counter() - begun)
    assert (numpy.asarray(got) == piece[-10:]).all()
    assert best <= 0.001, f"{best * 1e6:.0f} us for ten samples at the end of {mib} MiB"


def test_a_read_takes_few_bytes(large: Any) -> None:
    """Counts the bytes that a process reads: a damaged or slow disk is asked for the group alone."""
    path, samples = large

    def bytes_read() -> int:
        with open("/proc/self/io", encoding="ascii") as file:
            return int(file.readline().split()[1])

    with aecp.open(path):
        pass
    with aecp.open(path) as file:
        before = bytes_read()
        assert list(file[50000:50010]) == samples[50000:50010]
        assert bytes_read() - before < 40000


def test_threads_share_an_open_file(large: Any) -> None:
    path, samples = large
    faults: list[str] = []

    def work(seed: int) -> None:
        chance = random.Random(seed)
        for _ in range(150):
            first = chance.randrange(60000)
            length = chance.choice([1, 10, 5000])
            if list(file[first : first + length]) != samples[first : first + length]:
                faults.append(f"{first} {length}")

    with aecp.open(path) as file:
        threads = [threading.Thread(target=work, args=(it,)) for it in range(8)]
        for it in threads:
            it.start()
        for it in threads:
            it.join()
    assert not faults


def test_an_open_file_pickles_and_copies(large: Any) -> None:
    path, samples = large
    with aecp.open(path) as file:
        for other in (pickle.loads(pickle.dumps(file)), copy.copy(file), copy.deepcopy(file)):
            assert list(other[30000:30005]) == samples[30000:30005]
            other.close()
        assert list(file[30000:30005]) == samples[30000:30005], "closing a copy closes nothing else"


def test_a_closed_file_is_refused(large: Any) -> None:
    path, _ = large
    before = len(os.listdir("/proc/self/fd"))
    with aecp.open(path) as file:
        pass
    assert len(os.listdir("/proc/self/fd")) == before
    file.close()
    with pytest.raises(ValueError):
        file[0]


def test_opening_what_is_none(tmp_path: Any) -> None:
    from aecp.archive import Refused

    with pytest.raises(OSError):
        aecp.open(str(tmp_path / "none"))
    for data in (b"", b"x", os.urandom(5000), b"aecp\r\n\x1a\n" * 4):
        path = tmp_path / "f.aec"
        path.write_bytes(data)
        with pytest.raises(Refused):
            aecp.open(str(path))
    with pytest.raises((OSError, Refused)):
        aecp.open(str(tmp_path))
    os.mkfifo(tmp_path / "pipe")
    with pytest.raises((OSError, Refused)):
        aecp.open(str(tmp_path / "pipe"))
    with pytest.raises((OSError, Refused)):
        aecp.open("/dev/zero")
    made(str(tmp_path / "big.aec"), [1] * 1000)
    with pytest.raises(Refused):
        aecp.open(str(tmp_path / "big.aec"), limit=999)
    with aecp.open(str(tmp_path / "big.aec"), limit=1000) as file:
        assert len(file) == 1000


def test_without_numpy(large: Any) -> None:
    path, samples = large
    code = f"""
import sys
sys.modules["numpy"] = None
import array, aecp
with aecp.open({path!r}) as file:
    part = file[100:110]
    assert isinstance(part, array.array), type(part)
    assert list(part) == {samples[100:110]!r} and file[100] == {samples[100]!r}
    assert sum(1 for _ in file) == 60000
"""
    subprocess.run([sys.executable, "-c", code], check=True)


def test_iteration_in_constant_memory(tmp_path: Any) -> None:
    """Iterates over 2^25 samples that one group codes, with 96 MiB of address space more than at the start."""
    path = str(tmp_path / "f.aec")
    with aecp.create(path, aecp.Options(8)) as file:
        for _ in range(32):
            file.write(bytes(1 << 20))

    def work() -> None:
        import resource

        with open("/proc/self/statm", encoding="ascii") as statm:
            size = int(statm.read().split()[0]) * 4096
        resource.setrlimit(resource.RLIMIT_AS, (size + (96 << 20), size + (96 << 20)))
        with aecp.open(path) as file:
            assert list(file[-3:]) == [0, 0, 0]
            count = 0
            for x in file:
                count += 1
                if count >= 3 << 20:
                    break
            assert count == 3 << 20 and x == 0
            assert list(file.bad_ranges()) == []

    ran = in_child(str(tmp_path), work)
    assert ran.status == 0, ran.err


def test_a_reader_beside_a_writer(tmp_path: Any, times: int) -> None:
    """A reader gets the file before an edit or after it, never damage."""
    folder = str(tmp_path)
    path = made(str(tmp_path / "f.aec"), walk(1, 20000), FAST)
    states = [list(aecp.open(path)[:])]
    done(folder, "edit", "f.aec", "-", given=b"overwrite 7 1\n")
    states.append(list(aecp.open(path)[:]))
    done(folder, "undo", "f.aec")
    stop = str(tmp_path / "stop")

    def work() -> None:
        import contextlib

        from running import run_words

        while not os.path.exists(stop):
            for words in (["edit", "f.aec", os.path.join(folder, "script")], ["undo", "f.aec"]):
                with contextlib.suppress(SystemExit):
                    run_words(list(words))

    open(os.path.join(folder, "script"), "wb").write(b"overwrite 7 1\n")
    from running import Started

    writer = Started(folder, work, How(seconds=120))
    opens, begun, changes, last = 0, time.monotonic(), 0, None

    def goes_on() -> bool:
        """Six seconds; on a busy machine up to 90, until there were enough openings and changes."""
        few = opens <= 20 or changes <= 5
        return time.monotonic() < begun + (90 if few else 6 * times)

    try:
        while goes_on():
            with aecp.open(path) as file:
                got = list(file[:])
                assert list(file.bad_ranges()) == []
            assert got in states
            changes += last is not None and last != got
            last, opens = got, opens + 1
    finally:
        open(stop, "w").close()
        ran = writer.ended()
    assert ran.status == 0 and "Traceback" not in ran.said, ran
    assert opens > 20 and changes > 5, (opens, changes)


def test_settings_of_three_bytes_are_read_as_bytes(tmp_path: Any) -> None:
    settings = Settings(bits=20, three_byte=True)
    samples = walk(1, 500)
    path = made(str(tmp_path / "f.aec"), samples, settings)
    with aecp.open(path) as file:
        assert len(file) == 500 and file[3] == samples[3] and list(file[3:6]) == samples[3:6]
