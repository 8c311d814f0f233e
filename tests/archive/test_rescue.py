"""`aecp rescue`: all samples that can be had, in their places."""

from __future__ import annotations

import json
import os
import random
from typing import Any

import aecp
import pytest
from making import FAST, USUAL, flip, keep, leftovers, made, noise, numbers_of, options_of, parts_at, read, walk, words_of, write
from plain_form import Parts
from running import How, Hooks, command, done, refused
from lib.settings import Settings
from test_check import ranges_of

numpy = pytest.importorskip("numpy")

LIMITED = """
import resource, sys
resource.setrlimit(resource.RLIMIT_AS, (200 << 20,) * 2)
from aecp.cli import main
main(sys.argv[1:])
"""


def test_one_flipped_bit_costs_one_group(place: str, times: int) -> None:
    """99.9 % of a large file come back in their places; of a smaller one all but a group."""
    mib = 64 if times > 1 else 24
    rows = numpy.random.default_rng(1).integers(0, 1 << 14, (mib << 20) // 2, dtype="u2")
    path = os.path.join(place, "f.aec")
    with aecp.create(path, aecp.Options(16)) as file:
        file.write(rows)
    sound = parts_at(path)
    chance = random.Random(1)
    for fill in (None, 12345):
        data = read(path)
        write(place, "bad.aec", data)
        flip(os.path.join(place, "bad.aec"), chance.randrange(8 * len(sound.stream)))
        more = [] if fill is None else ["--fill", str(fill)]
        for name in ("out", "lost.json"):
            if os.path.exists(os.path.join(place, name)):
                os.unlink(os.path.join(place, name))
        ran = command(place, "rescue", "bad.aec", "out", *more, "--ranges", "lost.json")
        assert ran.status == 1, ran
        got = numpy.frombuffer(read(place, "out"), dtype="u2")
        assert got.size == rows.size
        bad = numpy.flatnonzero(got != rows)
        lost = ranges_of(json.loads(read(place, "lost.json")))
        assert len(lost) in (1, 2) and sum(it[1] for it in lost) <= 2 * 16384 * 2
        if mib >= 64:
            assert bad.size <= rows.size // 1000
        covered = numpy.zeros(rows.size, dtype=bool)
        for first, length in lost:
            covered[first : first + length] = True
            assert (got[first : first + length] == (fill or 0)).all()
        assert covered[bad].all(), "each wrong sample is in a range that is named"


def test_a_sound_file(place: str) -> None:
    samples = walk(1, 3000)
    keep(place, "f", samples)
    ran = done(place, "rescue", "f.aec", "out")
    assert read(place, "out") == USUAL.stored(samples) and "3000" in ran.said.replace(",", "")
    done(place, "rescue", "f.aec")
    before = read(place, "out")
    refused(place, "rescue", "f.aec", "out")
    assert read(place, "out") == before


def test_many_damages(place: str) -> None:
    samples = noise(2, 60000)
    stored = USUAL.stored(samples)
    path = keep(place, "f", samples)
    groups = parts_at(path).groups
    starts = [it.interval * 64 for it in groups] + [60000]
    for number, wanted in enumerate([[0], [len(groups) - 1], [0, 1, 2], list(range(len(groups)))]):
        write(place, "bad.aec", read(path))
        for it in wanted:
            flip(os.path.join(place, "bad.aec"), groups[it].bit + 100)
        out = f"out{number}"
        ran = command(place, "rescue", "bad.aec", out, "--fill", "7", "--json")
        assert ran.status == 1
        expected = bytearray(stored)
        for it in wanted:
            first, end = starts[it], starts[it + 1]
            expected[2 * first : 2 * end] = (7).to_bytes(2, "little") * (end - first)
        assert read(place, out) == bytes(expected)
        found = covered(ranges_of(json.loads(ran.out)))
        assert found == covered([(starts[it], starts[it + 1] - starts[it]) for it in wanted]), ran.out


def covered(ranges: list[tuple[int, int]]) -> set[int]:
    return {x for first, length in ranges for x in range(first, first + length)}


@pytest.mark.parametrize("fill,status", [("-1", (1, 2)), ("65536", (1, 2)), ("65535", (1,)), ("x", (2,))])
def test_values_to_fill_with(place: str, fill: str, status: tuple[int, ...]) -> None:
    path = keep(place, "f", noise(2, 20000))
    flip(path, 100)
    ran = command(place, "rescue", "f.aec", "out", "--fill", fill)
    assert ran.status in status, ran
    assert os.path.exists(os.path.join(place, "out")) == (fill == "65535"), ran


def test_signed_fill(place: str) -> None:
    settings = Settings(bits=16, block_size=16, interval=4, signed=True, msb_first=True)
    path = keep(place, "f", [x - 32768 for x in noise(2, 20000)], settings)
    flip(path, 100)
    assert command(place, "rescue", "f.aec", "out", "--fill", "-3").status == 1
    assert numbers_of(read(place, "out"), settings)[0] == -3


def test_a_damaged_trailer_and_options_on_the_command_line(place: str) -> None:
    samples = walk(1, 3000)
    path = keep(place, "f", samples)
    size = len(parts_at(path).stream)
    for cut in (os.path.getsize(path) - 1, size + 40, size):
        write(place, f"cut{cut}", read(path)[:cut])
        refused(place, "rescue", f"cut{cut}", "out")
        ran = command(place, "rescue", f"cut{cut}", f"out{cut}", *words_of(USUAL), "--count", "3000")
        assert ran.status in (0, 1), ran
        assert read(place, f"out{cut}") == USUAL.stored(samples)


def test_cut_streams(place: str, times: int) -> None:
    """Up to the last interval whose code is whole, or further: never other samples without saying so."""
    settings = USUAL._replace(interval=1)
    chance = random.Random(1)
    for number in range(12 * times):
        samples = walk(number, chance.randint(1, 600))
        coded = bytes(aecp.encode(settings.stored(samples), options_of(settings)))
        length = chance.randrange(len(coded))
        write(place, "cut", coded[:length])
        if os.path.exists(os.path.join(place, "out")):
            os.unlink(os.path.join(place, "out"))
        ran = command(place, "rescue", "cut", "out", *words_of(settings), "--count", str(len(samples)))
        assert ran.status == 1, ran
        got = read(place, "out")
        stored = settings.stored(samples)
        whole = 0
        while whole < len(samples):
            try:
                aecp.decode_bytes(coded[:length], whole + 1, options_of(settings))
            except aecp.Fault:
                break
            whole += 1
        assert got[: 2 * whole] == stored[: 2 * whole], number
        assert not any(got[2 * whole + 2 * 16 :]), number
        assert len(got) == len(stored), "each sample has its place"


def forged(path: str, change: Any) -> None:
    parts: Parts = parts_at(path)
    change(parts)
    with open(path, "wb") as file:
        file.write(parts.sealed())


def test_other_samples_have_status_1(place: str) -> None:
    """Each group has its CRC, but the samples aren't those of the sum."""
    path = keep(place, "f", walk(1, 3000))
    forged(path, lambda it: it.fields["samples"].update(sha256="0" * 64))
    assert command(place, "rescue", "f.aec", "out").status == 1
    assert read(place, "out") == USUAL.stored(walk(1, 3000))
    forged(path, lambda it: it.fields["stream"].update(sha256="0" * 64))
    assert command(place, "rescue", "f.aec").status == 1


def test_a_damaged_index(place: str) -> None:
    """A file whose index is damaged still gives its samples: from the front, as a stream."""
    samples = noise(1, 30000)
    path = keep(place, "f", samples)
    parts = parts_at(path)
    flip(path, 8 * (len(parts.stream) + 20) + 3)
    ran = command(place, "rescue", "f.aec", "out")
    if ran.status == 1 and not os.path.exists(os.path.join(place, "out")):
        ran = command(place, "rescue", "f.aec", "out", *words_of(USUAL), "--count", "30000")
    assert read(place, "out") == USUAL.stored(samples), ran


def test_what_is_around_the_samples_is_rescued(place: str) -> None:
    """With a damaged group or a damaged index, but not with a range of samples."""
    array = numpy.array(noise(1, 30000), dtype="<u2")
    numpy.save(os.path.join(place, "a.npy"), array)
    with open(os.path.join(place, "a.npy"), "ab") as file:
        file.write(b"the tail")
    whole = read(place, "a.npy")
    done(place, "keep", "a.npy", "--anyway")
    path = os.path.join(place, "a.npy.aec")
    sound, parts = read(path), parts_at(path)
    done(place, "rescue", "a.npy.aec", "part", "--range", "5:7")
    assert read(place, "part") == array[5:12].tobytes()
    flip(path, 8 * (len(parts.stream) + 20) + 3)
    done(place, "rescue", "a.npy.aec", "index")
    assert read(place, "index") == whole
    write(place, "a.npy.aec", sound)
    flip(path, parts.groups[1].bit + 100)
    assert command(place, "rescue", "a.npy.aec", "group").status == 1
    got, first = read(place, "group"), whole.index(array.tobytes())
    assert len(got) == len(whole) and got[:first] == whole[:first] and got.endswith(b"the tail")


def test_count(place: str) -> None:
    samples = walk(1, 3000)
    coded = bytes(aecp.encode(USUAL.stored(samples), options_of(USUAL)))
    write(place, "raw", coded)
    done(place, "rescue", "raw", "out", *words_of(USUAL), "--count", "100")
    assert read(place, "out") == USUAL.stored(samples[:100])
    for words in (["--count", str(10**23)], ["--count", "-1"], ["--count", str(2**32 + 1)]):
        assert command(place, "rescue", "raw", "more", *words_of(USUAL), *words).status in (1, 2)
    for words in (["-n", "99999999999"], ["-n", "0"], ["-n", "33"]):
        assert command(place, "rescue", "raw", "more", "--count", "9", *words).status in (1, 2)


def test_beside_edits(place: str) -> None:
    from running import start

    keep(place, "f", walk(1, 30000), FAST)
    for number in range(20):
        running = start(place, "edit", "f.aec", "-", how=How(given=b"overwrite %d 1\n" % number))
        ran = command(place, "rescue", "f.aec")
        assert ran.status == 0, ran
        assert running.ended().status == 0


def test_a_full_disk(place: str) -> None:
    path = keep(place, "f", noise(1, 20000))
    flip(path, 1000)
    for room in (0, 100, 39999):
        ran = command(place, "rescue", "f.aec", "out", how=How(hooks=Hooks(room=room)))
        assert ran.status == 1 and "space" in ran.err
        assert sorted(os.listdir(place)) == ["f", "f.aec"]
    assert leftovers(place) == []


def test_a_long_run_of_zeros_is_rescued_in_constant_memory(place: str) -> None:
    import subprocess
    import sys

    with aecp.create(os.path.join(place, "f.aec"), aecp.Options(8)) as file:
        for _ in range(300):
            file.write(bytes(1 << 20))
    environment = {key: it for key, it in os.environ.items() if key != "LD_PRELOAD"}
    for line in ("check f.aec --jobs 1", "back f.aec out", "rescue f.aec", "back f.aec - --range 314572790:10"):
        words = line.split()
        ended = subprocess.run([sys.executable, "-c", LIMITED, *words], cwd=place, env=environment, capture_output=True, check=False)
        assert ended.returncode == 0, (words, ended.stderr)
    assert os.path.getsize(os.path.join(place, "out")) == 300 << 20
    assert ended.stdout == bytes(10)


def test_made_files_have_no_source(place: str) -> None:
    made(os.path.join(place, "f.aec"), walk(1, 900))
    done(place, "rescue", "f.aec", "out")
    done(place, "back", "f.aec", "again")
    assert read(place, "out") == read(place, "again")
