"""`aecp edit` and `undo` of many samples: in constant memory, and with histories that stay small."""

from __future__ import annotations

import json
import os
import random
import resource
from typing import Any

import aecp
import pytest
from lib.settings import Settings
from making import FAST, keep, leftovers, made, noise, parts_at, read, samples_at, sound_parts, walk, write
from plain_form import script_of
from running import How, done, in_child, refused

ZEROS = Settings(bits=8, block_size=64, interval=4096)
MOST = 64 << 20  # bytes of memory, beside what the process has in the beginning
MANY = 3 << 25  # samples, of one byte


def limit(more: int = 0) -> How:
    """Returns how a child runs that may have as much memory as this process, and 64 MiB more."""
    with open("/proc/self/statm", encoding="ascii") as file:
        size = int(file.read().split()[0]) * resource.getpagesize()
    return How(limits={resource.RLIMIT_AS: size + MOST + more})


def large(place: str) -> str:
    """Keeps 96 MiB of samples that take few bytes."""
    with open(os.path.join(place, "f"), "wb") as file:
        for number in range(MANY >> 20):
            piece = bytearray(1 << 20)
            piece[number] = number % 256
            file.write(piece)
    done(place, "keep", "f", *ZEROS.options(), "--shape", f"{MANY >> 10}x1024")
    return os.path.join(place, "f.aec")


def at(path: str, *places: int) -> list[int]:
    """Returns some samples of a list."""
    with aecp.open(path) as file:
        return [int(file[it]) for it in places]


def test_edit_undo_and_repair_take_little_memory(place: str) -> None:
    path = large(place)
    first = parts_at(path)
    pixels = b"".join(b"overwrite %d 7\n" % (it * 30_000_000 + 5) for it in range(4))
    others = b"insert 50000000 1 2 3\nremove 50000004 45000000\noverwrite 99 9\nappend 4 5\n"
    for script in (pixels, others):
        done(place, "edit", "f.aec", "-", given=script, how=limit())
    assert sound(path) == MANY + 3 - 45_000_000 + 2
    assert at(path, 5, 99, 30_000_005, 50_000_000, 50_000_002) == [7, 9, 7, 1, 3]
    assert parts_at(path).fields["shape"] is None
    damaged = bytearray(read(path))
    damaged[len(parts_at(path).stream) // 2] ^= 255
    sound_bytes = read(path)
    write(place, "f.aec", bytes(damaged))
    done(place, "keep", "f", *ZEROS.options(), "--repair", how=limit())
    assert parts_at(path).stream == sound_of(sound_bytes)
    for _ in range(2):
        done(place, "undo", "f.aec", how=limit())
    assert parts_at(path).stream == first.stream and parts_at(path).fields["shape"] == first.fields["shape"]
    done(place, "forget", "f.aec", "--keep", "0", how=limit())
    assert leftovers(place) == []


def sound(path: str) -> int:
    """Returns the count of a file that `check` calls sound."""
    done(os.path.dirname(path), "check", "f.aec", how=limit())
    count: int = parts_at(path).fields["samples"]["count"]
    return count


def sound_of(data: bytes) -> bytes:
    from plain_form import parts_of

    return parts_of(data).stream


def test_memory_beside_incompressible_samples(place: str) -> None:
    """The stream is held at most six times."""
    samples = noise(1, 1 << 21)
    path = made(os.path.join(place, "f.aec"), samples, FAST)
    size = len(parts_at(path).stream)
    for words, script in (("edit f.aec -", b"overwrite 5 9\ninsert 7 7\n"), ("undo f.aec", b""), ("forget f.aec --keep 1", b"")):
        done(place, *words.split(), given=script, how=limit(6 * size))
    assert samples_at(path) == samples


def test_fresh_values_take_what_they_amount_to(place: str, times: int) -> None:
    """3,000 new values at new places: their places, the new values and the old ones, coded: 10 KB for each edit."""
    chance = random.Random(1)
    path = keep(place, "f", walk(1, 1 << 17), FAST)
    stream, size, edits = parts_at(path).stream, os.path.getsize(path), 3 * times
    scripts = []
    for _ in range(edits):
        places = sorted(chance.sample(range(1 << 17), 3000))
        scripts.append(b"".join(b"overwrite %d %d\n" % (it, chance.randrange(900, 1100)) for it in places))
        done(place, "edit", "f.aec", "-", given=scripts[-1])
    parts = sound_parts(path)
    assert os.path.getsize(path) - len(parts.stream) - size + len(stream) < 10_500 * edits
    for number, script in enumerate(scripts, 1):
        assert script_of(parts, number) == script
        assert done(place, "log", "f.aec", "--script", str(number)).out == script.decode()
    for _ in range(edits):
        done(place, "undo", "f.aec")
    assert parts_at(path).stream == stream and samples_at(path) == walk(1, 1 << 17)


@pytest.mark.parametrize(
    "script",
    [
        b"overwrite 5 9\noverwrite 5 8\n",
        b"overwrite 7 9\noverwrite 5 8\n",
        b"overwrite 5 9 8 7\noverwrite 8 1\noverwrite 6 2\n",
        b"overwrite 5 9\r\noverwrite 9 8\n",
        b"overwrite 5  9\noverwrite 9 8\n# end",
        b"overwrite 5 9\noverwrite 9 8",
        b"overwrite 05 9\noverwrite 9 08\n",
        b"overwrite 0 0\noverwrite 2999 4095\n",
        b"".join(b"overwrite %d 7\n" % it for it in range(3000)),
        b"".join(b"overwrite %d 7\n" % it for it in range(2999, -1, -1)),
        b"".join(b"overwrite %d 7\n" % (it % 1000 * 3) for it in range(3000)),
        b"# only a comment\n",
    ],
)
def test_scripts_of_overwrites_come_back_to_the_letter(place: str, script: bytes) -> None:
    samples = walk(1, 3000)
    path = keep(place, "f", samples)
    stream = parts_at(path).stream
    done(place, "edit", "f.aec", "-", given=script)
    assert script_of(parts_at(path), 1) == script
    assert done(place, "log", "f.aec", "--script", "1").raw == script
    damaged = bytearray(read(path))
    damaged[9] ^= 1
    edited = parts_at(path).stream
    write(place, "f.aec", bytes(damaged))
    done(place, "keep", "f", *Settings(bits=16, block_size=16, interval=4).options(), "--repair")
    assert parts_at(path).stream == edited
    done(place, "undo", "f.aec")
    assert parts_at(path).stream == stream


def test_undo_brings_a_dropped_shape_back(place: str) -> None:
    samples = walk(1, 600)
    path = made(os.path.join(place, "f.aec"), samples, shape=(20, 30))
    stream = parts_at(path).stream
    for script, shape in ((b"append 1\n", None), (b"overwrite 3 3\n", None), (b"truncate 600\n", None), (b"truncate 570\n", None)):
        done(place, "edit", "f.aec", "-", given=script)
        assert parts_at(path).fields["shape"] == shape
    for _ in range(4):
        done(place, "undo", "f.aec")
    assert parts_at(path).fields["shape"] == [20, 30] and parts_at(path).stream == stream
    done(place, "edit", "f.aec", "-", given=b"truncate 570\n")
    assert parts_at(path).fields["shape"] == [19, 30]
    done(place, "edit", "f.aec", "-", given=b"truncate 1\n")
    done(place, "forget", "f.aec", "--keep", "1")
    done(place, "undo", "f.aec")
    assert sound_parts(path).fields["shape"] == [19, 30]
    refused(place, "undo", "f.aec")
    assert aecp.open(path).shape == (19, 30)


def test_a_history_of_the_most_entries_can_be_read(place: str) -> None:
    """All that is written can be read again: entries of the most lists and objects."""

    def work() -> None:
        from dataclasses import replace

        from aecp.archive._history import MOST_ENTRIES, edit_entry, history_of, packed_history
        from aecp.archive._stored import Difference, Pixels

        with aecp.open("f.aec") as file:
            facts = file.facts
        shape = (1,) * 30 + (20, 30)
        facts = replace(facts, shape=shape)
        script = [Pixels(1, b"x%d" % it, b"y") for it in range(MOST_ENTRIES)]
        entries = [edit_entry(facts, facts.state, 1, it, Difference(1, 1, it.gaps)) for it in script]
        assert history_of(packed_history(entries)) == entries

    made(os.path.join(place, "f.aec"), walk(1, 600), shape=(20, 30))
    assert in_child(place, work).status == 0


def test_two_inverses_of_equal_bytes(place: str) -> None:
    """Two edits replace equal samples at different places: the second inverse names the first."""
    path = keep(place, "f", [5] * 3000)
    stream = parts_at(path).stream
    for script in (b"overwrite 10 7\noverwrite 20 7\n", b"overwrite 30 8\noverwrite 40 8\n"):
        done(place, "edit", "f.aec", "-", given=script)
    found: Any = json.loads(done(place, "log", "f.aec", "--json").out)
    assert [it["samples_changed"] for it in found] == [None, 2, 2]
    done(place, "undo", "f.aec")
    assert samples_at(path)[:41] == [5] * 10 + [7] + [5] * 9 + [7] + [5] * 20
    done(place, "undo", "f.aec")
    assert parts_at(path).stream == stream
