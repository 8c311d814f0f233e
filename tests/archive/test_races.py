"""What changes between two looks of a run: originals, kept files, hidden files; and reads that return less than was asked for."""

from __future__ import annotations

import os
import threading
import time
from typing import Any

import aecp
import pytest
from aecp import archive
from aecp.archive import _originals, _saving
from making import FAST, USUAL, flip, keep, leftovers, made, noise, old_pair, read, samples_at, sound_parts, walk, words_of, write
from running import How, Hooks, Started, command, done, start
from test_keep_remove import patch_calls

STORED = FAST.stored(walk(1, 20000))


def test_a_rewrite_that_hides_its_time_is_noticed(place: str) -> None:
    """Another writes as many bytes before each call of `keep --remove`, and gives the file its earlier time: its ctime shows it."""
    path, other = os.path.join(place, "a"), STORED[::-1]
    mark = os.path.join(os.path.dirname(place), "mark")
    earlier = 10**18

    def rewrite() -> None:
        with open(path, "r+b") as file:
            file.write(other)
        os.utime(path, ns=(earlier, earlier))
        open(mark, "w").close()

    for number in range(1, 200):
        for name in os.listdir(place):
            os.unlink(os.path.join(place, name))
        write(place, "a", STORED)
        os.utime(path, ns=(earlier, earlier))
        ran = command(place, "keep", "a", "-n", "16", "--jobs", "1", "--remove", how=How(before=lambda: patch_calls(number, rewrite)))
        if not os.path.exists(mark):
            break
        os.unlink(mark)
        if not os.path.exists(path):
            done(place, "back", "a.aec")
        assert read(path) == other, f"call {number}: another's bytes are lost: {ran}"
    assert number > 5


def test_a_file_that_is_rewritten_while_it_is_read_is_not_kept(place: str) -> None:
    """It would be the start of one file and the end of another."""
    path = write(place, "a", os.urandom(6 << 20))

    def changing() -> None:
        real = _originals.pieces_of

        def pieces_of(file: Any, length: int) -> Any:
            for piece in real(file, length):
                yield piece
                with open(path, "r+b") as another:
                    another.write(b"new")

        _originals.pieces_of = pieces_of

    ran = command(place, "keep", "a", "-n", "16", "--anyway", "--jobs", "1", how=How(before=changing))
    assert ran.status == 1 and "changed while it was read" in ran.err, ran
    assert os.listdir(place) == ["a"]


def test_reads_that_return_less(place: str) -> None:
    """The system may return fewer bytes than were asked for, as for more than 2 GiB at once."""

    def short() -> None:
        real = os.pread
        os.pread = lambda file, size, at: real(file, min(size, 1000), at)  # type: ignore[assignment]

    samples = noise(1, 20000)
    keep(place, "f", samples)
    done(place, "check", "f.aec", how=How(before=short))
    done(place, "edit", "f.aec", "-", given=b"overwrite 5 9\n", how=How(before=short))
    done(place, "undo", "f.aec", how=How(before=short))
    for words in (["back", "f.aec", "out"], ["rescue", "f.aec", "rescued"]):
        done(place, *words, how=How(before=short))
        assert read(place, words[2]) == USUAL.stored(samples)


def test_threads_read_at_their_own_places(tmp_path: Any) -> None:
    """Each thread reads groups from the disk that others don't read at the time."""
    stored = USUAL.stored(noise(1, 60000))
    path = str(tmp_path / "f.aec")
    with aecp.create(path, aecp.Options(16, 16, 4)) as file:
        file.write(stored)
    faults: list[Any] = []
    with archive.ArchiveFile.open(path) as kept:

        def work(seed: int) -> None:
            for number in range(200):
                first = (seed * 7001 + number * 9973) % 59000
                try:
                    if b"".join(kept.pieces(first, 1000)) != stored[2 * first : 2 * first + 2000]:
                        faults.append(first)
                except archive.Refused as fault:
                    faults.append(fault)

        threads = [threading.Thread(target=work, args=(it,)) for it in range(8)]
        for it in threads:
            it.start()
        for it in threads:
            it.join()
    assert not faults


def test_an_original_that_became_a_link_is_not_read(place: str, outside: str) -> None:
    os.symlink(os.path.join(outside, "file"), os.path.join(place, "a"))
    with pytest.raises(OSError), _originals.original(os.path.join(place, "a")):
        pass


def test_a_device_that_became_a_link_is_not_written(place: str, outside: str) -> None:
    from aecp.archive import _restoring

    os.symlink("/dev/null", os.path.join(place, "out"))
    with pytest.raises(OSError):
        _restoring.without_links(os.path.join(place, "out"), 0)
    with pytest.raises(archive.Exists):
        _restoring.without_links(os.path.join(outside, "file"), 0)
    assert read(outside, "file") == b"untouched"


def test_a_hidden_file_that_is_removed_before_it_is_locked(place: str) -> None:
    """As by another run, which takes it for one that a killed run has left: another one is made."""
    write(place, "f", USUAL.stored(walk(1, 500)))

    def removing() -> None:
        real, calls = _saving.fcntl.flock, [0]

        def flock(file: int, operation: int) -> None:
            calls[0] += 1
            if calls[0] <= 2:
                os.unlink(os.readlink(f"/proc/self/fd/{file}"))
            real(file, operation)

        _saving.fcntl.flock = flock  # type: ignore[assignment]

    done(place, "keep", "f", *words_of(USUAL), "--anyway", "--jobs", "1", how=How(before=removing))
    assert samples_at(os.path.join(place, "f.aec")) == walk(1, 500) and leftovers(place) == []


def test_a_link_to_the_file_that_was_locked_is_not_replaced(place: str) -> None:
    path = made(os.path.join(place, "f.aec"), walk(1, 500))
    moved = os.path.join(place, "moved.aec")
    with _saving.locked(path) as status, pytest.raises(archive.Refused):
        with _saving.replacement(path, status) as file:
            file.write(b"new")
            os.rename(path, moved)
            os.symlink(moved, path)
    assert os.path.islink(path) and sound_parts(moved) and leftovers(place) == []


def test_repair_waits_for_a_lock(place: str) -> None:
    """Another run may be editing the file."""
    path = keep(place, "f", walk(1, 3000))
    flip(path, 4000)
    damaged, go, ready = read(path), os.pipe(), os.pipe()

    def holding() -> None:
        with _saving.locked(path):
            os.write(ready[1], b"x")
            os.read(go[0], 1)

    holder = Started(place, holding, How())
    os.read(ready[0], 1)
    running = start(place, "keep", "f", *words_of(USUAL), "--repair", "--jobs", "1", how=How(seconds=60))
    for _ in range(30):
        time.sleep(0.05)
        assert read(path) == damaged
    os.write(go[1], b"x")
    assert holder.ended().status == 0
    ran = running.ended()
    assert ran.status == 0 and "1 repaired" in ran.out and samples_at(path) == walk(1, 3000), ran


def test_the_note_of_an_old_pair_goes_last(place: str) -> None:
    """After a stop at any moment the pair is there, or the new file: its note is removed after the new file's name is on the disk."""
    samples = walk(1, 3000)
    old_pair(place, "f", samples)
    write(place, "f", USUAL.stored(samples))
    calls = done(place, "keep", "f", *words_of(USUAL), "--jobs", "1", how=How(hooks=Hooks(logs=True))).calls
    names = [(it.name, os.path.basename(it.first), os.path.basename(it.second)) for it in calls if it.result == 0]
    renamed = next(i for i, it in enumerate(names) if it[0] == "rename" and it[2] == "f.aec")
    synced = next(i for i, it in enumerate(names) if i > renamed and it[0] == "fsync")
    gone = next(i for i, it in enumerate(names) if it[:2] == ("unlink", "f.aec.json"))
    assert renamed < synced < gone, names
