"""`aecp keep --remove`: no original is lost, whatever appends to it, and whatever its archive says."""

from __future__ import annotations

import os
import time
from typing import Any

import aecp
import pytest
from making import FAST, USUAL, flip, keep, leftovers, options_of, parts_at, read, sound_parts, walk, words_of, write
from running import Hooks, How, command, done, start

DATA = USUAL.stored(walk(3, 500))


def test_remove_removes_what_decodes_to_it(place: str) -> None:
    for name in "abc":
        write(place, name, DATA)
    done(place, "keep", ".", "-n", "16", "--remove", "--anyway")
    assert sorted(os.listdir(place)) == ["a.aec", "b.aec", "c.aec"]
    done(place, "back", "a.aec")
    assert read(place, "a") == DATA
    done(place, "keep", "a", "-n", "16", "-j", "16", "-r", "128", "--remove")
    assert not os.path.exists(os.path.join(place, "a"))


@pytest.mark.parametrize("how", ["edited", "flipped", "cut", "other samples"])
def test_remove_decodes_first(place: str, how: str) -> None:
    path = keep(place, "a", walk(1, 3000))
    if how == "edited":
        done(place, "edit", "a.aec", "-", given=b"overwrite 5 9\n")
    elif how == "flipped":
        flip(path, 4000)
    elif how == "cut":
        os.truncate(path, os.path.getsize(path) - 1)
    else:
        parts = parts_at(path)
        other = keep(place, "other", walk(2, 3000))
        mixed = parts_at(other)
        mixed.fields["source"] = parts.fields["source"]
        write(place, "a.aec", mixed.sealed())
        os.unlink(other)
    data = read(path[:-4])
    ran = command(place, "keep", "a", *words_of(USUAL), "--remove")
    assert ran.status == 1 and ran.err.strip(), ran
    assert read(path[:-4]) == data


@pytest.mark.parametrize("how", ["appended", "replaced", "rewritten"])
def test_remove_takes_the_very_file_that_was_read(place: str, how: str) -> None:
    """Another changes the original before each call that the run makes: what it wrote is never lost."""
    samples, calls = FAST.stored(walk(1, 20000)), 0
    other = {"appended": samples + b"\1\2", "replaced": samples[::-1], "rewritten": samples[::-1]}[how]
    for number in range(1, 200):
        for name in os.listdir(place):
            os.unlink(os.path.join(place, name))
        path = write(place, "a", samples)
        changing = Changing(place, path, number, how, other)
        status = changing.run()
        if not changing.changed:
            break
        calls += 1
        if not os.path.exists(path):
            done(place, "back", "a.aec")
            assert read(path) == other, f"call {number}: another's bytes are lost, status {status}"
        assert read(path) == other
    assert calls > 5, calls


class Changing:
    """Runs `keep --remove`, and changes the original just before the call with a number."""

    def __init__(self, place: str, path: str, number: int, how: str, other: bytes) -> None:
        self.place, self.path, self.number, self.how, self.other = place, path, number, how, other
        self.changed = False

    def change(self, mark: str) -> None:
        if self.how == "appended":
            append(self.path)
        elif self.how == "rewritten":
            with open(self.path, "r+b") as file:
                file.write(self.other)
        else:
            write(os.path.dirname(self.place), "other", self.other)
            os.rename(os.path.join(os.path.dirname(self.place), "other"), self.path)
        open(mark, "w").close()

    def run(self) -> int:
        mark = os.path.join(os.path.dirname(self.place), "mark")
        if os.path.exists(mark):
            os.unlink(mark)
        how = How(before=lambda: patch_calls(self.number, lambda: self.change(mark)))
        ran = command(self.place, "keep", "a", "-n", "16", "--jobs", "1", "--remove", how=how)
        self.changed = os.path.exists(mark)
        return ran.status


def append(path: str) -> None:
    with open(path, "ab") as file:
        file.write(b"\1\2")


def patch_calls(number: int, action: Any) -> None:
    """Calls action() before the os call of this process with a number, counted from 1 at the first call that names the original, a.
    The calls are those that look at names or files. Calls before that are Python's own, such as those of argparse. Removals aren't
    counted: no call lies between the last look at the original and its removal."""
    count = [0]

    def patched(real: Any) -> Any:
        def made(*words: Any, **more: Any) -> Any:
            if count[0] or (words and isinstance(words[0], str) and os.path.basename(words[0]) == "a"):
                count[0] += 1
                if count[0] == number:
                    action()
            return real(*words, **more)

        return made

    for name in ("open", "read", "pread", "stat", "lstat", "fstat", "fsync", "rename", "replace", "link", "close"):
        setattr(os, name, patched(getattr(os, name)))


def test_remove_beside_an_appending_writer(place: str, times: int) -> None:
    """As an instrument does it: appends at random moments of the run. On a busy machine all may come before the file is read: then later
    ones are tried."""
    import random

    chance, samples = random.Random(5), FAST.stored(walk(1, 60000))
    kept = number = 0
    while number < 15 * times or (not kept and number < 150):
        number += 1
        for name in os.listdir(place):
            os.unlink(os.path.join(place, name))
        path = write(place, "a", samples)
        file = open(path, "ab", buffering=0)
        running = start(place, "keep", "a", "-n", "16", "--jobs", "1", "--remove")
        time.sleep(chance.random() * 0.004 * (15 + number))
        file.write(b"\1\2")
        linked = os.fstat(file.fileno()).st_nlink
        file.close()
        ran = running.ended()
        if os.path.exists(path):
            assert read(path) == samples + b"\1\2"
            kept += 1
        elif linked:
            done(place, "back", "a.aec")
            assert read(path) == samples + b"\1\2", ran
    assert kept


@pytest.mark.parametrize("change", ["replaced", "grown", "touched"])
def test_a_file_that_changes_while_it_is_read(place: str, change: str) -> None:
    """What is kept is what the trailer's source says, or it is refused; the next run says so or keeps it."""
    path = write(place, "a", FAST.stored(walk(1, 20000)))

    def action() -> None:
        if change == "replaced":
            write(place, "b", FAST.stored(walk(2, 20000)))
            os.rename(os.path.join(place, "b"), path)
        elif change == "grown":
            append(path)
        else:
            write(place, "a", FAST.stored(walk(2, 20000)))

    for number in range(1, 60):
        for name in os.listdir(place):
            os.unlink(os.path.join(place, name))
        write(place, "a", FAST.stored(walk(1, 20000)))
        ran = command(place, "keep", "a", "-n", "16", "--jobs", "1", how=How(before=lambda: patch_calls(number, action)))
        if not os.path.exists(path + ".aec"):
            assert ran.status == 1, ran
            continue
        parts = sound_parts(path + ".aec")
        if aecp.decode_bytes(parts.stream, parts.fields["samples"]["count"], options_of(FAST)) == read(path):
            continue
        ran = command(place, "keep", "a", "-n", "16")
        assert "changed" in ran.err and "kept already" not in ran.out, f"call {number}: {ran}"
    assert leftovers(place) == []


def unlinked(calls: Any, name: str) -> int:
    """Returns the place of the call that removes a file."""
    return next(i for i, it in enumerate(calls) if it.name == "unlink" and os.path.basename(it.first) == name and it.result == 0)


def test_a_copy_is_synced_before_its_original_goes(place: str) -> None:
    path = keep(place, "a", walk(1, 3000))
    ran = done(place, "keep", "a", "-n", "16", "--remove", how=How(hooks=Hooks(logs=True)))
    gone = unlinked(ran.calls, "a")
    synced = [os.path.realpath(it.first) for it in ran.calls[:gone] if it.name == "fsync" and it.result == 0]
    assert {os.path.realpath(path), os.path.realpath(place)} <= set(synced), synced


def test_new_folders_are_synced_before_the_original_goes(place: str) -> None:
    os.makedirs(os.path.join(place, "src", "deep"))
    write(os.path.join(place, "src", "deep"), "a", DATA)
    ran = done(place, "keep", "src", "-n", "16", "--anyway", "--to", "new/to", "--remove", how=How(hooks=Hooks(logs=True)))
    synced = [os.path.realpath(it.first) for it in ran.calls[: unlinked(ran.calls, "a")] if it.name == "fsync" and it.result == 0]
    made = [place, *(os.path.join(place, it) for it in ("new", "new/to", "new/to/src", "new/to/src/deep"))]
    assert {os.path.realpath(it) for it in made} <= set(synced), synced


@pytest.mark.parametrize("at", [0, 5 << 20, (6 << 20) - 1])
def test_remove_compares_all_of_a_large_file(place: str, at: int) -> None:
    """A byte has changed, with size and time as they were."""
    path = write(place, "a", os.urandom(6 << 20))
    done(place, "keep", "a", "-n", "16", "--anyway")
    before = os.stat(path).st_mtime_ns
    with open(path, "r+b") as file:
        file.seek(at)
        byte = file.read(1)[0]
        file.seek(at)
        file.write(bytes([byte ^ 1]))
    os.utime(path, ns=(before, before))
    ran = command(place, "keep", "a", "-n", "16", "--remove")
    assert ran.status == 1 and os.path.exists(path), ran


def test_a_large_file_that_changes_while_it_is_compared(place: str) -> None:
    """What was compared already changes: the file isn't removed."""
    path = write(place, "a", os.urandom(6 << 20))
    done(place, "keep", "a", "-n", "16", "--anyway")
    other = bytes(99)

    def changing() -> None:
        from aecp.archive import _whole

        real, calls = _whole.read_all, [0]

        def read_all(file: Any, length: int) -> bytes:
            calls[0] += 1
            data = real(file, length)
            if calls[0] == 9:
                with open(path, "r+b") as another:
                    another.write(other)
            return data

        _whole.read_all = read_all  # type: ignore[attr-defined]

    ran = command(place, "keep", "a", "-n", "16", "--remove", how=How(before=changing))
    assert ran.status == 1 and read(path).startswith(other), ran


@pytest.mark.parametrize("at", [-1, 6])
def test_remove_compares_what_is_around_the_samples(place: str, at: int) -> None:
    """A byte after the samples, or one of the header, has changed, with size and time as they were."""
    numpy = pytest.importorskip("numpy")
    path = os.path.join(place, "a.npy")
    numpy.save(path, numpy.arange(3000, dtype="<u2"))
    with open(path, "ab") as file:
        file.write(b"the tail")
    done(place, "keep", "a.npy")
    data, before = bytearray(read(path)), os.stat(path).st_mtime_ns
    data[at] ^= 1
    write(place, "a.npy", bytes(data))
    os.utime(path, ns=(before, before))
    ran = command(place, "keep", "a.npy", "--remove")
    assert ran.status == 1 and read(path) == data, ran
