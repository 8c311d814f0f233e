"""`aecp edit` and `undo`: nothing is written before sums are compared, and nothing else changes."""

from __future__ import annotations

import os
import random
from pathlib import Path
from typing import Any

import aecp
import pytest
from lib import foreign_writer
from lib.settings import Settings
from making import FAST, USUAL, keep, leftovers, noise, old_pair, options_of, parts_at, read, samples_at, walk, write
from running import How, Hooks, command, done, refused


@pytest.mark.parametrize("how", ["inverse", "inverse stream", "stream", "sum"])
def test_undo_compares_sums(place: str, how: str) -> None:
    """An inverse or a stream that was changed, and sealed again, is noticed before anything is written."""
    from plain_form import as_packed

    path = keep(place, "f", walk(1, 3000))
    keep(place, "g", walk(2, 3000))
    script = b"truncate 10\n" if how == "inverse stream" else b"overwrite 5 9\n"
    done(place, "edit", "f.aec", "-", given=script)
    parts = parts_at(path)
    entry = parts.history[-1]
    if how == "inverse":
        entry["inverse"] = {"script": as_packed(b"overwrite 5 10\n")}
    elif how == "inverse stream":
        other = parts_at(os.path.join(place, "g.aec")).stream
        entry["inverse"] = {"difference": {"front": 0, "end": 0, "middle": as_packed(other)}}
    elif how == "stream":
        entry["before"]["stream"]["sha256"] = "0" * 64
        parts.history[0]["after"]["stream"]["sha256"] = "0" * 64
    else:
        entry["before"]["samples"]["sha256"] = "0" * 64
        parts.history[0]["after"]["samples"]["sha256"] = "0" * 64
    write(place, "f.aec", parts.sealed())
    before = read(path)
    refused(place, "undo", "f.aec")
    assert read(path) == before and leftovers(place) == []
    if how in ("inverse", "stream"):
        done(place, "edit", "f.aec", "-", given=b"append 7\n")
        before = read(path)
        assert "nothing is changed" in refused(place, "undo", "f.aec", "--all").err
        assert read(path) == before, "all edits are undone, or none"


def test_an_edit_of_a_damaged_stream(place: str) -> None:
    """A flipped bit of the filler after the last sample changes no sample, and is noticed all the same."""
    settings = Settings(bits=16, block_size=16, interval=4, preprocess=False)
    path = keep(place, "f", noise(1, 17), settings)
    stream = parts_at(path).stream
    for bit in range(8 * len(stream) - 9, 8 * len(stream)):
        data = bytearray(read(path))
        data[bit // 8] ^= 128 >> bit % 8
        write(place, "g.aec", bytes(data))
        for words in (["edit", "g.aec", "-"], ["undo", "g.aec"]):
            assert command(place, *words, given=b"overwrite 0 1\n").status == 1, bit
        assert read(place, "g.aec") == bytes(data)


def test_mode_and_owner_stay(place: str) -> None:
    path = keep(place, "f", walk(1, 500))
    os.chmod(path, 0o640)
    if os.geteuid() == 0:
        os.chown(path, 65534, 12345)
    for words in (["edit", "f.aec", "-"], ["undo", "f.aec"], ["forget", "f.aec", "--keep", "0"]):
        done(place, *words, given=b"append 7\n")
        status = os.stat(path)
        assert status.st_mode & 0o7777 == 0o640, words
        if os.geteuid() == 0:
            assert (status.st_uid, status.st_gid) == (65534, 12345), words


def test_two_that_edit_at_once(place: str) -> None:
    from running import Started, run_words

    keep(place, "f", walk(1, 500))

    def work() -> None:
        import contextlib

        for number in range(12):
            write(place, f"s{os.getpid()}", b"append %d\n" % number)
            with contextlib.suppress(SystemExit):
                run_words(["edit", "f.aec", f"s{os.getpid()}"])

    ended = [it.ended() for it in [Started(place, work, How()), Started(place, work, How())]]
    assert [it.status for it in ended] == [0, 0], ended
    assert len(samples_at(os.path.join(place, "f.aec"))) == 524
    parts = parts_at(os.path.join(place, "f.aec"))
    assert len(parts.history) == 25
    for earlier, later in zip(parts.history, parts.history[1:]):
        assert earlier["after"] == later["before"]
    assert leftovers(place) == []


def test_an_edit_goes_through_the_library(place: str) -> None:
    """`aecp edit` makes its stream by aecp.edit, the proved call."""

    def watching() -> None:
        import aecp.streams

        real, modules = aecp.edit, [aecp, aecp.streams]

        def watched(*words: Any, **more: Any) -> Any:
            open("called", "w").close()
            return real(*words, **more)

        import sys

        for module in modules + [it for name, it in sys.modules.items() if name.startswith("aecp")]:
            if getattr(module, "edit", None) is real:
                module.edit = watched  # type: ignore[attr-defined]

    keep(place, "f", walk(1, 500))
    done(place, "edit", "f.aec", "-", given=b"overwrite 5 9\n", how=How(before=watching))
    assert os.path.exists(os.path.join(place, "called"))


def test_a_full_disk_changes_nothing(place: str) -> None:
    samples = noise(1, 9000)
    path = keep(place, "f", samples, FAST)
    done(place, "edit", "f.aec", "-", given=b"overwrite 1 1\n")
    before = read(path)
    for words in (["edit", "f.aec", "-"], ["undo", "f.aec"], ["forget", "f.aec", "--keep", "0"]):
        for room in (0, 1, 9000, 18000, 18300):
            ran = command(place, *words, given=b"overwrite 0 7\n", how=How(hooks=Hooks(room=room)))
            assert ran.status == 1 and "space" in ran.err, (words, room, ran)
            assert read(path) == before and leftovers(place) == []


def test_another_coders_stream_comes_back_by_undo(place: str) -> None:
    """Our coder would write another stream for these samples, so an inverse script alone doesn't restore it."""
    samples = walk(1, 3000)
    stream = foreign_writer.stream(samples, USUAL, random.Random(1))
    path = old_pair(place, "f", samples, coded=stream)
    write(place, "f", USUAL.stored(samples))
    done(place, "keep", "f", *USUAL.options())
    assert parts_at(path).stream == stream != bytes(aecp.encode(USUAL.stored(samples), options_of(USUAL)))
    for script in (b"overwrite 5 9\noverwrite 2000 7\n", b"insert 100 1 2 3\n", b"remove 0 64\nappend 9\n"):
        done(place, "edit", "f.aec", "-", given=script)
    for _ in range(3):
        done(place, "undo", "f.aec")
    assert parts_at(path).stream == stream


def test_a_long_edit_can_be_undone(place: str) -> None:
    """What undoes an edit is never a script that is longer than a script may be."""
    samples = noise(1, 500) * 20  # the lines of a script repeat, and the bits of the stream don't
    path = keep(place, "f", samples, FAST)
    stream = parts_at(path).stream

    def limited() -> None:
        from aecp.archive import _editing, _stored

        _editing.MOST_SCRIPT = _stored.MOST_SCRIPT = 1000  # type: ignore[misc]

    done(place, "edit", "f.aec", "-", given=b"remove 500 1000\n", how=How(before=limited))
    done(place, "undo", "f.aec", how=How(before=limited))
    assert parts_at(path).stream == stream


@pytest.mark.parametrize("words,cut", [("edit f.aec -", 0), ("edit f.aec -", 3), ("undo f.aec", 0), ("undo f.aec", 3)])
def test_a_wrong_coder_is_noticed(place: str, words: str, cut: int) -> None:
    """A stream that is cut, or that decodes to other samples, never replaces the file."""

    def wrong() -> None:
        import sys

        real = aecp.edit

        def other(coded: Any, count: Any, script: Any, options: Any) -> Any:
            stream, number = real(coded, count, script, options)
            samples = bytearray(aecp.decode_bytes(stream, number, options))
            samples[100] ^= 1
            coded = bytes(aecp.encode(bytes(samples), options))
            return coded[: len(coded) - cut], number

        for module in [it for name, it in sys.modules.items() if name.startswith("aecp")]:
            if getattr(module, "edit", None) is real:
                module.edit = other  # type: ignore[attr-defined]

    path = keep(place, "f", walk(1, 3000))
    done(place, "edit", "f.aec", "-", given=b"overwrite 7 9\n")
    before = read(path)
    ran = command(place, *words.split(), given=b"overwrite 5 9\n", how=How(before=wrong))
    assert ran.status == 1 and read(path) == before, ran


@pytest.mark.skipif(os.geteuid() != 0, reason="only root gives files away")
def test_a_group_that_cannot_be_given_gets_no_rights(tmp_path: Path) -> None:
    """The new file has the group of its writer, which the old file's mode wasn't meant for."""
    path = keep(str(tmp_path), "f", walk(1, 500))
    for folder in (tmp_path, *tmp_path.parents):
        if str(folder) not in ("/", "/tmp"):
            os.chmod(folder, 0o755)
    os.chmod(tmp_path, 0o777)
    os.chown(path, 65534, 12345)
    os.chmod(path, 0o664)
    ran = command(str(tmp_path), "edit", "f.aec", "-", how=How(b"append 7\n", user=65534))
    assert ran.status == 0, ran
    status = os.stat(path)
    assert (status.st_uid, status.st_gid, status.st_mode & 0o777) == (65534, 65534, 0o604)
