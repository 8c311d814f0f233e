"""Crafted files: no traceback, no hang, no more than 256 MiB, and nothing outside the folder is touched."""

from __future__ import annotations

import json
import os
import shutil
import subprocess
import sys
from pathlib import Path
from typing import Any

import aecp
import aecp.archive
import pytest
from making import FAST, USUAL, keep, noise, parts_at, walk, write
from plain_form import sha256
from running import How, command, done

HERE = Path(__file__).parent


def crafted_place(tmp_path: Path) -> str:
    """Makes a folder with a sound file of several groups and edits, and its original."""
    folder = tmp_path / "place"
    folder.mkdir()
    samples = noise(1, 20000, 14)
    keep(str(folder), "f", samples)
    done(str(folder), "edit", "f.aec", "-", given=b"overwrite 5 9 8 7\nappend 4\n")
    done(str(folder), "edit", "f.aec", "-", given=b"remove 0 100\n")
    done(str(folder), "undo", "f.aec")
    done(str(folder), "edit", "f.aec", "-", given=b"overwrite 5 9 8 7\nappend 4\n")
    pixels = b"".join(b"overwrite %d %d\n" % (it * 40, it) for it in range(300))
    done(str(folder), "edit", "f.aec", "-", given=pixels)
    assert [list(it["script"]) for it in parts_at(str(folder / "f.aec")).history[-2:]] == [["same"], ["pixels"]]
    shutil.copy(folder / "f.aec", folder / "sound.aec")
    (folder / "script").write_bytes(b"overwrite 0 1\n")
    return str(folder)


def test_crafted_files(tmp_path: Path, times: int) -> None:
    """Four processes try a quarter of the files each."""
    count = 200 if times == 1 else 5000
    environment = {key: it for key, it in os.environ.items() if key != "LD_PRELOAD"}
    running = []
    for part in range(4):
        (tmp_path / str(part)).mkdir()
        words = [sys.executable, str(HERE / "crafted.py"), crafted_place(tmp_path / str(part)), str(part * count), str(count)]
        running.append(subprocess.Popen(words, env=environment, stdout=subprocess.PIPE, stderr=subprocess.PIPE, text=True))
    for it in running:
        out, err = it.communicate()
        lines = [json.loads(line) for line in out.splitlines()]
        assert it.returncode == 0 and lines and lines[-1] == {"done": count}, err[-3000:]
        assert not lines[:-1], f"{len(lines) - 1} of {count} crafted files: " + "\n".join(map(str, lines[:5]))


def test_one_crafted_file_ends_no_run(place: str) -> None:
    """`check` and `back` of a folder name each damaged file, whatever the crafted ones say."""
    import crafted

    keep(place, "f", noise(1, 20000, 14))
    done(place, "edit", "f.aec", "-", given=b"overwrite 5 9 8 7\nappend 4\n")
    sound = open(os.path.join(place, "f.aec"), "rb").read()
    os.mkdir(os.path.join(place, "d"))
    for number in range(200):
        write(place, f"d/c{number:03}.aec", crafted.crafted(sound, number))
    data = bytearray(sound)
    data[4000] ^= 1
    write(place, "d/zz.aec", bytes(data))
    write(place, "d/aa.aec", sound)
    for words in (["check", "d"], ["check", "d", "--jobs", "3"], ["back", "d", "--to", "out"]):
        ran = command(place, *words)
        assert ran.status == 1 and "zz" in ran.said, ran
    assert os.path.exists(os.path.join(place, "out", "d", "aa")) or os.path.exists(os.path.join(place, "out", "aa"))


def test_counts_that_no_stream_can_have(place: str) -> None:
    """The count is compared with the bytes of the stream before anything is allocated."""
    path = keep(place, "f", walk(1, 3000))
    parts = parts_at(path)
    for count in (2**32, 2**31, 64 * 64 * 8 * len(parts.stream) + 1):
        changed = parts.copy()
        changed.fields["samples"].update(count=count, bytes=2 * count)
        write(place, "f.aec", changed.sealed())
        with pytest.raises(aecp.archive.Damaged):
            aecp.archive.ArchiveFile.open(path).close()  # which reads the trailer alone
        for words in (["check", "f.aec"], ["back", "f.aec", "out"], ["rescue", "f.aec", "out"], ["view", "f.aec", "o.png", "--width", "9"]):
            import resource

            # The test's own process has some hundred MiB already.
            ran = command(place, *words, how=How(limits={resource.RLIMIT_AS: 8 << 30}, seconds=20))
            assert ran.status == 1, (count, words, ran)
        for name in ("out", "o.png"):
            if os.path.exists(os.path.join(place, name)):
                assert os.path.getsize(os.path.join(place, name)) < 10**7
                os.unlink(os.path.join(place, name))


def test_a_bomb_within_the_bound_is_limited(tmp_path: Path) -> None:
    """94 KB of zero runs decode to 2^28 samples: --limit and limit= refuse them at once."""
    path = str(tmp_path / "f.aec")
    with aecp.create(path, aecp.Options(8, block_size=64, interval=4096)) as file:
        for _ in range(256):
            file.write(bytes(1 << 20))
    assert os.path.getsize(path) < 200000
    for words in (["check", "f.aec"], ["back", "f.aec", "out"], ["rescue", "f.aec", "out"]):
        ran = command(str(tmp_path), *words, "--limit", "1000000", how=How(seconds=5))
        assert ran.status == 1 and not os.path.exists(tmp_path / "out"), (words, ran)


def test_names_of_hostile_files_are_escaped(place: str) -> None:
    name = b"\x1b]0;x\x07\r\x7f.aec"
    write(os.fsencode(place), name, b"x" * 100)
    ran = command(place, "check", ".")
    assert ran.status == 1 and not any(it in ran.said for it in "\x1b\x07\r\x7f"), ran


def test_a_sum_of_capital_letters_is_refused(place: str) -> None:
    path = keep(place, "f", walk(1, 300))
    parts = parts_at(path)
    parts.fields["samples"]["sha256"] = parts.fields["samples"]["sha256"].upper()
    write(place, "f.aec", parts.sealed())
    assert command(place, "check", "f.aec").status == 1


def wrong_fields(fields: dict[str, Any]) -> list[dict[str, Any]]:
    """Returns changes of a trailer that a strict reader refuses."""
    changes: list[dict[str, Any]] = [{"more": 1}, {"format": 2.0}, {"format": True}]
    changes += [{"written": it} for it in ("2026-11-30", "2026-11-30T01:02:03Z\n")]
    changes += [{"written_by": it} for it in ("aecp \x1b", "aecp \x7f", "é", "x" * 201, None)]
    changes += [{"shape": it} for it in ([3000, 2], [-3000], [3000.0], [True], "3000", [0])]
    changes += [{"dtype": it} for it in (7, "x" * 300, "\x1b", "<f8", "<u1", "u2")]
    for name, values in (
        ("bits", (True, 0, -1, "16", 1.0, 33, 2**32)),
        ("block_size", (True, 0, -1, "16", 1.0, 17, 2**32)),
        ("interval", (True, 0, -1, "16", 1.0, 4097, 2**32)),
        ("signed", (0, 1, None, "x")),
        ("pad", (0, 1, None, "x")),
        ("preprocess", (0, 1, None, "x")),
    ):
        changes += [{"options": {**fields["options"], name: it}} for it in values]
    sums = ("0" * 63, "0" * 65, "g" * 64, sha256(b"").upper(), "0" * 63 + "\n", None)
    changes += [{"samples": {**fields["samples"], "bytes": it}} for it in (0, 6001, True, 6000.0)]
    changes += [{"samples": {**fields["samples"], "sha256": it}} for it in sums]
    wrong_source = ({"more": 1}, {"bytes": -1}, {"mtime_ns": 1.5}, {"head": 7}, {"tail": "!"})
    return changes + [{"source": {**fields["source"], **it}} for it in wrong_source]


def test_fields_are_demanded_exactly(place: str) -> None:
    """Each field of another type, and each one too many or too few, is refused by aecp.open."""
    from aecp.archive import Damaged

    path = keep(place, "f", walk(1, 3000), FAST)
    sound = parts_at(path)
    for change in wrong_fields(sound.fields):
        parts = sound.copy()
        parts.fields.update(change)
        write(place, "f.aec", parts.sealed())
        with pytest.raises(Damaged):
            aecp.open(path).close()
        assert command(place, "check", "f.aec").status == 1, change
    for name in sound.fields:
        parts = sound.copy()
        del parts.fields[name]
        write(place, "f.aec", parts.sealed(with_sums=False))
        with pytest.raises(Damaged):
            aecp.open(path).close()
    assert USUAL.bits == 16


@pytest.mark.parametrize("foot", [{"flags": 1}, {"flags": 2**31}, {"version": 1}, {"version": 3}, {"crc": 1}, {"foot_crc": 1}])
def test_the_foot_is_demanded_exactly(place: str, foot: dict[str, int]) -> None:
    """A later form may say by a flag that its parts mean something else."""
    path = keep(place, "f", walk(1, 300))
    write(place, "f.aec", parts_at(path).sealed(**foot))
    assert command(place, "check", "f.aec").status == 1
    with pytest.raises(aecp.archive.Damaged):
        aecp.open(path).close()


def test_objects_in_the_trailer_are_demanded_exactly(place: str) -> None:
    """A field more or less in an object within the trailer is refused."""
    path = keep(place, "f", walk(1, 300))
    sound = parts_at(path)
    objects = {name: it for name, it in sound.fields.items() if isinstance(it, dict)}
    assert set(objects) == {"options", "samples", "stream", "source", "index", "history"}
    for name, it in objects.items():
        changes = [{**it, "more": 1}] + [{key: it[key] for key in it if key != gone} for gone in it]
        for change in changes:
            parts = sound.copy()
            parts.fields[name] = change
            write(place, "f.aec", parts.sealed(with_sums=False))
            with pytest.raises(aecp.archive.Damaged):
                aecp.open(path).close()


def test_a_field_twice_is_refused_or_the_last_one(place: str) -> None:
    import zlib

    from plain_form import ended

    path = keep(place, "f", walk(1, 300))
    data = open(path, "rb").read()
    parts = parts_at(path)
    length = int.from_bytes(data[-16:-8], "little")
    text = zlib.decompress(data[-32 - length : -32])
    front = data[: -32 - length]
    write(place, "f.aec", front + ended(zlib.compress(b'{"count":5,' + text[1:])))
    assert command(place, "check", "f.aec").status == 1
    write(place, "f.aec", front + ended(zlib.compress(text) + b"more"))
    assert command(place, "check", "f.aec").status == 1
    assert parts.groups


def test_a_trailer_of_an_impossible_length_is_not_read(place: str) -> None:
    """The foot of a sparse file of 20 GiB names a trailer of as many bytes."""
    from plain_form import ended

    size = 20 << 30
    path = write(place, "f.aec", b"")
    os.truncate(path, size - 32)
    with open(path, "ab") as file:
        file.write(ended(b"", length=size - 32))
    for verb in ("check", "info", "rescue"):
        assert "impossible length" in command(place, verb, "f.aec", how=How(seconds=20)).said, verb


def test_a_group_of_more_code_than_a_group_has(place: str) -> None:
    """A reader holds a group in memory. Its CRC and its samples are right, but it is that of four groups."""
    import crafted
    import plain_form

    path = keep(place, "f", noise(1, 60000))
    parts = parts_at(path)
    del parts.groups[1:4]
    crafted.fixed_groups(parts, plain_form)
    write(place, "f.aec", parts.sealed())
    assert "the index is damaged: group 0" in command(place, "check", "f.aec").said


def test_a_history_of_too_many_entries(place: str) -> None:
    """The writer refuses to write such a history, and the reader to read it."""
    path = keep(place, "f", walk(1, 300))
    parts = parts_at(path)
    parts.history = parts.history * (1 << 14)
    write(place, "f.aec", parts.sealed())
    assert command(place, "check", "f.aec").status == 0
    parts.history.append(parts.history[0])
    write(place, "f.aec", parts.sealed())
    assert "16384 entries" in command(place, "check", "f.aec").said


@pytest.mark.parametrize("part", ["trailer", "history"])
def test_json_of_too_many_values_is_not_parsed(place: str, part: str) -> None:
    """Some kilobytes, packed, of lists within a list would take a hundred megabytes and more."""
    import zlib

    from plain_form import ended

    path = keep(place, "f", walk(1, 300))
    parts, many = parts_at(path), zlib.compress(b"[" + b"[]," * 1_300_000 + b"[]]", 9)
    if part == "history":
        parts.history = many  # type: ignore[assignment]
        write(place, "f.aec", parts.sealed())
    else:
        write(place, "f.aec", parts.stream + ended(many))
    assert "too many values" in command(place, "check", "f.aec").said


def test_bombs_in_trailer_head_and_tail(place: str) -> None:
    import base64
    import zlib

    path = keep(place, "f", walk(1, 300))
    parts = parts_at(path)
    bomb = base64.b64encode(zlib.compress(bytes(300 << 20), 9)).decode()
    for side in ("head", "tail"):
        changed = parts.copy()
        changed.fields["source"][side] = bomb
        changed.fields["source"]["bytes"] += 300 << 20
        write(place, "f.aec", changed.sealed())
        for words in (["check", "f.aec"], ["back", "f.aec", "out"], ["info", "f.aec"]):
            ran = command(place, *words, how=How(seconds=20))
            assert ran.status == 1 or words[0] == "info", (side, words)
        assert not os.path.exists(os.path.join(place, "out"))
