"""The form of FILE.aec, field by field, by a reader that shares nothing with the module (plain_form.py)."""

from __future__ import annotations

import io
import json
import os
import subprocess
import zlib
from pathlib import Path
from typing import Any

import aecp
from lib import plain_reader
import pytest
from hypothesis import given
from hypothesis import strategies as st
from making import (
    FAST, USUAL, flip, keep, made, noise, options_of, parts_at, read, samples_for, settings_by_chance, sound_parts, walk, write,
)  # fmt: skip
from plain_form import GROUP_BITS, packed, parts_of, script_of, sha256
from running import command, done, refused
from lib.settings import Settings

TOP = Path(__file__).resolve().parents[2]


@given(st.data())
def test_a_file_begins_with_the_stream_and_every_sum_is_right(tmp_path: Any, data: Any) -> None:
    settings = data.draw(settings_by_chance())
    samples = data.draw(samples_for(settings))
    path = str(tmp_path / "f.aec")
    if os.path.exists(path):
        os.unlink(path)
    made(path, samples, settings)
    stored = settings.stored(samples)
    parts = sound_parts(path)
    assert parts.stream == bytes(aecp.encode(stored, options_of(settings)))
    assert read(path).startswith(parts.stream)
    assert parts.fields["options"] == settings._asdict()
    assert parts.fields["samples"]["count"] == len(samples)
    assert parts.fields["samples"]["sha256"] == sha256(stored)
    # A decoder of the standard reads the file as it is, since it ends after the last coded data set needed.
    assert bytes(aecp.decode_bytes(read(path), len(samples), options_of(settings))) == stored


@pytest.mark.parametrize("way", ["create", "keep"])
def test_two_ways_make_one_form(place: str, way: str) -> None:
    samples = walk(way, 5000)
    path = os.path.join(place, "f.aec")
    if way == "keep":
        keep(place, "f", samples)
    else:
        made(path, samples)
    parts = sound_parts(path)
    assert parts.stream == bytes(aecp.encode(USUAL.stored(samples), options_of(USUAL)))
    assert (parts.fields["source"] is None) == (way == "create")
    assert way == "create" or [it["what"] for it in parts.history] == ["keep"]
    for entry in parts.history:
        assert entry["after"] == {"samples": parts.fields["samples"], "stream": parts.fields["stream"]}


def interval_bits(stream: bytes, settings: Settings, count: int) -> list[int]:
    """Returns the bit at which each interval begins, and the end of the last, by the plain reader."""
    bits, place, seen, starts, before = plain_reader.Bits(stream), 0, 0, [0], None
    while seen < count:
        blocks, more = plain_reader.next_samples(bits, settings, place, before)
        before, seen, place = more[-1], seen + len(more), place + blocks
        if place == settings.interval and seen < count:
            if settings.pad:
                bits.skip_to_byte()
            starts.append(bits.at)
            place = 0
    return [*starts, bits.at]


@pytest.mark.parametrize(
    "settings",
    [
        USUAL,
        Settings(bits=16, block_size=8, interval=1),
        Settings(bits=16, block_size=64, interval=4096),
        Settings(bits=12, block_size=16, interval=7, pad=True),
        Settings(bits=32, block_size=16, interval=128, signed=True, msb_first=True),
    ],
    ids=str,
)
def test_a_group_is_the_fewest_intervals_with_16_kib_of_code(tmp_path: Any, settings: Settings) -> None:
    samples = noise(settings, 30000, settings.bits - int(settings.signed))
    path = made(str(tmp_path / "f.aec"), samples, settings)
    parts = sound_parts(path)
    starts = interval_bits(parts.stream, settings, len(samples))
    wanted, first = [], 0
    for interval in range(len(starts) - 1):
        if starts[interval + 1] - starts[first] >= GROUP_BITS:
            wanted.append((starts[first], first))
            first = interval + 1
    if first < len(starts) - 1:
        wanted.append((starts[first], first))
    assert [(it.bit, it.interval) for it in parts.groups] == wanted
    assert len(wanted) > 1 or settings.interval == 4096


def test_the_index_is_at_most_a_thousandth(tmp_path: Any) -> None:
    stored = os.urandom(6 << 20)
    with aecp.create(str(tmp_path / "f.aec"), options_of(FAST)) as file:
        file.write(stored)
    parts = parts_at(str(tmp_path / "f.aec"))
    assert parts.fields["index"]["bytes"] * 1000 <= len(parts.stream)
    assert parts.fields["index"]["bytes"] == 16 * len(parts.groups)


def test_no_samples(tmp_path: Any) -> None:
    path = made(str(tmp_path / "f.aec"), [])
    parts = sound_parts(path)
    assert (parts.stream, parts.groups, parts.fields["samples"]["count"]) == (b"", [], 0)
    file = aecp.open(path)
    assert len(file) == 0 and list(file) == [] and len(file[0:5]) == 0 and list(file.bad_ranges()) == []
    assert command(str(tmp_path), "check", "f.aec").status == 0


def test_long_zeros_have_few_groups(tmp_path: Any) -> None:
    path = made(str(tmp_path / "f.aec"), [7] * 300000, FAST)
    parts = sound_parts(path)
    assert len(parts.groups) == 1
    assert list(aecp.open(path)[299990:]) == [7] * 10


def test_history_has_the_documented_entries(place: str) -> None:
    path = keep(place, "f", walk(1, 3000))
    first = parts_at(path)
    done(place, "edit", "f.aec", "-", given=b"overwrite 5 9\nappend 1 2\n")
    done(place, "undo", "f.aec")
    done(place, "edit", "f.aec", "-", given=b"remove 0 7\n")
    parts = sound_parts(path)
    assert [it["what"] for it in parts.history] == ["keep", "edit", "undo", "edit"]
    kept, edit, undo, last = parts.history
    assert edit["before"] == kept["after"] == undo["after"] == last["before"]
    assert edit["after"] == undo["before"]
    assert undo["edit"] == 1 and edit["inverse"] is None and edit["samples_changed"] >= 1
    assert script_of(parts, 1) == b"overwrite 5 9\nappend 1 2\n"
    assert last["after"]["samples"] == parts.fields["samples"]
    assert parts.fields["source"] == first.fields["source"], "the source is described as it was kept"
    done(place, "forget", "f.aec", "--keep", "1")
    parts = sound_parts(path)
    entries = parts.history
    assert entries[0]["what"] == "forget" and entries[0]["entries"] >= 1
    assert entries[-1]["what"] == "edit" and script_of(parts, 1) == b"remove 0 7\n"


@pytest.mark.parametrize("settings", [USUAL, Settings(bits=3, restricted=True), Settings(bits=20, three_byte=True)], ids=str)
def test_export_is_the_bare_stream(place: str, settings: Settings) -> None:
    samples = noise(3, 3000, settings.bits)
    path = keep(place, "f", samples, settings)
    done(place, "export", "f.aec", "bare")
    assert read(place, "bare") == bytes(aecp.encode(settings.stored(samples), options_of(settings)))
    assert done(place, "export", "f.aec", "-").raw == read(place, "bare")
    assert parts_at(path).stream == read(place, "bare")


def test_a_damaged_stream_is_not_exported(place: str) -> None:
    path = keep(place, "f", walk(1, 3000))
    flip(path, 4000)
    refused(place, "export", "f.aec", "bare")
    assert "bare" not in os.listdir(place)


def test_the_program_reads_the_file_as_it_is(place: str) -> None:
    program = TOP / "crates" / "aec" / "out" / "aec"
    if not program.exists():
        pytest.skip("the program aec isn't built")
    samples = walk(4, 9000)
    keep(place, "f", samples)
    words = [str(program), "-d", "--count", "9000", *USUAL.options(), "f.aec", "out"]
    subprocess.run(words, cwd=place, check=True)
    assert read(place, "out") == USUAL.stored(samples)


def test_the_schema_takes_files_and_refuses_others(place: str) -> None:
    jsonschema = pytest.importorskip("jsonschema")
    schema = json.loads(read(TOP, "docs", "archive.schema.json"))
    path = keep(place, "f", walk(1, 3000))
    done(place, "edit", "f.aec", "-", given=b"overwrite 5 9\nappend 1 2\n")
    done(place, "edit", "f.aec", "-", given=b"truncate 0\n")
    done(place, "undo", "f.aec")
    parts = parts_at(path)
    trailer, history = schemas_of(schema)
    jsonschema.validate(parts.fields, trailer)
    jsonschema.validate(parts.history, history)
    for change in ({"format": 3}, {"more": 1}, {"shape": "x"}, {"samples": 1}, {"source": 1}):
        with pytest.raises(jsonschema.ValidationError):
            jsonschema.validate({**parts.fields, **change}, trailer)
    with pytest.raises(jsonschema.ValidationError):
        jsonschema.validate([{"what": "other"}], history)


def schemas_of(schema: Any) -> tuple[Any, Any]:
    """Returns the schemas of the trailer and of the history, which one document has under $defs."""
    names = schema["$defs"]
    return {**schema, "$ref": "#/$defs/trailer", "$defs": names}, {"$ref": "#/$defs/history", "$defs": names}


def test_the_source_comes_back_with_head_and_tail(place: str) -> None:
    numpy = pytest.importorskip("numpy")
    array = numpy.arange(6000, dtype=">i2").reshape(60, 100)
    buffer = io.BytesIO()
    numpy.save(buffer, array)
    write(place, "a.npy", buffer.getvalue())
    done(place, "keep", "a.npy", "-n", "16")
    parts = sound_parts(os.path.join(place, "a.npy.aec"))
    assert (parts.fields["shape"], parts.fields["dtype"]) == ([60, 100], ">i2")
    source = parts.fields["source"]
    assert packed(source["head"]) == buffer.getvalue()[: -array.nbytes] and packed(source["tail"]) == b""
    assert source["bytes"] == len(buffer.getvalue()) and source["sha256"] == sha256(buffer.getvalue())
    assert parts.fields["samples"]["sha256"] == sha256(array.tobytes())
    os.unlink(os.path.join(place, "a.npy"))
    done(place, "back", "a.npy.aec")
    assert read(place, "a.npy") == buffer.getvalue()


def test_the_trailer_is_small_and_compressed(place: str) -> None:
    path = keep(place, "f", walk(1, 300))
    data = read(path)
    parts = parts_of(data)
    assert len(data) - len(parts.stream) < 1200
    assert zlib.decompress(data[-32 - int.from_bytes(data[-16:-8], "little") : -32]).startswith(b'{"')
