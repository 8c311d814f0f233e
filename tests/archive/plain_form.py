"""A plain reader and writer of FILE.aec, by docs/ARCHIVE.md alone: it shares nothing with bindings/python/aecp/archive.

`parts_of` demands the form to the letter, with assertions. `Parts.sealed` makes a file again of parts that a test has changed.
"""

from __future__ import annotations

import base64
import hashlib
import json
import math
import re
import struct
import zlib
from copy import deepcopy
from dataclasses import dataclass
from typing import Any, NamedTuple, Optional

from lib import plain_reader
from lib.settings import Settings

GAPS = Settings(bits=32, block_size=16, interval=128, preprocess=False)
MAGIC = b"aecp\r\n\x1a\n"
VERSION = 2
FOOT = struct.Struct("<8sIIQII")
GROUP = struct.Struct("<QII")
GROUP_BITS = 8 * 16384
TIME = r"\d{4}-\d\d-\d\dT\d\d:\d\d:\d\dZ"
FIELDS = {
    "format", "written_by", "written", "options", "samples", "stream", "shape", "dtype", "source", "index", "history",
}  # fmt: skip
ENTRIES = {
    "keep": {"what", "when", "by", "after"},
    "edit": {"what", "when", "by", "before", "after", "samples_changed", "script", "inverse", "shape"},
    "undo": {"what", "when", "by", "before", "after", "edit"},
    "forget": {"what", "when", "by", "entries"},
}


class Group(NamedTuple):
    bit: int
    interval: int
    crc: int


@dataclass
class Parts:
    """The parts of a file: the bytes of the stream, its groups, the entries of the history, and the fields of the trailer."""

    stream: bytes
    groups: list[Group]
    history: list[dict[str, Any]]
    fields: dict[str, Any]

    def copy(self) -> Parts:
        return deepcopy(self)

    def sealed(self, with_sums: bool = True, **foot: int) -> bytes:
        """Returns a file of these parts. The lengths and sums of index, history and stream follow the parts if `with_sums`."""
        index = b"".join(GROUP.pack(*it) for it in self.groups)
        history = self.history if isinstance(self.history, bytes) else zlib.compress(json.dumps(self.history).encode())
        fields = deepcopy(self.fields)
        if with_sums:
            fields["index"] = sum_of(index)
            fields["history"] = sum_of(history)
        text = json.dumps(fields, sort_keys=True, separators=(",", ":")).encode()
        return self.stream + index + history + ended(zlib.compress(text), **foot)


def sum_of(data: bytes) -> dict[str, int]:
    return {"bytes": len(data), "crc32": zlib.crc32(data)}


def ended(trailer: bytes, magic: bytes = MAGIC, version: int = VERSION, flags: int = 0, **more: int) -> bytes:
    """Returns the bytes of a trailer, and its foot."""
    length, crc = more.get("length", len(trailer)), more.get("crc", zlib.crc32(trailer))
    front = struct.pack("<8sIIQI", magic, version, flags, length, crc)
    return trailer + front + struct.pack("<I", more.get("foot_crc", zlib.crc32(front)))


def is_number(it: object, least: int = 0, most: int = 2**64 - 1) -> bool:
    return type(it) is int and least <= it <= most


def demand_sum(it: Any) -> None:
    assert set(it) == {"bytes", "sha256"} and is_number(it["bytes"]), it
    assert re.fullmatch("[0-9a-f]{64}", it["sha256"]), it


def demand_state(it: Any) -> None:
    """Demands the form of `before` and `after`."""
    assert set(it) == {"samples", "stream"}, it
    assert set(it["samples"]) == {"count", "bytes", "sha256"} and is_number(it["samples"]["count"], 0, 2**32), it
    demand_sum({key: it["samples"][key] for key in ("bytes", "sha256")})
    demand_sum(it["stream"])


def demand_entry(entry: Any) -> None:
    """Demands the form of an entry of the history."""
    assert set(entry) == ENTRIES[entry["what"]], entry
    assert re.fullmatch(TIME, entry["when"]) and entry["by"].startswith("aecp "), entry
    for name in ("before", "after"):
        if name in entry:
            demand_state(entry[name])
    assert entry.get("shape") is None or math.prod(entry["shape"]) == entry["before"]["samples"]["count"], entry


def parts_of(data: bytes) -> Parts:
    """Returns the parts of a file. Raises AssertionError if any byte isn't as the page says."""
    assert len(data) >= FOOT.size
    magic, version, flags, length, crc, foot_crc = FOOT.unpack(data[-FOOT.size :])
    assert (magic, version, flags) == (MAGIC, VERSION, 0)
    assert zlib.crc32(data[-FOOT.size : -4]) == foot_crc
    end = len(data) - FOOT.size
    trailer = data[end - length : end]
    assert len(trailer) == length and zlib.crc32(trailer) == crc
    text = zlib.decompress(trailer).decode("ascii")
    fields = json.loads(text)
    assert list(fields) == sorted(fields) and set(fields) == FIELDS, list(fields)
    assert fields["format"] == 2 and re.fullmatch(TIME, fields["written"])
    sizes = [fields[name]["bytes"] for name in ("stream", "index", "history")]
    assert sum(sizes) + length + FOOT.size == len(data), (sizes, length, len(data))
    stream, index, history = cut(data, sizes)
    for name, part in (("index", index), ("history", history)):
        assert fields[name] == sum_of(part), name
    assert fields["stream"]["sha256"] == sha256(stream)
    entries = json.loads(zlib.decompress(history).decode("ascii"))
    for entry in entries:
        demand_entry(entry)
    assert len(index) % GROUP.size == 0
    groups = [Group(*it) for it in GROUP.iter_unpack(index)]
    return Parts(stream, groups, entries, fields)


def cut(data: bytes, sizes: list[int]) -> list[bytes]:
    out, at = [], 0
    for size in sizes:
        out.append(data[at : at + size])
        at += size
    return out


def sha256(data: bytes) -> str:
    return hashlib.sha256(data).hexdigest()


def packed(it: str) -> bytes:
    """Returns the bytes of a text that is base64 of zlib. An empty text has no bytes."""
    return zlib.decompress(base64.b64decode(it, validate=True)) if it else b""


def script_of(parts: Parts, number: int) -> bytes:
    """Returns the script of an entry of the history."""
    it = parts.history[number]["script"]
    if isinstance(it, str):
        return packed(it)
    if "same" in it:
        assert it["same"] < number, it
        return script_of(parts, it["same"])
    given, places = it["pixels"], [-1]
    for gap in numbers_in(given["gaps"], GAPS, given["count"]):
        places.append(places[-1] + 1 + gap)
    values = numbers_in(given["values"], Settings(**parts.fields["options"]), given["count"])
    return b"".join(b"overwrite %d %d\n" % it for it in zip(places[1:], values))


def numbers_in(it: str, settings: Settings, count: int) -> list[int]:
    """Returns the samples of a stream in base64, which must be whole."""
    samples = plain_reader.reading(base64.b64decode(it, validate=True), settings, count)
    assert len(samples) == count, samples
    return samples


def as_packed(data: bytes) -> str:
    return base64.b64encode(zlib.compress(data)).decode()


def group_bytes(parts: Parts, number: int) -> bytes:
    """Returns the bytes that the bits of a group touch."""
    begin = parts.groups[number].bit
    last = number + 1 == len(parts.groups)
    end = 8 * len(parts.stream) if last else parts.groups[number + 1].bit
    return parts.stream[begin // 8 : -(-end // 8)]


def shifted(data: bytes, bits: int) -> bytes:
    """Returns the bytes without their first bits (0 to 7), and zeros at the end."""
    number = int.from_bytes(data, "big") << bits
    return (number & ((1 << 8 * len(data)) - 1)).to_bytes(len(data), "big")


def group_samples(parts: Parts, number: int, decode: Any) -> Any:
    """Returns what decode(coded, count) makes of the code of a group."""
    interval = parts.fields["options"]["block_size"] * parts.fields["options"]["interval"]
    count = parts.fields["samples"]["count"]
    first = parts.groups[number].interval * interval
    last = number + 1 == len(parts.groups)
    end = count if last else min(count, parts.groups[number + 1].interval * interval)
    coded = shifted(group_bytes(parts, number), parts.groups[number].bit % 8)
    return first, end, decode(coded, end - first)


def demand_sound(data: bytes, decode: Any, shape: Optional[list[int]] = None) -> Parts:
    """Demands that each sum of a file is right, and that each group decodes alone to its samples: `decode(coded, count)`.
    Returns the parts."""
    parts = parts_of(data)
    count = parts.fields["samples"]["count"]
    whole = bytes(decode(parts.stream, count))
    assert parts.fields["samples"]["sha256"] == sha256(whole)
    assert parts.fields["samples"]["bytes"] == len(whole)
    assert bool(parts.groups) == bool(count)
    storage = len(whole) // count if count else 1
    at = 0
    for number, group in enumerate(parts.groups):
        assert zlib.crc32(group_bytes(parts, number)) == group.crc, number
        first, end, samples = group_samples(parts, number, decode)
        assert first == at and end > first, (number, at, first, end)
        assert bytes(samples) == whole[first * storage : end * storage], f"group {number}"
        at = end
    assert at == count
    if shape is not None:
        assert parts.fields["shape"] == shape
    return parts
