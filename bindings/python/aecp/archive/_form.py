"""The form of FILE.aec: what its trailer and its foot contain, how both are read and written.

A file is its stream, its index, its history, its trailer and its foot, one after the other. The
foot has 32 bytes and is the last part: it names the length of the trailer, and the trailer names
the lengths of the others. Nothing read from a file is used before it is checked.
"""

from __future__ import annotations

import base64
import hashlib
import json
import math
import os
import struct
import time
import zlib
from dataclasses import dataclass
from typing import Any, NamedTuple, Optional, Union

from aecp.archive._dtypes import dtype_in
from aecp.archive._strict import (
    Wrong,
    base64_of,
    digits,
    flag,
    members,
    number,
    text,
    time_of,
    unpack,
    unpack_json,
)
from aecp.options import FLAGS, NUMBERS, Options

FORMAT = 2  # of the trailer, and the version in the foot
NO_TRAILER = "it has no trailer at its end: it is no kept file, is cut, or has bytes after its end"
MAGIC = b"aecp\r\n\x1a\n"
FOOT = struct.Struct("<8sIIQI")  # magic, version, flags, length and CRC-32 of the trailer
CRC = struct.Struct("<I")  # CRC-32 of the 28 bytes before it
FOOT_BYTES = FOOT.size + CRC.size
MOST_TRAILER = 4 << 20  # bytes of a trailer that is unpacked
MOST_SIDE = 1 << 20  # bytes of a source's head, and of its tail
MOST_COUNT = 1 << 32  # samples
MOST_BYTES = 1 << 40  # of a stream, and of all else
MOST_DIMENSIONS = 32
SPARE_BYTES = 1 << 13
MOST_CONTAINERS = 64  # lists and objects in a trailer
MOST_RESTRICTED = 4  # bits of a sample with the restricted set of code options
MOST_SAMPLES_A_BYTE = 64 * 64 * 8  # no byte of a stream can mean more
BLOCK_SIZES = (8, 16, 32, 64)
RANGES = {"bits": (1, 32), "block_size": (8, 64), "interval": (1, 4096)}
OPTION_FIELDS = frozenset(NUMBERS + FLAGS)
STATE_FIELDS = frozenset(["samples", "stream"])
SAMPLES_FIELDS = frozenset(["count", "bytes", "sha256"])
SUM_FIELDS = frozenset(["bytes", "sha256"])
SOURCE_FIELDS = frozenset(["bytes", "sha256", "mtime_ns", "head", "tail"])
PART_FIELDS = frozenset(["bytes", "crc32"])
TRAILER_FIELDS = STATE_FIELDS.union(
    ["format", "written_by", "written", "options", "shape", "dtype", "source", "index", "history"]
)

Raw = bytes  # dataclasses below have a field `bytes`


class Refused(Exception):
    """An archive can't do what was asked. The text is for the user, after the file's name."""


class Exists(Refused, FileExistsError):
    """A new file can't be written, since its name is taken."""


class Range(NamedTuple):
    """Some samples of a file: the place of the first one, and how many."""

    first: int
    length: int


class Damaged(Refused):
    """A file can't be trusted. The text says why.

    kind    "no trailer", "bad trailer", "bad index", "bad history", "bad group" or "other samples"
    ranges  the samples that are lost, as far as this is known
    """

    def __init__(self, kind: str, text: str, ranges: tuple[Range, ...] = ()) -> None:
        super().__init__(text)
        self.kind, self.text, self.ranges = kind, text, ranges

    @property
    def range(self) -> Optional[Range]:
        """The first of the ranges, or None."""
        return self.ranges[0] if self.ranges else None

    def __reduce__(self) -> tuple[Any, ...]:
        return type(self), (self.kind, self.text, self.ranges)


@dataclass(frozen=True)
class Sum:
    """How many bytes there are, and their SHA-256."""

    bytes: int
    sha256: str

    @classmethod
    def of(cls, data: Any) -> Sum:
        """Returns the sum of bytes in memory."""
        return cls(memoryview(data).nbytes, hashlib.sha256(data).hexdigest())


@dataclass(frozen=True)
class State:
    """What a file contained at some time: its number of samples, and the sums of its stored samples
    and of its stream."""

    count: int
    samples: Sum
    stream: Sum


@dataclass(frozen=True)
class Source:
    """The file that was kept, as it was then.

    bytes, sha256, mtime_ns   its size, SHA-256 and time
    head, tail                its bytes before and after the samples, at most 1 MiB each
    """

    bytes: int
    sha256: str
    mtime_ns: int
    head: Raw = b""
    tail: Raw = b""


@dataclass(frozen=True)
class Facts:
    """What the trailer of a file says. The reader has checked each field's type and range.

    samples   the sum of all stored samples
    stream    the sum of the stream
    shape     sizes whose product is the count, or None
    dtype     the numpy dtype of the array that was written, such as "<i2", or None. It can have
              other sizes than the stored samples: integers of eight bytes fit if their values do.
    source    the file that was kept, or None
    """

    options: Options
    count: int
    samples: Sum
    stream: Sum
    shape: Optional[tuple[int, ...]] = None
    dtype: Optional[str] = None
    source: Optional[Source] = None
    written: str = ""
    written_by: str = ""

    @property
    def state(self) -> State:
        """The count and both sums, as the history has them."""
        return State(self.count, self.samples, self.stream)


def shown(name: str) -> str:
    """Returns a file's name on one line. What is no text is written out, as \\xff and \\n."""
    decoded = os.fsencode(name).decode("utf-8", "backslashreplace")
    return "".join(c if c.isprintable() else ascii(c)[1:-1] for c in decoded)


def now() -> str:
    """Returns the time in UTC, as "2026-11-30T01:02:03Z"."""
    return time.strftime("%Y-%m-%dT%H:%M:%SZ", time.gmtime())


class Part(NamedTuple):
    """The bytes of an index or a history, and their CRC-32."""

    bytes: int
    crc32: int

    @classmethod
    def of(cls, data: Raw) -> Part:
        return cls(len(data), zlib.crc32(data))


@dataclass(frozen=True)
class Trailer:
    """What a trailer says: the facts, and where index and history are."""

    facts: Facts
    index: Part
    history: Part


# Writing.


def ending(facts: Facts, index: bytes, history: bytes) -> bytes:
    """Returns all that follows the stream: index, history, trailer and foot."""
    trailer = zlib.compress(dumped(trailer_json(Trailer(facts, Part.of(index), Part.of(history)))))
    foot = FOOT.pack(MAGIC, FORMAT, 0, len(trailer), zlib.crc32(trailer))
    return index + history + trailer + foot + CRC.pack(zlib.crc32(foot))


def dumped(value: Any) -> bytes:
    """Returns a value as JSON in ASCII, with sorted keys and without blanks."""
    return json.dumps(value, sort_keys=True, separators=(",", ":")).encode("ascii")


def trailer_json(trailer: Trailer) -> dict[str, Any]:
    """Returns the fields of a trailer."""
    facts = trailer.facts
    return {
        "format": FORMAT,
        "written_by": facts.written_by,
        "written": facts.written,
        "options": {name: getattr(facts.options, name) for name in NUMBERS + FLAGS},
        **state_json(facts.state),
        "shape": None if facts.shape is None else list(facts.shape),
        "dtype": facts.dtype,
        "source": None if facts.source is None else source_json(facts.source),
        "index": trailer.index._asdict(),
        "history": trailer.history._asdict(),
    }


def sum_json(given: Union[Sum, Source]) -> dict[str, Any]:
    """Returns the fields of a sum."""
    return {"bytes": given.bytes, "sha256": given.sha256}


def state_json(state: State) -> dict[str, Any]:
    """Returns the fields `samples` and `stream` of a state."""
    samples = {"count": state.count, **sum_json(state.samples)}
    return {"samples": samples, "stream": sum_json(state.stream)}


def source_json(source: Source) -> dict[str, Any]:
    """Returns the fields of a source."""
    sides = {"head": packed_side(source.head), "tail": packed_side(source.tail)}
    return {**sum_json(source), "mtime_ns": source.mtime_ns, **sides}


def packed_side(side: bytes) -> str:
    """Returns the head or the tail of a source as a text; no bytes are an empty text."""
    return base64.b64encode(zlib.compress(side, 9)).decode("ascii") if side else ""


# Reading.


def foot_of(data: bytes) -> Part:
    """Returns the length and the CRC-32 of the trailer that a foot names. Raises Damaged."""
    if len(data) != FOOT_BYTES or not data.startswith(MAGIC):
        raise Damaged("no trailer", NO_TRAILER)
    foot, (crc,) = data[: FOOT.size], CRC.unpack(data[FOOT.size :])
    _, version, flags, length, trailer_crc = FOOT.unpack(foot)
    if zlib.crc32(foot) != crc:
        raise Damaged("bad trailer", "the last 32 bytes are damaged: their CRC-32 is another")
    if version != FORMAT or flags:
        text = f"it has form {version} with flags {flags}, and this aecp reads {FORMAT} with 0"
        raise Damaged("bad trailer", text)
    return Part(length, trailer_crc)


def trailer_of(data: bytes, part: Part) -> Trailer:
    """Returns what the bytes of a trailer say. Raises Damaged("bad trailer")."""
    try:
        if zlib.crc32(data) != part.crc32:
            raise Wrong("its CRC-32 is another")
        return trailer_in(unpack_json(data, MOST_TRAILER, MOST_CONTAINERS))
    except Wrong as wrong:
        raise Damaged("bad trailer", f"the trailer is damaged: {wrong}") from None


def trailer_in(value: Any) -> Trailer:
    """Returns what the fields of a trailer say. Raises Wrong."""
    fields = members(value, TRAILER_FIELDS, "the trailer")
    number(fields["format"], FORMAT, FORMAT, "format")
    options = options_in(fields["options"])
    state = state_in({name: fields[name] for name in STATE_FIELDS}, options.storage)
    if state.stream.bytes > most_stream(options, state.count):
        raise Wrong(f"{state.count} samples can't need {state.stream.bytes} bytes")
    source = fields["source"]
    facts = Facts(
        options,
        state.count,
        state.samples,
        state.stream,
        shape_in(fields["shape"], state.count),
        dtype_in(fields["dtype"], options),
        None if source is None else source_in(source),
        time_of(fields["written"], "written"),
        text(fields["written_by"], "written_by"),
    )
    return Trailer(facts, part_in(fields["index"], "index"), part_in(fields["history"], "history"))


def options_in(value: Any) -> Options:
    """Returns options that the format has. Raises Wrong for others."""
    fields = members(value, OPTION_FIELDS, "options")
    given: dict[str, Any] = {name: flag(fields[name], name) for name in FLAGS}
    given.update({name: number(fields[name], *RANGES[name], name) for name in NUMBERS})
    options = Options(**given)
    if not is_block_size(options) or (options.restricted and options.bits > MOST_RESTRICTED):
        raise Wrong("options are none of the format")
    return options


def is_block_size(options: Options) -> bool:
    """Returns whether the format has the block size of options."""
    return options.block_size in BLOCK_SIZES or (options.even_blocks and not options.block_size % 2)


def sum_in(fields: dict[str, Any], what: str) -> Sum:
    """Returns the sum in some fields. Raises Wrong."""
    size = number(fields["bytes"], 0, MOST_BYTES, f"bytes of {what}")
    return Sum(size, digits(fields["sha256"], f"sha256 of {what}"))


def state_in(value: Any, storage: Optional[int] = None) -> State:
    """Returns a state whose numbers fit each other. Raises Wrong.

    storage: the bytes of a stored sample, if they are known.
    """
    fields = members(value, STATE_FIELDS, "a state")
    given = members(fields["samples"], SAMPLES_FIELDS, "samples")
    samples, count = sum_in(given, "samples"), number(given["count"], 0, MOST_COUNT, "count")
    stream = sum_in(members(fields["stream"], SUM_FIELDS, "stream"), "stream")
    sizes = range(1, 5) if storage is None else (storage,)
    if all(samples.bytes != count * size for size in sizes):
        raise Wrong("the samples have another number of bytes than their count says")
    if count > stream.bytes * MOST_SAMPLES_A_BYTE:
        raise Wrong(f"a stream of {stream.bytes} bytes can't mean {count} samples")
    return State(count, samples, stream)


def most_stream(options: Options, count: int) -> int:
    """Returns more bytes than a stream of so many samples has. An interval takes at most half of
    what is allowed here, if its coder chooses the code options well."""
    return SPARE_BYTES + (count + interval_of(options)) * (options.bits + 8) // 4


def interval_of(options: Options) -> int:
    """Returns the number of samples of an interval."""
    return options.block_size * options.interval


def shape_in(value: Any, count: int) -> Optional[tuple[int, ...]]:
    """Returns a shape of so many samples, or None. Raises Wrong."""
    if value is None:
        return None
    if type(value) is not list or len(value) > MOST_DIMENSIONS:
        raise Wrong(f"shape isn't a list of at most {MOST_DIMENSIONS} sizes")
    sizes = tuple(number(size, 0, MOST_COUNT, "a size of shape") for size in value)
    if math.prod(sizes) != count or math.prod(size or 1 for size in sizes) > MOST_COUNT:
        raise Wrong("shape has another number of samples")
    return sizes


def source_in(value: Any) -> Source:
    """Returns a source. Raises Wrong."""
    fields = members(value, SOURCE_FIELDS, "source")
    whole = sum_in(fields, "source")
    time_ns = number(fields["mtime_ns"], -(1 << 63), (1 << 63) - 1, "mtime_ns")
    head, tail = side_in(fields["head"], "head"), side_in(fields["tail"], "tail")
    if len(head) + len(tail) > whole.bytes:
        raise Wrong("head and tail have more bytes than the source")
    return Source(whole.bytes, whole.sha256, time_ns, head, tail)


def side_in(value: Any, what: str) -> bytes:
    """Returns the bytes of a head or a tail. Raises Wrong."""
    packed = base64_of(value, what)
    return unpack(packed, MOST_SIDE) if packed else b""


def part_in(value: Any, what: str) -> Part:
    """Returns the size and the CRC-32 of an index or a history. Raises Wrong."""
    fields = members(value, PART_FIELDS, what)
    size = number(fields["bytes"], 0, MOST_BYTES, f"bytes of {what}")
    return Part(size, number(fields["crc32"], 0, (1 << 32) - 1, f"crc32 of {what}"))
