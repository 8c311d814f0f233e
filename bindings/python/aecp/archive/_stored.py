"""How the history stores scripts, and what undoes them."""

from __future__ import annotations

import base64
import zlib
from array import array
from collections.abc import Iterator, Sequence
from dataclasses import dataclass
from typing import Any, Optional, Union

from aecp.archive._form import MOST_BYTES, Damaged
from aecp.archive._scripts import Edit, Store, equal_end, equal_front, lines_of
from aecp.archive._strict import Wrong, base64_of, members, number, unpack
from aecp.calls import decode_bytes, encode
from aecp.faults import Fault
from aecp.options import Options

MOST_SCRIPT = 64 << 20  # bytes of a script that is unpacked
A_PIXEL = len(b"overwrite 0 0\n")  # the least bytes of a line of pixels
MOST_PIXELS = MOST_SCRIPT // A_PIXEL
PACKED_TO_TRY = 1 << 20  # bytes; of more, the start shows how well they can be packed
GAPS = Options(32, block_size=16, interval=128, preprocess=False)  # how the gaps of pixels are coded
MOST_GAP = 1 << 32
SCRIPT = frozenset(["script"])
PIXELS, PIXELS_FIELDS = frozenset(["pixels"]), frozenset(["count", "gaps", "values"])
VALUES = frozenset(["values"])
DIFFERENCE, DIFFERENCE_FIELDS = frozenset(["difference"]), frozenset(["front", "end", "middle"])


def bad_history(text: str) -> Damaged:
    """Returns the exception for a damaged history."""
    return Damaged("bad history", f"the history is damaged: {text}")


@dataclass(frozen=True)
class Script:
    """A script of edits, compressed."""

    packed: bytes  # zlib of the script

    @classmethod
    def of(cls, script: bytes) -> Script:
        """Returns a script as the history has it."""
        return cls(zlib.compress(script, 9))

    @property
    def size(self) -> int:
        return len(self.packed)

    def text(self, _: Options) -> bytes:
        """Returns the script. Raises Damaged("bad history") if it doesn't unpack."""
        return unpacked(self.packed, MOST_SCRIPT, "a script")


@dataclass(frozen=True)
class Pixels:
    """A script whose lines are `overwrite PLACE VALUE`, with ascending places."""

    count: int  # lines
    gaps: bytes  # for each line, how many places are before it and after the line above: coded
    values: bytes  # coded with the options of the file

    @property
    def size(self) -> int:
        return len(self.gaps) + len(self.values)

    def text(self, options: Options) -> bytes:
        """Returns the script. Raises Damaged("bad history") if it doesn't decode."""
        gaps = Store(GAPS).values_of(decoded(self.gaps, self.count, GAPS))
        values = Store(options).values_of(decoded(self.values, self.count, options))
        lines, place = [], -1
        for gap, value in zip(gaps, values):
            place += gap + 1
            lines.append(b"overwrite %d %d\n" % (place, value))
        return b"".join(lines)


@dataclass(frozen=True)
class Values:
    """The samples that a script of overwrites replaced, in the order of their places."""

    coded: bytes  # with the options of the file

    @property
    def size(self) -> int:
        return len(self.coded)

    def lines(self, places: Sequence[tuple[int, int]], options: Options) -> Iterator[bytes]:
        """Yields the lines that write the samples at their places again: ranges, each with its
        first place and the place after its last. Raises Damaged("bad history")."""
        store, number = Store(options), sum(end - first for first, end in places)
        samples, at = decoded(self.coded, number, options), 0
        for first, end in places:
            size = (end - first) * store.width
            yield from lines_of("overwrite", first, samples[at : at + size], store)
            at += size


@dataclass(frozen=True)
class Difference:
    """How an earlier stream is made from a later one: the later one's first `front` bytes, then
    `middle`, then the later one's last `end` bytes. With front = end = 0 it is `middle` alone."""

    front: int
    end: int
    packed: bytes  # zlib of the middle

    @property
    def size(self) -> int:
        return len(self.packed)


Scripted = Union[Script, Pixels]
Inverse = Union[Script, Values, Difference]


def decoded(coded: bytes, count: int, options: Options) -> bytes:
    """Returns stored samples. Raises Damaged("bad history") if they don't decode."""
    try:
        return bytes(decode_bytes(coded, count, options))
    except Fault as fault:
        raise bad_history(f"samples don't decode: {fault}") from None


def unpacked(packed: bytes, most: int, what: str) -> bytes:
    """Returns the bytes that were packed. Raises Damaged("bad history")."""
    try:
        return unpack(packed, most)
    except Wrong as wrong:
        raise bad_history(f"{what}: {wrong}") from None


# What is stored.


def scripted(script: bytes, edits: Sequence[Edit], options: Options) -> Scripted:
    """Returns a script, which means these edits, in the form that takes fewer bytes."""
    packed = Script.of(script)
    pixels = pixels_of(edits, options)
    if pixels is None or pixels.size >= packed.size or pixels.text(options) != script:
        return packed
    return pixels


def pixels_of(edits: Sequence[Edit], options: Options) -> Optional[Pixels]:
    """Returns edits that overwrite a sample each, in ascending order; None if there are others."""
    gaps, values, last = array("I"), array("q"), -1
    for edit in edits:
        if edit.name != "overwrite" or len(edit.values) != 1:
            return None
        gap = edit.places[0] - last - 1
        if not 0 <= gap < MOST_GAP:
            return None
        gaps.append(gap)
        values.append(edit.values[0])
        last = edit.places[0]
    if not 0 < len(gaps) <= MOST_PIXELS:
        return None
    coded = encode(Store(GAPS).bytes_of(gaps), GAPS)
    return Pixels(len(gaps), coded, encode(Store(options).bytes_of(values), options))


def least_inverse(earlier: bytes, later: bytes, tried: Union[Script, Values, None]) -> Inverse:
    """Returns what makes the earlier stream from the later one: what the caller has tried, if
    that is least, else the difference of both, which can be the whole earlier stream."""
    front = equal_front(earlier, later, 1)
    end = equal_end(earlier, later, 1, front)
    middle = memoryview(earlier)[front : len(earlier) - end]
    if tried is not None and tried.size < least_packed(middle):
        return tried
    difference = Difference(front, end, zlib.compress(middle, 9))
    return tried if tried is not None and tried.size < difference.size else difference


def least_packed(data: memoryview) -> int:
    """Returns fewer bytes than `data` would take if it was packed; 0 where packing is quick."""
    if len(data) <= PACKED_TO_TRY:
        return 0
    return len(zlib.compress(data[:PACKED_TO_TRY], 9)) * (len(data) // PACKED_TO_TRY) // 2


def apply_difference(difference: Difference, later: bytes, most: int) -> bytes:
    """Returns the earlier stream. Raises Damaged("bad history") if the difference doesn't fit the
    later stream, doesn't unpack, or gives more than `most` bytes. The caller compares sums."""
    rest = most - difference.front - difference.end
    if rest < 0 or difference.front + difference.end > len(later):
        raise bad_history("a difference doesn't fit the stream")
    view = memoryview(later)
    middle = unpacked(difference.packed, rest, "a difference")
    return b"".join([view[: difference.front], middle, view[len(later) - difference.end :]])


# Its JSON.


def script_json(value: Scripted) -> Any:
    """Returns what the history has for a script."""
    if isinstance(value, Script):
        return in_base64(value.packed)
    gaps, values = in_base64(value.gaps), in_base64(value.values)
    return {"pixels": {"count": value.count, "gaps": gaps, "values": values}}


def inverse_json(value: Inverse) -> dict[str, Any]:
    """Returns what the history has for an inverse."""
    if isinstance(value, Script):
        return {"script": in_base64(value.packed)}
    if isinstance(value, Values):
        return {"values": in_base64(value.coded)}
    middle = in_base64(value.packed)
    return {"difference": {"front": value.front, "end": value.end, "middle": middle}}


def in_base64(data: bytes) -> str:
    return base64.b64encode(data).decode("ascii")


def script_in(value: Any) -> Scripted:
    """Returns a script. Raises Wrong."""
    if type(value) is not dict:
        return Script(base64_of(value, "script"))
    fields = members(members(value, PIXELS, "script")["pixels"], PIXELS_FIELDS, "pixels")
    count = number(fields["count"], 1, MOST_PIXELS, "count")
    return Pixels(count, base64_of(fields["gaps"], "gaps"), base64_of(fields["values"], "values"))


def inverse_in(value: dict[str, Any]) -> Inverse:
    """Returns what undoes an edit. Raises Wrong."""
    if value.keys() == SCRIPT:
        return Script(base64_of(value["script"], "inverse"))
    if value.keys() == VALUES:
        return Values(base64_of(value["values"], "inverse"))
    fields = members(value, DIFFERENCE, "inverse")["difference"]
    given = members(fields, DIFFERENCE_FIELDS, "a difference")
    front = number(given["front"], 0, MOST_BYTES, "front")
    end = number(given["end"], 0, MOST_BYTES, "end")
    return Difference(front, end, base64_of(given["middle"], "middle"))
