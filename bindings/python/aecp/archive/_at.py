"""Decoding from a bit of a stream on, and the bits where intervals begin."""

from __future__ import annotations

from collections.abc import Iterator
from typing import Any, Callable

from aecp.archive._form import interval_of
from aecp.calls import decode_bytes, decode_bytes_at
from aecp.calls import offsets as all_offsets
from aecp.faults import StreamRefused
from aecp.library import LIBRARY, c_options
from aecp.options import Options
from aecp.streams import Decoder

Read = Callable[[int, int], Any]  # reads bytes of a stream: at which place, and how many
WINDOW = 1 << 20  # samples whose code is searched for offsets at once
MOST_AT_ONCE = 1 << 18  # samples; the library's decode_at takes 24 bytes for each


def shifted(coded: Any, bit: int) -> Any:
    """Returns bytes without their first bits, less than eight. Zeros fill the last byte."""
    if bit == 0:
        return coded
    number = int.from_bytes(coded, "big") << bit
    return number.to_bytes(len(coded) + 1, "big")[1:]


def decode_at(coded: Any, bit: int, count: int, options: Options) -> bytearray:
    """Returns `count` stored samples, decoded from a bit of the first byte on, where an interval
    begins. Raises what aecp.decode_bytes raises."""
    if count <= MOST_AT_ONCE:
        return decode_bytes_at(coded, bit, count, options)
    return decode_bytes(shifted(coded, bit), count, options)


def intervals_at(coded: Any, bit: int, count: int, options: Options) -> Decoder:
    """Returns a decoder of the same samples. Raises as decode_at, once an interval is reached."""
    return Decoder(shifted(coded, bit), count, options)


def offsets(read: Read, size: int, count: int, options: Options) -> Iterator[int]:
    """Yields the bit where each interval of a stream of `size` bytes begins, in constant memory.
    Raises what aecp.decode_bytes raises."""
    interval = interval_of(options)
    left, bit = -(-count // interval), 0
    while left:
        number = min(left, max(WINDOW // interval, 1))
        left -= number
        # With one sample of the next interval, the last bit is where that interval begins.
        samples = number * interval + 1 if left else count - bit_samples(count, number, interval)
        found = offsets_from(read, size, bit, samples, options)
        yield from (bit + offset for offset in found[:number])
        if left:
            bit += found[number]


def bit_samples(count: int, number: int, interval: int) -> int:
    """Returns how many samples are before the last `number` intervals."""
    return (-(-count // interval) - number) * interval


def offsets_from(read: Read, size: int, bit: int, samples: int, options: Options) -> Any:
    """Returns the bits of the intervals of so many samples whose code begins at a bit, counted from
    there."""
    at = bit // 8
    room = int(LIBRARY.aecp_bound(c_options(options), samples)) + 64
    while True:
        coded = shifted(read(at, min(room, size - at)), bit % 8)
        try:
            return all_offsets(coded, samples, options)
        except StreamRefused:
            if room >= size - at:
                raise
        room *= 2  # another coder's code can be longer
