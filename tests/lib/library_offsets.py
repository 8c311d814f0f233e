"""Tests the bits where intervals begin, and decoding from there on, for library.py. The plain reader,
which shares nothing with the project's code, says where an interval begins and what the bits from
there on decode to."""

from __future__ import annotations

import random
from typing import Any, NamedTuple, Optional, Union

from lib import foreign_writer
from lib import plain_coder
from lib.damaged_cases import some_samples, some_settings
from lib.plain_reader import Bits, Fault, next_samples
from lib.program import Tally, raised
from lib.settings import Settings

# How many intervals of a stream are decoded, and with how many counts each.
INTERVALS, COUNTS = 6, 6


class Walk(NamedTuple):
    """What the plain reader reads: the bit where each interval begins, and all samples."""

    begins: list[int]
    samples: list[int]


def walk(stream: bytes, settings: Settings, count: Optional[int], bit: int = 0) -> Walk:
    """Reads a stream from a bit on, where an interval begins. Raises Fault as the plain reader."""
    bits, found, place = Bits(stream), Walk([], []), 0
    bits.at = bit
    while not bits.rest_is_zero() if count is None else len(found.samples) < count:
        if place == 0:
            found.begins.append(bits.at)
        before = found.samples[-1] if found.samples else None
        blocks, more = next_samples(bits, settings, place, before)
        found.samples.extend(more)
        place += blocks
        if place == settings.interval:
            place = 0
            if settings.pad:
                bits.skip_to_byte()
    return found if count is None else Walk(found.begins, found.samples[:count])


def wanted_from(stream: bytes, settings: Settings, bit: int, count: Optional[int]) -> Union[bytes, tuple[int, str]]:
    """Returns the stored samples from a bit on; or the number of bits if no interval begins at such a
    bit; or the text of the plain reader's fault."""
    if bit > 8 * len(stream) or settings.pad and bit % 8:
        return 8 * len(stream), "BitRefused"
    try:
        return settings.stored(walk(stream, settings, count, bit).samples)
    except Fault as fault:
        return 0, str(fault)


def found_from(aecp: Any, stream: bytes, options: Any, bit: int, count: Optional[int]) -> Union[bytes, tuple[int, str]]:
    """Returns the same by the module."""
    try:
        return bytes(aecp.decode_bytes_at(stream, bit, count, options))
    except aecp.BitRefused as fault:
        return fault.bits, "BitRefused"
    except aecp.Fault as fault:
        return 0, str(fault)


def try_stream(aecp: Any, stream: bytes, samples: list[int], settings: Settings, chance: random.Random, what: str, tally: Tally) -> None:
    """Tests the offsets of a stream of these samples, and decodes from some of them, and from other bits on."""
    options, size = aecp.Options(**settings._asdict()), settings.interval_len()
    begins = walk(stream, settings, len(samples)).begins
    tally.check(f"{what}: offsets", list(aecp.offsets(stream, len(samples), options)), begins)
    tally.check(f"{what}: offsets of all", list(aecp.offsets(stream, None, options)), walk(stream, settings, None).begins)
    for place in sorted(chance.sample(range(len(begins)), min(INTERVALS, len(begins)))):
        bit, rest = begins[place], samples[place * size :]
        counts = {0, 1, len(rest), min(size, len(rest)), *(chance.randint(0, len(rest)) for _ in range(COUNTS))}
        for count in sorted(counts):
            here = f"{what}: {count} samples from interval {place} on, bit {bit}"
            tally.check(here, found_from(aecp, stream, options, bit, count), settings.stored(rest[:count]))
            cut = found_from(aecp, stream[bit // 8 :], options, bit % 8, count)
            tally.check(f"{here}, without the bytes before it", cut, settings.stored(rest[:count]))
        all_from = wanted_from(stream, settings, bit, None)
        tally.check(f"{what}: all from interval {place} on", found_from(aecp, stream, options, bit, None), all_from)
    end = 8 * len(stream)
    for bit in {0, end, end + 1, end + 8, 2**64 - 1, chance.randint(0, end), chance.randint(0, end)}:
        count = chance.choice([None, 1, size, len(samples)])
        wanted = wanted_from(stream, settings, bit, count)
        tally.check(f"{what}: {count} samples from bit {bit} on", found_from(aecp, stream, options, bit, count), wanted)


def try_offsets(aecp: Any, seed: int, number: int, tally: Tally) -> None:
    """Tests random samples, in a stream of the plain coder and in one that another coder might write."""
    chance = random.Random(f"offsets {seed} {number}")
    settings = some_settings(chance)
    samples, what = some_samples(settings, chance), f"offsets {seed} {number}, {settings}"
    try_stream(aecp, plain_coder.stream(samples, settings), samples, settings, chance, what, tally)
    if samples:
        foreign = foreign_writer.stream(samples, settings, chance)
        try_stream(aecp, foreign, samples, settings, chance, f"{what}, foreign", tally)


def try_offset_arguments(aecp: Any, tally: Tally) -> None:
    """Tests what the module takes and refuses beside a stream: `out`, bits and counts."""
    options, samples = aecp.Options(8, 8, 2), bytes(range(40))
    coded = aecp.encode(samples, options)
    begins = aecp.offsets(coded, 40, options)
    tally.check("offsets: type", (type(begins).__name__, begins.typecode), ("array", "Q"))
    out = bytearray(b"\xa5" * 10)
    filled = aecp.decode_bytes_at(coded, begins[1], 8, options, out)
    tally.check("decode_bytes_at: out", (bytes(filled), bytes(out)), (samples[16:24], samples[16:24] + b"\xa5\xa5"))
    short = raised(lambda: aecp.decode_bytes_at(coded, begins[1], 11, options, out))
    tally.check("decode_bytes_at: short out", (type(short), bytes(out[8:])), (aecp.NoRoom, b"\xa5\xa5"))
    far = raised(lambda: aecp.decode_bytes_at(coded, 8 * len(coded) + 1, 1, options))
    tally.check("BitRefused", (type(far), far.bits, far.number), (aecp.BitRefused, 8 * len(coded), 20))
    tally.holds(isinstance(far, IndexError), "BitRefused is no IndexError")
    for bit in (-1, 2**64):
        wrong = raised(lambda: aecp.decode_bytes_at(coded, bit, 1, options))
        tally.check(f"bit {bit}", str(wrong), "bit must be 0 to 2^64 - 1")
    tally.holds(isinstance(raised(lambda: aecp.decode_bytes_at(coded, 1.0, 1, options)), TypeError), "bit 1.0 is taken")
    many = raised(lambda: aecp.offsets(coded, 2**32 + 1, options))
    tally.check("offsets of too many", (type(many), many.limit), (aecp.LimitPassed, 2**32))
    cut = raised(lambda: aecp.offsets(coded[:-1], 40, options))
    tally.check("offsets of a cut stream", (type(cut), cut.bit), (aecp.StreamRefused, begins[2]))
