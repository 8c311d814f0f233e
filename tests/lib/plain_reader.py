"""A plain reader of streams: docs/FORMAT.md, sections 4 to 8 and 12, in other words than the definitions and the code.

It shares nothing with the project's code, and was written without looking at it. It is as plain as possible, and meant for short
streams. `reading` returns the samples of a stream, or raises `Fault` with the text that the program prints.
"""

from math import isqrt
from typing import NamedTuple, Optional

MOST_SAMPLES = 2**32  # the program's limit


class Fault(Exception):
    """Why there is no reading, as the program prints it after `aec: `."""


class End(Exception):
    """The bits end within a coded data set."""


class Bits:
    """The bits of a stream, taken from the front."""

    def __init__(self, stream):
        self.text = "".join(f"{byte:08b}" for byte in stream)
        self.at = 0

    def binary(self, width):
        text = self.text[self.at : self.at + width]
        if len(text) < width:
            raise End
        self.at += width
        return int(text, 2) if width else 0

    def fundamental(self):
        one = self.text.find("1", self.at)
        if one < 0:
            raise End
        number, self.at = one - self.at, one + 1
        return number

    def rest_is_zero(self):
        return self.text.find("1", self.at) < 0

    def skip_to_byte(self):
        while self.at % 8 != 0 and self.at < len(self.text):
            self.at += 1


class DataSet(NamedTuple):
    """A coded data set: its reference sample's pattern, and either the values of one block or the number of a run."""

    pattern: Optional[int]
    values: Optional[list]
    run: Optional[int]


def identifier_length(settings):
    """Returns L, the basic length of an identifier."""
    if settings.restricted:
        return 1 if settings.bits <= 2 else 2
    return 3 if settings.bits <= 8 else 4 if settings.bits <= 16 else 5


def pair(number):
    """Returns the members (a, b) of the pair with that number, (a + b) * (a + b + 1) / 2 + b."""
    total = (isqrt(8 * number + 1) - 1) // 2
    second = number - total * (total + 1) // 2
    return [total - second, second]


def coded_data_set(bits, settings, is_reference):
    """Returns the coded data set that begins at the current bit, without checking it."""
    length, missing = identifier_length(settings), 1 if is_reference else 0
    option = bits.binary(length)
    is_extension = option == 0 and bits.binary(1) == 1
    pattern = bits.binary(settings.bits) if is_reference else None
    written = settings.block_size - missing
    if is_extension:
        members = [member for _ in range(settings.block_size // 2) for member in pair(bits.fundamental())]
        return DataSet(pattern, members[missing:], None)
    if option == 0:
        return DataSet(pattern, None, bits.fundamental())
    if option == 2**length - 1:
        return DataSet(pattern, [bits.binary(settings.bits) for _ in range(written)], None)
    low_bits = option - 1
    high = [bits.fundamental() for _ in range(written)]
    return DataSet(pattern, [number * 2**low_bits + bits.binary(low_bits) for number in high], None)


def sample_of_pattern(pattern, settings):
    """Returns the sample with that two's complement."""
    return pattern - 2**settings.bits if settings.signed and pattern > settings.most() else pattern


def sample(value, before, settings):
    """Returns the sample with that mapped value, predicted by the sample before it."""
    if not settings.preprocess:
        return sample_of_pattern(value, settings)
    below, above = before - settings.least(), settings.most() - before
    within = min(below, above)
    if value <= 2 * within:
        return before + value // 2 if value % 2 == 0 else before - (value + 1) // 2
    beyond = value - within
    return before + beyond if above > below else before - beyond


def run_blocks(number, left):
    """Returns how many blocks the run with that number has, if its segment has `left` blocks left."""
    return {0: 1, 1: 2, 2: 3, 3: 4, 4: left}.get(number, number)


def block_samples(found, blocks, before, settings):
    """Returns the samples of a coded data set of so many blocks."""
    first = [] if found.pattern is None else [sample_of_pattern(found.pattern, settings)]
    before = first[0] if first else before
    if found.values is None:
        still = before if settings.preprocess else 0
        return first + [still] * (blocks * settings.block_size - len(first))
    samples = []
    for value in found.values:
        before = sample(value, before, settings)
        samples.append(before)
    return first + samples


def next_samples(bits, settings, place, before):
    """Returns the number of blocks and the samples of the next coded data set, which begins at block `place` of its interval."""
    start = bits.at
    try:
        found = coded_data_set(bits, settings, settings.preprocess and place == 0)
    except End:
        raise Fault(f"coded data is cut short at bit {start}") from None
    if found.values is not None:
        if any(value > 2**settings.bits - 1 for value in found.values):
            raise Fault(f"value too large at bit {start}")
        return 1, block_samples(found, 1, before, settings)
    left = min(64 - place % 64, settings.interval - place)
    blocks = run_blocks(found.run, left)
    if blocks > left:
        raise Fault(f"zero run too long at bit {start}")
    return blocks, block_samples(found, blocks, before, settings)


def reading(stream, settings, count=None):
    too_many = Fault(f"more than {MOST_SAMPLES} samples")
    if count is not None and count > MOST_SAMPLES:
        raise too_many
    bits, samples, place = Bits(stream), [], 0
    while not bits.rest_is_zero() if count is None else len(samples) < count:
        blocks, more = next_samples(bits, settings, place, samples[-1] if samples else None)
        samples += more
        if count is None and len(samples) > MOST_SAMPLES:
            raise too_many
        place += blocks
        if place == settings.interval:
            place = 0
            if settings.pad:
                bits.skip_to_byte()
    return samples if count is None else samples[:count]
