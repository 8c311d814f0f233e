"""How blocks are spelled: docs/FORMAT.md, sections 3 to 8 and 13, in other words than the definitions and the code.

It shares nothing with the project's code. An option of a block is "plain" (no compression), "extension" (the second extension)
or a number k (sample splitting).
"""

from typing import NamedTuple, Optional

from lib.plain_reader import identifier_length


def fs(number):
    return "0" * number + "1"


def binary(number, width):
    return f"{number:0{width}b}" if width else ""


def bytes_of_bits(text):
    """Returns the bytes of a text of bits, the last byte filled with zeros."""
    text += "0" * (-len(text) % 8)
    return bytes(int(text[i : i + 8], 2) for i in range(0, len(text), 8))


def mapped(before, x, settings):
    """Returns the mapped value of a sample, by the table of section 4."""
    if not settings.preprocess:
        return x % 2**settings.bits
    d, t = x - before, min(before - settings.least(), settings.most() - before)
    if 0 <= d <= t:
        return 2 * d
    return 2 * -d - 1 if -t <= d < 0 else t + abs(d)


class Block(NamedTuple):
    """The written values of a block, and for a reference block the pattern of its reference sample."""

    pattern: Optional[int]
    values: list

    def is_zero(self):
        return not any(self.values)


def blocks_of(samples, settings):
    """Returns the blocks of the samples of one interval, the last block filled with copies of the last sample."""
    size, blocks = settings.block_size, []
    filled = samples + [samples[-1]] * (-len(samples) % size)
    for first in range(0, len(filled), size):
        is_reference = settings.preprocess and first == 0
        places = range(first + 1 if is_reference else first, first + size)
        pattern = filled[0] % 2**settings.bits if is_reference else None
        blocks.append(Block(pattern, [mapped(filled[i - 1], filled[i], settings) for i in places]))
    return blocks


def options_of(settings):
    """Returns the options in order: the coder takes the first of the shortest."""
    return ["plain", "extension", *range(2 ** identifier_length(settings) - 2)]


def pair_numbers(block, ignored=0):
    """Returns the numbers of a block's pairs. In a reference block, `ignored` is the first member of the first pair."""
    members = block.values if block.pattern is None else [ignored, *block.values]
    return [(a + b) * (a + b + 1) // 2 + b for a, b in zip(members[::2], members[1::2])]


def length(option, block, settings, ignored=0):
    """Returns the number of bits of a block in that option, by the table of section 13."""
    front = identifier_length(settings) + (0 if block.pattern is None else settings.bits)
    if option == "plain":
        return front + len(block.values) * settings.bits
    if option == "extension":
        return front + 1 + sum(number + 1 for number in pair_numbers(block, ignored))
    return front + sum((value >> option) + 1 + option for value in block.values)


def identifier_and_reference(option, block, settings):
    """Returns what a block's coded data set begins with. The option of a run is "zero"."""
    basic = identifier_length(settings)
    identifiers = {"zero": "0" * (basic + 1), "extension": "0" * basic + "1", "plain": "1" * basic}
    identifier = identifiers.get(option) or binary(option + 1, basic)
    return identifier + ("" if block.pattern is None else binary(block.pattern, settings.bits))


def spelled(option, block, settings, ignored=0):
    """Returns the code of a block in that option."""
    front = identifier_and_reference(option, block, settings)
    if option == "plain":
        return front + "".join(binary(value, settings.bits) for value in block.values)
    if option == "extension":
        return front + "".join(map(fs, pair_numbers(block, ignored)))
    low = "".join(binary(value % 2**option, option) for value in block.values)
    return front + "".join(fs(value >> option) for value in block.values) + low


def run(block, number, settings):
    """Returns the code of a run of zero blocks that begins with this block and is written with that number."""
    return identifier_and_reference("zero", block, settings) + fs(number)
