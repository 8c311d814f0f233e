"""A plain coder of samples: docs/FORMAT.md, sections 8 to 11, in other words than the definitions and the code.

It shares nothing with the project's code. It measures each option of each block, and takes the first of the shortest.
"""

from lib.spelling import blocks_of, bytes_of_bits, length, options_of, run, spelled


def block_bits(block, settings):
    """Returns the code of a block that isn't all zeros, by the shortest option."""
    option = min(options_of(settings), key=lambda option: length(option, block, settings))
    return spelled(option, block, settings)


def run_number(blocks, reaches_end):
    """Returns the number that a run of so many blocks is written with."""
    if blocks <= 4:
        return blocks - 1
    return 4 if reaches_end else blocks


def interval_bits(samples, settings):
    blocks, place, text = blocks_of(samples, settings), 0, ""
    while place < len(blocks):
        end = min(place - place % 64 + 64, len(blocks))
        zeros = 0
        while place + zeros < end and blocks[place + zeros].is_zero():
            zeros += 1
        if zeros:
            text += run(blocks[place], run_number(zeros, place + zeros == end), settings)
        else:
            text += block_bits(blocks[place], settings)
        place += zeros or 1
    return text + "0" * (-len(text) % 8 if settings.pad else 0)


def stream(samples, settings):
    size = settings.interval_len()
    intervals = (samples[first : first + size] for first in range(0, len(samples), size))
    return bytes_of_bits("".join(interval_bits(interval, settings) for interval in intervals))
