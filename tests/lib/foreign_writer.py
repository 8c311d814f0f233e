"""Streams as another coder might write them: lawful streams by any choices, not only the shortest, and unlawful streams.

Any option may write a block, also a zero block. Zero blocks may be split into any runs. The remainder code may write any run that
ends its segment. A run at the end may continue past the samples. The first member of a reference pair may be any number. With
padding, the bits between two intervals may be any bits.
"""

from lib.spelling import Block, blocks_of, bytes_of_bits, length, options_of, run, spelled

MOST_BITS = 1200  # of a coded data set, unless it is no compression


def single(block, settings, chance):
    """Returns the block in a random option that doesn't take too many bits, None if there is none."""
    ignored = chance.choice([0, 0, 1, 9])
    near = max(block.values).bit_length() - chance.randint(0, 3)
    options = [option for option in ("plain", "extension", near, chance.randint(0, 29)) if option in options_of(settings)]
    chance.shuffle(options)
    for option in options:
        if option == "plain" and max(block.values) < 2**settings.bits:
            return spelled(option, block, settings)
        if option != "plain" and length(option, block, settings, ignored) <= MOST_BITS:
            return spelled(option, block, settings, ignored)
    return None


def some_run(block, zeros, left, is_end, settings, chance):
    """Returns a run that begins with that block, and its number of blocks: at most `zeros`, the number of zero blocks. At the end of
    the samples the run may continue to the end of the segment, which has `left` blocks left."""
    most = left if is_end and chance.random() < 0.5 else zeros
    blocks = chance.choice([chance.randint(1, most), most])
    number = blocks - 1 if blocks <= 4 else blocks
    if blocks == left and chance.random() < 0.5:
        number = 4
    return run(block, number, settings), blocks


def unlawful(block, left, settings, chance):
    """Returns a coded data set with a value that is too large, or with a run that is too long."""
    values = list(block.values)
    values[chance.randrange(len(values))] = 2**settings.bits + chance.randint(0, 2)
    too_large = single(Block(block.pattern, values), settings, chance)
    if too_large and chance.random() < 0.6:
        return too_large
    blocks = left + chance.choice([1, 1, 2, 60])
    return run(block, blocks - 1 if blocks <= 4 else blocks, settings)


def interval_bits(samples, settings, chance, is_last, bad_block):
    """Returns the code of one interval, and its number of blocks. One block may be written unlawfully."""
    blocks, place, parts = blocks_of(samples, settings), 0, []
    while place < len(blocks):
        left = min(64 - place % 64, settings.interval - place)
        here = blocks[place : place + left]
        zeros = next((i for i, block in enumerate(here) if not block.is_zero()), len(here))
        stands_for = 1
        if place == bad_block:
            text = unlawful(blocks[place], left, settings, chance)
        elif zeros and chance.random() < 0.85:
            is_end = is_last and place + zeros == len(blocks)
            text, stands_for = some_run(blocks[place], zeros, left, is_end, settings, chance)
        else:
            text = single(blocks[place], settings, chance)
        parts.append(text)
        place += stands_for
    return "".join(parts), place


def stream(samples, settings, chance, bad_block=None):
    """Returns the bytes of a random stream of the samples. Writes the block `bad_block` of the whole stream unlawfully."""
    bits, size = "", settings.interval_len()
    for first in range(0, len(samples), size):
        is_last = first + size >= len(samples)
        bad = None if bad_block is None else bad_block - first // settings.block_size
        text, blocks = interval_bits(samples[first : first + size], settings, chance, is_last, bad)
        bits += text
        if settings.pad and blocks >= settings.interval:
            free = chance.random() < 0.5
            bits += "".join(chance.choice("01") if free else "0" for _ in range(-len(bits) % 8))
    return bytes_of_bits(bits)
