"""Random streams, and damage to them: turned bits, bytes lost, replaced or added, plain random bytes."""

from typing import NamedTuple

from lib import foreign_writer
from lib.settings import Settings

WIDTHS = [1, 2, 3, 5, 7, 8, 8, 9, 12, 16, 17, 20, 24, 31, 32]
BLOCK_SIZES = [8, 8, 8, 16, 32, 64]
INTERVALS = [1, 2, 3, 8, 63, 64, 65, 70, 130, 4096]
RUNS = [1, 2, 3, 4, 5, 6, 7, 20, 62, 63, 64, 65, 130]


class Damaged(NamedTuple):
    """A stream of some samples, and the same stream damaged."""

    settings: Settings
    samples: list
    whole: bytes  # a lawful stream of the samples
    kind: str
    stream: bytes


def some_settings(chance):
    return Settings.by_chance(chance, WIDTHS, BLOCK_SIZES, INTERVALS, restricted=0.2)


def some_samples(settings, chance):
    """Returns stretches of equal samples, of as many blocks as test the run codes and segments, and other stretches."""
    least, most, size = settings.least(), settings.most(), settings.block_size
    samples = []
    for _ in range(chance.randint(1, 6)):
        nature = chance.randrange(4)
        if nature == 0:
            still = samples[-1] if samples and settings.preprocess else 0
            samples += [still] * (chance.choice(RUNS if size < 16 else RUNS[:8]) * size)
        elif nature == 1:
            samples += [chance.randint(least, most) for _ in range(size)]
        elif nature == 2:
            reach = chance.choice([1, 2, 5, 30, 300])
            for _ in range(2 * size):
                before = samples[-1] if samples else 0
                samples.append(min(max(before + chance.randint(-reach, reach), least), most))
        else:
            samples += [most if chance.random() < 0.1 else 0 for _ in range(size)]
    return samples[: len(samples) - chance.choice([0, 0, 1, size // 2, size - 1])]


def turned(stream, chance, bits):
    out = bytearray(stream)
    for _ in range(bits if out else 0):
        place = chance.randrange(8 * len(out))
        out[place // 8] ^= 128 >> place % 8
    return bytes(out)


def random_bytes(chance):
    data = chance.randbytes(chance.randint(0, 60))
    for _ in range(chance.randrange(4)):
        data = bytes(a & b for a, b in zip(data, chance.randbytes(len(data))))
    return data


def unlawful(settings, samples, chance):
    """Returns a stream of the samples in which one block is written unlawfully."""
    bad_block = chance.randrange(-(-len(samples) // settings.block_size))
    return foreign_writer.stream(samples, settings, chance, bad_block)


def damage(settings, samples, whole, chance):
    """Damages a stream at random. Returns the kind of damage and the bytes."""
    place = chance.randint(0, len(whole))
    some = chance.randbytes(chance.randint(1, 3))
    kinds = {
        "nothing": lambda: whole,
        "one bit turned": lambda: turned(whole, chance, 1),
        "some bits turned": lambda: turned(whole, chance, chance.randint(2, 6)),
        "cut": lambda: whole[:place],
        "the front lost": lambda: whole[place:],
        "bytes replaced": lambda: whole[:place] + some + whole[place + len(some) :],
        "a byte lost": lambda: whole[:place] + whole[place + 1 :],
        "bytes put in": lambda: whole[:place] + some + whole[place:],
        "bytes appended": lambda: whole + chance.choice([bytes(len(some)), some]),
        "zeros from a place on": lambda: whole[:place] + bytes(len(whole) - place),
        "a block written unlawfully": lambda: unlawful(settings, samples, chance),
        "bytes of chance": lambda: random_bytes(chance),
    }
    weights = [2, 4, 2, 3, 1, 2, 1, 1, 2, 1, 4, 3]
    kind = chance.choices(list(kinds), weights)[0]
    return kind, kinds[kind]()


def some_damaged(chance):
    settings = some_settings(chance)
    samples = some_samples(settings, chance)
    whole = foreign_writer.stream(samples, settings, chance)
    return Damaged(settings, samples, whole, *damage(settings, samples, whole, chance))


def some_count(damaged, chance):
    """Returns a count for a stream: mostly the true one, else less, more, or more than possible."""
    true = len(damaged.samples)
    block = damaged.settings.block_size
    more = [true + 1, true + chance.randint(1, block), true + 70 * block, 2**32, 2**32 + 1, 2**64 - 1]
    less = [0, 1, max(true - 1, 0), chance.randint(0, true)]
    return chance.choice([true] * 12 + more + less)
