#!/usr/bin/env python3
"""Compares two programs on long inputs: two_programs_long.py PATH_OF_AEC PATH_OF_ANOTHER [--seed N] [--cases N] [--only N]

As two_programs.py, with 1,000 to 40,000 samples a case, so that what is done for several blocks or intervals at once is done often:
  - coding of the samples;
  - decoding of their stream, whole, with bits turned, and cut, without a count and with the true one; of the whole stream also with
    other counts;
  - a range of the stream, a script of edits on it, and one of many overwrites, in order or not.
"""

import sys
from itertools import accumulate

from lib import script_cases
import two_programs
from lib.damaged_cases import turned
from lib.settings import Settings

WIDTHS = [1, 2, 3, 4, 5, 8, 8, 10, 12, 13, 16, 16, 16, 20, 24, 25, 27, 31, 32, 32]
BLOCK_SIZES = [8, 8, 8, 16, 16, 32, 64, 64]
INTERVALS = [1, 2, 3, 5, 8, 64, 65, 128, 4096]
COUNTS = [1000, 5003, 20011, 40000]
STRETCH = 500  # samples of one kind in a row, if kinds change
CASES = 500


def noise(bits, chance, count):
    return [chance.getrandbits(bits) for _ in range(count)]


def walk(bits, chance, count):
    """Returns a walk that wraps around at both ends."""
    reach = chance.choice([1, 3, 40, 1000])
    return [x & (1 << bits) - 1 for x in accumulate(chance.randint(-reach, reach) for _ in range(count))]


def rare(bits, chance, count):
    """Returns zeros, with some other samples among them."""
    share = chance.choice([0.001, 0.01, 0.1])
    return [chance.getrandbits(bits) if chance.random() < share else 0 for _ in range(count)]


def level(bits, chance, count):
    """Returns samples a little above the middle, and outliers."""
    most, reach = (1 << bits) - 1, chance.choice([2, 20, 300])
    return [chance.getrandbits(bits) if chance.random() < 0.01 else min((most >> 1) + chance.randrange(reach), most) for _ in range(count)]


def still(bits, chance, count):
    """Returns samples that stay for a while."""
    return [x for x in noise(bits, chance, count // 50 + 1) for _ in range(50)][:count]


def changing(bits, chance, count):
    """Returns noise and small ramps in turn."""
    ramp = [min(i % 7, (1 << bits) - 1) for i in range(STRETCH)]
    parts = [noise(bits, chance, STRETCH) if i % 2 else ramp for i in range(-(-count // STRETCH))]
    return [x for part in parts for x in part][:count]


KINDS = [noise, walk, rare, level, still, changing]


def some_samples(settings, chance):
    patterns = chance.choice(KINDS)(settings.bits, chance, chance.choice(COUNTS))
    return [settings.least() + x for x in patterns]


def many_overwrites(settings, count, chance):
    """Returns overwrites of one to three samples, in the order of their places or not; some have samples in common."""
    places = [chance.randrange(count - 2) for _ in range(chance.choice([50, 300]))]
    places = sorted(places) if chance.random() < 0.3 else places
    values = [[chance.randint(settings.least(), settings.most()) for _ in range(chance.randint(1, 3))] for _ in places]
    return "".join(f"overwrite {place} {' '.join(map(str, it))}\n" for place, it in zip(places, values)).encode()


def some_jobs(chance, number, other):
    """Yields the jobs of a case, as in two_programs.py. The other program codes the stream."""
    settings = Settings.by_chance(chance, WIDTHS, BLOCK_SIZES, INTERVALS, restricted=0.1)
    samples = some_samples(settings, chance)
    options, count, stored = settings.options(), len(samples), settings.stored(samples)
    yield options, stored, b""
    stream = other.answer(options, stored)
    assert stream is not None, f"{options}: {other.said}"
    flipped = turned(stream, chance, 3)
    for coded in (stream, turned(stream, chance, 2), flipped[: chance.randrange(len(flipped))]):
        yield ["-d", *options], coded, b""
        yield ["-d", "--count", str(count), *options], coded, b""
    for wanted in (count - chance.randrange(300), count + 1):
        yield ["-d", "--count", str(wanted), *options], stream, b""
    first = chance.randint(0, count)
    yield ["--range", f"{first}:{chance.randint(0, count - first)}", *options], stream, b""
    edit = ["--edit", "script", "--count", str(count), *options]
    yield edit, stream, script_cases.some_script(settings, count, chance, number)
    yield edit, stream, many_overwrites(settings, count, chance)


if __name__ == "__main__":
    sys.exit(two_programs.main(some_jobs, CASES))
