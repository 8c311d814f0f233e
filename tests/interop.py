#!/usr/bin/env python3
"""Tests two programs with one format: interop.py PATH_OF_AEC

Codes generated samples with the program at PATH_OF_AEC ('ours') and with the command-line client of libaec ('theirs',
of Debian's package libaec-tools), and checks for each case that
  - ours decodes their stream to the samples,
  - theirs decodes our stream to the samples,
  - our stream is never the longer one.
For block sizes that need `--even-blocks`, only the second is checked: their decoder accepts these sizes, but their
coder refuses them. The expected samples are the generated ones, so neither program is judged by itself. Only the
lengths of streams are compared, since the two programs may choose differently where options tie. A stream has no
sample count, and each program adds filler after the samples, so only the first samples are compared. Theirs ends with
status 0 for cut streams too, so it is judged by what it writes. Padded intervals are left out: each program has its
own rule for -p.

The environment variable LIBAEC names libaec's client if it isn't /usr/bin/aec. Without the client all checks are
skipped, with status 0. Prints the checks that fail and, last, how many passed. Ends with status 1 if one failed.
"""

import os
import random
import subprocess
import sys
import tempfile
from typing import NamedTuple

from lib.program import Program, Tally
from lib.settings import EVEN_BLOCK_SIZES, STANDARD_BLOCK_SIZES, Settings

WIDTHS = [1, 2, 3, 4, 5, 7, 8, 9, 12, 16, 17, 20, 24, 25, 31, 32]
INTERVALS = [1, 2, 3, 63, 64, 65, 128, 200, 4096]
# Lengths of runs of zero blocks, around the limits of the run codes and of a segment of 64 blocks.
RUNS = [1, 2, 3, 4, 5, 6, 7, 62, 63, 64, 65, 127, 128, 129]


class Case(NamedTuple):
    """What one round trip is made with."""

    kind: str
    settings: Settings
    cut: int  # samples that the last block lacks


# Each kind of samples: a function of the least and greatest sample, the block size and a source of chance.


def none(least, most, block, chance):
    return []


def one_block(least, most, block, chance):
    return [chance.randint(least, most) for _ in range(block)]


def zeros(least, most, block, chance):
    return [0] * (150 * block)


def greatest(least, most, block, chance):
    return [most] * (70 * block)


def zero_runs(least, most, block, chance):
    """Returns runs of zero blocks of many lengths, in random order, with one block of another kind after each."""
    samples = []
    for length in chance.sample(RUNS, len(RUNS)):
        samples += [0] * (length * block)
        samples += [most if i % 3 == 1 else 0 for i in range(block)]
    return samples


def ramp(least, most, block, chance):
    return [least + i % (most - least + 1) for i in range(20 * block)]


def steps(least, most, block, chance):
    """Returns a walk by steps of at most one, kept in range: for the coder mostly zeros and ones."""
    samples, x = [], (least + most) // 2
    for _ in range(40 * block):
        x = min(max(x + chance.choice([-1, 0, 0, 0, 0, 0, 0, 1]), least), most)
        samples.append(x)
    return samples


def noise(shift):
    """Returns a function for noise around the middle of the range, with `shift` bits less than the range, but at least one."""

    def make(least, most, block, chance):
        reach = max((most - least) >> shift, 1)
        first = (least + most - reach) // 2
        return [chance.randint(max(first, least), min(first + reach, most)) for _ in range(20 * block)]

    return make


def extremes(least, most, block, chance):
    return [chance.choice([least, most]) for _ in range(12 * block)]


def alternating(least, most, block, chance):
    return [least if i % 2 == 0 else most for i in range(9 * block)]


def sparse(least, most, block, chance):
    """Returns zeros with a few greater values: the second extension, low k, and short runs."""
    spikes = [1 if most > 0 else 0, min(3, most), most, least]
    return [chance.choice(spikes) if chance.random() < 0.03 else 0 for _ in range(120 * block)]


def growing_noise(least, most, block, chance):
    """Returns noise of one bit, then two, up to the whole range: every k in turn."""
    samples = []
    for bits in range(1, (most - least).bit_length() + 1):
        samples += [chance.randint(0, (1 << bits) - 1) + least for _ in range(4 * block)]
    return [min(x, most) for x in samples]


KINDS = {
    "no samples": none,
    "one block": one_block,
    "zeros": zeros,
    "greatest": greatest,
    "zero runs": zero_runs,
    "ramp": ramp,
    "steps": steps,
    "small noise": noise(6),
    "half noise": noise(1),
    "full noise": noise(0),
    "extremes": extremes,
    "alternating": alternating,
    "sparse": sparse,
    "growing noise": growing_noise,
}


def cases(chance):
    """Yields each width with each block size, sign, preprocessing and kind of samples. All else is random."""
    for bits in WIDTHS:
        for block_size in STANDARD_BLOCK_SIZES:
            for number in range(4):
                for kind in KINDS:
                    settings = Settings(
                        bits,
                        block_size,
                        chance.choice(INTERVALS),
                        signed=number % 2 == 1,
                        preprocess=number < 2,
                        msb_first=chance.random() < 0.5,
                        three_byte=17 <= bits <= 24 and chance.random() < 0.5,
                        restricted=bits <= 4 and chance.random() < 0.5,
                    )
                    yield Case(kind, settings, cut=chance.choice([0, 0, 1, block_size // 2, block_size - 1]))


def even_cases(chance):
    """Yields two cases for each other even block size and kind of samples. All else is random."""
    for block_size in EVEN_BLOCK_SIZES:
        for kind in KINDS if block_size not in STANDARD_BLOCK_SIZES else []:
            for _ in range(2):
                settings = Settings.by_chance(chance, WIDTHS, [block_size], INTERVALS, restricted=0.2)
                settings = settings._replace(block_size=block_size, even_blocks=True, pad=False)
                yield Case(kind, settings, cut=chance.choice([0, 0, 1, block_size // 2, block_size - 1]))


def agrees(read, *wanted):
    """Returns whether what was read begins with one of the wanted bytes, and is empty if these are empty."""
    return read is not None and any(read[: len(it)] == it and bool(it) >= bool(read) for it in wanted)


def try_case(case, chance, ours, theirs, tally):
    settings = case.settings
    options, their_options = settings.options(), settings._replace(even_blocks=False).options()
    samples = KINDS[case.kind](settings.least(), settings.most(), settings.block_size, chance)
    samples = samples[: len(samples) - case.cut]
    # unused bits: both programs accept zeros; decoding writes copies of the sign in ours, and copies or zeros in theirs
    given, signed = settings.stored(samples, settings.bits), settings.stored(samples)

    def check(is_so, what):
        tally.holds(is_so, f"{what}: {' '.join(options)}: {case.kind}, {case.cut} short of a block")

    our_stream = ours.answer(options, given)
    check(our_stream is not None, f"ours codes ({ours.said})")
    read = theirs.answer(["-d", *their_options], our_stream or b"")
    check(agrees(read, given, signed), f"theirs reads ours ({theirs.said})")
    if settings.even_blocks:
        return

    their_stream = theirs.answer(their_options, given)
    check(their_stream is not None, f"theirs codes ({theirs.said})")
    read = ours.answer(["-d", *options], their_stream or b"")
    check(agrees(read, signed), f"ours reads theirs ({ours.said})")
    lengths = len(our_stream or b""), len(their_stream or b"")
    check(lengths[0] <= lengths[1], f"ours is no longer ({lengths[0]} and {lengths[1]} bytes)")


def is_theirs(path):
    """Returns whether the file is the client of libaec, and no other program of that name."""
    if not os.path.exists(path):
        return False
    said = subprocess.run([path, "-h"], capture_output=True).stderr
    return b"Adaptive Entropy Coding" in said


def main():
    path = os.environ.get("LIBAEC", "/usr/bin/aec")
    tally = Tally()
    chance = random.Random(121)
    listed = [*cases(chance), *even_cases(chance)]
    if not is_theirs(path):
        tally.print(len(listed), f"libaec-tools isn't installed: no client of libaec at {path}")
        return 0
    with tempfile.TemporaryDirectory() as folder:
        ours, theirs = Program(sys.argv[1], folder), Program(path, folder)
        for case in listed:
            try_case(case, chance, ours, theirs, tally)
    tally.print()
    return 1 if tally.failed else 0


if __name__ == "__main__":
    sys.exit(main())
