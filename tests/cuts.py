#!/usr/bin/env python3
"""Tests coded data that is cut: cuts.py PATH_OF_AEC

Codes samples with the program at PATH_OF_AEC, cuts the coded data after each byte, decodes every cut with the program, with a
count and without, and compares bytes, status and message with the plain reader of plain_reader.py.

Without a count a cut isn't noticed if all bits after the last whole coded data set are zero: the result is then the samples so
far, with status 0. With a count, each cut is noticed that removes a coded data set which the count needs.

Prints the cuts that differ and, last, how many checks passed. Ends with status 1 if one failed.
"""

import sys
import tempfile

from lib.plain_reader import Fault, reading
from lib.program import Program, Tally, said
from lib.settings import Settings

# Samples of 8 bits, and their settings: zeros between others, so that cuts fall before zero bits and within data.
ZEROS = [0] * 8
RAMP = list(range(8))
STEPS = [x * 37 % 256 for x in range(40)]
CASES = [
    (ZEROS * 12, Settings()),
    (ZEROS * 4 + [1] + ZEROS * 5, Settings()),
    (RAMP + ZEROS * 6 + RAMP + [7] * 24, Settings()),
    (RAMP + ZEROS * 6 + RAMP + [7] * 24, Settings(pad=True)),
    (STEPS + ZEROS * 7 + STEPS, Settings()),
    (STEPS + ZEROS * 7 + STEPS, Settings(preprocess=False, interval=70)),
    (ZEROS * 66 + RAMP + ZEROS * 5 + [255] + ZEROS * 9, Settings(interval=128)),
    (ZEROS * 66 + RAMP + ZEROS * 5 + [255] + ZEROS * 9, Settings(preprocess=False, interval=128)),
    (STEPS * 4 + [200] * 300 + STEPS, Settings(block_size=16, interval=5)),
    (STEPS * 4 + [200] * 300 + STEPS, Settings(block_size=64, interval=3, pad=True)),
    (STEPS + ZEROS * 7 + STEPS, Settings.of_blocks(10, preprocess=False, interval=5)),
    (STEPS + [200] * 70 + STEPS, Settings.of_blocks(12, interval=3, pad=True)),
    (RAMP * 4 + ZEROS * 12 + STEPS, Settings.of_blocks(14, interval=128)),
    (STEPS * 4 + [200] * 300 + STEPS, Settings.of_blocks(62, interval=5)),
]


def wanted_answer(stream, settings, count):
    """Returns status, message and DEST of decoding, by the plain reader."""
    try:
        return (*said(None), settings.stored(reading(stream, settings, count)))
    except Fault as fault:
        return (*said(str(fault)), None)


def try_cut(program, tally, length, coded, settings, count):
    """Tests coded data cut after so many bytes. Returns whether the cut isn't noticed."""
    words = ["-d", *settings.options(), *([] if count is None else ["--count", str(count)])]
    wanted = wanted_answer(coded[:length], settings, count)
    program.write("source", coded[:length])
    program.write("dest", None)
    answer = (*program.run(*words, "source", "dest"), program.read("dest"))
    what = f"{' '.join(words)}: cut after {length} of {len(coded)} bytes"
    if length == len(coded) and wanted[0] != 0:
        tally.holds(False, f"{what}: what is whole has no reading")
    else:
        tally.check(what, answer, wanted)
    return count is None and length < len(coded) and wanted[0] == 0


def main():
    tally, unseen = Tally(), 0
    with tempfile.TemporaryDirectory() as folder:
        program = Program(sys.argv[1], folder)
        for samples, settings in CASES:
            coded = program.answer(settings.options(), settings.stored(samples))
            for length in range(len(coded) + 1):
                for count in (None, len(samples)):
                    unseen += try_cut(program, tally, length, coded, settings, count)
    print(f"{unseen} cuts are not seen without a count: zero bits alone are left")
    tally.print()
    return 1 if tally.failed else 0


if __name__ == "__main__":
    sys.exit(main())
