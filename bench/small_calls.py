#!/usr/bin/env python3
"""Compares the instructions of small calls of two libraries: small_calls.py FOLDER [SIZES]

Counts with callgrind the instructions of one call of libaecp.a of FOLDER and of libaec's library, from buffer to buffer in one
process, after two calls of the same. The calls code and decode 64 bytes to 4 KiB of a walk, or the first SIZES of seven sizes up
to 64 MiB. Prints libaec's instructions divided by ours, in a table of coding and one of decoding with a column for each block and
interval, and how many cells are below 1.5. Tests nothing. Needs valgrind and its headers, and libaec's header and library.
"""

import glob
import os
import re
import subprocess
import sys
import tempfile

from library import HERE

LEAST = 1.5
COLUMNS = [(block, interval) for block in (8, 16, 32) for interval in (1, 2, 128)]


def counts(library, sizes):
    """Returns the instructions of each measured call, by the numbers in the name of its dump."""
    found = {}
    with tempfile.TemporaryDirectory() as folder:
        program, out = os.path.join(folder, "small_calls"), os.path.join(folder, "out")
        words = ["cc", "-O2", "-I", os.path.join(HERE, "..", "bindings", "c"), "-o", program, os.path.join(HERE, "small_calls.c")]
        subprocess.run([*words, os.path.join(library, "libaecp.a"), "-laec"], check=True)
        tool = ["valgrind", "-q", "--tool=callgrind", f"--callgrind-out-file={out}"]
        subprocess.run([*tool, program, str(sizes)], check=True, stderr=subprocess.DEVNULL)
        for path in glob.glob(out + ".*"):
            with open(path, encoding="utf-8") as file:
                text = file.read()
            name = re.search(r"(?m)^desc: Trigger: Client Request: (.*)$", text)
            if name:
                found[tuple(map(int, name[1].split()))] = int(re.search(r"(?m)^(?:totals|summary): (\d+)", text)[1])
    return found


def main():
    found = counts(sys.argv[1], int(sys.argv[2]) if len(sys.argv) > 2 else 4)
    sizes = sorted({key[0] for key in found})
    low = 0
    for is_coding, direction in ((1, "Coding"), (0, "Decoding")):
        print(f"\n| {direction} | n | {' | '.join(f'J {block} r {interval}' for block, interval in COLUMNS)} |")
        print("|---" * (len(COLUMNS) + 2) + "|")
        for size in sizes:
            for bits in (8, 16, 32):
                keys = [(size, bits, *column, is_coding) for column in COLUMNS]
                ratios = [found[(*key, 0)] / found[(*key, 1)] for key in keys]
                low += sum(ratio < LEAST for ratio in ratios)
                print(f"| {size} bytes | {bits} | {' | '.join(f'{ratio:.2f}' for ratio in ratios)} |")
    print(f"\n{low} of {2 * len(sizes) * 3 * len(COLUMNS)} are below {LEAST}")


if __name__ == "__main__":
    main()
