#!/usr/bin/env python3
"""Checks that the built program takes no more instructions than before: instructions_bounded.py PATH_OF_AEC [--measure]

Counts with `valgrind --tool=callgrind`, as bench/instructions.py does, the instructions a sample that the program takes, including its
start, to code generated samples and to decode the result. Fails if a count is more than 3 % above the one in MEASURED: a count is the
same in every run, so a higher one means that the program does more, or that the compiler no longer inlines a function.

Counts too, with `--tool=cachegrind`, the mispredicted branches a block in coding, without those of the program's start, in valgrind's
model of a processor. Fails if there are more than 10 % above MISPREDICTED: a test of a sample became a branch.

Counts how many times as many instructions a script of overwrites takes as an empty script. Fails if there are more than 10 % above
EDITED: overwrites are applied one by one where that takes longer than all together, or the other way round.

`--measure` prints new rows of the tables, for a change that takes fewer, or more for a good reason.

Prints the counts that fail and, last, how many checks passed. Ends with status 1 if one failed. Without valgrind all checks are skipped,
with status 0; if the variable CI is set, that is a failure.
"""

import os
import random
import shutil
import subprocess
import sys
import tempfile
from concurrent.futures import ThreadPoolExecutor

from lib.program import TOP, Tally

sys.path.insert(0, os.path.join(TOP, "bench"))
from bench import detector, mask, noise_8, ramp_with_noise, residues, walk
from instructions import STORAGE, counted, mispredicted

SAMPLES = 200_000
MOST_ABOVE = 1.03
MOST_MISPREDICTED_ABOVE = 1.1
MOST_EDITED_ABOVE = 1.1
SEED = 1


def zeros(chance):
    return bytes(2 * SAMPLES)


def patches(chance):
    samples = bytearray(detector(chance)[: 2 * SAMPLES])
    for place in range(0, len(samples), 64):
        samples[place + 32 : place + 64] = bytes(32)
    return bytes(samples)


# Each kind of samples: its bits, its other options, and the function that makes it.
INPUTS = {
    "detector": (16, [], detector),
    "zeros": (16, [], zeros),
    "patches": (16, [], patches),
    "walk": (32, ["-s"], walk),
    "ramp": (8, [], ramp_with_noise),
    "mask": (8, [], mask),
    "residues": (16, ["-s"], residues),
    "noise without prediction": (8, ["-N"], noise_8),
}

# The kind of samples, J and r; and the instructions a sample that the proved program took in coding and in decoding.
MEASURED = {
    ("detector", 8, 128): (48.9, 39.7),
    ("detector", 16, 128): (37.8, 33.4),
    ("detector", 64, 128): (34.5, 36.0),
    ("detector", 8, 2): (49.3, 40.1),
    ("detector", 8, 1): (50.2, 42.9),
    ("zeros", 8, 128): (18.7, 7.3),
    ("zeros", 8, 8): (19.4, 12.6),
    ("zeros", 8, 2): (21.8, 15.3),
    ("zeros", 8, 1): (25.2, 24.8),
    ("patches", 8, 1): (37.4, 42.9),
    ("walk", 16, 128): (42.4, 42.3),
    ("ramp", 8, 128): (48.0, 39.4),
    ("mask", 8, 2): (46.8, 38.6),
    ("mask", 16, 128): (43.5, 29.3),
    ("mask", 64, 128): (38.3, 29.5),
    ("residues", 8, 128): (54.5, 38.9),
    ("noise without prediction", 8, 128): (41.7, 25.9),
    ("noise without prediction", 16, 128): (31.1, 21.2),
}

# The kind of samples, J and r; and the branches of a block that are mispredicted in coding.
MISPREDICTED = {
    ("detector", 8, 128): 0.43,
    ("detector", 16, 128): 0.86,
    ("detector", 64, 128): 5.76,
    ("detector", 8, 2): 0.53,
}

# J, r, and the number of overwrites at scattered places of the detector's samples, in ascending order; and how many times as many
# instructions the proved program took as with an empty script.
EDITED = {
    (8, 2, 1_000): 1.20,
    (64, 64, 1_000): 2.33,
}


def prepared(cell, folder):
    """Writes the samples of a cell to a file. Returns the options of its jobs, and the path."""
    kind, block_size, interval = cell
    bits, more, made = INPUTS[kind]
    raw = os.path.join(folder, "raw")
    with open(raw, "wb") as file:
        file.write(made(random.Random(SEED))[: SAMPLES * STORAGE[bits]])
    return ["-n", str(bits), *more, "-j", str(block_size), "-r", str(interval)], raw


def instructions_of(path, cell):
    """Returns the instructions a sample that the program takes to code the samples of a cell, and to decode them."""
    with tempfile.TemporaryDirectory() as folder:
        options, raw = prepared(cell, folder)
        coded, back = (os.path.join(folder, name) for name in ("coded", "back"))
        coding = counted([path, *options, raw, coded])
        decoding = counted([path, "-d", *options, coded, back])
    return coding / SAMPLES, decoding / SAMPLES


def mispredicted_of(path, cell):
    """Returns the branches of a block that are mispredicted in coding the samples of a cell."""
    with tempfile.TemporaryDirectory() as folder:
        options, raw = prepared(cell, folder)
        coded = os.path.join(folder, "coded")
        more = mispredicted([path, *options, raw, coded]) - mispredicted([path, *options, "/dev/null", coded])
    return more * cell[1] / SAMPLES


def edited_of(path, cell):
    """Returns how many times as many instructions the overwrites of a cell take as an empty script."""
    block_size, interval, lines = cell
    places = sorted(random.Random(SEED).sample(range(SAMPLES), lines))
    with tempfile.TemporaryDirectory() as folder:
        options, raw = prepared(("detector", block_size, interval), folder)
        coded, script, edited = (os.path.join(folder, name) for name in ("coded", "script", "edited"))
        subprocess.run([path, *options, raw, coded], check=True)
        counts = []
        for text in ("".join(f"overwrite {place} 7\n" for place in places), ""):
            with open(script, "w", encoding="ascii") as file:
                file.write(text)
            counts.append(counted([path, "--edit", script, *options, "--count", str(SAMPLES), coded, edited]))
    return counts[0] / counts[1]


def on_each(cells, count, path):
    """Returns the counts of each cell, made on all cores at once."""
    with ThreadPoolExecutor(os.cpu_count() or 1) as pool:
        return dict(zip(cells, pool.map(lambda cell: count(path, cell), cells)))


def print_measured(instructions, branches, edits):
    for (kind, block_size, interval), (coding, decoding) in instructions.items():
        print(f'    ("{kind}", {block_size}, {interval}): ({coding:.1f}, {decoding:.1f}),')
    for (kind, block_size, interval), count in branches.items():
        print(f'    ("{kind}", {block_size}, {interval}): {count:.2f},')
    for (block_size, interval, lines), times in edits.items():
        print(f"    ({block_size}, {interval}, {lines:_}): {times:.2f},")


def compare(instructions, branches, edits):
    tally = Tally()
    for (kind, block_size, interval), counts in instructions.items():
        for job, count, measured in zip(("coding", "decoding"), counts, MEASURED[kind, block_size, interval]):
            what = f"{job} the {kind} with J {block_size}, r {interval}"
            tally.holds(
                count <= measured * MOST_ABOVE,
                f"{what} takes {count:.1f} instructions a sample; {measured:.1f} were measured, and 3 % more are allowed",
            )
    for (kind, block_size, interval), count in branches.items():
        measured = MISPREDICTED[kind, block_size, interval]
        what = f"coding the {kind} with J {block_size}, r {interval}"
        tally.holds(
            count <= measured * MOST_MISPREDICTED_ABOVE,
            f"{what} mispredicts {count:.2f} branches a block; {measured:.2f} were measured, and 10 % more are allowed",
        )
    for (block_size, interval, lines), times in edits.items():
        measured = EDITED[block_size, interval, lines]
        tally.holds(
            times <= measured * MOST_EDITED_ABOVE,
            f"{lines} overwrites with J {block_size}, r {interval} take {times:.2f} times the instructions of an empty script;"
            f" {measured:.2f} were measured, and 10 % more are allowed",
        )
    return tally


def without_valgrind():
    """Prints that nothing can be counted. Returns the status of the test."""
    failed = int("CI" in os.environ)
    print("valgrind isn't here: no instructions are counted")
    print(f"0 passed, {failed} failed")
    return failed


def main():
    if not shutil.which("valgrind"):
        return without_valgrind()
    path = os.path.abspath(sys.argv[1])
    instructions = on_each(MEASURED, instructions_of, path)
    branches = on_each(MISPREDICTED, mispredicted_of, path)
    edits = on_each(EDITED, edited_of, path)
    if "--measure" in sys.argv[2:]:
        print_measured(instructions, branches, edits)
        return 0
    tally = compare(instructions, branches, edits)
    tally.print()
    return 1 if tally.failed else 0


if __name__ == "__main__":
    sys.exit(main())
