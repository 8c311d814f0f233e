#!/usr/bin/env python3
"""Measures what one edit costs by its place: places.py PATH_OF_AEC

Codes 64 MiB of 16-bit samples (the detector of bench.py) with J 16, r 128, to 28 MiB, and edits them by scripts. The first line
of each script, `truncate` to the number of samples, changes nothing, but all samples are loaded before it. So the later lines
cost what they cost on a loaded workspace. Prints a table in Markdown, for bench/tables.md, from which pictures.py draws: the
milliseconds of one edit, for places from the first sample to the last. They are the time of the script minus that of its first
line alone, divided by the number of edits. Times are processor time, the least of three runs, in which both scripts take turns.
Tests nothing.
"""

import os
import random
import sys
import tempfile

from bench import MIB, detector, run
from edits import write

SIZE = 64
SAMPLES = SIZE * MIB // 2
INTERVAL = 2048
RUNS = 3
PARTS = (0, 25, 50, 75, 100)


def place_of(part, step=1):
    """Returns the place at `part` percent of the way from the first sample to the last `step` samples, rounded down to a multiple
    of `step`."""
    return (SAMPLES - step) * part // 100 // step * step


# Each kind of edit: its name, the number of edits, and the lines of its script for a place. The values differ so much that each edit
# changes the length of the code.
KINDS = [
    ("one sample overwritten", 1000, lambda part: [f"overwrite {place_of(part)} {i * 977 % 4001}" for i in range(1000)]),
    ("an interval inserted", 200, lambda part: [f"insert {place_of(part, INTERVAL)}" + " 7" * INTERVAL] * 200),
    ("one sample inserted", 3, lambda part: [f"insert {place_of(part)} 7"] * 3),
    ("one sample removed", 3, lambda part: [f"remove {place_of(part) - 2 * (part // 100)} 1"] * 3),
]


def milliseconds(program, options, folder, lines):
    """Returns what all these lines cost after the first line of the script."""
    times = {}
    for _ in range(RUNS):
        for name, script in (("none", []), ("all", lines)):
            write(os.path.join(folder, "script"), "".join(it + "\n" for it in [f"truncate {SAMPLES}", *script]).encode())
            words = ["--count", str(SAMPLES), "--edit", *(os.path.join(folder, it) for it in ("script", "coded", "dest"))]
            times.setdefault(name, []).append(run([program, *options, *words], folder)[0])
    return (min(times["all"]) - min(times["none"])) * 1000


def main():
    program, options = os.path.abspath(sys.argv[1]), ["-n", "16", "-j", "16", "-r", "128"]
    print(f"| Milliseconds, of the samples before the place | {' | '.join(f'{part} %' for part in PARTS)} |")
    print(f"|---|{'---|' * len(PARTS)}")
    with tempfile.TemporaryDirectory() as folder:
        raw, coded = os.path.join(folder, "raw"), os.path.join(folder, "coded")
        write(raw, detector(random.Random(16)) * SIZE)
        run([program, *options, raw, coded], folder)
        for name, many, lines in KINDS:
            each = [milliseconds(program, options, folder, lines(part)) / many for part in PARTS]
            print(f"| {name} | {' | '.join(f'{max(it, 0):.1f}' for it in each)} |", flush=True)


if __name__ == "__main__":
    main()
