#!/usr/bin/env python3
"""Measures what edits of a long coded stream cost: edits.py PATH_OF_AEC

The samples are 64 MiB of the 16-bit detector of bench.py, without the last 2,048 samples. They are coded with J 8 r 2, J 16 r 128
and J 64 r 4096: in 2,097,024, 16,383 and 128 intervals, and the last of the 128 lacks 2,048 samples. With each setting the
program at PATH_OF_AEC
- codes the samples, and decodes the stream;
- cuts out two ranges: one of no samples, which checks the stream, and the last 1,000 samples;
- edits the stream by scripts: one without lines, 100 lines that overwrite one sample each in the middle, 10,000 lines that
  overwrite scattered samples in ascending order, 1,000 lines that do so in any order, 1,000 lines that append one value each,
  10,000 lines that insert one value each at scattered places; and a line that inserts a value, then 10,000 lines that overwrite
  scattered samples in any order;
- with J 16 r 128 also inserts a sample and removes 1,000 samples.

The command-line client of libaec (named by the environment variable LIBAEC, else /usr/bin/aec) decodes the stream and codes it
again.

Prints a table in Markdown for each setting: seconds of processor time, the least of three runs (one run, if a script has more
than 1,000 lines), peak memory, and milliseconds for each edit. The edits cost the time beyond a run without lines, which decodes
the stream and codes it anew. Fails if an edited stream isn't that of the changed samples, or if a range has other samples.
"""

import os
import random
import struct
import subprocess
import sys
import tempfile

from bench import MIB, detector, least, run

SIZE = 64
SETTINGS = [(8, 2), (16, 128), (64, 4096)]
SAMPLES = SIZE * MIB // 2 - 2048
SCATTERED = random.Random(5).sample(range(SAMPLES), 10000)
SCRIPTS = [
    ("no line", []),
    ("100 samples in the middle", [f"overwrite {SAMPLES // 2 + 2048 * i} {i}" for i in range(100)]),
    ("10,000 scattered samples, ascending", [f"overwrite {place} {i}" for i, place in enumerate(sorted(SCATTERED))]),
    ("1,000 scattered samples in any order", [f"overwrite {place} {i}" for i, place in enumerate(SCATTERED[:1000])]),
    ("1,000 samples appended one by one", [f"append {i}" for i in range(1000)]),
    ("10,000 samples inserted at scattered places", [f"insert {place} {i}" for i, place in enumerate(SCATTERED)]),
    (
        "a sample inserted, then 10,000 scattered samples overwritten in any order",
        ["insert 5 7", *(f"overwrite {place} {i}" for i, place in enumerate(SCATTERED))],
    ),
]
RANGES = [("none of its samples", 0, 0), ("the last 1,000 samples", SAMPLES - 1000, 1000)]
# Scripts that move samples are run with one setting.
MOVED_AT = (16, 128)
MOVES = [
    ("a sample inserted at the front", ["insert 0 7"]),
    ("a sample inserted in the middle", [f"insert {SAMPLES // 2} 7"]),
    ("a sample inserted at the end", [f"insert {SAMPLES} 7"]),
    ("1,000 samples removed at the front", ["remove 0 1000"]),
    ("1,000 samples removed in the middle", [f"remove {SAMPLES // 2} 1000"]),
]


def write(path, data):
    """Writes a file."""
    with open(path, "wb") as file:
        file.write(data)


def read(path):
    """Returns the bytes of a file."""
    with open(path, "rb") as file:
        return file.read()


def timed(command, folder, runs=3):
    """Returns the least seconds and the greatest peak memory, in MiB, of some runs."""
    return least([run(command, folder) for _ in range(runs)])


def changed(raw, script):
    """Returns the samples after a script. Its lines are `append V`, or a name, a place, and a value (for `remove` a number of
    samples)."""
    samples = bytearray(raw)
    for kind, *numbers in map(str.split, script):
        *first, number = map(int, numbers)
        place = 2 * first[0] if first else len(samples)
        gone = {"append": 0, "overwrite": 2, "insert": 0, "remove": 2 * number}[kind]
        samples[place : place + gone] = b"" if kind == "remove" else struct.pack("<H", number)
    return bytes(samples)


def edited(ours, options, folder, raw, script):
    """Returns seconds and MiB of a run that edits. Fails if its stream isn't that of the changed samples."""
    path = {name: os.path.join(folder, name) for name in ("coded", "script", "dest", "changed", "expected")}
    write(path["script"], "".join(line + "\n" for line in script).encode())
    command = [ours, *options, "--count", str(SAMPLES), "--edit", path["script"], path["coded"], path["dest"]]
    told = timed(command, folder, 1 if len(script) > 1000 else 3)
    write(path["changed"], changed(raw, script))
    subprocess.run([ours, *options, path["changed"], path["expected"]], check=True)
    if read(path["dest"]) != read(path["expected"]):
        raise SystemExit("the edited stream is not that of the changed samples")
    return told


def cut(ours, options, folder, raw, first, length):
    """Returns seconds and MiB of a run that cuts out a range. Fails if the range has other samples."""
    coded, dest = os.path.join(folder, "coded"), os.path.join(folder, "dest")
    told = timed([ours, *options, "--range", f"{first}:{length}", "--count", str(SAMPLES), coded, dest], folder)
    if read(dest) != raw[2 * first : 2 * (first + length)]:
        raise SystemExit("the range has not the samples that are there")
    return told


def line(name, told, more=""):
    """Prints one line of a table."""
    print(f"| {name} | {told[0]:.2f} | {told[1]:.0f} | {more} |", flush=True)


def table(ours, theirs, setting, raw, folder):
    """Runs all jobs with a setting, and prints its table."""
    options = ["-n", "16", "-j", str(setting[0]), "-r", str(setting[1])]
    source, coded, dest = (os.path.join(folder, name) for name in ("raw", "coded", "dest"))
    write(source, raw)
    print(f"### J {setting[0]}, r {setting[1]}\n\n| Job | seconds | MiB | for each edit, ms |\n|---|---|---|---|")
    line("coding", timed([ours, *options, source, coded], folder))
    line("decoding", timed([ours, "-d", *options, coded, dest], folder))
    for name, first, length in RANGES:
        line(f"`--range`, {name}", cut(ours, options, folder, raw, first, length))
    base = None
    for name, script in SCRIPTS + (MOVES if setting == MOVED_AT else []):
        told = edited(ours, options, folder, raw, script)
        base = base or told[0]
        each = f"{(told[0] - base) / len(script) * 1000:.1f}" if script else ""
        line(f"`--edit`, {name}", told, each)
    line("libaec: decoding", timed([theirs, "-d", *options, coded, dest], folder))
    line("libaec: coding", timed([theirs, *options, source, dest], folder))
    print()


def main():
    """Runs all jobs with each setting, and prints the tables."""
    ours, theirs = os.path.abspath(sys.argv[1]), os.environ.get("LIBAEC", "/usr/bin/aec")
    raw = (detector(random.Random(16)) * SIZE)[: 2 * SAMPLES]
    with tempfile.TemporaryDirectory() as folder:
        for setting in SETTINGS:
            table(ours, theirs, setting, raw, folder)


if __name__ == "__main__":
    main()
