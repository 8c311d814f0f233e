#!/usr/bin/env python3
"""Compares the instructions of two programs: instructions.py PATH_OF_AEC [--even]

Counts with `valgrind --tool=callgrind` how many instructions each program takes for a sample, start-up included, on one MiB of
the samples of bench.py. 'Ours' is the program at PATH_OF_AEC, 'theirs' the command-line client of libaec (named by the
environment variable LIBAEC, else /usr/bin/aec). Both decode the stream that theirs has coded. A count isn't a time, but it
doesn't differ from run to run, however busy the machine is.

Prints tables in Markdown: the counts of both and theirs divided by ours; the geometric means of these ratios over the inputs of
MEAN; our counts with even block sizes, of which theirs codes only 8, 16, 32 and 64. With --even only the last table. Tests nothing.
"""

import math
import os
import random
import re
import subprocess
import sys
import tempfile

from bench import INPUTS, MIB

SETTINGS = [(8, 128), (16, 128), (64, 128), (8, 2), (8, 1)]
MEAN = ["8-bit ramp with noise", "12-bit detector", "16-bit detector", "16-bit waves", "32-bit walk"]
EVEN_BLOCKS = [8, 10, 12, 16, 24, 30, 32, 34, 48, 62, 64]
EVEN_INPUTS = ["8-bit ramp with noise", "16-bit detector", "16-bit sparse zeros"]
INTERVAL = 128
# The bytes of a stored sample, by its bits.
STORAGE = {1: 1, 8: 1, 12: 2, 16: 2, 32: 4}


def counted(command):
    """Returns the instructions of a run."""
    words = ["valgrind", "--tool=callgrind", "--callgrind-out-file=/dev/null", *command]
    ran = subprocess.run(words, stdout=subprocess.DEVNULL, stderr=subprocess.PIPE, text=True, check=True)
    return int(re.search(r"Collected : (\d+)", ran.stderr)[1])


def mispredicted(command):
    """Returns how many branches of a run are mispredicted, in valgrind's model of a processor."""
    words = ["valgrind", "--tool=cachegrind", "--cache-sim=no", "--branch-sim=yes", "--cachegrind-out-file=/dev/null", *command]
    ran = subprocess.run(words, stdout=subprocess.DEVNULL, stderr=subprocess.PIPE, text=True, check=True)
    return int(re.search(r"Mispredicts: +([\d,]+)", ran.stderr)[1].replace(",", ""))


def told(ours, theirs, options, folder):
    """Returns the instructions of coding by ours and theirs, then those of decoding."""
    raw, coded, dest = (os.path.join(folder, name) for name in ("raw", "coded", "dest"))
    subprocess.run([theirs, *options, raw, coded], check=True)
    jobs = [[*options, raw, dest], ["-d", *options, coded, dest]]
    return [[counted([path, *job]) for path in (ours, theirs)] for job in jobs]


def beside_theirs(ours, theirs, folder):
    """Prints both programs' instructions for a sample, and theirs divided by ours. Then prints the means of these ratios."""
    print("| Input | J, r | coding, ours | theirs | times | decoding, ours | theirs | times |")
    print("|---|---|---|---|---|---|---|---|")
    times = {setting: ([], []) for setting in SETTINGS}
    for name, options, made in INPUTS:
        with open(os.path.join(folder, "raw"), "wb") as file:
            file.write(made(random.Random(1)))
        samples = MIB // STORAGE[int(options[1])]
        for block, interval in SETTINGS:
            words = [*options, "-j", str(block), "-r", str(interval)]
            cells = []
            for way, (our_count, their_count) in enumerate(told(ours, theirs, words, folder)):
                times[block, interval][way].extend([their_count / our_count] * (name in MEAN))
                cells += [f"{our_count / samples:.0f}", f"{their_count / samples:.0f}", f"{their_count / our_count:.2f}"]
            print(f"| {name} | {block}, {interval} | {' | '.join(cells)} |", flush=True)
    print("\n| J, r | coding, times | decoding, times |\n|---|---|---|")
    for (block, interval), ways in times.items():
        means = " | ".join(f"{math.exp(math.fsum(map(math.log, way)) / len(way)):.2f}" for way in ways)
        print(f"| {block}, {interval} | {means} |")


def even_blocks(ours, folder):
    """Prints our instructions for a sample with even block sizes. Ours decodes its own streams."""
    print(f"\n| Input | Job | {' | '.join(f'J {block}' for block in EVEN_BLOCKS)} |")
    print(f"|---|---|{'---|' * len(EVEN_BLOCKS)}")
    raw, coded, dest = (os.path.join(folder, name) for name in ("raw", "coded", "dest"))
    for name, options, made in INPUTS:
        if name not in EVEN_INPUTS:
            continue
        with open(raw, "wb") as file:
            file.write(made(random.Random(1)))
        samples = MIB // STORAGE[int(options[1])]
        coding, decoding = [], []
        for block in EVEN_BLOCKS:
            words = [*options, "--even-blocks", "-j", str(block), "-r", str(INTERVAL)]
            coding.append(f"{counted([ours, *words, raw, coded]) / samples:.1f}")
            decoding.append(f"{counted([ours, '-d', *words, coded, dest]) / samples:.1f}")
        print(f"| {name} | coding | {' | '.join(coding)} |")
        print(f"| {name} | decoding | {' | '.join(decoding)} |", flush=True)


def main():
    ours, theirs = os.path.abspath(sys.argv[1]), os.environ.get("LIBAEC", "/usr/bin/aec")
    with tempfile.TemporaryDirectory() as folder:
        if "--even" not in sys.argv[2:]:
            beside_theirs(ours, theirs, folder)
        even_blocks(ours, folder)


if __name__ == "__main__":
    main()
