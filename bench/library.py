#!/usr/bin/env python3
"""Compares two libraries, from buffer to buffer: library.py FOLDER [--seconds]

Counts with `valgrind --tool=callgrind` how many instructions libaecp.a of FOLDER ('ours') and libaec ('theirs') take for a sample
in one call, on one MiB of the samples of bench.py that are predicted. Both decode the stream that libaec's client has coded. With
--seconds instead compares processor time, on 16 MiB: a process calls both in turn, RUNS times, and the least of each counts.

Prints tables in Markdown, and tests nothing. Needs libaec's header, library and client (named by the environment variable
LIBAEC, else /usr/bin/aec).
"""

import os
import random
import re
import subprocess
import sys
import tempfile

from bench import INPUTS, MIB, geometric_mean
from instructions import MEAN

BLOCKS = [8, 16, 64]
INTERVAL = 128
# For --seconds: how often each call runs, the MiB of samples, and pairs of J and r.
RUNS = 9
SIZE = 16
SETTINGS = [(16, 128), (8, 2), (64, 128)]
PREDICTED = [one for one in INPUTS if "-N" not in one[1]]
# The bytes of a stored sample, by its bits.
STORAGE = {1: 1, 8: 1, 12: 2, 16: 2, 32: 4}

HERE = os.path.dirname(os.path.abspath(__file__))


def built(folder, library):
    program = os.path.join(folder, "library")
    words = ["cc", "-O2", "-I", os.path.join(HERE, "..", "bindings", "c"), "-o", program, os.path.join(HERE, "library.c")]
    subprocess.run([*words, os.path.join(library, "libaecp.a"), "-laec"], check=True)
    return program


def counted(command):
    """Returns the instructions of the call, and the length of its result."""
    tool = ["valgrind", "--tool=callgrind", "--callgrind-out-file=/dev/null", "--toggle-collect=measured"]
    ran = subprocess.run([*tool, *command], capture_output=True, text=True, check=True)
    return int(re.search(r"Collected : (\d+)", ran.stderr)[1]), int(ran.stdout)


def stream_of_theirs(options, raw, words):
    """Codes a file of samples with libaec's client. Returns the path of the stream, a file beside the samples."""
    subprocess.run([os.environ.get("LIBAEC", "/usr/bin/aec"), *options, *words, raw, raw + ".aec"], check=True)
    return raw + ".aec"


def measurements(raw, piece, options, settings):
    """Yields each J and r, with the words that a call of coding needs, then those of decoding."""
    bits = options[1]
    for block, interval in settings:
        numbers = [bits, str(int("-s" in options)), str(block), str(interval)]
        coded = stream_of_theirs(options, raw, ["-j", str(block), "-r", str(interval)])
        yield block, interval, (["encode", *numbers, raw, str(2 * piece)], ["decode", *numbers, coded, str(piece)])


def instructions(program, raw):
    """Prints the table of instructions."""
    print("| Input | J | coding, ours | theirs | ratio | decoding, ours | theirs | ratio |")
    print("|---|---|---|---|---|---|---|---|")
    for name, options, made in PREDICTED:
        with open(raw, "wb") as file:
            file.write(made(random.Random(1)))
        samples = MIB // STORAGE[int(options[1])]
        for block, _, calls in measurements(raw, MIB, options, [(block, INTERVAL) for block in BLOCKS]):
            cells = []
            for words in calls:
                our, their = [counted([program, whose, *words])[0] for whose in ("ours", "theirs")]
                cells += [f"{our / samples:.0f}", f"{their / samples:.0f}", f"{our / their:.2f}"]
            print(f"| {name} | {block} | {' | '.join(cells)} |", flush=True)


def seconds(program, raw):
    """Prints the speeds of ours and libaec's seconds divided by ours, then the geometric means of these ratios over MEAN."""
    print("| Input | J, r | coding, MiB/s | times as fast | decoding, MiB/s | times as fast |")
    print("|---|---|---|---|---|---|")
    ratios = {setting: ([], []) for setting in SETTINGS}
    for name, options, made in PREDICTED:
        with open(raw, "wb") as file:
            file.write(made(random.Random(1)) * SIZE)
        for block, interval, calls in measurements(raw, SIZE * MIB, options, SETTINGS):
            cells = []
            for way, words in enumerate(calls):
                ran = subprocess.run([program, "both", *words, str(RUNS)], capture_output=True, text=True, check=True)
                our, their = map(float, ran.stdout.split())
                ratios[block, interval][way].extend([their / our] * (name in MEAN))
                cells += [f"{SIZE / our:.0f}", f"{their / our:.2f}"]
            print(f"| {name} | {block}, {interval} | {' | '.join(cells)} |", flush=True)
    print("\n| J, r | coding, times as fast | decoding, times as fast |\n|---|---|---|")
    for (block, interval), ways in ratios.items():
        print(f"| {block}, {interval} | {' | '.join(f'{geometric_mean(way):.2f}' for way in ways)} |")


def main():
    with tempfile.TemporaryDirectory() as folder:
        program, raw = built(folder, sys.argv[1]), os.path.join(folder, "raw")
        (seconds if "--seconds" in sys.argv[2:] else instructions)(program, raw)


if __name__ == "__main__":
    main()
