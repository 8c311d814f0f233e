#!/usr/bin/env python3
"""Measures lists of edits of a workspace, by the Python module: edit_lists.py

Loads 64 MiB of 16-bit samples (the detector of bench.py), with J 8 r 2 and with J 64 r 4096, and applies 10,000 edits of one sample
at random places as one list (`Workspace.edit`): overwrites, then insertions. Also applies some of these edits by one call each.
Prints a table in Markdown, for bench/tables.md: seconds of processor time, of one run each; for an edit by its own call milliseconds.
The module loads the library that AECP_LIBRARY names, else that of `make library`. Fails if the samples after a list aren't right.
"""

import os
import random
import sys
import time

sys.path.insert(0, os.path.join(os.path.dirname(__file__), "..", "bindings", "python"))

import aecp
from bench import MIB, detector

SIZE, EDITS = 64, 10_000
SINGLE = {"overwrite": 1000, "insert": 10}  # how many edits are applied by one call each
SAMPLES = SIZE * MIB // 2
SETTINGS = [(8, 2), (64, 4096)]


def overwrites(chance):
    return [("overwrite", chance.randrange(SAMPLES), chance.randrange(1 << 16)) for _ in range(EDITS)]


def insertions(chance):
    return [("insert", chance.randrange(SAMPLES + i), chance.randrange(1 << 16)) for i in range(EDITS)]


def changed(raw, edits):
    """Returns the stored samples after these edits."""
    stored = bytearray(raw)
    for name, place, value in edits:
        stored[2 * place : 2 * place + (2 if name == "overwrite" else 0)] = value.to_bytes(2, "little")
    return stored


def timed(call):
    """Makes a call. Returns its result, and the seconds of processor time that it took."""
    before = time.process_time()
    made = call()
    return made, time.process_time() - before


def measure(raw, block_size, interval, edits):
    """Prints the rows of one kind of edit with one setting."""
    options, name = aecp.Options(16, block_size=block_size, interval=interval), f"J {block_size} r {interval}"
    kind = edits[0][0]
    coded = aecp.encode(raw, options)
    work, load = timed(lambda: aecp.Workspace.of_coded(coded, SAMPLES, options))
    _, single = timed(lambda: [getattr(work, kind)(*given) for _, *given in edits[: SINGLE[kind]]])
    work = aecp.Workspace.of_coded(coded, SAMPLES, options)
    count, together = timed(lambda: work.edit(edits))
    each = 1000 * single / SINGLE[kind]
    print(f"| {name} | {len(edits):,} times {kind} | {load:.2f} | {together:.2f} | {count:,} | {each:.1f} |", flush=True)
    if aecp.decode_bytes(work.tobytes(), len(work), options) != changed(raw, edits):
        sys.exit(f"{name}, {kind}: other samples")


def main():
    raw = detector(random.Random(16)) * SIZE
    print("| Setting | List | Loading | The list | Intervals coded | One edit by its own call |")
    print("|---|---|---|---|---|---|")
    for block_size, interval in SETTINGS:
        for kind in (overwrites, insertions):
            measure(raw, block_size, interval, kind(random.Random(5)))


if __name__ == "__main__":
    main()
