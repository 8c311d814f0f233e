#!/usr/bin/env python3
"""Tests examples/h5_szip.py against HDF5:
recipe_hdf5.py PATH_OF_AEC [--seed N] [--cases N] [--only N]

HDF5 writes data sets with its szip filter: 11 element types in both byte orders, 1 to 4 dimensions,
chunks that don't divide the shape, NN and EC, each even J from 8 to 32, old and new file formats.
What the script reads must be what was written. After an edit, HDF5 must read the new value there
and all others as before. Needs h5py with szip; without szip all is skipped, with status 0.

Prints the checks that fail and, last, how many passed. Ends with status 1 if one failed.
"""

import math
import random
import shutil
import sys
import tempfile

import h5py
import numpy
from lib.program import Program, Tally, asked_of
from lib.recipe_calls import called
from lib.recipe_hdf5_cases import (
    is_read,
    try_command_lines,
    try_grown,
    try_masks,
    try_precision,
    try_raw,
    try_refusals,
    try_types,
)

import h5_szip

TYPES = ["i1", "u1", "i2", "u2", "i4", "u4", "i8", "u8", "f2", "f4", "f8"]
BLOCK_SIZES = [8, 16, 32, 10, 12, 14, 18, 20, 22, 24, 26, 28, 30]
MOST = [[3000], [40, 60], [60, 5], [9, 20, 30], [5, 6, 7, 20]]  # the greatest shapes
SZIP = h5py.h5z.FILTER_SZIP


def drawn_elements(chance, shape):
    """Returns elements of one of 11 types, in either byte order: a walk, noise, or mostly zeros."""
    dtype = numpy.dtype(chance.choice("<>") + chance.choice(TYPES))
    source, count = numpy.random.default_rng(chance.randrange(1 << 32)), math.prod(shape)
    elements = {
        "walk": lambda: numpy.cumsum(source.integers(-2, 3, count)),
        "noise": lambda: source.integers(-(2**62), 2**62, count),
        "sparse": lambda: (source.random(count) < 0.02) * source.integers(-9, 9, count),
    }[chance.choice(["walk", "walk", "noise", "sparse"])]()
    with numpy.errstate(all="ignore"):
        return (elements / 7.3 if dtype.kind == "f" else elements).astype(dtype).reshape(shape)


def drawn_file(chance, path):
    """Writes a file with one data set. Returns its elements and a text for it, or None if HDF5
    refuses the data set."""
    shape = tuple(chance.randint(1, most) for most in chance.choice(MOST))
    elements = drawn_elements(chance, shape)
    keys = {
        "chunks": tuple(chance.randint(-(-n // 3), n) for n in shape),
        "maxshape": tuple(chance.choice([n, None]) for n in shape),
        "compression_opts": (chance.choice(["nn", "ec"]), chance.choice(BLOCK_SIZES)),
        "fillvalue": chance.choice([0, 0, 7]),
    }
    version, is_part = chance.choice(["earliest", "latest"]), chance.random() < 0.2
    with h5py.File(path, "w", libver=version) as file:
        try:
            made = file.create_dataset("d", shape, elements.dtype, compression="szip", **keys)
        except ValueError:
            return None
        rows = keys["chunks"][0] if is_part else shape[0]  # later chunks aren't there
        made[:rows] = elements[:rows]
        elements[rows:] = keys["fillvalue"]
    return elements, f"{elements.dtype.str} {shape}, {keys}, {version}"


def drawn_value(chance, dtype):
    if dtype.kind == "f":
        return chance.choice(["0", "-1.5", "1e4", "-inf", "nan", "0.1"])
    limits = numpy.iinfo(dtype)
    least, most = int(limits.min), int(limits.max)
    return str(chance.choice([0, 1, least, most, chance.randint(least, most)]))


def differences(aec):
    """Returns what h5diff says of an edit: the last line before an empty one."""
    _, said = Program(shutil.which("h5diff"), aec.folder).run("-r", "before.h5", "d.h5", "/d")
    return (said.split("\n\n")[0].strip().splitlines() or [""])[-1]


def try_edit(what, chance, elements, aec, tally):
    """Makes one edit of a data set, which HDF5 must read, and h5diff must see."""
    path, place = aec.file("d.h5"), tuple(chance.randrange(n) for n in elements.shape)
    value, before = drawn_value(chance, elements.dtype), elements.copy()
    shutil.copy(path, aec.file("before.h5"))
    spelled, what = ",".join(map(str, place)), f"{what}: {place} becomes {value}"
    tally.check(what, called(h5_szip.edit, aec.path, path, "d", spelled, value), (0, ""))
    elements[place] = float(value) if elements.dtype.kind == "f" else int(value)
    tally.holds(is_read(path, elements), f"{what}: read by HDF5")
    if shutil.which("h5diff") and elements.dtype.kind in "iu":
        wanted = f"{int(elements[place] != before[place])} differences found"
        tally.check(f"{what}: h5diff", differences(aec), wanted)


def try_case(number, seed, aec, tally):
    """Tests one data set: its elements, and two edits. Returns whether HDF5 takes it."""
    chance, path = random.Random(f"{seed} {number}"), aec.file("d.h5")
    drawn = drawn_file(chance, path)
    if drawn is None:
        return False
    elements, what = drawn[0], f"{number}: {drawn[1]}"
    tally.check(f"show {what}", called(h5_szip.show, path, "d")[0], 0)
    answer = called(h5_szip.read, aec.path, path, "d", aec.file("raw"))
    tally.check(f"read {what}", answer, (0, ""))
    tally.holds(aec.read("raw") == elements.tobytes(), f"elements of {what}")
    for _ in range(2):
        try_edit(what, chance, elements, aec, tally)
    return True


def main():
    asked = asked_of("HDF5 data sets beside HDF5.", 48)
    tally, refused, is_there = Tally(), 0, h5py.h5z.filter_avail(SZIP)
    if not is_there or not h5py.h5z.get_filter_info(SZIP) & h5py.h5z.FILTER_CONFIG_ENCODE_ENABLED:
        tally.print(len(asked.numbers), "HDF5 has no szip that writes")
        return 0
    with tempfile.TemporaryDirectory() as folder:
        aec, script = Program(asked.program, folder), Program(sys.executable, folder)
        for number in asked.numbers:
            refused += not try_case(number, asked.seed, aec, tally)
        try_masks(aec, tally)
        try_raw(aec, tally)
        try_grown(aec, tally)
        try_precision(aec, tally)
        try_types(aec, tally)
        try_refusals(aec, tally)
        try_command_lines(aec, script, tally)
    tally.print(refused, "HDF5 refuses such chunks")
    return 1 if tally.failed else 0


if __name__ == "__main__":
    sys.exit(main())
