#!/usr/bin/env python3
"""Tests examples/preload/ beside libaec: preload.py FOLDER_OF_LIBAECP [--seed N] [--cases N]

Builds the library that programs preload, and runs with and without it:
- tests/lib/preload_calls.c: each call beside libaec's own, with random parameters, samples and damaged
  streams; in eight threads; and with so little memory that libaecp must refuse
- tests/lib/preload_ends.c: streams of any number of samples; sound, cut, damaged, with bytes after
  them
- eccodes' grib_get_data and grib_set, on all samples of Debian's libeccodes-data with CCSDS packing
- grib_get_data, on grids whose number of values isn't whole blocks, with a bitmap, with a last row
  or areas of equal values
- h5py and netCDF4 with szip, each written by one and read by the other; h5diff
- CDO, which reads and writes GRIB2 messages
The values must be equal, and the library must have taken calls. Skips what needs a program or a
module that isn't installed, and prints that.

Prints the checks that fail and, last, how many passed. Ends with status 1 if one failed.
"""

import argparse
import glob
import os
import re
import shutil
import subprocess
import sys
import tempfile
from typing import NamedTuple

from lib.program import TOP, Tally, add_case_options

SOURCE = os.path.join(TOP, "examples", "preload")
DRIVERS = os.path.join(TOP, "tests", "lib")
HEADER = "/usr/include/libaec.h"
SAMPLES = "/usr/share/eccodes/ifs_samples/*/*.tmpl"
MESSAGE = "/usr/share/eccodes/ifs_samples/grib1_mlgrib2_ccsds/gg_sfc_grib2.tmpl"
PYTHON = "/usr/bin/python3"  # the one that has Debian's modules
REPORT = re.compile(r"encode: (\d+) taken, (\d+) passed on; decode: (\d+) taken, (\d+) passed on")
FLAGS = "-O2 -Wall -Wextra -Werror"

# Writes or reads a file with szip: WRITE_H5 FILE, READ_H5 FILE. Reading prints the elements' sums.
WRITE_H5 = """
import sys, h5py, numpy
chance = numpy.random.default_rng(7)
with h5py.File(sys.argv[1], "w") as file:
    for kind in ("u1", "<i2", ">u2", "<i4", ">i4", "<f4", "<f8"):
        walk = chance.integers(-3, 4, (90, 130)).cumsum(1).astype(kind)
        for coding in ("nn", "ec"):
            for block in (8, 10, 16, 32):
                file.create_dataset(f"{kind} {coding} {block}", data=walk, chunks=(40, 130),
                                    compression="szip", compression_opts=(coding, block))
"""
READ_H5 = """
import sys, h5py, hashlib
with h5py.File(sys.argv[1]) as file:
    for name in sorted(file):
        print(name, hashlib.sha256(file[name][()].tobytes()).hexdigest())
"""
WRITE_NETCDF = """
import sys, netCDF4, numpy
chance = numpy.random.default_rng(8)
with netCDF4.Dataset(sys.argv[1], "w") as file:
    file.createDimension("y", 90), file.createDimension("x", 128)
    for kind in ("u1", "i2", "i4", "f4"):
        for coding in ("nn", "ec"):
            variable = file.createVariable(f"{kind}_{coding}", kind, ("y", "x"), compression="szip",
                                           szip_coding=coding, szip_pixels_per_block=16)
            variable[:] = chance.integers(-3, 4, (90, 128)).cumsum(1).astype(kind)
"""
READ_NETCDF = """
import sys, netCDF4, hashlib
with netCDF4.Dataset(sys.argv[1]) as file:
    file.set_auto_mask(False)
    for name in sorted(file.variables):
        print(name, hashlib.sha256(file[name][:].tobytes()).hexdigest())
"""


# Writes messages grid_1.grib, grid_2.grib .. of random values, packed by CCSDS.
WRITE_GRIDS = """
import eccodes, numpy
chance = numpy.random.default_rng(9)
missing = 9999
for number, (columns, rows, bits, kind) in enumerate((
    (720, 361, 16, "whole"), (720, 361, 16, "pole"), (720, 361, 12, "gaps"), (720, 361, 12, "areas"),
    (101, 101, 8, "whole"), (101, 101, 12, "gaps"), (101, 101, 24, "whole"),
    (1440, 181, 16, "pole"), (1440, 180, 16, "areas"),
), 1):
    values = 280 + chance.normal(size=(rows, columns)).cumsum(1)
    if kind == "pole":
        values[-1] = 250
    if kind == "gaps":
        values[chance.random(values.shape) < 0.3] = missing
    if kind == "areas":
        values = values.clip(270, 290)
    message = eccodes.codes_grib_new_from_samples("regular_ll_sfc_grib2")
    for key, value in {
        "Ni": columns, "iDirectionIncrementInDegrees": 360 / columns,
        "longitudeOfFirstGridPointInDegrees": 0,
        "longitudeOfLastGridPointInDegrees": 360 - 360 / columns,
        "Nj": rows, "jDirectionIncrementInDegrees": 180 / (rows - 1),
        "latitudeOfFirstGridPointInDegrees": 90, "latitudeOfLastGridPointInDegrees": -90,
        "missingValue": missing, "bitmapPresent": int(kind == "gaps"),
        "packingType": "grid_ccsds", "bitsPerValue": bits,
    }.items():
        eccodes.codes_set(message, key, value)
    eccodes.codes_set_values(message, values.ravel())
    with open(f"grid_{number}.grib", "wb") as file:
        eccodes.codes_write(message, file)
"""


class Ended(NamedTuple):
    """How a program ended, and how many calls the library took or passed on: coding, decoding."""

    status: int
    out: str
    err: str
    taken: tuple[int, int]
    passed_on: tuple[int, int]

    def said(self):
        """Returns a text for a failure."""
        return f"status {self.status}: {self.out[-200:]} {self.err[-300:]}"


class Preloaded:
    """The library that programs preload, and runs with it and without."""

    def __init__(self, library, folder):
        self.library, self.folder = library, folder

    def run(self, with_it, *words):
        """Runs a program in the folder."""
        path = os.path.join(self.folder, "report")
        with open(path, "w", encoding="utf-8"):
            pass
        more = {"LD_PRELOAD": self.library, "AECP_PRELOAD_REPORT": path} if with_it else {}
        given = {"cwd": self.folder, "env": {**os.environ, **more}, "timeout": 900}
        ended = subprocess.run(words, capture_output=True, check=False, text=True, **given)
        with open(path, encoding="utf-8") as file:
            counts = [[int(it) for it in found] for found in REPORT.findall(file.read())]
        sums = [sum(column) for column in zip(*counts)] or [0, 0, 0, 0]
        taken, passed_on = (sums[0], sums[2]), (sums[1], sums[3])
        return Ended(ended.returncode, ended.stdout, ended.stderr, taken, passed_on)


def compile_to(folder, name):
    """Returns the start of the command that builds a program of tests/lib/ in a folder."""
    return ["cc", *FLAGS.split(), "-o", f"{folder}/{name}", f"{DRIVERS}/preload_{name}.c"]


def build(asked, folder, tally):
    """Builds the library and the programs of the calls in a folder. Returns the library's path."""
    found = os.path.join(os.path.abspath(asked.folder), "libaecp.so")
    for name in ("libaecp.so", "libaecp.so.1"):
        os.symlink(found, os.path.join(folder, name))
    library = os.path.join(folder, "aecp_preload.so")
    for words in (
        ["make", "-s", "-C", SOURCE, f"AECP={folder}", f"TO={library}", f"CFLAGS={FLAGS}"],
        *([*compile_to(folder, name), "-laec", "-ldl", "-pthread"] for name in ("calls", "ends")),
    ):
        ended = subprocess.run(words, capture_output=True, check=False, text=True)
        tally.holds(ended.returncode == 0, f"{words[0]}: {ended.stderr}")
    return library


def run_calls(preloaded, tally, program, mode, asked, cases):
    """Runs a program of calls, and counts its checks. Returns how it ended, and how many streams
    the library was asked to decode."""
    ended = preloaded.run(True, f"./{program}", mode, str(asked.seed), str(cases))
    counts = re.findall(r"^(\d+) passed, (\d+) failed, (\d+) decoded", ended.out, re.M)
    is_so = ended.status == 0 and len(counts) == 1 and counts[0][1] == "0"
    tally.holds(is_so, f"{program} {mode}: {ended.said()}")
    passed, failed, decoded = (int(it) for it in counts[0]) if counts else (0, 0, 0)
    tally.passed, tally.failed = tally.passed + passed, tally.failed + failed
    return ended, decoded


def try_calls(preloaded, asked, tally):
    """Compares call by call. The library must take about as many calls as it does now."""
    shares = asked.cases // 3, asked.cases // 4
    for mode, cases, coded, decoded in (
        ("cases", asked.cases, *shares),
        ("threads", asked.cases // 8, *shares),
        ("memory", 1, 1, 1),
    ):
        ended, _ = run_calls(preloaded, tally, "calls", mode, asked, cases)
        is_so = ended.taken[0] >= coded and ended.taken[1] >= decoded
        tally.holds(is_so, f"calls {mode}: only {ended.taken} taken")
        if mode == "memory":
            tally.check("calls memory: refused and passed on", ended.passed_on, (1, 1))


def try_ends(preloaded, asked, tally):
    """Compares the decoding of streams of any number of samples. The library must take each sound
    stream, and pass on each that is cut or that bytes follow."""
    ended, decoded = run_calls(preloaded, tally, "ends", "whole", asked, asked.cases)
    tally.check("ends whole: taken, passed on", (ended.taken[1], ended.passed_on[1]), (decoded, 0))
    ended, decoded = run_calls(preloaded, tally, "ends", "cut", asked, asked.cases // 10)
    tally.check("ends cut: taken, passed on", (ended.taken[1], ended.passed_on[1]), (0, decoded))
    ended, _ = run_calls(preloaded, tally, "ends", "damaged", asked, asked.cases // 20)
    is_so = min(ended.taken[1], ended.passed_on[1]) > asked.cases
    tally.holds(is_so, f"ends damaged: {ended.taken} taken, {ended.passed_on} passed on")


def same(preloaded, tally, *words):
    """Runs a program with the library and without. Both must print the same and end with 0. Returns
    how many decoding calls were taken."""
    plain, taken = preloaded.run(False, *words), preloaded.run(True, *words)
    what = " ".join(words)[-200:]
    tally.holds(plain.status == taken.status == 0, f"{what}: {plain.said()}; {taken.said()}")
    tally.holds(plain.out == taken.out, f"{what}: another output")
    return taken.taken[1]


def check_values(preloaded, tally, *messages):
    """Compares the values of two messages, as eccodes and libaec read them."""
    theirs, ours = (preloaded.run(False, "grib_get_data", it).out for it in messages)
    tally.holds(theirs and theirs == ours, f"{messages}: other values")


def try_eccodes(preloaded, tally):
    """Reads each CCSDS message, and packs each anew."""
    decoded = coded = 0
    for path in sorted(glob.glob(SAMPLES)):
        packing = preloaded.run(False, "grib_get", "-p", "edition,packingType", path).out.split()
        if packing != ["2", "grid_ccsds"]:
            continue
        decoded += same(preloaded, tally, "grib_get_data", path)
        words = ["-r", "-s", "packingType=grid_simple", path, "simple.grib"]
        tally.check(f"grib_set {path}", preloaded.run(False, "grib_set", *words).status, 0)
        for bits in ("8", "12", "16", "24"):
            words = ["-r", "-s", f"packingType=grid_ccsds,bitsPerValue={bits}", "simple.grib"]
            plain = preloaded.run(False, "grib_set", *words, "theirs.grib")
            ended = preloaded.run(True, "grib_set", *words, "ours.grib")
            answers = [(it.status, it.err) for it in (ended, plain)]
            tally.check(f"grib_set {path} {bits}", *answers)
            if plain.status != 0:  # eccodes 2.28 refuses to repack some messages with 24 bits
                continue
            coded += ended.taken[0]
            check_values(preloaded, tally, "theirs.grib", "ours.grib")
            decoded += same(preloaded, tally, "grib_get_data", "theirs.grib")
    tally.holds(decoded > 0, "eccodes: no decoding call was taken")
    tally.holds(coded > 0, "eccodes: no coding call was taken")


def try_grids(preloaded, tally):
    """Reads messages of grids. The library must decode each."""
    ended = preloaded.run(False, PYTHON, "-c", WRITE_GRIDS)
    paths = sorted(glob.glob(os.path.join(preloaded.folder, "grid_*.grib")))
    tally.holds(ended.status == 0 and len(paths) == 9, f"grids, written: {ended.said()}")
    for path in paths:
        taken = same(preloaded, tally, "grib_get_data", path)
        tally.check(f"{path}: decoding calls that were taken", taken, 1)


def try_files(preloaded, tally, name, write, read):
    """Writes a file by both, reads each by the other, and compares the elements."""
    files = {False: f"theirs.{name}", True: f"ours.{name}"}
    writes = {it: preloaded.run(it, PYTHON, "-c", write, path) for it, path in files.items()}
    for ended in writes.values():
        tally.holds(ended.status == 0, f"{name}, written: {ended.said()}")
    outs = []
    for with_it in (False, True):
        for path in files.values():
            ended = preloaded.run(with_it, PYTHON, "-c", read, path)
            tally.holds(ended.status == 0 and ended.out, f"{name}, read: {ended.said()}")
            tally.holds(not with_it or ended.taken[1] > 0, f"{name}: no decoding call was taken")
            outs.append(ended.out)
    tally.holds(writes[True].taken[0] > 0, f"{name}: no coding call was taken")
    tally.holds(len(set(outs)) == 1, f"{name}: other elements")
    if shutil.which("h5diff"):
        ended = preloaded.run(False, "h5diff", *files.values())
        tally.holds(ended.status == 0 and "differences" not in ended.out, f"h5diff: {ended.said()}")


def try_cdo(preloaded, tally):
    """Reads and writes GRIB2 messages by CDO, and compares the values."""
    words = ["cdo", "-s", "-f", "grb2", "-z", "aec", "addc,1", MESSAGE]
    for with_it, name in ((False, "theirs.grb2"), (True, "ours.grb2")):
        ended = preloaded.run(with_it, *words, name)
        tally.holds(ended.status == 0, f"cdo: {ended.said()}")
        tally.holds(not with_it or min(ended.taken) > 0, f"cdo: taken {ended.taken}")
    check_values(preloaded, tally, "theirs.grb2", "ours.grb2")
    same(preloaded, tally, "cdo", "-s", "infon", "theirs.grb2")


def has(module):
    """Returns whether Debian's Python has a module."""
    if not os.path.exists(PYTHON):
        return False
    words = [PYTHON, "-c", f"import {module}"]
    return subprocess.run(words, capture_output=True, check=False).returncode == 0


def missing():
    """Returns what the whole test needs and isn't there."""
    needs = {it: shutil.which(it) for it in ("cc", "make")}
    needs["libaec-dev"] = os.path.exists(HEADER)
    return [name for name, is_there in needs.items() if not is_there]


def try_programs(preloaded, tally):
    """Runs the programs that are installed. Returns what was skipped."""
    has_eccodes = shutil.which("grib_set") and os.path.exists(MESSAGE)
    tests = (
        ("libeccodes-tools or libeccodes-data", has_eccodes, try_eccodes, ()),
        ("python3-eccodes", has_eccodes and has("eccodes"), try_grids, ()),
        ("python3-h5py", has("h5py"), try_files, ("h5", WRITE_H5, READ_H5)),
        ("python3-netcdf4", has("netCDF4"), try_files, ("nc", WRITE_NETCDF, READ_NETCDF)),
        ("cdo", shutil.which("cdo") and has_eccodes, try_cdo, ()),
    )
    skipped = []
    for name, is_there, test, more in tests:
        if is_there:
            test(preloaded, tally, *more)
        else:
            skipped.append(f"no {name}")
    return skipped


def main():
    words = argparse.ArgumentParser(description="The library that programs preload.")
    words.add_argument("folder", help="of libaecp.so")
    add_case_options(words, 6000)
    asked = words.parse_args()
    tally, skipped = Tally(), missing()
    with tempfile.TemporaryDirectory() as folder:
        if not skipped:
            preloaded = Preloaded(build(asked, folder, tally), folder)
            if not tally.failed:
                try_calls(preloaded, asked, tally)
                try_ends(preloaded, asked, tally)
                skipped = try_programs(preloaded, tally)
    tally.print(len(skipped), "; ".join(skipped))
    return 1 if tally.failed else 0


if __name__ == "__main__":
    sys.exit(main())
