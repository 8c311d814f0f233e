#!/usr/bin/env python3
"""Compares sizes and speeds with other compressors, for bench/tables.md: compare.py PATH_OF_AEC [--sizes]

Compresses the kinds of samples of coders.py, 8 MiB each, with each of its coders that is installed, and decompresses them again. 'ours' is
the program at PATH_OF_AEC, libaec's client the program that the environment variable LIBAEC names, else /usr/bin/aec. Prints in Markdown:
- for each kind the bytes of the compressed file;
- for each kind of pictures with photon noise (photons.py) the MB of samples in a second of processor time, user and system; these
  divided by those of libaec's client; and the instructions for each sample of four pictures, counted by callgrind, which other work on
  the machine doesn't change. Slow coders run once, and their instructions aren't counted.

A coder that isn't installed, or can't take samples of this kind, has a dash. HDF5's filters run in this process, by h5py and hdf5plugin,
and no program is started. With --sizes only the first table is printed, and each command runs once. Fails if a command fails, or if
decompressing yields other samples.
"""

import datetime
import os
import shutil
import sys
import tempfile
from typing import NamedTuple

from bench import run
from coders import FILTERS, KINDS, MIBS, PICTURE, by_hdf5, programs
from instructions import counted

# The rounds, in each of which every coder runs once, so that changes of the machine's speed affect all. Slow ones run in the first alone.
ROUNDS = 5
COUNTED = 4 * PICTURE

ABOUT_SIZES = """By `bench/compare.py`, {day}. aec and libaec ran with `-r 128`, cjxl without loss (`-d 0`). fpack -r is Rice's algorithm,
fpack -h Hcompress without loss. bitshuffle + LZ4 and shuffle + deflate are HDF5's filters, with a chunk for each picture.
"""
ABOUT_SPEEDS = """MB of samples in a second of processor time, by the least time of {rounds} rounds, with other work beside them; slow
coders ran once. Then this divided by the speed of libaec's client, and the instructions for each sample, by callgrind.
"""


class Told(NamedTuple):
    """What one coder did with one kind of samples: bytes, seconds of coding and decoding."""

    size: int
    coding: float
    decoding: float


def named(words, origin, dest):
    """Returns a command with the names of its two files."""
    return [word.replace("FROM", origin).replace("TO", dest) for word in words]


def files(coder, folder):
    """Returns the paths of the file to code, of the coded one and of the decoded one. djxl wants an ending."""
    ending = coder.form.__name__
    return [os.path.join(folder, name) for name in (f"source.{ending}", "coded", f"back.{ending}")]


def seconds(words, origin, dest, folder):
    """Runs a command. Returns its seconds. First removes its output, as fpack wants."""
    if os.path.exists(dest):
        os.remove(dest)
    return run(named(words, origin, dest), folder)[0]


def by_program(coder, kind, samples, folder):
    """Returns what a coder does with samples, or None if it isn't installed or doesn't take them."""
    coding, decoding = coder.coding(kind), coder.decoding(kind)
    if not coder.takes(kind) or not (shutil.which(coding[0]) and shutil.which(decoding[0])):
        return None
    source, coded, back = files(coder, folder)
    head, stored = coder.form(kind, samples)
    with open(source, "wb") as file:
        file.write(head + stored)
    both = seconds(coding, source, coded, folder), seconds(decoding, coded, back, folder)
    with open(back, "rb") as file:
        if not file.read().endswith(stored):
            raise SystemExit(f"{coder.name} doesn't give the samples back")
    return Told(os.path.getsize(coded), *both)


def by_filter(name, kind, samples, folder):
    """Returns what one of HDF5's filters does with samples, or None."""
    told = by_hdf5(name, kind, samples, folder)
    return told and Told(*told)


def least(rounds):
    """Returns the size and the least seconds of some rounds, or None if there are none."""
    told = [it for it in rounds if it]
    return Told(told[0].size, min(it.coding for it in told), min(it.decoding for it in told)) if told else None


def measured(kind, coders, folder, rounds):
    """Returns what each coder does with a kind of samples, by its name."""
    samples, told = kind.made(), {name: [] for name in [coder.name for coder in coders] + FILTERS}
    for number in range(rounds):
        for coder in coders:
            if not (number and coder.slow):
                told[coder.name].append(by_program(coder, kind, samples, folder))
        for name in FILTERS:
            told[name].append(by_filter(name, kind, samples, folder))
    return {name: least(rounds) for name, rounds in told.items()}


def instructions(coder, kind, samples, folder):
    """Returns the instructions for a sample in coding and in decoding, or None for a slow coder."""
    if coder.slow:
        return None
    source, coded, back = files(coder, folder)
    with open(source, "wb") as file:
        file.write(b"".join(coder.form(kind, samples)))
    counts = []
    for words, origin, dest in ((coder.coding(kind), source, coded), (coder.decoding(kind), coded, back)):
        if os.path.exists(dest):
            os.remove(dest)
        counts.append(counted(named(words, origin, dest)) / COUNTED)
    return counts


def row(*cells):
    print(f"| {' | '.join(cells)} |", flush=True)


def sizes(told, names):
    """Prints the table of bytes."""
    print("## Other coders: sizes\n")
    print(ABOUT_SIZES.format(day=f"{datetime.date.today():%-d %B %Y}"))
    row(f"Bytes of {MIBS} MiB", *(kind.name for kind in KINDS))
    print("|---" * (1 + len(KINDS)) + "|")
    for name in names:
        row(name, *(f"{told[kind.name][name].size:,}" if told[kind.name][name] else "-" for kind in KINDS))


def speed_cells(seconds, of_theirs, count):
    """Returns the cells of one way: the speed, the speed over libaec's, the instructions."""
    speed, count = MIBS * 1.048576 / seconds, f"{count:.0f}" if count else "-"
    return [f"{speed:.0f}" if speed >= 10 else f"{speed:.1f}", f"{of_theirs / seconds:.2g}", count]


def speeds(kind, told, counts, theirs):
    """Prints the table of speeds and instructions for a kind of samples."""
    print(f"\n## Other coders: speed, {kind.name}\n")
    print(ABOUT_SPEEDS.format(rounds=ROUNDS))
    row("Coder", *(f"{way}, MB/s | times libaec | instructions" for way in ("Coding", "decoding")))
    print("|---" * 7 + "|")
    for name in filter(told.get, told):
        both = zip(told[name][1:], told[theirs][1:], counts.get(name) or [None, None])
        row(name, *(cell for way in both for cell in speed_cells(*way)))


def main():
    only_sizes = "--sizes" in sys.argv[2:]
    coders = programs(os.path.abspath(sys.argv[1]), os.environ.get("LIBAEC", "/usr/bin/aec"))
    told = {}
    with tempfile.TemporaryDirectory() as folder:
        for kind in KINDS:
            told[kind.name] = measured(kind, coders, folder, ROUNDS if kind.pictures and not only_sizes else 1)
        sizes(told, list(told[KINDS[0].name]))
        for kind in filter(lambda kind: kind.pictures and not only_sizes, KINDS):
            few = kind.made()[: COUNTED * kind.width]
            counts = {coder.name: instructions(coder, kind, few, folder) for coder in coders if told[kind.name][coder.name]}
            speeds(kind, told[kind.name], counts, coders[2].name)


if __name__ == "__main__":
    main()
