"""The coders that compare.py runs, the files that they take, and the samples that they code."""

import os
import random
import struct
import time
from typing import Callable, NamedTuple

from bench import detector, detector_12, walk, waves
from photons import COLUMNS, KINDS as PHOTONS, ROWS, samples_of

MIBS = 8
PICTURE = ROWS * COLUMNS


class Kind(NamedTuple):
    """A kind of samples: its name, a function that returns the stored samples, and what they are. Pictures have ROWS and COLUMNS."""

    name: str
    made: Callable
    bits: int
    signed: bool = False
    pictures: bool = False

    @property
    def width(self):
        """Returns the bytes of a stored sample."""
        return 4 if self.bits > 16 else 2

    @property
    def options(self):
        return ["-n", str(self.bits), *(["-s"] if self.signed else [])]

    def numbers(self, samples):
        """Returns stored samples as numbers."""
        letter = "i" if self.width == 4 else "h" if self.signed else "H"
        return struct.unpack(f"<{len(samples) // self.width}{letter}", samples)


def mibs_of(made):
    """Returns a function that returns MIBS times one MiB of samples, each of another seed."""
    return lambda: b"".join(made(random.Random(seed)) for seed in range(MIBS))


def pictures_of(name, bits):
    return Kind(f"{bits}-bit {name}", lambda: samples_of(name), bits, pictures=True)


KINDS = [
    *(pictures_of(name, sensor.bits) for name, (sensor, _) in PHOTONS.items()),
    Kind("12-bit detector", mibs_of(detector_12), 12),
    Kind("16-bit detector", mibs_of(detector), 16),
    Kind("16-bit waves", mibs_of(waves), 16, signed=True),
    Kind("32-bit walk", mibs_of(walk), 32, signed=True),
]


# The forms of files: each function returns the head of a file of samples, and the rest.


def raw(kind, samples):
    return b"", samples


def fits(kind, samples):
    """Returns a FITS file: one picture, or a cube of many. FITS has no unsigned numbers, so these are stored minus 2^15."""
    axes = [COLUMNS, ROWS, len(samples) // (2 * PICTURE)] if kind.pictures else [COLUMNS, len(samples) // (COLUMNS * kind.width)]
    base = 0 if kind.signed else 1 << 15
    cards = {"SIMPLE": "T", "BITPIX": 8 * kind.width, "NAXIS": len(axes)}
    cards |= {f"NAXIS{number}": axis for number, axis in enumerate(axes, 1)}
    cards |= {"BSCALE": 1, "BZERO": base} if base else {}
    head = "".join(f"{name:8}= {value:>20}".ljust(80) for name, value in cards.items()) + "END"
    numbers = [number - base for number in kind.numbers(samples)]
    stored = struct.pack(f">{len(numbers)}{'h' if kind.width == 2 else 'i'}", *numbers)
    return head.ljust(2880).encode(), stored + bytes(-len(stored) % 2880)


def pgm(kind, samples):
    """Returns a PGM file of pictures, one below the other."""
    numbers = kind.numbers(samples)
    return f"P5\n{COLUMNS} {len(numbers) // COLUMNS}\n65535\n".encode(), struct.pack(f">{len(numbers)}H", *numbers)


class Coder(NamedTuple):
    """A program that codes: its name in the tables, and two functions that return its commands for a kind of samples, with the words FROM
    and TO for files. `form` makes the file that it takes, `takes` says of which kinds. A `slow` one isn't run under callgrind."""

    name: str
    coding: Callable
    decoding: Callable
    form: Callable = raw
    takes: Callable = lambda kind: True
    slow: bool = False


def fixed(name, coding, decoding, **more):
    """Returns a coder whose commands, given as text, are the same for all kinds."""
    return Coder(name, lambda kind: coding.split(), lambda kind: decoding.split(), **more)


def sample_coder(name, path, block):
    """Returns a program with the options of aec."""
    words = lambda kind: [path, *kind.options, "-j", str(block), "-r", "128"]
    return Coder(name, lambda kind: [*words(kind), "FROM", "TO"], lambda kind: [*words(kind), "-d", "FROM", "TO"])


def flac():
    """Returns flac, which takes 12 bits as 16, and can't take samples of four bytes."""
    form = lambda kind: ["--force-raw-format", "--endian=little", f"--sign={'signed' if kind.signed else 'unsigned'}"]
    coding = lambda kind: ["flac", "-8", "-s", "-f", *form(kind), "--channels=1", "--bps=16", "--sample-rate=44100", "-o", "TO", "FROM"]
    decoding = lambda kind: ["flac", "-d", "-s", "-f", *form(kind), "-o", "TO", "FROM"]
    return Coder("flac -8", coding, decoding, takes=lambda kind: kind.width == 2)


def jpeg_xl(effort, slow):
    """Returns JPEG XL's coder without loss, in one thread."""
    words = "--num_threads=0 --quiet FROM TO"
    pictures = lambda kind: kind.pictures
    return fixed(f"cjxl -e {effort}", f"cjxl -d 0 -e {effort} {words}", f"djxl {words}", form=pgm, takes=pictures, slow=slow)


def zstd(level, slow):
    return fixed(f"zstd -{level}", f"zstd -q -f -{level} FROM -o TO", "zstd -q -f -d FROM -o TO", slow=slow)


def programs(ours, theirs):
    """Returns the coders that are programs, given the paths of aec and of libaec's client."""
    return [
        sample_coder("aec -j 16", ours, 16),
        sample_coder("aec -j 64", ours, 64),
        sample_coder("libaec -j 16", theirs, 16),
        fixed("fpack -r", "fpack -r -Y -O TO FROM", "funpack -O TO FROM", form=fits),
        fixed("fpack -h", "fpack -h -s 0 -Y -O TO FROM", "funpack -O TO FROM", form=fits, takes=lambda kind: kind.pictures),
        flac(),
        jpeg_xl(1, slow=False),
        jpeg_xl(7, slow=True),
        zstd(3, slow=False),
        zstd(19, slow=True),
        Coder("xz -6", lambda kind: ["sh", "-c", "xz -6 -c FROM > TO"], lambda kind: ["sh", "-c", "xz -dc FROM > TO"], slow=True),
    ]


FILTERS = ["bitshuffle + LZ4", "shuffle + deflate"]


def by_hdf5(name, kind, samples, folder):
    """Writes samples to an HDF5 file with a filter, a chunk for each picture, and reads them again, in this process. Returns the
    file's bytes and the processor seconds of both. Returns None if h5py or the filter isn't installed."""
    try:
        import h5py
        import hdf5plugin
        import numpy
    except ImportError:
        return None
    words = hdf5plugin.Bitshuffle() if "bitshuffle" in name else {"compression": "gzip", "shuffle": True}
    path, written = os.path.join(folder, "file.h5"), numpy.array(kind.numbers(samples), f"<{'i' if kind.signed else 'u'}{kind.width}")
    begun = time.process_time()
    with h5py.File(path, "w") as file:
        file.create_dataset("samples", data=written, chunks=(PICTURE,), **words)
    middle = time.process_time()
    with h5py.File(path) as file:
        back = file["samples"][:]
    ended = time.process_time()
    if not (written == back).all():
        raise SystemExit(f"{name} doesn't give the samples back")
    return os.path.getsize(path), middle - begun, ended - middle
