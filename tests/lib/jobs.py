"""Whole runs with known results: each thing that the program does, on small and on large data."""

from typing import NamedTuple

from lib.spelling import bytes_of_bits


class Job(NamedTuple):
    """A run: its words before SOURCE and DEST, the bytes of SOURCE, and the bytes that DEST gets."""

    what: str
    words: list
    source: bytes
    answer: bytes
    script: bytes = b""


# 48 zeros, the same with a 1 at place 20, and the streams of both.
STILL, CHANGED = bytes(48), bytes(20) + b"\1" + bytes(27)
STILL_STREAM, CHANGED_STREAM = bytes.fromhex("00 04 00 10 00 40"), bytes.fromhex("00 04 40 30 C2 00 08")
SCRIPT = b"""truncate 32
overwrite 20 1
# sixteen zeros more
append 0 0 0 0 0 0 0 0 0 0 0 0 0 0 0 0
insert 7 3 3 0
remove 6 3
"""
EDIT_LINES = [1, 2, 4, 5, 6]  # lines on which an edit may lack memory, in any script that is run with refused growths

JOBS = [
    Job("coding", [], CHANGED, CHANGED_STREAM),
    Job("decoding with a count", ["-d", "--count", "48"], CHANGED_STREAM, CHANGED),
    Job("decoding without a count", ["-d"], CHANGED_STREAM, CHANGED),
    Job("a range", ["--range", "19:3", "--count", "48"], CHANGED_STREAM, b"\0\1\0"),
    Job("an edit", ["--edit", "script", "--count", "48"], STILL_STREAM, CHANGED_STREAM, SCRIPT),
    # On eight lines and more edits are applied as one; the last ones undo each other.
    Job("edits as one", ["--edit", "script", "--count", "48"], STILL_STREAM, CHANGED_STREAM, SCRIPT + b"insert 9 5\nremove 9 1\n" * 4),
]

# Blocks of ten samples, one in an interval. The edit appends a block with three samples.
TEN = ["--even-blocks", "-j", "10", "-r", "1"]
RAMP, RAMP_STREAM = bytes(range(10)), bytes.fromhex("20 09 24 92 48")
EVEN_JOBS = [
    Job("coding of blocks of ten", TEN, RAMP, RAMP_STREAM),
    Job("decoding of blocks of ten", ["-d", "--count", "10", *TEN], RAMP_STREAM, RAMP),
    Job("an edit of blocks of ten", ["--edit", "script", "--count", "10", *TEN], RAMP_STREAM, RAMP_STREAM + b"\0\x40", b"append 0 0 0\n"),
]

# The longest interval, of zeros: 64 segments of 64 blocks of 64 samples. Each segment is a run to its end: an identifier and the
# number 4. The first one also has the reference sample.
LONGEST = ["-j", "64", "-r", "4096"]
ZEROS, ZEROS_STREAM = bytes(64 * 64 * 64), bytes_of_bits("0000" + "0" * 8 + "00001" + "000000001" * 63)

# Bytes whose blocks no option writes in fewer bits than no compression: three ones and the bytes as they are.
NOISE = bytes(255 - 101 * i % 256 for i in range(100_000))
NOISE_STREAM = bytes_of_bits("".join("111" + "".join(f"{x:08b}" for x in NOISE[i : i + 8]) for i in range(0, len(NOISE), 8)))

# 520 intervals of a block each, of which 256 are appended at once, so the first edits are made before all intervals are there.
# The edits change nothing.
FEW, FEW_STREAM = NOISE[:4160], NOISE_STREAM[:4355]
EARLY_SCRIPT = b"""overwrite 1 %d
overwrite 9 %d %d
# the last places
overwrite 4158 %d %d
append
truncate 4160
""" % (FEW[1], *FEW[9:11], *FEW[4158:])
EARLY_JOB = Job("edits made early", ["-N", "-r", "1", "--edit", "script"], FEW_STREAM, FEW_STREAM, EARLY_SCRIPT)

# Results that no pipe holds at once.
LARGE_JOBS = [
    Job("coding of noise", ["-N"], NOISE, NOISE_STREAM),
    Job("decoding of noise", ["-N", "-d"], NOISE_STREAM, NOISE),
    Job("decoding of many zeros", ["-d", *LONGEST], ZEROS_STREAM, ZEROS),
    Job("a range of many zeros", ["--range", "7:200000", *LONGEST], ZEROS_STREAM, bytes(200_000)),
    Job("an edit of noise", ["-N", "-r", "4096", "--edit", "script"], NOISE_STREAM, NOISE_STREAM, b"overwrite 1 154\n"),
]
