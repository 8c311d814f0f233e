#!/usr/bin/env python3
"""Writes a file of space packets, to try space_packets.py with: sample_packets.py AEC FILE

The file has eight packets of APID 77. Each has a secondary header of four bytes, here zeros, and
one stream: 512 of the 4,096 samples of durations.raw, coded by `aec -n 12 -j 16 -r 32`.
"""

import os
import sys

from aec_runs import call, read_file, run_aec, write_whole

APID, HAS_SECONDARY, WHOLE = 77, 1 << 11, 3 << 14  # fields of the first four bytes of a packet
SECONDARY = bytes(4)
PART = 1024  # bytes of 512 samples
WORDS = ["-n", "12", "-j", "16", "-r", "32"]


def packet(sequence, field):
    """Returns a packet with the secondary header and this stream."""
    head = (HAS_SECONDARY | APID, WHOLE | sequence, len(SECONDARY + field) - 1)
    return b"".join(it.to_bytes(2, "big") for it in head) + SECONDARY + field


def write(aec, file):
    """Writes the file."""
    here = os.path.dirname(os.path.realpath(__file__))
    samples = read_file(os.path.join(here, "durations.raw"))
    parts = [samples[first : first + PART] for first in range(0, len(samples), PART)]
    packets = [packet(number, run_aec(aec, WORDS, part)) for number, part in enumerate(parts)]
    write_whole(file, b"".join(packets))


if __name__ == "__main__":
    call(__doc__, write, os.path.basename(sys.argv[0]), sys.argv[1:])
