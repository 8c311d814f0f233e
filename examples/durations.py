#!/usr/bin/env python3
"""Measures how long this machine takes to add up a list of 400 numbers, 4,096 times in a row:
durations.py FILE

Writes each time in units of 16 ns as an unsigned sample of 16 bits, least significant byte first. A
time that is too long for such a sample is written as the greatest sample.
"""

import os
import struct
import sys
import time

from aec_runs import call, write_whole


def measure(file):
    """Measures the times, and writes them to a file."""
    numbers = list(range(400))
    times = []
    for _ in range(4096):
        start = time.perf_counter_ns()
        sum(numbers)
        times.append(min((time.perf_counter_ns() - start) // 16, 65535))
    write_whole(file, struct.pack("<4096H", *times))


if __name__ == "__main__":
    call(__doc__, measure, os.path.basename(sys.argv[0]), sys.argv[1:])
