"""Streams worked out by hand, by the rules of docs/FORMAT.md: their samples, or their faults."""

from typing import NamedTuple, Optional

from lib.settings import Settings
from lib.spelling import bytes_of_bits


class Worked(NamedTuple):
    """A stream, and the samples that are read from it with that count, or a fault instead."""

    stream: bytes
    settings: Settings
    count: Optional[int]
    samples: Optional[list]
    fault: Optional[str] = None


def of_hex(text):
    return bytes.fromhex(text)


ZEROS = of_hex("00 04 00 10 00 40")  # 48 zeros
DEFAULT, PADDED, PLAIN = Settings(), Settings(pad=True), Settings(preprocess=False)
LONG = Settings(interval=64)
TEN = Settings.of_blocks(10, interval=1)
ONE_BIT = Settings(bits=1, preprocess=False)
EXTREMES = [-(2**31), 2**31 - 1] * 4

# Streams as this program codes them, with the true count.
EXAMPLES = [
    Worked(of_hex("00 08"), DEFAULT, 8, [0] * 8),
    Worked(of_hex("20 09 24 92"), DEFAULT, 8, list(range(8))),
    Worked(of_hex("20 09 24 92 48"), TEN, 10, list(range(10))),
    Worked(of_hex("00 78"), DEFAULT, 5, [7] * 5),
    Worked(of_hex("00 04 00 20"), DEFAULT, 17, [0] * 17),
    Worked(of_hex("00 04 00 08"), PADDED, 17, [0] * 17),
    Worked(of_hex("00 00 80"), LONG, 40, [0] * 40),
    Worked(of_hex("00 22 F0"), Settings(interval=8, preprocess=False), 56, [0] * 48 + [1] + [0] * 7),
    Worked(of_hex("80 01 80"), Settings(bits=2, interval=1, restricted=True), 8, [0] * 7 + [3]),
    Worked(ZEROS, DEFAULT, 48, [0] * 48),
    Worked(of_hex("00 04 40 30 C2 00 08"), DEFAULT, 48, [0] * 20 + [1] + [0] * 27),
    Worked(of_hex("FC 00 00 00 07" + "FF" * 27 + "F8"), Settings(bits=32, signed=True), 8, EXTREMES),
    Worked(of_hex("00 00 84"), Settings(interval=128), 520, [0] * 520),
]


def cut(bit):
    return f"coded data is cut short at bit {bit}"


# Other streams and counts: without a count, faults, other coders' choices.
READINGS = [
    Worked(of_hex("00 78"), DEFAULT, None, [7] * 8),
    Worked(of_hex("00 78"), DEFAULT, 9, None, cut(13)),
    Worked(of_hex("00 78"), DEFAULT, 0, []),
    Worked(of_hex("00 78"), DEFAULT, 2**32, None, cut(13)),
    Worked(of_hex("00 78"), DEFAULT, 2**32 + 1, None, "more than 4294967296 samples"),
    Worked(of_hex("00 04 00 08"), PADDED, None, [0] * 24),
    Worked(of_hex("00 00 80"), LONG, None, [0] * 512),
    Worked(of_hex("20 09 24"), DEFAULT, None, None, cut(0)),
    Worked(of_hex("00"), DEFAULT, None, []),
    Worked(of_hex("00"), DEFAULT, 8, None, cut(0)),
    Worked(of_hex("00 02"), DEFAULT, None, None, "zero run too long at bit 0"),
    Worked(of_hex("27 F8"), ONE_BIT, 8, None, "value too large at bit 0"),
    Worked(of_hex("E0 00"), PLAIN, None, None, cut(0)),
    Worked(of_hex("40 15 55 80"), DEFAULT, None, list(range(8))),
    Worked(of_hex("40 15 55 58 00"), TEN, None, list(range(10))),
    Worked(of_hex("10 07 80"), DEFAULT, None, [0] * 8),
    Worked(of_hex("E0 00 20 40 60 80 A0 C0 E0"), PLAIN, None, list(range(8))),
    # a stream of three intervals, cut after each byte
    *(Worked(ZEROS[:length], DEFAULT, None, [0] * (length // 2 * 16)) for length in range(7)),
    *(Worked(ZEROS[:length], DEFAULT, 48, None, cut(length // 2 * 14)) for length in range(6)),
    Worked(ZEROS, DEFAULT, 48, [0] * 48),
    # the longest remainder, a run of 70, and pairs around the greatest value
    Worked(of_hex("00 00 80"), Settings(block_size=64, interval=4096), None, [0] * 4096),
    Worked(bytes_of_bits("0" * 82 + "1"), Settings(interval=4096), None, None, "zero run too long at bit 0"),
    Worked(bytes_of_bits("0001" + "0" * 32895 + "1" + "111"), PLAIN, 8, [0, 255] + [0] * 6),
    Worked(bytes_of_bits("0001" + "0" * 32896 + "1" + "111"), PLAIN, 8, None, "value too large at bit 0"),
]
