"""Calls of the library with their results, for library.py: worked values, and refusals with their
number, place and text."""

import struct
from typing import NamedTuple

from lib import plain_coder
from lib.settings import Settings

ALL = 2**64 - 1
EIGHT, CODED = bytes(range(8)), bytes.fromhex("20092492")
FLAGS = {"signed": "s", "msb_first": "m", "three_byte": "3", "pad": "p", "restricted": "t", "even_blocks": "e"}


class Call(NamedTuple):
    """A call of the library: its name, the settings, the given bytes, count, first (the bit of decode_at) and length."""

    name: str
    settings: Settings
    given: bytes
    count: int = ALL
    first: int = 0
    length: int = 0

    def length_of(self, answer):
        """Returns the length that the call replies for a result: the number of its bytes, or of its offsets."""
        return len(answer) // 8 if self.name == "offsets" else len(answer)

    def words(self, room):
        s = self.settings
        flags = "".join(letter for name, letter in FLAGS.items() if getattr(s, name)) + ("" if s.preprocess else "N")
        numbers = [s.bits, s.block_size, s.interval, flags or "-", self.count, self.first, self.length, room]
        return [self.name, *map(str, numbers), self.given.hex()]


class Answer(NamedTuple):
    """The result of a call."""

    number: int
    place: int
    length: int
    answer: bytes
    text: str


USUAL = Settings()
# 48 zeros are three intervals of 14 bits (FORMAT: The whole stream).
ZEROS, ZERO_OFFSETS = bytes.fromhex("000400100040"), struct.pack("<3Q", 0, 14, 28)
ROWS = [
    (Call("encode", USUAL, EIGHT), CODED),
    (Call("decode", USUAL, CODED, 8), EIGHT),
    (Call("decode", USUAL, b"\x00\x78", 5), b"\x07" * 5),
    (Call("decode", USUAL, b"\x00\x78"), b"\x07" * 8),
    (Call("range", USUAL, CODED, ALL, 2, 3), b"\x02\x03\x04"),
    (Call("offsets", USUAL, ZEROS, 48), ZERO_OFFSETS),
    (Call("offsets", USUAL, ZEROS), ZERO_OFFSETS),
    (Call("offsets", USUAL, ZEROS, 16), ZERO_OFFSETS[:8]),
    (Call("offsets", USUAL, ZEROS, 0), b""),
    (Call("decode_at", USUAL, ZEROS, 17, 14), bytes(17)),
    (Call("decode_at", USUAL, ZEROS, ALL, 28), bytes(16)),
    (Call("decode_at", USUAL, b"\xff" + CODED, 5, 8), EIGHT[:5]),
    (Call("decode_at", USUAL, CODED, ALL, 32), b""),
]
# The samples of CODED with three numbers inserted, as library_calls.c does it.
EDITED = (Call("edit", USUAL, CODED, 8, 2), bytes(plain_coder.stream([0, 1, 9, 9, 9, 2, 3, 4, 5, 6, 7], USUAL)))
SCRIPTED = (EDITED[0]._replace(name="script"), EDITED[1])
APPLIED = (EDITED[0]._replace(name="apply"), EDITED[1])
NO_BIT = "the bit is past the stream's {} bits or, with padding, isn't a multiple of 8"
# Each call with its number, place and text. The eight samples take 3 + 8 + 2 + 6 * 3 = 31 bits.
REFUSED = [
    (Call("encode", USUAL._replace(bits=0), b""), 1, 0, "bits per sample must be 1 to 32"),
    (Call("encode", USUAL._replace(bits=33), b""), 1, 0, "bits per sample must be 1 to 32"),
    (Call("encode", USUAL._replace(block_size=12), b""), 2, 0, "block size must be 8, 16, 32 or 64"),
    (Call("decode", USUAL._replace(interval=0), b""), 3, 0, "reference sample interval must be 1 to 4096"),
    (Call("range", USUAL._replace(interval=4097), b""), 3, 0, "reference sample interval must be 1 to 4096"),
    (Call("encode", USUAL._replace(bits=5, restricted=True), b""), 4, 0, "restricted codes need 4 bits per sample or fewer"),
    (Call("encode", USUAL._replace(bits=4), b"\x0f\x10"), 5, 1, "sample 1 is out of range"),
    (Call("decode", USUAL, CODED[:3], 8), 6, 0, "coded data is cut short at bit 0"),
    (Call("decode", USUAL, CODED, 9), 6, 31, "coded data is cut short at bit 31"),
    (Call("decode", USUAL, CODED, 2**32 + 1), 9, 2**32, f"more than {2**32} samples"),
    (Call("range", USUAL, CODED, 8, 6, 3), 10, 8, "position outside the 8 samples"),
    (Call("range", USUAL, CODED, 8, 2**64 - 1, 1), 10, 8, "position outside the 8 samples"),
    (Call("offsets", USUAL._replace(bits=0), b""), 1, 0, "bits per sample must be 1 to 32"),
    (Call("offsets", USUAL, ZEROS, 49), 6, 42, "coded data is cut short at bit 42"),
    (Call("offsets", USUAL, ZEROS, 2**32 + 1), 9, 2**32, f"more than {2**32} samples"),
    (Call("decode_at", USUAL._replace(bits=0), b"", 0, 1), 1, 0, "bits per sample must be 1 to 32"),
    (Call("decode_at", USUAL, CODED, 2**32 + 1, 33), 20, 32, NO_BIT.format(32)),
    (Call("decode_at", USUAL, CODED, 0, 2**64 - 1), 20, 32, NO_BIT.format(32)),
    (Call("decode_at", USUAL._replace(pad=True), CODED, 0, 4), 20, 32, NO_BIT.format(32)),
    (Call("decode_at", USUAL, CODED, 2**32 + 1, 32), 9, 2**32, f"more than {2**32} samples"),
    (Call("decode_at", USUAL, CODED, 1, 31), 6, 31, "coded data is cut short at bit 31"),
    (Call("encode", USUAL._replace(block_size=9, even_blocks=True), b""), 17, 0, "block size must be even, 8 to 64"),
]
