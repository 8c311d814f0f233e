"""How samples are coded and stored: the options that the tests of the built program use."""

import struct
from typing import NamedTuple

STANDARD_BLOCK_SIZES = [8, 16, 32, 64]
EVEN_BLOCK_SIZES = range(8, 65, 2)


class Settings(NamedTuple):
    """How samples are coded and stored. The defaults are those of the program."""

    bits: int = 8
    block_size: int = 8
    interval: int = 2
    signed: bool = False
    preprocess: bool = True
    msb_first: bool = False
    three_byte: bool = False
    pad: bool = False
    restricted: bool = False
    even_blocks: bool = False

    @classmethod
    def by_chance(cls, chance, widths, block_sizes, intervals, restricted):
        """Returns random settings, with width, J and r from lists. The share `restricted` has restricted codes, and a width of at most 4.
        A third has the flag for even block sizes, and any even J."""
        is_restricted, is_even = chance.random() < restricted, chance.random() < 1 / 3
        return cls(
            bits=chance.choice([1, 2, 3, 4] if is_restricted else widths),
            block_size=chance.choice(EVEN_BLOCK_SIZES if is_even else block_sizes),
            interval=chance.choice(intervals),
            signed=chance.random() < 0.5,
            preprocess=chance.random() < 0.7,
            msb_first=chance.random() < 0.5,
            three_byte=chance.random() < 0.5,
            pad=chance.random() < 0.3,
            restricted=is_restricted,
            even_blocks=is_even,
        )

    @classmethod
    def of_blocks(cls, block_size=8, **more):
        """Returns settings with that J, and with the flag for even block sizes if J needs it."""
        return cls(block_size=block_size, even_blocks=block_size not in STANDARD_BLOCK_SIZES, **more)

    def options(self):
        flags = {
            "-s": self.signed,
            "-N": not self.preprocess,
            "-m": self.msb_first,
            "-3": self.three_byte,
            "-p": self.pad,
            "-t": self.restricted,
            "--even-blocks": self.even_blocks,
        }
        numbers = ["-n", str(self.bits), "-j", str(self.block_size), "-r", str(self.interval)]
        return numbers + [flag for flag, is_set in flags.items() if is_set]

    def least(self):
        return -(1 << (self.bits - 1)) if self.signed else 0

    def most(self):
        return (1 << (self.bits - 1)) - 1 if self.signed else (1 << self.bits) - 1

    def holds(self, x):
        return self.least() <= x <= self.most()

    def interval_len(self):
        return self.block_size * self.interval

    def storage(self):
        if self.bits <= 8:
            return 1
        if self.bits <= 16:
            return 2
        return 3 if self.three_byte and self.bits <= 24 else 4

    def stored(self, samples, used_bits=None):
        """Returns the bytes of a file of these samples: all bits of the stored numbers, with copies of the sign, or only the lowest
        `used_bits` bits and zeros above them."""
        size = self.storage()
        mask = (1 << (8 * size if used_bits is None else used_bits)) - 1
        words = struct.pack(f">{len(samples)}I", *(x & mask for x in samples))
        out = bytearray(size * len(samples))
        for place in range(size):
            out[place::size] = words[4 - size + place if self.msb_first else 3 - place :: 4]
        return bytes(out)
