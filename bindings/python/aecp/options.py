"""The options of a stream."""

from __future__ import annotations

import operator
from dataclasses import dataclass

from aecp.buffers import numpy_type

NUMBERS = ("bits", "block_size", "interval")
FLAGS = ("signed", "msb_first", "three_byte", "preprocess", "pad", "restricted", "even_blocks")


@dataclass(frozen=True)
class Options:
    """How samples are stored and coded. Decoding needs the same options.

    bits         bits per sample, 1 to 32
    block_size   samples in a block: 8, 16, 32 or 64, and with even_blocks every even number from 8 to 64
    interval     blocks in a reference sample interval, 1 to 4096
    signed       samples are signed
    msb_first    a stored sample has its most significant byte first
    three_byte   samples of 17 to 24 bits are stored in three bytes; they can't be arrays here, only bytes
    preprocess   predict each sample from the one before
    pad          fill each interval up to a byte boundary
    restricted   the restricted set of code options, for at most 4 bits
    even_blocks  see block_size

    Raises TypeError if a number isn't a whole number, or a flag isn't a bool of Python or numpy. The first call with options that
    the format doesn't have raises OptionsRefused, or ValueError for a number that doesn't fit 32 bits.
    """

    bits: int
    block_size: int = 16
    interval: int = 128
    signed: bool = False
    msb_first: bool = False
    three_byte: bool = False
    preprocess: bool = True
    pad: bool = False
    restricted: bool = False
    even_blocks: bool = False

    def __post_init__(self) -> None:
        for name in FLAGS:
            value = getattr(self, name)
            if type(value) is not bool:
                if not isinstance(value, numpy_type("bool_")):
                    raise TypeError(f"{name} must be True or False, not {value!r}")
                object.__setattr__(self, name, bool(value))
        for name in NUMBERS:
            value = getattr(self, name)
            if type(value) is not int:
                object.__setattr__(self, name, whole(value, name))

    @property
    def storage(self) -> int:
        """Bytes of a stored sample, 1 to 4."""
        if self.bits <= 8:
            return 1
        if self.bits <= 16:
            return 2
        return 3 if self.three_byte and self.bits <= 24 else 4

    @property
    def dtype(self) -> str:
        """The numpy dtype of stored samples, as a text such as '<u2'. Raises ValueError if samples have three bytes."""
        storage = self.storage
        if storage == 3:
            raise ValueError("numpy has no integers of three bytes: use bytes")
        return f"{'>' if self.msb_first else '<'}{'i' if self.signed else 'u'}{storage}"

    @property
    def least(self) -> int:
        """The least sample."""
        return -(1 << self.bits - 1) if self.signed else 0

    @property
    def most(self) -> int:
        """The greatest sample."""
        return (1 << self.bits - self.signed) - 1


def whole(value: object, name: str) -> int:
    """Returns a whole number as an int. Raises TypeError for anything else, also for a bool of Python or numpy."""
    is_bool = isinstance(value, bool) or getattr(getattr(value, "dtype", None), "kind", "") == "b"
    if is_bool or not hasattr(value, "__index__"):
        raise TypeError(f"{name} must be a whole number, not {value!r}")
    return operator.index(value)
