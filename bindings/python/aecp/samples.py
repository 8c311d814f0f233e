"""Whole numbers that are passed to C as samples."""

from __future__ import annotations

from array import array
from collections.abc import Iterable
from typing import Any, Union

from aecp.buffers import numpy_if_there, numpy_type
from aecp.options import whole

Samples = Union[int, Iterable[int]]
TEXTS = (bytes, bytearray, memoryview, str)


class Numbers:
    """Samples as numbers of 64 bits in one piece of memory, which it keeps alive."""

    def __init__(self, samples: Any) -> None:
        self.samples: Any = numbers_in(samples)
        self.view = memoryview(self.samples)  # as long as it exists, the memory can't be freed or resized
        self.len = len(self.samples)

    @property
    def at(self) -> int:
        """The address of the memory."""
        if isinstance(self.samples, array):
            return self.samples.buffer_info()[0]
        return int(self.samples.ctypes.data)

    def least(self) -> int:
        return int(self.samples.min() if hasattr(self.samples, "min") else min(self.samples))

    def most(self) -> int:
        return int(self.samples.max() if hasattr(self.samples, "max") else max(self.samples))


def several(samples: Any) -> Any:
    """Returns the samples unchanged. Raises TypeError for a single number, also of numpy: it is no list."""
    if not hasattr(samples, "__iter__") or getattr(samples, "shape", None) == ():
        raise TypeError(f"samples must be a list or another iterable, not {type(samples).__name__}")
    return samples


def numbers_in(samples: Any) -> Any:
    """Returns a sample, or several, as an array('q'), or as a numpy array of the same numbers. Raises OverflowError if a number
    doesn't fit 64 bits, TypeError if one isn't a whole number."""
    if isinstance(samples, array):
        return of_array(samples)
    if isinstance(samples, TEXTS):
        name = type(samples).__name__
        raise TypeError(f"{name} can't be taken as samples: pass numbers, for example list(data)")
    if isinstance(samples, (numpy_type("ndarray"), numpy_type("generic"))):
        return of_numpy(samples)
    if isinstance(samples, range):
        return array("q", samples)
    if not hasattr(samples, "__iter__"):
        return array("q", [whole(samples, "a sample")])
    if not isinstance(samples, (list, tuple)):
        samples = list(samples)
    if set(map(type, samples)) <= {int}:
        return array("q", samples)
    return array("q", [whole(sample, "a sample") for sample in samples])


def of_array(samples: "array[Any]") -> "array[int]":
    """Returns an array of the standard library as one of 64-bit numbers."""
    if samples.typecode == "q":
        return samples
    if samples.typecode not in "bBhHiIlLQ":
        raise TypeError(f"samples are whole numbers, not an array of the type {samples.typecode!r}")
    return array("q", samples)


def of_numpy(samples: Any) -> Any:
    """Returns an array of numpy, or a single number of it, as an array of 64-bit numbers."""
    numpy = numpy_if_there()
    if isinstance(samples, numpy.ma.MaskedArray):
        raise TypeError("an array with a mask can't be taken as samples: use its filled() or compressed()")
    samples = numpy.asarray(samples)
    if samples.dtype.kind not in "iu":
        raise TypeError(f"samples are whole numbers, not an array of {samples.dtype}")
    if samples.ndim > 1:
        raise TypeError(f"samples are a list, not an array of {samples.ndim} dimensions: use its ravel()")
    if samples.dtype.kind == "u" and samples.dtype.itemsize == 8 and samples.size and samples.max() >= 2**63:
        raise OverflowError("a sample doesn't fit 64 bits with a sign")
    return numpy.ascontiguousarray(samples.reshape(-1), numpy.int64)
