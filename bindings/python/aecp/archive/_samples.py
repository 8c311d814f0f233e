"""The samples of a file as an array."""

from __future__ import annotations

import math
import operator
import os
import threading
from collections import OrderedDict
from collections.abc import Iterator
from typing import Any, NamedTuple, Optional, Union

from aecp.archive._arrays import facts_dtype, flat_array, shaped
from aecp.archive._file import ArchiveFile, opened
from aecp.archive._form import Facts, Range, Refused, shown
from aecp.archive._index import Group
from aecp.buffers import numpy_if_there
from aecp.calls import needed_numpy

KEPT = 8 << 20  # bytes of decoded groups that are kept for the next read
MOST_KEPT = 1 << 20  # bytes of a decoded group that is kept
SPAN = 1 << 16  # samples that are read at once, even if only some are asked for


class Axis(NamedTuple):
    """What is asked for along one axis: `length` places, from `first` on in steps; and how far its
    places are apart in the list of all samples."""

    first: int
    step: int
    length: int
    stride: int

    def part(self, first: int, length: int) -> Axis:
        """Returns some of the places of this axis."""
        return self._replace(first=self.first + first * self.step, length=length)


class Samples:
    """The samples of FILE.aec as an array that can be read: aecp.open returns it.

        with aecp.open("scan.aec") as samples:
            samples[10**6 : 10**6 + 10]          # reads only what it needs
            numpy.asarray(samples)

    Indexing returns numpy arrays, in the shape and with the dtype that were recorded. Without numpy
    a part of a list is an array of the module array, and there are no parts of other shapes. Each
    part that is read is checked by its CRC. Threads may share it. Copies and pickles open the file
    anew.

    Raises IndexError for places outside; Damaged if what is read is damaged; OSError.
    """

    def __init__(self, file: ArchiveFile, path: Optional[str] = None) -> None:
        self.file, self.facts = file, file.facts
        self.path = None if path is None else os.path.abspath(path)
        self.options, self.count = self.facts.options, self.facts.count
        self.shape = (self.count,) if self.facts.shape is None else self.facts.shape
        self.ndim, self.size = len(self.shape), self.count
        self._lock = threading.Lock()
        self._kept: OrderedDict[int, bytearray] = OrderedDict()
        self._kept_bytes = 0

    @property
    def dtype(self) -> Any:
        """The numpy dtype of the samples; without numpy its text, such as "<i2"."""
        numpy, text = numpy_if_there(), facts_dtype(self.facts)
        return text if numpy is None else numpy.dtype(text)

    @property
    def nbytes(self) -> int:
        """The bytes of the whole array."""
        return self.size * int(facts_dtype(self.facts)[2])

    def __len__(self) -> int:
        if not self.shape:
            raise TypeError("an array without dimensions has no length")
        return self.shape[0]

    def __getitem__(self, key: Any) -> Any:
        numpy = numpy_if_there()
        if numpy is None or self.ndim == 1 and is_plain(key):
            return self._plain_item(key)
        keys = key if isinstance(key, tuple) else (key,)
        if not all(is_basic(it) for it in keys):
            return numpy.asarray(self)[key]
        axes, shape = axes_of(keys, self.shape)
        if not size_of(axes):
            made = numpy.empty(0, self.dtype)
        elif is_in_one_piece(axes):
            made = self._read(sum(it.first * it.stride for it in axes), size_of(axes))
        else:
            made = numpy.empty([axis.length for axis in axes], self.dtype)
            self._fill(made, axes)
        return made.reshape(shape)[()]

    def _plain_item(self, key: Any) -> Any:
        """Returns a sample or a part of a list, also without numpy."""
        if self.ndim != 1 or not (isinstance(key, slice) or hasattr(key, "__index__")):
            needed_numpy()
        if not isinstance(key, slice):
            return self._read(place_of(key, self.count), 1)[0]
        places = range(self.count)[key]
        if places.step == 1:
            return self._read(places.start, len(places)) if places else self._read(0, 0)
        made, number = self._read(0, 0), max(SPAN // abs(places.step), 1)
        for at in range(0, len(places), number):
            part = places[at : at + number]
            least, most = min(part[0], part[-1]), max(part[0], part[-1])
            made.extend(self._read(least, most - least + 1)[:: part.step])
        return made

    def _fill(self, made: Any, axes: list[Axis]) -> None:
        """Fills an array with what is asked for along some axes. What lies close together is
        read at once; else both halves of the longest axis are filled."""
        spans = [axis.stride * axis.step * (axis.length - 1) for axis in axes]
        start = sum(axis.first * axis.stride for axis in axes)
        first = start + sum(span for span in spans if span < 0)
        span = sum(abs(it) for it in spans) + 1
        if span <= SPAN or span <= 2 * made.size:
            flat = self._read(first, span)
            strides = [axis.stride * axis.step * flat.itemsize for axis in axes]
            tricks = needed_numpy().lib.stride_tricks
            made[...] = tricks.as_strided(flat[start - first :], made.shape, strides)
            return
        place = max(range(len(axes)), key=lambda it: abs(spans[it]))
        axis, half = axes[place], axes[place].length // 2
        before = (slice(None),) * place
        for first, length in ((0, half), (half, axis.length - half)):
            part = axes[:place] + [axis.part(first, length)] + axes[place + 1 :]
            self._fill(made[(*before, slice(first, first + length))], part)

    def _read(self, first: int, length: int) -> Any:
        """Returns samples as an array of one dimension."""
        return flat_array(self.facts, length, self._pieces(first, length))

    def _pieces(self, first: int, length: int) -> Iterator[Any]:
        """Yields stored samples. Groups of which only a part is needed are kept for the next
        read."""
        end, storage = first + length, self.options.storage
        for group in self.file.index.groups(first, length):
            start, stop = max(first - group.first, 0), min(end - group.first, group.length)
            is_part = stop - start < group.length
            if is_part and group.length * storage <= MOST_KEPT:
                yield memoryview(self._kept_group(group))[start * storage : stop * storage]
            else:
                yield from self.file.decoded(group, start, stop)

    def _kept_group(self, group: Group) -> bytearray:
        """Returns the stored samples of a group, from those that are kept if it is among them."""
        with self._lock:
            found = self._kept.get(group.number)
            if found is not None:
                self._kept.move_to_end(group.number)
                return found
        made = bytearray().join(self.file.decoded(group))
        with self._lock:
            if group.number not in self._kept:
                self._kept[group.number] = made
                self._kept_bytes += len(made)
            while self._kept_bytes > KEPT:
                self._kept_bytes -= len(self._kept.popitem(last=False)[1])
        return made

    def __iter__(self) -> Iterator[Any]:
        """Yields the samples, or the parts along the first axis, in constant memory."""
        if self.ndim == 1:
            for piece in self.file.pieces():
                yield from flat_array(self.facts, len(piece) // self.options.storage, [piece])
            return
        needed_numpy()
        number, row = len(self), math.prod(self.shape[1:])
        if row == 0:
            yield from (self[place] for place in range(number))
            return
        yield from self._rows(row, row * self.options.storage)

    def _rows(self, row: int, size: int) -> Iterator[Any]:
        """Yields the parts along the first axis, of `row` samples in `size` bytes each."""
        held = bytearray()
        for piece in self.file.pieces():
            held += piece
            number = len(held) // size
            flat = flat_array(self.facts, number * row, [held[: number * size]])
            del held[: number * size]
            yield from flat.reshape(number, *self.shape[1:])

    def __array__(self, dtype: Any = None, copy: Optional[bool] = None) -> Any:
        if copy is False:
            raise ValueError("the samples are decoded, so an array of them is always a copy")
        made = shaped(self.facts, flat_array(self.facts, self.count, self.file.pieces()))
        return made if dtype is None else made.astype(dtype, copy=False)

    def bad_ranges(self) -> list[Range]:
        """Reads everything. Returns the samples that are lost by damage, in order, as ranges of
        places in the list of all samples."""
        joined: list[Range] = []
        for lost in self.file.bad_groups():
            if joined and joined[-1].first + joined[-1].length == lost.first:
                lost = Range(joined[-1].first, joined.pop().length + lost.length)
            joined.append(lost)
        return joined

    def __reduce__(self) -> Any:
        if self.path is None:
            raise TypeError("samples of a file in memory can't be copied or pickled")
        return reopened, (self.path, self.facts)

    def __dask_tokenize__(self) -> Any:
        return type(self).__name__, self.facts.samples.sha256, self.shape, str(self.dtype)

    def __repr__(self) -> str:
        name = "" if self.path is None else f" {shown(os.path.basename(self.path))}"
        return f"<aecp.Samples{name}: shape {self.shape}, dtype {self.dtype}>"

    def close(self) -> None:
        """Closes the file. May be called twice."""
        self.file.close()

    def __enter__(self) -> Samples:
        return self

    def __exit__(self, *_: Any) -> None:
        self.close()


def is_plain(key: Any) -> bool:
    """Returns whether a key is a place, or a slice whose places lie one after the other."""
    return type(key) is int or type(key) is slice and key.step in (None, 1)


def is_basic(key: Any) -> bool:
    """Returns whether a key is a place, a slice, Ellipsis or None, and no array or bool."""
    if key is None or key is Ellipsis or isinstance(key, slice):
        return True
    return hasattr(key, "__index__") and not isinstance(key, bool) and not getattr(key, "ndim", 0)


def size_of(axes: list[Axis]) -> int:
    """Returns how many samples are asked for."""
    return math.prod(axis.length for axis in axes)


def is_in_one_piece(axes: list[Axis]) -> bool:
    """Returns whether the samples lie one after the other in the list of all samples."""
    size = 1
    for axis in reversed(axes):
        if axis.length > 1 and (axis.step != 1 or axis.stride != size):
            return False
        size *= axis.length
    return True


def place_of(key: Any, length: int) -> int:
    """Returns a place that may count from the end. Raises IndexError if it is outside."""
    place = operator.index(key)
    if not -length <= place < length:
        raise IndexError(f"there is no place {place} along an axis of {length}")
    return place + length if place < 0 else place


def axes_of(keys: tuple[Any, ...], shape: tuple[int, ...]) -> tuple[list[Axis], list[int]]:
    """Returns what keys ask for along each axis, and the shape of the result. Raises IndexError."""
    given = len(keys) - sum(key is None or key is Ellipsis for key in keys)
    if given > len(shape) or sum(key is Ellipsis for key in keys) > 1:
        raise IndexError(f"these are too many indices for an array of {len(shape)} dimensions")
    if not any(key is Ellipsis for key in keys):
        keys = (*keys, Ellipsis)
    axes: list[Axis] = []
    result: list[int] = []
    for key in keys:
        if key is None:
            result.append(1)
            continue
        missing = len(shape) - given if key is Ellipsis else 1
        for _ in range(missing):
            size = shape[len(axes)]
            if key is Ellipsis or isinstance(key, slice):
                places = range(size)[slice(None) if key is Ellipsis else key]
                axes.append(Axis(places.start, places.step, len(places), 0))
                result.append(len(places))
            else:
                axes.append(Axis(place_of(key, size), 1, 1, 0))
    return with_strides(axes, shape), result


def with_strides(axes: list[Axis], shape: tuple[int, ...]) -> list[Axis]:
    """Returns the axes of an array with their strides, the last one with 1."""
    made: list[Axis] = []
    stride = 1
    for axis, size in zip(reversed(axes), reversed(shape)):
        made.append(axis._replace(stride=stride))
        stride *= size
    return made[::-1]


def reopened(path: str, facts: Facts) -> Samples:
    """Opens a file that a copy or a pickle names. Raises Refused if its samples aren't those of the
    original any more; and as open."""
    samples = open(path)
    if samples.facts.samples != facts.samples or samples.shape != (facts.shape or (facts.count,)):
        samples.close()
        raise Refused(f"{shown(path)} has other samples than when the object was copied or pickled")
    return samples


def open(path: Union[str, bytes, "os.PathLike[Any]"], limit: Optional[int] = None) -> Samples:
    """Opens FILE.aec as an array.

    limit: the most samples that it may have. Use it on files that you don't trust.

    Raises OSError; Refused if it is no regular file, or has more samples than the limit; Damaged if
    its trailer or its index is damaged.
    """
    name = os.fsdecode(path)
    file = opened(name, limit)
    try:
        file.index  # noqa: B018  it is read here, so that damage is noticed here
        return Samples(file, name)
    except BaseException:
        file.close()
        raise
