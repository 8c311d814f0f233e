"""What a script makes of a list of samples: ranges of the list, and values of the script, in order.
So an edit is checked and undone without holding the samples."""

from __future__ import annotations

import hashlib
import itertools
from array import array
from collections.abc import Iterable, Iterator
from typing import Any, NamedTuple, Optional

from aecp.archive._file import ArchiveFile
from aecp.archive._form import Sum
from aecp.archive._index import Group
from aecp.archive._scripts import Edit, Store

AT_ONCE = 1 << 16  # values that are stored as bytes at once
MOST_PARTS = 256  # parts of a block of a result


class Part(NamedTuple):
    """Some samples of a result: `length` samples of the list from place `first` on; or, with
    `values`, so many of these."""

    first: int
    length: int
    values: Optional[array[int]] = None

    def cut(self, first: int, length: int) -> Part:
        """Returns `length` samples of this part, from its sample `first` on."""
        return Part(self.first + first, length, self.values)


class Exchange(NamedTuple):
    """The samples of the list from place `first` on and before place `end`, and the values that
    replaced them."""

    first: int
    end: int
    values: list[Part]

    def stored(self, store: Store) -> bytes:
        """Returns the values as stored samples."""
        return b"".join(piece for part in self.values for piece in stored(part, store))


class Result:
    """A list of `count` samples, to which edits are applied. The edits must fit."""

    def __init__(self, count: int, edits: Iterable[Edit] = ()) -> None:
        self.first_count = self.count = count
        # The parts in order, in blocks; and how many samples each block has. So an edit passes
        # over blocks and over the parts of one block, wherever its place is.
        self._blocks: list[list[Part]] = [[Part(0, count)] if count else []]
        self._lengths = [count]
        for edit in edits:
            self.apply(edit)

    def apply(self, edit: Edit) -> None:
        """Applies an edit."""
        first, end = edit.exchanged(self.count)
        self._remove(first, end - first)
        if edit.values:
            self._insert(first, Part(0, len(edit.values), edit.values))
        self.count += len(edit.values) - (end - first)

    def _cut(self, place: int) -> tuple[int, int]:
        """Returns the block and the index of the part that begins at a place of the result; the end
        of the last block if none does. A part that contains the place is cut in two."""
        number = 0
        while number + 1 < len(self._blocks) and place >= self._lengths[number]:
            place -= self._lengths[number]
            number += 1
        block, index = self._blocks[number], 0
        while index < len(block) and place >= block[index].length:
            place -= block[index].length
            index += 1
        if place:
            part = block[index]
            block[index : index + 1] = [part.cut(0, place), part.cut(place, part.length - place)]
            index += 1
        return number, index

    def _remove(self, place: int, length: int) -> None:
        """Removes samples from a place on."""
        number, index = self._cut(place)
        while length > 0:
            block = self._blocks[number]
            if index == len(block):
                number, index = number + 1, 0
                continue
            part = block[index]
            gone = min(part.length, length)
            block[index : index + 1] = [part.cut(gone, part.length - gone)] if gone < part.length else []
            self._lengths[number] -= gone
            length -= gone
        if not all(self._lengths):
            self._blocks = [it for it in self._blocks if it] or [[]]
            self._lengths = [it for it in self._lengths if it] or [0]

    def _insert(self, place: int, part: Part) -> None:
        """Inserts samples at a place. A block that gets too long is cut in two."""
        number, index = self._cut(place)
        block = self._blocks[number]
        block.insert(index, part)
        self._lengths[number] += part.length
        if len(block) > MOST_PARTS:
            halves = [block[: MOST_PARTS // 2], block[MOST_PARTS // 2 :]]
            self._blocks[number : number + 1] = halves
            self._lengths[number : number + 1] = [sum(it.length for it in half) for half in halves]

    def parts(self) -> Iterator[Part]:
        """Yields the parts of the result in order."""
        return itertools.chain.from_iterable(self._blocks)

    def exchanges(self) -> Iterator[Exchange]:
        """Yields what was replaced, removed or inserted, in order. The places are those of the
        list."""
        at, values = 0, []
        for part in self.parts():
            if part.values is not None:
                values.append(part)
                continue
            if part.first > at or values:
                yield Exchange(at, part.first, values)
            at, values = part.first + part.length, []
        if at < self.first_count or values:
            yield Exchange(at, self.first_count, values)

    def sum(self, kept: ArchiveFile) -> Sum:
        """Returns the sum of the result, if the list is that of a kept file. Raises Damaged,
        OSError."""
        store, reader = Store(kept.facts.options), Forward(kept)
        digest = hashlib.sha256()
        for part in self.parts():
            is_read = part.values is None
            for piece in reader.read(part.first, part.length) if is_read else stored(part, store):
                digest.update(piece)
        return Sum(self.count * store.width, digest.hexdigest())


def stored(part: Part, store: Store) -> Iterator[bytes]:
    """Yields the values of a part as stored samples, in pieces."""
    values, end = part.values or array("q"), part.first + part.length
    for first in range(part.first, end, AT_ONCE):
        yield store.bytes_of(values[first : min(first + AT_ONCE, end)])


class Forward:
    """Reads the samples of a kept file from the front on. However many ranges are read, each group
    is decoded once, and a group without samples of a range isn't read."""

    def __init__(self, kept: ArchiveFile) -> None:
        self._kept, self._width = kept, kept.facts.options.storage
        self._group: Optional[Group] = None
        self._pieces: Iterator[bytearray] = iter(())
        self._piece: Any = memoryview(b"")
        self._end = 0  # the place after the last sample of the piece

    def read(self, first: int, length: int) -> Iterator[memoryview]:
        """Yields stored samples, in pieces. A range may not begin before the end of the last one.
        Raises as ArchiveFile.pieces."""
        while length > 0:
            while not self._end - len(self._piece) // self._width <= first < self._end:
                self._next(first)
            skipped = len(self._piece) - (self._end - first) * self._width
            piece = self._piece[skipped : skipped + length * self._width]
            first += len(piece) // self._width
            length -= len(piece) // self._width
            yield piece

    def _next(self, first: int) -> None:
        """Decodes the next piece of the group that contains a sample."""
        group = self._group
        if group is None or not group.first <= first < group.first + group.length:
            self._group = group = self._kept.index.group_of(first)
            self._pieces, self._end = self._kept.decoded(group), group.first
        self._piece = memoryview(next(self._pieces))
        self._end += len(self._piece) // self._width
