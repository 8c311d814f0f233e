"""The index of a file: where its groups begin.

A group is the fewest whole intervals with at least 16 KiB of code; the last group may have less. An
entry of the index has 16 bytes: the group's first bit, its first interval, and the CRC-32 of the
bytes that contain its bits.
"""

from __future__ import annotations

import struct
from collections.abc import Iterable, Iterator
from typing import NamedTuple, Optional

from aecp.archive._form import MOST_SAMPLES_A_BYTE, Damaged, Facts, interval_of, most_stream

ENTRY = struct.Struct("<QII")
GROUP_BITS = 16 * 1024 * 8


class Group(NamedTuple):
    """One group of a file.

    number          its place in the index, counted from 0
    first, length   its samples
    bit, end        its first bit in the stream, and the bit after its last one
    crc             the CRC-32 of the bytes that contain these bits
    """

    number: int
    first: int
    length: int
    bit: int
    end: int
    crc: int

    @property
    def at(self) -> int:
        """The place of its first byte in the stream."""
        return self.bit // 8

    @property
    def size(self) -> int:
        """The number of its bytes."""
        return -(-self.end // 8) - self.at


def index_bytes(entries: Iterable[tuple[int, int, int]]) -> bytes:
    """Returns the bytes of an index. An entry is a group's first bit, first interval and CRC-32."""
    return b"".join(ENTRY.pack(*entry) for entry in entries)


def bad_index(text: str) -> Damaged:
    """Returns the exception for a damaged index."""
    return Damaged("bad index", f"the index is damaged: {text}")


def judge_size(size: int, facts: Facts) -> None:
    """Raises Damaged("bad index") if an index can't have so many bytes."""
    number, rest = divmod(size, ENTRY.size)
    intervals = -(-facts.count // interval_of(facts.options))
    most = min(intervals, 1 + 8 * facts.stream.bytes // GROUP_BITS)
    if rest or number > most or (number > 0) != (intervals > 0):
        raise bad_index("it has an impossible number of bytes")


class Index:
    """The groups of a file. A group is checked when it is asked for, so that opening a large file
    takes no longer than opening a small one.

    Raises Damaged("bad index") if the index can't have so many bytes.
    """

    def __init__(self, data: bytes, facts: Facts) -> None:
        options = facts.options
        self._data, self._count, self._bits = data, facts.count, 8 * facts.stream.bytes
        self._interval, self._is_padded = interval_of(options), options.pad
        self._most_bits = GROUP_BITS + 8 * most_stream(options, self._interval)
        judge_size(len(data), facts)
        self._number = len(data) // ENTRY.size

    def __len__(self) -> int:
        """Returns the number of groups."""
        return self._number

    def _first(self, number: int) -> int:
        """Returns the place of a group's first sample, unchecked; for the number after the last
        group, the number of samples."""
        if number == self._number:
            return self._count
        first: int = ENTRY.unpack_from(self._data, number * ENTRY.size)[1] * self._interval
        return first

    def __getitem__(self, number: int) -> Group:
        """Returns a group. Raises IndexError if there is none; Damaged("bad index") if its numbers
        are impossible."""
        if not 0 <= number < self._number:
            raise IndexError(f"there is no group {number} among {self._number}")
        bit, _, crc = ENTRY.unpack_from(self._data, number * ENTRY.size)
        is_last = number + 1 == self._number
        end = self._bits
        if not is_last:
            end = ENTRY.unpack_from(self._data, (number + 1) * ENTRY.size)[0]
        first = self._first(number)
        group = Group(number, first, self._first(number + 1) - first, bit, end, crc)
        self._judge(group, 1 if is_last else GROUP_BITS)
        return group

    def _judge(self, group: Group, least: int) -> None:
        """Raises Damaged if a group's numbers are impossible. `least` is the least number of its
        bits."""
        bits = group.end - group.bit
        is_right = (
            (group.number > 0 or group.first == group.bit == 0)
            and group.end <= self._bits
            and least <= bits <= self._most_bits
            and 0 < group.length <= bits * MOST_SAMPLES_A_BYTE // 8
            and group.first + group.length <= self._count
            and not (self._is_padded and group.bit % 8)
        )
        if not is_right:
            raise bad_index(f"group {group.number} has impossible numbers")

    def group_of(self, sample: int) -> Group:
        """Returns the group that contains a sample. Raises as __getitem__."""
        if not 0 <= sample < self._count:
            raise IndexError(f"there is no sample {sample} among {self._count}")
        least, most = 0, self._number - 1  # the group is one of these
        while least < most:
            middle = (least + most + 1) // 2
            if self._first(middle) <= sample:
                least = middle
            else:
                most = middle - 1
        group = self[least]
        if not group.first <= sample < group.first + group.length:
            raise bad_index(f"group {least} has impossible numbers")
        return group

    def groups(self, first: int = 0, length: Optional[int] = None) -> Iterator[Group]:
        """Yields the groups that contain `length` samples from `first` on, or all that follow.
        Raises as __getitem__, after the groups before the wrong one."""
        end = self._count if length is None else first + length
        if not 0 <= first <= end <= self._count:
            raise IndexError(f"the samples {first} to {end} aren't among {self._count}")
        if first == end:
            return
        group = self.group_of(first)
        yield group
        while group.first + group.length < end:
            group = self[group.number + 1]
            yield group
