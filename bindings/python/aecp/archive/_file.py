"""One open FILE.aec."""

from __future__ import annotations

import functools
import hashlib
import os
import stat
import zlib
from collections.abc import Iterator
from typing import Any, Callable, Optional, Protocol

from aecp.archive._at import decode_at, intervals_at
from aecp.archive._form import (
    FOOT_BYTES,
    MOST_TRAILER,
    Damaged,
    Facts,
    Part,
    Range,
    Refused,
    Trailer,
    foot_of,
    interval_of,
    trailer_of,
)
from aecp.archive._history import MOST_HISTORY, Entry, history_of
from aecp.archive._index import Group, Index, judge_size
from aecp.faults import LimitPassed, StreamRefused
from aecp.options import Options

PIECE = 4 << 20  # bytes of stored samples
BLOCK = 1 << 20  # bytes that are read at once
SHOWN = 3  # the most ranges that a text names
OPENING = os.O_RDONLY | os.O_NONBLOCK | os.O_CLOEXEC

Progress = Optional[Callable[[int], None]]  # called with the coded bytes read since the last call


class Bytes(Protocol):
    """Bytes that can be read at any place."""

    size: int
    status: Optional[os.stat_result]

    def read(self, at: int, size: int) -> Any:
        """Returns bytes; fewer at the end."""

    def close(self) -> None: ...


class OnDisk:
    """The bytes of a regular file. Raises OSError; Refused for anything else."""

    def __init__(self, path: str) -> None:
        self._file: Optional[int] = None
        file = os.open(path, OPENING)
        self.status: Optional[os.stat_result] = os.fstat(file)
        self._file, self.size = file, self.status.st_size
        if not stat.S_ISREG(self.status.st_mode):
            self.close()
            raise Refused("it is no regular file")

    def read(self, at: int, size: int) -> bytes:
        if self._file is None:
            raise ValueError("the file is closed")
        data = os.pread(self._file, size, at)
        while len(data) < size:
            more = os.pread(self._file, size - len(data), at + len(data))
            if not more:
                break
            data += more
        return data

    def close(self) -> None:
        file, self._file = self._file, None
        if file is not None:
            os.close(file)

    def __del__(self) -> None:
        self.close()


class InMemory:
    """Bytes in memory."""

    def __init__(self, data: Any) -> None:
        self._data: Optional[memoryview] = memoryview(data).cast("B")
        self.size = self._data.nbytes
        self.status: Optional[os.stat_result] = None

    def read(self, at: int, size: int) -> bytes:
        if self._data is None:
            raise ValueError("the file is closed")
        return bytes(self._data[at : at + size])

    def close(self) -> None:
        self._data = None


class ArchiveFile:
    """A file of one stream with its index. Threads may share it. `with` closes it.

    facts    what its trailer says
    index    its groups; Damaged("bad index") is raised when it is first asked for
    size     the bytes of the whole file
    status   the status of its descriptor; None for bytes in memory and for old pairs
    """

    def __init__(self, data: Bytes, limit: Optional[int]) -> None:
        self._bytes, self.size, self.status = data, data.size, data.status
        trailer = self._trailer()
        self.facts: Facts = trailer.facts
        self._index_part, self._history_part = trailer.index, trailer.history
        if limit is not None and self.facts.count > limit:
            raise Refused(f"it has {self.facts.count} samples, more than the limit {limit}")

    @classmethod
    def open(cls, path: str, limit: Optional[int] = None) -> ArchiveFile:
        """Opens a file, following links. Reads its foot and its trailer, and nothing else.

        limit: the most samples that it may have.

        Raises OSError; Refused if it is no regular file, or has more samples than the limit;
        Damaged.
        """
        return cls._of(OnDisk(path), limit)

    @classmethod
    def of_bytes(cls, data: Any, limit: Optional[int] = None) -> ArchiveFile:
        """Opens the bytes of a file. Raises Damaged, Refused."""
        return cls._of(InMemory(data), limit)

    @classmethod
    def _of(cls, data: Bytes, limit: Optional[int]) -> ArchiveFile:
        try:
            return cls(data, limit)
        except BaseException:
            data.close()
            raise

    def _trailer(self) -> Trailer:
        """Reads the foot and the trailer. Raises Damaged if they, or the sizes that they name, are
        wrong."""
        part = foot_of(self._bytes.read(max(self.size - FOOT_BYTES, 0), FOOT_BYTES))
        if part.bytes > min(MOST_TRAILER, self.size - FOOT_BYTES):
            raise Damaged("bad trailer", "the trailer is damaged: it has an impossible length")
        at = self.size - FOOT_BYTES - part.bytes
        trailer = trailer_of(self._bytes.read(at, part.bytes), part)
        if trailer.facts.stream.bytes + trailer.index.bytes + trailer.history.bytes != at:
            text = f"it has {self.size} bytes, and its trailer says another number"
            raise Damaged("bad trailer", text)
        return trailer

    @functools.cached_property
    def index(self) -> Index:
        """The groups. Raises Damaged("bad index") if the index is damaged, OSError."""
        judge_size(self._index_part.bytes, self.facts)
        at = self.facts.stream.bytes
        return Index(self._checked(at, self._index_part, "index"), self.facts)

    def _checked(self, at: int, part: Part, what: str) -> bytes:
        """Reads a part. Raises Damaged if its CRC-32 is wrong."""
        data: bytes = self._bytes.read(at, part.bytes)
        if len(data) != part.bytes or zlib.crc32(data) != part.crc32:
            raise Damaged(f"bad {what}", f"the {what} is damaged: its CRC-32 is another")
        return data

    def history(self) -> list[Entry]:
        """Reads the history. Raises Damaged("bad history"), OSError."""
        if self._history_part.bytes > MOST_HISTORY:
            raise Damaged("bad history", "the history is damaged: it has an impossible length")
        at = self.facts.stream.bytes + self._index_part.bytes
        return history_of(self._checked(at, self._history_part, "history"))

    def stream(self) -> bytes:
        """Reads the stream, unchecked. Raises Damaged("bad group") if the file is cut, OSError."""
        data: bytes = self._bytes.read(0, self.facts.stream.bytes)
        if len(data) != self.facts.stream.bytes:
            raise Damaged("bad group", "the file is cut while it is read")
        return data

    def pieces(self, first: int = 0, length: Optional[int] = None) -> Iterator[bytearray]:
        """Yields stored samples in order, in pieces of at most 4 MiB: `length` samples from `first`
        on, or all that follow. Reads only the groups that contain them, and checks these by their
        CRC.

        Raises IndexError if there are no such samples; Damaged("bad group") with the group's
        samples as its range, after the pieces before it; Damaged("bad index"); OSError.
        """
        end = self.facts.count if length is None else first + length
        for group in self.index.groups(first, length):
            skipped = max(first - group.first, 0)
            yield from self.decoded(group, skipped, min(end - group.first, group.length))

    def group_bytes(self, group: Group) -> bytes:
        """Reads the bytes of a group. Raises Damaged("bad group") if their CRC is another."""
        data: bytes = self._bytes.read(group.at, group.size)
        if len(data) != group.size or zlib.crc32(data) != group.crc:
            raise bad_group(group)
        return data

    def decoded(
        self, group: Group, first: int = 0, end: Optional[int] = None, data: Any = None
    ) -> Iterator[bytearray]:
        """Yields the stored samples of a group from `first` to `end`, counted in the group. `data`
        are its bytes, if they are checked already. Raises Damaged("bad group"), OSError."""
        data = self.group_bytes(group) if data is None else data
        end = group.length if end is None else end
        try:
            yield from decoded(data, group.bit % 8, (first, end), self.facts.options)
        except (StreamRefused, LimitPassed):
            raise bad_group(group) from None

    def bad_groups(self, progress: Progress = None) -> list[Range]:
        """Reads all groups. Returns the samples of each group whose CRC is wrong, or that doesn't
        decode. Raises Damaged("bad index"), OSError."""
        return self._read_all(progress)[0]

    def _read_all(self, progress: Progress = None) -> tuple[list[Range], str, str]:
        """Reads the stream and decodes all groups. Returns the samples of the bad groups, and the
        SHA-256 of the stream and of the samples. Raises Damaged("bad index"), OSError."""
        bad: list[Range] = []
        stream, samples, at = hashlib.sha256(), hashlib.sha256(), 0
        for group in self.index.groups():
            data: bytes = self._bytes.read(group.at, group.size)
            stream.update(memoryview(data)[at - group.at :])
            try:
                if len(data) != group.size or zlib.crc32(data) != group.crc:
                    raise bad_group(group)
                for piece in self.decoded(group, data=data):
                    samples.update(piece)
            except Damaged:
                bad.append(Range(group.first, group.length))
            if progress is not None:
                progress(group.at + group.size - at)
            at = group.at + group.size
        self._hash_rest(stream, at)
        return bad, stream.hexdigest(), samples.hexdigest()

    def _hash_rest(self, stream: Any, at: int) -> None:
        """Hashes the bytes of the stream from a place on; with groups, there are none."""
        while at < self.facts.stream.bytes:
            data = self._bytes.read(at, min(BLOCK, self.facts.stream.bytes - at))
            if not data:
                return
            stream.update(data)
            at += len(data)

    def judge_all(self, progress: Progress = None) -> None:
        """Reads everything, in constant memory: the stream and its samples are compared with their
        sums, and the history is read. Raises Damaged, with the ranges of all bad groups;
        OSError."""
        bad, stream, samples = self._read_all(progress)
        if bad:
            text = f"{len(bad)} of {len(self.index)} groups are damaged: {ranges_text(bad)}"
            raise Damaged("bad group", text, tuple(bad))
        if stream != self.facts.stream.sha256:
            raise Damaged("other samples", "the stream has another SHA-256 than the trailer says")
        if samples != self.facts.samples.sha256:
            raise Damaged("other samples", "the samples have another SHA-256 than the trailer says")
        self.judge_history()

    def judge_history(self) -> None:
        """Reads the history, and compares the state after its last change with the trailer's.
        Raises Damaged("bad history"); OSError."""
        states = [entry.after for entry in self.history() if entry.after is not None]
        if states and states[-1] != self.facts.state:
            text = "the history ends with other sums than the trailer says"
            raise Damaged("bad history", text)

    def close(self) -> None:
        """Closes the file. May be called twice."""
        self._bytes.close()

    def __enter__(self) -> ArchiveFile:
        return self

    def __exit__(self, *_: Any) -> None:
        self.close()


def decoded(
    data: Any, bit: int, part: tuple[int, int], options: Options
) -> Iterator[bytearray]:
    """Yields stored samples of a group, from `part[0]` to `part[1]`, in pieces of at most 4 MiB.
    Its code begins at a bit of the first byte. Raises what aecp.decode_bytes raises."""
    (first, end), storage = part, options.storage
    if end * storage <= PIECE:
        samples = decode_at(data, bit, end, options)
        del samples[: first * storage]
        yield samples
        return
    decoder, interval = intervals_at(data, bit, end, options), interval_of(options)
    skipped = decoder.go_to(first // interval)
    piece = bytearray()
    while True:
        stored = decoder.next_bytes()
        if piece and (not stored or len(piece) + len(stored) > PIECE):
            yield piece
            piece = bytearray()
        if not stored:
            return
        if skipped < first:
            del stored[: (first - skipped) * storage]
            skipped = first
        piece += stored


def bad_group(group: Group) -> Damaged:
    """Returns the exception for a damaged group."""
    lost = Range(group.first, group.length)
    return Damaged("bad group", f"{ranges_text([lost])} are damaged", (lost,))


def ranges_text(ranges: list[Range]) -> str:
    """Returns ranges of samples as a text, the first ones of many."""
    named = [f"{it.first} to {it.first + it.length - 1}" for it in ranges[:SHOWN]]
    more = len(ranges) - len(named)
    return "samples " + ", ".join(named) + (f" and {more} other ranges" if more else "")


def opened(path: str, limit: Optional[int] = None) -> ArchiveFile:
    """Opens a file as ArchiveFile.open does, or an old pair of FILE.aec and its note, in memory.
    Raises as ArchiveFile.open."""
    try:
        return ArchiveFile.open(path, limit)
    except Damaged as damaged:
        if damaged.kind != "no trailer":
            raise
        from aecp.archive._pairs import converted

        data = converted(path, limit)
        if data is None:
            raise
    return ArchiveFile.of_bytes(data, limit)
