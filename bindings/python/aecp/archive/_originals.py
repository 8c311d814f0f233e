"""Originals: regular files that are read while others may write them."""

from __future__ import annotations

import contextlib
import hashlib
import os
import stat
from collections.abc import Iterator
from typing import BinaryIO

from aecp.archive._form import MOST_SIDE, Refused, Source

PIECE = 4 << 20  # bytes that are read at once
FRONT = 1 << 18  # bytes of the samples' start that a hint tries
LATEST = (1 << 63) - 1  # the last time that a trailer can name, in the year 2262


@contextlib.contextmanager
def original(path: str) -> Iterator[BinaryIO]:
    """Yields a regular file that is open for reading. Raises Refused for any other."""
    flags = os.O_RDONLY | os.O_NONBLOCK | os.O_NOFOLLOW | os.O_CLOEXEC
    number = os.open(path, flags)
    with open(number, "rb", buffering=0) as file:
        if not stat.S_ISREG(os.fstat(number).st_mode):
            raise Refused("it is no plain file")
        yield file


def pieces_of(file: BinaryIO, length: int) -> Iterator[bytes]:
    """Yields so many bytes of a file, or fewer if it ends."""
    while length > 0:
        piece = file.read(min(PIECE, length))
        if not piece:
            return
        length -= len(piece)
        yield piece


def read_all(file: BinaryIO, length: int) -> bytes:
    """Returns so many bytes of a file, or fewer if it ends."""
    return b"".join(pieces_of(file, length))


class Reading:
    """An original that is being read: its head, the pieces of its samples, its tail, and its
    sum."""

    def __init__(self, file: BinaryIO, size: int, head: int, length: int) -> None:
        self.file, self.size, self.length = file, size, length
        self.digest = hashlib.sha256()
        self.front = b""
        file.seek(0)
        self.head = read_all(file, head)
        self.digest.update(self.head)
        self.tail = b""

    def pieces(self) -> Iterator[bytes]:
        """Yields the samples in pieces. Raises Refused if the file ends too early or too late."""
        read = 0
        for piece in pieces_of(self.file, self.length):
            self.front = self.front or piece[:FRONT]
            self.digest.update(piece)
            read += len(piece)
            yield piece
        self.tail = read_all(self.file, MOST_SIDE + 1)
        self.digest.update(self.tail)
        if len(self.head) + read + len(self.tail) != self.size:
            raise Refused("it changed while it was read")

    def source(self, status: os.stat_result) -> Source:
        """Returns what is recorded of the original."""
        sha256, time_ns = self.digest.hexdigest(), status.st_mtime_ns
        time_ns = min(max(time_ns, -LATEST), LATEST)  # some file systems have later times
        return Source(self.size, sha256, time_ns, self.head, self.tail)


def same(first: os.stat_result, second: os.stat_result) -> bool:
    """Returns whether two statuses are those of one unchanged file."""
    return all(
        getattr(first, name) == getattr(second, name)
        for name in ("st_dev", "st_ino", "st_size", "st_mtime_ns", "st_ctime_ns")
    )


def sha256_of(file: BinaryIO) -> str:
    """Returns the SHA-256 of a whole file."""
    digest = hashlib.sha256()
    file.seek(0)
    for piece in iter(lambda: file.read(PIECE), b""):
        digest.update(piece)
    return digest.hexdigest()
