"""Reads a kept file whole, in one pass, and compares every sum that is recorded in it."""

from __future__ import annotations

import hashlib
from collections.abc import Iterator
from typing import Any, BinaryIO

from aecp.archive._file import ArchiveFile, Progress
from aecp.archive._form import Damaged
from aecp.archive._originals import read_all


def sides(kept: ArchiveFile) -> tuple[bytes, bytes]:
    """Returns what the original has before and after its samples."""
    source = kept.facts.source
    return (source.head, source.tail) if source else (b"", b"")


def sound_pieces(kept: ArchiveFile) -> Iterator[bytearray]:
    """Yields all stored samples in order, in pieces. Raises Damaged at a bad group, and after the
    last piece if a sum of the stream, of the samples or of the original isn't the recorded one."""
    (head, tail), facts = sides(kept), kept.facts
    stream, samples, whole = hashlib.sha256(), hashlib.sha256(), hashlib.sha256(head)
    at = 0
    for group in kept.index.groups():
        data = kept.group_bytes(group)
        stream.update(memoryview(data)[at - group.at :])
        at = group.at + group.size
        for piece in kept.decoded(group, data=data):
            samples.update(piece)
            if head or tail:
                whole.update(piece)
            yield piece
    whole.update(tail)
    if stream.hexdigest() != facts.stream.sha256:
        raise Damaged("other samples", "its stream has another SHA-256 than the trailer says")
    if samples.hexdigest() != facts.samples.sha256:
        raise Damaged("other samples", "its samples have another SHA-256 than the trailer says")
    judge_source(kept, whole if head or tail else samples)


def judge_source(kept: ArchiveFile, whole: Any) -> None:
    """Raises Damaged if the samples are those that were kept, but the original that they make,
    with its head and tail, has another sum than the recorded one."""
    source = kept.facts.source
    if source is not None and is_as_kept(kept) and whole.hexdigest() != source.sha256:
        text = "what lies before or after the samples isn't what the original had"
        raise Damaged("other samples", text)


def is_as_kept(kept: ArchiveFile) -> bool:
    """Returns whether the samples are those of the file that was kept, as far as the history says.
    Raises Damaged if the history is."""
    history = kept.history()
    first = history[0].after if history and history[0].what == "keep" else None
    return first is not None and first.samples == kept.facts.samples


def is_restored(kept: ArchiveFile, file: BinaryIO, size: int) -> bool:
    """Returns whether a kept file restores exactly an original of so many bytes."""
    head, tail = sides(kept)
    if size != len(head) + kept.facts.samples.bytes + len(tail):
        return False
    file.seek(0)
    if read_all(file, len(head)) != head:
        return False
    if any(read_all(file, len(piece)) != piece for piece in sound_pieces(kept)):
        return False
    return read_all(file, len(tail) + 1) == tail


def judge(kept: ArchiveFile, progress: Progress = None) -> None:
    """Reads everything, and compares every sum. Raises Damaged, with the ranges of all bad groups;
    OSError."""
    kept.judge_all(progress)
    if kept.facts.source is None:
        return
    head, tail = sides(kept)
    if head or tail:
        for _ in sound_pieces(kept):
            pass
    elif is_as_kept(kept) and kept.facts.source.sha256 != kept.facts.samples.sha256:
        raise Damaged("other samples", "its samples aren't those of the original")
