"""The verbs back, export and rescue: write new files from kept ones."""

from __future__ import annotations

import contextlib
import hashlib
import os
import stat
import sys
from collections.abc import Iterable, Iterator
from dataclasses import dataclass
from typing import Any, BinaryIO, NamedTuple, Optional

from aecp._console import shown
from aecp.archive import _saving
from aecp.archive._file import ArchiveFile, opened
from aecp.archive._form import Damaged, Exists, Range, Refused
from aecp.archive._originals import original, read_all
from aecp.archive._outcomes import Outcome, ranges_json, ranges_text
from aecp.archive._paths import STREAM, Found, place_below
from aecp.archive._scripts import Store
from aecp.archive._whole import is_as_kept, sides, sound_pieces
from aecp.faults import Fault, OptionsRefused
from aecp.options import Options
from aecp.streams import Decoder

PIECE = 4 << 20  # bytes that are written at once


@dataclass(frozen=True)
class Restoring:
    """How originals are restored. `out` is the name for a single file, `to` the folder for all."""

    to: Optional[str] = None
    out: Optional[str] = None
    part: Optional[tuple[int, int]] = None
    limit: Optional[int] = None


@contextlib.contextmanager
def output(path: str, mode: int = 0o666) -> Iterator[BinaryIO]:
    """Yields a new file that appears when it is whole. The path - is standard output. A pipe or a
    device is written directly. Raises Refused if the file exists."""
    if path == "-":
        sys.stdout.flush()
        yield sys.stdout.buffer
        return
    try:
        kind = os.lstat(path).st_mode
    except FileNotFoundError:
        kind = None
    if kind is not None and (stat.S_ISFIFO(kind) or stat.S_ISCHR(kind)):
        with open(path, "wb", opener=without_links) as file:
            yield file
        return
    if kind is not None:
        raise Exists(f"{shown(path)} exists, and nothing is written over it")
    if not os.path.isdir(os.path.dirname(path) or "."):
        raise Refused(f"there is no folder {shown(os.path.dirname(path))}")
    with _saving.new_file(path, mode) as new:
        yield new


def without_links(path: str, _: int) -> int:
    """Opens a pipe or a device to write. Raises Refused for anything else; OSError for a link."""
    file = os.open(path, os.O_WRONLY | os.O_NOFOLLOW | os.O_CLOEXEC)
    kind = os.fstat(file).st_mode
    if not (stat.S_ISFIFO(kind) or stat.S_ISCHR(kind)):
        os.close(file)
        raise Exists(f"{shown(path)} exists, and nothing is written over it")
    return file


@contextlib.contextmanager
def output_or_none(path: Optional[str]) -> Iterator[Optional[BinaryIO]]:
    """Yields a new file as `output` does, or None without a path."""
    if path is None:
        yield None
        return
    with output(path) as file:
        yield file


def back(how: Restoring, found: Found) -> Outcome:
    """Restores the original of a kept file, or writes a part of its samples. A process of this run
    may have died after it wrote the file: then compares its bytes."""
    with opened(found.path, how.limit) as kept:
        path = how.out or out_of(how, found)
        try:
            size = write_new(how, kept, path)
        except Exists:
            if not (found.is_new and has_contents(path, contents(kept, how.part))):
                raise
            size = os.path.getsize(path)
    return Outcome("restored", "", size, found.size)


def write_new(how: Restoring, kept: ArchiveFile, path: str) -> int:
    """Writes the original of a kept file, or a part of its samples. Returns its number of bytes.
    Raises Exists."""
    if how.out is None and os.path.lexists(path):  # a pipe or a device there is no output
        raise Exists(f"{shown(path)} exists, and nothing is written over it")
    mode = kept.status.st_mode & 0o666 if kept.status else 0o666
    size = 0
    with output(path, mode) as file:
        for piece in contents(kept, how.part):
            file.write(piece)
            size += len(piece)
        if how.part is None and file is not sys.stdout.buffer:
            give_time(kept, file)
    return size


def has_contents(path: str, pieces: Iterable[bytes | bytearray]) -> bool:
    """Returns whether a path is that of a regular file that consists of these pieces. Raises what
    reading them raises; OSError, Refused."""
    with original(path) as file:
        return all(read_all(file, len(it)) == it for it in pieces) and not file.read(1)


def is_free(how: Restoring, found: Found) -> bool:
    """Returns whether nothing has the name of the restored file yet. Makes no folder."""
    if how.out is not None:
        return False
    below = os.path.join(how.to, found.below) if how.to is not None else found.path
    return not os.path.lexists(below.removesuffix(STREAM))


def out_of(how: Restoring, found: Found) -> str:
    """Returns the path of the restored file."""
    if how.to is None:
        return found.path.removesuffix(STREAM)
    return place_below(how.to, found.below.removesuffix(STREAM))


def in_range(part: tuple[int, int], count: int) -> tuple[int, int]:
    """Returns a range. Raises Refused if it is outside the samples."""
    if sum(part) > count:
        raise Refused(f"the range {part[0]}:{part[1]} is outside the {count} samples")
    return part


def contents(
    kept: ArchiveFile, part: Optional[tuple[int, int]]
) -> Iterator[bytes | bytearray]:
    """Yields a part of the samples; without one head, samples and tail. Raises Refused if the part
    is outside the samples; Damaged, after the last piece too, if a recorded sum is another."""
    if part is not None:
        first, length = in_range(part, kept.facts.count)
        yield from kept.pieces(first, length) if length else ()
        return
    head, tail = sides(kept)
    yield head
    yield from sound_pieces(kept)
    yield tail


def give_time(kept: ArchiveFile, file: BinaryIO) -> None:
    """Gives a restored file the time of the original, if the samples are still those."""
    source = kept.facts.source
    if source is not None and is_as_kept(kept):
        file.flush()
        with contextlib.suppress(OSError):
            os.utime(file.fileno(), ns=(source.mtime_ns, source.mtime_ns))


def export(path: str, out: str, limit: Optional[int]) -> None:
    """Writes the plain stream of a kept file. Raises Damaged if it has another sum."""
    with opened(path, limit) as kept, output(out) as file:
        stream = kept.stream()
        if hashlib.sha256(stream).hexdigest() != kept.facts.stream.sha256:
            text = "its stream has another SHA-256 than the trailer says"
            raise Damaged("other samples", text)
        file.write(stream)


class Rescued(NamedTuple):
    """What was rescued: the number of samples, lost ones too, which were lost, and a text."""

    number: int
    lost: list[Range]
    text: str


def fill_of(value: int, options: Options) -> bytes:
    """Returns a stored sample. Raises Refused if the value is out of range."""
    if not options.least <= value <= options.most:
        raise Refused(f"--fill {value} is out of range: {options.least} to {options.most}")
    return Store(options).bytes_of([value])


def write_fill(file: BinaryIO, sample: bytes, count: int) -> None:
    """Writes a sample so many times."""
    most = PIECE // len(sample)
    while count > 0:
        file.write(sample * min(count, most))
        count -= most


def rescue(
    kept: ArchiveFile, file: Optional[BinaryIO], fill: int, part: Optional[tuple[int, int]]
) -> Rescued:
    """Writes all sound samples of a kept file in their places, and the fill in the others."""
    facts = kept.facts
    sample = fill_of(fill, facts.options)
    first, length = in_range(part, facts.count) if part else (0, facts.count)
    lost = [clipped for it in kept.bad_groups() if (clipped := within(it, first, length)).length]
    digest = hashlib.sha256()
    source = facts.source if part is None else None
    if file is not None and source is not None:
        file.write(source.head)
    at = first
    for it in [*lost, Range(first + length, 0)]:
        for piece in kept.pieces(at, it.first - at) if it.first > at else ():
            digest.update(piece)
            if file is not None:
                file.write(piece)
        if file is not None:
            write_fill(file, sample, it.length)
        at = it.first + it.length
    if file is not None and source is not None:
        file.write(source.tail)
    is_other = not lost and part is None and digest.hexdigest() != facts.samples.sha256
    if is_other:
        text = "no group is damaged, but the samples have another SHA-256 than the recorded one"
        return Rescued(length, [Range(0, length)], f"{text}: some of them are wrong")
    return Rescued(length, lost, rescued_text(lost, length))


def within(it: Range, first: int, length: int) -> Range:
    """Returns the part of a range that lies in another."""
    begin, end = max(it.first, first), min(it.first + it.length, first + length)
    return Range(begin, max(end - begin, 0))


def rescued_text(lost: list[Range], count: int) -> str:
    """Returns what was rescued."""
    if not lost:
        return f"all {count} samples are sound"
    number = count - sum(it.length for it in lost)
    percent = 100 * number / count
    text = f"{number} of {count} samples are sound ({percent:.3f} %)"
    return f"{text}; lost: {ranges_text(tuple(lost), count)}"


def rescue_without_index(kept: ArchiveFile, file: Optional[BinaryIO], fill: int) -> Rescued:
    """Writes the samples of a kept file whose index is damaged: from its first sample on."""
    facts, (head, tail) = kept.facts, sides(kept)
    digest = hashlib.sha256()
    if file is not None:
        file.write(head)
    found = rescue_stream(kept.stream(), facts.count, facts.options, file, fill, digest)
    if file is not None:
        file.write(tail)
    if found.lost:
        return found
    if digest.hexdigest() == facts.samples.sha256:
        text = f"all {facts.count} samples are sound; only the index is damaged"
        return found._replace(text=text)
    text = "the index is damaged, and the samples have another SHA-256 than the recorded one"
    return Rescued(facts.count, [Range(0, facts.count)], f"{text}: some of them are wrong")


def rescue_stream(
    stream: bytes,
    count: Optional[int],
    options: Options,
    file: Optional[BinaryIO],
    fill: int,
    digest: Any = None,
) -> Rescued:
    """Writes the samples of a plain stream before the bit where decoding stops, and the fill in the
    places after them."""
    sample, number, why = fill_of(fill, options), 0, ""
    try:
        decoder = Decoder(stream, count, options)
        for piece in iter(decoder.next_bytes, b""):
            number += len(piece) // options.storage
            if digest is not None:
                digest.update(piece)
            if file is not None:
                file.write(piece)
    except OptionsRefused as fault:
        raise Refused(str(fault)) from None
    except Fault as fault:
        why = str(fault)
    lost = [Range(number, count - number)] if count is not None and number < count else []
    if file is not None and lost:
        write_fill(file, sample, lost[0].length)
    if why or lost:
        text = f"{number} samples: {why or 'the stream ends'}. The last of them may be wrong"
        return Rescued(count or number, lost or [Range(number, 0)], text)
    more = "no checksum shows whether they are right"
    if count is None:
        more = "without --count the last ones may be filler"
    return Rescued(number, [], f"{number} samples: the whole stream decodes; {more}")


def rescued_json(path: str, rescued: Rescued) -> dict[str, Any]:
    """Returns what was rescued as JSON."""
    lost = [it for it in rescued.lost if it.length]
    number = sum(it.length for it in lost)
    return {
        "file": path, "samples": rescued.number, "sound": rescued.number - number,
        "lost": ranges_json(tuple(lost)), "text": rescued.text,
    }  # fmt: skip
