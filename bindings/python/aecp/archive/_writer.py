"""Files are written: in pieces, from arrays and in memory."""

from __future__ import annotations

import contextlib
import hashlib
import io
import os
import zlib
from collections.abc import Iterator, Sequence
from typing import Any, BinaryIO, Optional, Union

from aecp.archive._arrays import auto_options, dtype_of, flat_array, shaped, stored_pieces
from aecp.archive._at import offsets
from aecp.archive._dtypes import dtype_in
from aecp.archive._file import ArchiveFile, Progress, decoded
from aecp.archive._form import (
    MOST_SIDE,
    Damaged,
    Facts,
    Refused,
    Source,
    State,
    Sum,
    ending,
    interval_of,
    most_stream,
    now,
    shape_in,
)
from aecp.archive._history import WRITER, Entry, keep_entry, packed_history
from aecp.archive._index import GROUP_BITS, Index, index_bytes
from aecp.archive._saving import new_file
from aecp.archive._strict import Wrong
from aecp.buffers import Readable
from aecp.calls import native
from aecp.faults import LimitPassed, StreamRefused
from aecp.options import Options
from aecp.streams import Encoder

PIECE = 1 << 20  # bytes that are coded, or read, at once
UNREADABLE = "what was written can't be read again"


class Written:
    """The bytes of a file that is being written."""

    status: Optional[os.stat_result] = None

    def __init__(self, file: BinaryIO) -> None:
        self._file, self.size = file, file.seek(0, os.SEEK_END)

    def read(self, at: int, size: int) -> bytes:
        self._file.seek(at)
        return self._file.read(size)

    def close(self) -> None:
        """Leaves the file open."""


class Writer:
    """Writes one FILE.aec to a file object that can be read too, such as that of new_file.

        with new_file(path) as file:
            writer = Writer(file, options)
            for piece in pieces:
                writer.write(piece)
            writer.finish([keep_entry(writer.end())], source)

    Raises OptionsRefused.
    """

    def __init__(self, file: BinaryIO, options: Options) -> None:
        self._file, self.options = file, options
        self._encoder = Encoder(options)
        self._given, self._size = hashlib.sha256(), 0  # of the stored samples
        self._count: Optional[int] = None  # of a stream that was ready
        self._stream, self._stream_size = hashlib.sha256(), 0
        self._state: Optional[State] = None
        self._index = b""

    def write(self, samples: Readable) -> None:
        """Codes samples, given as for aecp.encode. In bytes, a sample may be cut in two.

        Raises what aecp.encode raises; OSError.
        """
        given: Any = native(samples, self.options)
        view = memoryview(given)
        if view.nbytes == 0:
            return
        view = view.cast("B")
        for at in range(0, view.nbytes, PIECE):
            piece: Any = view[at : at + PIECE]
            if view.readonly:
                piece = bytes(piece)  # C gets its address without numpy
            self._put(self._encoder.feed(piece))
            self._given.update(piece)
            self._size += len(piece)

    def write_stream(self, coded: Readable, count: int) -> None:
        """Writes a stream of so many samples, instead of samples. Raises OSError."""
        given: Any = coded
        view = memoryview(given)
        self._count = count
        for at in range(0, view.nbytes, PIECE):
            self._put(bytes(view[at : at + PIECE]))

    def _put(self, coded: bytes) -> None:
        """Writes bytes of the stream."""
        self._file.write(coded)
        self._stream.update(coded)
        self._stream_size += len(coded)

    def end(self, progress: Progress = None) -> State:
        """Ends the stream. Reads it again, and decodes every group. Returns the number of samples
        and the sums. May be called twice.

        Raises Refused if what was decoded isn't what was written, or an incomplete sample is left;
        Damaged("bad group") if a stream of write_stream doesn't decode; OSError.
        """
        if self._state is None:
            is_ready = self._count is not None
            if not is_ready:
                self._end_samples()
            count = self._size // self.options.storage if self._count is None else self._count
            self._file.flush()
            samples = self._decode_back(count, progress)
            if not is_ready and samples.sha256 != self._given.hexdigest():
                raise Refused(self._other_samples())
            stream = Sum(self._stream_size, self._stream.hexdigest())
            self._state = State(count, samples, stream)
        return self._state

    def _end_samples(self) -> None:
        """Ends the code of samples."""
        if self._size % self.options.storage:
            left = self._size % self.options.storage
            raise Refused(f"its last sample is incomplete: it has {left} of its bytes")
        self._put(self._encoder.finish())

    def _other_samples(self) -> str:
        """Returns the text for samples that don't decode to themselves."""
        if self.options.bits % 8 and self.options.signed:
            return "samples have unused bits that aren't copies of their sign bit"
        return "the new stream doesn't decode to its samples. Please report this"

    def _read(self, at: int, size: int) -> bytes:
        """Reads bytes of the stream again."""
        self._file.seek(at)
        return self._file.read(size)

    def _decode_back(self, count: int, progress: Progress) -> Sum:
        """Finds the groups of the stream, and decodes each. Returns the sum of all samples."""
        entries, samples, size = [], hashlib.sha256(), 0
        try:
            for bit, interval, length, end in self._spans(count):
                at = bit // 8
                data = self._read(at, -(-end // 8) - at)
                entries.append((bit, interval, zlib.crc32(data)))
                for piece in decoded(data, bit % 8, (0, length), self.options):
                    samples.update(piece)
                    size += len(piece)
                if progress is not None:
                    progress(len(data))
        except (StreamRefused, LimitPassed) as fault:
            raise Damaged("bad group", f"the stream can't be decoded: {fault}") from None
        self._index = index_bytes(entries)
        return Sum(size, samples.hexdigest())

    def _spans(self, count: int) -> Iterator[tuple[int, int, int, int]]:
        """Yields the first bit, the first interval, the samples and the end of each group."""
        if count == 0:
            return
        interval = interval_of(self.options)
        first_bit = first = 0
        bits = offsets(self._read, self._stream_size, count, self.options)
        for number, bit in enumerate(bits):
            if bit - first_bit >= GROUP_BITS:
                yield first_bit, first, (number - first) * interval, bit
                first_bit, first = bit, number
        yield first_bit, first, count - first * interval, 8 * self._stream_size

    def finish(
        self,
        history: Sequence[Entry] = (),
        source: Optional[Source] = None,
        shape: Optional[Sequence[int]] = None,
        dtype: Optional[str] = None,
        expected: Optional[Sum] = None,
    ) -> Facts:
        """Calls end, and writes all that follows the stream. Returns what the trailer says.

        expected: the sum that the samples must have, if it is known.

        Raises as end; Refused if the shape or the dtype doesn't fit, a side of the source is too
        long, the samples have another sum, or a reader would refuse the file.
        """
        state, history = self.end(), list(history)
        if expected is not None and state.samples != expected:
            raise Refused("the new stream's samples have another SHA-256 than expected")
        facts = Facts(
            self.options,
            state.count,
            state.samples,
            state.stream,
            None if shape is None else tuple(shape),
            dtype,
            source,
            now(),
            WRITER,
        )
        judge_facts(facts)
        self._judge_index(facts)
        self._file.seek(self._stream_size)
        self._file.write(ending(facts, self._index, packed_history(history)))
        self._file.flush()
        self._read_back(facts, history)
        return facts

    def _read_back(self, facts: Facts, history: list[Entry]) -> None:
        """Raises Refused if a reader wouldn't find these facts and this history in the file."""
        try:
            with ArchiveFile(Written(self._file), None) as kept:
                is_same = kept.facts == facts and kept.history() == history
        except Damaged as error:
            raise Refused(f"{UNREADABLE}: {error}. Please report this") from None
        if not is_same:
            raise Refused(f"{UNREADABLE}: it says something else. Please report this")

    def _judge_index(self, facts: Facts) -> None:
        """Raises Refused if a reader would refuse the index: only for a stream that is another
        coder's, or longer than its samples need."""
        try:
            for _ in Index(self._index, facts).groups():
                pass
        except Damaged:
            raise Refused("the stream has far more bytes than its samples need") from None


def judge_facts(facts: Facts) -> None:
    """Raises Refused if a reader would refuse these facts."""
    try:
        shape_in(None if facts.shape is None else list(facts.shape), facts.count)
        dtype_in(facts.dtype, facts.options)
    except Wrong as wrong:
        raise Refused(f"{wrong}") from None
    source = facts.source
    if source is not None and max(len(source.head), len(source.tail)) > MOST_SIDE:
        raise Refused(f"more than {MOST_SIDE} bytes are before or after the samples")
    if facts.stream.bytes > most_stream(facts.options, facts.count):
        raise Refused("the stream has far more bytes than its samples need")


class Creation:
    """A file that is being written: aecp.create returns it. The file appears when the `with` block
    ends, or by close; an exception in the block discards it."""

    def __init__(
        self, path: str, options: Options, shape: Optional[Sequence[int]], dtype: Optional[str]
    ) -> None:
        self.options, self.shape, self.dtype = options, shape, dtype
        self._facts: Optional[Facts] = None
        self._is_open = False
        self._context = new_file(path)
        file = self._context.__enter__()
        self._is_open = True
        try:
            self._writer = Writer(file, options)
        except BaseException:
            self.discard()
            raise

    def write(self, samples: Union[Readable, BinaryIO]) -> None:
        """Writes more samples: an array, stored samples as bytes, or a binary file that is read to
        its end, in pieces. Raises what aecp.encode raises; OSError; ValueError after the end."""
        if not self._is_open:
            raise ValueError("the file is closed")
        if hasattr(samples, "read"):
            self._write_file(samples)
            return
        for piece in stored_pieces(samples, self.options, self.dtype):
            self._writer.write(piece)

    def _write_file(self, file: Any) -> None:
        """Writes samples from a file, in pieces."""
        while True:
            piece = file.read(PIECE)
            if not piece:
                return
            self._writer.write(piece)

    def close(self) -> Facts:
        """Ends the file. Raises as Writer.finish; Exists; OSError; ValueError if it was
        discarded."""
        if self._is_open:
            try:
                history = [keep_entry(self._writer.end())]
                facts = self._writer.finish(history, None, self.shape, self.dtype)
            except BaseException:
                self.discard()
                raise
            self._is_open = False
            self._context.__exit__(None, None, None)
            self._facts = facts
        if self._facts is None:
            raise ValueError("the file was discarded")
        return self._facts

    def discard(self) -> None:
        """Drops all that was written. Does nothing after the end."""
        if self._is_open:
            self._is_open = False
            with contextlib.suppress(Discarded):
                self._context.__exit__(Discarded, Discarded(), None)

    def __enter__(self) -> Creation:
        return self

    def __exit__(self, kind: Any, *_: Any) -> None:
        if kind is None:
            self.close()
        else:
            self.discard()

    def __del__(self) -> None:
        if hasattr(self, "_is_open"):
            self.discard()


class Discarded(Exception):
    """What was written is dropped."""


def create(
    path: Union[str, bytes, "os.PathLike[Any]"],
    options: Options,
    shape: Optional[Sequence[int]] = None,
    dtype: Any = None,
) -> Creation:
    """Begins a new FILE.aec. It is written in constant memory, and decoded again before it appears.

    shape: sizes whose product is the number of samples. None is a list.
    dtype: the dtype of the array that the file is to be. None is options.dtype.

    Raises Exists if there is such a file; OptionsRefused; OSError; Refused for a dtype that can't
    hold the samples.
    """
    text = None if dtype is None else dtype_of(dtype, options)
    return Creation(os.fsdecode(path), options, None if shape is None else tuple(shape), text)


def pack(array: Any, bits: Union[int, str] = "auto", **options: Any) -> bytes:
    """Returns the bytes of a FILE.aec with an array of whole numbers, of any number of dimensions.
    aecp.unpack returns the array again, with its shape, sign and byte order.

    bits: bits of a sample; "auto" is as many as the least and the greatest sample need.
    options: others of aecp.Options.

    Raises TypeError for other arrays; SampleRefused if a sample doesn't fit; OptionsRefused;
    MemoryError.
    """
    found = auto_options(array, bits, options)
    file = io.BytesIO()
    writer = Writer(file, found.options)
    for piece in stored_pieces(found.array, found.options, found.dtype):
        writer.write(piece)
    writer.finish((), None, found.shape, found.dtype)
    return file.getvalue()


def unpack(data: Readable, limit: Optional[int] = None) -> Any:
    """Returns the array in the bytes of a FILE.aec. All of it is checked. Without numpy, returns an
    array of the module array. Raises Damaged; Refused if there are more samples than the limit."""
    with ArchiveFile.of_bytes(data, limit) as file:
        digest = hashlib.sha256()
        made = flat_array(file.facts, file.facts.count, hashed(file.pieces(), digest))
        if digest.hexdigest() != file.facts.samples.sha256:
            raise Damaged("other samples", "the samples have another SHA-256 than the trailer says")
        file.judge_history()
        return shaped(file.facts, made)


def hashed(pieces: Iterator[bytearray], digest: Any) -> Iterator[bytearray]:
    """Yields the same pieces, and adds each to a sum."""
    for piece in pieces:
        digest.update(piece)
        yield piece
