"""Coded streams: editing by a script, coding in pieces, decoding in pieces."""

from __future__ import annotations

import threading
from typing import Any, Optional, Union

from aecp.buffers import Array, Readable, Source, Target, room_for
from aecp.calls import native, needed_numpy, number_of, place
from aecp.faults import NO_ROOM, fault_of
from aecp.library import LIBRARY, Coder, EditReply, Reader, Reply, c_options, text_of
from aecp.options import Options

SPARE = 4096  # bytes that are tried for an edited stream, beyond those of the stream and the script


def edit(coded: Readable, count: Optional[int], script: Union[str, Readable], options: Options) -> tuple[bytes, int]:
    """Applies a script of edits to the first `count` samples of a stream, or to all with count None. Returns the edited stream and its
    number of samples. All lines apply, or none.

    coded: the stream, in a contiguous buffer.
    script: text, or a contiguous buffer. Its lines are such as `insert 100 7 8 9`, `append V..`, `overwrite FIRST V..`, `remove FIRST
    LEN` and `truncate COUNT`. Places count from 0, in the result of the lines above.

    Raises ScriptRefused if a `line` is no edit; what decode_bytes raises; RangeRefused, SampleRefused or LimitPassed, with its `line`, if
    an edit is refused; NoMemory, with a `line` only if the edit there was applied alone.
    """
    source, text = Source(coded, "coded"), Source(script.encode() if isinstance(script, str) else script, "script", "text or bytes")
    given, number, edited = c_options(options), number_of(count), EditReply()
    room = source.size + 2 * text.size + SPARE
    while True:
        target = Target(room_for(room))
        fault = LIBRARY.aecp_edit(given, number, text.at, text.size, source.at, source.size, target.at, target.size, edited)
        if fault == 0:
            return bytes(target.view[: edited.reply.len]), edited.samples
        if fault != NO_ROOM:
            raise fault_of(fault, edited.reply.place, text_of(edited.reply), edited.line)
        room = edited.reply.len


class Alone:
    """An object that holds memory of the library. It can't be copied or pickled."""

    def __reduce__(self) -> Any:
        raise TypeError(f"{type(self).__name__} objects can't be copied or pickled")


class Encoder(Alone):
    """Codes samples in pieces. Together, the returned bytes are those of one `encode` of all samples, wherever the samples were cut.

        coder = aecp.Encoder(options)
        for piece in pieces:
            file.write(coder.feed(piece))
        file.write(coder.finish())

    `count` is the number of samples so far: keep it with the stream. Any number of threads may call. They must hold a lock of their own
    while they call feed and write the returned piece. Without this lock, the order of the pieces is unknown.
    """

    def __init__(self, options: Options) -> None:
        self.options = options
        self._lock = threading.Lock()
        self._coder = Coder()
        self._bytes = 0
        reply = Reply()
        judge(LIBRARY.aecp_coder_open(c_options(options), self._coder, reply), reply)

    @property
    def count(self) -> int:
        """The number of whole samples that were fed."""
        return self._bytes // self.options.storage

    def feed(self, samples: Readable) -> bytes:
        """Codes more samples, given as for encode; in bytes, a sample may be cut in two. Returns the bytes of the intervals that became
        complete.

        Raises what encode raises. After a Fault each later feed raises it again; after finish a feed raises NotOpen.
        """
        source, reply = Source(native(samples, self.options), "samples"), Reply()
        with self._lock:
            judge(LIBRARY.aecp_coder_feed(self._coder, source.at, source.size, reply), reply)
            self._bytes += source.size
            return self._take(reply.len)

    def finish(self) -> bytes:
        """Ends the stream. Returns its last bytes. An incomplete sample is dropped.

        Raises the fault of an earlier feed, or NoMemory; then the samples of the last interval are lost. After finish, also a failed
        one, feed and finish raise NotOpen.
        """
        reply = Reply()
        with self._lock:
            judge(LIBRARY.aecp_coder_finish(self._coder, reply), reply)
            return self._take(reply.len)

    def _take(self, size: int) -> bytes:
        if size == 0:
            return b""
        target, reply = Target(room_for(size)), Reply()
        judge(LIBRARY.aecp_coder_take(self._coder, target.at, target.size, reply), reply)
        return bytes(target.view)

    def __del__(self) -> None:
        if hasattr(self, "_coder") and LIBRARY.is_loaded:
            LIBRARY.aecp_coder_close(self._coder)


class Decoder(Alone):
    """Decodes the first `count` samples of a stream, or all with count None, interval by interval. It is an iterator over numpy arrays
    as decode returns them, one for each interval. It holds a copy of the stream, and the samples of one interval.

        for samples in aecp.Decoder(coded, count, options):
            ...

    Raises what decode raises, but a fault of the stream only when its interval is reached, after the arrays before it. Any number of
    threads may call: each interval is returned to one of them.
    """

    def __init__(self, coded: Readable, count: Optional[int], options: Options) -> None:
        self.options = options
        self._lock = threading.Lock()
        self._reader = Reader()
        source, reply = Source(coded, "coded"), Reply()
        given = c_options(options)
        judge(LIBRARY.aecp_reader_open(given, number_of(count), source.at, source.size, self._reader, reply), reply)
        self._room = bytearray(reply.len)

    def __iter__(self) -> "Decoder":
        return self

    def __next__(self) -> Array:
        # If these raise, the reader has not moved yet.
        numpy, dtype = needed_numpy(), self.options.dtype
        stored = self.next_bytes()
        if not stored:
            raise StopIteration
        samples: Array = numpy.frombuffer(stored, dtype)
        return samples

    def next_bytes(self) -> bytearray:
        """Returns the stored samples of the next interval as a bytearray, empty after the last interval. Needs no numpy. Raises
        StreamRefused or LimitPassed, and the decoder stays where it was."""
        reply = Reply()
        with self._lock:
            target = Target(self._room)
            judge(LIBRARY.aecp_reader_next(self._reader, target.at, target.size, reply), reply)
            return bytearray(target.view[: reply.len])

    def go_to(self, interval: int) -> int:
        """Goes to the start of an interval, counted from 0, or to the end if there are fewer. Returns the number of samples before that
        place. Reads all intervals on the way; to go back, all from the first. Raises what next_bytes raises, and the decoder stays where
        it was."""
        reply = Reply()
        with self._lock:
            judge(LIBRARY.aecp_reader_go_to(self._reader, place(interval, "interval"), reply), reply)
        return reply.len

    def __del__(self) -> None:
        if hasattr(self, "_reader") and LIBRARY.is_loaded:
            LIBRARY.aecp_reader_close(self._reader)


def judge(number: int, reply: Reply) -> None:
    """Raises the exception for a reply, if `number` is a fault."""
    if number:
        raise fault_of(number, reply.place, text_of(reply))
