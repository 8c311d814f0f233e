"""A coded list of samples that is edited in place."""

from __future__ import annotations

import threading
from array import array
from collections.abc import Iterable, Iterator, MutableSequence, Sequence
from typing import Any, Callable, Optional, SupportsIndex, Union, overload

from aecp.buffers import Readable, Source, Target, numpy_if_there, room_for
from aecp.calls import number_of, place
from aecp.edits import Edits, is_script, script_of
from aecp.faults import NO_ROOM, SAMPLE_RANGE, Fault, NotOpen, fault_of, fault_of_edit
from aecp.library import LIBRARY, EditReply, Handle, Reply, c_options, text_of
from aecp.options import Options, whole
from aecp.samples import Numbers, Samples, several

SHOWN = 6  # samples that repr shows
FIRST_ROOM = 1 << 16  # bytes of the first buffer for a stream


class Workspace(MutableSequence[int]):
    """A list of whole numbers in coded form. An edit codes as few intervals as it can. A refused edit changes no sample.

        with aecp.Workspace(options, range(100)) as work:
            work[10:13] = [7, 8, 9]
            del work[:5]
            coded, count = work.tobytes(), len(work)

    Samples are given as an iterable of numbers, an array of the module array or a numpy array of integers; to `append`, `insert` and
    `overwrite` also as a single number. Bytes, text, bools, floats and masked arrays raise TypeError. The constructor raises
    OptionsRefused, and what append raises. Iteration, `in`, `index` and `count` decode all samples once.

    Any number of threads may use a workspace: its calls run one after the other. A copy, also by pickle, has samples of its own. After
    close, which the end of the `with` block calls, the length is 0, and edits raise NotOpen.
    """

    __hash__ = None  # type: ignore[assignment]

    def __init__(self, options: Options, samples: Iterable[int] = ()) -> None:
        self.options = options
        self._lock = threading.RLock()
        self._handle = Handle()
        self._room = FIRST_ROOM
        self._call("aecp_open", c_options(options), front=True)
        try:
            self.append(several(samples))
        except BaseException:
            self.close()
            raise

    @classmethod
    def of_coded(cls, coded: Readable, count: Optional[int], options: Options) -> Workspace:
        """Returns a workspace with the first `count` samples of a stream, or all with count None. Raises what decode_bytes raises."""
        work, source = cls(options), Source(coded, "coded")
        work._call("aecp_load", c_options(options), number_of(count), source.at, source.size, front=True)
        return work

    def _call(self, name: str, *words: Any, front: bool = False) -> int:
        """Makes a call of the library. Returns the length in its reply. With `front`, the words come before the handle."""
        reply = Reply()
        with self._lock:
            words = (*words, self._handle) if front else (self._handle, *words)
            number = getattr(LIBRARY, name)(*words, reply)
        if number:
            raise fault_of(number, reply.place, text_of(reply))
        return reply.len

    # Edits.

    def append(self, samples: Samples) -> int:  # type: ignore[override]
        """Adds a sample, or several, after the last one. Returns the number of intervals coded. Raises SampleRefused, LimitPassed,
        NoMemory; OverflowError if a number doesn't fit 64 bits."""
        numbers = Numbers(samples)
        return self._call("aecp_append", numbers.at, numbers.len)

    def truncate(self, count: int) -> int:
        """Keeps the first `count` samples. Returns the number of intervals coded. Raises RangeRefused, NoMemory."""
        return self._call("aecp_truncate", place(count, "count"))

    def remove(self, first: int, length: Optional[int] = None) -> int:  # type: ignore[override]
        """Removes `length` samples, from place `first` on. Returns the number of intervals coded. Raises RangeRefused, NoMemory. With one
        argument, as in a list, removes the first sample that equals it, or raises ValueError if there is none."""
        with self._lock:
            if length is None:
                first, length = self.index(first), 1
            return self._call("aecp_remove", place(first, "first"), place(length, "length"))

    def overwrite(self, first: int, samples: Samples) -> int:
        """Writes samples over those from place `first` on. The length stays. Returns the number of intervals coded. Raises RangeRefused,
        SampleRefused, NoMemory; OverflowError if a number doesn't fit 64 bits."""
        numbers = Numbers(samples)
        return self._call("aecp_overwrite", place(first, "first"), numbers.at, numbers.len)

    def insert(self, first: int, samples: Samples) -> int:  # type: ignore[override]
        """Inserts a sample, or several, before place `first`. As in a list, a negative place counts from the end, and a place outside the
        samples means the nearer end. Returns the number of intervals coded. Raises what append raises."""
        numbers, first = Numbers(samples), whole(first, "first")
        with self._lock:
            count = len(self)
            first = max(first + count, 0) if first < 0 else min(first, count)
            return self._call("aecp_insert", first, numbers.at, numbers.len)

    def edit(self, edits: Edits) -> int:
        """Applies all edits, or none of them. Returns the number of intervals coded: each changed one once. For many edits this is faster
        than a call for each.

        edits: an iterable of the tuples ("overwrite", first, samples), ("append", samples), ("truncate", count), ("insert", first,
        samples) and ("remove", first, length), with samples as for `append`. Or a script as `aecp.edit` takes it. Places count from 0, in
        the result of the edits before.

        Raises RangeRefused, SampleRefused, LimitPassed, with `edit`, the index of the refused edit, or in a script with its `line`;
        NoMemory; ScriptRefused if a line is no edit. For tuples that are no edits: TypeError; ValueError for another name, or a place
        that isn't 0 to 2^64 - 1; OverflowError if a sample doesn't fit 64 bits. Then no sample is changed.
        """
        script, made = script_of(edits), EditReply()
        with self._lock:
            number = LIBRARY.aecp_apply(self._handle, script.at, script.size, made)
        if number == 0:
            return made.reply.len
        if made.line and not is_script(edits):
            raise fault_of_edit(number, made.reply.place, text_of(made.reply), made.line - 1)
        raise fault_of(number, made.reply.place, text_of(made.reply), made.line)

    def extend(self, samples: Iterable[int]) -> None:
        """Adds the samples of an iterable after the last one. Raises what append raises; TypeError for a single number."""
        self.append(several(samples))

    def clear(self) -> None:
        """Removes all samples."""
        self.truncate(0)

    def pop(self, index: int = -1) -> int:
        """Removes the sample at a place, and returns it. Raises IndexError if there is none."""
        with self._lock:
            sample = self[index]
            del self[index]
        return sample

    def reverse(self) -> None:
        """Reverses the order of all samples."""
        with self._lock:
            self.overwrite(0, self[::-1])

    # Reading.

    def read(self, first: int, length: int) -> "array[int]":
        """Returns `length` samples, from place `first` on, as an array('q'). Raises RangeRefused, NoMemory."""
        first, length = place(first, "first"), place(length, "length")
        with self._lock:
            out = array("q", [0]) * min(length, len(self))
            self._call("aecp_read", first, length, out.buffer_info()[0], len(out))
        return out

    def tobytes(self) -> bytes:
        """Returns the stream of all samples. Keep their number too: decoding needs it. Raises NoMemory."""
        reply = Reply()
        with self._lock:
            while True:
                target = Target(room_for(self._room))
                number = LIBRARY.aecp_write(self._handle, target.at, target.size, reply)
                if number == 0:
                    return bytes(target.view[: reply.len])
                if number != NO_ROOM:
                    raise fault_of(number, reply.place, text_of(reply))
                self._room = reply.len

    def calls(self) -> int:
        """Returns how many intervals were coded so far, also by edits that were refused for NoMemory."""
        with self._lock:
            return int(LIBRARY.aecp_calls(self._handle))

    def index(self, value: Any, start: int = 0, stop: Optional[int] = None) -> int:
        """Returns the first place of a sample, from `start` on and before `stop`. Raises ValueError if there is none."""
        with self._lock:
            first, end, _ = slice(start, stop).indices(len(self))
            samples = self.read(first, max(end - first, 0))
        try:
            return first + samples.index(value)
        except ValueError:
            raise ValueError(f"{value!r} is not among the samples") from None

    def count(self, value: Any) -> int:
        """Returns how many samples equal a value."""
        return self[:].count(value)

    def copy(self) -> Workspace:
        """Returns another workspace with the same samples."""
        made = self.__reduce__()
        work: Workspace = made[0](*made[1])
        return work

    def __reduce__(self) -> tuple[Callable[..., Any], tuple[Any, ...]]:
        """Makes copies and pickles from the stream. Raises NotOpen if the workspace is closed."""
        with self._lock:
            return type(self).of_coded, (self.tobytes(), len(self), self.options)

    def __copy__(self) -> Workspace:
        return self.copy()

    def __deepcopy__(self, _: Any) -> Workspace:
        return self.copy()

    def __len__(self) -> int:
        with self._lock:
            return int(LIBRARY.aecp_size(self._handle))

    def __iter__(self) -> Iterator[int]:
        return iter(self[:])

    def __reversed__(self) -> Iterator[int]:
        return reversed(self[:])

    def __contains__(self, value: object) -> bool:
        return value in self[:]

    def __eq__(self, other: object) -> bool:
        if isinstance(other, Workspace):
            return self is other or self[:] == other[:]
        if isinstance(other, Sequence) and not isinstance(other, (str, bytes, bytearray, memoryview)):
            mine = self[:]
            return len(mine) == len(other) and all(a == b for a, b in zip(mine, other))
        if isinstance(other, array):
            return self[:] == other
        return NotImplemented

    def __repr__(self) -> str:
        with self._lock:
            try:
                front, count = self.read(0, min(len(self), SHOWN)), len(self)
            except NotOpen:
                return f"<closed {type(self).__name__}>"
            except Fault as fault:
                return f"<{type(self).__name__}: {fault}>"
        more = f", .. ({count} samples)" if count > SHOWN else ""
        return f"{type(self).__name__}({self.options}, [{', '.join(map(str, front))}{more}])"

    def __array__(self, dtype: Any = None, copy: Optional[bool] = None) -> Any:
        """Returns all samples as a numpy array of 64-bit numbers, or of `dtype`."""
        numpy = numpy_if_there()
        samples = numpy.frombuffer(self[:], numpy.int64)
        return samples if dtype is None else samples.astype(dtype)

    # Places and slices.

    @overload
    def __getitem__(self, key: SupportsIndex) -> int: ...

    @overload
    def __getitem__(self, key: slice) -> "array[int]": ...

    def __getitem__(self, key: Union[SupportsIndex, slice]) -> Union[int, "array[int]"]:
        """Returns the sample at a place, or those of a slice as an array('q')."""
        with self._lock:
            if not isinstance(key, slice):
                return self.read(self._place(key), 1)[0]
            first, length, step = self._part(key)
            samples = self.read(first, length)
        return samples[::step] if step != 1 else samples

    def __setitem__(self, key: Union[SupportsIndex, slice], samples: Any) -> None:
        """Replaces the sample at a place by a number, or the samples of a slice by those of an iterable. A slice with a step needs the
        same number of samples. If the length changes, this can take two edits. If memory is too short for the second and for undoing the
        first, samples stay changed."""
        with self._lock:
            if not isinstance(key, slice):
                numbers = Numbers([samples])
                self._call("aecp_overwrite", self._place(key), numbers.at, numbers.len)
                return
            new, (first, length, step) = Numbers(several(samples)), self._part(key)
            if step == 1:
                self._replace(first, length, new)
                return
            part = self.read(first, length)
            if new.len != len(part[::step]):
                raise ValueError(f"a slice with steps of {len(part[::step])} samples can't become {new.len}")
            self._judge(new)
            part[::step] = array("q", new.samples)
            self._call("aecp_overwrite", first, Numbers(part).at, len(part))

    def __delitem__(self, key: Union[SupportsIndex, slice]) -> None:
        """Removes the sample at a place, or those of a slice."""
        with self._lock:
            if not isinstance(key, slice):
                self.remove(self._place(key), 1)
                return
            first, length, step = self._part(key)
            if step == 1:
                self.remove(first, length)
                return
            part = self.read(first, length)
            del part[::step]
            self._replace(first, length, Numbers(part))

    def _place(self, key: SupportsIndex) -> int:
        """Returns the place that an index names. Raises IndexError if there is none."""
        try:
            return range(len(self))[key]
        except IndexError:
            raise IndexError(f"there is no place {key} among {len(self)} samples") from None

    def _part(self, key: slice) -> tuple[int, int, int]:
        """Returns the first place and the length of the part that contains a slice, and the step of the slice within that part."""
        places = range(len(self))[key]
        if not places:
            return places.start if places.step == 1 else 0, 0, places.step
        least, most = min(places[0], places[-1]), max(places[0], places[-1])
        return least, most - least + 1, places.step

    def _replace(self, first: int, length: int, new: Numbers) -> None:
        """Replaces a part by any number of samples. Samples out of range are refused before anything is changed.

        Another number of samples takes up to two edits. If the second fails, the first is undone. That can fail too, if memory is too
        short.
        """
        if new.len == length:
            if length:
                self._call("aecp_overwrite", first, new.at, length)
            return
        self._judge(new)
        same = min(length, new.len)
        old = Numbers(self.read(first, same))
        edits: list[tuple[Any, ...]] = [("aecp_overwrite", first, new.at, same)] if same else []
        if new.len > length:
            more = new.len - length
            edits.insert(0, ("aecp_insert", first + length, new.at + 8 * length, more))
            undo: tuple[Any, ...] = ("aecp_remove", first + length, more)
        else:
            edits.append(("aecp_remove", first + new.len, length - new.len))
            undo = ("aecp_overwrite", first, old.at, same)
        self._call(*edits[0])
        try:
            for edit in edits[1:]:
                self._call(*edit)
        except Fault:
            self._call(*undo)
            raise

    def _judge(self, new: Numbers) -> None:
        """Raises SampleRefused for the first sample that is out of range."""
        least, most = self.options.least, self.options.most
        if new.len and not least <= new.least() <= new.most() <= most:
            index = next(i for i, sample in enumerate(new.samples) if not least <= sample <= most)
            raise fault_of(SAMPLE_RANGE, index, f"sample {index} is out of range")

    def close(self) -> None:
        """Frees the samples. May be called twice."""
        with self._lock:
            LIBRARY.aecp_close(self._handle)

    def __enter__(self) -> Workspace:
        return self

    def __exit__(self, *_: object) -> None:
        self.close()

    def __del__(self) -> None:
        if hasattr(self, "_handle") and LIBRARY.is_loaded:
            self.close()
