"""Coding and decoding."""

from __future__ import annotations

import ctypes
from array import array
from typing import TYPE_CHECKING, Any, Optional, Union, overload

from aecp.buffers import BYTES, Array, Readable, Source, Target, Writable, is_big_endian, item_type, numpy_if_there, numpy_type, room_for
from aecp.faults import NO_ROOM, fault_of
from aecp.library import LIBRARY, Reply, c_options, text_of
from aecp.options import Options, whole

if TYPE_CHECKING:
    Offsets = array[int]

ALL = 2**64 - 1
MOST_A_BYTE = 64 * 64 * 8  # at least as many samples as a coded byte can mean
GUESS = 8  # bytes of samples for a coded byte, if no count is given


def encode(samples: Readable, options: Options) -> bytes:
    """Codes samples. Returns the stream as bytes.

    samples: stored samples, as bytes or a contiguous buffer of bytes (bytes at the end that make no whole sample are dropped); or
    integers of the size and sign of options.dtype, in either byte order: a numpy array of any shape, an array of the module array, or
    another contiguous buffer.

    Raises OptionsRefused; SampleRefused if a sample is out of range; LimitPassed for more than 2^32 samples; NoMemory, or another
    MemoryError, if an allocation fails; TypeError for other samples, such as a list, floats, integers of another size or sign, or a
    masked array; ValueError for a numpy array if samples have three bytes.
    """
    given, source = c_options(options), Source(native(samples, options), "samples")
    most = LIBRARY.aecp_bound(given, source.size // options.storage)
    return bytes(filled("aecp_encode", [given], source, most))


def native(samples: Any, options: Options) -> Any:
    """Returns memory with the samples as the options store them, for samples as encode takes them. Raises TypeError for others."""
    if type(samples) is bytes:
        return samples
    if isinstance(samples, numpy_type("ndarray")):
        return native_array(samples, options)
    try:
        view = memoryview(samples)
    except TypeError:
        raise wrong_samples(options, type(samples).__name__) from None
    if view.format in BYTES:
        return view
    if item_type(view) != sample_type(options):
        raise wrong_samples(options, f"an array of {item_type(view)}")
    if is_big_endian(view) == options.msb_first or not view.c_contiguous:
        return view
    turned = array("H" if view.itemsize == 2 else "I", view.tobytes())
    turned.byteswap()
    return turned


def native_array(samples: Any, options: Options) -> Any:
    """Returns a numpy array with the samples as the options store them: the array itself if they are stored so."""
    refuse_mask(samples)
    given, wanted = samples.dtype.str, options.dtype
    if given[1:] == wanted[1:] and given[0] in ("|", wanted[0]) and samples.ndim and samples.flags.c_contiguous:
        return samples
    if given[1:] != wanted[1:]:
        hint = ": use samples.astype(options.dtype) if all samples fit" if samples.dtype.kind in "iu" else ""
        raise TypeError(f"samples must be an array of {sample_type(options)} (options.dtype), not of {samples.dtype.name}{hint}")
    return needed_numpy().ascontiguousarray(samples.astype(wanted, order="C", copy=False))


def refuse_mask(samples: Any) -> None:
    """Raises TypeError for a masked array."""
    array_type = numpy_type("ndarray")
    if type(samples) is not array_type and isinstance(samples, array_type) and isinstance(samples, needed_numpy().ma.MaskedArray):
        raise TypeError("an array with a mask can't be coded: use its filled()")


def sample_type(options: Options) -> str:
    """Returns the type of stored samples, such as uint16. No array has the type uint24."""
    return f"{'int' if options.signed else 'uint'}{8 * options.storage}"


def wrong_samples(options: Options, given: str) -> TypeError:
    """Returns the exception for samples that encode doesn't take."""
    wanted = "bytes" if options.storage == 3 else f"bytes, or an array of {sample_type(options)} (options.dtype)"
    return TypeError(f"samples must be {wanted}, not {given}")


def decode(coded: Readable, count: Optional[int], options: Options, out: Optional[Array] = None) -> Array:
    """Decodes samples. Returns a numpy array of one dimension, with the dtype options.dtype.

    coded, count: as for decode_bytes.
    out: a C-contiguous numpy array of any shape with the dtype options.dtype. It is filled from its start, and the result shares its
    memory. After a fault it is unchanged.

    Raises what decode_bytes raises; TypeError for another `out`; ImportError without numpy; ValueError if samples have three bytes.
    """
    return array_of(decode_bytes(coded, count, options, of_dtype(out, options)), options)


def decode_range(coded: Readable, count: Optional[int], first: int, length: int, options: Options, out: Optional[Array] = None) -> Array:
    """Decodes `length` of the first `count` samples, from sample `first` on, counted from 0. Returns an array as decode does. Also
    checks the samples outside the range. Raises what decode raises, and RangeRefused if the range is outside the samples."""
    return array_of(decode_range_bytes(coded, count, first, length, options, of_dtype(out, options)), options)


@overload
def decode_bytes(coded: Readable, count: Optional[int], options: Options, out: None = None) -> bytearray: ...


@overload
def decode_bytes(coded: Readable, count: Optional[int], options: Options, out: Writable) -> memoryview: ...


def decode_bytes(coded: Readable, count: Optional[int], options: Options, out: Optional[Writable] = None) -> Union[bytearray, memoryview]:
    """Decodes samples. Returns a bytearray of stored samples, options.storage bytes each; with `out`, a memoryview of the filled part of
    `out`.

    coded: the stream, as bytes or another object with a contiguous buffer, also a read-only one.
    count: how many samples, from the first on. None means all, with the filler of the last block; 1.5 MB can decode to 2^32 samples.
    out: contiguous memory that can be written, such as a bytearray. It is filled from its start. After a fault it is unchanged.

    Raises OptionsRefused; StreamRefused if the stream is cut or damaged; LimitPassed for more than 2^32 samples or 2^40 coded bytes;
    NoMemory, or another MemoryError, if an allocation fails; NoRoom if `out` is too short; TypeError for objects without such a buffer;
    ValueError if `count` isn't 0 to 2^64 - 1.
    """
    source, before = Source(coded, "coded"), [c_options(options), number_of(count)]
    if out is not None:
        return put("aecp_decode", before, source, out)
    return filled("aecp_decode", before, source, most_stored(source, count, options))


@overload
def decode_range_bytes(coded: Readable, count: Optional[int], first: int, length: int, options: Options, out: None = None) -> bytearray: ...


@overload
def decode_range_bytes(coded: Readable, count: Optional[int], first: int, length: int, options: Options, out: Writable) -> memoryview: ...


def decode_range_bytes(
    coded: Readable, count: Optional[int], first: int, length: int, options: Options, out: Optional[Writable] = None
) -> Union[bytearray, memoryview]:
    """Decodes a range as decode_range does. Returns stored samples, and takes `out`, as decode_bytes does."""
    source = Source(coded, "coded")
    before = [c_options(options), number_of(count), place(first, "first"), place(length, "length")]
    if out is not None:
        return put("aecp_range", before, source, out)
    return filled("aecp_range", before, source, most_stored(source, length, options))


def decode_at(coded: Readable, bit: int, count: Optional[int], options: Options, out: Optional[Array] = None) -> Array:
    """Decodes samples from bit `bit` of a stream on. Returns an array, and takes `out`, as decode does.

    coded, bit, count: as for decode_bytes_at.

    Raises what decode raises, and BitRefused.
    """
    return array_of(decode_bytes_at(coded, bit, count, options, of_dtype(out, options)), options)


@overload
def decode_bytes_at(coded: Readable, bit: int, count: Optional[int], options: Options, out: None = None) -> bytearray: ...


@overload
def decode_bytes_at(coded: Readable, bit: int, count: Optional[int], options: Options, out: Writable) -> memoryview: ...


def decode_bytes_at(
    coded: Readable, bit: int, count: Optional[int], options: Options, out: Optional[Writable] = None
) -> Union[bytearray, memoryview]:
    """Decodes samples from bit `bit` of a stream on. Returns stored samples, and takes `out`, as decode_bytes does.

    coded: the stream, or a part of it that begins at a whole byte. Each call copies it, so pass only the bytes that are needed.
    bit: the bit of `coded` where an interval begins, counted from 0: one of the offsets that `offsets` returns, minus the bits before
    `coded`. At another bit the call returns wrong samples, or raises StreamRefused.
    count: how many samples, from the first one of that interval on. None means all that follow, as in decode_bytes.

    Raises what decode_bytes raises; BitRefused if the bit is after the end of `coded`, or, with options.pad, isn't a multiple of 8;
    ValueError if `bit` isn't 0 to 2^64 - 1. The bits of a StreamRefused are counted from the first bit of `coded`.
    """
    source, before = Source(coded, "coded"), [c_options(options), place(bit, "bit"), number_of(count)]
    if out is not None:
        return put("aecp_decode_at", before, source, out)
    return filled("aecp_decode_at", before, source, most_stored(source, count, options))


def offsets(coded: Readable, count: Optional[int], options: Options) -> Offsets:
    """Finds where the intervals of a stream begin. Returns an array of the module array, with the type code "Q": for each interval of the
    first `count` samples, the bit of the stream where it begins, counted from 0. decode_at decodes from such a bit on. An interval has
    options.block_size times options.interval samples; the last one may have fewer.

    coded, count: as for decode_bytes.

    Raises what decode_bytes raises, except NoRoom: the call checks all these samples.
    """
    source, given, number = Source(coded, "coded"), c_options(options), number_of(count)
    reply, room = Reply(), first_intervals(source, count, options)
    while True:
        out = array("Q", [0]) * room
        fault = LIBRARY.aecp_offsets(given, number, source.at, source.size, out.buffer_info()[0], len(out), reply)
        if fault == 0:
            del out[reply.len :]
            return out
        if fault != NO_ROOM:
            raise fault_of(fault, reply.place, text_of(reply))
        room = reply.len


def first_intervals(source: Source, count: Optional[int], options: Options) -> int:
    """Returns the number of intervals of so many samples, but no more than the coded bytes can have. Without a count it returns a guess:
    a byte for each block."""
    if count is None:
        return source.size // max(options.interval, 1) + 1
    return min(-(-count // max(options.block_size * options.interval, 1)), 8 * source.size + 1)


def place(number: int, name: str) -> int:
    """Returns a number for C. Raises TypeError if it isn't a whole number, ValueError if it doesn't fit 64 bits."""
    number = whole(number, name)
    if not 0 <= number < 2**64:
        raise ValueError(f"{name} must be 0 to 2^64 - 1")
    return number


def number_of(count: Optional[int]) -> int:
    """Returns a count for C, where 2^64 - 1 means all samples. So None becomes 2^64 - 1, and 2^64 - 1 becomes 2^64 - 2, which is too
    many."""
    return ALL if count is None else min(place(count, "count"), ALL - 1)


def most_stored(source: Source, count: Optional[int], options: Options) -> int:
    """Returns the bytes of so many stored samples, but no more than the coded bytes can mean. Without a count it returns a guess."""
    if count is None:
        return GUESS * source.size
    return min(count, MOST_A_BYTE * source.size) * options.storage


def filled(name: str, before: list[Any], source: Source, room: int) -> bytearray:
    """Makes a call that fills a bytearray, and returns the bytearray. If `room` bytes are too few, makes the call again with more."""
    reply, call = Reply(), getattr(LIBRARY, name)
    while True:
        try:
            out = room_for(room)
        except MemoryError:
            # The call with an empty buffer checks the stream, and returns the length that it really needs.
            out = bytearray()
        front = ctypes.c_char.from_buffer(out) if out else None
        at = None if front is None else ctypes.addressof(front)
        number = call(*before, source.at, source.size, at, len(out), reply)
        del front
        if number == 0:
            if reply.len < len(out):
                del out[reply.len :]
            return out
        if number != NO_ROOM:
            raise fault_of(number, reply.place, text_of(reply))
        if len(out) < room <= reply.len:
            raise MemoryError(f"the samples take {reply.len} bytes")
        room = reply.len


def put(name: str, before: list[Any], source: Source, out: Any) -> memoryview:
    """Makes a call that fills `out`. Returns the part of `out` that was filled."""
    reply, target = Reply(), Target(out)
    number = getattr(LIBRARY, name)(*before, source.at, source.size, target.at, target.size, reply)
    if number:
        unit = " bytes" if number == NO_ROOM else ""
        raise fault_of(number, reply.place, text_of(reply) + unit)
    return target.view[: reply.len]


def of_dtype(out: Any, options: Options) -> Any:
    """Returns `out`, which may be None. Raises TypeError if it isn't a C-contiguous array of options.dtype, or `options` isn't
    Options."""
    if out is None:
        return None
    c_options(options)
    if isinstance(out, numpy_type("ndarray")) and out.dtype == options.dtype and out.flags.c_contiguous:
        return out
    raise TypeError(f"out must be a numpy array of the dtype {options.dtype} in C order")


def array_of(stored: Any, options: Options) -> Array:
    """Returns stored samples as an array that shares their memory."""
    made: Array = needed_numpy().frombuffer(stored, options.dtype)
    return made


def needed_numpy() -> Any:
    """Returns numpy. Raises ImportError if it isn't installed."""
    numpy = numpy_if_there()
    if numpy is None:
        raise ImportError("arrays need numpy: use decode_bytes, decode_range_bytes or next_bytes")
    return numpy
