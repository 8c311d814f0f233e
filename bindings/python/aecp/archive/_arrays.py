"""Arrays and stored samples: each is made from the other, with numpy or without it."""

from __future__ import annotations

import sys
from array import array
from collections.abc import Iterable, Iterator
from typing import Any, NamedTuple, Optional, Union

from aecp.archive._dtypes import BOOL, DTYPE, dtype_in
from aecp.archive._form import Facts, Refused
from aecp.archive._strict import Wrong
from aecp.buffers import numpy_if_there, view_of
from aecp.calls import refuse_mask
from aecp.faults import SAMPLE_RANGE, fault_of
from aecp.options import Options

AT_ONCE = 1 << 18  # samples that are converted at once
MOST_BITS = 32
NATIVE = "<" if sys.byteorder == "little" else ">"
CODES = {"i1": "b", "u1": "B", "i2": "h", "u2": "H", "i4": "i", "u4": "I", "i8": "q", "u8": "Q"}
DTYPES = {**{code: text for text, code in CODES.items()}, "l": "", "L": "", "?": "b1"}


class Found(NamedTuple):
    """An array, and how it is coded and decoded again."""

    array: Any
    options: Options
    shape: tuple[int, ...]
    dtype: str


def stored_dtype(options: Options) -> str:
    """Returns the dtype of the array that stored samples become. Samples of three bytes become
    integers of four."""
    size = 4 if options.storage == 3 else options.storage
    kind = "i" if options.signed else "u"
    order = "|" if size == 1 else ">" if options.msb_first else "<"
    return f"{order}{kind}{size}"


def facts_dtype(facts: Facts) -> str:
    """Returns the dtype of the array in a file."""
    return facts.dtype or stored_dtype(facts.options)


def dtype_of(dtype: Any, options: Options) -> str:
    """Returns a dtype as a text. Raises TypeError if it isn't one of whole numbers; Refused if it
    can't hold the samples."""
    numpy = numpy_if_there()
    text = dtype if numpy is None else numpy.dtype(dtype).str
    if not isinstance(text, str) or not DTYPE.fullmatch(text):
        raise TypeError(f"dtype must be that of whole numbers, not {dtype!r}")
    try:
        return dtype_in(text, options) or text
    except Wrong as wrong:
        raise Refused(f"{wrong}") from None


# Arrays that are given.


def given_array(given: Any) -> tuple[Any, str, tuple[int, ...]]:
    """Returns an array of numpy, or without numpy a memoryview; its dtype; and its shape. Raises
    TypeError for anything but an array of whole numbers."""
    numpy = numpy_if_there()
    if isinstance(given, (list, tuple, str, int, float)):
        raise TypeError(f"an array is needed, not {type(given).__name__}")
    if numpy is None:
        return given_view(view_of(given, "an array", "an array or bytes"))
    if isinstance(given, (bytes, bytearray)):
        given = numpy.frombuffer(given, numpy.uint8)
    refuse_mask(given)
    made = numpy.asarray(given)
    if made.dtype.kind not in "iub":
        raise TypeError(f"an array of whole numbers is needed, not of {made.dtype.name}")
    return made, made.dtype.str, made.shape


def given_view(view: memoryview) -> tuple[Any, str, tuple[int, ...]]:
    """Returns a memoryview in one piece, the dtype of its items, and its shape. Raises TypeError
    for others."""
    code = "B" if view.format == "c" else view.format
    if code not in DTYPES or not view.c_contiguous:
        raise TypeError(f"an array of whole numbers is needed, not one of the format {code!r}")
    text = DTYPES[code] or f"{'i' if code == 'l' else 'u'}{view.itemsize}"
    order = "|" if view.itemsize == 1 else NATIVE
    shape = tuple(view.shape or ())
    flat: Any = view.cast("B") if view.nbytes else memoryview(b"")
    return flat.cast(code), order + text, shape


def auto_options(given: Any, bits: Union[int, str], options: dict[str, Any]) -> Found:
    """Returns an array, and options that code it. With the bits "auto" they are as many as its
    least and its greatest sample need. Raises TypeError."""
    made, dtype, shape = given_array(given)
    order = {"signed": dtype[1] == "i", "msb_first": dtype[0] == ">"}
    if bits != "auto":
        if isinstance(bits, str):
            raise ValueError('bits must be a number or "auto"')
        return Found(made, Options(bits, **{**order, **options}), shape, dtype)
    least, most = range_of(made)
    is_signed = {**order, **options}["signed"]
    ends = [end if end >= 0 else ~end for end in (least, most)]
    needed = max(end.bit_length() for end in ends) + bool(is_signed)
    found = Options(min(max(needed, 1), MOST_BITS), **{**order, **options})
    return Found(made, found, shape, dtype)


def range_of(made: Any) -> tuple[int, int]:
    """Returns the least and the greatest number of an array; 0 and 0 of an empty one."""
    if isinstance(made, memoryview):
        return (min(made), max(made)) if made.nbytes else (0, 0)
    return (int(made.min()), int(made.max())) if made.size else (0, 0)


def stored_pieces(given: Any, options: Options, dtype: Optional[str]) -> Iterator[Any]:
    """Yields the samples of an array in pieces that aecp.encode takes.

    dtype: the dtype that the array must have. Without it, it is that of the options.

    Raises TypeError for another array; SampleRefused for a sample that doesn't fit.
    """
    is_plain = dtype is None and (options.storage != 3 or isinstance(given, memoryview))
    if is_plain or isinstance(given, (bytes, bytearray)):
        yield given
        return
    wanted = stored_dtype(options) if dtype is None else dtype
    made, found, _ = given_array(given)
    if found[1:] != wanted[1:]:
        raise TypeError(f"an array of {wanted} is needed, not of {found}")
    if found == stored_dtype(options) != BOOL and options.storage != 3:
        yield made
        return
    flat = made if isinstance(made, memoryview) else made.reshape(-1)
    for at in range(0, len(flat), AT_ONCE):
        piece = flat[at : at + AT_ONCE]
        judge_range(piece, options, at)
        yield stored_piece(piece, options)


def judge_range(piece: Any, options: Options, at: int) -> None:
    """Raises SampleRefused for the first sample that is out of range. `at` is the place of the
    first sample of the piece."""
    least, most = range_of(piece)
    if options.least <= least and most <= options.most:
        return
    values = piece.tolist()
    index = next(i for i, it in enumerate(values) if not options.least <= it <= options.most)
    raise fault_of(SAMPLE_RANGE, at + index, f"sample {at + index} is out of range")


def stored_piece(piece: Any, options: Options) -> Any:
    """Returns samples that are in range as the options store them."""
    text = stored_dtype(options)
    if isinstance(piece, memoryview):
        made = array(CODES[text[1:]], piece.tolist())
        if text[0] not in ("|", NATIVE):
            made.byteswap()
        stored = made.tobytes()
        if options.storage == 3:
            return without_fourth(stored, options)
        return stored
    converted = piece.astype(text)
    return without_fourth(converted.tobytes(), options) if options.storage == 3 else converted


def without_fourth(stored: bytes, options: Options) -> bytes:
    """Returns samples of four bytes without the most significant one."""
    made = bytearray(len(stored) // 4 * 3)
    skipped = 1 if options.msb_first else 0
    for i in range(3):
        made[i::3] = stored[i + skipped :: 4]
    return bytes(made)


# Arrays that are made.


def with_fourth(stored: Any, options: Options) -> bytearray:
    """Returns samples of three bytes with a fourth one, which continues the sign."""
    made = bytearray(len(stored) // 3 * 4)
    skipped, top = (1, 0) if options.msb_first else (0, 2)
    for i in range(3):
        made[i + skipped :: 4] = stored[i::3]
    if options.signed:
        signs = bytes(stored[top::3]).translate(bytes(128) + b"\xff" * 128)
        made[0 if options.msb_first else 3 :: 4] = signs
    return made


def flat_array(facts: Facts, length: int, pieces: Iterable[Any]) -> Any:
    """Returns a list of samples as an array of one dimension: of numpy, else of the module array.

    pieces: stored samples, `length` in all.
    """
    numpy, options = numpy_if_there(), facts.options
    widened = (with_fourth(piece, options) if options.storage == 3 else piece for piece in pieces)
    if numpy is None:
        return plain_array(facts, widened)
    made, at = numpy.empty(length, facts_dtype(facts)), 0
    for piece in widened:
        part = numpy.frombuffer(piece, stored_dtype(options))
        made[at : at + len(part)] = part
        at += len(part)
    return made


def plain_array(facts: Facts, pieces: Iterable[Any]) -> Any:
    """Returns stored samples as an array of the module array."""
    stored, wanted = stored_dtype(facts.options), facts_dtype(facts)
    code = CODES["u1" if wanted == BOOL else wanted[1:]]
    made = array(code)
    for piece in pieces:
        part = array(CODES[stored[1:]], bytes(piece))
        if stored[0] not in ("|", NATIVE):
            part.byteswap()
        made.extend(part if part.typecode == code else array(code, part.tolist()))
    return made


def shaped(facts: Facts, flat: Any) -> Any:
    """Returns an array of one dimension in the shape of a file. Without numpy it stays as it is."""
    if facts.shape is None or numpy_if_there() is None:
        return flat
    return flat.reshape(facts.shape)
