"""The headers of .npy and FITS files: where the samples begin, how many there are, their type and
their shape."""

from __future__ import annotations

import ast
import math
import re
import struct
from dataclasses import dataclass, replace
from typing import BinaryIO, Optional

from aecp.archive._form import Refused
from aecp.options import Options

NPY = b"\x93NUMPY"
FITS = b"SIMPLE  ="
BLOCK = 2880  # bytes of a block of a FITS file
CARD = 80  # bytes of a line of a FITS header
MOST_BLOCKS = 364  # blocks of headers that are read: 1 MiB
MOST_HEADER = 1 << 16  # bytes of a header of a .npy file
WHOLE = re.compile(r"[<>|=]?([iu])([124])")


@dataclass(frozen=True)
class Layout:
    """How a file is laid out: `head` bytes, then the samples, then perhaps other bytes.

    length  bytes of all samples; None means all that follow
    dtype   the type of the samples as numpy writes it, or None
    shape   the sizes, the first index slowest, or None
    """

    head: int = 0
    length: Optional[int] = None
    dtype: Optional[str] = None
    shape: Optional[tuple[int, ...]] = None


def layout_of(file: BinaryIO) -> Optional[Layout]:
    """Returns the layout of a .npy or FITS file, or None for any other. Raises Refused if its
    header is damaged or its samples are no whole numbers of 8, 16 or 32 bits."""
    file.seek(0)
    first = file.read(len(FITS))
    if first.startswith(NPY):
        return npy_layout(file)
    return fits_layout(file) if first == FITS else None


def npy_layout(file: BinaryIO) -> Layout:
    """Returns the layout of a .npy file."""
    file.seek(len(NPY))
    version = file.read(2)
    form = "<H" if version[:1] == b"\x01" else "<I"
    size = file.read(struct.calcsize(form))
    if len(version) < 2 or version[0] not in (1, 2, 3) or len(size) < struct.calcsize(form):
        raise Refused("its .npy header is damaged")
    length = struct.unpack(form, size)[0]
    text = file.read(length) if length <= MOST_HEADER else b""
    if len(text) != length:
        raise Refused("its .npy header is damaged")
    dtype, shape, is_fortran = npy_fields(text)
    if not WHOLE.fullmatch(dtype):
        why = "only whole numbers of 8, 16 or 32 bits can be kept (--raw ignores the header)"
        raise Refused(f"its samples are of the type {dtype}: {why}")
    length = math.prod(shape) * int(dtype[-1])
    return Layout(file.tell(), length, dtype, shape[::-1] if is_fortran else shape)


def npy_fields(text: bytes) -> tuple[str, tuple[int, ...], bool]:
    """Returns type, shape and order of a .npy header."""
    try:
        fields = ast.literal_eval(text.decode("utf-8"))
        dtype, shape, is_fortran = fields["descr"], fields["shape"], fields["fortran_order"]
    except (ValueError, SyntaxError, TypeError, KeyError, MemoryError, RecursionError):
        raise Refused("its .npy header is damaged") from None
    if not isinstance(dtype, str):
        why = "only whole numbers can be kept (--raw ignores the header)"
        raise Refused(f"its samples are records: {why}")
    is_shape = isinstance(shape, tuple) and len(shape) <= 32
    if not is_shape or not all(type(it) is int and 0 <= it <= 2**32 for it in shape):
        raise Refused("its .npy header is damaged")
    return dtype, shape, bool(is_fortran)


def fits_layout(file: BinaryIO) -> Layout:
    """Returns the layout of the first image of whole numbers in a FITS file."""
    start = 0
    while True:
        cards, data = fits_header(file, start)
        bits, sizes = fits_number(cards, "BITPIX"), fits_sizes(cards)
        extra = fits_number(cards, "PCOUNT") if "PCOUNT" in cards else 0
        groups = fits_number(cards, "GCOUNT") if "GCOUNT" in cards else 1
        length = abs(bits) // 8 * groups * (extra + (math.prod(sizes) if sizes else 0))
        is_plain = not extra and groups == 1
        is_image = is_plain and cards.get("XTENSION", "'IMAGE").startswith("'IMAGE")
        if is_image and bits in (8, 16, 32) and length > 0:
            dtype = "|u1" if bits == 8 else f">i{bits // 8}"
            return Layout(data, length, dtype, tuple(reversed(sizes)))
        start = data + -(-length // BLOCK) * BLOCK
        if start // BLOCK >= MOST_BLOCKS:
            text = "this FITS file has no image of whole numbers in its first MiB"
            raise Refused(f"{text} (--raw ignores the header)")


def fits_header(file: BinaryIO, start: int) -> tuple[dict[str, str], int]:
    """Returns the cards of the header that begins at a byte, and the byte after the header."""
    file.seek(start)
    cards: dict[str, str] = {}
    for block in range(1, MOST_BLOCKS + 1):
        data = file.read(BLOCK)
        if len(data) < BLOCK:
            raise Refused("this FITS file has no image of whole numbers (--raw ignores the header)")
        for at in range(0, BLOCK, CARD):
            card = data[at : at + CARD].decode("ascii", "replace")
            if card[:8].strip() == "END":
                return cards, start + block * BLOCK
            if card[8:10] == "= ":
                cards.setdefault(card[:8].strip(), card[10:].partition("/")[0].strip())
    raise Refused("its FITS header doesn't end")


def fits_number(cards: dict[str, str], name: str) -> int:
    """Returns a number of a FITS header."""
    text = cards.get(name, "")
    if not re.fullmatch(r"[-+]?[0-9]{1,10}", text):
        raise Refused(f"its FITS header has no number {name}")
    return int(text)


def fits_sizes(cards: dict[str, str]) -> list[int]:
    """Returns the sizes of a FITS image, the first index fastest."""
    axes = fits_number(cards, "NAXIS")
    if not 0 <= axes <= 999:
        raise Refused("its FITS header is damaged")
    sizes = [fits_number(cards, f"NAXIS{i + 1}") for i in range(axes)]
    if any(it < 0 for it in sizes):
        raise Refused("its FITS header is damaged")
    return sizes


def options_of(dtype: str, options: Options, bits: Optional[int]) -> Options:
    """Returns options with the storage, sign and byte order of a type. `bits` is what the user
    gave. Raises Refused if both disagree."""
    match = WHOLE.fullmatch(dtype)
    if match is None:
        raise Refused(f"{dtype} is no type of whole numbers of 8, 16 or 32 bits, such as <i2")
    size, is_signed = int(match[2]), match[1] == "i"
    made = replace(
        options,
        bits=bits or 8 * size,
        signed=is_signed,
        msb_first=dtype[0] == ">" and size > 1,
        three_byte=False,
    )
    if made.storage != size:
        raise Refused(f"-n {bits} doesn't fit its samples of {8 * size} bits")
    return made
