"""GRIB2 messages with data representation template 5.42: where they are in a file, their sections,
how the stream is coded, and how its samples represent values."""

from __future__ import annotations

import math
import os
import struct
from fractions import Fraction
from typing import NamedTuple

from aec_runs import Refused, whole_number

# bits of ccsdsFlags
SIGNED, THREE_BYTES, MSB_FIRST, PREPROCESS, RESTRICTED, PADDED, ANY_EVEN_BLOCK = (
    1 << place for place in range(7)
)
STANDARD_BLOCK_SIZES = (8, 16, 32, 64)
MARK, TAIL = b"GRIB", b"7777"
HEAD = 16  # bytes of section 0
PIECE = 1 << 16  # bytes that are read at a time
SECTION_HEAD = 5  # its length in four bytes, then its number
TEMPLATE_END = 25  # bytes of section 5 with template 5.42
# Data representation templates 5.N whose decimal scale factor D is at octets 18 and 19, like 5.42's.
WITH_D = {0, 1, 2, 3, 40, 41, 42, 50, 51, 53, 61, 40000, 40010}
SPECTRAL = "spectral coefficients: transform them to a grid first (cdo sp2gp)"
SPECTRAL_GRIDS, SPECTRAL_DATA = {50, 51, 52, 53}, {50, 51}  # grid templates, data templates
DECIMAL_1 = 34  # the byte of an edition 1 message where its decimal scale factor begins


class Message(NamedTuple):
    """The bytes of a message, where it begins in its file, and the places of its sections in it."""

    data: bytes
    first: int
    sections: dict[int, tuple[int, int]]  # by number: its first byte, its end

    def section(self, number):
        """Returns the bytes of a section."""
        if number not in self.sections:
            raise Refused(f"the message has no section {number}")
        first, end = self.sections[number]
        return self.data[first:end]

    def stream(self):
        """Returns the coded stream."""
        first, end = self.sections[7]
        return memoryview(self.data)[first + SECTION_HEAD : end]


class Replaced(NamedTuple):
    """Bytes of a file, and the parts that replace them."""

    first: int
    end: int
    parts: list


class Coding(NamedTuple):
    """What section 5 says about the stream."""

    count: int
    bits: int
    flags: int
    block_size: int
    interval: int

    def words(self):
        """Returns the words for aec, without the count."""
        words = ["-n", str(self.bits), "-j", str(self.block_size), "-r", str(self.interval)]
        is_standard = self.block_size in STANDARD_BLOCK_SIZES
        switches = {
            "-s": self.flags & SIGNED,
            "-N": not self.flags & PREPROCESS,
            "-t": self.flags & RESTRICTED and self.bits <= 8,  # above, the flag changes nothing
            "-m": self.flags & MSB_FIRST,
            "-3": self.flags & THREE_BYTES,
            "--even-blocks": self.flags & ANY_EVEN_BLOCK or not is_standard,
        }
        return words + [word for word, is_set in switches.items() if is_set]

    def counted_words(self):
        """Returns the words for aec with the count, as reading the stream needs them."""
        return ["--count", str(self.count), *self.words()]


class Packing(NamedTuple):
    """How samples of so many bits represent values: the number X represents (R + X 2^E) / 10^D."""

    reference: Fraction
    binary: int
    decimal: int
    bits: int
    is_signed: bool

    def scale(self):
        """Returns three whole numbers A, B and C: the number X represents (A + X B) / C."""
        scale = Fraction(10) ** self.decimal
        least, step = self.reference / scale, Fraction(2) ** self.binary / scale
        parts = math.lcm(least.denominator, step.denominator)
        return int(least * parts), int(step * parts), parts

    def values(self, numbers):
        """Returns the values of unsigned numbers X, each as the nearest float."""
        first, more, parts = self.scale()
        return [(first + x * more) / parts for x in numbers]

    def value(self, x):
        """Returns the value of an unsigned number X, as the nearest float."""
        return self.values([x])[0]

    def nearest(self, value, scale):
        """Returns the unsigned number with the nearest value, by the numbers of `scale`. Refuses a
        value outside the range of the packing."""
        (first, more, parts), (above, below) = scale, value.as_integer_ratio()
        x, rest = divmod(above * parts - first * below, more * below)
        x += 2 * rest + x % 2 > more * below  # a half is rounded to even
        most = (1 << self.bits) - 1
        if not 0 <= x <= most:
            room = f"{float(value)} doesn't fit the packing: {self.value(0)} to {self.value(most)}"
            raise Refused(f"{room}. The field must be packed anew, which changes other values too")
        return x

    def number(self, sample):
        """Returns the unsigned number of a sample."""
        return sample % (1 << self.bits)

    def sample(self, x):
        """Returns the sample of an unsigned number."""
        return x - (1 << self.bits) if self.is_signed and x >> self.bits - 1 else x


def number(data, first, length):
    """Returns the unsigned number in these bytes, most significant byte first."""
    return int.from_bytes(data[first : first + length], "big")


def sections_of(data):
    """Returns the places of the sections of a message."""
    sections, first, last, end = {}, HEAD, 0, len(data) - len(TAIL)
    while data[first : first + len(TAIL)] != TAIL or first != end:
        length, name = number(data, first, 4), number(data, first + 4, 1)
        if length < SECTION_HEAD or first + length > end:
            raise Refused(f"the message is cut or damaged: at byte {first} no section fits")
        if name <= last:
            raise Refused("the message repeats sections: split it into one message a field")
        sections[name], last = (first, first + length), name
        first += length
    return sections


def mark_after(source, at):
    """Returns where the next message begins, at byte `at` or after it. Returns None if no message
    begins there. Skips other bytes, such as the heading of a bulletin."""
    source.seek(at)
    kept = b""
    while piece := source.read(PIECE):
        found = (kept + piece).find(MARK)
        if found >= 0:
            return at - len(kept) + found
        at += len(piece)
        kept = (kept + piece)[1 - len(MARK) :]
    return None


def head_of(source, first):
    """Returns the edition of the message that begins at `first`, and its end."""
    source.seek(first)
    head = source.read(HEAD)
    if len(head) < HEAD:
        raise Refused(f"the message is cut: only {len(head)} bytes are there")
    edition = head[7]
    return edition, first + (number(head, 8, 8) if edition == 2 else number(head, 4, 3))


def read_message(source, first):
    """Returns the message that begins at `first`."""
    edition, end = head_of(source, first)
    if edition != 2:
        raise Refused(f"the message has edition {edition}, not 2{way_from_1(source, first, edition)}")
    there, length = source.seek(0, os.SEEK_END) - first, end - first
    if there < length:
        raise Refused(f"the message is cut: {there} of its {length} bytes are there")
    source.seek(first)
    data = source.read(length)
    message = Message(data, first, sections_of(data))
    for needed in (5, 7):
        message.section(needed)
    return message


def found_messages(source, path, numbers):
    """Yields these numbers of messages of an open file in ascending order, each with the byte where
    its message begins. The messages of a file are counted from 1."""
    count, first = 0, mark_after(source, 0)
    if first is None:
        raise Refused(f"{path} contains no GRIB message")
    for wanted in sorted(numbers):
        while count < wanted:
            if count:
                first = mark_after(source, max(head_of(source, first)[1], first + HEAD))
            if first is None:
                has = "1 message" if count == 1 else f"{count} messages"
                raise Refused(f"{path} has {has}, none with the number {wanted}")
            count += 1
        yield wanted, first


def message_of(source, path, wanted):
    """Returns the message of an open file with this number, a text."""
    (_, first), = found_messages(source, path, [message_number(wanted)])
    return read_message(source, first)


def message_number(text):
    """Returns the number of a message. Raises WrongWords for another text."""
    return whole_number(text, "number of a message", 1)


def pack_anew(decimal, file="FILE"):
    """Returns a text about how to pack a field by CCSDS whose decimal scale factor D is this
    number, None if it isn't known. Where E isn't 0 either, eccodes 2.28 divides all values by 10^D
    unless D becomes 0."""
    keys = "packingType=grid_ccsds" + ",decimalScaleFactor=0" * (decimal != 0)
    return f"`grib_set -r -s {keys} {file} message.grib` packs it by CCSDS; then compare all values"


def way_from_1(source, first, edition):
    """Returns a text about how a message of edition 1 becomes one that the script reads. Returns
    nothing about another edition."""
    if edition != 1:
        return ""
    source.seek(first)
    data = source.read(1 << 10)
    grid = 8 + number(data, 8, 3)  # after section 1, whose octet 8 says whether section 2 is there
    if data[15:16] >= b"\x80" and number(data, grid + 5, 1) in SPECTRAL_GRIDS:
        return f": {SPECTRAL}"
    converts = "`grib_set -s edition=2 FILE two.grib` converts it, and"
    return f": {converts} {pack_anew(signed(data, DECIMAL_1), 'two.grib')}"


def is_spectral(message):
    """Returns whether section 3 says that the field has spectral coefficients."""
    return 3 in message.sections and number(message.section(3), 12, 2) in SPECTRAL_GRIDS


def way_to_ccsds(message, template):
    """Returns a text about how a field of another data representation template becomes one that
    the script reads."""
    if template in SPECTRAL_DATA or is_spectral(message):
        return SPECTRAL
    if template not in WITH_D:
        return pack_anew(None)
    section = message.section(5)
    has_both = signed(section, 15) != 0 != signed(section, 17)  # E and D
    return pack_anew(signed(section, 17) if has_both else 0)


def coding_of(message):
    """Returns how the stream of a message is coded."""
    section = message.section(5)
    template = number(section, 9, 2)
    if template != 42:
        other = f"the field has data representation template 5.{template}, not 5.42"
        raise Refused(f"{other}: {way_to_ccsds(message, template)}")
    if len(section) < TEMPLATE_END:
        raise Refused(f"section 5 has {len(section)} bytes, too few for template 5.42")
    count, interval = number(section, 5, 4), number(section, 23, 2)
    if is_spectral(message):
        raise Refused(f"the field has {SPECTRAL}")
    coding = Coding(count, section[19], section[21], section[22], interval)
    if coding.bits == 0:
        what = "the field is constant: it has no stream"
        raise Refused(f"{what}. eccodes' Python can pack it anew with other values")
    if coding.bits > 32:
        raise Refused(f"a value has {coding.bits} bits, more than 32")
    if coding.flags & PADDED:
        raise Refused("intervals are padded (flag 32): -p of aec has another rule")
    return coding


def packing_of(message):
    """Returns how the samples of a message represent values."""
    section, coding = message.section(5), coding_of(message)
    reference = struct.unpack(">f", section[11:15])[0]
    if not math.isfinite(reference):
        raise Refused(f"the reference value is {reference}: the message is damaged")
    binary, decimal = signed(section, 15), signed(section, 17)
    is_signed = bool(coding.flags & SIGNED)
    packing = Packing(Fraction(reference), binary, decimal, coding.bits, is_signed)
    try:
        packing.values([0, (1 << coding.bits) - 1])
    except OverflowError:
        factors = f"binary scale factor {binary}, decimal scale factor {decimal}"
        raise Refused(f"the values are too large for floats: {factors}") from None
    return packing


def signed(data, first):
    """Returns the number in two bytes: the highest bit is the sign, the others are the absolute
    value."""
    value = number(data, first, 2)
    return (1 << 15) - value if value >> 15 else value


def with_stream(message, stream):
    """Returns what replaces a message in its file if it has another stream. The two lengths that
    depend on the stream are adjusted."""
    first, end = message.sections[7]
    length, data = SECTION_HEAD + len(stream), memoryview(message.data)
    if length >= 1 << 32:
        raise Refused("the stream is too long for a section")
    total = len(data) + length - (end - first)
    head, section = total.to_bytes(8, "big"), length.to_bytes(4, "big") + b"\7"
    parts = [data[:8], head, data[HEAD:first], section, stream, data[end:]]
    return Replaced(message.first, message.first + len(data), parts)


def with_replaced(source, replaced):
    """Yields the parts of an open file in which some bytes are replaced. All others are copied in
    pieces."""
    at, size = 0, source.seek(0, os.SEEK_END)
    for it in sorted(replaced):
        yield from pieces_of(source, at, it.first)
        yield from it.parts
        at = it.end
    yield from pieces_of(source, at, size)


def pieces_of(source, first, end):
    """Yields the bytes of an open file from `first` to `end`."""
    source.seek(first)
    while first < end:
        piece = source.read(min(PIECE, end - first))
        if not piece:
            raise Refused(f"the file has lost bytes meanwhile: byte {first} isn't there")
        first += len(piece)
        yield piece
