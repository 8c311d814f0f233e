"""How HDF5's szip filter lays out the elements of a chunk as samples, and the bytes of a chunk in
the file: four bytes with the number of raw bytes, least significant first, then the stream. Reads
and writes no HDF5 file.

Elements of less than 32 bits are the samples. Elements of 32 and 64 bits are divided into planes of
bytes, and these bytes are the samples: the first byte of each element, then the second byte of
each, and so on. Samples are cut into scan lines. After each line there is filler up to whole
blocks, so a line is one interval.
"""

from typing import NamedTuple

from aec_runs import Refused, run_aec

MSB_FIRST, PREPROCESS = 16, 32  # bits of the filter's mask
STANDARD_BLOCK_SIZES = (8, 16, 32, 64)
HEAD = 4  # bytes of a chunk before its stream


class Layout(NamedTuple):
    """The four numbers that the filter stores with a data set, and the bytes of an element."""

    mask: int
    block_size: int
    bits: int
    line: int  # samples of a scan line
    element: int

    def check(self):
        """Refuses a layout that aec doesn't read."""
        if self.block_size < 8:
            raise Refused(f"blocks of {self.block_size} samples: aec has even sizes from 8 to 64")
        if self.element != self.expected_element():
            what = f"elements of {self.bits} bits in {self.element} bytes"
            raise Refused(f"{what} are laid out in no known way")

    def expected_element(self):
        """Returns the number of bytes of an element of so many bits."""
        if self.bits <= 8:
            return 1
        if self.bits <= 16:
            return 2
        return 8 if self.bits == 64 else 4

    def is_planes(self):
        """Returns whether the samples are the bytes of elements."""
        return self.bits in (32, 64)

    def sample(self):
        """Returns the number of bytes of a sample."""
        return 1 if self.is_planes() else self.element

    def interval(self):
        """Returns the number of blocks of a line, which is one interval."""
        return -(-self.line // self.block_size)

    def filled(self):
        """Returns the number of samples of a line with its filler."""
        return self.interval() * self.block_size

    def words(self):
        """Returns the words for aec, without a count."""
        bits = 8 if self.is_planes() else self.bits
        switches = {
            "-m": self.mask & MSB_FIRST,
            "-N": not self.mask & PREPROCESS,
            "--even-blocks": self.block_size not in STANDARD_BLOCK_SIZES,
        }
        words = ["-n", str(bits), "-j", str(self.block_size), "-r", str(self.interval())]
        return words + [word for word, is_set in switches.items() if is_set]

    def place(self, sample):
        """Returns a sample's place in the stream. Both count from 0."""
        return sample // self.line * self.filled() + sample % self.line

    def count(self, raw_bytes):
        """Returns the number of samples of the stream, without the filler of its last line."""
        samples = raw_bytes // self.sample()
        return self.place(samples - 1) + 1 if samples else 0

    def filled_count(self, raw_bytes):
        """Returns the number of samples of the stream, with the filler of its last line."""
        return -(-(raw_bytes // self.sample()) // self.line) * self.filled()


class Chunk(NamedTuple):
    """A chunk in the file: its bytes, and whether it is raw. If it is, the filter was skipped, and
    the bytes are the elements themselves."""

    data: bytes
    is_raw: bool


def of_planes(data, element):
    """Returns elements of so many bytes from the planes of their bytes."""
    raw, count = bytearray(len(data)), len(data) // element
    for plane in range(element):
        raw[plane::element] = data[plane * count : (plane + 1) * count]
    return bytes(raw)


def without_filler(layout, stored, raw_bytes):
    """Returns the raw bytes of stored samples, without the filler of lines."""
    line, filled = layout.line * layout.sample(), layout.filled() * layout.sample()
    lines = [stored[first : first + line] for first in range(0, len(stored), filled)]
    raw = b"".join(lines)[:raw_bytes]
    return of_planes(raw, layout.element) if layout.is_planes() else raw


def check_len(chunk, raw_bytes):
    """Refuses a chunk whose number of raw bytes isn't `raw_bytes`."""
    if not chunk.is_raw and len(chunk.data) < HEAD:
        raise Refused(f"a chunk has {len(chunk.data)} bytes, too few for its head")
    named = len(chunk.data) if chunk.is_raw else int.from_bytes(chunk.data[:HEAD], "little")
    if named != raw_bytes:
        raise Refused(f"a chunk has {named} raw bytes in place of {raw_bytes}")


def decoded(layout, aec, chunk, raw_bytes):
    """Returns the raw bytes of a chunk."""
    check_len(chunk, raw_bytes)
    if chunk.is_raw:
        return chunk.data
    words = ["-d", "--count", str(layout.count(raw_bytes)), *layout.words()]
    return without_filler(layout, run_aec(aec, words, chunk.data[HEAD:]), raw_bytes)


def overwrites(layout, element, value, elements):
    """Returns the script that gives element `element` of `elements`, counted from 0, other
    bytes."""
    if layout.is_planes():
        samples = {plane * elements + element: byte for plane, byte in enumerate(value)}
    else:
        order = "big" if layout.mask & MSB_FIRST else "little"
        samples = {element: int.from_bytes(value, order)}
    lines = [f"overwrite {layout.place(sample)} {it}\n" for sample, it in samples.items()]
    return "".join(lines).encode()


def edited(layout, aec, chunk, element, value, raw_bytes):
    """Returns the chunk with other bytes for one element, counted from 0. The filler of its line is
    unchanged. A raw chunk stays raw. A coded chunk that no longer shrinks becomes raw, unless its
    old code is as long as the raw chunk: if the length stays the same, HDF5 1.10 doesn't note that
    the chunk is raw from now on."""
    check_len(chunk, raw_bytes)
    if not chunk.is_raw:
        script = overwrites(layout, element, value, raw_bytes // layout.element)
        words = ["--count", str(layout.filled_count(raw_bytes)), *layout.words()]
        coded = chunk.data[:HEAD] + run_aec(aec, words, chunk.data[HEAD:], script)
        if len(coded) < raw_bytes or len(chunk.data) == raw_bytes:
            return Chunk(coded, False)
    first, raw = element * layout.element, decoded(layout, aec, chunk, raw_bytes)
    return Chunk(raw[:first] + value + raw[first + len(value) :], True)
