"""A codec for numcodecs, for chunks of zarr 2: zarr.array(data, compressor=Aecp(16)). numcodecs finds it by its entry point as
{"id": "aecp", "bits": 16}.

A chunk is four bytes, least significant first, and then the stream. The lower 31 bits of the four bytes are the number of samples.
The highest bit is set if the samples have another byte order than `msb_first` says. So the bytes of an array of big-endian integers
are coded without change. The options are in the array's metadata.
"""

from __future__ import annotations

from dataclasses import replace
from typing import Any

from aecp.calls import decode_bytes, decode_range_bytes, encode, refuse_mask
from aecp.faults import OUT_OF_RANGE, fault_of
from aecp.options import Options
from numcodecs.abc import Codec
from numcodecs.compat import ensure_contiguous_ndarray, ensure_ndarray, ndarray_copy

HEAD = 4
OTHER_ORDER = 1 << 31


class Aecp(Codec):  # type: ignore[misc]
    """Codes chunks of whole numbers. The options are those of aecp.Options."""

    codec_id = "aecp"

    def __init__(self, bits: int, **options: Any) -> None:
        self.bits, self.options = bits, options
        self.usual = Options(bits, **options)

    def ordered(self, is_other: bool) -> Options:
        """Returns the options, with the other byte order if `is_other`."""
        return replace(self.usual, msb_first=self.usual.msb_first != is_other)

    def encode(self, buf: Any) -> bytes:
        """Codes a chunk. Returns it as bytes.

        buf: stored samples as bytes or any array of one-byte items; or an array of integers of the options' size, signed or not.

        Raises TypeError for other arrays and masked ones; ValueError if the bytes make no whole samples, or at least 2^31 samples; and
        what aecp.encode raises.
        """
        refuse_mask(buf)
        dtype = ensure_ndarray(buf).dtype
        is_integers = dtype.kind in "iu" and dtype.itemsize == self.usual.storage
        if dtype.itemsize != 1 and not is_integers:
            raise TypeError(f"a chunk must be bytes, or integers of {self.usual.storage} bytes each, not {dtype.name}")
        data = memoryview(ensure_contiguous_ndarray(buf)).cast("B")
        is_other = is_integers and dtype.str[0] in "<>" and (dtype.str[0] == ">") != self.usual.msb_first
        count, rest = divmod(data.nbytes, self.usual.storage)
        if rest:
            raise ValueError(f"{data.nbytes} bytes are no whole samples of {self.usual.storage}")
        if count >= OTHER_ORDER:
            raise ValueError(f"a chunk has at most {OTHER_ORDER - 1} samples, not {count}")
        return (count + OTHER_ORDER * is_other).to_bytes(HEAD, "little") + encode(data, self.ordered(is_other))

    def decode(self, buf: Any, out: Any = None) -> Any:
        """Decodes a chunk. Returns its stored samples as a bytearray, or copies them to `out` and returns `out`. Raises what
        aecp.decode_bytes raises."""
        stream, count, options = self.parts_of(buf)
        samples = decode_bytes(stream, count, options)
        return samples if out is None else ndarray_copy(samples, out)

    def decode_partial(self, buf: Any, start: int, nitems: int, out: Any = None) -> Any:
        """Decodes `nitems` samples of a chunk, from sample `start` on, and no sample after them. Returns them as decode does. Raises what
        aecp.decode_range_bytes raises."""
        stream, count, options = self.parts_of(buf)
        if not 0 <= start <= start + nitems <= count:
            raise fault_of(OUT_OF_RANGE, count, f"the range {start}:{nitems} is outside the {count} samples of the chunk")
        samples = decode_range_bytes(stream, start + nitems, start, nitems, options)
        return samples if out is None else ndarray_copy(samples, out)

    def parts_of(self, buf: Any) -> tuple[memoryview, int, Options]:
        """Returns the stream of a chunk, its number of samples and its options."""
        chunk = memoryview(ensure_contiguous_ndarray(buf)).cast("B")
        is_other, count = divmod(int.from_bytes(chunk[:HEAD], "little"), OTHER_ORDER)
        return chunk[HEAD:], count, self.ordered(bool(is_other))

    def get_config(self) -> dict[str, Any]:
        """Returns the configuration from which numcodecs.get_codec makes this codec. It has the block size and the interval even if
        they are the defaults, since an array's metadata must last."""
        numbers = {"block_size": self.usual.block_size, "interval": self.usual.interval}
        return {"id": self.codec_id, "bits": self.bits, **numbers, **self.options}
