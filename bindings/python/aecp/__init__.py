r"""Lossless coding of integer samples in the format CCSDS 121.0-B-3, with the proved library libaecp.so.

    >>> import aecp
    >>> options = aecp.Options(bits=16)
    >>> coded = aecp.encode(samples, options)           # a numpy array or bytes -> bytes
    >>> aecp.decode(coded, len(samples), options)       # -> numpy.ndarray
    >>> aecp.decode_range(coded, len(samples), 100, 50, options)
    >>> offsets = aecp.offsets(coded, len(samples), options)      # the bit where each interval begins
    >>> aecp.decode_at(coded, offsets[3], 50, options)            # the first 50 samples of interval 3
    >>> coded, count = aecp.edit(coded, len(samples), "insert 100 7 8 9\nremove 0 5\n", options)
    >>> with aecp.create("scan.aec", options) as file:      # FILE.aec has options, count, sums and an index
    ...     file.write(samples)
    >>> aecp.open("scan.aec")[1000:1010]                    # reads only what it needs
    >>> aecp.unpack(aecp.pack(array))                       # the same in memory; any shape and dtype of whole numbers

A coded stream contains neither its options nor its sample count. Keep both with the stream: no call is sure to notice wrong ones.
`encode`, `offsets` and the calls with `bytes` in their names need only the standard library; `decode`, `decode_at` and `decode_range`
return numpy arrays. The library is loaded at the first call, which raises ImportError if there is none.
Several threads may call at once, and their calls run in parallel. While a call runs, no thread may change the memory passed to it.
"""

__version__ = "1.1.0"

from aecp.archive import create, open, pack, unpack
from aecp.calls import decode, decode_at, decode_bytes, decode_bytes_at, decode_range, decode_range_bytes, encode, offsets
from aecp.faults import (
    BitRefused, Fault, LimitPassed, NoMemory, NoRoom, NotOpen, OptionsRefused, RangeRefused, SampleRefused, ScriptRefused, StreamRefused,
)  # fmt: skip
from aecp.options import Options
from aecp.streams import Decoder, Encoder, edit
from aecp.workspace import Workspace

__all__ = [
    "BitRefused", "Decoder", "Encoder", "Fault", "LimitPassed", "NoMemory", "NoRoom", "NotOpen", "Options", "OptionsRefused",
    "RangeRefused", "SampleRefused", "ScriptRefused", "StreamRefused", "Workspace", "__version__", "create", "decode", "decode_at",
    "decode_bytes", "decode_bytes_at", "decode_range", "decode_range_bytes", "edit", "encode", "offsets", "open", "pack", "unpack",
]  # fmt: skip
