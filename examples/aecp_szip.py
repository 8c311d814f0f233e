#!/usr/bin/env python3
"""Prints an HDF5 data set with the szip filter as a numpy array, even where HDF5 has no szip:
aecp_szip.py FILE DATASET

Decodes with the module aecp. Needs h5py. If a chunk isn't in the file, its elements are the fill
value.
"""

import os
import sys

from aec_runs import Refused, call
from h5_szip import chunk_at, chunk_bytes, corners, layout_of, opened
from szip_chunks import HEAD, MSB_FIRST, PREPROCESS, STANDARD_BLOCK_SIZES, check_len, without_filler

try:
    import aecp
    import numpy
except ImportError as fault:
    aecp, missing = None, str(fault)


def options_of(layout):
    """Returns the options of the streams of a data set."""
    return aecp.Options(
        bits=8 if layout.is_planes() else layout.bits,
        block_size=layout.block_size,
        interval=layout.interval(),
        msb_first=bool(layout.mask & MSB_FIRST),
        preprocess=bool(layout.mask & PREPROCESS),
        even_blocks=layout.block_size not in STANDARD_BLOCK_SIZES,
    )


def elements_of(data_set, layout, corner):
    """Returns the elements of a chunk, as an array of the chunk's shape."""
    chunk, raw_bytes = chunk_at(data_set, corner), chunk_bytes(data_set)
    check_len(chunk, raw_bytes)
    raw = chunk.data
    if not chunk.is_raw:
        samples = aecp.decode_bytes(raw[HEAD:], layout.count(raw_bytes), options_of(layout))
        raw = without_filler(layout, bytes(samples), raw_bytes)
    return numpy.frombuffer(raw, data_set.dtype).reshape(data_set.chunks)


def array_of(data_set):
    """Returns all elements of a data set."""
    layout = layout_of(data_set)
    elements = numpy.empty(data_set.shape, data_set.dtype)
    for corner in corners(data_set):
        places = zip(corner, data_set.chunks)
        part = elements[tuple(slice(first, first + step) for first, step in places)]
        # Chunks at an edge reach beyond the data set's shape.
        part[...] = elements_of(data_set, layout, corner)[tuple(map(slice, part.shape))]
    return elements


def show(file, dataset):
    """Prints all elements of a data set."""
    if aecp is None:
        raise Refused(missing)
    handle, data_set = opened(file, "r", dataset)
    with handle:
        print(array_of(data_set))


if __name__ == "__main__":
    call(__doc__, show, os.path.basename(sys.argv[0]), sys.argv[1:])
