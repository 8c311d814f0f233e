#!/usr/bin/env python3
"""Reads and edits the coded streams of an HDF5 data set with the szip filter:

    h5_szip.py show FILE DATASET              prints shape, type, chunks, and the options for aec
    h5_szip.py read AEC FILE DATASET OUT      writes all elements as bytes, as they are stored, the
                                              last index fastest
    h5_szip.py edit AEC FILE DATASET PLACE VALUE
                                              changes the element at PLACE, such as 3,0,17, to
                                              VALUE, in FILE itself

Needs h5py, but not HDF5's own szip. A chunk that the filter has left uncoded stays uncoded. A chunk
that no longer shrinks is written uncoded, unless its old code was as long as the uncoded chunk.
"""

import itertools
import math

from aec_runs import Refused, WrongWords, perform, write_whole
from szip_chunks import Chunk, Layout, decoded, edited

try:
    import h5py
    import numpy
except ImportError as fault:
    h5py, missing = None, str(fault)

SZIP = 4  # the number of the filter
# messages of several versions of HDF5 for a chunk that isn't in the file
NOT_STORED = ("storage is not allocated", "address isn't defined", "buf cannot be NULL")


def opened(path, mode, name):
    """Opens a file. Returns the file, and the data set of that name in it."""
    if h5py is None:
        raise Refused(f"{missing}: python3-h5py has it for /usr/bin/python3")
    try:
        file = h5py.File(path, mode)
    except OSError as fault:
        text = str(fault).splitlines()[0]
        raise Refused(f"{path} can't be opened as HDF5: {text}") from fault
    if not isinstance(file.get(name), h5py.Dataset):
        raise Refused(f"{path} has no data set {name}")
    return file, file[name]


def layout_of(data_set):
    """Returns how the chunks of a data set are laid out. Refuses other filters than szip alone, and
    elements that aren't single numbers."""
    settings = data_set.id.get_create_plist()
    filters = [settings.get_filter(i) for i in range(settings.get_nfilters())]
    names = [it[0] for it in filters]
    if names != [SZIP]:
        raise Refused(f"the data set has the filters {names}, not szip (4) alone")
    stored, dtype = data_set.id.get_type(), data_set.dtype
    if dtype.kind not in "iufb" or stored.get_size() != dtype.itemsize:
        raise Refused(f"elements of the type {dtype} aren't single numbers as they are stored")
    mask, block_size, bits, line = filters[0][2][:4]
    layout = Layout(mask, block_size, bits, line, dtype.itemsize)
    layout.check()
    return layout


def chunk_bytes(data_set):
    """Returns the number of raw bytes of each chunk. A chunk at an edge of the data set is as long
    as the others."""
    return data_set.dtype.itemsize * math.prod(data_set.chunks)


def chunk_at(data_set, corner):
    """Returns the chunk whose first element is at `corner`. A chunk that isn't in the file has the
    fill value. In HDF5 1.10 only a failed read shows that a chunk isn't there: if the last
    dimension may grow, `get_chunk_info_by_coord` misses chunks that are there."""
    try:
        mask, data = data_set.id.read_direct_chunk(corner)
    except (OSError, RuntimeError, ValueError) as fault:
        if not any(text in str(fault) for text in NOT_STORED):
            raise Refused(f"the chunk at {corner} can't be read: {fault}") from fault
        filled = numpy.full(data_set.chunks, data_set.fillvalue, data_set.dtype)
        return Chunk(filled.tobytes(), True)
    return Chunk(data, mask & 1 == 1)


def corners(data_set):
    """Returns the first place of each chunk."""
    steps = zip(data_set.shape, data_set.chunks)
    return itertools.product(*(range(0, length, step) for length, step in steps))


def show(file, dataset):
    """Prints what a data set says about its streams."""
    handle, data_set = opened(file, "r", dataset)
    with handle:
        layout = layout_of(data_set)
        stored = [data_set.id.get_chunk_info(i) for i in range(data_set.id.get_num_chunks())]
        raw = sum(it.filter_mask & 1 for it in stored)
        print(f"shape {data_set.shape}, type {data_set.dtype.str}, chunks {data_set.chunks}")
        print(f"{len(stored)} chunks are stored, {raw} of them raw")
        print(f"scan lines of {layout.line} samples, filled up to {layout.filled()}")
        if layout.is_planes():
            print(f"each chunk is {layout.element} planes of bytes")
        print("aec --count", layout.count(chunk_bytes(data_set)), *layout.words())


def read(aec, file, dataset, out):
    """Writes all elements of a data set."""
    handle, data_set = opened(file, "r", dataset)
    with handle:
        layout = layout_of(data_set)
        elements = numpy.empty(data_set.shape, data_set.dtype)
        for corner in corners(data_set):
            raw = decoded(layout, aec, chunk_at(data_set, corner), chunk_bytes(data_set))
            chunk = numpy.frombuffer(raw, data_set.dtype).reshape(data_set.chunks)
            places = zip(corner, data_set.chunks)
            part = elements[tuple(slice(first, first + step) for first, step in places)]
            part[...] = chunk[tuple(slice(0, length) for length in part.shape)]
    write_whole(out, elements.tobytes(), file)


def judge_words(place, value):
    """Raises WrongWords for words that can't be a place and a value of any data set."""
    if not all(it.isascii() and it.isdecimal() for it in place.split(",")):
        raise WrongWords(f"{place} is no place, such as 3,0,17")
    try:
        float(value)
    except ValueError:
        raise WrongWords(f"{value} is no value") from None


def place_in(data_set, text):
    """Returns the place of an element. It must have as many numbers as the data set has dimensions,
    each within the shape."""
    numbers, wanted = text.split(","), len(data_set.shape)
    if len(numbers) != wanted:
        raise Refused(f"{text} is no place here: the data set has {wanted} dimensions")
    place = tuple(map(int, numbers))
    if any(i >= length for i, length in zip(place, data_set.shape)):
        raise Refused(f"{text} lies outside the shape {data_set.shape}")
    return place


def bytes_of_integer(data_set, text):
    """Returns the bytes of a whole number as an element is stored. Bits above the type's precision
    are zero."""
    dtype, stored = data_set.dtype, data_set.id.get_type()
    precision = stored.get_precision()
    try:
        value = int(text)
    except ValueError as fault:
        raise Refused(f"{text} is no value of the type {dtype}") from fault
    least = -1 << precision - 1 if dtype.kind == "i" else 0
    if not least <= value < least + (1 << precision):
        raise Refused(f"{text} is out of the range of {dtype} with {precision} bits")
    order = "big" if stored.get_order() == h5py.h5t.ORDER_BE else "little"
    return (value % (1 << precision)).to_bytes(dtype.itemsize, order)


def bytes_of_float(data_set, text):
    """Returns the bytes of a number as an element is stored."""
    dtype = data_set.dtype
    value = float(text)
    with numpy.errstate(over="ignore"):
        stored = numpy.array(value).astype(dtype)
    if numpy.isinf(stored) and not math.isinf(value):
        raise Refused(f"{text} is out of the range of {dtype}")
    return stored.tobytes()


def bytes_of_value(data_set, text):
    """Returns the bytes that an element of a data set gets."""
    kind, stored = data_set.dtype.kind, data_set.id.get_type()
    if kind in "iu" and stored.get_offset() == 0:
        return bytes_of_integer(data_set, text)
    if kind == "f" and stored.equal(h5py.h5t.py_create(data_set.dtype)):
        return bytes_of_float(data_set, text)
    raise Refused(f"elements of the type {data_set.dtype} aren't edited as they are stored here")


def edit(aec, file, dataset, place, value):
    """Gives an element another value. Opens the file for writing only after the new chunk is
    made."""
    judge_words(place, value)
    handle, data_set = opened(file, "r", dataset)
    with handle:
        layout, numbers = layout_of(data_set), place_in(data_set, place)
        stored = bytes_of_value(data_set, value)
        corner = tuple(i // step * step for i, step in zip(numbers, data_set.chunks))
        inside = tuple(i % step for i, step in zip(numbers, data_set.chunks))
        element = int(numpy.ravel_multi_index(inside, data_set.chunks))
        before = chunk_at(data_set, corner)
        after = edited(layout, aec, before, element, stored, chunk_bytes(data_set))
    handle, data_set = opened(file, "r+", dataset)
    with handle:
        data_set.id.write_direct_chunk(corner, after.data, int(after.is_raw))


if __name__ == "__main__":
    perform(__doc__, show=show, read=read, edit=edit)
