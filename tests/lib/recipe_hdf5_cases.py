"""Single cases of recipe_hdf5.py: the words of each mask, chunks that no longer shrink, chunks that
HDF5 1.10 misses if asked by place, elements of fewer bits, and refusals."""

import os

import h5py
import numpy
from lib.recipe_calls import EXAMPLES, called

import h5_szip

HDF5 = os.path.join(EXAMPLES, "h5_szip.py")


def made_set(path, elements, chunks, option=("nn", 8), mode="w"):
    with h5py.File(path, mode) as file:
        keys = {"compression": "szip", "compression_opts": option}
        file.create_dataset("d", data=elements, chunks=chunks, **keys)


def stored_chunk(path):
    """Returns whether the first chunk of d is raw, and its bytes."""
    with h5py.File(path, "r") as file:
        mask, data = file["d"].id.read_direct_chunk((0,) * file["d"].ndim)
    return mask & 1 == 1, data


def try_masks(aec, tally):
    """Checks the words that `show` prints for either byte order, with preprocessing and without."""
    path = aec.file("mask.h5")
    for dtype, coding, more in (
        ("<i2", "nn", ""),
        (">i2", "nn", " -m"),
        ("<u2", "ec", " -N"),
        (">u2", "ec", " -m -N"),
    ):
        elements = numpy.arange(60 * 70).reshape(60, 70).astype(dtype)
        made_set(path, elements, (16, 70), (coding, 16))
        status, said = called(h5_szip.show, path, "d")
        # 16 lines of 70 samples: all but the last count with their filler, as 80
        wanted = f"aec --count 1270 -n 16 -j 16 -r 5{more}"
        tally.check(f"show {dtype} {coding}", (status, said.splitlines()[-1:]), (0, [wanted]))
        answer = called(h5_szip.read, aec.path, path, "d", aec.file("raw"))
        tally.check(f"read {dtype} {coding}", answer, (0, ""))
        tally.holds(aec.read("raw") == elements.tobytes(), f"elements of {dtype} {coding}")


def is_read(path, elements):
    try:
        with h5py.File(path, "r") as file:
            return file["d"][...].tobytes() == elements.tobytes()
    except OSError:
        return False


def edit_all(what, path, elements, values, aec, tally):
    """Gives elements of the one chunk of d other values, one by one, and checks that HDF5 reads
    each. Returns whether the chunk was raw after each edit."""
    seen = []
    for place, value in values:
        answer = called(h5_szip.edit, aec.path, path, "d", str(place), str(value))
        tally.check(f"{what}: {place} becomes {value}", answer, (0, ""))
        elements[place] = value
        is_so = is_read(path, elements)
        tally.holds(is_so, f"{what}: {place} becomes {value}: read by HDF5")
        seen.append(stored_chunk(path)[0])
    return seen


def try_raw(aec, tally):
    """Tests chunks that no longer shrink: one becomes raw and stays raw; one that was as long as a
    raw one before stays coded."""
    path, noise = aec.file("raw.h5"), numpy.random.default_rng(121).integers(0, 256, 64)
    elements = numpy.zeros(64, "u1")
    made_set(path, elements, (64,))
    tally.holds(not stored_chunk(path)[0], "zeros are coded")
    seen = edit_all("raw", path, elements, list(enumerate(map(int, noise))), aec, tally)
    tally.holds(not seen[0] and seen[-1] and seen == sorted(seen), f"it becomes raw: {seen}")

    as_long = 0
    for count in range(33):
        elements = numpy.where(numpy.arange(32) < count, noise[:32], 0).astype("u1")
        made_set(path, elements, (32,), ("nn", 16))
        is_raw, data = stored_chunk(path)
        if is_raw or len(data) != 32:
            continue
        as_long += 1
        values = [(place, int(noise[place + 32])) for place in range(31, 15, -1)]
        edit_all(f"{count} values of noise", path, elements, values, aec, tally)
    tally.holds(as_long, "a coded chunk is as long as a raw one")


def try_grown(aec, tally):
    """Tests a data set whose last dimension may grow: if asked for the chunk at a place, HDF5 1.10
    misses chunks that are there."""
    path, elements = aec.file("grown.h5"), numpy.arange(600, dtype="<i4").reshape(20, 30)
    with h5py.File(path, "w", libver="latest") as file:
        keys = {"compression": "szip", "compression_opts": ("nn", 8)}
        made = file.create_dataset(
            "d", (20, 30), "<i4", chunks=(8, 16), maxshape=(20, None), fillvalue=5, **keys
        )
        made[:, :16] = elements[:, :16]
    elements[:, 16:] = 5
    for place, value in (((9, 3), 77), ((19, 29), 8)):
        answer = called(h5_szip.read, aec.path, path, "d", aec.file("raw"))
        is_so = answer == (0, "") and aec.read("raw") == elements.tobytes()
        tally.holds(is_so, f"grown: {answer} before {place}")
        spelled = ",".join(map(str, place))
        answer = called(h5_szip.edit, aec.path, path, "d", spelled, str(value))
        tally.check(f"grown: edit {place}", answer, (0, ""))
        elements[place] = value
        tally.holds(is_read(path, elements), f"grown: {place} read by HDF5")


def made_type(path, stored, shape=(40,), values=None):
    """Writes a file with a data set d of any type of HDF5, one chunk."""
    with h5py.File(path, "w") as file:
        settings = h5py.h5p.create(h5py.h5p.DATASET_CREATE)
        settings.set_chunk(shape)
        settings.set_szip(h5py.h5z.SZIP_NN_OPTION_MASK, 8)
        space = h5py.h5s.create_simple(shape)
        made = h5py.Dataset(h5py.h5d.create(file.id, b"d", stored, space, settings))
        if values is not None:
            made[...] = values


def integer(name, bits, offset=0):
    """Returns a type of HDF5 for integers of so many bits."""
    stored = h5py.h5t.py_create(numpy.dtype(name)).copy()
    stored.set_precision(bits)
    stored.set_offset(offset)
    return stored


def try_precision(aec, tally):
    """Edits integers of fewer bits than their bytes have, to values that fit and that don't."""
    path = aec.file("bits.h5")
    for name, bits, least, most in (
        ("<i2", 12, -2048, 2047),
        (">i2", 12, -2048, 2047),
        ("<u2", 12, 0, 4095),
        ("<i4", 20, -(1 << 19), (1 << 19) - 1),
        ("|i1", 5, -16, 15),
    ):
        elements = (numpy.arange(40) % 15).astype(name)
        made_type(path, integer(name, bits), values=elements)
        values = [(3, least), (39, most), (4, max(least, -1)), (4, 0)]
        edit_all(f"{name} of {bits} bits", path, elements, values, aec, tally)
        for value in (least - 1, most + 1):
            text = f"{value} is out of the range of {elements.dtype} with {bits} bits"
            answer = called(h5_szip.edit, aec.path, path, "d", "0", str(value))
            tally.check(f"{name} of {bits} bits: {value}", answer, (1, text))


def try_types(aec, tally):
    path = aec.file("types.h5")
    bfloat = h5py.h5t.IEEE_F32LE.copy()
    bfloat.set_fields(23, 15, 8, 0, 15)
    single = "aren't single numbers as they are stored"
    kept = "aren't edited as they are stored here"
    for stored, text in (
        (h5py.h5t.array_create(h5py.h5t.STD_I16LE, (2,)), f"of the type ('<i2', (2,)) {single}"),
        (integer("<i2", 12, 2), f"of the type int16 {kept}"),
        (integer("<u4", 16), "of 16 bits in 4 bytes are laid out in no known way"),
        (h5py.h5t.py_create(numpy.dtype(bool), logical=True), f"of the type bool {kept}"),
        (bfloat, f"of the type float32 {kept}"),
    ):
        made_type(path, stored)
        before = aec.read("types.h5")
        answer = called(h5_szip.edit, aec.path, path, "d", "0", "1")
        tally.check(f"a type: {text}", answer, (1, f"elements {text}"))
        tally.holds(aec.read("types.h5") == before, f"a type: {text}: the file")


def made_bad(path):
    """Writes a file with data sets that are refused, and one that isn't."""
    numbers = numpy.arange(2000, dtype="u1")
    with h5py.File(path, "w") as file:
        keys = {"data": numbers, "chunks": (500,), "compression": "szip"}
        for block in (2, 4, 6, 8):
            file.create_dataset(f"of{block}", compression_opts=("nn", block), **keys)
        file.create_dataset("plain", data=numbers)
        file.create_dataset("both", shuffle=True, compression_opts=("nn", 8), **keys)
        numbers = numbers.astype("f4")
        file.create_dataset("floats", compression_opts=("nn", 8), **{**keys, "data": numbers})
        file.create_group("group")


def try_refusals(aec, tally):
    path = aec.file("bad.h5")
    made_bad(path)
    before = aec.read("bad.h5")
    for words, text in (
        (["of2", "0", "1"], "blocks of 2 samples: aec has even sizes from 8 to 64"),
        (["of4", "0", "1"], "blocks of 4 samples: aec has even sizes from 8 to 64"),
        (["of6", "0", "1"], "blocks of 6 samples: aec has even sizes from 8 to 64"),
        (["plain", "0", "1"], "the data set has the filters [], not szip (4) alone"),
        (["both", "0", "1"], "the data set has the filters [2, 4], not szip (4) alone"),
        (["none", "0", "1"], f"{path} has no data set none"),
        (["group", "0", "1"], f"{path} has no data set group"),
        (["of8", "2000", "1"], "2000 lies outside the shape (2000,)"),
        (["of8", "0,0", "1"], "0,0 is no place here: the data set has 1 dimensions"),
        (["of8", "0", "256"], "256 is out of the range of uint8 with 8 bits"),
        (["of8", "0", "-1"], "-1 is out of the range of uint8 with 8 bits"),
        (["of8", "0", "1.5"], "1.5 is no value of the type uint8"),
        (["floats", "0", "1e39"], "1e39 is out of the range of float32"),
    ):
        answer = called(h5_szip.edit, aec.path, path, *words)
        tally.check(f"edit {words}", answer, (1, text))
    for words, text in (
        (["of8", "-1", "1"], "-1 is no place, such as 3,0,17"),
        (["of8", "1,x", "1"], "1,x is no place, such as 3,0,17"),
        (["of8", "0", "x"], "x is no value"),
    ):
        answer = called(h5_szip.edit, aec.path, path, *words)
        tally.check(f"edit {words}", answer, (2, text))
    tally.check("the file is the output", called(h5_szip.read, aec.path, path, "of8", path)[0], 1)
    answer = called(h5_szip.edit, "/bin/true", path, "of8", "0", "1")
    tally.check("a program that is none", answer[0], 1)
    tally.holds(aec.read("bad.h5") == before, "a file whose edits are refused")
    with h5py.File(path, "r+") as file:
        file["of8"].id.write_direct_chunk((500,), bytes(499), 1)
        file["of8"].id.write_direct_chunk((0,), b"\xf5\1\0\0\0\0\0", 0)
    for place, length in (("0", 501), ("500", 499)):
        text = f"a chunk has {length} raw bytes in place of 500"
        answer = called(h5_szip.edit, aec.path, path, "of8", place, "1")
        tally.check(f"a chunk of another length at {place}", answer, (1, text))


def try_command_lines(aec, script, tally):
    made_bad(aec.file("bad.h5"))
    before = aec.read("bad.h5")
    aec.write("none.h5", b"no data")
    for words, wanted, text in (
        (["edit", aec.path, "bad.h5", "of8", "0", "256"], 1, "256 is out of the range of uint8"),
        (["edit", aec.path], 2, "edit takes the words AEC FILE DATASET PLACE VALUE"),
        (["edit", aec.path, "bad.h5", "of8", "x", "1"], 2, "x is no place, such as 3,0,17"),
        (["show", "none.h5", "d"], 1, "none.h5 can't be opened as HDF5"),
        (["show", "bad.h5", "of8"], 0, "aec --count 500 -n 8 -j 8 -r 63"),
        (["read", aec.path, "bad.h5", "of8", "of8.raw"], 0, ""),
    ):
        status, said = script.run(HDF5, *words)
        is_so = status == wanted and text in said and (wanted == 0 or said.count("\n") == 1)
        tally.holds(is_so, f"h5_szip.py {words}: {status}, {said}")
    is_so = aec.read("of8.raw") == numpy.arange(2000).astype("u1").tobytes()
    tally.holds(is_so, "elements by a run")
    tally.holds(aec.read("bad.h5") == before, "a file whose edits are refused stays as it was")
    status, said = script.run(HDF5, "edit", aec.path, "bad.h5", "of8", "1999", "5")
    tally.check("an edit by a run", (status, said), (0, ""))
    with h5py.File(aec.file("bad.h5"), "r") as file:
        tally.check("its element", int(file["of8"][1999]), 5)
