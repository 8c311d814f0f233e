#!/usr/bin/env python3
"""Tests examples/grib_ccsds.py against eccodes:
recipe_grib.py PATH_OF_AEC [--seed N] [--cases N] [--only N]

eccodes writes messages of template 5.42: 1 to 32 bits a value, signed and unsigned, with a bitmap
and without, standard and other even block sizes. The samples that aec decodes must be the values
that eccodes reads. After an edit, or after `set` at a place, eccodes must read the new value there,
and all others as before. Needs python3-eccodes and libeccodes-data.

Prints the checks that fail and, last, how many passed. Ends with status 1 if one failed.
"""

import random
import sys
import tempfile

import eccodes
from lib.program import Program, Tally, asked_of
from lib.recipe_calls import called
from lib.recipe_grids import message_of, try_grids
from lib.recipe_nearest import first_of_all

import grib_ccsds
import grib_grid
from aec_runs import bytes_of_sample, samples_of
from grib_nearest import Point, Rows

MISSING = 9999.0
SIGNED, PREPROCESS, ANY_EVEN_BLOCK = 1, 8, 64  # bits of ccsdsFlags


def drawn_values(chance, count, has_bitmap):
    """Returns the values of a field that isn't constant; with a bitmap, some are missing."""
    x, values = chance.uniform(-100, 300), []
    for _ in range(count):
        x += chance.uniform(-1, 1) * chance.choice([0, 0.1, 1, 20])
        values.append(MISSING if has_bitmap and chance.random() < 0.3 else x)
    return [values[0] if values[0] != MISSING else 1.0, -200.0, *values[2:]]


def drawn_flags(chance, bits, block_size):
    """Returns ccsdsFlags for a message. Above 8 bits eccodes 2.28 writes samples that it can't read
    itself, unless the flags 2 and 4 are set."""
    flags = chance.choice([0, 2, 4, 6]) if bits <= 8 else 6
    flags += chance.choice([PREPROCESS, PREPROCESS, PREPROCESS, 0])
    flags += chance.choice([SIGNED, 0, 0])
    return flags + (0 if block_size in (8, 16, 32, 64) else ANY_EVEN_BLOCK)


def drawn_message(chance, bits):
    """Returns the bytes of a random message with so many bits a value."""
    handle = eccodes.codes_grib_new_from_samples("regular_ll_sfc_grib2")
    columns, rows = chance.randint(2, 40), chance.randint(2, 40)
    has_bitmap, block_size = chance.random() < 0.5, chance.choice([8, 16, 32, 64, 10, 12, 22, 62])
    keys = {
        "Ni": columns,
        "Nj": rows,
        "iDirectionIncrementInDegrees": 30 / (columns - 1),  # the sample's corners stay
        "jDirectionIncrementInDegrees": 60 / (rows - 1),
        "packingType": "grid_ccsds",
        "bitsPerValue": bits,
        "ccsdsBlockSize": block_size,
        "ccsdsRsi": chance.choice([1, 2, 16, 128, 4096]),
        "ccsdsFlags": drawn_flags(chance, bits, block_size),
        "missingValue": MISSING,
        "bitmapPresent": int(has_bitmap),
    }
    for key, value in keys.items():
        eccodes.codes_set(handle, key, value)
    eccodes.codes_set_values(handle, drawn_values(chance, columns * rows, has_bitmap))
    return eccodes.codes_get_message(handle)


def points_of(handle):
    """Returns the latitudes and longitudes that eccodes lists, to six digits."""
    keys = ("latitudes", "longitudes")
    pairs = zip(*(eccodes.codes_get_array(handle, key) for key in keys))
    return [(round(float(north), 6), round(float(east), 6)) for north, east in pairs]


class Read:
    """A message as eccodes reads it."""

    def __init__(self, data):
        handle = eccodes.codes_new_from_message(data)
        self.values = [float(x) for x in eccodes.codes_get_values(handle)]
        self.where = points_of(handle)
        self.has_bitmap = eccodes.codes_get(handle, "bitmapPresent") == 1
        self.bits = eccodes.codes_get(handle, "bitsPerValue")
        self.count = eccodes.codes_get(handle, "numberOfValues")
        self.columns = eccodes.codes_get(handle, "Ni")
        self.flags = eccodes.codes_get(handle, "ccsdsFlags")
        self.reference = eccodes.codes_get_double(handle, "referenceValue")
        self.binary = eccodes.codes_get_long(handle, "binaryScaleFactor")
        self.decimal = eccodes.codes_get_long(handle, "decimalScaleFactor")

    def places(self):
        values = enumerate(self.values)
        return [i for i, x in values if not (self.has_bitmap and x == MISSING)]

    def least(self):
        return -1 << self.bits - 1 if self.flags & SIGNED else 0

    def unsigned(self, sample, words):
        """Returns the number that eccodes makes of a sample: its stored bytes without sign. libaec
        stores copies of the sign above the sample only with preprocessing."""
        bits = 8 * bytes_of_sample(words) if self.flags & PREPROCESS else self.bits
        return sample % (1 << bits)

    def value(self, number):
        return (self.reference + number * 2.0**self.binary) / 10.0**self.decimal

    def numbers(self):
        """Returns how many numbers from 0 on eccodes reads correctly: if signed, not always all."""
        is_odd = self.flags & SIGNED and self.bits not in (8, 16, 32)
        return 1 << self.bits - 1 if is_odd else 1 << self.bits

    def takes_value(self, value):
        return value < self.value(self.numbers() - 0.5)

    def agrees(self, value, number):
        """Returns whether a value that eccodes has read is that of the number."""
        wanted = self.value(number)
        step = 2.0**self.binary / 10.0**self.decimal
        return abs(value - wanted) <= max(1e-3 * step, 1e-12 * abs(value))


def try_case(number, seed, aec, tally):
    """Tests one message: its samples, its own stream put back, an edit, and single values."""
    chance = random.Random(f"{seed} {number}")
    data = drawn_message(chance, 1 + number % 32)
    read, source, out = Read(data), aec.file("message"), aec.file("out")
    aec.write("message", data)
    status, said = called(grib_ccsds.options, source)
    what, words = f"message {number} ({said.strip()})", said.split()
    tally.check(f"{what}: options", status, 0)
    tally.check(f"{what}: take", called(grib_ccsds.take, source, aec.file("stream")), (0, ""))
    tally.check(f"{what}: aec -d", aec.run("-d", *words, "stream", "samples"), (0, ""))
    samples, places = samples_of(aec.read("samples") or b"", words), read.places()
    is_so = len(samples) == len(places) == read.count and all(
        read.agrees(read.values[i], read.unsigned(x, words)) for i, x in zip(places, samples)
    )
    tally.holds(is_so, f"{what}: samples and values")
    answer = called(grib_ccsds.put, aec.path, source, aec.file("stream"), out)
    tally.check(f"{what}: its own stream put back", (answer, aec.read("out")), ((0, ""), data))

    place = chance.randrange(read.count)
    sample = read.least() + chance.randrange(1 << read.bits)
    aec.write("script", b"overwrite %d %d\n" % (place, sample))
    answer = called(grib_ccsds.edit, aec.path, aec.file("script"), source, out)
    tally.check(f"{what}: edit", answer, (0, ""))
    after, changed = Read(aec.read("out") or data), places[place]
    is_so = read.agrees(after.values[changed], read.unsigned(sample, words))
    tally.holds(is_so, f"{what}: the edited value")
    after.values[changed] = read.values[changed]
    tally.holds(after.values == read.values, f"{what}: the other values")
    try_values(what, read, data, chance, aec, tally)
    try_table(what, read, data, chance, aec, tally)


def try_values(what, read, data, chance, aec, tally):
    """Tests `values` and `set` on the second message of a file, with numbers that eccodes reads
    correctly and with values that no number has."""
    aec.write("message", b"".join([data, b"between", data]))
    source, out = aec.file("message"), aec.file("out")
    more, places = {"message": "2"}, read.places()
    first = chance.randrange(read.count)
    length = chance.randint(1, read.count - first)
    status, said = called(grib_ccsds.values, aec.path, source, f"{first}:{length}", **more)
    lines = [line.split() for line in said.split("\n")[1:-1]]
    pairs = ((float(it[-1]), read.values[i]) for it, i in zip(lines, places[first:]))
    near = [abs(a - b) <= 1e-12 * max(abs(b), 1) for a, b in pairs if read.takes_value(b)]
    is_so = status == 0 and [int(it[0]) for it in lines] == [*range(first, first + length)]
    tally.holds(is_so and all(near), f"{what}: values: {said}")
    there = [(float(it[1]), float(it[2])) for it in lines if len(it) == 4]
    wanted = [read.where[i] for i in places[first : first + length]]
    # eccodes adds up an increment, which is rounded to a microdegree, for each of at most 40 rows.
    near = [max(abs(a - b) for a, b in zip(*pair)) < 3e-5 for pair in zip(there, wanted)]
    is_so = len(there) == len(wanted) and all(near)
    tally.holds(is_so, f"{what}: latitudes and longitudes: {there[:3]}")
    try_at(what, read, first, (aec.path, source), more, tally)

    least, most = read.value(0), read.value((1 << read.bits) - 1)
    step = read.value(1) - least
    x = chance.randrange(read.numbers())
    value = read.value(x) + chance.uniform(-0.4, 0.4) * step
    answer = called(grib_ccsds.put_values, aec.path, source, str(first), repr(value), out, **more)
    written = aec.read("out") or b""
    tally.holds(answer[0] == 0 and written.startswith(data + b"between"), f"{what}: set: {answer}")
    after, changed = Read(written[len(data) + 7 :]), places[first]
    is_so = read.agrees(after.values[changed], x)
    tally.holds(is_so, f"{what}: the value that is set: {value}, {after.values[changed]}")
    after.values[changed] = read.values[changed]
    tally.holds(after.values == read.values, f"{what}: set: the other values")
    for value in (least - 0.6 * step, most + 0.6 * step):
        answer = called(grib_ccsds.put_values, aec.path, source, "0", repr(value), out, **more)
        is_so = answer[0] == 1 and "doesn't fit the packing" in answer[1]
        tally.holds(is_so, f"{what}: set {value}: {answer}")


def try_at(what, read, place, paths, more, tally):
    """Tests `values --at` at the point of a place, which must print the line of this place, far from
    all points, and with other wrong words."""
    at = "{},{}".format(*read.where[read.places()[place]])
    wanted = called(grib_ccsds.values, *paths, f"{place}:1", **more)
    tally.check(f"{what}: --at {at}", called(grib_ccsds.values, *paths, at=at, **more), wanted)
    tally.holds(wanted[0] == 0 and f"\n{place} " in wanted[1], f"{what}: one value: {wanted}")
    answer = called(grib_ccsds.values, *paths, at="-80,200", **more)
    tally.holds(answer[0] == 1 and "degrees away" in answer[1], f"{what}: --at far away: {answer}")
    for words, named in (
        (("0:1",), {"at": at}),
        (("0:1",), {"within": "1"}),
        ((), {"within": "1"}),
        ((), {"at": "48.2"}),
        ((), {"at": "48.2,x"}),
        ((), {"at": "91,0"}),
        ((), {"at": at, "within": "-1"}),
    ):
        answer = called(grib_ccsds.values, *paths, *words, **named, **more)
        tally.check(f"{what}: {words} {named}: {answer[1]}", answer[0], 2)


def try_table(what, read, data, chance, aec, tally):
    """Tests `set` with tables of several values: by place, by row and column, and by latitude and
    longitude."""
    aec.write("message", data)
    places, columns = read.places(), read.columns
    drawn = sorted(chance.sample(range(read.count), min(read.count, 10)))
    chosen = {place: read.value(chance.randrange(read.numbers())) for place in drawn}
    for names in ("place value", "row,column,value", "latitude longitude value"):
        lines = [names]
        for place, value in chance.sample(sorted(chosen.items()), len(chosen)):
            i = places[place]
            ways = {
                "place value": (place,),
                "row,column,value": divmod(i, columns),
                "latitude longitude value": read.where[i],
            }
            lines.append(("," if "," in names else " ").join(map(repr, (*ways[names], value))))
        aec.write("table", "\n".join(lines).encode())
        paths = (aec.path, aec.file("message"), aec.file("table"), aec.file("out"))
        status, said = called(grib_ccsds.put_values, *paths)
        is_so = status == 0 and said.count("\n") == len(chosen)
        tally.holds(is_so, f"{what}: table by {names}: {said}")
        after = Read(aec.read("out") or data)
        wanted = list(read.values)
        for place, value in chosen.items():
            wanted[places[place]] = value
        step = 2.0**read.binary / 10.0**read.decimal
        pairs = zip(after.values, wanted)
        near = [abs(a - b) <= max(1e-3 * step, 1e-12 * abs(b)) for a, b in pairs]
        tally.holds(all(near), f"{what}: table by {names}: the values")


def try_nearest_points(seed, tally):
    """Compares the nearest points that the script finds in eccodes' points with those of a search
    over all: in rows, and in a projected grid. Each point of the grid and of the middle between it
    and the next in its row is within a step."""
    chance = random.Random(f"{seed} nearest")
    grids = ("regular_ll_sfc_grib2", "regular_gg_sfc_grib2", "reduced_gg_pl_32_grib2", "polar_stereographic_sfc_grib2")
    for name in grids:
        handle = eccodes.codes_grib_new_from_samples(name)
        if name == grids[-1]:
            eccodes.codes_set(handle, "jScansPositively", 1)  # in which order eccodes lists points
        grid = grib_grid.grid_of(message_of(handle), eccodes.codes_get(handle, "numberOfValues"))
        listed = list(grid.points)
        near = [(round(it.latitude, 6), round(it.longitude, 6)) for it in listed] == points_of(handle)
        tally.holds(near and isinstance(grid.points, Rows) == (name != grids[-1]), f"grid {name}")
        for _ in range(20):
            one = chance.randrange(len(listed) - 1)
            middle = Point(*(sum(it) / 2 for it in zip(listed[one], listed[one + 1])))
            for wanted in (listed[one], middle, Point(chance.uniform(-90, 90), chance.uniform(-180, 360))):
                number = first_of_all(listed, wanted)
                tally.check(f"nearest in {name}: {wanted}", grid.points.nearest(wanted), number)
            status, said = called(grid.nearest, *listed[one])
            tally.check(f"a point of {name}: {said}", status, 0)
            if abs(listed[one].longitude - listed[one + 1].longitude) < 90:
                status, said = called(grid.nearest, *middle)
                tally.check(f"between points of {name}: {said}", status, 0)


def main():
    asked = asked_of("GRIB messages beside eccodes.", 48)
    tally = Tally()
    with tempfile.TemporaryDirectory() as folder:
        aec = Program(asked.program, folder)
        for number in asked.numbers:
            try_case(number, asked.seed, aec, tally)
        try_grids(tally)
        try_nearest_points(asked.seed, tally)
    tally.print()
    return 1 if tally.failed else 0


if __name__ == "__main__":
    sys.exit(main())
