"""Where the points of a grid lie, as grib_ccsds.py says it, compared with eccodes and with the
formulas of the projections, on fields that eccodes writes. Needs python3-eccodes."""

import io
import math

import eccodes
from lib.recipe_calls import called

import grib_grid
import grib_messages
import grib_rows

RADIUS = 6371229.0  # metres, of the earth with shape 6
FIRST, CENTRE = (50.0, 5.0), 10.0  # the first point of a projected grid, and its central meridian
STEPS = 100000, 150000  # metres, along a row and from row to row
BITS = {128: "iScansNegatively", 64: "jScansPositively", 32: "jPointsAreConsecutive", 16: "alternativeRowScanning"}
SAMPLES = ("regular_ll_sfc_grib2", "regular_ll_pl_grib2", "regular_gg_sfc_grib2", "reduced_gg_sfc_grib2")
SAMPLES += ("reduced_gg_pl_80_grib2", "reduced_gg_pl_160_grib2", "reduced_ll_sfc_grib2")


def message_of(handle):
    """Returns the message of a handle, as the script reads it."""
    return grib_messages.read_message(io.BytesIO(eccodes.codes_get_message(handle)), 0)


def filled(name, keys, count=None):
    """Returns a handle of a sample with other keys and the values 0, 1, 2 and so on."""
    handle = eccodes.codes_grib_new_from_samples(name)
    for key, value in keys:
        put = eccodes.codes_set_array if isinstance(value, list) else eccodes.codes_set
        put(handle, key, value)
    count = eccodes.codes_get_size(handle, "values") if count is None else count
    eccodes.codes_set(handle, "bitsPerValue", 24)
    eccodes.codes_set_values(handle, [float(it) for it in range(count)])
    return handle


def listed_by(handle):
    """Returns the points that eccodes lists."""
    lists = (eccodes.codes_get_array(handle, it).tolist() for it in ("latitudes", "longitudes"))
    return list(zip(*lists))


def far_apart(one, other):
    """Returns the greater difference of two points in degrees."""
    east = (one[1] - other[1] + 180) % 360 - 180
    return max(abs(one[0] - other[0]), abs(east) * math.cos(math.radians(one[0])))


def try_points(what, found, wanted, tally, most=2e-5):
    """Compares points with those that are wanted."""
    found = None if found is None else list(found)
    is_so = found is not None and len(found) == len(wanted)
    is_so = is_so and all(far_apart(*pair) < most for pair in zip(found, wanted))
    tally.holds(is_so, f"points of {what}: {found and found[:4]}, {wanted[:4]}")


def scanning(mode):
    """Returns the keys for a scanning mode."""
    return [(key, int(mode & bit > 0)) for bit, key in BITS.items()]


def in_order(mode, rows, columns, find):
    """Returns the points of a grid as a message with this scanning mode stores them. `find` returns
    the point of a row, counted from the north, and of a column, counted from the west."""
    north = range(rows)[::-1] if mode & 64 else range(rows)
    west = range(columns)[::-1] if mode & 128 else range(columns)
    if mode & 32:
        return [find(row, column) for column in west for row in north]
    turned = [row for row in north[1::2] if mode & 16]
    return [find(row, it) for row in north for it in (west[::-1] if row in turned else west)]


def try_samples(tally):
    """Compares the points that the script finds by itself in samples of eccodes with those that
    eccodes lists."""
    for name in SAMPLES:
        handle = eccodes.codes_grib_new_from_samples(name)
        section = grib_messages.sections_of(data := eccodes.codes_get_message(handle))[3]
        found = grib_rows.own_points(data[slice(*section)])
        try_points(name, found, listed_by(handle), tally)


def latitudes_of(name):
    """Returns the latitudes of a Gaussian grid of eccodes, from the north."""
    handle = eccodes.codes_grib_new_from_samples(name)
    return [round(it, 6) for it in eccodes.codes_get_array(handle, "distinctLatitudes").tolist()]


def try_parts(tally):
    """Tests parts of reduced Gaussian grids. Section 3 lists the lengths of full circles. The points
    are the multiples of 360 degrees / length from the first longitude to the last."""
    name = "reduced_gg_pl_32_grib2"
    circles = eccodes.codes_get_array(eccodes.codes_grib_new_from_samples(name), "pl").tolist()
    north = sorted(latitudes_of(name), reverse=True)
    for first, end, west, east in ((10, 20, 350, 30), (10, 20, 10, 50), (20, 44, 0, 359), (5, 12, 100, 200.5), (0, 64, 190, 170)):
        rows = range(first, end)
        wanted = [
            (north[row], 360 * it / circles[row])
            for row in rows
            for it in range(2 * circles[row])
            if west <= 360 * it / circles[row] <= (east if east > west else east + 360)
        ]
        keys = [("pl", [circles[it] for it in rows]), ("Nj", len(rows))]
        keys += zip(("latitudeOfFirstGridPointInDegrees", "latitudeOfLastGridPointInDegrees"), (north[first], north[end - 1]))
        keys += [("longitudeOfFirstGridPointInDegrees", west), ("longitudeOfLastGridPointInDegrees", east)]
        handle, what = filled(name, keys, len(wanted)), f"rows {first} to {end}, {west} to {east}"
        grid = grib_grid.grid_of(message_of(handle), len(wanted), is_quick=True)
        try_points(what, grid.points, wanted, tally)
        try_points(f"{what}, as eccodes lists them", listed_by(handle), wanted, tally)
        lengths = [sum(round(it[0], 6) == north[row] for it in wanted) for row in rows]
        tally.check(f"{what}: lengths of rows", grid.row_lengths, lengths)


def try_counted_parts(tally):
    """Tests a part of a reduced Gaussian grid whose section 3 lists the lengths of its rows, not of
    full circles. Where its points lie can't be computed from these, and eccodes lists others."""
    name, rows = "reduced_gg_pl_32_grib2", range(10, 20)
    north = sorted(latitudes_of(name), reverse=True)
    lengths = [9, 10, 10, 11, 11, 13, 13, 13, 13, 13]
    keys = [("pl", lengths), ("Nj", len(rows)), *corners(0, north[rows[0]], 10, north[rows[-1]], 50)]
    grid = grib_grid.grid_of(message_of(filled(name, keys, sum(lengths))), sum(lengths))
    tally.check("a part with lengths of its own", (grid.points, grid.row_lengths), (None, lengths))
    reason = "grid template 3.40 with scanning mode 0 and rows of these lengths isn't supported"
    tally.check("a part with lengths of its own: why", grid.reason, reason)


def try_circles(tally):
    """Tests reduced grids whose rows are full circles. By the format the first point of each row has
    the first longitude. Some writers give 360 degrees as the last longitude."""
    handle = eccodes.codes_grib_new_from_samples("reduced_gg_sfc_grib2")
    circles, listed = eccodes.codes_get_array(handle, "pl").tolist(), listed_by(handle)
    for west, east in ((0, 360), (0, 357.1875), (10, 7.1875), (350, 347.1875)):
        keys = [("longitudeOfFirstGridPointInDegrees", west), ("longitudeOfLastGridPointInDegrees", east)]
        grid = grib_grid.grid_of(message_of(filled("reduced_gg_sfc_grib2", keys)), len(listed))
        places = (west + 360 * it / length for length in circles for it in range(length))
        wanted = [(latitude, longitude) for (latitude, _), longitude in zip(listed, places)]
        try_points(f"full circles, {west} to {east}", grid.points, wanted, tally)
    keys = [("pl", [5, 6, 7]), ("Nj", 3), *corners(0, 50, 0, 40, 30)]
    grid = grib_grid.grid_of(message_of(filled("reduced_ll_sfc_grib2", keys, 18)), 18)
    tally.check("a reduced grid of a part", (grid.points, grid.row_lengths), (None, [5, 6, 7]))


def corners(mode, north, west, south, east):
    """Returns the keys for the corners of a grid with a scanning mode."""
    keys = [f"{it}OfFirstGridPointInDegrees" for it in ("latitude", "longitude")]
    keys += [f"{it}OfLastGridPointInDegrees" for it in ("latitude", "longitude")]
    north, south = (south, north) if mode & 64 else (north, south)
    west, east = (east, west) if mode & 128 else (west, east)
    return [*zip(keys, (north, west, south, east)), *scanning(mode)]


def turned_back(point, south, west):
    """Returns a point of a rotated grid as latitude and longitude, from the latitude and longitude
    of the rotated southern pole."""
    latitude, longitude = map(math.radians, point)
    tilt, turn = math.radians(-90 - south), math.radians(-west)
    x, y, z = (
        math.cos(longitude) * math.cos(latitude),
        math.sin(longitude) * math.cos(latitude),
        math.sin(latitude),
    )
    x, z = math.cos(tilt) * x + math.sin(tilt) * z, math.cos(tilt) * z - math.sin(tilt) * x
    east, north = math.cos(turn) * y - math.sin(turn) * x, math.cos(turn) * x + math.sin(turn) * y
    return math.degrees(math.asin(max(-1, min(z, 1)))), math.degrees(math.atan2(east, north))


def try_scanning_modes(tally):
    """Tests regular, rotated and Gaussian grids with all scanning modes: points and rows are those of
    the message's order, or they aren't known."""
    columns, rows, pole = 16, 31, (-40.0, 10.0)
    gaussian = sorted(latitudes_of("regular_gg_sfc_grib2"), reverse=True)
    turned = [*zip(("latitudeOfSouthernPoleInDegrees", "longitudeOfSouthernPoleInDegrees"), pole)]
    for mode in (0, 64, 128, 192, 32, 96, 160, 224, 16, 80):
        regular = in_order(mode, rows, columns, lambda row, column: (60.0 - 2 * row, 2.0 * column))
        wide = in_order(mode, 64, 128, lambda row, column: (gaussian[row], 360 / 128 * column))
        for name, keys, wanted, is_known in (
            ("regular_ll_sfc_grib2", corners(mode, 60, 0, 0, 30), regular, not mode & 16),
            ("rotated_ll_sfc_grib2", corners(mode, 60, 0, 0, 30) + turned, [turned_back(it, *pole) for it in regular], not mode & 16),
            ("rotated_ll_sfc_grib2", corners(mode, 60, 0, 0, 30) + [("angleOfRotation", 25.0)], None, False),
            ("regular_gg_sfc_grib2", corners(mode, gaussian[0], 0, gaussian[-1], 357.1875), wide, not mode & 48),
            ("rotated_gg_sfc_grib2", corners(mode, gaussian[0], 0, gaussian[-1], 357.1875) + turned, None, False),
        ):
            handle, what = filled(name, keys), f"{name}, scanning mode {mode}"
            grid = grib_grid.grid_of(message_of(handle), eccodes.codes_get(handle, "numberOfValues"))
            if is_known:
                try_points(what, grid.points, wanted, tally, 1e-4)
            else:
                tally.check(f"{what}: points", grid.points, None)
                is_so = f"with scanning mode {mode} isn't supported" in grid.reason
                tally.holds(is_so, f"{what}: {grid.reason}")
            size = [eccodes.codes_get(handle, it) for it in ("Ni", "Nj")]
            lengths = None if mode & 48 else [size[0]] * size[1]
            tally.check(f"{what}: rows", grid.row_lengths, lengths)


def stereographic(point, back=False):
    """Returns x and y of a point in the polar stereographic projection that is true at 60 degrees
    north, or the point of x and y."""
    scale = RADIUS * (1 + math.sin(math.radians(60)))
    if back:
        away = 2 * math.atan2(math.hypot(*point), scale)
        return 90 - math.degrees(away), CENTRE + math.degrees(math.atan2(point[0], -point[1]))
    away = scale * math.tan(math.radians(90 - point[0]) / 2)
    angle = math.radians(point[1] - CENTRE)
    return away * math.sin(angle), -away * math.cos(angle)


def conic(point, back=False):
    """Returns x and y of a point in Lambert's conic projection with one parallel, 47 degrees north,
    or the point of x and y."""
    parallel = math.radians(47)
    slope = math.sin(parallel)
    scale = RADIUS * math.cos(parallel) * math.tan(math.pi / 4 + parallel / 2) ** slope / slope
    if back:
        away, angle = math.hypot(*point), math.atan2(point[0], -point[1])
        north = 2 * math.atan((scale / away) ** (1 / slope)) - math.pi / 2
        return math.degrees(north), CENTRE + math.degrees(angle / slope)
    away = scale / math.tan(math.pi / 4 + math.radians(point[0]) / 2) ** slope
    angle = slope * math.radians(point[1] - CENTRE)
    return away * math.sin(angle), -away * math.cos(angle)


def equal_area(point, back=False):
    """Returns x and y of a point in Lambert's azimuthal projection around 48 degrees north, or the
    point of x and y."""
    middle = math.radians(48)
    if back:
        x, y = point
        away = math.hypot(x, y)
        arc = 2 * math.asin(away / 2 / RADIUS)
        north = math.cos(arc) * math.sin(middle) + y * math.sin(arc) * math.cos(middle) / away
        level = away * math.cos(middle) * math.cos(arc) - y * math.sin(middle) * math.sin(arc)
        east = math.atan2(x * math.sin(arc), level)
        return math.degrees(math.asin(north)), CENTRE + math.degrees(east)
    north, east = math.radians(point[0]), math.radians(point[1] - CENTRE)
    product = math.sin(middle) * math.sin(north) + math.cos(middle) * math.cos(north) * math.cos(east)
    scale = RADIUS * math.sqrt(2 / (1 + product))
    level = math.cos(middle) * math.sin(north) - math.sin(middle) * math.cos(north) * math.cos(east)
    return scale * math.cos(north) * math.sin(east), scale * level


def mercator(point, back=False):
    """Returns x and y of a point in Mercator's projection that is true at 20 degrees, or the point
    of x and y."""
    scale = RADIUS * math.cos(math.radians(20))
    if back:
        north = 2 * math.atan(math.exp(point[1] / scale)) - math.pi / 2
        return math.degrees(north), math.degrees(point[0] / scale)
    north = math.log(math.tan(math.pi / 4 + math.radians(point[0]) / 2))
    return scale * math.radians(point[1]), scale * north


def projected(kind, mode, steps=STEPS):
    """Returns a field of 4 x 3 points in a projection, and its points in the message's order: from
    the first point on, in the directions of the scanning mode."""
    name, project, lengths, more = kind
    sign = -1 if mode & 128 else 1, 1 if mode & 64 else -1
    x, y = project(FIRST)
    find = [
        project((x + sign[0] * steps[0] * column, y + sign[1] * steps[1] * row), back=True)
        for row, column in (
            [(row, column) for column in range(4) for row in range(3)]
            if mode & 32
            else [(row, column) for row in range(3) for column in range(4)]
        )
    ]
    corner = ("latitudeOfFirstGridPointInDegrees", "longitudeOfFirstGridPointInDegrees")
    size = [("Nx", 4), ("Ny", 3), ("shapeOfTheEarth", 6)]
    keys = [("gridType", name), *size, *zip(corner, FIRST), *zip(lengths, steps), *more.items()]
    keys += scanning(mode)
    return filled("regular_ll_sfc_grib2", keys, 12), find


# eccodes' name of a projection, its formulas, the names of its grid lengths, and its other keys.
PROJECTIONS = (
    (
        "polar_stereographic",
        stereographic,
        ("DxInMetres", "DyInMetres"),
        {"LaDInDegrees": 60.0, "orientationOfTheGridInDegrees": CENTRE},
    ),
    (
        "lambert",
        conic,
        ("DxInMetres", "DyInMetres"),
        {"LaDInDegrees": 47.0, "LoVInDegrees": CENTRE, "Latin1InDegrees": 47.0, "Latin2InDegrees": 47.0},
    ),
    (
        "lambert_azimuthal_equal_area",
        equal_area,
        ("DxInMetres", "DyInMetres"),
        {"standardParallelInDegrees": 48.0, "centralLongitudeInDegrees": CENTRE},
    ),
    (
        "mercator",
        mercator,
        ("DiInMetres", "DjInMetres"),
        {"LaDInDegrees": 20.0, "latitudeOfLastGridPointInDegrees": 52.0, "longitudeOfLastGridPointInDegrees": 8.0},
    ),
)


def try_projections(tally):
    """Tests projected grids: with rows to +i and +j the points are known, else only rows and columns
    are. For Mercator's projection eccodes 2.28 takes one step for the other."""
    for kind in PROJECTIONS:
        for mode in (0, 64, 128, 192, 32, 96, 16, 80):
            steps = (STEPS[0], STEPS[0]) if kind[0] == "mercator" else STEPS
            handle, wanted = projected(kind, mode, steps)
            what, read = f"{kind[0]}, scanning mode {mode}", message_of(handle)
            grid = grib_grid.grid_of(read, 12)
            tally.check(f"{what}: rows", grid.row_lengths, None if mode & 48 else [4, 4, 4])
            if mode != 64:
                tally.check(f"{what}: points", grid.points, None)
                continue
            try_points(what, grid.points, wanted, tally)
            answer = called(grid.nearest, *wanted[6])
            tally.check(f"{what}: nearest", answer[0], 0)
            tally.check(f"{what}: place", grid.nearest(*wanted[6])[0], 6)
            tally.check(f"{what}: its row and column", grid.place_in_row(1, 2), 6)
    grid = grib_grid.grid_of(message_of(projected(PROJECTIONS[-1], 64)[0]), 12)
    tally.check("Mercator's projection with two steps", grid.points, None)
    said = called(grid.nearest, 50.0, 5.0)[1]
    tally.holds(said.endswith("isn't supported. Give places, or rows and columns"), f"projections: {said}")


def try_grids(tally):
    """Runs all tests of this file."""
    try_samples(tally)
    try_parts(tally)
    try_counted_parts(tally)
    try_circles(tally)
    try_scanning_modes(tally)
    try_projections(tally)
