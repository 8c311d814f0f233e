"""The rows of points that section 3 of a GRIB2 message describes: their lengths, and for regular
and Gaussian grids their latitudes and longitudes. Needs only the standard library."""

from __future__ import annotations

import math
from collections.abc import Sequence
from functools import lru_cache

from grib_nearest import Rows

UNKNOWN = 0xFFFFFFFF
REGULAR, ROTATED, GAUSSIAN, ROTATED_GAUSSIAN = 0, 1, 40, 41  # grid definition templates 3.0 to 3.41
# The octet of the scanning mode, by template. Before it all these templates have the number of
# points along a row at octets 31 to 34, and the number of rows at octets 35 to 38.
SCANNING = {0: 72, 1: 72, 2: 72, 3: 72, 10: 60, 12: 60, 20: 65, 30: 65, 31: 65}
SCANNING |= {40: 72, 41: 72, 42: 72, 43: 72, 90: 64, 140: 64}
LISTED = {REGULAR: 73, ROTATED: 85, GAUSSIAN: 73, ROTATED_GAUSSIAN: 85}  # octet: lengths of rows
WESTWARD, NORTHWARD, BY_COLUMNS = 128, 64, 32  # bits of the scanning mode
SLACK = 1e-6  # degrees that a latitude and a longitude lose by rounding
WIDE = 1e-2  # degrees that the last longitude of a whole circle may lose
MOST_HALF = 20000  # greatest number of rows from a pole to the equator; known grids have up to 8000


def number(data, octet, length):
    """Returns the unsigned number that begins at an octet, counted from 1."""
    return int.from_bytes(data[octet - 1 : octet - 1 + length], "big")


def angle(section, octet):
    """Returns the degrees that begin at an octet. The highest bit is the sign."""
    value, basic, parts = number(section, octet, 4), number(section, 39, 4), number(section, 43, 4)
    size = -(value & ~(1 << 31)) if value >> 31 else value
    return size / 1e6 if basic in (0, UNKNOWN) or not parts else size * basic / parts


def template_of(section):
    """Returns the number N of the grid definition template 3.N."""
    return number(section, 13, 2)


def scanning_mode(section):
    """Returns the scanning mode, None if its place isn't known for this template."""
    octet = SCANNING.get(template_of(section))
    return None if octet is None or octet > len(section) else section[octet - 1]


def is_reduced(section):
    """Returns whether the rows may have different lengths."""
    return scanning_mode(section) is not None and number(section, 31, 4) == UNKNOWN


def has_rows(section):
    """Returns whether the message stores row after row, each in the same direction."""
    mode = scanning_mode(section)
    return mode is not None and mode & ~(WESTWARD | NORTHWARD) == 0


def lengths_of_rows(section):
    """Returns the lengths of the rows in the order in which they are stored, None if they aren't
    known."""
    points, columns, rows = (number(section, octet, 4) for octet in (7, 31, 35))
    if not has_rows(section):
        return None
    if not is_reduced(section):
        return [columns] * rows if 0 < columns * rows == points else None
    circles = listed_lengths(section)
    if template_of(section) == GAUSSIAN and sum(circles) != points:
        circles = [len(it) for it in reduced_rows(section) or []]
    return circles if circles and sum(circles) == points else None


def listed_lengths(section):
    """Returns the numbers of points that section 3 lists, one for each row. For a part of the globe
    they may be those of the full circles."""
    rows, size, octet = number(section, 35, 4), section[10], LISTED.get(template_of(section))
    if octet is None or size == 0 or octet - 1 + size * rows > len(section):
        return []
    return [number(section, octet + size * row, size) for row in range(rows)]


def reduced_rows(section):
    """Returns the longitudes of each row of a reduced grid, None if they aren't known. If the
    listed lengths are those of full circles, but the rows aren't, a row has the points from the
    first longitude to the last."""
    circles, points = listed_lengths(section), number(section, 7, 4)
    west, east = angle(section, 51), angle(section, 60)
    if not any(circles):
        return None
    if sum(circles) != points:
        arcs = {length: part_of_circle(west, east, length) for length in set(circles)}
    elif ((east - west) % 360 or 360) + 360 / max(circles) > 360 - WIDE:
        arcs = {length: Arc(west, length, range(length)) for length in set(circles)}
    else:
        return None
    rows = [arcs[length] for length in circles]
    return rows if sum(map(len, rows)) == points else None


def part_of_circle(west, east, length):
    """Returns the longitudes from `west` to `east` of a circle whose first point is at 0."""
    first = math.ceil((west - SLACK) * length / 360)
    last = math.floor((west + (east - west) % 360 + SLACK) * length / 360)
    return Arc(0, length, range(first, last + 1))


class Arc(Sequence):
    """Longitudes of a row: points of a circle of `length` points, the first of them at `west`. They
    are computed when they are needed."""

    def __init__(self, west, length, points):
        self.west, self.length, self.points = west, length, points

    def __len__(self):
        return len(self.points)

    def __getitem__(self, index):
        return (self.west + 360 * self.points[index] / self.length) % 360


def own_points(section):
    """Returns the points of regular and Gaussian grids that aren't rotated, None for others."""
    template, lengths = template_of(section), lengths_of_rows(section)
    if template not in (REGULAR, GAUSSIAN) or lengths is None:
        return None
    if not is_reduced(section):
        longitudes = [equal_row(section)] * len(lengths)
    elif scanning_mode(section) & WESTWARD:
        return None
    else:
        longitudes = reduced_rows(section)
    first, last = angle(section, 47), angle(section, 56)
    if template == GAUSSIAN:
        latitudes = gaussian_rows(number(section, 68, 4), first, last, len(lengths))
    else:
        latitudes = spread(first, last, len(lengths))
    return None if latitudes is None or longitudes is None else Rows(latitudes, longitudes)


def equal_row(section):
    """Returns the longitudes of each row of a grid whose rows are equal."""
    first, last, columns = angle(section, 51), angle(section, 60), number(section, 31, 4)
    sign = -1 if scanning_mode(section) & WESTWARD else 1
    span = sign * (last - first) % 360 or 360 * (first != last)
    return [it % 360 for it in spread(first, first + sign * span, columns)]


def spread(first, last, count):
    """Returns numbers at equal distances."""
    step = (last - first) / (count - 1) if count > 1 else 0
    return [first + step * it for it in range(count)]


class Latitudes(Sequence):
    """Latitudes of `count` rows of a Gaussian grid, from row `first` on, counted from the north.
    They are computed when they are needed."""

    def __init__(self, half, first, step, count):
        self.half, self.rows = half, range(first, first + step * count, step)

    def __len__(self):
        return len(self.rows)

    def __getitem__(self, index):
        return gaussian_latitude(self.half, self.rows[index])


def gaussian_rows(half, first, last, count):
    """Returns the latitudes of `count` rows of the Gaussian grid that has `half` rows from a pole
    to the equator. They begin and end near these latitudes; None if there are no such rows."""
    ends = [gaussian_row(half, it) for it in (first, last)]
    if None in ends or abs(ends[1] - ends[0]) + 1 != count:
        return None
    return Latitudes(half, ends[0], 1 if ends[1] >= ends[0] else -1, count)


def gaussian_row(half, latitude):
    """Returns the number of the row that is near a latitude, None if none is."""
    if not 0 < half <= MOST_HALF:
        return None
    row = round((90 - latitude) * (2 * half + 0.5) / 180 - 0.75)
    row = min(max(row, 0), 2 * half - 1)
    return row if abs(gaussian_latitude(half, row) - latitude) < 10 / half else None


@lru_cache(maxsize=None)
def gaussian_latitude(half, row):
    """Returns the latitude of a row, counted from the north: a zero of a Legendre polynomial."""
    if row >= half:
        return -gaussian_latitude(half, 2 * half - 1 - row)
    degree = 2 * half
    x = math.cos(math.pi * (row + 0.75) / (degree + 0.5))
    for _ in range(10):
        before, value = 1.0, x
        for k in range(2, degree + 1):
            before, value = value, ((2 * k - 1) * x * value - (k - 1) * before) / k
        step = value * (x * x - 1) / (degree * (x * value - before))
        x -= step
        if abs(step) < 1e-15:
            break
    return math.degrees(math.asin(x))
