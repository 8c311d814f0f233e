"""Where the points of a GRIB2 field lie: latitude and longitude of each, in the order in which the
message stores them. The standard library is enough for regular and Gaussian grids. Others need
eccodes' Python module."""

from __future__ import annotations

from array import array
from bisect import bisect_left, bisect_right
from collections.abc import Sequence
from dataclasses import dataclass
from functools import cached_property
from itertools import accumulate

from aec_runs import Refused
from grib_nearest import Point, Points, Scattered, degrees_between, direction, dot
from grib_rows import (
    BY_COLUMNS,
    NORTHWARD,
    REGULAR,
    ROTATED,
    SLACK,
    WESTWARD,
    is_reduced,
    lengths_of_rows,
    number,
    own_points,
    scanning_mode,
    template_of,
)

NO_BITMAP = 255
MERCATOR, STEREOGRAPHIC, LAMBERT, EQUAL_AREA = 10, 20, 30, 140  # grid definition templates
ANGLE_OF_ROTATION = 81  # its octet in template 3.1
MERCATOR_STEPS = 65, 69  # octets of the two grid lengths in template 3.10


@dataclass
class Grid:
    """The points of a field, in the order in which the message stores them."""

    row_lengths: list[int] | None  # of all points; None if the points lie in no known rows
    points: Points | None  # None if they aren't known
    held: Sequence[int]  # the number of the point at each place, ascending
    reason: str = ""  # why the points or the rows aren't known

    def point_at(self, place):
        """Returns the point of the value at a place, None if it isn't known."""
        is_known = self.points is not None and place < len(self.held)
        return self.points[self.held[place]] if is_known else None

    def located(self, first, length):
        """Returns the points of `length` values, from place `first` on."""
        self.require_points()
        is_most = length > len(self.held) // 2
        points = list(self.points) if is_most else self.points  # a list is faster for many
        return [points[it] for it in self.held[first : first + length]]

    def require_points(self):
        """Refuses a grid whose points aren't known."""
        if self.points is None:
            ways = "places" if self.row_lengths is None else "places, or rows and columns"
            raise Refused(f"where the points lie isn't known: {self.reason}. Give {ways}")

    def place_in_row(self, row, column):
        """Returns the place of a point, by its row and column."""
        lengths = self.row_lengths
        if lengths is None:
            what = "the points of this grid lie in no known rows"
            raise Refused(f"{what}: {self.reason}. Give places")
        if row >= len(lengths) or column >= lengths[row]:
            raise Refused(f"there is no row {row} with a column {column}")
        return self.place_of(self.ends[row] - lengths[row] + column, f"row {row}, column {column}")

    def row_of(self, place):
        """Returns the row and the column of the value at a place. The rows must be known."""
        row = bisect_right(self.ends, self.held[place])
        return row, self.held[place] - (self.ends[row - 1] if row else 0)

    @cached_property
    def ends(self):
        """Returns the number of the first point after each row."""
        return list(accumulate(self.row_lengths))

    def nearest(self, latitude, longitude, within=None):
        """Returns the place of the point that is nearest on the sphere, and the point. Refuses a
        point that is farther than `within` degrees, or than a step of the grid at that point."""
        self.require_points()
        wanted = Point(latitude, longitude)
        number_of_point = self.points.nearest(wanted)
        point = self.points[number_of_point]
        away, limit = degrees_between(wanted, point), within
        if limit is None:
            limit = self.points.step(number_of_point)
        if away > limit + SLACK:
            what = "a step of the grid" if within is None else "--within"
            more = "" if within is not None else ". --within DEGREES sets another limit"
            what = f"is {away:.6g} degrees away, but {what} is {limit:.6g}{more}"
            raise Refused(f"the nearest point, {written(point)}, {what}")
        return self.place_of(number_of_point, "the nearest point", wanted), point

    def place_of(self, number_of_point, name, wanted=None):
        """Returns the place of a point. Refuses a point that has no value, and says how far from
        the wanted point, or from this one, the nearest point with a value is."""
        place = bisect_left(self.held, number_of_point)
        if place < len(self.held) and self.held[place] == number_of_point:
            return place
        missing = "has no value: the bitmap leaves it out"
        if self.points is None or not self.held:
            raise Refused(f"{name}, {missing}")
        point = self.points[number_of_point]
        vector = direction(wanted or point)
        nearest = max(self.held, key=lambda it: dot(vector, direction(self.points[it])))
        away = degrees_between(wanted or point, self.points[nearest])
        other = f"the nearest point with a value, {written(self.points[nearest])}"
        raise Refused(f"{name}, {written(point)}, {missing}; {other}, is {round(away, 9):.6g} degrees away")


def written(point):
    """Returns the latitude and the longitude as a text."""
    return f"{point.latitude:.6f} {point.longitude:.6f}"


def grid_of(message, count, is_quick=False):
    """Returns the grid of a message with `count` values. If it should be quick, points that only
    eccodes can list aren't known."""
    try:
        section = message.section(3)
        held = held_points(message, number(section, 7, 4), count)
    except Refused as fault:
        return Grid(None, None, range(count), str(fault))
    points, reason = own_points(section), ""
    if points is None and not is_quick:
        points, reason = points_of_eccodes(message, section)
    lengths = lengths_of_rows(section)
    return Grid(lengths, points, held, reason or unknown(section))


def held_points(message, points, count):
    """Returns the numbers of the points that have a value."""
    section = message.section(6) if 6 in message.sections else bytes([0, 0, 0, 6, 6, NO_BITMAP])
    indicator = number(section, 6, 1)
    if indicator == NO_BITMAP:
        if points != count:
            raise Refused(f"the grid has {points} points, but there are {count} values")
        return range(count)
    if indicator != 0:
        raise Refused("the bitmap isn't in the message")
    bits = "".join(f"{byte:08b}" for byte in section[6:])[:points]
    held = array("Q", (it for it, bit in enumerate(bits) if bit == "1"))
    if len(held) != count:
        raise Refused(f"the bitmap has {len(held)} points with a value, the message {count}")
    return held


def unknown(section):
    """Returns a text about a grid that isn't known."""
    mode = scanning_mode(section)
    more = "" if mode is None else f" with scanning mode {mode}"
    more += " and rows of these lengths" * is_reduced(section)
    return f"grid template 3.{template_of(section)}{more} isn't supported"


def is_listed(section):
    """Returns whether eccodes lists the points of a message as it stores them. For other grids
    eccodes 2.28 lists wrong points, or none."""
    template, mode = template_of(section), scanning_mode(section)
    if mode is None or is_reduced(section):
        return False
    if template == ROTATED and number(section, ANGLE_OF_ROTATION, 4) != 0:
        return False
    if template in (REGULAR, ROTATED):
        return mode & ~(WESTWARD | NORTHWARD | BY_COLUMNS) == 0
    if template == MERCATOR and len({number(section, it, 4) for it in MERCATOR_STEPS}) > 1:
        return False
    return template in (MERCATOR, STEREOGRAPHIC, LAMBERT, EQUAL_AREA) and mode == NORTHWARD


def points_of_eccodes(message, section):
    """Returns the points that eccodes lists, and why there are none."""
    if not is_listed(section):
        return None, unknown(section)
    try:
        import eccodes
    except Exception as fault:  # noqa: BLE001 - without its C library it isn't an ImportError
        said = (str(fault).splitlines() or [type(fault).__name__])[0]
        needs = "this grid needs eccodes' Python module (Debian: python3-eccodes)"
        return None, f"{needs}, but {said}"
    handle, keys = None, ("latitudes", "longitudes")
    try:
        handle = eccodes.codes_new_from_message(message.data)
        lists = [eccodes.codes_get_array(handle, it).tolist() for it in keys]
    except eccodes.CodesInternalError as fault:
        return None, f"eccodes can't list its points: {fault}"
    finally:
        if handle is not None:
            eccodes.codes_release(handle)
    if len(lists[0]) != number(section, 7, 4):
        return None, f"eccodes lists {len(lists[0])} points"
    return Scattered(list(map(Point, *lists)), columns_of(section)), ""


def columns_of(section):
    """Returns the length of a row of a grid whose points lie in equal rows, else None."""
    lengths = lengths_of_rows(section)
    return lengths[0] if lengths and len(set(lengths)) == 1 else None
