"""Points of the earth in the order in which a GRIB2 message stores them, and the search for the
nearest one. Needs only the standard library."""

from __future__ import annotations

import math
from bisect import bisect_left, bisect_right
from collections.abc import Sequence
from functools import cached_property
from itertools import accumulate
from typing import NamedTuple

ROUNDING = 4e-15  # more than the error of a product of two directions
NEAR_POLE = 90 - 1e-6  # degrees


class Point(NamedTuple):
    """A place of the earth, in degrees."""

    latitude: float
    longitude: float


def direction(point):
    """Returns the unit vector to a point."""
    latitude, longitude = math.radians(point.latitude), math.radians(point.longitude)
    level = math.cos(latitude)
    return level * math.cos(longitude), level * math.sin(longitude), math.sin(latitude)


def dot(one, other):
    """Returns the product of two vectors, which is greater the nearer their points are."""
    return one[0] * other[0] + one[1] * other[1] + one[2] * other[2]


def degrees_between(one, other):
    """Returns the angle between two points, as seen from the centre of the earth."""
    chord = math.dist(direction(one), direction(other))
    return math.degrees(2 * math.asin(min(chord / 2, 1.0)))


def turn(longitude, other):
    """Returns the least degrees between two longitudes."""
    return abs((longitude - other + 180) % 360 - 180)


def outward(latitudes, wanted):
    """Yields the indexes of sorted latitudes, the nearest to the wanted latitude first."""
    above = bisect_left(latitudes, wanted)
    below, count = above - 1, len(latitudes)
    while below >= 0 or above < count:
        if above == count or below >= 0 and wanted - latitudes[below] < latitudes[above] - wanted:
            yield below
            below -= 1
        else:
            yield above
            above += 1


class Chosen(Sequence):
    """The items of a sequence that have these numbers. Each is read when it is needed."""

    def __init__(self, items, numbers):
        self.items, self.numbers = items, numbers

    def __len__(self):
        return len(self.numbers)

    def __getitem__(self, index):
        return self.items[self.numbers[index]]


class Points(Sequence):
    """Points by their numbers. A subclass has sorted `latitudes_upward`, `candidates`, which yields
    the products and numbers of points at one of these latitudes, and `steps`."""

    def nearest(self, wanted, besides=-1):
        """Returns the number of the nearest point; of several, the first, but in a row at a pole
        the one with the nearest longitude. Skips the number `besides`. Returns None if there are no
        others."""
        vector, best = direction(wanted), (-2.0, 0)
        for index in outward(self.latitudes_upward, wanted.latitude):
            apart = math.radians(self.latitudes_upward[index] - wanted.latitude)
            if math.cos(apart) < best[0] - ROUNDING:
                break
            for product, number in self.candidates(index, wanted, vector):
                if number != besides:
                    best = max(best, (product, -number))
        return -best[1] if best[0] > -2 else None

    def step(self, number):
        """Returns the largest spacing, in degrees, between a point and those next to it."""
        return max(self.steps(number), default=0.0)


class Rows(Points):
    """Points in rows: each row has one latitude. The latitudes rise or fall. Rows may share a list
    of longitudes."""

    def __init__(self, latitudes, longitudes):
        self.latitudes, self.longitudes = latitudes, longitudes
        self.starts = list(accumulate(map(len, longitudes), initial=0))
        self.upward = {}  # the sorted longitudes of each list, with their columns

    def __len__(self):
        return self.starts[-1]

    def __iter__(self):
        for latitude, row in zip(self.latitudes, self.longitudes):
            for longitude in row:
                yield Point(latitude, longitude)

    def __getitem__(self, number):
        row, column = self.position(number)
        return Point(self.latitudes[row], self.longitudes[row][column])

    def position(self, number):
        """Returns the row and the column of a point."""
        row = bisect_right(self.starts, number) - 1
        return row, number - self.starts[row]

    @cached_property
    def rows_upward(self):
        """Returns the numbers of the rows that have points, from south to north."""
        filled = [row for row, longitudes in enumerate(self.longitudes) if longitudes]
        is_falling = len(filled) > 1 and self.latitudes[filled[0]] > self.latitudes[filled[-1]]
        return filled[::-1] if is_falling else filled

    @cached_property
    def latitudes_upward(self):
        """Returns the latitudes of these rows."""
        return Chosen(self.latitudes, self.rows_upward)

    def columns_upward(self, row):
        """Returns the longitudes of a row from 0 to 360, sorted, and their columns."""
        key = id(self.longitudes[row])
        if key not in self.upward:
            pairs = sorted((it % 360, at) for at, it in enumerate(self.longitudes[row]))
            self.upward[key] = [it for it, _ in pairs], [at for _, at in pairs]
        return self.upward[key]

    def candidates(self, index, wanted, vector):
        """Yields the products and numbers of a row's nearest points. The product falls with the
        distance in longitude, so each of the two directions ends where it has fallen. At a pole all
        points of a row are one place: there the one with the nearest longitude counts."""
        row = self.rows_upward[index]
        turned, columns = self.columns_upward(row)
        begin, count, best = bisect_left(turned, wanted.longitude % 360), len(columns), -2.0
        if abs(self.latitudes[row]) > NEAR_POLE:
            away = [(turn(it, wanted.longitude), at) for it, at in zip(turned, columns)]
            pole = Point(self.latitudes[row], 0.0)
            yield dot(vector, direction(pole)), self.starts[row] + min(away)[1]
            return
        for steps in (range(begin, begin + count), range(begin - 1, begin - 1 - count, -1)):
            for step in steps:
                column = columns[step % count]
                point = Point(self.latitudes[row], self.longitudes[row][column])
                product = dot(vector, direction(point))
                yield product, self.starts[row] + column
                best = max(best, product)
                if product < best - ROUNDING:
                    break

    def steps(self, number):
        """Yields the distances to the neighbours in the row, and to the rows before and after."""
        row, column = self.position(number)
        latitude, longitudes = self.latitudes[row], self.longitudes[row]
        here = Point(latitude, longitudes[column])
        for other in (column - 1, column + 1):
            if 0 <= other < len(longitudes):
                yield degrees_between(here, Point(latitude, longitudes[other]))
        for other in (row - 1, row + 1):
            if 0 <= other < len(self.latitudes):
                yield abs(self.latitudes[other] - latitude)


class Scattered(Points):
    """Points at any latitudes and longitudes. `columns` is the length of a row of neighbours, None
    if it isn't known."""

    def __init__(self, points, columns=None):
        self.points, self.columns = points, columns

    def __len__(self):
        return len(self.points)

    def __getitem__(self, number):
        return self.points[number]

    @cached_property
    def numbers_upward(self):
        """Returns the numbers of the points, from south to north."""
        return sorted(range(len(self.points)), key=lambda it: self.points[it].latitude)

    @cached_property
    def latitudes_upward(self):
        """Returns their latitudes."""
        return [self.points[it].latitude for it in self.numbers_upward]

    def candidates(self, index, _wanted, vector):
        """Yields the product and the number of one point."""
        number = self.numbers_upward[index]
        yield dot(vector, direction(self.points[number])), number

    def steps(self, number):
        """Yields the distances to the neighbours in the row and in the rows before and after, or to
        the nearest other point."""
        if self.columns is None:
            others = [self.nearest(self.points[number], number)]
        else:
            column, last = number % self.columns, self.columns - 1
            others = [number - 1] * (column > 0) + [number + 1] * (column < last)
            others += [number - self.columns, number + self.columns]
        for other in others:
            if other is not None and 0 <= other < len(self.points):
                yield degrees_between(self.points[number], self.points[other])
