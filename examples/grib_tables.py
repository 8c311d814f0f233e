"""Tables of values that `grib_ccsds.py` reads: which columns a table has, and the place that each
line means."""

from __future__ import annotations

import csv
import math
import re
import sys
from decimal import Decimal
from fractions import Fraction
from typing import NamedTuple

from aec_runs import Refused, WrongWords, read_file, whole_number
from grib_grid import written
from grib_messages import message_number
from grib_nearest import Point

# The columns that say what place a line means. If a table has several, the first of them count.
PLACE, IN_ROW, ON_EARTH = ("place",), ("row", "column"), ("latitude", "longitude")
WAYS = PLACE, IN_ROW, ON_EARTH
SEPARATORS = "\t;,"  # else blanks; the first of these that the first line has
NUMBER = re.compile(r"[+-]?([0-9]+\.?[0-9]*|\.[0-9]+)([eE][+-]?[0-9]{1,3})?")
MOST_CHARACTERS = 1000  # of a number
DECIMALS = 2, 3  # fewest and most of a latitude or longitude that count, in a line with a place


class Line(NamedTuple):
    """A line of a table: what an error calls it, and its cells by their columns' names."""

    name: str
    cells: dict[str, str]


class Target(NamedTuple):
    """What a line of a table means."""

    line: Line
    place: int
    point: Point | None  # if it is known
    value: Fraction | None = None  # None if the table has only places


class Table(NamedTuple):
    """The lines of a table with values, or only with places."""

    path: str
    names: list[str]
    lines: list[Line]
    has_values: bool

    def way(self):
        """Returns the columns that say what place a line means."""
        return way_of(self.names)

    def is_on_earth(self):
        """Returns whether the lines have latitudes and longitudes."""
        return {*ON_EARTH} <= {*self.names}

    def by_message(self, usual):
        """Returns the lines by the number of their message. If the table has no column for it, all
        lines are for the message with the number `usual`, a text."""
        groups = {}
        for line in self.lines:
            try:
                number = message_number(line.cells.get("message", usual))
            except WrongWords as fault:
                raise Refused(f"{line.name}{fault}") from fault
            groups.setdefault(number, []).append(line)
        return groups


def float_of(text, wrong):
    """Returns the number of a text, as the nearest float. Raises `wrong` for another text."""
    if len(text) > MOST_CHARACTERS or not NUMBER.fullmatch(text):
        if re.fullmatch(r"[-+0-9.eE]*,[-+0-9.,eE]*", text):
            raise wrong(f"{text} has a comma: write decimals with a point")
        raise wrong(f"{text} is no value")
    number = float(text)
    if not math.isfinite(number):
        raise wrong(f"{text} is too large")
    return number


def value_of(text, wrong):
    """Returns the number of a text, exactly. Raises `wrong` for another text."""
    float_of(text, wrong)
    return Fraction(Decimal(text))  # faster than the fraction of a text


def read_table(path, has_values):
    """Returns a table. The table - is standard input. Refuses a table without the columns that it
    needs, and a line with other columns than the first one."""
    data = sys.stdin.buffer.read() if path == "-" else read_file(path)
    names, lines, separator = [], [], None
    for number, text in enumerate(data.decode("utf-8-sig", errors="replace").splitlines(), 1):
        if not text.strip() or text.lstrip().startswith("#"):
            continue
        if not names:
            separator = next((it for it in SEPARATORS if it in text), None)
            names = judged_names(path, [it.lower() for it in cells_of(text, separator)], has_values)
            needed = [*way_of(names), "message", *["value"] * has_values]
            continue
        name, cells = f"line {number} of {path}: ", cells_of(text, separator)
        if len(cells) != len(names):
            raise Refused(f"line {number} of {path} has {len(cells)} entries, not {len(names)}")
        lines.append(Line(name, dict(zip(names, cells))))
        judge_cells(lines[-1], needed)
    if not lines:
        raise Refused(f"{path} has no {'values' if has_values else 'lines'}")
    return Table(path, names, lines, has_values)


def table_of_one(place, value):
    """Returns the table of one value. Raises WrongWords for wrong texts."""
    whole_number(place, "place")
    value_of(value, WrongWords)
    return Table("-", ["place", "value"], [Line("", {"place": place, "value": value})], True)


def cells_of(text, separator):
    """Returns the cells of a line. Quotation marks around a cell are removed."""
    if separator is None:
        return text.split()
    return [it.strip() for it in next(csv.reader([text], delimiter=separator))]


def judged_names(path, names, has_values):
    """Returns the names of a table's columns. Refuses names that don't say where a value is, and
    needed names that are there twice."""
    if way_of(names) is None or has_values and "value" not in names:
        wanted = "place, or row and column, or latitude and longitude"
        wanted = f"value and {wanted}" if has_values else wanted
        raise Refused(f"the first line of {path} must name the columns: {wanted}")
    for name in ("message", "value", *(it for way in WAYS for it in way)):
        if names.count(name) > 1:
            raise Refused(f"the first line of {path} has two columns {name}")
    return names


def judge_cells(line, needed):
    """Refuses a line whose cell is empty in a column that it needs, if the table has that column."""
    for name in needed:
        if line.cells.get(name) == "":
            raise Refused(f"{line.name}the {name} is empty")


def way_of(names):
    """Returns the columns that say what place a line of a table means, None if none do."""
    return next((way for way in WAYS if {*way} <= {*names}), None)


def targets_of(table, lines, count, grid, within):
    """Returns what lines of a table mean in a message of `count` values. Refuses a line that is
    wrong, and a point that is farther than `within` degrees, or than a step of the grid. With
    values also refuses two lines for one place."""
    targets, taken, way = [], {}, table.way()
    for line in lines:
        try:
            place, point = place_in(line.cells, way, count, grid, within)
            value = value_of(line.cells["value"], Refused) if table.has_values else None
            if table.has_values and place in taken:
                raise Refused(f"place {place} is also that of {taken[place].name[:-2]}")
        except (Refused, WrongWords) as fault:
            raise Refused(f"{line.name}{fault}") from fault
        taken[place] = line
        targets.append(Target(line, place, point, value))
    return targets


def place_in(cells, way, count, grid, within):
    """Returns the place that a line of a table means by the columns `way`, and its point if that is
    known."""
    if way == ON_EARTH:
        return grid.nearest(*point_of(cells["latitude"], cells["longitude"]), within)
    if way == PLACE:
        place = whole_number(cells["place"], "place")
    else:
        place = grid.place_in_row(*(whole_number(cells[it], it) for it in way))
    if place >= count:
        raise no_place(place, count)
    judge_row(cells, way, place, grid)
    point = grid.point_at(place)
    judge_point(cells, place, point)
    return place, point


def no_place(place, count):
    """Returns the refusal of a place that is too large for `count` values."""
    return Refused(f"there is no place {place}: the last one is {count - 1}")


def judge_row(cells, way, place, grid):
    """Refuses a line whose row and column aren't those of its place, if the rows are known."""
    texts = [cells.get(it, "") for it in IN_ROW]
    if way != PLACE or "" in texts or grid.row_lengths is None:
        return
    row, column = grid.row_of(place)
    if (row, column) != tuple(map(whole_number, texts, IN_ROW)):
        at = f"row {row}, column {column}"
        raise Refused(f"place {place} is {at}, not row {texts[0]}, column {texts[1]}")


def judge_point(cells, place, point):
    """Refuses a line whose latitude and longitude aren't those of its place, as in a table of
    another field. Numbers with few decimals are rounded ones."""
    texts = [cells.get(it, "") for it in ON_EARTH]
    if point is None or "" in texts:
        return
    given = point_of(*texts)
    fewest, most = DECIMALS
    decimals = max(map(decimals_of, texts))
    slack = 0.51 * 10.0 ** -min(max(decimals, fewest), most)
    east = (given.longitude - point.longitude + 180) % 360 - 180
    if abs(given.latitude - point.latitude) > slack or abs(east) > slack:
        raise Refused(f"place {place} lies at {written(point)}, not at {' '.join(texts)}")


def decimals_of(text):
    """Returns how many digits the text of a number has after the point."""
    return len(text.lower().partition("e")[0].partition(".")[2])


def point_of(latitude, longitude):
    """Returns the point of two texts. Raises WrongWords for other texts than numbers, and for
    numbers out of range."""
    north, east = float_of(latitude, WrongWords), float_of(longitude, WrongWords)
    if not -90 <= north <= 90 or not -360 <= east <= 360:
        ranges = "latitudes are -90 to 90, longitudes -360 to 360"
        raise WrongWords(f"{latitude} {longitude} is no place of the earth: {ranges}")
    return Point(north, east)
