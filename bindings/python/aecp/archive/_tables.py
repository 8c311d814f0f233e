"""Tables of pixels: frame, row, column and value, or place and value. They become scripts, and
differences become tables."""

from __future__ import annotations

import csv
import io
import math
import re
from typing import NamedTuple, Optional

from aecp.archive._form import Facts, Refused
from aecp.archive._scripts import MOST_SHOWN, BadLine, cut

NAMES = {"col": "column", "x": "column", "y": "row", "index": "place", "new": "value"}
KNOWN = ("frame", "row", "column", "place", "value")
# The columns of a table without a line of names, by their number.
USUAL = {
    2: ("place", "value"),
    3: ("row", "column", "value"),
    4: ("frame", "row", "column", "value"),
}
NUMBER = re.compile(r"[-+]?[0-9]{1,25}")


class Grid(NamedTuple):
    """Samples as frames of rows and columns. Without a number of frames, there may be any."""

    frames: Optional[int]
    rows: int
    columns: int

    def place(self, frame: int, row: int, column: int) -> int:
        """Returns the place of a sample."""
        return (frame * self.rows + row) * self.columns + column

    def cell(self, place: int) -> tuple[int, int, int]:
        """Returns frame, row and column of a place."""
        row, column = divmod(place, self.columns)
        return (*divmod(row, self.rows), column)


def shape_in(text: str) -> tuple[int, ...]:
    """Returns the sizes of a text such as 512x512. Raises ValueError for another text."""
    if not re.fullmatch(r"[0-9]{1,10}([xX,][0-9]{1,10}){0,31}", text):
        raise ValueError(f"{cut(text)} is no shape such as 512x512")
    return tuple(map(int, re.split("[xX,]", text)))


def grid_of(shape: Optional[tuple[int, ...]], count: Optional[int] = None) -> Optional[Grid]:
    """Returns the grid of a shape, or None if it isn't one of rows and columns. Indices before the
    last two count frames. With two sizes, there are as many frames as `count` samples begin; any
    number if `count` is None."""
    if shape is None or len(shape) < 2 or not all(shape):
        return None
    *frames, rows, columns = shape
    if frames:
        return Grid(math.prod(frames), rows, columns)
    return Grid(None if count is None else max(1, -(-count // (rows * columns))), rows, columns)


def cells_of(text: str) -> list[list[str]]:
    """Returns the cells of each line of a table. The first line shows what divides them: tabs, else
    semicolons, else commas."""
    first = text.partition("\n")[0]
    delimiter = "\t" if "\t" in first else ";" if ";" in first else ","
    try:
        lines = csv.reader(io.StringIO(text, newline=None), delimiter=delimiter)
        return [[word.strip() for word in words] for words in lines]
    except csv.Error:
        raise Refused("it is no table of row, column and value") from None


def named_columns(words: list[str]) -> Optional[list[str]]:
    """Returns the columns that a first line names, or None if it has numbers."""
    if words and NUMBER.fullmatch(words[0]):
        return None
    names = [NAMES.get(word.lower(), word.lower()) for word in words]
    known = [it for it in names if it in KNOWN]
    if "value" in known and len(set(known)) == len(known):
        return names
    if len(words) in USUAL and not set(names) & set(KNOWN):
        return list(USUAL[len(words)])  # names of another language
    text = "its first line names no columns such as row, column, value"
    raise Refused(f"{text}: {cut(' '.join(words))!r}")


class Table:
    """A table that is being read."""

    def __init__(self, grid: Optional[Grid], frame: Optional[int], facts: Optional[Facts]) -> None:
        self.grid, self.frame, self.facts = grid, frame, facts
        self.columns: Optional[list[str]] = None
        self.values: dict[int, int] = {}
        self.complaints: list[str] = []

    def read(self, text: str) -> None:
        """Reads all lines. Raises Refused if one of them is bad."""
        is_first = True
        for line, words in enumerate(cells_of(text), 1):
            if not any(words) or words[0].startswith("#"):
                continue
            if is_first:
                is_first = False
                self.columns = named_columns(words)
                if self.columns is not None:
                    continue
                self.columns = list(USUAL.get(len(words), ()))
            try:
                self.add(words)
            except BadLine as error:
                self.complaints.append(f"line {line}: {error}")
        refuse("the table is refused, and nothing is changed", self.complaints)

    def add(self, words: list[str]) -> None:
        """Adds a line. Raises BadLine if it is bad."""
        columns = self.columns or []
        if len(words) != len(columns):
            wanted = ", ".join(columns) or "row, column, value"
            raise BadLine(f"{cut(' '.join(words))!r} isn't {wanted}")
        found: dict[str, int] = {}
        for name, word in zip(columns, words):
            if name in KNOWN:
                if not NUMBER.fullmatch(word):
                    raise BadLine(f"{cut(word)!r} is no {name}")
                found[name] = int(word)
        value, place = found["value"], self.place(found)
        self.judge(found, place, value)
        if self.values.setdefault(place, value) != value:
            raise BadLine(f"{where(found)} has two values, {self.values[place]} and {value}")

    def judge(self, found: dict[str, int], place: int, value: int) -> None:
        """Raises BadLine if the file has no such place, or its samples can't have the value."""
        if self.facts is None:
            return
        least, most = self.facts.options.least, self.facts.options.most
        if place >= self.facts.count:
            raise BadLine(f"{where(found)} is outside the {self.facts.count} samples")
        if not least <= value <= most:
            raise BadLine(f"{where(found)}: the value {value} is out of range: {least} to {most}")

    def place(self, found: dict[str, int]) -> int:
        """Returns the place that a line names. Raises BadLine if there is none; Refused if the
        table lacks a shape, or a frame for a shape of several."""
        if "place" in found:
            if found["place"] < 0:
                raise BadLine(f"place {found['place']} is negative")
            return found["place"]
        if "row" not in found or "column" not in found:
            raise BadLine("the table has neither row and column nor place")
        if self.grid is None:
            raise Refused("rows and columns need a shape: give --shape ROWSxCOLS")
        frames, rows, columns = self.grid
        if "frame" not in found and self.frame is None and frames not in (None, 1):
            text = f"there are {frames} frames, and the table doesn't say which one is meant"
            raise Refused(f"{text}: add a column frame, or give --frame K")
        frame, row, column = found.get("frame", self.frame or 0), found["row"], found["column"]
        is_frame = 0 <= frame and (frames is None or frame < frames)
        if not (is_frame and 0 <= row < rows and 0 <= column < columns):
            shape = f"{rows}x{columns}" if frames in (None, 1) else f"{frames}x{rows}x{columns}"
            place = where({**found, "frame": frame} if frame else found)
            raise BadLine(f"{place} is outside {shape}")
        return self.grid.place(frame, row, column)


def where(found: dict[str, int]) -> str:
    """Returns the words for a place of a table."""
    return ", ".join(f"{name} {found[name]}" for name in KNOWN[:4] if name in found)


def refuse(text: str, complaints: list[str]) -> None:
    """Raises Refused with the first complaints, if there are any."""
    if complaints:
        more = len(complaints) - MOST_SHOWN
        lines = complaints[:MOST_SHOWN] + ([f"and {more} more lines"] if more > 0 else [])
        raise Refused(f"{text}:\n  " + "\n  ".join(lines))


def script_of(
    text: str, grid: Optional[Grid], frame: Optional[int], facts: Optional[Facts] = None
) -> str:
    """Returns the script that a table means: a line for each place, in order. With the facts of a
    file, refuses places and values that its samples don't have."""
    table = Table(grid, frame, facts)
    table.read(text)
    return "".join(f"overwrite {place} {it}\n" for place, it in sorted(table.values.items()))


def named(grid: Grid) -> list[str]:
    """Returns the names of the columns of a table of differences."""
    return ["row", "column"] if grid.frames == 1 else ["frame", "row", "column"]


def cell_of(grid: Grid, place: int) -> list[int]:
    """Returns the numbers of a place in the columns of `named`."""
    cell = list(grid.cell(place))
    return cell[1:] if grid.frames == 1 else cell
