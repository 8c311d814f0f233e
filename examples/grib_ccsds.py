#!/usr/bin/env python3
"""The coded stream of a GRIB2 message (data representation template 5.42), read and edited:

    grib_ccsds.py options FILE                  prints the options for aec, with --count
    grib_ccsds.py values AEC FILE [FIRST:LEN]   prints a table of all values, or of LEN values from
                                                place FIRST on, with latitudes and longitudes
    grib_ccsds.py values AEC FILE TABLE         prints a table of the values at the points of a
                                                table
    grib_ccsds.py set AEC FILE TABLE OUT        writes the file with the values of a table; all
                                                others stay as they are
    grib_ccsds.py set AEC FILE PLACE VALUE OUT  writes the file with another value at one place
    grib_ccsds.py take FILE STREAM              writes the stream of section 7
    grib_ccsds.py put AEC FILE STREAM OUT       writes the file with another stream of the same
                                                options and count
    grib_ccsds.py edit AEC SCRIPT FILE OUT      writes the file with its stream edited by a script
                                                that keeps the count

AEC is this project's program: its name or path. libaec's program `aec` can't be used.

FILE contains GRIB2 messages. Bytes before, between and after them are copied. Places count from 0,
without the points that a bitmap leaves out.

OUT is the name of a file. It can't be - for standard output, where `set` prints its lines.

`--message N` takes message N of FILE instead of the first. Messages are counted from 1, as
`grib_ls -p count` does. The other messages stay as they are.

`--at LAT,LON` prints only the value at the point that is nearest to this latitude and longitude.

TABLE names its columns in its first line: `value` (for `set`), and `place`, or `row` and `column`,
or `latitude` and `longitude`. With a column `message`, which has the message's number, a table can
be about several messages. All other columns are ignored. The columns are separated by tabs,
semicolons, commas or blanks: the first of these that the first line has. Lines that begin with #
are skipped. If a line is wrong, no file is written. The TABLE - is standard input. What `values`
prints is a TABLE.

TABLE's rows and columns count from 0, as the message stores them. A latitude and a longitude select
the nearest point. Beside a place, the row and the column, and the latitude and the longitude, must
be those of this place; beside a row and a column, the latitude and the longitude must be theirs.
If the script doesn't know those of the grid, they aren't checked.

`--within DEGREES` sets another limit for the distance to the nearest point. Without it, a point
that is farther than one step of the grid is refused: farther than the largest distance between the
nearest point and those next to it. `values` takes it with `--at`, and both `values` and `set` with
a TABLE of latitudes and longitudes.

SCRIPT has the edits that `aec --edit` takes.

For regular and Gaussian grids with the scanning modes 0, 64, 128 and 192 the script needs only the
standard library. Latitudes and longitudes of regular grids with the modes 32, 96, 160 and 224, of
rotated and of projected grids need eccodes' Python. Those of other grids aren't known.
"""

from __future__ import annotations

import os
import re
import shutil

from aec_runs import (
    Refused,
    WrongUse,
    WrongWords,
    bytes_of_sample,
    complain,
    opened,
    perform,
    read_file,
    run_aec,
    samples_of,
    say,
    say_written,
    whole_number,
    write_whole,
)
from grib_grid import grid_of, written
from grib_messages import (
    MARK,
    coding_of,
    found_messages,
    message_number,
    message_of,
    packing_of,
    read_message,
    with_replaced,
    with_stream,
)
from grib_tables import (
    ON_EARTH,
    PLACE,
    no_place,
    point_of,
    read_table,
    table_of_one,
    targets_of,
    value_of,
)


def judge_aec(aec):
    """Raises WrongWords if the word for AEC is a file that can't be a program: AEC was
    forgotten."""
    if not os.path.isfile(aec):
        return
    try:
        with open(aec, "rb") as file:
            is_message = file.read(len(MARK)) == MARK
    except PermissionError:  # a program need not be readable
        is_message = False
    if is_message or shutil.which(aec) is None:
        raise WrongWords(f"{aec} is no program: the words begin with AEC, the program's name or path")


def judge_fit(coding, aec, stream):
    """Refuses a stream that doesn't decode with the options and the count of a message, or that
    also decodes without its last byte."""
    words = ["-d", *coding.counted_words()]
    try:
        run_aec(aec, words, stream)
    except Refused as fault:
        raise Refused(f"the stream doesn't fit the message: {fault}") from fault
    try:
        run_aec(aec, words, stream[:-1])
    except Refused:
        return
    raise Refused(f"the stream doesn't fit the message: it goes on after {coding.count} samples")


def stored_in(read, aec, first, length):
    """Returns the bytes of `length` samples of a message, from place `first` on."""
    words = coding_of(read).counted_words()
    return run_aec(aec, ["--range", f"{first}:{length}", *words], read.stream())


def numbers_of(read, stored):
    """Returns the unsigned numbers of samples in bytes."""
    packing, words = packing_of(read), coding_of(read).counted_words()
    return [packing.number(sample) for sample in samples_of(stored, words)]


def numbers_at(read, aec, places):
    """Returns the unsigned numbers at these places, by place."""
    first, size = min(places), bytes_of_sample(coding_of(read).counted_words())
    stored = stored_in(read, aec, first, max(places) - first + 1)
    begins = [size * (place - first) for place in places]
    chosen = b"".join(stored[begin : begin + size] for begin in begins)
    return dict(zip(places, numbers_of(read, chosen)))


def edited(read, aec, script):
    """Returns what replaces a message after a script has edited it. The script must keep the
    count."""
    coding = coding_of(read)
    stream = run_aec(aec, coding.counted_words(), read.stream(), script)
    left = count_after(script, coding.count)
    if left != coding.count:
        raise Refused(f"the script leaves {left} values, not the {coding.count} of the message")
    return with_stream(read, stream)


def count_after(script, count):
    """Returns the number of samples after a script, from `count` before it. aec has accepted this
    script. A kind of edit that isn't known here is refused, since it may change the count."""
    for line in script.split(b"\n"):
        kind, *values = line.split() or [b"#"]
        if kind == b"truncate":
            count = int(values[0])
        elif kind == b"remove":
            count -= int(values[1])
        elif kind == b"append":
            count += len(values)
        elif kind == b"insert":
            count += len(values) - 1
        elif kind != b"overwrite" and not kind.startswith(b"#"):
            raise Refused(f"what {kind.decode()} does to the count isn't known")
    return count


def options(file, *, message="1"):
    """Prints the words for aec."""
    with opened(file) as source:
        say(" ".join(coding_of(message_of(source, file, message)).counted_words()))


def values(aec, file, part=None, *, message=None, at=None, within=None):
    """Prints a table of the values of FIRST:LEN, of the points of a TABLE, of the point nearest to
    `at`, or of all."""
    judge_aec(aec)
    limit = None if within is None else degrees_of(within)
    wanted = None if at is None else coordinates_of(at)
    if part is not None and at is not None:
        raise WrongWords("FIRST:LEN or a TABLE, and --at, exclude each other")
    chosen = None if part is None else part_of(part)
    if within is not None and at is None and (part is None or chosen is not None):
        raise WrongWords("--within needs --at, or a TABLE")
    if part is not None and chosen is None:
        print_targets(aec, file, table_of(part, message, within, False), message, limit)
        return
    with opened(file) as source:
        read = message_of(source, file, "1" if message is None else message)
    packing, count = packing_of(read), coding_of(read).count
    first, length = chosen or (0, count)
    if first + length > count:
        raise no_place(max(first, first + length - 1), count)
    grid = grid_of(read, count)
    if wanted is not None:
        first, length = grid.nearest(*wanted, limit)[0], 1
    numbers = numbers_of(read, stored_in(read, aec, first, length))
    points = None if grid.points is None else grid.located(first, length)
    if points is None:
        complain(f"no latitudes and longitudes: {grid.reason}", 0)
    say(heading(points is not None))
    for index, value in enumerate(packing.values(numbers)):
        print_value(first + index, None if points is None else points[index], value)


def heading(is_located, has_messages=False):
    """Returns the first line of a printed table."""
    return f"{'message ' * has_messages}place {'latitude longitude ' * is_located}value"


def print_value(place, point, value, message=""):
    """Prints a line of a table."""
    say(f"{message}{place} {'' if point is None else f'{written(point)} '}{value}")


def print_targets(aec, file, table, message, within):
    """Prints the values at the points of a table, in its order."""
    found, has_messages, reasons = {}, "message" in table.names, []  # found: by the name of a line
    with opened(file) as source:
        for number, read, grid, targets in targets_of_file(source, file, table, message, within):
            packing, name = packing_of(read), f"{number} " * has_messages
            numbers = numbers_at(read, aec, sorted({it.place for it in targets}))
            for it, value in zip(targets, packing.values(numbers[it.place] for it in targets)):
                found[it.line.name] = it.place, it.point, value, name
            reasons += [grid.reason] * (grid.points is None)
    for reason in reasons[:1]:
        complain(f"no latitudes and longitudes: {reason}", 0)
    say(heading(not reasons, has_messages))
    for line in table.lines:
        place, point, value, name = found[line.name]
        print_value(place, None if reasons else point, value, name)


def table_of(path, message, within, has_values):
    """Returns a table. Refuses options that don't fit it."""
    table = read_table(path, has_values)
    if message is not None and "message" in table.names:
        raise WrongWords(f"{path} has a column message, so --message can't be used")
    if within is not None and table.way() != ON_EARTH:
        given = "places" if table.way() == PLACE else "rows and columns"
        raise Refused(f"--within is for latitudes and longitudes, but {path} gives {given}")
    return table


def targets_of_file(source, path, table, message, within):
    """Yields the number of each message that a table is about, the message, its grid, and what the
    lines about it mean."""
    usual = "1" if message is None else message
    message_number(usual)
    groups = table.by_message(usual)
    for number, first in found_messages(source, path, groups):
        try:
            read = read_message(source, first)
            count = coding_of(read).count
        except Refused as fault:
            name = f"message {number}: " if "message" in table.names else ""
            raise Refused(f"{name}{fault}") from fault
        grid = grid_of(read, count, is_quick=table.has_values and not table.is_on_earth())
        if grid.points is None and table.is_on_earth() and table.way() != ON_EARTH:
            complain(f"the latitudes and longitudes of {table.path} are ignored: {grid.reason}", 0)
        yield number, read, grid, targets_of(table, groups[number], count, grid, within)


def part_of(part):
    """Returns the two numbers of FIRST:LEN. Returns None for the name of a table."""
    first, colon, length = part.partition(":")
    if part == "-" or os.path.exists(part) and not re.fullmatch("[0-9]+:[0-9]+", part):
        return None
    if not colon:
        raise WrongWords(f"{part} is no FIRST:LEN, and no file")
    return whole_number(first, "place"), whole_number(length, "number of values")


def coordinates_of(at):
    """Returns the point of the text LAT,LON."""
    latitude, comma, longitude = at.partition(",")
    if not comma:
        raise WrongWords(f"{at} is no LAT,LON")
    return point_of(latitude, longitude)


def degrees_of(text):
    """Returns the degrees of --within. Raises WrongWords for another text."""
    degrees = value_of(text, WrongWords)
    if degrees < 0:
        raise WrongWords(f"{text} is no distance in degrees")
    return float(degrees)


def put_values(aec, file, *words, message=None, within=None):
    """Writes a file with other values at the places of a table, or at one place. Prints each value
    before and after."""
    judge_aec(aec)
    if len(words) not in (2, 3):
        raise WrongUse
    if len(words) == 2 and words[0].isdecimal() and not os.path.exists(words[0]):
        raise WrongWords(f"{words[0]} is no file. As a PLACE it needs a VALUE and OUT after it")
    if within is not None and len(words) == 3:
        raise WrongWords("--within needs a TABLE")
    limit = None if within is None else degrees_of(within)
    if len(words) == 2:
        table = table_of(words[0], message, within, True)
    else:
        table = table_of_one(*words[:2])
    replaced, lines = [], []
    with opened(file) as source:
        for number, read, _, targets in targets_of_file(source, file, table, message, limit):
            part, said = changed(read, aec, targets)
            name = f"message {number}, " if "message" in table.names else ""
            replaced.append(part)
            lines += [f"{name}{line}" for line in said]
        inputs = [it for it in (file, table.path) if it != "-"]
        write_whole(words[-1], with_replaced(source, replaced), *inputs)
    say_written(words[-1], "\n".join(lines))


def changed(read, aec, targets):
    """Returns what replaces a message after all changes, and a line about each."""
    packing, numbers, names = packing_of(read), {}, {}  # numbers: what each place becomes
    scale = packing.scale()
    for it in targets:
        try:
            numbers[it.place] = packing.nearest(it.value, scale)
        except Refused as fault:
            raise Refused(f"{it.line.name}{fault}") from fault
        names[it.place] = f"place {it.place}{described(it.point)}"
    ordered = sorted(numbers)
    before = numbers_at(read, aec, ordered)
    script = "".join(f"overwrite {it} {packing.sample(numbers[it])}\n" for it in ordered)
    olds, news = (packing.values(map(of.get, ordered)) for of in (before, numbers))
    changes = zip(map(names.get, ordered), olds, news)
    lines = [f"{name}: {old} becomes {new}" for name, old, new in changes]
    return edited(read, aec, script.encode()), lines


def described(point):
    """Returns what a line about a change says about its point."""
    if point is None:
        return ""
    return f", latitude {point.latitude:.6f}, longitude {point.longitude:.6f}"


def take(file, stream, *, message="1"):
    """Writes the stream of a message."""
    with opened(file) as source:
        read = message_of(source, file, message)
    coding_of(read)
    write_whole(stream, read.stream(), file)


def put(aec, file, stream, out, *, message="1"):
    """Writes the file with another stream in a message."""
    judge_aec(aec)
    coded = read_file(stream)
    with opened(file) as source:
        read = message_of(source, file, message)
        judge_fit(coding_of(read), aec, coded)
        write_whole(out, with_replaced(source, [with_stream(read, coded)]), file, stream)


def edit(aec, script, file, out, *, message="1"):
    """Writes the file with a message's stream edited by a script."""
    judge_aec(aec)
    lines = read_file(script)
    with opened(file) as source:
        read = message_of(source, file, message)
        write_whole(out, with_replaced(source, [edited(read, aec, lines)]), file, script)


if __name__ == "__main__":
    perform(
        __doc__, options=options, values=values, set=put_values, take=take, put=put, edit=edit
    )
