"""Tables of values that grib_ccsds.py reads, on messages of a small grid that the tests make
themselves: by `set`, by `values`, and of several messages. Needs no eccodes."""

import os
import struct

from lib.program import Program
from lib.recipe_calls import called, hiding
from lib.recipe_messages import GRIB, HEAD, message, section
from lib.recipe_starts import try_closed_output, try_no_output
from lib.settings import Settings

import grib_ccsds

# Octets 15 to 72 of section 3, template 3.0: 4 columns from 10 degrees east to 25, 2 rows from 50
# degrees north to 40, row by row from the north.
SMALL_GRID = bytes(16) + struct.pack(">IIII", 4, 2, 0, 0xFFFFFFFF)
CORNERS = 50000000, 10000000, 48, 40000000, 25000000
SMALL_GRID += struct.pack(">IIBIIII", *CORNERS, 5000000, 10000000) + b"\0"
POINTS = [f"{north}.000000 {east}.000000" for north in (50, 40) for east in (10, 15, 20, 25)]
HELD = 0, 2, 3, 4, 5, 6  # the points that the bitmap of `masked` keeps
STEP = 2.0**-9  # of the packing
SETTINGS = Settings(bits=8, block_size=8, interval=2)


def with_grid(data, grid, points, bitmap=b"\xff", template=0):
    """Returns a message with another section 3, of so many points, and another section 6."""
    head = struct.pack(">BIBBH", 0, points, 0, 0, template)
    other = data.replace(section(3, bytes(67)), section(3, head + grid))
    other = other.replace(section(6, b"\xff"), section(6, bitmap))
    return other[:8] + struct.pack(">Q", len(other)) + other[HEAD:]


def small_messages(aec, samples=range(8)):
    """Returns a message of 2 rows and 4 columns, the same with a bitmap, and one whose section 3
    has no points. The samples are 0 to 7, or the given ones."""
    stream = aec.answer(SETTINGS.options(), bytes(samples))
    few = aec.answer(SETTINGS.options(), bytes(list(samples)[:6]))
    plain = message(stream, 8, SETTINGS, 8)
    without_1_and_7 = b"\0\xbe"
    masked = with_grid(message(few, 6, SETTINGS, 8), SMALL_GRID, 8, without_1_and_7)
    return with_grid(plain, SMALL_GRID, 8), masked, plain


def changed(place, point=None):
    """Returns the line about a place whose value becomes 250."""
    where = "" if point is None else ", latitude {}, longitude {}".format(*POINTS[point].split())
    return f"place {place}{where}: {250 + place * STEP} becomes 250.0\n"


def try_accepted(aec, tally):
    """Tests tables in all their forms."""
    good, masked, plain = small_messages(aec)
    for data, text, wanted in (
        (good, b"place value\n3 250\n0 250\n", changed(0, 0) + changed(3, 3)),
        (good, b"# spikes\n\nrow,column,value\n1,2,250\n", changed(6, 6)),
        (good, b"Latitude;Longitude;Value\n41;-346;250\n", changed(5, 5)),
        (good, b"row latitude longitude value\n9 41 -346 250\n", changed(5, 5)),
        (good, b"place latitude longitude value\n5 40 15 250\n", changed(5, 5)),
        (good, b"place latitude longitude value\n5 40.00 15.00 250\n", changed(5, 5)),
        (good, b"place latitude longitude value\n5 40.0004 -344.9996 250\n", changed(5, 5)),
        (good, b"row column latitude longitude value\n1 1 40 15 250\n", changed(5, 5)),
        (good, b"place,latitude,longitude,value\n5,,,250\n", changed(5, 5)),
        (good, b"\xef\xbb\xbfplace;value\r\n3;250\r\n", changed(3, 3)),
        (good, b"station, place, value, remark\nSan Marino, 3, 250,\n", changed(3, 3)),
        (good, b"station\tplace\tvalue\nSan Marino, RSM\t3\t250\n", changed(3, 3)),
        (good, b"place\tvalue\tx;y\n3\t250\t1;2\n", changed(3, 3)),
        (good, b"place;value;x,y\n3;250;1,2\n", changed(3, 3)),
        (good, b'"place","value"\n"3","250"\n', changed(3, 3)),
        (good, b"place value\n3 +2.5E2\n", changed(3, 3)),
        (good, b"place row column value\n5 1 1 250\n3 0 3 250\n", changed(3, 3) + changed(5, 5)),
        (good, b"place,row,column,value\n5,,,250\n", changed(5, 5)),
        (good, b"place row value\n5 x 250\n", changed(5, 5)),
        (masked, b"place row column value\n0 0 0 250\n1 0 2 250\n", changed(0, 0) + changed(1, 2)),
        (plain, b"place row column value\n7 9 9 250\n", changed(7)),
        (masked, b"row\tcolumn\tvalue\r\n1\t2\t250\r\n", changed(5, 6)),
        (masked, b"latitude longitude value\n59 24 250\n", changed(2, 3)),
        (masked, b"place value\n1 250\n", changed(1, 2)),
        (plain, b"value place\n250 7\n", changed(7)),
        (plain, b"place latitude longitude value\n7 1 2 250\n", changed(7)),
    ):
        aec.write("m", data)
        aec.write("t", text)
        paths = [aec.file(it) for it in "mto"]
        tally.check(f"table {text}", called(grib_ccsds.put_values, aec.path, *paths), (0, wanted))


def try_refused(aec, tally):
    """Tests tables that are refused, each with the beginning of the reason."""
    good, masked, plain = small_messages(aec)
    second, first = "line 2 of {t}: ", "the first line of {t}"
    far = "the nearest point, 50.000000 10.000000, is 10.1 degrees away, but a step of the grid is 10"
    for data, text, wanted in (
        (good, b"place value\n3 250\n8 250\n", "line 3 of {t}: there is no place 8: the last one is 7"),
        (good, b"place value\n3 250\n\n3 250.1\n", "line 4 of {t}: place 3 is also that of line 2"),
        (good, b"place value\n3 249.9\n", f"{second}249.9 doesn't fit the packing"),
        (good, b"place value\n3 x\n", f"{second}x is no value"),
        (good, b"place value\n3 nan\n", f"{second}nan is no value"),
        (good, b"place value\n3 -inf\n", f"{second}-inf is no value"),
        (good, b"place value\n3 1/3\n", f"{second}1/3 is no value"),
        (good, b"place value\n3 1e400\n", f"{second}1e400 is too large"),
        (good, b"place value\n3 1e999999999\n", f"{second}1e999999999 is no value"),
        (good, b"place value\n3 0." + b"1" * 5000, f"{second}0.1111"),
        (good, b"place value\n" + b"1" * 5000 + b" 250", f"{second}1111"),
        (good, b"place value\n-3 250\n", f"{second}-3 is no place"),
        (good, b"place value\n3\n", "line 2 of {t} has 1 entries, not 2"),
        (good, b"place;value\n3;280,5\n", f"{second}280,5 has a comma: write decimals with a point"),
        (good, b"place value\n3 280,5\n", f"{second}280,5 has a comma"),
        (good, b"place\tvalue\n3\t1.280,5\n", f"{second}1.280,5 has a comma"),
        (good, b"latitude;longitude;value\n40;15,0;250\n", f"{second}15,0 has a comma"),
        (good, b"place,value\n3,250,5\n", "line 2 of {t} has 3 entries, not 2"),
        (good, b"place,value\n3;250\n", "line 2 of {t} has 1 entries, not 2"),
        (good, b"place,value\n,250\n", f"{second}the place is empty"),
        (good, b"place,value\n3,\n", f"{second}the value is empty"),
        (good, b"latitude,longitude,value\n40,,250\n", f"{second}the longitude is empty"),
        (good, b"place,message,value\n3,,250\n", f"{second}the message is empty"),
        (good, b"place,value,value\n3,250,250\n", f"{first} has two columns value"),
        (good, b"3 250\n", f"{first} must name the columns"),
        (good, b"row value\n3 250\n", f"{first} must name the columns"),
        (good, b"place latitude\n3 250\n", f"{first} must name the columns: value and place"),
        (good, b"place value\n", "{t} has no values"),
        (good, b"", "{t} has no values"),
        (good, b"row column value\n0 4 250\n", f"{second}there is no row 0 with a column 4"),
        (good, b"row column value\n2 0 250\n", f"{second}there is no row 2 with a column 0"),
        (good, b"latitude longitude value\n91 0 250\n", f"{second}91 0 is no place"),
        (good, b"latitude longitude value\n50 10 250\n60.1 10 250\n", f"line 3 of {{t}}: {far}"),
        (good, b"place latitude longitude value\n2 50 25 250\n", f"{second}place 2 lies at 50.000000 20.000000, not at 50 25"),
        (good, b"place latitude longitude value\n2 50.01 20 250\n", f"{second}place 2 lies at"),
        (good, b"place latitude longitude value\n2 50.001 20 250\n", f"{second}place 2 lies at"),
        (good, b"place latitude longitude value\n2 500.3e-1 20 250\n", f"{second}place 2 lies at"),
        (good, b"place row column value\n5 1 2 250\n", f"{second}place 5 is row 1, column 1, not row 1, column 2"),
        (good, b"place row column value\n4 0 4 250\n", f"{second}place 4 is row 1, column 0, not row 0, column 4"),
        (good, b"place row column value\n5 1 x 250\n", f"{second}x is no column"),
        (masked, b"place row column value\n1 0 1 250\n", f"{second}place 1 is row 0, column 2, not row 0, column 1"),
        (good, b"row column latitude longitude value\n1 1 40 20 250\n", f"{second}place 5 lies at"),
        (masked, b"row column value\n0 1 250\n", f"{second}row 0, column 1, 50.000000 15.000000, has no value"),
        (masked, b"latitude longitude value\n40.5 25 250\n", f"{second}the nearest point, 40.000000 25.000000, has no value"),
        (masked, b"place value\n6 250\n", f"{second}there is no place 6: the last one is 5"),
        (plain, b"row column value\n0 0 250\n", f"{second}the points of this grid"),
        (plain, b"latitude longitude value\n0 0 250\n", f"{second}where the points lie"),
    ):
        aec.write("m", data)
        aec.write("t", text)
        aec.write("o", b"old")
        paths = [aec.file(it) for it in "mto"]
        status, said = called(grib_ccsds.put_values, aec.path, *paths)
        is_so = status == 1 and said.startswith(wanted.format(t=paths[1])) and aec.read("o") == b"old"
        tally.holds(is_so, f"table {text[:99]}: {said[:200]}")


def try_within(aec, tally):
    """Tests --within, tables that --within isn't for, and a table that is also OUT."""
    paths = [aec.file(it) for it in "mto"]
    aec.write("m", small_messages(aec)[0])
    aec.write("t", b"latitude longitude value\n60.1 10 250\n")
    for within, wanted in (("10.2", 0), ("10", 1)):
        aec.write("o", b"old")
        status, said = called(grib_ccsds.put_values, aec.path, *paths, within=within)
        is_so = status == wanted and (aec.read("o") == b"old") == (status == 1)
        tally.holds(is_so, f"within {within}: {status} {said}")
    for text, given in (
        (b"place latitude longitude value\n5 40 15 250\n", "places"),
        (b"row column value\n1 2 250\n", "rows and columns"),
    ):
        aec.write("t", text)
        wanted = f"--within is for latitudes and longitudes, but {paths[1]} gives {given}"
        for action, words in ((grib_ccsds.put_values, paths), (grib_ccsds.values, paths[:2])):
            answer = called(action, aec.path, *words, within="1")
            tally.check(f"within, for {given}", answer, (1, wanted))
    answer = called(grib_ccsds.put_values, aec.path, *paths[:2], paths[1])
    tally.check("a table as OUT: status", answer[0], 1)


def listed(places, points=POINTS):
    """Returns what `values` prints for these places of the message with a bitmap."""
    lines = (f"{it} {points[HELD[it]]} {250 + it * STEP}\n" for it in places)
    return f"place latitude longitude value\n{''.join(lines)}"


def try_listed(aec, tally):
    """Tests `values` on a message with a bitmap: all, a part, the nearest point, and the points of
    a table."""
    source, table = aec.file("m"), aec.file("t")
    aec.write("m", small_messages(aec)[1])
    tally.check("all values", called(grib_ccsds.values, aec.path, source), (0, listed(range(6))))
    for first in range(6):
        answer = called(grib_ccsds.values, aec.path, source, f"{first}:2")
        is_so = answer[0] == 1 if first == 5 else answer == (0, listed([first, first + 1]))
        tally.holds(is_so, f"2 values, from place {first}: {answer}")
    far = "the nearest point, 50.000000 10.000000, is 10.1 degrees away, but a step of the grid is 10"
    # The distance from 50 N 15.2 E to 50 N 20 E: 2 asin(cos 50 sin 2.4) = 3.0849 degrees.
    missing = "the nearest point, 50.000000 15.000000, has no value: the bitmap leaves it out; "
    missing += "the nearest point with a value, 50.000000 20.000000, is 3.08"
    for at, within, place, text in (
        ("49,-336", None, 2, ""),
        ("39.9,19.9", "0.2", 5, ""),
        ("50,15.2", None, None, missing),
        ("60.1,10", None, None, far),
        ("60.1,10", "10.2", 0, ""),
    ):
        answer = called(grib_ccsds.values, aec.path, source, at=at, within=within)
        is_so = answer[0] == 1 and answer[1].startswith(text) if text else answer == (0, listed([place]))
        tally.holds(is_so, f"values --at {at} --within {within}: {answer}")
    for text, wanted in (
        (b"place\n3\n0\n3\n", (0, listed([3, 0, 3]))),
        (b"latitude longitude value\n49 24 x\n41 11 ?\n", (0, listed([2, 3]))),
        (b"row,column\n1,2\n", (0, listed([5]))),
        (b"place latitude longitude\n1 50 20\n", (0, listed([1]))),
        (b"place latitude longitude\n1 50 15\n", (1, f"line 2 of {table}: place 1 lies at 50.000000 20.000000, not at 50 15")),
        (b"place\n6\n", (1, f"line 2 of {table}: there is no place 6: the last one is 5")),
        (b"value\n6\n", (1, f"the first line of {table} must name the columns: place, or row and column, or latitude and longitude")),
        (b"place\n", (1, f"{table} has no lines")),
    ):
        aec.write("t", text)
        tally.check(f"values of {text}", called(grib_ccsds.values, aec.path, source, table), wanted)


def try_printed_tables(aec, script, tally):
    """Tests that what `values` prints is a table for `set` and for `values`, by pipes."""
    for name, data in zip(("good", "masked", "plain"), small_messages(aec)):
        aec.write("m", data)
        printed = script.run(GRIB, "values", aec.path, "m")[1].encode()
        note = b"grib_ccsds.py: no latitudes and longitudes: the grid has 0 points, but there are 8 values\n"
        is_so = printed.endswith(note) if name == "plain" else b"grib_ccsds.py" not in printed
        tally.holds(is_so, f"values of {name}: {printed}")
        table = printed.replace(note, b"")
        status, said = script.run(GRIB, "values", aec.path, "m", "-", input=table)
        tally.check(f"values of {name}, a table", (status, said.encode()), (0, printed))
        status, said = script.run(GRIB, "set", aec.path, "m", "-", "o", input=table)
        is_so = status == 0 and aec.read("o") == data
        tally.holds(is_so, f"values of {name}, set: {status}, {said}")
    aec.write("t", b"place latitude longitude value\n7 1 2 250\n")
    answer = script.run(GRIB, "set", aec.path, "m", "t", "o")
    note = "grib_ccsds.py: the latitudes and longitudes of t are ignored: the grid has 0 points, but there are 8 values\n"
    tally.check("a place with an unknown point", answer, (0, f"{changed(7)}{note}"))
    answer = script.run(GRIB, "set", aec.path, "m", "t", "-")
    tally.holds(answer[0] == 2 and "- is no name of a file" in answer[1], f"OUT -: {answer}")


def try_messages(aec, script, tally):
    """Tests tables about several messages of a file: all lines apply, or none."""
    messages, others = small_messages(aec), small_messages(aec, [0, 0, *range(2, 8)])
    old = b"GRIB\0\0\x20\1" + b"GRIB" * 6
    parts = [b"HEADING\r\r\n", messages[0], b"between", old, messages[1], b"\r\n", messages[2], b"after"]
    aec.write("m", b"".join(parts))
    aec.write("t", b"message,row,column,value\n3,0,2,250\n1,0,1,250\n")
    answer = script.run(GRIB, "set", aec.path, "m", "t", "o")
    lines = f"message 1, {changed(1, 1)}message 3, {changed(1, 2)}"
    tally.check("two messages", answer, (0, lines))
    wanted = b"".join([*parts[:1], others[0], *parts[2:4], others[1], *parts[5:]])
    tally.check("two messages: the file", aec.read("o"), wanted)
    aec.write("t", b"place message\n1 4\n0 3\n2 1\n")
    wanted = f"message place value\n4 1 {250 + STEP}\n3 0 250.0\n1 2 {250 + 2 * STEP}\n"
    answer = called(grib_ccsds.values, aec.path, aec.file("m"), aec.file("t"))
    tally.check("values of three messages", answer, (0, wanted))
    aec.write("t", b"place message\n1 3\n0 3\n2 1\n")
    wanted = f"message place latitude longitude value\n3 1 {POINTS[2]} {250 + STEP}\n"
    wanted += f"3 0 {POINTS[0]} 250.0\n1 2 {POINTS[2]} {250 + 2 * STEP}\n"
    answer = called(grib_ccsds.values, aec.path, aec.file("m"), aec.file("t"))
    tally.check("values of two messages", answer, (0, wanted))
    for text, words, status, said in (
        ("message place value\n1 1 250\n3 7 250\n", [], 1, "line 3 of t: there is no place 7: the last one is 5"),
        ("message place value\n1 1 250\n5 1 250\n", [], 1, "m has 4 messages, none with the number 5"),
        ("message place value\n1 1 250\n2 1 250\n", [], 1, "message 2: the message has edition 1, not 2"),
        ("message place value\n1 1 250\n0 1 250\n", [], 1, "line 3 of t: 0 is no number of a message"),
        ("message place value\n1 1 250\n1 1 251\n", [], 1, "line 3 of t: place 1 is also that of line 2"),
        ("message place value\n1 1 250\n", ["--message", "1"], 2, "t has a column message, so --message can't be used"),
        ("place value\n1 250\n", ["--message", "0"], 2, "0 is no number of a message"),
    ):
        aec.write("t", text.encode())
        aec.write("o", b"old")
        answer = script.run(GRIB, "set", aec.path, "m", "t", "o", *words)
        is_so = answer[0] == status and said in answer[1] and answer[1].count("\n") == 1
        tally.holds(is_so and aec.read("o") == b"old", f"table {text!r} {words}: {answer}")


def try_columns_first(aec, script, tally):
    """Tests that points of a regular grid that is stored column by column need eccodes' Python."""
    hidden = hiding(aec.folder, "eccodes", "gribapi")
    for mode in (32, 96, 160, 224):
        aec.write("m", with_grid(small_messages(aec)[2], SMALL_GRID[:-1] + bytes([mode]), 8))
        answer = script.run(GRIB, "values", aec.path, "m", "3:1", env=hidden)
        is_so = answer[0] == 0 and "this grid needs eccodes' Python module" in answer[1]
        tally.holds(is_so, f"scanning mode {mode}: {answer}")


FAILING = """class CodesInternalError(Exception):
    pass
def codes_new_from_message(_):
    raise CodesInternalError("it failed")
"""


def try_unknown_grids(aec, script, tally):
    """Tests what is said about grids whose points aren't known, without eccodes' Python and with one
    that fails: Lambert's projection with two scanning modes, and a grid of triangles."""
    plain, fake = small_messages(aec)[2], aec.file("fake")
    os.makedirs(fake, exist_ok=True)
    aec.write("fake/eccodes.py", FAILING.encode())
    hidden, failing = hiding(aec.folder, "eccodes", "gribapi"), {**os.environ, "PYTHONPATH": fake}
    lambert = bytes(16) + struct.pack(">II", 4, 2) + bytes(26)  # up to octet 64
    rows = "places, or rows and columns"
    needed = "this grid needs eccodes' Python module (Debian: python3-eccodes), but No module named 'eccodes'"
    for template, grid, environment, reason, ways in (
        (30, lambert + bytes([64]), hidden, needed, rows),
        (30, lambert + bytes([64]), failing, "eccodes can't list its points: it failed", rows),
        (30, lambert + bytes([0]), failing, "grid template 3.30 with scanning mode 0 isn't supported", rows),
        (30, lambert + bytes([16]), hidden, "grid template 3.30 with scanning mode 16 isn't supported", "places"),
        (30, lambert, hidden, "grid template 3.30 isn't supported", "places"),
        (40, SMALL_GRID[:-1] + b"\x20", failing, "grid template 3.40 with scanning mode 32 isn't supported", "places"),
        (0, SMALL_GRID[:-1] + b"\x10", failing, "grid template 3.0 with scanning mode 16 isn't supported", "places"),
        (101, bytes(21), failing, "grid template 3.101 isn't supported", "places"),
    ):
        aec.write("m", with_grid(plain, grid, 8, template=template))
        answer = script.run(GRIB, "values", aec.path, "m", "3:1", env=environment)
        wanted = f"place value\n3 {250 + 3 * STEP}\ngrib_ccsds.py: no latitudes and longitudes: {reason}\n"
        tally.check(f"values: {reason}", answer, (0, wanted))
        answer = script.run(GRIB, "values", aec.path, "m", "--at", "48,16", env=environment)
        wanted = f"where the points lie isn't known: {reason}. Give {ways}\n"
        tally.check(f"values --at: {reason}", answer, (1, f"grib_ccsds.py: {wanted}"))
        aec.write("t", b"latitude longitude value\n48 16 250\n")
        answer = script.run(GRIB, "set", aec.path, "m", "t", "o", env=environment)
        tally.check(f"set: {reason}", answer, (1, f"grib_ccsds.py: line 2 of t: {wanted}"))
        aec.write("t", b"row column value\n1 2 250\n")
        answer = script.run(GRIB, "set", aec.path, "m", "t", "o", env=environment)
        if ways == rows:
            tally.check(f"set by row: {reason}", answer, (0, changed(6)))
        else:
            wanted = f"line 2 of t: the points of this grid lie in no known rows: {reason}. Give places\n"
            tally.check(f"set by row: {reason}", answer, (1, f"grib_ccsds.py: {wanted}"))


def try_large(aec, script, tally):
    """Tests that a file is read and written in parts: with a gap of 512 MiB between two messages,
    and half as much memory. Also tests that `values` ends quietly if nobody reads all of it."""
    count = 40000
    stream = aec.answer(SETTINGS.options(), bytes(range(200)) * (count // 200))
    row = SMALL_GRID[:16] + struct.pack(">II", count, 1) + SMALL_GRID[24:]
    one = with_grid(message(stream, count, SETTINGS, 8), row, count)
    with open(aec.file("m"), "wb") as file:
        file.write(one)
        file.seek(1 << 29, os.SEEK_CUR)
        file.write(one)
    shell = Program("/bin/sh", aec.folder)
    limited = ["-c", 'ulimit -v 262144; exec "$@"', "sh", script.path, GRIB]
    words = ["set", aec.path, "m", "39999", "250", "/dev/null", "--message", "2"]
    answer = shell.run(*limited, *words)
    wanted = f"place 39999, latitude 50.000000, longitude 25.000000: {250 + 199 * STEP} becomes 250.0\n"
    tally.check("a large file", answer, (0, wanted))
    aec.write("m", one)
    try_closed_output([GRIB, "values", aec.path, "m"], script, tally)
    aec.write("m", small_messages(aec)[0])
    aec.write("t", b"place value\n3 250\n")
    try_no_output(aec, script, tally)


def try_tables(aec, script, tally):
    """Runs all tests of this file."""
    try_accepted(aec, tally)
    try_refused(aec, tally)
    try_within(aec, tally)
    try_listed(aec, tally)
    try_printed_tables(aec, script, tally)
    try_messages(aec, script, tally)
    try_columns_first(aec, script, tally)
    try_unknown_grids(aec, script, tally)
    try_large(aec, script, tally)
