"""The verbs diff, pixels, fit, view and rescue."""

from __future__ import annotations

import argparse
import os
import stat
import sys
from dataclasses import replace
from functools import partial
from typing import Any, Optional

from aecp._console import Console, shown
from aecp.archive import _fitting, _restoring, _showing
from aecp.archive._asked import (
    Wrong,
    dealt,
    given_in,
    guarded,
    input_of,
    one_kept,
    options_of,
    part_of,
    say_passed,
    shape_of,
)
from aecp.archive._file import ArchiveFile, opened
from aecp.archive._form import Damaged, Refused
from aecp.archive._headers import layout_of
from aecp.archive._originals import original, read_all
from aecp.archive._paths import Found, Passed, originals
from aecp.archive._tables import grid_of, script_of
from aecp.calls import decode_range_bytes
from aecp.options import Options


def do_diff(asked: argparse.Namespace, console: Console) -> int:
    shape = shape_of(asked)

    def work() -> int:
        with opened(one_kept(asked.first), asked.limit) as first:
            return guarded(console, asked.second, lambda: compare(first))

    def compare(first: Any) -> int:
        with opened(one_kept(asked.second), asked.limit) as second:
            say_difference(asked, console, _showing.compared(first, second, shape))
        return 0

    return guarded(console, asked.first, work)


def say_difference(asked: argparse.Namespace, console: Console, it: _showing.Compared) -> None:
    """Prints how two lists of samples differ."""
    is_script = asked.script or len(it.before) != len(it.after)
    names = _showing.names_between(it)
    if is_script and asked.json:
        console.say_json({"script": b"".join(_showing.script_between(it)).decode("ascii")})
    elif is_script or (it.grid is None and not asked.json):
        for line in _showing.script_between(it):
            console.write(line)
    elif asked.json:
        table = _showing.table_between(it)
        rows = [dict(zip(names, [*cell, new, old])) for cell, new, old in table]
        console.say_json({"differences": rows})
    else:
        console.say(",".join(names))
        for cell, new, old in _showing.table_between(it):
            console.say(",".join(map(str, [*cell, new, old])))


def do_pixels(asked: argparse.Namespace, console: Console) -> int:
    shape = shape_of(asked)
    if shape is not None and grid_of(shape) is None:
        raise Wrong("--shape: rows and columns are needed, such as 512x512")

    def work() -> int:
        text = input_of(asked.table).decode("utf-8-sig", "replace")
        console.write(script_of(text, grid_of(shape), asked.frame).encode())
        return 0

    return guarded(console, asked.table, work)


def do_fit(asked: argparse.Namespace, console: Console) -> int:
    given = frozenset(given_in(asked))
    options = options_of(asked)
    if asked.stream is not None:
        return fit_stream(asked, console, options, given)
    passed: list[Passed] = []
    found = list(originals(asked.paths, [], [], passed))
    status = say_passed(console, passed)
    if "bits" not in given and len(found) == 1:
        options, given = guess(console, found[0], options, given)
    total, number = None, 0
    how = _fitting.Fitting(options, given, asked.all)
    for it, outcome in dealt(asked, console, partial(_fitting.fit, how), found):
        if outcome.said:
            status = console.complain(f"{shown(it.name)}: {outcome.said}")
            continue
        sizes, number = outcome.more["sizes"], number + 1
        if total is None:
            total = sizes
        else:
            total.add(sizes)
    if total is None:
        return status or console.complain("no files")
    if asked.json:
        console.say_json(_fitting.fit_json(total, number))
    else:
        console.say("\n".join(_fitting.table(total, number)))
    return status


def guess(
    console: Console, found: Found, options: Options, given: frozenset[str]
) -> tuple[Options, frozenset[str]]:
    """Returns options with guessed bits for a file without a header, and says so."""
    try:
        with original(found.path) as file:
            if layout_of(file) is not None:
                return options, given
            file.seek(0)
            best = _fitting.guessed_bits(read_all(file, 1 << 20))
    except (OSError, Refused):
        return options, given
    text = f"samples of {best.bits} bits{' with -m' if best.msb_first else ''}"
    console.notice(f"-n isn't given; the start of the file takes the fewest bytes as {text}")
    made = replace(options, bits=best.bits, msb_first=best.msb_first)
    return made, given | {"bits"}


def fit_stream(
    asked: argparse.Namespace, console: Console, options: Options, given: frozenset[str]
) -> int:
    """Prints the options that decode a plain stream."""
    if len(asked.paths) != 1 or asked.msb_first or asked.three_byte or asked.signed:
        text = "-m and -3 change nothing in a stream, and both signs are tried anyway"
        raise Wrong(f"--stream needs one file; {text}")
    path = asked.paths[0]

    def work() -> int:
        stream = input_of(path)
        found = _fitting.readings(stream, asked.stream, options, given)
        if asked.json:
            console.say_json(_fitting.stream_json(found))
        else:
            console.say("\n".join(_fitting.stream_lines(found, asked.stream)))
        return 0

    return guarded(console, path, work)


def do_view(asked: argparse.Namespace, console: Console) -> int:
    part = part_of(asked)
    if asked.frame is not None and part is not None:
        raise Wrong("--frame and --range exclude each other")
    options = options_of(asked) if asked.bits is not None else None
    if options is not None and asked.width is None:
        raise Wrong("-n needs --width too")

    def work() -> int:
        if options is not None:
            picture = plain_picture(asked, options, part)
        else:
            picture = kept_picture(asked, part)
        console.say(_showing.draw(picture, asked.out))
        return 0

    return guarded(console, asked.file, work)


def plain_picture(
    asked: argparse.Namespace, options: Options, part: Optional[tuple[int, int]]
) -> _showing.Picture:
    """Returns what is drawn of a plain stream."""
    first, length = part or (0, None)
    data = plain_samples(input_of(asked.file), asked.count, first, length, options)
    samples = _showing.listed(data, options)
    return _showing.Picture(samples, options.bits, asked.width, asked.min, asked.max)


def kept_picture(
    asked: argparse.Namespace, part: Optional[tuple[int, int]]
) -> _showing.Picture:
    """Returns what is drawn of a kept file. Raises Refused if it is too much for a picture."""
    with opened(one_kept(asked.file), asked.limit) as kept:
        options = kept.facts.options
        first, length, width = _showing.part_to_view(kept.facts, asked.width, asked.frame, part)
        if length > _showing.MOST_PIXELS:
            text = f"{length} samples are no picture"
            raise Refused(f"{text}: take a part by --frame K or --range FIRST:LEN")
        data = b"".join(kept.pieces(first, length)) if length else b""
    samples = _showing.listed(data, options)
    return _showing.Picture(samples, options.bits, width, asked.min, asked.max)


def plain_samples(
    stream: bytes, count: Optional[int], first: int, length: Optional[int], options: Options
) -> Any:
    """Returns samples of a plain stream."""
    if length is None:
        return _showing.plain(stream, count, options)
    return decode_range_bytes(stream, count, first, length, options)


def do_rescue(asked: argparse.Namespace, console: Console) -> int:
    part = part_of(asked)
    options = options_of(asked) if asked.bits is not None else None
    if asked.count is not None and options is None:
        raise Wrong("--count needs -n: without -n the file's own count is taken")
    if part is not None and options is not None:
        raise Wrong("--range and -n exclude each other: the index of the file finds the range")
    if "-" == asked.out == asked.ranges:
        raise Wrong("only one of OUT and --ranges can be standard output")

    def work() -> int:
        rescued = rescue_file(asked, part, options)
        text = f"{shown(asked.file)}: {rescued.text}"
        value = _restoring.rescued_json(asked.file, rescued)
        if asked.ranges is not None:
            write_ranges(asked.ranges, value["lost"])
        if asked.json:
            console.say_json(value)
        elif "-" in (asked.out, asked.ranges):
            console.complain(text)
        else:
            console.say(text)
        return int(bool(rescued.lost))

    return guarded(console, asked.file, work)


def rescue_file(
    asked: argparse.Namespace, part: Optional[tuple[int, int]], options: Optional[Options]
) -> _restoring.Rescued:
    """Rescues the samples of a kept file, or of a plain stream if options are given."""
    if options is not None:
        stream = regular_bytes(asked.file)
        with _restoring.output_or_none(asked.out) as file:
            return _restoring.rescue_stream(stream, asked.count, options, file, asked.fill)
    try:
        with opened(one_kept(asked.file), asked.limit) as kept:
            with _restoring.output_or_none(asked.out) as file:
                if has_index(kept):
                    return _restoring.rescue(kept, file, asked.fill, part)
                if part is not None:
                    raise Refused("its index is damaged: leave --range away")
                return _restoring.rescue_without_index(kept, file, asked.fill)
    except Damaged as error:
        text = f"{error}. Give -n, --count and the other options, if you know them"
        raise Refused(text) from None


def has_index(kept: ArchiveFile) -> bool:
    """Returns whether the index of a kept file is sound."""
    try:
        return len(kept.index) >= 0
    except Damaged:
        return False


def regular_bytes(path: str) -> bytes:
    """Returns the bytes of a regular file; - is standard input."""
    if path == "-":
        return sys.stdin.buffer.read()
    if not stat.S_ISREG(os.stat(path).st_mode):
        raise Refused("it is no plain file")
    return input_of(path)


def write_ranges(path: str, lost: list[dict[str, int]]) -> None:
    """Writes the list of lost ranges."""
    lines = ",\n ".join(f'{{"first": {it["first"]}, "length": {it["length"]}}}' for it in lost)
    with _restoring.output(path) as file:
        file.write(f"[{lines}]\n".encode("ascii"))
