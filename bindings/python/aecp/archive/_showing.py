"""The verbs info, log, diff and view: show what a kept file contains."""

from __future__ import annotations

import os
import struct
import sys
import zlib
from array import array
from collections.abc import Iterator, Sequence
from typing import Any, NamedTuple, Optional

from aecp._console import shown
from aecp.archive._file import ArchiveFile
from aecp.archive._form import Facts, Refused, Source, State
from aecp.archive._history import Entry
from aecp.archive._outcomes import shape_text, words_of
from aecp.archive._restoring import in_range, output
from aecp.archive._scripts import Store, change_of, difference, differing_runs
from aecp.archive._tables import Grid, cell_of, grid_of, named
from aecp.calls import decode_bytes
from aecp.options import FLAGS, NUMBERS, Options

MOST_PIXELS = 1 << 26
SAMPLED = 1 << 16  # samples that the percentiles of a picture are found from
LEAST, MOST = 0.005, 0.995  # the shares of samples that are darker than black and than white
TABLED_BITS = 16  # samples of at most so many bits become grey by a table
NATIVE = ">" if sys.byteorder == "big" else "<"


def options_json(options: Options) -> dict[str, Any]:
    """Returns options as JSON has them."""
    return {name: getattr(options, name) for name in NUMBERS + FLAGS}


def state_json(state: Optional[State]) -> Optional[dict[str, Any]]:
    """Returns a state as JSON has it."""
    if state is None:
        return None
    samples, stream = state.samples, state.stream
    return {
        "samples": {"count": state.count, "bytes": samples.bytes, "sha256": samples.sha256},
        "stream": {"bytes": stream.bytes, "sha256": stream.sha256},
    }


def source_json(source: Source) -> dict[str, Any]:
    """Returns what is recorded of an original as JSON."""
    return {"bytes": source.bytes, "sha256": source.sha256, "mtime_ns": source.mtime_ns}


def info_json(path: str, kept: ArchiveFile) -> dict[str, Any]:
    """Returns what a kept file says of itself."""
    facts, source = kept.facts, kept.facts.source
    return {
        "file": path,
        "bytes": kept.size,
        "options": options_json(facts.options),
        "words": f"--count {facts.count} {words_of(facts.options)}",
        "shape": list(facts.shape) if facts.shape is not None else None,
        "dtype": facts.dtype,
        **(state_json(facts.state) or {}),
        "source": source and source_json(source),
        "written": facts.written,
        "written_by": facts.written_by,
        "entries": len(kept.history()),
    }  # fmt: skip


def info_lines(kept: ArchiveFile) -> list[str]:
    """Returns what a kept file says of itself, in lines of text."""
    facts, history = kept.facts, kept.history()
    edits = sum(entry.what == "edit" for entry in history)
    undone = sum(entry.what == "undo" for entry in history)
    samples, stream = facts.samples, facts.stream
    ratio = f", {100 * stream.bytes / samples.bytes:.1f} %" if samples.bytes else ""
    lines = [
        f"options  --count {facts.count} {words_of(facts.options)}",
        f"samples  {facts.count}, {samples.bytes} bytes, SHA-256 {samples.sha256}",
        f"stream   {stream.bytes} bytes{ratio}, SHA-256 {stream.sha256}",
    ]
    if facts.shape is not None or facts.dtype is not None:
        lines.append(f"shape    {shape_text(facts)}")
    if facts.source is not None:
        head, tail = len(facts.source.head), len(facts.source.tail)
        sides = f", {head} before the samples and {tail} after them" if head or tail else ""
        lines.append(f"source   {facts.source.bytes} bytes{sides}")
    lines.append(f"written  {facts.written} by {facts.written_by}")
    return [*lines, f"history  {edits} edits, {undone} undone"]


def log_lines(history: Sequence[Entry]) -> list[str]:
    """Returns what was done to a kept file, a line for each entry."""
    undone = {entry.edit for entry in history if entry.what == "undo"}
    return [f"{i}  {it.when}  {entry_text(history, i, undone)}" for i, it in enumerate(history)]


def entry_text(history: Sequence[Entry], place: int, undone: set[Optional[int]]) -> str:
    """Returns the text for an entry."""
    it = history[place]
    after = it.after
    size = f"{after.count} samples, {after.stream.bytes} bytes" if after else ""
    if it.what == "edit":
        later = ", undone later" if place in undone else ""
        return f"edit: {it.samples_changed} samples changed, {size}{later}"
    if it.what == "undo":
        return f"undo: edit {it.edit if it.edit is not None else '(forgotten)'} is undone, {size}"
    if it.what == "forget":
        return f"forget: {it.entries} older entries were dropped"
    return f"{it.what}: {size}"


def log_json(history: Sequence[Entry]) -> list[dict[str, Any]]:
    """Returns what was done to a kept file as JSON."""
    return [
        {
            "entry": i,
            "what": it.what,
            "when": it.when,
            "by": it.by,
            "before": state_json(it.before),
            "after": state_json(it.after),
            "samples_changed": it.samples_changed,
            "edit": it.edit,
            "entries": it.entries,
            "can_be_undone": it.inverse is not None,
        }
        for i, it in enumerate(history)
    ]


def script_in(history: Sequence[Entry], place: int, options: Options) -> bytes:
    """Returns the script of an edit."""
    script = history[place].script if 0 <= place < len(history) else None
    if script is None:
        raise Refused(f"the history has no edit {place}: `aecp log` lists them")
    return script.text(options)


def all_samples(kept: ArchiveFile) -> bytes:
    """Returns all stored samples of a kept file. Raises Damaged if one of its groups is."""
    return b"".join(kept.pieces())


class Compared(NamedTuple):
    """The samples of two kept files that are stored in the same way."""

    before: bytes
    after: bytes
    options: Options
    grid: Optional[Grid]


def compared(first: ArchiveFile, second: ArchiveFile, shape: Optional[tuple[int, ...]]) -> Compared:
    """Returns the samples of two kept files. Raises Refused if they are stored in different
    ways."""
    a, b = first.facts.options, second.facts.options
    if (a.bits, a.signed, a.storage, a.msb_first) != (b.bits, b.signed, b.storage, b.msb_first):
        raise Refused("its samples are stored in another way than those of the first file")
    count, grid = first.facts.count, None
    if count == second.facts.count:
        grid = grid_of(shape, count)
        if grid is None and first.facts.shape == second.facts.shape:
            grid = grid_of(first.facts.shape, count)
    return Compared(all_samples(first), all_samples(second), a, grid)


def script_between(it: Compared) -> Iterator[bytes]:
    """Yields the lines of a script that turns the first samples into the second ones."""
    change = change_of(it.before, it.after, it.options.storage)
    return difference(it.before, it.after, change, it.options)


def table_between(it: Compared) -> Iterator[tuple[list[int], int, int]]:
    """Yields each sample that differs: its place in the columns of `names_between`, the new value
    and the old one."""
    store, width = Store(it.options), it.options.storage
    for first, last in differing_runs(it.before, it.after, width):
        new = store.values_of(it.after[first * width : last * width])
        old = store.values_of(it.before[first * width : last * width])
        for place, value, was in zip(range(first, last), new, old):
            yield cell_of(it.grid, place) if it.grid else [place], value, was


def names_between(it: Compared) -> list[str]:
    """Returns the names of the columns of a table of differences."""
    return [*(named(it.grid) if it.grid else ["place"]), "value", "was"]


class Picture(NamedTuple):
    """What is drawn: samples in rows of `width`, and which of them are black and white."""

    samples: Sequence[int]
    bits: int
    width: int
    least: Optional[int]
    most: Optional[int]


def limits(it: Picture) -> tuple[int, int]:
    """Returns the samples that are black and white: those given, else percentiles."""
    some = sorted(it.samples[:: max(1, len(it.samples) // SAMPLED)])
    least = some[int(LEAST * (len(some) - 1))] if it.least is None else it.least
    most = some[round(MOST * (len(some) - 1))] if it.most is None else it.most
    return least, max(most, least + 1)


def grey(it: Picture, least: int, most: int) -> bytes:
    """Returns a byte for each sample: 0 for `least` and below, 255 for `most` and above."""
    span = most - least

    def of(sample: int) -> int:
        return min(max((sample - least) * 255 // span, 0), 255)

    if it.bits <= TABLED_BITS:
        low = -(1 << it.bits - 1)  # negative samples are places that count from the table's end
        table = bytes(map(of, [*range(1 << it.bits), *range(low, 0)]))
        return bytes(map(table.__getitem__, it.samples))
    return bytes(map(of, it.samples))


def png_chunk(name: bytes, data: bytes) -> bytes:
    """Returns a chunk of a PNG file."""
    return struct.pack(">I", len(data)) + name + data + struct.pack(">I", zlib.crc32(name + data))


def png(pixels: bytes, width: int, height: int) -> bytes:
    """Returns a PNG file of grey pixels."""
    rows = b"".join(b"\0" + pixels[row * width : (row + 1) * width] for row in range(height))
    head = struct.pack(">IIBBBBB", width, height, 8, 0, 0, 0, 0)
    chunks = [(b"IHDR", head), (b"IDAT", zlib.compress(rows)), (b"IEND", b"")]
    return b"\x89PNG\r\n\x1a\n" + b"".join(png_chunk(*it) for it in chunks)


def pgm(pixels: bytes, width: int, height: int) -> bytes:
    """Returns a PGM file of grey pixels."""
    return b"P5\n%d %d\n255\n" % (width, height) + pixels


FORMS = {".png": png, ".pgm": pgm}


def draw(it: Picture, out: str) -> str:
    """Draws samples in grey. Returns the text that says what was drawn."""
    form = FORMS.get(os.path.splitext(out)[1])
    if form is None:
        raise Refused(f"{shown(out)} is named neither .png nor .pgm")
    height = -(-len(it.samples) // it.width)
    if not it.samples or it.width * height > MOST_PIXELS:
        text = f"{len(it.samples)} samples in rows of {it.width} are no picture"
        raise Refused(f"{text}: take a part by --frame K or --range FIRST:LEN")
    least, most = limits(it)
    with output(out) as file:
        file.write(form(grey(it, least, most).ljust(it.width * height, b"\0"), it.width, height))
    return f"{shown(out)}: {it.width} by {height}, black is {least}, white is {most}"


def part_to_view(
    facts: Facts, width: Optional[int], frame: Optional[int], part: Optional[tuple[int, int]]
) -> tuple[int, int, int]:
    """Returns first sample, number of samples, and width of a picture. Raises Refused if the file
    has no shape and no width is given."""
    grid = grid_of(facts.shape, facts.count)
    columns = width or (grid.columns if grid else None)
    if columns is None:
        raise Refused("it has no shape: give --width W, the samples of a row")
    if part is not None:
        return (*in_range(part, facts.count), columns)
    if frame is None and (grid is None or grid.frames == 1 or width):
        return 0, facts.count, columns
    if grid is None:
        raise Refused("it has no shape, so --frame means nothing: give --range FIRST:LEN")
    number, size = frame or 0, grid.rows * grid.columns
    if not 0 <= number < (grid.frames or 1):
        raise Refused(f"frame {number} is none of its {grid.frames} frames")
    return number * size, size, columns


def plain(stream: bytes, count: Optional[int], options: Options) -> bytes:
    """Returns the stored samples of a plain stream. Raises Refused if they are too many for a
    picture."""
    if count is not None and count > MOST_PIXELS:
        raise Refused(f"{count} samples are no picture: take a part by --range FIRST:LEN")
    return bytes(decode_bytes(stream, count, options))


def listed(data: Any, options: Options) -> Sequence[int]:
    """Returns stored samples as numbers."""
    store = Store(options)
    if not store.letter:
        return store.values_of(bytes(data))
    values: array[int] = array(store.letter, bytes(data))
    if store.width > 1 and store.order != NATIVE:
        values.byteswap()
    return values
