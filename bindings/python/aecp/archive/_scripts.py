"""Scripts of edits: checks their lines, makes them from tables, and makes them from the difference
of two lists of samples.

The library's call `edit` applies scripts. The check here only finds all bad lines at once, before
anything is done."""

from __future__ import annotations

import re
import struct
from array import array
from collections.abc import Iterator, Sequence
from typing import Callable, Literal, NamedTuple, Optional

from aecp.options import Options

MOST_SAMPLES = 2**32
PART = 1 << 16  # samples that are compared at once
SMALL_PART = 1 << 11  # samples of a part that is searched for differences
LEAF = 16  # samples that are compared one by one
A_LINE = 1000  # the most values in a line that is written
SHOWN = 30  # characters of a word in a complaint
MOST_SHOWN = 20  # complaints that are shown
# For each name, how many places follow it, and whether values follow them.
FORMS = {
    "overwrite": (1, True),
    "append": (0, True),
    "truncate": (1, False),
    "insert": (1, True),
    "remove": (2, False),
}
PLACES = {
    "overwrite": "FIRST V..",
    "append": "V..",
    "truncate": "COUNT",
    "insert": "FIRST V..",
    "remove": "FIRST LEN",
}


class Edit(NamedTuple):
    """A line of a script."""

    line: int
    name: str
    places: list[int]
    values: array[int]

    def exchanged(self, count: int) -> tuple[int, int]:
        """Returns which places, of `count` samples, the values replace: the first one, and the one
        after the last."""
        first = self.places[0] if self.places else count
        if self.name == "overwrite":
            return first, first + len(self.values)
        if self.name == "truncate":
            return first, max(first, count)
        return first, first + (self.places[1] if self.name == "remove" else 0)


class BadLine(Exception):
    """A line is no edit, or doesn't fit. The text says why."""


class Judged(NamedTuple):
    """The edits of a script, what is wrong with its other lines, and the number of samples after
    the edits."""

    edits: list[Edit]
    complaints: list[str]
    left: int


def cut(word: str) -> str:
    """Returns a word for a complaint. A long word is cut."""
    return word if len(word) <= SHOWN else f"{word[:SHOWN]}.."


def number_in(word: str, least: int, end: int, what: str) -> int:
    """Returns a word as a number. Raises BadLine, which calls it a `what`, if it isn't one from
    `least` to `end` - 1."""
    if not re.fullmatch(r"-?[0-9]+" if least < 0 else r"[0-9]+", word):
        raise BadLine(f"{cut(word)!r} is no {what}")
    if len(word) > 25 or not least <= int(word) < end:
        raise BadLine(f"{cut(word)} doesn't fit 64 bits")
    return int(word)


def edit_of(line: int, words: list[str], allow_empty: bool) -> Edit:
    """Returns the edit that the words of a line mean. Raises BadLine if they mean none."""
    name, rest = words[0], words[1:]
    if name not in FORMS:
        raise BadLine(f"{cut(name)!r} is none of {', '.join(FORMS)}")
    many, has_values = FORMS[name]
    if len(rest) < many or (len(rest) > many and not has_values):
        raise BadLine(f"the words of {name} are {PLACES[name]}")
    if has_values and len(rest) == many and not allow_empty:
        raise BadLine(f"{name} has no value (--allow-empty takes such lines)")
    places = [number_in(word, 0, 2**64, "place") for word in rest[:many]]
    values = array("q", (number_in(word, -(2**63), 2**63, "value") for word in rest[many:]))
    return Edit(line, name, places, values)


def judge(edit: Edit, count: int, options: Options) -> int:
    """Returns the number of samples after an edit of `count` samples. Raises BadLine if the edit
    doesn't fit."""
    first, end = edit.exchanged(count)
    if end > count:
        what = f"place {first} is"
        if end - first > 1 and first < count:
            what = f"the {len(edit.values)} samples from place {first} on reach"
        if edit.name == "remove":
            what = f"{edit.places[1]} samples from place {first} on reach"
        raise BadLine(f"{what} outside the {count} samples")
    left = count - (end - first) + len(edit.values)
    if left > MOST_SAMPLES:
        raise BadLine(f"more than {MOST_SAMPLES} samples")
    least, most = options.least, options.most
    if edit.values and not least <= min(edit.values) <= max(edit.values) <= most:
        index = next(i for i, value in enumerate(edit.values) if not least <= value <= most)
        place = (count if edit.name == "append" else first) + index
        value = edit.values[index]
        raise BadLine(f"the value {value} for place {place} is out of range: {least} to {most}")
    return left


def judged(script: bytes, count: int, options: Options, allow_empty: bool = False) -> Judged:
    """Returns the edits of a script for `count` samples. Each bad line is a complaint, and the
    lines after it are checked without it."""
    edits, complaints = [], []
    for line, data in enumerate(script.split(b"\n"), 1):
        text = data.removesuffix(b"\r").decode("utf-8", "backslashreplace")
        words = [word for word in re.split("[ \t]", text) if word]
        if not words or words[0].startswith("#"):
            continue
        try:
            edit = edit_of(line, words, allow_empty)
            count = judge(edit, count, options)
            edits.append(edit)
        except BadLine as error:
            complaints.append(f"line {line}: {error}")
    return Judged(edits, complaints, count)


class Store:
    """How samples are stored as bytes."""

    def __init__(self, options: Options) -> None:
        self.width, self.signed = options.storage, options.signed
        self.byte_order: Literal["big", "little"] = "big" if options.msb_first else "little"
        self.order = ">" if options.msb_first else "<"
        letter = {1: "b", 2: "h", 4: "i"}.get(self.width, "")
        self.letter = letter if self.signed else letter.upper()

    def bytes_of(self, values: Sequence[int]) -> bytes:
        """Returns numbers as stored samples."""
        if self.letter:
            return struct.pack(f"{self.order}{len(values)}{self.letter}", *values)
        order, signed = self.byte_order, self.signed
        return b"".join(value.to_bytes(self.width, order, signed=signed) for value in values)

    def values_of(self, data: bytes) -> list[int]:
        """Returns stored samples as numbers."""
        if self.letter:
            return list(struct.unpack(f"{self.order}{len(data) // self.width}{self.letter}", data))
        parts = (data[i : i + self.width] for i in range(0, len(data), self.width))
        return [int.from_bytes(part, self.byte_order, signed=self.signed) for part in parts]


def differing_runs(before: bytes, after: bytes, width: int) -> Iterator[tuple[int, int]]:
    """Yields the runs of samples that differ in two lists of the same length: the first place of
    each run, and the place after its last."""
    begun = end = -1
    for first in range(0, len(before), SMALL_PART * width):
        for at in differing_places(before, after, first, SMALL_PART * width, width):
            if at != end:
                if begun >= 0:
                    yield begun, end
                begun = at
            end = at + 1
    if begun >= 0:
        yield begun, end


def differing_places(
    before: bytes, after: bytes, first: int, length: int, width: int
) -> Iterator[int]:
    """Yields the places of samples that differ, in a part of the bytes. Halves that are equal are
    skipped."""
    ours, theirs = before[first : first + length], after[first : first + length]
    if ours == theirs:
        return
    if length <= LEAF * width:
        for at in range(0, len(ours), width):
            if ours[at : at + width] != theirs[at : at + width]:
                yield (first + at) // width
        return
    half = (length // width + 1) // 2 * width
    yield from differing_places(before, after, first, half, width)
    yield from differing_places(before, after, first + half, length - half, width)


def longest(most: int, is_equal: Callable[[int, int], bool]) -> int:
    """Returns how many samples are equal before the first that differs, at most `most`.
    `is_equal(first, last)` compares those from place `first` on and before place `last`. All places
    count from the front, or all from the end."""
    count, step = 0, PART
    while count < most:
        step = min(step, most - count)
        if is_equal(count, count + step):
            count += step
        elif step == 1:
            break
        else:
            step = (step + 1) // 2
    return count


def equal_front(before: bytes, after: bytes, width: int) -> int:
    """Returns how many samples at the front are equal."""

    def is_equal(first: int, last: int) -> bool:
        return before[first * width : last * width] == after[first * width : last * width]

    return longest(min(len(before), len(after)) // width, is_equal)


def equal_end(before: bytes, after: bytes, width: int, front: int) -> int:
    """Returns how many samples at the end are equal, without the front."""

    def is_equal(first: int, last: int) -> bool:
        ours = before[len(before) - last * width : len(before) - first * width]
        return ours == after[len(after) - last * width : len(after) - first * width]

    return longest(min(len(before), len(after)) // width - front, is_equal)


class Change(NamedTuple):
    """How two lists of samples differ. Either `runs` are the ranges of places that differ, and the
    longer list has more samples at its end; or `runs` is None, and the samples after the first
    `front` and before the last `end` are replaced."""

    runs: Optional[list[tuple[int, int]]]
    front: int
    end: int


def change_of(before: bytes, after: bytes, width: int) -> Change:
    """Returns the change that names fewer samples."""
    both = min(len(before), len(after))
    number = abs(len(before) - len(after)) // width
    front, end, most = 0, 0, 2 * both
    if number:
        front = equal_front(before, after, width)
        end = equal_end(before, after, width, front)
        most = max(len(before), len(after)) // width - front - end
        before, after = before[:both], after[:both]
    runs = []
    for run in differing_runs(before, after, width):
        number += run[1] - run[0]
        if number > most:
            return Change(None, front, end)
        runs.append(run)
    return Change(runs, both // width, 0)


def difference(before: bytes, after: bytes, change: Change, options: Options) -> Iterator[bytes]:
    """Yields the lines of a script that makes the samples `after` from the samples `before`.
    `change` is how they differ."""
    store = Store(options)
    width, front, end = store.width, change.front * store.width, change.end * store.width
    if change.runs is not None:
        for first, last in change.runs:
            yield from lines_of("overwrite", first, after[first * width : last * width], store)
        if len(before) > front:
            yield b"truncate %d\n" % change.front
        yield from lines_of("insert", change.front, after[front:], store)
        return
    gone = len(before) // width - change.front - change.end
    if gone:
        yield b"remove %d %d\n" % (change.front, gone)
    yield from lines_of("insert", change.front, after[front : len(after) - end], store)


def lines_of(name: str, first: int, data: bytes, store: Store) -> Iterator[bytes]:
    """Yields the lines that write stored samples at a place, with at most A_LINE values each."""
    size = A_LINE * store.width
    for part in range(0, len(data), size):
        values = " ".join(map(str, store.values_of(data[part : part + size])))
        yield f"{name} {first + part // store.width} {values}\n".encode("ascii")
