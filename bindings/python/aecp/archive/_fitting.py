"""The verb fit: which options suit files, what an edit costs with them, and which options decode an
unknown stream."""

from __future__ import annotations

import itertools
from collections.abc import Iterator
from dataclasses import dataclass, field, replace
from typing import Any, NamedTuple, Optional

from aecp.archive._form import Refused
from aecp.archive._headers import layout_of, options_of
from aecp.archive._originals import original, read_all
from aecp.archive._outcomes import Outcome, words_of
from aecp.archive._paths import Found
from aecp.archive._scripts import Store
from aecp.calls import decode_bytes, encode
from aecp.faults import Fault
from aecp.options import Options

BLOCKS = (8, 16, 32, 64)
INTERVALS = (1, 2, 8, 32, 128, 512, 4096)
EVERY_INTERVAL = tuple(1 << i for i in range(13))
PIECE = 1 << 22  # bytes of a file that are tried without --all
SAMPLED = 1 << 18  # samples of a file that are looked at
FRONT = 1 << 14  # samples that a stream is tried with first
NEAR = 1000  # a size is as good as the best if it is at most 1 / NEAR greater
SHOWN = 20
STORAGES = (("-m", "msb_first", True), ("-s", "signed", True), ("-N", "preprocess", False))


@dataclass(frozen=True)
class Fitting:
    """What is tried. `given` are the names of the options that the user gave."""

    options: Options
    given: frozenset[str]
    is_whole: bool


@dataclass
class Sizes:
    """The number of coded bytes of a file, or of several, with each of the options that were tried.

    options   those of a header, or the user's
    blocks    by block size and interval
    storages  by the other options of STORAGES, with block size and interval as in `options`
    tried     bytes that were coded; `whole` are all
    low       all samples that were looked at, joined by or
    used      bits that these need
    """

    options: Options
    blocks: dict[tuple[int, int], int] = field(default_factory=dict)
    storages: dict[str, Optional[int]] = field(default_factory=dict)
    usual: int = 0
    tried: int = 0
    whole: int = 0
    low: int = 0
    used: int = 0

    def add(self, other: Sizes) -> None:
        """Adds the sizes of another file."""
        for key, size in other.blocks.items():
            self.blocks[key] = self.blocks.get(key, 0) + size
        for word, more in other.storages.items():
            known = self.storages.get(word, 0)
            self.storages[word] = None if known is None or more is None else known + more
        self.usual += other.usual
        self.tried += other.tried
        self.whole += other.whole
        self.low |= other.low
        self.used = max(self.used, other.used)


def fit(how: Fitting, found: Found) -> Outcome:
    """Returns the sizes of a file, in the field `more` of the outcome."""
    with original(found.path) as file:
        layout = layout_of(file)
        file.seek(layout.head if layout else 0)
        whole = layout.length if layout and layout.length is not None else found.size
        data = read_all(file, whole if how.is_whole else min(whole, PIECE))
    options = how.options
    if layout and layout.dtype:
        options = options_of(layout.dtype, options, options.bits if "bits" in how.given else None)
    elif "bits" not in how.given:
        raise Refused("its bits aren't known: give -n")
    if not data:
        raise Refused("it is empty")
    data = data[: len(data) - len(data) % options.storage]
    try:
        sizes = sizes_of(data, options, how.given)
    except Fault as fault:
        text = f"{fault} with {words_of(options)}: is -n, -m or -s another?"
        raise Refused(text) from None
    sizes.whole = whole
    return Outcome("tried", "", whole, more={"sizes": sizes})


def sizes_of(data: bytes, options: Options, given: frozenset[str]) -> Sizes:
    """Returns the sizes of samples. Of block sizes and intervals that the user gave, only these are
    tried."""
    found = Sizes(options, tried=len(data))
    blocks = (options.block_size,) if "block_size" in given else BLOCKS
    intervals = (options.interval,) if "interval" in given else INTERVALS
    for block, interval in itertools.product(blocks, intervals):
        made = replace(options, block_size=block, interval=interval)
        found.blocks[block, interval] = len(encode(data, made))
    found.usual = len(encode(data, options))
    for word, name, _ in STORAGES:
        changed: dict[str, Any] = {name: not getattr(options, name)}
        try:
            found.storages[word] = len(encode(data, replace(options, **changed)))
        except Fault:
            found.storages[word] = None
    values = Store(options).values_of(data[: SAMPLED * options.storage])
    for value in values:
        found.low |= value
    least, most = min(values, default=0), max(values, default=0)
    negative = (-1 - least).bit_length() if least < 0 else 0
    found.used = max(most.bit_length(), negative) + options.signed
    return found


def guessed_bits(data: bytes) -> Options:
    """Returns a guess: the width and the byte order with which the start of a file takes the fewest
    bytes."""
    found: list[tuple[int, int, Options]] = []
    for bits, msb_first in ((8, False), (16, False), (16, True), (32, False), (32, True)):
        options = Options(bits, msb_first=msb_first)
        if len(data) % options.storage == 0:
            found.append((len(encode(data[: 1 << 20], options)), len(found), options))
    return min(found)[2]


class Choice(NamedTuple):
    """One row of the table: the coded bytes with a block size and an interval."""

    bytes: int
    options: Options

    @property
    def samples(self) -> int:
        """How many samples an edit codes again."""
        return self.options.block_size * self.options.interval


def choices(sizes: Sizes) -> list[Choice]:
    """Returns the rows of the table: the recommended one, then the others, the smallest first."""
    made = [
        Choice(size, replace(sizes.options, block_size=block, interval=interval))
        for (block, interval), size in sizes.blocks.items()
    ]
    made.sort(key=lambda it: (it.bytes, it.samples))
    near = [it for it in made if (it.bytes - made[0].bytes) * NEAR <= made[0].bytes]
    chosen = min(near, key=lambda it: (it.samples, it.bytes))
    return [chosen, *(it for it in made if it is not chosen)]


def table(sizes: Sizes, files: int) -> list[str]:
    """Returns the lines that `fit` prints."""
    rows = choices(sizes)
    least = min(it.bytes for it in rows)
    width = sizes.options.storage
    of = f"{files} files: " if files > 1 else ""
    head = f"{of}{sizes.tried // width} samples of {width} bytes"
    if sizes.tried != sizes.whole:
        head += f", the first {sizes.tried} bytes of {sizes.whole}"
    lines = [f"{'bytes':>12}  {'an edit codes':>16}  options, for {head}"]
    for it in rows:
        mark = "  the fewest bytes" if it.bytes == least else ""
        mark = "  recommended" if it is rows[0] else mark
        samples = f"{min(it.samples, sizes.whole // width)} samples"
        lines.append(f"{it.bytes:12}  {samples:>16}  {words_of(it.options)}{mark}")
    return lines + better_storage(sizes) + facts(sizes)


def facts(sizes: Sizes) -> list[str]:
    """Returns what the samples say about their width, a line each."""
    said, bits = [], sizes.options.bits
    zeros = (sizes.low & -sizes.low).bit_length() - 1 if sizes.low else 0
    if zeros:
        text = f"the lowest {zeros} bits of every sample are 0"
        said.append(f"{text}: shifted right by {zeros} they fit -n {bits - zeros}")
    used = max(sizes.used, 1)
    narrower = replace(sizes.options, bits=used, restricted=False)
    if used < bits and narrower.storage == sizes.options.storage:
        said.append(f"the samples that were looked at fit -n {used}")
    return said


def better_storage(sizes: Sizes) -> list[str]:
    """Returns a line for each other byte order, sign or prediction that takes over 1 % fewer
    bytes."""
    said = []
    for word, name, value_by_flag in STORAGES:
        size = sizes.storages.get(word)
        if size is None or size * 100 >= sizes.usual * 99:
            continue
        text = f"{size} bytes instead of {sizes.usual}"
        is_given = getattr(sizes.options, name) == value_by_flag
        said.append(f"no {word}: {text}" if is_given else f"{word}: {text}. Is it forgotten?")
    return said


def fit_json(sizes: Sizes, files: int) -> dict[str, Any]:
    """Returns the table as JSON."""
    rows = choices(sizes)
    return {
        "files": files,
        "bytes": sizes.whole,
        "tried": sizes.tried,
        "recommended": words_of(rows[0].options),
        "choices": [
            {
                "coded": it.bytes,
                "samples_an_edit_codes": it.samples,
                "words": words_of(it.options),
            }
            for it in rows
        ],
        "notes": better_storage(sizes) + facts(sizes),
    }


class Reading(NamedTuple):
    """Options that decode a stream without a fault.

    is_early     decoding ends before the stream's last byte
    differences  the sum of the differences between neighbours at the front
    is_other     the same options without -s decode other samples, and are named before
    """

    is_early: bool
    differences: int
    options: Options
    is_other: bool = False


def candidates(fixed: Options, given: frozenset[str]) -> Iterator[Options]:
    """Yields all options to try. What the user gave stays."""
    widths = (fixed.bits,) if "bits" in given else range(1, 33)
    blocks = (fixed.block_size,) if "block_size" in given else BLOCKS
    intervals = (fixed.interval,) if "interval" in given else EVERY_INTERVAL
    predicted = (False,) if not fixed.preprocess else (True, False)
    for bits, block, interval, is_predicted in itertools.product(
        widths, blocks, intervals, predicted
    ):
        yield replace(
            fixed,
            bits=bits,
            block_size=block,
            interval=interval,
            preprocess=is_predicted,
            signed=False,
        )


def read_by(stream: bytes, count: int, options: Options) -> Optional[bytes]:
    """Returns the samples of a stream, or None if they can't be decoded with these options."""
    try:
        return bytes(decode_bytes(stream, count, options))
    except Fault:
        return None


def differences(stored: bytes, options: Options) -> int:
    """Returns the sum of the differences between neighbours."""
    samples = Store(options).values_of(stored)
    return sum(abs(a - b) for a, b in zip(samples, samples[1:]))


def readings(stream: bytes, count: int, fixed: Options, given: frozenset[str]) -> list[Reading]:
    """Returns the options that decode `count` samples of a stream, likely ones first: those that
    need its last byte before the others, then the smoother ones. Of a pair that differs in the sign
    alone, the unsigned one comes first."""
    pairs: list[tuple[bool, int, str, list[Reading]]] = []
    for options in candidates(fixed, given):
        if read_by(stream, min(count, FRONT), options) is None:
            continue
        if read_by(stream, count, options) is None:
            continue
        is_early = read_by(stream[:-1], count, options) is not None
        pair = signs(stream, count, options, is_early)
        pairs.append((is_early, min(it.differences for it in pair), words_of(options), pair))
    pairs.sort(key=lambda it: it[:3])
    return [reading for *_, pair in pairs for reading in pair]


def signs(stream: bytes, count: int, options: Options, is_early: bool) -> list[Reading]:
    """Returns the readings of a stream without and with signs."""
    made: list[Reading] = []
    fronts: list[bytes] = []
    for is_signed in (False, True):
        tried = replace(options, signed=is_signed)
        front = read_by(stream, min(count, FRONT), tried)
        if front is not None:
            is_other = bool(fronts) and fronts[0] != front
            fronts.append(front)
            made.append(Reading(is_early, differences(front, tried), tried, is_other))
    return made


def stream_lines(found: list[Reading], count: int) -> list[str]:
    """Returns the lines that `fit --stream` prints."""
    if not found:
        text = f"no options of those tried decode {count} samples"
        raise Refused(f"{text}: try --even-blocks with -j, or -t, or -p")
    lines = [f"{'ends':10}{'differences':>16}  options: {len(found)} decode {count} samples"]
    for it in found[:SHOWN]:
        other = "  decodes to other samples than without -s" if it.is_other else ""
        ends = "too early" if it.is_early else "whole"
        lines.append(f"{ends:10}{it.differences:16}  {words_of(it.options)}{other}")
    return lines


def stream_json(found: list[Reading]) -> list[dict[str, Any]]:
    """Returns the same as JSON."""
    return [
        {"words": words_of(it.options), "is_whole": not it.is_early, "differences": it.differences}
        for it in found
    ]
