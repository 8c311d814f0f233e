"""What happened to one file, and work on a file that never ends the run."""

from __future__ import annotations

import contextlib
import os
from collections.abc import Iterator
from dataclasses import dataclass, field
from typing import Any, Callable

from aecp._console import reason
from aecp.archive._form import Damaged, Facts, Range, Refused
from aecp.archive._paths import Found
from aecp.options import Options

SHOWN_RANGES = 5


@dataclass(frozen=True)
class Outcome:
    """What happened to a file.

    kind     such as "kept", "skipped", "sound", "damaged"; "refused" if the work failed
    said     what is printed for the file, if anything
    bytes    of the original or of its samples
    coded    bytes of FILE.aec
    hint     advice that is the same for many files
    more     further results, for JSON
    """

    kind: str
    said: str = ""
    bytes: int = 0
    coded: int = 0
    hint: str = ""
    more: dict[str, Any] = field(default_factory=dict)


DIED = Outcome("refused", "the process that worked on it died twice: is there too little memory?")


@dataclass(frozen=True)
class Guarded:
    """Work on a file. If it fails in any way, its outcome says why."""

    work: Callable[[Found], Outcome]

    def __call__(self, found: Found) -> Outcome:
        try:
            return self.work(found)
        except BrokenPipeError:
            raise
        except Damaged as error:
            return Outcome("refused", f"{reason(error, found.path)}{advice(error)}")
        except Exception as error:
            return Outcome("refused", reason(error, found.path))


@dataclass(frozen=True)
class Unchanged:
    """Work on a file that may have been changed by a process that died. Leaves a changed file."""

    work: Callable[[Found], Outcome]

    def __call__(self, found: Found) -> Outcome:
        if os.stat(found.path).st_ino != found.inode:
            raise Refused("a process died, and the file has changed: see `aecp log`")
        return self.work(found)


@contextlib.contextmanager
def damage_named(name: str) -> Iterator[None]:
    """Adds the name of the kept file to the text that says how it is damaged."""
    try:
        yield
    except Damaged as error:
        raise Damaged(error.kind, f"{name} isn't sound: {error}", error.ranges) from None


def advice(error: Damaged) -> str:
    """Returns what to do about damage."""
    if error.kind in ("bad index", "bad history"):
        return "; `aecp rescue` writes the samples"
    return "; `aecp rescue` writes all other samples" if error.kind == "bad group" else ""


def ranges_text(ranges: tuple[Range, ...], count: int) -> str:
    """Returns the words for damaged samples."""
    lost = sum(it.length for it in ranges)
    shown = [
        f"{it.first} to {it.first + it.length - 1}" if it.length > 1 else str(it.first)
        for it in ranges[:SHOWN_RANGES]
    ]
    more = f" and {len(ranges) - SHOWN_RANGES} more ranges" if len(ranges) > SHOWN_RANGES else ""
    return f"samples {', '.join(shown)}{more} ({lost} of {count})"


def ranges_json(ranges: tuple[Range, ...]) -> list[dict[str, int]]:
    """Returns ranges as JSON has them."""
    return [{"first": it.first, "length": it.length} for it in ranges]


def shape_text(facts: Facts) -> str:
    """Returns the words for the recorded shape and type."""
    shape = "a list" if facts.shape is None else "x".join(map(str, facts.shape))
    return f"{shape} of {facts.dtype or 'no recorded type'}"


def words_of(options: Options) -> str:
    """Returns options as `aec` and `aecp` take them."""
    words = [f"-n {options.bits} -j {options.block_size} -r {options.interval}"]
    flags = {
        "-s": options.signed, "-m": options.msb_first, "-3": options.three_byte,
        "-N": not options.preprocess, "-t": options.restricted, "-p": options.pad,
        "--even-blocks": options.even_blocks,
    }  # fmt: skip
    return " ".join(words + [word for word, is_set in flags.items() if is_set])
