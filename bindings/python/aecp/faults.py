"""The exceptions that calls raise."""

from __future__ import annotations

from typing import Optional

BITS_PER_SAMPLE, BLOCK_SIZE, INTERVAL, RESTRICTED_WIDTH, SAMPLE_RANGE, TRUNCATED, VALUE_TOO_LARGE, RUN_TOO_LONG = range(1, 9)
TOO_MANY_SAMPLES, OUT_OF_RANGE, MEMORY, SCRIPT, STREAM_TOO_LONG, EVEN_BLOCK_SIZE, NO_ROOM, NOT_OPEN = 9, 10, 12, 15, 16, 17, 18, 19
BIT_OUT_OF_RANGE = 20


class Fault(ValueError):
    """A call was refused. The text says why.

    number  the number of the fault in aecp.h
    place   what aecp.h names for this number, such as an index or a bit, else 0
    line    the line of a script that is refused, counted from 1, else 0
    edit    the index of the refused edit in a list that Workspace.edit got, counted from 0, else None
    """

    def __init__(self, number: int, place: int, text: str, line: int = 0, edit: Optional[int] = None) -> None:
        super().__init__(text)
        self.number, self.place, self.text, self.line, self.edit = number, place, text, line, edit

    def __reduce__(self) -> tuple[type[Fault], tuple[int, int, str, int, Optional[int]]]:
        return type(self), (self.number, self.place, self.text, self.line, self.edit)


class OptionsRefused(Fault):
    """The format has no such options."""


class SampleRefused(Fault):
    """A sample is out of range. `index` is the place of the first such sample, counted from 0 among the samples of the call; for
    an Encoder, among all its samples; for a script, among the values of `line`; for a list of edits, among those of `edit`."""

    @property
    def index(self) -> int:
        return self.place


class StreamRefused(Fault):
    """The stream is cut or damaged: the coded data set that begins at `bit`, counted from 0, is refused."""

    @property
    def bit(self) -> int:
        return self.place


class RangeRefused(Fault, IndexError):
    """A range is outside the `count` samples."""

    @property
    def count(self) -> int:
        return self.place


class LimitPassed(Fault):
    """There are more than `limit` samples or bytes. The limits are 2^32 samples and 2^40 coded bytes."""

    @property
    def limit(self) -> int:
        return self.place


class ScriptRefused(Fault):
    """A script has a line that is no edit. `line` is the first such line."""


class NoMemory(Fault, MemoryError):
    """An allocation failed. No sample was changed. `Workspace.calls` also counts intervals that were coded before the failure."""


class NoRoom(Fault):
    """`out` is too short. The text says how many bytes the samples take."""


class NotOpen(Fault):
    """The workspace is closed, or the encoder is finished."""


class BitRefused(Fault, IndexError):
    """No interval begins at a bit: it is after the end of the stream, which has `bits` bits; or, with the option `pad`, it isn't the
    first bit of a byte."""

    @property
    def bits(self) -> int:
        return self.place


KINDS: dict[int, type[Fault]] = {
    BITS_PER_SAMPLE: OptionsRefused, BLOCK_SIZE: OptionsRefused, INTERVAL: OptionsRefused, RESTRICTED_WIDTH: OptionsRefused,
    EVEN_BLOCK_SIZE: OptionsRefused, SAMPLE_RANGE: SampleRefused, TRUNCATED: StreamRefused, VALUE_TOO_LARGE: StreamRefused,
    RUN_TOO_LONG: StreamRefused, OUT_OF_RANGE: RangeRefused, TOO_MANY_SAMPLES: LimitPassed, STREAM_TOO_LONG: LimitPassed,
    MEMORY: NoMemory, SCRIPT: ScriptRefused, NO_ROOM: NoRoom, NOT_OPEN: NotOpen, BIT_OUT_OF_RANGE: BitRefused,
}  # fmt: skip


def fault_of_edit(number: int, place: int, text: str, edit: int) -> Fault:
    """Returns the exception for a refused edit of a list. Its text has the index of the edit."""
    return KINDS.get(number, Fault)(number, place, f"edits[{edit}]: {text}", 0, edit)


def fault_of(number: int, place: int, text: str, line: int = 0) -> Fault:
    """Returns the exception for a refusal. With `line`, one edit of a script is refused, and the text names this line."""
    if line:
        return KINDS.get(number, Fault)(number, place, f"line {line}: {text}", line)
    return KINDS.get(number, Fault)(number, place, text, place if number == SCRIPT else 0)
