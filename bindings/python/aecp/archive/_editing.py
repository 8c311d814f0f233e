"""The verbs edit, undo and forget: replace a kept file by one rename, under its lock."""

from __future__ import annotations

import contextlib
import math
import os
from collections.abc import Iterable, Iterator, Sequence
from dataclasses import dataclass
from typing import NamedTuple, Optional, Union

from aecp import streams
from aecp.archive import _history, _saving
from aecp.archive._file import ArchiveFile
from aecp.archive._form import Damaged, Facts, Refused, State, Sum
from aecp.archive._keeping import clean
from aecp.archive._outcomes import Outcome
from aecp.archive._pairs import note_at
from aecp.archive._paths import Found
from aecp.archive._result import Exchange, Forward, Result
from aecp.archive._scripts import Edit, Store, differing_runs, judged, lines_of
from aecp.archive._stored import (
    MOST_SCRIPT,
    Difference,
    Inverse,
    Script,
    Values,
    apply_difference,
    bad_history,
    least_inverse,
    scripted,
)
from aecp.archive._tables import grid_of, refuse, script_of
from aecp.archive._whole import judge
from aecp.archive._writer import Writer
from aecp.calls import encode
from aecp.faults import Fault
from aecp.options import Options

WRONG = "the new stream doesn't decode to its samples"
NOTHING = "there is no edit to undo"


@dataclass(frozen=True)
class Editing:
    """What is applied to each file: a script, or the text of a table."""

    script: bytes
    is_table: bool = False
    shape: Optional[tuple[int, ...]] = None
    frame: Optional[int] = None
    allow_empty: bool = False
    limit: Optional[int] = None


class Held(NamedTuple):
    """A kept file under its lock."""

    path: str
    status: os.stat_result
    kept: ArchiveFile

    @property
    def facts(self) -> Facts:
        """What the trailer says."""
        return self.kept.facts

    def stream(self) -> bytes:
        """Returns the stream. Raises Damaged if it has another sum."""
        stream = self.kept.stream()
        if Sum.of(stream) != self.facts.stream:
            raise Damaged("other samples", "it is damaged: `aecp check` names the damaged samples")
        return stream


@contextlib.contextmanager
def held(path: str, limit: Optional[int]) -> Iterator[Held]:
    """Yields a sound kept file under its lock."""
    clean(os.path.dirname(path) or ".")
    with _saving.locked(path) as status:
        try:
            kept = ArchiveFile.open(path, limit)
        except Damaged as error:
            if error.kind == "no trailer" and note_at(path) is not None:
                text = "it has the older form of two files"
                raise Refused(f"{text}: `aecp keep` with the original converts it") from None
            raise
        with kept:
            judge(kept)
            yield Held(path, status, kept)


def edit(how: Editing, found: Found) -> Outcome:
    """Edits a kept file."""
    with held(found.path, how.limit) as it:
        facts, script = it.facts, script_for(how, it.facts)
        if len(script) > MOST_SCRIPT:
            raise Refused(f"the script has more than {MOST_SCRIPT} bytes: divide it")
        checked = judged(script, facts.count, facts.options, how.allow_empty)
        refuse("the script is refused, and nothing is changed", checked.complaints)
        stream = it.stream()
        try:
            later, count = streams.edit(stream, facts.count, script, facts.options)
        except Fault as fault:
            raise Refused(f"the script is refused, and nothing is changed: {fault}") from None
        result = Result(facts.count, checked.edits)
        state = State(count, result.sum(it.kept), Sum.of(later))
        undoing = undoing_of(result, checked.edits, it.kept)
        inverse = inverse_of(stream, later, count, undoing, facts.options)
        stored = scripted(script, checked.edits, facts.options)
        entry = _history.edit_entry(facts, state, undoing.changed, stored, inverse)
        shape = shape_for(facts, count)
        replace(it, later, state, [*it.kept.history(), entry], shape)
        text = f"{undoing.changed} samples changed, {count} samples now"
        text += f", {len(stream)} bytes became {len(later)}"
        if facts.shape is not None and shape is None:
            text += "; its shape is dropped, since the number of samples is no multiple of a row"
        return Outcome("edited", text)


def script_for(how: Editing, facts: Facts) -> bytes:
    """Returns the script for a file. A table becomes one by the file's shape."""
    if not how.is_table:
        return how.script
    grid = grid_of(how.shape or facts.shape, facts.count)
    table = how.script.decode("utf-8-sig", "replace")
    return script_of(table, grid, how.frame, facts).encode("ascii")


class Undoing(NamedTuple):
    """How many samples an edit changed, and what undoes it: lines, None if they are too long; or
    the samples that its overwrites replaced, with their places."""

    changed: int
    lines: Optional[bytes]
    values: Optional[Values] = None


def undoing_of(result: Result, edits: Sequence[Edit], kept: ArchiveFile) -> Undoing:
    """Returns what undoes edits of a kept file."""
    options = kept.facts.options
    store, reader = Store(options), Forward(kept)
    if all(edit.name == "overwrite" for edit in edits):
        old, new = bytearray(), bytearray()
        for exchange in result.exchanges():
            old += b"".join(reader.read(exchange.first, exchange.end - exchange.first))
            new += exchange.stored(store)
        changed = sum(last - first for first, last in differing_runs(old, new, store.width))
        values = Values(encode(old, options))
        return Undoing(changed, b"".join(values.lines(places_in(result), options)), values)
    lines, changed = Lines(min(kept.facts.stream.bytes, MOST_SCRIPT)), 0
    for exchange in result.exchanges():
        changed += add_inverse(lines, exchange, reader, store)
    return Undoing(changed, lines.script)


def places_in(result: Result) -> list[tuple[int, int]]:
    """Returns the places that a script of overwrites names: ranges, in order."""
    return [(exchange.first, exchange.end) for exchange in result.exchanges()]


class Lines:
    """Lines of a script of at most so many bytes. What would be longer is dropped."""

    def __init__(self, most: int) -> None:
        self.most, self.size = most, 0
        self._lines: list[bytes] = []

    def add(self, lines: Iterable[bytes]) -> None:
        for line in lines if not self.is_too_long else ():
            self.size += len(line)
            if self.is_too_long:
                self._lines.clear()
                return
            self._lines.append(line)

    @property
    def is_too_long(self) -> bool:
        return self.size > self.most

    @property
    def script(self) -> Optional[bytes]:
        """The lines; None if they are too long."""
        return None if self.is_too_long else b"".join(self._lines)


def add_inverse(lines: Lines, exchange: Exchange, reader: Forward, store: Store) -> int:
    """Adds the lines that undo an exchange, when all before it is undone. Returns how many samples
    it changed."""
    new, width = exchange.stored(store), store.width
    number, length = len(new) // width, exchange.end - exchange.first
    changed, both = abs(number - length), min(number, length)
    at = exchange.first
    for piece in reader.read(at, both):
        old, other = bytes(piece), new[(at - exchange.first) * width :][: len(piece)]
        for first, last in differing_runs(other, old, width):
            part = old[first * width : last * width]
            lines.add(lines_of("overwrite", at + first, part, store))
            changed += last - first
        at += len(old) // width
    if number > length:
        lines.add([b"remove %d %d\n" % (at, number - length)])
    elif not lines.is_too_long:
        for piece in reader.read(at, length - number):
            lines.add(lines_of("insert", at, bytes(piece), store))
            at += len(piece) // width
            if lines.is_too_long:
                break
    return changed


def inverse_of(
    earlier: bytes, later: bytes, count: int, undoing: Undoing, options: Options
) -> Inverse:
    """Returns what undoes an edit. Lines were tried: they make the earlier stream bit for bit."""
    tried: Union[Script, Values, None] = None
    if undoing.lines is not None:
        with contextlib.suppress(Fault):
            if streams.edit(later, count, undoing.lines, options)[0] == earlier:
                tried = undoing.values or Script.of(undoing.lines)
    return least_inverse(earlier, later, tried)


def shape_for(facts: Facts, count: int) -> Optional[tuple[int, ...]]:
    """Returns the shape for another number of samples: the first size changes. None if there is no
    such shape."""
    if facts.shape is None or count == facts.count:
        return facts.shape
    rest = math.prod(facts.shape[1:])
    return None if rest == 0 or count % rest else (count // rest, *facts.shape[1:])


def replace(
    it: Held,
    stream: bytes,
    state: State,
    history: Sequence[_history.Entry],
    shape: Optional[tuple[int, ...]],
) -> None:
    """Replaces a kept file by a stream that must have this state. The new file is decoded before it
    replaces the old one."""
    facts = it.facts
    with _saving.replacement(it.path, it.status) as out:
        writer = Writer(out, facts.options)
        writer.write_stream(stream, state.count)
        if writer.end() != state:
            raise Refused(f"{WRONG}: nothing is changed. Please report this")
        writer.finish(history, facts.source, shape, facts.dtype, state.samples)


class Version(NamedTuple):
    """What a kept file contains, or contained before edits."""

    stream: bytes
    state: State
    shape: Optional[tuple[int, ...]]
    history: Sequence[_history.Entry]


def undo(every: bool, limit: Optional[int], found: Found) -> Outcome:
    """Undoes the last edit of a kept file. With `every` undoes all edits, or none; then a file
    without edits to undo stays as it is, instead of raising Refused."""
    with held(found.path, limit) as it:
        facts, history = it.facts, it.kept.history()
        place = last = _history.last_edit(history)
        if last is None:
            if every:
                return Outcome("unchanged", NOTHING)
            raise Refused(NOTHING)
        version, number = Version(it.stream(), facts.state, facts.shape, history), 0
        while place is not None and (every or number == 0):
            version, number = before_edit(version, place, facts.options), number + 1
            place = _history.last_edit(version.history)
        replace(it, version.stream, version.state, version.history, version.shape)
        what = f"the edit of {history[last].when} is" if number == 1 else f"{number} edits are"
        return Outcome("undone", f"{what} undone, bit for bit: {version.state.count} samples")


def before_edit(version: Version, place: int, options: Options) -> Version:
    """Returns what a file contained before the edit with this place in its history, and the history
    with an entry more: now this edit was undone. Raises Refused if the stream isn't the recorded
    one."""
    entry = version.history[place]
    wanted = entry.before
    if wanted is None:
        raise Refused("the history has nothing that undoes the last edit")
    earlier = earlier_stream(options, version.stream, version.state.count, entry)
    if Sum.of(earlier) != wanted.stream:
        raise Refused("the earlier stream can't be restored bit for bit: nothing is changed")
    entries = _history.with_undo(version.history, place, version.state)
    return Version(earlier, wanted, entry.shape, entries)


def earlier_stream(options: Options, stream: bytes, count: int, entry: _history.Entry) -> bytes:
    """Returns the stream before an edit, as its inverse makes it of a stream of `count` samples."""
    inverse, wanted = entry.inverse, entry.before
    assert inverse is not None and wanted is not None
    if isinstance(inverse, Difference):
        return apply_difference(inverse, stream, wanted.stream.bytes)
    if isinstance(inverse, Values):
        script = b"".join(inverse.lines(overwritten(entry, wanted.count, options), options))
    else:
        script = inverse.text(options)
    try:
        return streams.edit(stream, count, script, options)[0]
    except Fault as fault:
        raise Refused(f"what undoes the edit doesn't fit: {fault}") from None


def overwritten(entry: _history.Entry, count: int, options: Options) -> list[tuple[int, int]]:
    """Returns the places that the script of an entry overwrites. Raises Damaged if it does anything
    else."""
    assert entry.script is not None
    checked = judged(entry.script.text(options), count, options, allow_empty=True)
    if checked.complaints or any(edit.name != "overwrite" for edit in checked.edits):
        raise bad_history("a script that values undo isn't one of overwrites")
    return places_in(Result(count, checked.edits))


def forget(keep: int, limit: Optional[int], found: Found) -> Outcome:
    """Drops the history of a kept file except its last entries."""
    with held(found.path, limit) as it:
        history = it.kept.history()
        left = _history.forgotten(history, keep)
        if len(left) >= len(history) and left == history:
            return Outcome("unchanged", f"it has only {len(history)} entries: nothing is dropped")
        stream = it.stream()
        size = it.kept.size
        replace(it, stream, it.facts.state, left, it.facts.shape)
        now = os.stat(found.path).st_size
        return Outcome("forgotten", f"{keep} entries stay, {size} bytes became {now}")
