"""The verb keep: codes files to FILE.aec, repairs damaged ones, and removes originals."""

from __future__ import annotations

import contextlib
import functools
import math
import os
from collections.abc import Iterable, Iterator
from dataclasses import dataclass, replace
from typing import BinaryIO, Optional

from aecp import streams
from aecp._console import shown
from aecp.archive import _saving
from aecp.archive._file import ArchiveFile, opened
from aecp.archive._form import MOST_SIDE, Damaged, Exists, Facts, Refused, Source
from aecp.archive._headers import Layout, layout_of, options_of
from aecp.archive._history import Entry, keep_entry
from aecp.archive._originals import Reading, original, same, sha256_of
from aecp.archive._outcomes import Outcome, damage_named, shape_text, words_of
from aecp.archive._pairs import converted, note_at
from aecp.archive._paths import Found, made_target, require_kept
from aecp.archive._stored import Scripted
from aecp.archive._whole import is_restored, judge
from aecp.archive._writer import Writer
from aecp.calls import encode
from aecp.faults import Fault, SampleRefused
from aecp.options import Options

POOR = 60  # percent of its file that a stream must have for a hint
SAVING = 10  # percent that a hint must save


@dataclass(frozen=True)
class Keeping:
    """How files are kept.

    options   the options of coding; those of a header replace bits, sign and byte order
    given     which options the user gave, with their values
    to        the folder for new files, or None
    """

    options: Options
    given: dict[str, object]
    to: Optional[str] = None
    skip: int = 0
    shape: Optional[tuple[int, ...]] = None
    dtype: Optional[str] = None
    is_raw: bool = False
    rehash: bool = False
    anyway: bool = False
    repair: bool = False
    remove: bool = False
    limit: Optional[int] = None


@dataclass(frozen=True)
class Plan:
    """What is read from a file, and how it is coded."""

    options: Options
    layout: Layout


def keep(how: Keeping, found: Found) -> Outcome:
    """Keeps a file, or returns why it can't. Raises what reading and writing raise; with `repair`,
    Refused for a file that has no FILE.aec, or an empty one."""
    if how.repair:
        require_kept(found, how.to)
    target = made_target(found, how.to)
    clean(os.path.dirname(target) or ".")
    text = "" if how.repair else _saving.remove_empty(target)
    # The folder is made, and leftovers and an empty FILE.aec are removed, before keep decides.
    if not os.path.lexists(target):
        try:
            outcome = keep_new(how, found, target)
            return replace(outcome, said=outcome.said or text)
        except Exists:  # another run was faster
            pass
    return keep_again(how, found, target)


def keep_new(how: Keeping, found: Found, target: str) -> Outcome:
    """Keeps a file that isn't kept yet. Raises Exists if it is kept meanwhile."""
    with original(found.path) as file:
        before = os.fstat(file.fileno())
        plan = planned(how, file, before.st_size)
        size = before.st_size - plan.layout.head
        if not found.is_named and plan.layout.length is None and size % plan.options.storage:
            why = f"passed over: {size} bytes are no whole samples of {plan.options.storage}"
            return Outcome("passed", why)
        outcome = coded(how, plan, file, before, target)
        return removed(found.path, file, before, outcome) if how.remove else outcome


@functools.lru_cache(maxsize=256)
def clean(folder: str) -> None:
    """Removes what killed runs have left in a folder, once in each process."""
    _saving.remove_leftovers(folder)


def planned(how: Keeping, file: BinaryIO, size: int) -> Plan:
    """Returns what is to be read from a file. Raises Refused if that can't be known or isn't
    there."""
    layout = None if how.is_raw or how.skip else layout_of(file)
    layout = layout or Layout(how.skip, None, how.dtype, how.shape)
    if how.shape is not None:
        layout = replace(layout, shape=how.shape)
    dtype = how.dtype or layout.dtype
    bits = how.given.get("bits")
    if dtype is not None:
        options = options_of(dtype, how.options, bits if isinstance(bits, int) else None)
    elif bits is None:
        raise Refused("its bits aren't known: give -n (only .npy and FITS files say them)")
    else:
        options = how.options
    end = layout.head + (layout.length or 0)
    if end > size:
        raise Refused(f"it is cut: its header names {end} bytes, and it has {size}")
    if layout.head > MOST_SIDE:
        raise Refused("more than 1 MiB lies before the samples")
    if layout.length is not None and size - end > MOST_SIDE:
        raise Refused("more than 1 MiB lies after the samples that its header names")
    return Plan(options, replace(layout, dtype=dtype))


def coded(
    how: Keeping, plan: Plan, file: BinaryIO, before: os.stat_result, target: str
) -> Outcome:
    """Codes a file that isn't kept yet."""
    layout, options = plan.layout, plan.options
    length = before.st_size - layout.head if layout.length is None else layout.length
    if length % options.storage:
        raise Refused(f"it has {length} bytes, no whole samples of {options.storage}")
    if how.limit is not None and length // options.storage > how.limit:
        raise Refused(f"it has {length // options.storage} samples, more than the limit")
    if layout.shape is not None and math.prod(layout.shape) != length // options.storage:
        named = "x".join(map(str, layout.shape))
        raise Refused(f"it has {length // options.storage} samples, and the shape {named} another number")
    reading = Reading(file, before.st_size, layout.head, length)
    with _saving.new_file(target, before.st_mode & 0o666) as out:
        writer = Writer(out, options)
        try:
            for piece in reading.pieces():
                writer.write(piece)
            state = writer.end()
        except SampleRefused as fault:
            more = hint(reading.front, options)
            raise Refused(f"{fault} with {words_of(options)}{more}") from None
        if same(before, os.fstat(file.fileno())) is False:
            raise Refused("it changed while it was read")
        if state.stream.bytes > length and not how.anyway:
            text = f"its stream has {state.stream.bytes} bytes, more than its samples ({length})"
            raise Refused(f"{text}{hint(reading.front, options)}; --anyway keeps it so")
        facts = writer.finish(
            [keep_entry(state)], reading.source(before), layout.shape, layout.dtype
        )
    advice = hint(reading.front, options) if is_poor(facts) else ""
    return Outcome("kept", "", before.st_size, facts.stream.bytes, advice.removeprefix("; "))


def is_poor(facts: Facts) -> bool:
    """Returns whether a stream is so large that other options may be meant."""
    return facts.stream.bytes * 100 > facts.samples.bytes * POOR


def alternatives(options: Options) -> Iterator[tuple[str, Options]]:
    """Yields other options that may be meant, with their words."""
    if options.storage > 1:
        word = "-m" if not options.msb_first else "no -m"
        yield word, replace(options, msb_first=not options.msb_first)
    yield "-s" if not options.signed else "no -s", replace(options, signed=not options.signed)
    for bits in (8, 16, 32):
        if bits != options.bits:
            other = replace(options, bits=bits, restricted=False, three_byte=False)
            yield f"-n {bits}", replace(other, msb_first=False)
            if bits > 8:
                yield f"-n {bits} -m", replace(other, msb_first=True)


def hint(front: bytes, options: Options) -> str:
    """Returns a text that names the options with which the start of a file becomes over 10 %
    smaller, or an empty text."""
    usual = size_with(front, options)
    best = min(
        ((size_with(front, other), words) for words, other in alternatives(options)),
        default=(usual, ""),
    )
    if best[0] * 100 >= min(usual, len(front)) * (100 - SAVING):
        return ""
    instead = f" instead of {usual}" if usual <= len(front) else ""
    return f"; with {best[1]} its first {len(front)} bytes become {best[0]}{instead}"


def size_with(front: bytes, options: Options) -> int:
    """Returns how many bytes the start of a file becomes, or more than it has if it can't be
    coded."""
    if len(front) % options.storage:
        return len(front) + 1
    try:
        return len(encode(front, options))
    except Fault:
        return len(front) + 1


def removed(path: str, file: BinaryIO, before: os.stat_result, outcome: Outcome) -> Outcome:
    """Removes an original that FILE.aec restores. It must still be the very file that was read:
    this is looked at last."""
    if outcome.kind not in ("kept", "skipped", "repaired"):
        return outcome
    if not (same(before, os.fstat(file.fileno())) and same(before, os.lstat(path))):
        return replace(outcome, kind="refused", said="it isn't removed: it changed meanwhile")
    os.unlink(path)
    return replace(outcome, more={"removed": True})


def name_of(how: Keeping, target: str) -> str:
    """Returns what a message calls the kept file, after the name of the original."""
    return "FILE.aec" if how.to is None else shown(target)


def keep_again(how: Keeping, found: Found, target: str) -> Outcome:
    """Returns the outcome for a file that is kept already: skipped, changed, repaired or
    refused."""
    with damage_named(name_of(how, target)):
        return kept_outcome(how, found, target)


def kept_outcome(how: Keeping, found: Found, target: str) -> Outcome:
    """Does what keep_again does. Raises Damaged without the name of the kept file."""
    note = ""
    if is_old(target):
        convert(target)
        note = "its two files of the older form became one"
    if how.repair:
        with _saving.locked(target) as status:
            outcome = repaired(how, found, target, status)
    elif how.remove and is_removed(found, target):
        return Outcome("skipped", note, more={"removed": True})
    else:
        outcome = compared(how, found, target, note)
    if not how.remove or outcome.kind == "changed":
        return outcome
    with original(found.path) as file, opened(target) as kept:
        before = os.fstat(file.fileno())
        if not is_restored(kept, file, before.st_size):
            name = name_of(how, target)
            why = f"it isn't removed: {name} was edited since, or the file has changed"
            return replace(outcome, kind="refused", said=why)
        _saving.sync(target)  # it may be a copy that isn't on the disk yet
        return removed(found.path, file, before, outcome)


def is_removed(found: Found, target: str) -> bool:
    """Returns whether an original was there when the run began, isn't any more, and its size is
    that of the file that was kept: a process of this run may have removed it, and died."""
    if not found.inode or os.path.lexists(found.path):
        return False
    with opened(target) as kept:
        source = kept.facts.source
    return source is not None and source.bytes == found.size


def is_old(target: str) -> bool:
    """Returns whether a kept file has the older form: a plain stream with a note beside it."""
    if note_at(target) is None:
        return False
    try:
        ArchiveFile.open(target).close()
        return False
    except Damaged as error:
        return error.kind == "no trailer"


def convert(target: str) -> None:
    """Makes one file of a kept file of the older form."""
    with _saving.locked(target) as status:
        note, data = note_at(target), converted(target)
        if note is None or data is None:
            raise Refused("its note of the older form is gone")
        with ArchiveFile.of_bytes(data) as kept:
            judge(kept)
        with _saving.replacement(target, status) as out:
            out.write(data)
    with contextlib.suppress(FileNotFoundError):
        os.unlink(note)


def compared(how: Keeping, found: Found, target: str, note: str) -> Outcome:
    """Returns whether an original is still the one that was kept."""
    with opened(target, how.limit) as kept:
        facts = kept.facts
    with original(found.path) as file:
        status = os.fstat(file.fileno())
        source = facts.source or Source(facts.samples.bytes, facts.samples.sha256, -1)
        is_same = status.st_size == source.bytes
        if is_same and (status.st_mtime_ns != source.mtime_ns or how.rehash):
            is_same = sha256_of(file) == source.sha256
    if not is_same:
        why = "it has changed since it was kept"
        if how.to is not None:
            why += ", or another file of its name was kept"
        return Outcome("changed", f"{why}: move {name_of(how, target)} away to keep it anew")
    return Outcome("skipped", note or other_options(how, facts))


def other_options(how: Keeping, facts: Facts) -> str:
    """Returns a text if the user gave options, a shape or a type other than the recorded ones."""
    recorded = facts.options
    if any(getattr(recorded, name) != value for name, value in how.given.items()):
        return f"it is kept already, with other options: {words_of(recorded)}"
    if how.shape not in (None, facts.shape) or how.dtype not in (None, facts.dtype):
        return f"it is kept already, as {shape_text(facts)}"
    return ""


def repaired(how: Keeping, found: Found, target: str, status: os.stat_result) -> Outcome:
    """Makes a locked kept file anew from its original, if it is damaged."""
    try:
        with ArchiveFile.open(target) as kept:
            facts = kept.facts
            try:
                judge(kept)
                return Outcome("skipped")
            except Damaged:
                history = history_or_none(kept)
    except Damaged as error:
        text = f"{name_of(how, target)} can't be repaired: {error}"
        raise Refused(f"{text}. Move it away, and keep the file anew") from None
    with original(found.path) as file:
        rebuild(file, target, status, facts, history)
    return Outcome("repaired", "", found.size, facts.stream.bytes)


def history_or_none(kept: ArchiveFile) -> Optional[list[Entry]]:
    """Returns the history of a damaged file, or None if it is damaged too."""
    try:
        return kept.history()
    except Damaged:
        return None


def rebuild(
    file: BinaryIO,
    target: str,
    status: os.stat_result,
    facts: Facts,
    history: Optional[list[Entry]],
) -> None:
    """Writes a kept file anew from its original. Raises Refused if the original has other sums."""
    before = os.fstat(file.fileno())
    source = facts.source
    head, tail = (source.head, source.tail) if source else (b"", b"")
    length = before.st_size - len(head) - len(tail)
    reading = Reading(file, before.st_size, len(head), max(length, 0))
    with _saving.replacement(target, status) as out:
        writer = Writer(out, facts.options)
        scripts = scripts_since(history)
        if scripts:
            write_edited(writer, reading.pieces(), facts.options, scripts)
        else:
            for piece in reading.pieces():
                writer.write(piece)
        if source is not None and reading.digest.hexdigest() != source.sha256:
            raise Refused("it isn't the file that was kept: its checksum isn't the recorded one")
        if writer.end().samples != facts.samples:
            raise Refused("its samples aren't those that are recorded: FILE.aec was edited since")
        entries = [keep_entry(writer.end())] if history is None else history
        writer.finish(entries, source, facts.shape, facts.dtype, facts.samples)


def scripts_since(history: Optional[list[Entry]]) -> list[Scripted]:
    """Returns the scripts of all edits since a file was kept that weren't undone."""
    entries = history or []
    undone = {it.edit for it in entries if it.what == "undo"}
    edits = [it for i, it in enumerate(entries) if it.what == "edit" and i not in undone]
    return [it.script for it in edits if it.script is not None]


def write_edited(
    writer: Writer, samples: Iterable[bytes], options: Options, scripts: list[Scripted]
) -> None:
    """Writes the stream of an original to which the recorded edits are applied again."""
    coder = streams.Encoder(options)
    coded = bytearray()
    for piece in samples:
        coded += coder.feed(piece)
    stream, count = bytes(coded + coder.finish()), coder.count
    for script in scripts:
        try:
            stream, count = streams.edit(stream, count, script.text(options), options)
        except Fault as fault:
            raise Refused(f"the recorded edits can't be applied again: {fault}") from None
    writer.write_stream(stream, count)
