"""The history of a file: what was done to it, and what undoes it."""

from __future__ import annotations

import dataclasses
import zlib
from collections.abc import Sequence
from dataclasses import dataclass
from typing import Any, Optional

from aecp import __version__
from aecp.archive._form import (
    MOST_BYTES,
    MOST_COUNT,
    STATE_FIELDS,
    Damaged,
    Facts,
    Refused,
    State,
    dumped,
    now,
    shape_in,
    state_in,
    state_json,
)
from aecp.archive._stored import (
    Difference,
    Inverse,
    Pixels,
    Script,
    Scripted,
    Values,
    inverse_in,
    inverse_json,
    script_in,
    script_json,
)
from aecp.archive._strict import Wrong, members, number, text, time_of, unpack_json

WRITER = f"aecp {__version__}"
MOST_HISTORY = 64 << 20  # bytes of a history that is unpacked
MOST_ENTRIES = 1 << 14
CONTAINERS = 16  # lists and objects in an entry, and more than it has
WHAT = {
    "keep": ("after",),
    "edit": ("before", "after", "samples_changed", "script", "inverse", "shape"),
    "undo": ("before", "after", "edit"),
    "forget": ("entries",),
}
ENTRY_FIELDS = frozenset(["what", "when", "by"])
SAME = frozenset(["same"])


@dataclass(frozen=True)
class Entry:
    """One entry of a history. What an entry of its kind doesn't have is None.

    what             "keep", "edit", "undo" or "forget"
    when, by         the time in UTC, and the program
    before, after    the file's state before (edit, undo) and after (keep, edit, undo)
    samples_changed  how many samples an edit changed, inserted or removed
    script, inverse  what an edit applied, and what undoes it; the inverse is None once it was used
    shape            the file's shape before an edit, or None
    edit             the place of the entry that an undo took back, counted from 0; None if that
                     entry was forgotten
    entries          how many entries a forget has dropped
    """

    what: str
    when: str
    by: str
    before: Optional[State] = None
    after: Optional[State] = None
    samples_changed: Optional[int] = None
    script: Optional[Scripted] = None
    inverse: Optional[Inverse] = None
    shape: Optional[tuple[int, ...]] = None
    edit: Optional[int] = None
    entries: Optional[int] = None


# What is done.


def keep_entry(after: State) -> Entry:
    """Returns an entry: now the file was kept."""
    return Entry("keep", now(), WRITER, after=after)


def edit_entry(
    facts: Facts, after: State, samples_changed: int, script: Scripted, inverse: Inverse
) -> Entry:
    """Returns an entry: now the file with these facts was edited."""
    return Entry(
        "edit",
        now(),
        WRITER,
        before=facts.state,
        after=after,
        samples_changed=samples_changed,
        script=script,
        inverse=inverse,
        shape=facts.shape,
    )


def with_undo(history: Sequence[Entry], edit: int, before: State) -> list[Entry]:
    """Returns a history with an entry more: now the edit with this place was undone. That edit's
    inverse is dropped."""
    undone = history[edit]
    made = Entry("undo", now(), WRITER, before=before, after=undone.before, edit=edit)
    dropped = dataclasses.replace(undone, inverse=None)
    return [*history[:edit], dropped, *history[edit + 1 :], made]


def forgotten(history: Sequence[Entry], keep: int) -> list[Entry]:
    """Returns a history without its older entries: the last `keep` entries, after one that says
    how many were dropped, those of earlier calls too. A history that is short enough stays."""
    earlier = history[0].entries if history and history[0].what == "forget" else None
    rest = history if earlier is None else history[1:]
    if len(rest) <= keep:
        return list(history)
    dropped = len(rest) - keep
    moved = dropped - 1 if earlier is None else dropped  # by so much each place becomes smaller
    first = Entry("forget", now(), WRITER, entries=dropped + (earlier or 0))
    return [first, *(with_place_moved(entry, moved) for entry in rest[dropped:])]


def with_place_moved(entry: Entry, moved: int) -> Entry:
    """Returns an entry whose `edit` names the same entry, at a place that is smaller by `moved`; or
    None, if that entry was dropped."""
    if entry.edit is None:
        return entry
    place = entry.edit - moved
    return dataclasses.replace(entry, edit=place if place > 0 else None)


def last_edit(history: Sequence[Entry]) -> Optional[int]:
    """Returns the place of the last edit that can be undone, or None."""
    places = (i for i in reversed(range(len(history))) if history[i].what == "edit")
    return next((i for i in places if history[i].inverse is not None), None)


# Writing.


def packed_history(history: Sequence[Entry]) -> bytes:
    """Returns the bytes of a history in a file. Raises Refused if it is too long."""
    places: dict[tuple[str, Any], int] = {}
    entries = [entry_json(place, entry, places) for place, entry in enumerate(history)]
    listed = dumped(entries)
    if len(history) > MOST_ENTRIES or len(listed) > MOST_HISTORY:
        text = "its history would become too long"
        raise Refused(f"{text}: `aecp forget` makes it shorter, or divide the script")
    return zlib.compress(listed, 9)


def entry_json(place: int, entry: Entry, places: dict[tuple[str, Any], int]) -> dict[str, Any]:
    """Returns the fields of an entry. `places` has, for each script and inverse of earlier entries,
    the place of the first entry that has it."""
    fields: dict[str, Any] = {"what": entry.what, "when": entry.when, "by": entry.by}
    for name in WHAT[entry.what]:
        value = getattr(entry, name)
        if isinstance(value, State):
            value = state_json(value)
        elif isinstance(value, (Script, Pixels, Values, Difference)):
            first = places.setdefault((name, value), place)
            is_first = first == place
            value = WRITERS[name](value) if is_first else {"same": first}
        fields[name] = value
    return fields


# Reading.


def history_of(data: bytes) -> list[Entry]:
    """Returns the history in these bytes of a file. Raises Damaged("bad history")."""
    try:
        listed = unpack_json(data, MOST_HISTORY, CONTAINERS * MOST_ENTRIES)
        if type(listed) is not list or len(listed) > MOST_ENTRIES:
            raise Wrong(f"it isn't a list of at most {MOST_ENTRIES} entries")
        listed.reverse()
        history: list[Entry] = []
        while listed:
            history.append(entry_in(listed.pop(), history))
    except Wrong as wrong:
        raise Damaged("bad history", f"the history is damaged: {wrong}") from None
    return history


def entry_in(value: Any, earlier: Sequence[Entry]) -> Entry:
    """Returns an entry, after the earlier ones. Raises Wrong."""
    what = value.get("what") if type(value) is dict else None
    if type(what) is not str or what not in WHAT:
        raise Wrong("an entry is of no known kind")
    if what == "forget" and earlier:
        raise Wrong("an entry of the kind forget isn't the first")
    fields = members(value, ENTRY_FIELDS.union(WHAT[what]), "an entry")
    given = {name: READERS[name](fields[name], earlier) for name in WHAT[what] if name != "shape"}
    if "shape" in fields:
        given["shape"] = shape_in(fields["shape"], given["before"].count)
    return Entry(what, time_of(fields["when"], "when"), text(fields["by"], "by"), **given)


def state_field(value: Any, _: Sequence[Entry]) -> State:
    return state_in(members(value, STATE_FIELDS, "a state"))


def changed_field(value: Any, _: Sequence[Entry]) -> int:
    return number(value, 0, MOST_COUNT, "samples_changed")


def entries_field(value: Any, _: Sequence[Entry]) -> int:
    return number(value, 1, MOST_BYTES, "entries")


def edit_field(value: Any, earlier: Sequence[Entry]) -> Optional[int]:
    """Returns the place of an earlier edit. None is one that was forgotten."""
    if value is None and earlier and earlier[0].what == "forget":
        return None
    place = number(value, 0, len(earlier) - 1, "edit")
    if earlier[place].what != "edit" or earlier[place].inverse is not None:
        raise Wrong("an undo is of no edit that was undone")
    return place


def script_field(value: Any, earlier: Sequence[Entry]) -> Scripted:
    if type(value) is dict and "same" in value:
        same: Scripted = same_of(value, "script", earlier)
        return same
    return script_in(value)


def inverse_field(value: Any, earlier: Sequence[Entry]) -> Optional[Inverse]:
    if value is None:
        return None
    if type(value) is not dict or len(value) != 1:
        raise Wrong("inverse has other fields than it must have")
    return same_of(value, "inverse", earlier) if "same" in value else inverse_in(value)


def same_of(value: dict[str, Any], name: str, earlier: Sequence[Entry]) -> Any:
    """Returns the script or the inverse of the earlier entry that `same` names. Raises Wrong."""
    place = number(members(value, SAME, name)["same"], 0, len(earlier) - 1, "same")
    found = getattr(earlier[place], name)
    if found is None:
        raise Wrong(f"same names an entry without {name}")
    return found


WRITERS: dict[str, Any] = {"script": script_json, "inverse": inverse_json}
READERS: dict[str, Any] = {
    "before": state_field,
    "after": state_field,
    "samples_changed": changed_field,
    "script": script_field,
    "inverse": inverse_field,
    "edit": edit_field,
    "entries": entries_field,
}
