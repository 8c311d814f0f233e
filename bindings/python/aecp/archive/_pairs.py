"""Reads pairs of the older form: FILE.aec, with FILE.aec.json or FILE.aec.note beside it.

Nothing writes this form any more. A pair becomes the bytes of a file of today's form, in memory.
"""

from __future__ import annotations

import base64
import contextlib
import io
import os
import stat
import zlib
from typing import Any, Optional

from aecp.archive._file import OnDisk
from aecp.archive._form import (
    OPTION_FIELDS,
    Damaged,
    Facts,
    Refused,
    Sum,
    dumped,
    options_in,
    source_in,
    state_in,
    state_json,
    sum_in,
)
from aecp.archive._history import CONTAINERS, MOST_ENTRIES, MOST_HISTORY, Entry, entry_in
from aecp.archive._strict import Wrong, digits, members, number, parse
from aecp.archive._writer import Writer
from aecp.options import FLAGS

NOTE, OLD_NOTE = ".json", ".note"
NOTE_FIELDS = frozenset(
    ["format", "written_by", "written", "options", "samples", "stream", "source", "history"]
)
LETTERS = dict(zip("s m 3 N p t".split(), FLAGS))
NUMBERS = {"-n": "bits", "-j": "block_size", "-r": "interval"}


def note_at(path: str) -> Optional[str]:
    """Returns the path of the note beside a stream, or None."""
    for note in (path + NOTE, path + OLD_NOTE):
        with contextlib.suppress(OSError):
            if stat.S_ISREG(os.lstat(note).st_mode):
                return note
    return None


def converted(path: str, limit: Optional[int] = None) -> Optional[bytes]:
    """Returns the bytes of a FILE.aec of today's form, made from a pair, which stays; or None, if
    there is no note.

    limit: the most samples that it may have.

    Raises OSError; Damaged if the pair is damaged; Refused if it has more samples than the limit.
    """
    note = note_at(path)
    if note is None:
        return None
    try:
        data = whole(note, MOST_HISTORY)
        facts, history = new_note(data) if note.endswith(NOTE) else old_note(data)
    except Wrong as wrong:
        raise Damaged("bad trailer", f"the note beside it is damaged: {wrong}") from None
    except (KeyError, RecursionError, TypeError, ValueError):
        raise Damaged("bad trailer", "the note beside it is damaged") from None
    if limit is not None and facts.count > limit:
        raise Refused(f"it has {facts.count} samples, more than the limit {limit}")
    stream = whole(path, facts.stream.bytes)
    if Sum.of(stream) != facts.stream:
        raise Damaged("other samples", "the stream's SHA-256 isn't that of its note")
    file = io.BytesIO()
    writer = Writer(file, facts.options)
    writer.write_stream(stream, facts.count)
    if writer.end() != facts.state:
        raise Damaged("other samples", "the samples' SHA-256 isn't that of the note")
    writer.finish(history, facts.source)
    return file.getvalue()


def whole(path: str, most: int) -> bytes:
    """Returns the bytes of a regular file. Raises Damaged if there are more than `most`."""
    with contextlib.closing(OnDisk(path)) as file:
        if file.size > most:
            raise Damaged("other samples", f"it has {file.size} bytes, more than its {most}")
        return file.read(0, file.size)


def new_note(data: bytes) -> tuple[Facts, list[Entry]]:
    """Returns what FILE.aec.json says. Raises Wrong."""
    fields = parse(data, CONTAINERS * MOST_ENTRIES)
    given = fields.pop("note_sha256", None) if type(fields) is dict else None
    members(fields, NOTE_FIELDS, "the note")
    number(fields["format"], 1, 1, "format")
    if digits(given, "note_sha256") != Sum.of(dumped(fields)).sha256:
        raise Wrong("it has another SHA-256 than it says")
    options = options_in(fields["options"])
    state = state_in({name: fields[name] for name in ("samples", "stream")}, options.storage)
    source = fields["source"] and {**fields["source"], "head": "", "tail": ""}
    kept = source_in(source) if source else None
    history: list[Entry] = []
    for entry in fields["history"]:
        history.append(entry_in(new_entry(entry), history))
    return Facts(options, state.count, state.samples, state.stream, source=kept), history


def new_entry(entry: Any) -> Any:
    """Returns an entry of a note's history as histories have them now. Raises Wrong."""
    if type(entry) is not dict or entry.get("what") != "edit":
        return entry
    inverse = entry.get("inverse")
    if type(inverse) is dict and type(inverse.get("stream")) is str:
        earlier = base64.b64decode(inverse["stream"], validate=True)
        middle = base64.b64encode(zlib.compress(earlier, 9)).decode("ascii")
        inverse = {"difference": {"front": 0, "end": 0, "middle": middle}}
    elif type(inverse) is dict:
        inverse = {"script": packed(inverse["script"])}
    return {**entry, "script": packed(entry["script"]), "inverse": inverse, "shape": None}


def packed(script: Any) -> str:
    """Returns a script as histories have it now. Raises Wrong if it is no text."""
    if type(script) is not str:
        raise Wrong("a script is no text")
    raw = script.encode("utf-8", "surrogateescape")
    return base64.b64encode(zlib.compress(raw, 9)).decode("ascii")


def old_note(data: bytes) -> tuple[Facts, list[Entry]]:
    """Returns what FILE.aec.note of the former keep.sh says. Raises Wrong, KeyError, ValueError."""
    fields = dict(line.split(" ", 1) for line in data.decode("ascii").splitlines())
    given: dict[str, Any] = {name: False for name in OPTION_FIELDS}
    given.update({"preprocess": True, "block_size": 16, "interval": 128})
    words = iter(fields["options"].split())
    for word in words:
        if word in NUMBERS:
            given[NUMBERS[word]] = int(next(words, "")[:5])
        elif word == "--even-blocks":
            given["even_blocks"] = True
        else:
            given[LETTERS[word[1:]]] = word != "-N"
    options = options_in(given)
    samples = sum_in({"bytes": int(fields["bytes"][:14]), "sha256": fields["sha256"]}, "samples")
    coded = {"bytes": int(fields["coded_bytes"][:14]), "sha256": fields["coded_sha256"]}
    facts = Facts(options, int(fields["count"][:11]), samples, sum_in(coded, "stream"))
    state_in(state_json(facts.state), options.storage)  # raises Wrong if they don't fit
    return facts, []
