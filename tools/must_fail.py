"""Reads the must-fail edits of the crates, and applies them.

The gate tries the edits in the files of crates/CRATE/must-fail/. The entries of
crates/CRATE/more-must-fail.txt are the other edits.
"""

import os
import re
from typing import NamedTuple

from sources import TOP, files_below, text_of


class Unusable(Exception):
    """Why an edit can't be applied."""


class Change(NamedTuple):
    """A place that an edit changes: a file, from the crate's folder, a text in it and the new one."""

    file: str
    old: str
    new: str


class Edit(NamedTuple):
    """A must-fail edit."""

    crate: str
    name: str
    is_in_gate: bool
    # The changes before the first line that has a fault.
    changes: list
    # What is wrong with its lines, whatever the files contain. Empty if nothing is.
    fault: str


def read_changes(text):
    """Returns the changes of an edit's text, and what is wrong with its lines.

    Each change has the lines `file: PATH`, `old: TEXT` and `new: TEXT`. Without a line `file` it is
    in the file of the change before.
    """
    changes, file, old = [], "", ""
    for line in text.rstrip("\n").split("\n"):
        word, is_one, rest = line.partition(":")
        rest = rest.removeprefix(" ")
        if not is_one or word not in ("file", "old", "new"):
            return changes, f"it has a line that is no file, old or new text: {line}"
        if word == "old" and old:
            return changes, f"this old text has no new one: {old}"
        if word == "new" and not (file and old):
            return changes, "a new text comes before any file and old text"
        if word == "new" and rest == old:
            return changes, f"this new text is the old one: {old}"
        if word == "file":
            file = rest
        elif word == "old":
            old = rest
        else:
            changes.append(Change(file, old, rest))
            old = ""
    if old:
        return changes, "its last old text has no new one"
    return changes, "" if changes else "it changes nothing"


def gate_edits_of(crate):
    """Returns the edits of a crate's must-fail/."""
    edits = []
    for path in files_below(f"crates/{crate}/must-fail", ".edit"):
        name = os.path.basename(path).removesuffix(".edit")
        edits.append(Edit(crate, name, True, *read_changes(text_of(path))))
    return edits


def other_edits_of(crate):
    """Returns the edits of a crate's more-must-fail.txt.

    Empty lines separate the entries. An entry is a line `name: NAME`, and then the text of a must-fail
    edit as in must-fail/. Lines that begin with `#` in place of an entry are a comment.
    """
    path = f"crates/{crate}/more-must-fail.txt"
    text = text_of(path) if os.path.exists(os.path.join(TOP, path)) else ""
    parts = re.split(r"\n{2,}", text.strip("\n")) if text else []
    entries = [part for part in parts if not all(line.startswith("#") for line in part.split("\n"))]
    heads = [entry.partition("\n") for entry in entries]
    return [Edit(crate, head.removeprefix("name: "), False, *read_changes(rest)) for head, _, rest in heads]


def edits_of(crate):
    """Returns all edits of a crate, those of the gate first."""
    return gate_edits_of(crate) + other_edits_of(crate)


def changed_texts(edit, folder):
    """Returns the texts that an edit changes, by their path in the crate.

    Reads the crate in this folder, whose path is absolute. Raises Unusable if the edit can't be
    applied there, and OSError if a file can't be read.
    """
    texts = {}
    for file, old, new in edit.changes:
        if file not in texts:
            texts[file] = text_of(os.path.join(folder, file))
        if texts[file].count(old) != 1:
            raise Unusable(f"its old text is in {file} {texts[file].count(old)} times, and not once")
        texts[file] = texts[file].replace(old, new)
    if edit.fault:
        raise Unusable(edit.fault)
    return texts
