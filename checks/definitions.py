#!/usr/bin/env python3
"""Checks the comments over the definitions of crates/*/specs: definitions.py

Each definition that the contract of a public function, type or trait cites, directly or through other definitions, has a sentence. In
comments `§7` names a section of docs/FORMAT.md, and `COMMAND: Edits` a part of docs/COMMAND.md, that exist. A file whose definitions
are all for proofs alone begins with the line MARK, except files `..Examples.antt`, and no other file does.

Prints what is wrong. The last line counts what passed and failed. Ends with status 1 if something failed.
"""

import os
import re
import sys

sys.path.insert(0, os.path.join(os.path.dirname(os.path.abspath(__file__)), "..", "tools"))

from sources import TOP, all_crates, ended, files_below, text_of
from theorem import DECLARED, Library, Word

MARK = "-- For proofs alone: no public contract cites this file."
SECTION = re.compile(r"§(\d+)")
PART = re.compile(r"COMMAND: ([^;)]*)")


def spec_files(crate):
    """Yields the files of a crate's definitions, in the order of its specs/Lib.antt."""
    index = f"crates/{crate}/specs/Lib.antt"
    if os.path.exists(os.path.join(TOP, index)):
        for name in re.findall(r"^pub mod (\w+)", text_of(index), re.M):
            yield f"crates/{crate}/specs/{name}.antt"


def headings(page):
    return re.findall(r"(?m)^##+ (.*)", text_of(page))


def lost_places(crates):
    """Yields the sections and parts that comments name and that don't exist."""
    sections = {name.split(".")[0] for name in headings("docs/FORMAT.md")}
    parts = headings("docs/COMMAND.md")
    for path in (path for crate in crates for path in spec_files(crate)):
        comments = " ".join(re.findall(r"(?m)^-- (.*)", text_of(path)))
        yield from (f"{path}: docs/FORMAT.md has no section {it}" for it in SECTION.findall(comments) if it not in sections)
        for told in PART.findall(comments):
            if not any(re.match(rf"{re.escape(name)}(?!\w)", told) for name in parts):
                yield f"{path}: docs/COMMAND.md has no part {told}"


def contract_lines(lines, start):
    """Returns a function's signature and contract: from its first line to the line with its brace or semicolon."""
    for at in range(start, len(lines)):
        if lines[at].strip() in ("{", "{}") or lines[at].endswith(";"):
            return lines[start : at + 1]
    return lines[start:]


def public_roots(library, crates):
    """Yields each public item of the crates, without crates of tests, as its file and its lines there."""
    for crate in crates.values():
        if crate.name.endswith("_tests"):
            continue
        for one in crate.functions:
            if one.is_public:
                file = library.file(one.file)
                yield file, contract_lines(file.text.split("\n"), one.at)
        for path in files_below(f"crates/{crate.name}/src", ".rt"):
            file = library.file(path)
            for item in {item.at: item for item in file.items.values()}.values():
                if item.name in crate.exports and DECLARED.match(item.lines[0]):
                    yield file, item.lines


def cited_by(library, roots):
    """Returns the keys of all items that these lines cite, directly or through other items."""
    found, left = set(), list(roots)
    while left:
        file, lines = left.pop()
        for meaning in library.cited(file, lines):
            if not isinstance(meaning, Word) and meaning.key() not in found:
                found.add(meaning.key())
                left.append((library.file(meaning.path), meaning.lines))
    return found


def marked_wrongly(library, crates, public):
    """Yields a message for each file that lacks MARK, or has it although a public contract cites the file."""
    for crate in crates:
        for path in spec_files(crate):
            items = library.file(path).items.values()
            is_private = bool(items) and not any(item.key() in public for item in items)
            if not path.endswith("Examples.antt") and is_private != text_of(path).startswith(MARK + "\n"):
                yield f"{path} {'lacks' if is_private else 'is cited, in spite of'} the line '{MARK}'"


def without_sentence(library, public):
    """Yields the definitions that a public contract cites and that have no sentence."""
    for path, file in sorted(library.files.items()):
        items = file.items.values() if "/specs/" in path else ()
        silent = {item.at: item.name for item in items if item.key() in public and not item.words}
        yield from (f"{path}: {name} has no sentence" for name in silent.values())


def main():
    library, crates = Library(), all_crates()
    public = cited_by(library, public_roots(library, crates))
    wrongs = [*lost_places(crates), *marked_wrongly(library, crates, public), *without_sentence(library, public)]
    return ended(len(public), wrongs)


if __name__ == "__main__":
    sys.exit(main())
