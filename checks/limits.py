#!/usr/bin/env python3
"""Checks the limits of the house: limits.py [FOLDER]

Prints each place of the crates, each script of too many lines, and each line of Python of too many columns, that breaks a
limit; what is wrong with the pages that are written by hand (page_limits.py: text in two pages, links), and, as a note, which of them
have many words; copies of a file that differ; and each exception that nothing needs. The last line counts the files that keep the limits,
and the failures. Ends with status 1 if something failed.

Exempt are what the formatter writes on one line (`use`, attributes) and the rows of a table within a text.
"""

import os
import re
import sys
from typing import NamedTuple

sys.path.insert(0, os.path.dirname(os.path.abspath(__file__)))

import page_limits

TOP = os.path.abspath(sys.argv[1] if len(sys.argv) > 1 else os.path.join(os.path.dirname(__file__), ".."))
CODE, DEFINITIONS = 400, 150  # lines of a file
TEXT = 100  # columns of code, clauses and comments
SPEC, PROOF = 120, 160  # columns of a definition, of a proof
SCRIPT = 140  # columns of Python
BODY, DEFINITION, ANSWER = 40, 20, 20  # lines
NAMES = 40  # of one `use`
COPIES = ("asserts.rt", "tables.rt")  # crates of tests have copies of these, so that none waits for another's proof
USE = re.compile(r"\s*(pub |pub\(crate\) |ghost )*use ")

# Exceptions: the file, the start of the line or the name, and why.
ALLOWED = {
    ("crates/aec_block_tests/src/pairs.rt", "judges_the_members_of_pairs"): "rows of a table",
    ("crates/aec_interval/specs/CutLaws.antt", "CutsMakeNoDifference"): "one record, with a sentence for each member",
    ("crates/aec_params/specs/EditLaws.antt", "MovesByLength"): "one record, with a sentence for each member",
    ("crates/aec_edit/src/workspace.rt", "ghost written:"): "the formatter writes it on one line",
    ("crates/aec_block/proofs/reading/pairs/read_long_pairs/Answers.antt", "loop-i-preserved"): "one record, a line for each member",
    ("crates/aec_edit/proofs/workspace/Workspace/code_fresh/Answers.antt", "loop-left-preserved"): "one record, a line for each member",
}


class Place(NamedTuple):
    path: str
    line: int
    what: str
    start: str

    def __str__(self):
        return f"{self.path}:{self.line}: {self.what}: {self.start[:60]}"


def files():
    """Yields the paths of all texts that have limits."""
    for folder, inner, names in os.walk(TOP):
        inner[:] = sorted(it for it in inner if it not in ("out", "bin", ".git", "__pycache__"))
        for name in sorted(names):
            if name.endswith((".rt", ".antt", ".py", ".sh")):
                yield os.path.relpath(os.path.join(folder, name), TOP)


def outside_texts(lines):
    """Yields the lines that aren't part of a string of several lines, each with its number."""
    inside = False
    for number, line in enumerate(lines, 1):
        marks = len(re.findall(r'(?<!\\)"', line)) if not line.lstrip().startswith("//") else 0
        was, inside = inside, inside != (marks % 2 == 1)
        if not (was or inside):
            yield number, line


def wide_lines(path, lines):
    if path.endswith(".rt"):
        for number, line in outside_texts(lines):
            if len(line) > TEXT and not USE.match(line) and not line.lstrip().startswith("#["):
                yield Place(path, number, f"{len(line)} columns", line.strip())
    elif path.endswith(".antt"):
        for number, line in enumerate(lines, 1):
            is_comment = line.lstrip().startswith("--")
            most = TEXT if is_comment else SPEC if "/specs/" in path else PROOF
            if len(line) > most and not USE.match(line):
                yield Place(path, number, f"{len(line)} columns", line.strip())
    elif path.endswith(".py"):
        for number, line in enumerate(lines, 1):
            if len(line) > SCRIPT:
                yield Place(path, number, f"{len(line)} columns", line.strip())


def long_uses(path, lines):
    for number, line in enumerate(lines, 1):
        names = re.search(r"\{(.*)\}", line)
        if USE.match(line) and names and names.group(1).count(",") >= NAMES:
            yield Place(path, number, f"{names.group(1).count(',') + 1} names", line.strip())


def long_file(path, lines):
    most = DEFINITIONS if "/specs/" in path else CODE
    if len(lines) > most:
        yield Place(path, len(lines), f"{len(lines)} lines", path)


def long_bodies(path, lines):
    """Yields functions whose body has too many lines. Its brace ends the signature, or has a line of its own."""
    begun = None
    for number, line in enumerate(lines, 1):
        indent = len(line) - len(line.lstrip())
        head = re.match(r"\s*(pub(\(crate\))? )?(extern \"C\" )?fn (\w+)", line)
        if head:
            name, depth, begun = head.group(4), indent, None
        if line.rstrip().endswith("{") and head is None and line.strip() == "{" or head and line.rstrip().endswith("{"):
            begun = number if begun is None else begun
        if begun and line.rstrip() == " " * depth + "}":
            if number - begun - 1 > BODY:
                yield Place(path, begun, f"a body of {number - begun - 1} lines", name)
            begun = None


def long_parts(path, lines, most, what):
    """Yields top-level parts of an .antt file that are too long, not counting the comment above them."""
    begun, name = None, ""
    for number, line in enumerate(lines + ["end"], 1):
        starts = line and not line[0].isspace() and not line.startswith(("--", "}", "where"))
        word = re.match(r"(?:abbrev |pub |def |record |data |unfoldable )*(\S+)", line)
        same = starts and word and word.group(1) == name
        if starts and not same:
            if begun and name not in ("use", "mod") and last - begun + 1 > most:
                yield Place(path, begun, f"{what} of {last - begun + 1} lines", name)
            begun, name = number, word.group(1) if word else ""
        if line.strip() and not line.startswith("--"):
            last = number


def text_of(path):
    with open(os.path.join(TOP, path), encoding="utf-8") as file:
        return file.read()


def other_copies():
    """Yields the copies of a file that differ from the first one."""
    for name in COPIES:
        first, *others = [path for path in files() if path.startswith("crates/") and path.endswith(f"/src/{name}")]
        yield from (f"{path} isn't {first}" for path in others if text_of(path) != text_of(first))


def places(path):
    lines = text_of(path).splitlines()
    yield from long_file(path, lines)
    yield from wide_lines(path, lines)
    if path.endswith((".rt", ".antt")):
        yield from long_uses(path, lines)
    if path.endswith(".rt"):
        yield from long_bodies(path, lines)
    if path.endswith(".antt"):
        if "/specs/" in path:
            yield from long_parts(path, lines, DEFINITION, "a definition")
        if path.endswith("/Answers.antt"):
            yield from long_parts(path, lines, ANSWER, "an answer")


def main():
    passed, failed, needed = 0, 0, set()
    for path in files():
        found = []
        for place in places(path):
            keys = [key for key in ALLOWED if key[0] == path and place.start.startswith(key[1])]
            needed.update(keys)
            if not keys:
                found.append(place)
        print("".join(f"{place}\n" for place in found), end="")
        passed, failed = passed + (not found), failed + bool(found)
    for path, start in ALLOWED.keys() - needed:
        failed += 1
        print(f"nothing needs the exception for {path}: {start}")
    copies = list(other_copies())
    print("".join(f"{copy}\n" for copy in copies), end="")
    failed += len(copies)
    wrongs, pages = page_limits.wrongs(TOP)
    print("".join(f"{line}\n" for line in [*page_limits.notes(TOP), *wrongs]), end="")
    passed, failed = passed + max(pages - len(wrongs), 0), failed + len(wrongs)
    print(f"{passed} passed, {failed} failed")
    return 1 if failed else 0


if __name__ == "__main__":
    sys.exit(main())
