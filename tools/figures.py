#!/usr/bin/env python3
"""Prints how much there is to read and to prove: figures.py

These are the numbers of tracked files, of words written by hand and of generated words, by their
kind, of public functions, and of must-fail edits. Of source files only the words of comments are
counted. Of pages, what a script writes into them counts as generated; the tables of docs/SURFACE.md
aren't counted, since checks/surface.py compares them with the sources. tools/gate_times.py prints how
long the gate takes.
"""

import ast
import os
import re
import subprocess
import sys

from must_fail import edits_of
from sources import TOP, all_crates, text_of

sys.path.insert(0, os.path.join(TOP, "checks"))

from page_limits import LISTS, WRITTEN

# Pages that a script writes whole.
GENERATED = re.compile(r"docs/theorems/.*\.md|man/aecp?\.1|bench/tables\.md")
# Where the words of a page are comments: how a comment begins in the files with these endings.
SLASHES = re.compile(r"(?s)//[^\n]*|/\*.*?\*/")
DASHES = re.compile(r"(?m)^\s*--[^\n]*|\s--\s[^\n]*")
HASHES = re.compile(r"(?m)(?:^|\s)#[^\n]*")


def docstrings(text):
    """Returns the docstrings of a Python file."""
    holders = (ast.Module, ast.ClassDef, ast.FunctionDef)
    return "\n".join(ast.get_docstring(node) or "" for node in ast.walk(ast.parse(text)) if isinstance(node, holders))


def comments(pattern):
    return lambda text: "\n".join(pattern.findall(text))


# A kind of text: its name, its paths, and what returns its prose. A path is of the first kind that fits.
KINDS = [
    ("generated", GENERATED, str),
    ("pages", re.compile(r".*\.(md|1|3)"), str),
    ("comments of code", re.compile(r".*\.rt"), comments(SLASHES)),
    ("comments of definitions", re.compile(r"crates/\w+/specs/.*\.antt"), comments(DASHES)),
    ("comments of proofs", re.compile(r".*\.antt"), comments(DASHES)),
    ("docstrings of tests and checks", re.compile(r"(tests|checks|bindings/python/tests)/.*\.py"), docstrings),
    ("docstrings of the module aecp", re.compile(r"bindings/python/.*\.py"), docstrings),
    ("docstrings of tools", re.compile(r".*\.py"), docstrings),
    ("comments of C and Rust", re.compile(r".*\.(h|c|rs)"), comments(SLASHES)),
    ("comments of scripts", re.compile(r".*\.(sh|toml)|Makefile|\.ci/run|crates\.txt"), comments(HASHES)),
]
# These texts have no prose of ours, or list edits.
LEFT_OUT = re.compile(r".*must-fail.*|LICENSE|VERSION|HANDLES|.*\.(svg|raw|aec|csv|json)")


def tracked_files():
    words = ["git", "-c", "safe.directory=*", "ls-files"]
    paths = subprocess.run(words, cwd=TOP, capture_output=True, text=True, check=True).stdout.splitlines()
    return [path for path in paths if os.path.isfile(os.path.join(TOP, path))]


def words_in(text):
    return len(re.findall(r"\w[\w'-]*", text))


def words_by_kind(paths):
    """Returns for each kind how many words its files contain."""
    found = {name: 0 for name, _, _ in KINDS}
    for path in paths:
        kind = next((kind for kind in KINDS if kind[1].fullmatch(path)), None)
        if kind and not LEFT_OUT.fullmatch(path):
            text = text_of(path)
            if path == LISTS:
                text = re.sub(r"(?m)^\|.*", "", text)
            found[kind[0]] += words_in(kind[2](text))
            if kind[0] == "pages":
                written = sum(words_in(part[0]) for part in WRITTEN.finditer(text))
                found["pages"] -= written
                found["generated"] += written
    return found


def edit_lines(crates):
    """Returns a line for each crate with must-fail edits: how many the gate tries, and how many it doesn't."""
    lines = []
    for crate in crates:
        edits = edits_of(crate)
        gate = sum(edit.is_in_gate for edit in edits)
        if edits:
            lines.append((crate, gate, len(edits) - gate))
    return lines


def main():
    paths, crates = tracked_files(), all_crates()
    words, edits = words_by_kind(paths), edit_lines(crates)
    rows = [("tracked files", len(paths))]
    rows += [(f"words: {name}", number) for name, number in words.items()]
    rows += [("words by hand, in all", sum(words.values()) - words["generated"])]
    public = [one for crate in crates.values() for one in crate.functions if one.is_public and not crate.name.endswith("_tests")]
    rows += [("public functions", len(public))]
    rows += [(f"must-fail edits of {crate}: in the gate, others", f"{gate}, {others}") for crate, gate, others in edits]
    rows += [("must-fail edits, in all", f"{sum(row[1] for row in edits)}, {sum(row[2] for row in edits)}")]
    print("\n".join(f"{name:50}{number:>12}" for name, number in rows))
    return 0


if __name__ == "__main__":
    sys.exit(main())
