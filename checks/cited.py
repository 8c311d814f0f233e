#!/usr/bin/env python3
"""Checks that each lemma and each definition is cited by name: cited.py

Prints each lemma of proofs/ and each definition of specs/ that no line of code, definition or proof names except its own. The last line
counts what passed and failed. Ends with status 1 if one failed.

Exempt are what the checker itself looks for by name (answers, invariants), and examples, which are checked without being cited.
"""

import collections
import os
import re
import sys

sys.path.insert(0, os.path.join(os.path.dirname(__file__), "..", "tools"))

from sources import files_below, text_of

FREE = re.compile(r"(Answers|Invariants|Goals|Proof|Code|Statement|Worked\w*|\w*Examples)\.antt$")
WORD = re.compile(r"[\w◌][\w\-◌']*")
# A line that begins with a name: its type if a colon follows, else one of its clauses.
BEGIN = re.compile(r"(?:(?:pub|abbrev|unfoldable|opaque) )*(\w[\w\-]*)(\s*:\s)?")
USE = re.compile(r"\s*(pub |ghost )*use ")


def cites(line):
    """Returns what a line cites: nothing if it imports, the words in backquotes if it is a comment, else all."""
    if USE.match(line):
        return ""
    return " ".join(re.findall("`(.*?)`", line)) if line.strip().startswith(("--", "//")) else line


def stated(lines):
    """Returns the names that lines give a type, each with the number of lines that begin with it: its type and its clauses."""
    begun = [begin for line in lines if (begin := BEGIN.match(line))]
    own = collections.Counter(begin.group(1) for begin in begun)
    return [(begin.group(1), own[begin.group(1)]) for begin in begun if begin.group(2)]


def main():
    texts = {path: [cites(line) for line in text_of(path).split("\n")] for path in files_below("crates", ".rt", ".antt")}
    named = collections.Counter(word for lines in texts.values() for line in lines for word in WORD.findall(line))
    judged = [path for path in texts if path.endswith(".antt") and not FREE.search(path)]
    judged = [(path, name, own) for path in judged for name, own in stated(texts[path])]
    found = [f"{path}: {name} is cited nowhere\n" for path, name, own in judged if named[name] <= own]
    print("".join(found) + f"{len(judged) - len(found)} passed, {len(found)} failed")
    return 1 if found or not judged else 0


if __name__ == "__main__":
    sys.exit(main())
