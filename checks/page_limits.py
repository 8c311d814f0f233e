"""The limits of the pages that are written by hand, for limits.py: that no two pages say the same, and the number of words in each. Too
many words are a reason to look at a page again, and no failure: no sentence should lose a word that its reader needs.

Words are counted as `wc -w` does: whatever is between blanks, also code, tables and marks of lists. Not counted is what a script
writes into a page, from a line `<!-- Written by .. -->` to a line `<!-- end -->` or the end of the page, and the tables of
docs/SURFACE.md, which surface.py checks. The pages are those at the top and in docs/, README.md of examples/ and its folders, and of
each crate and package, and bench/steps.md. Not among them: docs/theorems/, bench/tables.md
and LICENSE.

A list item begins a line: ` - ` before a word within a line is an item that was joined to the one before it.

No run of eight words may be in two pages. A run lies within one paragraph, item or cell. Blocks of code, heads of tables and targets of
links don't count, and code within a line is one word. A package's README may repeat other pages, since it is read alone, on an index
of packages.

Each link to a page leads to an existing file, and to a heading that it has.
"""

import fnmatch
import glob
import os
import re
from typing import NamedTuple

MOST = {
    "README.md": 1500,
    "CHANGELOG.md": 1000,
    "CONTRIBUTING.md": 2650,
    "docs/ARCHITECTURE.md": 2300,
    "docs/ARCHIVE.md": 2600,
    "docs/CHECK.md": 900,
    "docs/COMMAND.md": 3400,
    "docs/DECISIONS.md": 4650,
    "docs/FORMAT.md": 3800,
    "docs/LIBRARY.md": 1700,
    "docs/PACKAGING.md": 950,
    "docs/PROOFS.md": 6000,
    "docs/RECIPES.md": 2200,
    "docs/SPEED.md": 2300,
}
ALL = 42000
FOLDERS = ("*.md", "docs/*.md", "examples/*.md", "examples/*/README.md", "crates/*/README.md", "bench/steps.md")
ALONE = ("bindings/python/README.md", "bindings/rust/*/README.md")
RUN = 8
WRITTEN = re.compile(r"(?ms)^<!-- Written by .*?(^<!-- end -->\n|\Z)")
LISTS = "docs/SURFACE.md"

# Runs that are in two pages for a reason: their words, and why.
TWICE = {
}


class Told(NamedTuple):
    """A run of words that several pages have."""

    words: tuple
    pages: tuple

    def __str__(self):
        return f"{' and '.join(self.pages)} both say: {' '.join(self.words)}"


def pages(top):
    """Yields each page written by hand and its text, without what isn't counted."""
    for pattern in FOLDERS + ALONE:
        for path in sorted(glob.glob(os.path.join(top, pattern))):
            with open(path, encoding="utf-8") as file:
                text = WRITTEN.sub("", file.read())
            name = os.path.relpath(path, top)
            if text.strip():
                yield name, re.sub(r"(?m)^\|.*\n", "", text) if name == LISTS else text


def too_long(found):
    """Yields what has more words than a page should have without a second look."""
    counts = {path: len(text.split()) for path, text in found.items()}
    for path, most in MOST.items():
        if counts.get(path, 0) > most:
            yield f"{path}: {counts[path]} words, more than {most}"
    if sum(counts.values()) > ALL:
        yield f"all pages written by hand: {sum(counts.values())} words, more than {ALL}"


def notes(top):
    return [f"look again: {line}" for line in too_long(dict(pages(top)))]


def parts_of(text):
    """Yields the paragraphs, items and cells of a page, each as its words."""
    text = re.sub(r"(?ms)^ *```.*?^ *```$", "\n", text)
    text = re.sub(r"(?m)^\|.*\n(?=\|[-|: ]+\|$)", "\n", text)
    text = re.sub(r"(?m)^    .*$|<!--.*?-->", "", text)
    text = re.sub(r"\]\([^)]*\)", "]", text)
    for block in re.split(r"\n\s*\n|\n(?=\s*(?:[-*#>|]|\d+\.) )", text):
        for part in re.split(r"(?<!\\)\|", block) if block.lstrip().startswith("|") else [block]:
            yield tuple(word.lower() for word in re.findall(r"`[^`]*`|[^\W_]+(?:['-][^\W_]+)*", part))


def told_twice(found):
    """Returns the runs that several pages have, each in full length."""
    places = {}
    for path, text in found.items():
        if any(fnmatch.fnmatch(path, pattern) for pattern in ALONE):
            continue
        for number, words in enumerate(parts_of(text)):
            for at in range(len(words) - RUN + 1):
                places.setdefault(words[at : at + RUN], {}).setdefault(path, (number, at))
    twice = {run: tuple(sorted(where)) for run, where in places.items() if len(where) > 1}
    joined = []
    for run, where in sorted(twice.items(), key=lambda it: (it[1], places[it[0]][it[1][0]])):
        last = joined[-1] if joined else None
        if last and last.pages == where and last.words[-RUN + 1 :] == run[:-1]:
            joined[-1] = Told(last.words + run[-1:], where)
        else:
            joined.append(Told(run, where))
    return joined


def joined_items(path, text):
    text = re.sub(r"(?ms)^ *```.*?^ *```$", "", text)
    for item in re.findall(r"(?m)\S -$|\S - (?:[A-Za-z*]|\[|``).{,30}", re.sub(r"`[^`]*`", "``", text)):
        yield f"{path}: an item within a line: {item}"


def headings(text):
    names = re.findall(r"(?m)^#+ (.*)", re.sub(r"(?ms)^```.*?^```$", "", text))
    return {re.sub(r"[^\w -]", "", name.lower()).replace(" ", "-") for name in names}


def lost_links(top, path, text):
    for link in re.findall(r"\]\(([^)\s]+)\)", text):
        file, _, heading = link.partition("#")
        target = os.path.normpath(os.path.join(top, os.path.dirname(path), file)) if file else os.path.join(top, path)
        if "://" in link:
            continue
        if not os.path.exists(target):
            yield f"{path}: no file {file}"
        elif heading and target.endswith(".md"):
            with open(target, encoding="utf-8") as page:
                if heading not in headings(page.read()):
                    yield f"{path}: no heading {link}"


def wrongs(top):
    found = dict(pages(top))
    wrong, needed = [], set()
    for path, text in found.items():
        wrong += lost_links(top, path, text)
        wrong += joined_items(path, text)
    for told in told_twice(found):
        kept = [it for it in TWICE if it in " ".join(told.words)]
        needed.update(kept)
        if not kept:
            wrong.append(str(told))
    wrong += [f"no two pages say any more: {it}" for it in TWICE if it not in needed]
    return wrong, len(found)


if __name__ == "__main__":
    TOP = os.path.join(os.path.dirname(os.path.abspath(__file__)), "..")
    FOUND = dict(pages(TOP))
    print("".join(f"{len(text.split()):6} {path}\n" for path, text in FOUND.items()), end="")
    print(f"{sum(len(text.split()) for text in FOUND.values()):6} in all")
    print("".join(f"{wrong}\n" for wrong in wrongs(TOP)[0]), end="")
