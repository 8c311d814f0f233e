#!/usr/bin/env python3
"""Prints all that a reader of a theorem has to believe: theorem.py [--check | CRATE::FUNCTION [CLAUSE..]]

Prints the contract of a function, or some of its clauses, and each definition that it cites, down to the words of the standard
library. Each definition appears once, with its sentence, after the definitions that it cites. Names are resolved as the checker
does it, by the `use` lines of their file. A type is printed with the part that contracts see of it (its Model), a trait with its
whole contract.

Without a function, writes the pages of docs/theorems/, and prints how many lines each has. With --check no page is written, and
the script fails if a page differs from what it would write. In both cases it fails if a cited definition has no sentence.
"""

import os
import re
import sys
from typing import NamedTuple

from sources import OWNER, TOP, ended, files_below, text_of, write_or_compare

FOLDER = "docs/theorems"
NOTE = "<!-- Written by `make theorem`. -->\n\n"
# For each page: the crate, the function, its clauses (none means all), and the title.
PAGES = {
    "write_edited": ("aec_edit", "write_edited", [], "The headline, over any lawful codec"),
    "decode_edited": ("aec_engine", "decode_edited", [], "The headline, over our own coder"),
    "shortest": ("aec_interval", "encode_all", ["ok", "shortest"], "No coded data sets for the same blocks are shorter"),
    "decode_all": ("aec_interval", "decode_all", [], "What coded bits are decoded to"),
}
# Pages that link to another page for the definitions that are there.
BESIDE = {"shortest": "decode_edited", "decode_all": "decode_edited"}
USE = re.compile(r"^\s*(?:pub )?(?:ghost )?use ([\w.]+)\.\{([^}]*)\}", re.M)
RUST_USE = re.compile(r"^use (crate|aec_\w+)::(?:[\w:]+::)?(?:\{([^}]*)\}|(\w+));", re.M)
DEFINITION = re.compile(r"(?:(?:abbrev|unfoldable|pub|data|record|def) )+(\S+)")
MAKER = re.compile(r"  (\w+) :")
DECLARED = re.compile(r"pub (?:struct|enum|trait) (\w+)")
CLAUSE = re.compile(r" *(ensures|requires) ?(\w*)")
# A name or a sign. A name after a point is a field, and is left out.
TOKEN = re.compile(r"(?<![.\w])[^\W\d]\w*|[^\s\w(){},;.\[\]]+ℤ?")
FENCE = "\n```"
LIBRARY = "`rt lemma WORD` prints what each is."
# The module of words about a device's bytes, and what they leave open.
KNOWN_BYTES = "std.specs.Io.KnownBytes"
UNKNOWN = "`Appends` and `Keeps` say nothing of unknown bytes. A memory device's bytes are known, and stay known."


class Item(NamedTuple):
    path: str
    # Its first line, counted from 0.
    at: int
    name: str
    # The lines of its sentence, and those of its text.
    words: list
    lines: list

    def key(self):
        return self.path, self.at


class Word(NamedTuple):
    """A word of the standard library."""

    module: str
    name: str


def block_from(lines, start):
    """Returns the lines of a block of Rattle, from its first line to its closing brace."""
    if lines[start].endswith(";") or lines[start].endswith("}"):
        return [lines[start]]
    end = next(i for i in range(start, len(lines)) if lines[i].startswith("}"))
    return lines[start : end + 1]


def words_above(lines, start, mark):
    """Returns the comment directly above a line. Attributes between them are skipped."""
    words, at = [], start - 1
    while at >= 0 and lines[at].strip().startswith((mark, "#[")):
        words += [lines[at]] if lines[at].strip().startswith(mark) else []
        at -= 1
    return words[::-1]


def without_attributes(lines):
    left = [line for line in lines if line.strip()]
    return [line for line in left if not line.strip().startswith(("#[", "ghost use ", "// bare: "))]


class File:
    """A file of definitions or of code: what it declares, and what its names mean."""

    def __init__(self, path):
        self.path, self.text = path, text_of(path)
        self.items, self.scope = {}, {}
        lines = self.text.split("\n")
        for at, line in enumerate(lines):
            if path.endswith(".antt"):
                self.define(lines, at, line)
            else:
                self.declare(lines, at, line)
        for module, names in USE.findall(self.text):
            for name in re.split(r",\s*", names.strip(", \n")):
                true, _, alias = name.partition(" as ")
                self.scope[alias or true] = (module, true)
        for crate, many, one in RUST_USE.findall(self.text):
            for name in re.findall(r"\w+", many or one):
                self.scope.setdefault(name, (crate, name))

    def define(self, lines, at, line):
        named = DEFINITION.match(line)
        if named and not line.startswith("pub mod"):
            end = next(i for i in range(at, len(lines)) if not lines[i].strip())
            item = Item(self.path, at, named[1], words_above(lines, at, "-- "), lines[at:end])
            made = [it[1] for it in map(MAKER.match, item.lines) if it] if "data " in line else []
            self.items |= dict.fromkeys([named[1], *made], item)

    def declare(self, lines, at, line):
        named = DECLARED.match(line)
        if named:
            text = without_attributes(block_from(lines, at))
            model = re.compile(rf"impl.* Model for {named[1]}\b")
            for start in [i for i, it in enumerate(lines) if model.match(it)]:
                text += without_attributes(block_from(lines, start))
            words = words_above(lines, at, "///")
            self.items[named[1]] = Item(self.path, at, named[1], words, text)


class Library:
    """The files of all crates. Each is read when it is first needed."""

    def __init__(self):
        self.files = {}

    def file(self, path):
        if path not in self.files:
            self.files[path] = File(path)
        return self.files[path]

    def declared(self, crate, name):
        """Returns the type or trait of a crate with this name, from any of its files; None if there is none."""
        for path in files_below(f"crates/{crate}/src", ".rt"):
            if name in self.file(path).items:
                return self.file(path).items[name]
        return None

    def meaning(self, file, name):
        """Returns what a name in a file means: an item, a word of the standard library, or None."""
        if name in file.items:
            return file.items[name]
        if name not in file.scope:
            return None
        module, true = file.scope[name]
        if module == "crate":
            return self.declared(file.path.split("/")[1], true)
        if re.fullmatch(r"aec_\w+", module):
            return self.declared(module, true)
        _, crate, *parts = module.split(".")
        if not crate.startswith("aec_"):
            return Word(module, true)
        if parts[1] == "declared":
            return self.declared(crate, parts[-2] if parts[-1] == "TheVariants" else true)
        if parts[1] == "contracts":
            return self.declared(crate, parts[-1])
        return self.file(f"crates/{crate}/{'/'.join(parts)}.antt").items[true]

    def cited(self, file, lines):
        """Yields what the lines of a file cite, in their order."""
        signs = {part: name for name in file.scope for part in name.split("◌") if "◌" in name}
        for token in tokens_of(lines):
            meaning = self.meaning(file, signs.get(token, token))
            if meaning:
                yield meaning

    def renamed(self, items):
        """Returns pairs of a name in these items and its true name, where a `use` line of the file renames it."""
        pairs = {}
        for item in items:
            scope = self.file(item.path).scope
            for token in tokens_of(item.lines):
                _, true = scope.get(token, ("", token))
                if true != token:
                    pairs[token] = true
        return sorted(pairs.items())


def tokens_of(lines):
    """Returns the names and signs in lines, without comments."""
    text = "\n".join(line for line in lines if not line.strip().startswith(("--", "///")))
    return TOKEN.findall(text)


def contract_of(crate, name, clauses):
    """Returns the contract of a public function. With `clauses`, returns only its requires clauses and those clauses."""
    owner, _, function = name.rpartition("::")
    for path in files_below(f"crates/{crate}/src", ".rt"):
        lines, at = text_of(path).split("\n"), ""
        for start, line in enumerate(lines):
            opened = OWNER.match(line)
            at = opened[2] or opened[3] if opened else "" if line.startswith("}") else at
            if at == owner and re.match(rf" *pub fn {function}\b", line):
                kept = kept_clauses(lines[start:], clauses)
                return Item(path, start, name, words_above(lines, start, "///"), kept)
    return sys.exit(f"no public function {crate}::{name}")


def kept_clauses(lines, clauses):
    kept, is_kept = [], True
    for line in lines[: next(i for i, it in enumerate(lines) if it.strip() in ("{", "{}"))]:
        clause = CLAUSE.match(line)
        if clause:
            is_kept = not clauses or clause[1] == "requires" or clause[2] in clauses
        kept += [line] if is_kept else []
    return kept


def gather(library, item, found, words):
    """Adds an item to `found`, with the keys of the items that it cites, and then these items in the same way."""
    below = found.setdefault(item.key(), (item, set()))[1]
    for meaning in library.cited(library.file(item.path), item.lines):
        if isinstance(meaning, Word):
            words.setdefault(meaning.module.removeprefix("Rattle."), {})[meaning.name] = None
        elif meaning.key() != item.key():
            below.add(meaning.key())
            if meaning.key() not in found:
                gather(library, meaning, found, words)


def run_in(path, left, found):
    """Returns how many keys of a file must still wait, and those that can come now, each after the keys that it cites."""
    run = []
    for key in [key for key in left if key[0] == path] * 2:
        if key not in run and found[key][1].isdisjoint(set(left) - set(run)):
            run.append(key)
    return sum(key[0] == path for key in left) - len(run), run


def in_order(found):
    """Returns the items, each after those that it cites. Items of one file are together if possible."""
    order, left = [], sorted(found)
    while left:
        runs = [run_in(path, left, found) for path in sorted({key[0] for key in left})]
        _, run = min((run for run in runs if run[1]), default=(0, left))
        order += run
        left = [key for key in left if key not in run]
    return [found[key][0] for key in order]


def sections_of(items):
    """Returns the items as sections of a page: a section for each run of items of one file, below the name of the file."""
    sections, last = [], None
    for item in items:
        text = "\n".join(item.words + item.lines)
        if item.path == last:
            sections[-1] = f"{sections[-1].removesuffix(FENCE)}\n\n{text}{FENCE}"
        else:
            sections.append(f"[{item.path}](../../{item.path}):\n\n```text\n{text}{FENCE}")
        last = item.path
    return sections


def listed(names):
    return ", ".join(f"`{name}`" for name in names)


def counts_of(contract, cited):
    lines = [line for item in cited for line in item.words + item.lines]
    sentences = sum(line.strip().startswith(("--", "///")) for line in lines)
    definitions = f"{len(lines) - sentences} lines of definitions, {sentences} lines of comments on them"
    return f"{len(contract.lines)} lines of contract, {definitions}"


def gathered(library, crate, name, clauses, _title=None):
    """Returns the contract of a theorem, what it cites, by key, and the words of the standard library."""
    found, words = {}, {}
    contract = contract_of(crate, name, clauses)
    gather(library, contract, found, words)
    return contract, found, words


def places_of(beside, cited, others):
    """Says where the definitions of a page are: those cited here, and others on the page `beside`."""
    if not beside:
        return "all on this page"
    link = f"[{beside}]({beside}.md)"
    return f"{len(cited)} definitions on this page and {others} on {link}"


def page_of(crate, name, clauses, title, beside=None):
    """Returns the page of a theorem, the counts of its lines, and the names of items without a sentence. Definitions that are on the page
    `beside` are left out."""
    library = Library()
    contract, found, words = gathered(library, crate, name, clauses)
    shown = gathered(library, *PAGES[beside])[1] if beside else {}
    every = in_order(found)[:-1]
    cited = [item for item in every if item.key() not in shown]
    counts = counts_of(contract, every)
    what = listed([f"{crate}::{name}", *clauses])
    names = [f"`{new}` stands for `{true}`" for new, true in library.renamed([contract, *cited])]
    page = [
        f"# {title}",
        f"{what}. What a reader must judge: {counts}, {places_of(beside, cited, len(every) - len(cited))}, and "
        f"{sum(map(len, words.values()))} words of the standard library, named at the end.",
        "## The contract",
        *sections_of([contract]),
        "## What it cites\n\nEach definition follows those that it cites. Parentheses in a comment name the section of FORMAT.md (§), and "
        "say how the code differs."
        + (f" Other names: {', '.join(names)}." if names else ""),
        *sections_of(cited),
        "## Words of the standard library\n\n" + LIBRARY + (f" {UNKNOWN}" if KNOWN_BYTES in words else ""),
        "\n".join(f"- `{it}`: {listed(words[it])}" for it in sorted(words)),
    ]
    silent = [item.name for item in [contract, *cited] if not item.words]
    return NOTE + "\n\n".join(page) + "\n", counts, silent


def write_pages(is_check):
    """Writes the pages, unless `is_check`. Returns the messages of what is wrong with them."""
    wrongs = []
    os.makedirs(os.path.join(TOP, FOLDER), exist_ok=True)
    for file, theorem in PAGES.items():
        path = f"{FOLDER}/{file}.md"
        page, counts, silent = page_of(*theorem, beside=BESIDE.get(file))
        wrongs += [f"{path}: {name} has no sentence" for name in silent]
        wrongs += write_or_compare(path, page, "make theorem", is_check)
        if not is_check:
            print(f"{path}: {counts}")
    return wrongs


def main():
    asked = [word for word in sys.argv[1:] if word != "--check"]
    if asked:
        crate, _, name = asked[0].partition("::")
        print(page_of(crate, name, asked[1:], asked[0])[0], end="")
        return 0
    wrongs = write_pages("--check" in sys.argv)
    return ended(max(len(PAGES) - len(wrongs), 0), wrongs)


if __name__ == "__main__":
    sys.exit(main())
