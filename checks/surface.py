#!/usr/bin/env python3
"""Compares the two lists of docs/SURFACE.md with what the crates export: surface.py [--ours]

Prints each item of the first list that its crate no longer exports, or whose signature differs; each field, variant or function that a
type or trait of the first list has gained; each public item that is in neither list; and each item of the second list that no longer
exists. The last line counts the items of the lists that are as they should be, and the failures. Ends with status 1 if something failed.

It also prints each crate whose rows of the first list don't have the digest that PROMISED lists.

An item that several crates export needs to be listed for one of them. Traits that types implement are in the first list only.

In a signature of the first list `_` stands for the name of any parameter. These make no difference: paths of types, the lifetime `'_`,
`_` before the name of a parameter, and `mut` before it.

With --ours it prints the rows of the second list as they should be, and compares nothing.
"""

import hashlib
import os
import re
import sys
from typing import NamedTuple

sys.path.insert(0, os.path.join(os.path.dirname(__file__), "..", "tools"))

from public_items import Unreadable, items_of
from sources import TOP, crate_lines, ended, text_of

PAGE = "docs/SURFACE.md"
FIXED, OURS = "What may not change without a new major version", "Ours beyond it"
# For each crate of the first list a digest of its rows. If a row is moved to the second list, or deleted with its
# item, the page still agrees with the crates. A count of rows isn't enough: another row can replace the lost one.
# Only a new major version changes a digest.
PROMISED = {
    "aec_params": "cf54d18d2da1a5cc",
    "aec_bits": "017a6fd591fd4f65",
    "aec_block": "035c604696979733",
    "aec_interval": "c25a52a575038afd",
    "aec_edit": "d1e6734270dba664",
    "aec_cli": "b1f577a4c428c4ea",
}
# What a type or trait is made of. If the first list has one of these, the type or trait may have no others.
MADE_OF = ("field", "variant", "function")
# In the second list, what is in place of a type or module.
ROOT = "the crate"


class Row(NamedTuple):
    """A line of the first list."""

    crate: str
    name: str
    signature: str


def libraries():
    """Returns the crates that a program can use, lowest first: not those of tests, nor the library for C."""
    names = [name for name, line in crate_lines().items() if not line.kind]
    is_library = {name: os.path.exists(os.path.join(TOP, f"crates/{name}/src/lib.rt")) for name in names}
    return [name for name in names if is_library[name] and not name.endswith("_tests")]


def plain(name):
    """Returns a method's name without the type parameters of its `impl`."""
    return re.sub(r"<.*>(?=::)", "", name)


def owner_of(name):
    """Returns the name of the type, trait or module that an item belongs to, or an empty text."""
    return name.split(" for ")[1] if " for " in name else plain(name).rpartition("::")[0]


def rows_below(heading):
    """Returns the rows of the table below a heading of the page, each as a list of its cells."""
    section = re.search(rf"(?ms)^## {re.escape(heading)}$(.*?)(?=^## |\Z)", text_of(PAGE))
    lines = re.findall(r"(?m)^\| (.*) \|$", section[1]) if section else []
    return [[cell.strip() for cell in line.split(" | ")] for line in lines[1:]]


def fixed_rows():
    return [Row(crate, name.strip("`"), signature.strip("`")) for crate, name, signature in rows_below(FIXED)]


def fixed_names(rows):
    """Returns the crate and the name of each row of the first list."""
    return {(row.crate, plain(row.name)) for row in rows}


def digest_of(crate, rows):
    """Returns a digest of a crate's rows of the first list, the same for any order of them."""
    lines = sorted(f"{row.name} {row.signature}\n" for row in rows if row.crate == crate)
    return hashlib.sha256("".join(lines).encode()).hexdigest()[:16]


def broken_promises(rows):
    """Yields a message for each crate whose rows of the first list aren't those of PROMISED."""
    for crate in sorted({*PROMISED, *(row.crate for row in rows)}):
        digest = digest_of(crate, rows)
        if PROMISED.get(crate) != digest:
            what = f"{crate}: a row of the first list of {PAGE} was removed, moved, changed or added."
            now = "Undo this, since the list changes only with a new major version."
            then = f"In a new major version write '{digest}' for {crate} in PROMISED of checks/surface.py"
            yield f"{what} {now} {then}"


def our_names():
    """Returns the crate and the name of each item of the second list."""
    rows = [(crate, "" if of == ROOT else of.strip("`") + "::", names) for crate, of, names in rows_below(OURS)]
    return [(crate, of + name) for crate, of, names in rows for name in re.findall("`(.*?)`", names)]


def signs(signature):
    """Returns the words and signs of a signature, without those that make no difference."""
    signature = re.sub(r"\b(?:[a-z]\w*::)+(?=[A-Z])", "", signature.replace("<'_>", ""))
    signature = re.sub(r"(?:(?<=\()|(?<=, ))mut (?=\w+[:,)])", "", signature)
    return re.findall(r"'?\w+|\S", re.sub(r"\b_(\w+)(?=:)", r"\1", signature))


def agree(fixed, found):
    """Returns whether a signature is one of the first list."""
    fixed, found = signs(fixed), signs(found)
    return len(fixed) == len(found) and all(one in ("_", other) for one, other in zip(fixed, found))


def by_name(items):
    """Returns the public items by crate and name."""
    named = {}
    for item in items:
        if item.is_public:
            named.setdefault((item.crate, plain(item.name)), []).append(item)
    return named


def why_not(row, named):
    """Returns why a row of the first list fails, or None."""
    found = named.get((row.crate, plain(row.name)))
    if not found:
        return f"{row.crate} doesn't export `{row.name}`, which {PAGE} fixes"
    if any(item.name == row.name and agree(row.signature, item.signature) for item in found):
        return None
    other = "" if found[0].name == row.name else f"`{found[0].name}`, "
    return f"{row.crate}: `{row.name}` is {other}`{found[0].signature}`, but {PAGE} fixes `{row.signature}`"


def gained(names, items):
    """Returns the members that types and traits have gained, if the first list fixes what they are made of."""
    kept = [item for item in items if item.is_public and (item.crate, item.name) in names]
    made = {(item.crate, owner_of(item.name), item.kind) for item in kept if item.kind in MADE_OF}
    # Private fields too: with one, other crates can't make a value of the type.
    return [it for it in items if (it.crate, owner_of(it.name), it.kind) in made and it not in kept]


def unlisted(names, items):
    """Returns the public items that aren't among the names of any crate, each once. Omits the traits of types."""
    listed = {item.origin for item in items if (item.crate, plain(item.name)) in names}
    found = {}
    for item in items:
        if item.is_public and item.kind != "impl" and item.origin not in listed:
            found.setdefault(item.origin, item)
    return list(found.values())


def lost_or_changed(rows, ours, named):
    """Yields what is wrong with the rows of both lists. If a type isn't exported, its members aren't mentioned too."""
    for row in rows:
        why = why_not(row, named)
        owner = (row.crate, owner_of(row.name))
        if why and (owner in named or owner not in fixed_names(rows)):
            yield why
    for crate, name in ours:
        owner = (crate, owner_of(name))
        if (crate, name) not in named and (owner in named or owner not in {*fixed_names(rows), *ours}):
            yield f"{crate} doesn't export `{name}`: take it out of the second list of {PAGE}"


def new_items(rows, ours, items):
    """Yields what is wrong with the items that the first list lacks."""
    grown = gained(fixed_names(rows), items)
    for item in grown:
        place = "only in the second" if (item.crate, item.name) in ours else "in neither"
        fixes = f"the first fixes all {item.kind}s of `{owner_of(item.name)}`"
        yield f"{item.crate}: `{item.name}` is {place} list of {PAGE}; {fixes}"
    for item in unlisted({*fixed_names(rows), *ours}, items):
        if item not in grown:
            yield f"{item.crate}: `{plain(item.name)}` is public, but in neither list of {PAGE}"


def named_twice(rows, ours):
    """Yields the names that are twice in the lists."""
    names = [(row.crate, plain(row.name)) for row in rows] + ours
    for crate, name in sorted({name for name in names if names.count(name) > 1}):
        yield f"{PAGE} lists `{name}` of {crate} twice"


def print_ours(rows, items):
    """Prints the rows of the second list: of each crate its own items first, its laws last."""
    crates, groups = libraries(), {}
    for item in unlisted(fixed_names(rows), items):
        owner, _, name = plain(item.name).rpartition("::")
        key = (crates.index(item.crate), owner.startswith("laws"), owner)
        groups.setdefault(key, []).append(f"`{name}`")
    for (crate, _, owner), names in sorted(groups.items()):
        print(f"| {crates[crate]} | {f'`{owner}`' if owner else ROOT} | {', '.join(names)} |")


def main():
    try:
        items = [item for crate in libraries() for item in items_of(crate)]
    except Unreadable as why:
        return ended(0, [str(why)])
    rows, ours = fixed_rows(), our_names()
    if sys.argv[1:] == ["--ours"]:
        print_ours(rows, items)
        return 0
    if not rows or not ours:
        return ended(0, [f"{PAGE} has no table below one of its headings '{FIXED}' and '{OURS}'"])
    named = by_name(items)
    wrongs = [*broken_promises(rows), *named_twice(rows, ours)]
    wrongs += [*lost_or_changed(rows, ours, named), *new_items(rows, ours, items)]
    passed = sum(why_not(row, named) is None for row in rows) + sum(name in named for name in ours)
    return ended(passed, wrongs)


if __name__ == "__main__":
    sys.exit(main())
