"""Reads the sources of the crates: functions, the names of their clauses, and crates.txt.

Also writes or compares the page of a script, and prints how the script ended.
"""

import os
import re
from typing import NamedTuple

TOP = os.path.abspath(os.path.join(os.path.dirname(__file__), ".."))

OWNER = re.compile(r"(?:pub )?(?:impl(?:<.*?>)? (?:([\w:]+)(?:<.*>)? for )?(\w+)|trait (\w+))")
FUNCTION = re.compile(r"( *)(pub(?:\(crate\))? )?(?:const )?(extern \"C\" )?fn (\w+)")
# A crate's line in crates.txt: its name, its kind, the libraries that it uses.
CRATE = re.compile(r"(\w+)(?: (staticlib))?:(.*)")
CLAUSE = re.compile(r"\s+(ensures|requires) (\w+)?")
GHOST = re.compile(r"\s+ghost (\w+)")


class Function(NamedTuple):
    crate: str
    module: str
    owner: str
    name: str
    # The names of its ensures clauses, and of its requires clauses.
    clauses: set
    premises: set
    is_public: bool
    is_test: bool
    # Declared by a trait, so only impls have a body.
    is_declared: bool
    # The trait whose impl it is in, without its path; empty elsewhere.
    trait: str
    # Its file, and its line there, counted from 0.
    file: str
    at: int

    def path(self):
        return "::".join(part for part in (self.crate, self.module, self.owner, self.name) if part)


class CrateLine(NamedTuple):
    """What crates.txt says of a crate."""

    # `staticlib` for a library for C, else empty.
    kind: str
    # The libraries that it uses, of the repository and of the kit.
    uses: list
    # The whole line.
    text: str


class Crate(NamedTuple):
    name: str
    functions: list
    # The names of the ghost items of each type or trait.
    ghosts: dict
    # Pairs of a trait and a type that has it. The trait is None for other impls, and for a trait itself.
    impls: set
    # The names that its root exports.
    exports: set


def text_of(path):
    with open(os.path.join(TOP, path), encoding="utf-8") as file:
        return file.read()


def files_below(folder, *endings):
    """Returns the files below a folder that have one of these endings, as paths from the top, always in the same order."""
    found = []
    for at, folders, names in os.walk(os.path.join(TOP, folder)):
        folders[:] = sorted(name for name in folders if name != "out")
        paths = [os.path.join(at, name) for name in sorted(names) if name.endswith(endings)]
        found += [os.path.relpath(path, TOP) for path in paths]
    return found


def module_of(path):
    """Returns the module of a file below some src/. For lib.rt and main.rt its name is empty."""
    name = path.split("/src/")[1].removesuffix(".rt").replace("/", "::")
    return "" if name in ("lib", "main") else name


def exports_of(crate):
    """Returns the names that a crate's root exports, and its public modules."""
    root = f"crates/{crate}/src/lib.rt"
    text = text_of(root) if os.path.exists(os.path.join(TOP, root)) else ""
    used = " ".join(re.findall(r"^pub use (?!aec_)([^;]*);", text, re.M))
    return set(re.findall(r"\w+", used)), set(re.findall(r"^pub mod (\w+);", text, re.M))


def add_file(crate, path):
    """Adds the functions, ghost items and impls of a file to its crate."""
    names, opened = exports_of(crate.name)
    module, owner, trait, is_trait, is_test, clauses = module_of(path), "", "", False, False, {}
    for number, line in enumerate(text_of(path).splitlines()):
        if line.startswith("}"):
            owner, trait, is_trait = "", "", False
        elif at := OWNER.match(line):
            owner, trait, is_trait = at[2] or at[3], (at[1] or "").split("::")[-1], bool(at[3])
            crate.impls.add((at[1], owner))
        elif at := FUNCTION.match(line):
            clauses = {"ensures": set(), "requires": set()}
            is_open = at[3] or module in opened or (owner or at[4]) in names
            is_public = bool(is_open) and (is_trait or at[2] == "pub ")
            place = (crate.name, module, owner, at[4])
            kinds = (is_public, is_test, is_trait, trait)
            crate.functions.append(Function(*place, *clauses.values(), *kinds, path, number))
            is_test = False
        elif at := CLAUSE.match(line):
            clauses[at[1]].add(at[2] or "")
        elif at := GHOST.match(line):
            crate.ghosts.setdefault(owner, set()).add(at[1])
        elif line.strip() == "#[test]":
            is_test = True


def crate_of(name):
    crate = Crate(name, [], {}, set(), exports_of(name)[0])
    for path in files_below(f"crates/{name}/src", ".rt"):
        add_file(crate, path)
    return crate


def crate_lines():
    """Returns what crates.txt says of each crate, by name, lowest crate first."""
    lines = map(CRATE.match, text_of("crates.txt").splitlines())
    return {line[1]: CrateLine(line[2] or "", line[3].split(), line[0]) for line in lines if line}


def below(crate, lines):
    """Returns the crates of the repository that a crate uses, directly or through others."""
    found = {name for name in lines[crate].uses if name in lines}
    return found.union(*(below(name, lines) for name in found))


def all_crates():
    """Returns the crates of the repository by name, lowest first."""
    return {name: crate_of(name) for name in crate_lines()}


def write_or_compare(path, page, command, is_check):
    """Writes a page, or if `is_check` compares it with the one that is there. Returns the messages of what is wrong, at most one."""
    if not is_check:
        with open(os.path.join(TOP, path), "w", encoding="utf-8") as file:
            file.write(page)
    elif not os.path.exists(os.path.join(TOP, path)) or text_of(path) != page:
        return [f"{path} isn't what `{command}` writes"]
    return []


def ended(passed, wrongs):
    """Prints what is wrong, and last the counts. Returns the status of the script."""
    print("".join(f"FAILED: {wrong}\n" for wrong in wrongs), end="")
    print(f"{passed} passed, {len(wrongs)} failed")
    return 1 if wrongs else 0
