#!/usr/bin/env python3
"""Prints the contract of each public function of the libraries: contracts.py [--check | WORD..]

For each function it prints these lines:

- its path, its file and line, and the first sentence of its doc comment,
- its clauses, as the source has them, each on one line,
- the must-fail edits that change its body, or a private function that it reaches by calls of
  private functions; those that the gate tries come first,
- the tests that name it, directly or by a function of the same file, and the scripts of tests/
  that contain its name. A name without `_` isn't looked for in scripts.

With words it prints only the functions whose lines contain all of them, in capitals or not.

A function that a trait declares has the edits of its impls. A method of an impl is printed only
if it adds clauses. Calls are found by names, as in walk.py. So an edit of another function of the
same name can be printed, and a call through a trait of the kit is missed.

With --check it prints only what is wrong. It fails in these cases:

- A public function has no clause or no doc comment.
- A public function has no must-fail edit, and no line `// bare: REASON` above its doc comment or
  above its `pub fn`. Laws need none.
- A line `// bare:` is above a law, above a function that isn't public, or above one that has
  a must-fail edit.
- docs/PROOFS.md names a function or a clause that doesn't exist: in the part of a crate, after
  `Contract:` in an item, in the form `PATH` or `PATH: CLAUSE, CLAUSE`.
"""

import os
import re
import signal
import sys
import textwrap
from collections import deque
from typing import NamedTuple

sys.path.insert(0, os.path.join(os.path.dirname(__file__), "..", "tools"))

from must_fail import edits_of
from sources import all_crates, ended, files_below, text_of
from walk import CLAUSE, LIBRARIES, CallGraph, key

PAGE = "docs/PROOFS.md"
BARE = re.compile(r"\s*// bare: (\S.*)")
OF_COLLECTIONS = "append clear extend insert len remove replace reserve truncate".split()
CONST = re.compile(r"(?:pub(?:\(\w+\))? )?(?:const|static) (\w+)")


class Text(NamedTuple):
    """What the source says of a function."""

    # The first sentence of its doc comment.
    doc: str
    clauses: list
    # The reason of its line `bare`.
    bare: str
    # Its last line, counted from 0.
    end: int


class Contract(NamedTuple):
    one: tuple
    text: Text
    # The edits as they are printed: pairs of whether the gate leaves one out, and its name.
    edits: list
    tests: list


def head_of(lines, at):
    """Returns the doc comment before a line, and the reason of the line `bare` there."""
    doc, bare = [], ""
    while at and re.match(r"\s*(///|#\[|// )", lines[at - 1]):
        at -= 1
        line = lines[at].strip()
        if line.startswith("///"):
            doc.insert(0, line.removeprefix("///").strip())
        elif named := BARE.match(line):
            bare = named[1]
    return " ".join(doc).strip(), bare


def sentence_of(doc):
    return re.split(r"(?<=[.:])(?: (?=[A-Z`])|$)", doc)[0] if doc else ""


def read(lines, one):
    """Returns the text of a function."""
    indent = re.match(" *", lines[one.at])[0]
    clauses, at, is_body, depth = [], one.at, False, 0
    while at + 1 < len(lines):
        line = lines[at]
        is_outer = line.startswith(indent) and not line.startswith(indent + "  ")
        is_body |= is_outer and line.endswith(("{", "{}"))
        if CLAUSE.match(line) and not is_body:
            clauses.append(line.strip())
        elif clauses and not is_body:
            clauses[-1] += " " + line.strip()
        depth += line.count("{") - line.count("}")
        is_declared = not is_body and depth == 0 and line.endswith(";")
        is_one_line = at == one.at and depth == 0 and line.endswith("}")
        if is_declared or is_one_line or line in (indent + "}", indent + "{}"):
            break
        at += 1
    doc, bare = head_of(lines, one.at)
    return Text(sentence_of(doc), [clause.rstrip(";") for clause in clauses], bare, at)


def constant_at(lines, number):
    """Returns the name of the constant whose declaration has this line, or None."""
    while number >= 0 and lines[number].strip():
        if named := CONST.match(lines[number].strip()):
            return named[1]
        number -= 1
    return None


class Graph(CallGraph):
    """The calls in the libraries. A method with a name that collections also have is found only
    after `self`, or after a variable or field with the first word of its type's name."""

    def called_in(self, caller, body):
        for one in super().called_in(caller, body):
            words = re.findall("^[A-Z][a-z0-9]*", one.owner)
            words += ["self"] * (one.owner == caller.owner)
            call = rf"(?:\b(?:{'|'.join(words).lower()})\.|::){one.name}\("
            is_clear = not one.owner or one.name not in OF_COLLECTIONS
            if is_clear or re.search(call, body):
                yield one


class TestGraph(CallGraph):
    """The calls of the tests. A method is found only in a file that names its type."""

    def __init__(self):
        super().__init__(are_tests_judged=True)

    def is_field(self, one):
        return False


class Library:
    """The public functions of the libraries, with what belongs to each."""

    def __init__(self):
        self.crates = all_crates()
        self.lines = {path: text_of(path).split("\n") for path in files_below("crates", ".rt")}
        self.graph = Graph()
        self.functions = [one for one in self.graph.functions if one.crate in LIBRARIES]
        self.texts = {key(one): read(self.lines[one.file], one) for one in self.functions}
        listed = [one for one in self.functions if one.is_public or self.adds_clauses(one)]
        self.listed = {key(one) for one in listed}
        self.edits = self.edits_by_function()
        self.tests = self.tests_by_function()

    def adds_clauses(self, one):
        is_exported = one.owner in self.crates[one.crate].exports
        return one.trait and is_exported and self.texts[key(one)].clauses

    def edits_by_function(self):
        """Returns the edits that change each function, or a constant that it names."""
        found = {}
        for edit in (edit for crate in LIBRARIES for edit in edits_of(crate)):
            for change in edit.changes:
                for one in self.changed(f"crates/{edit.crate}/{change.file}", change.old):
                    found.setdefault(key(one), set()).add((not edit.is_in_gate, edit.name))
        return found

    def changed(self, path, old):
        """Returns the functions that a change of this text in a file changes."""
        before, is_found, _ = "\n".join(self.lines.get(path, ())).partition(old)
        if not is_found:
            return []
        number = before.count("\n")
        of_file = [one for one in self.functions if one.file == path]
        inside = [one for one in of_file if one.at <= number <= self.texts[key(one)].end]
        constant = constant_at(self.lines[path], number)
        return inside or [one for one in of_file if constant and self.names(one, constant)]

    def names(self, one, word):
        lines = self.lines[one.file][one.at : self.texts[key(one)].end]
        return re.search(rf"\b{word}\b", "\n".join(lines))

    def edits_that_reach(self, one):
        """Returns the edits of a function and of the private functions that it reaches."""
        seen, left, edits = {key(one)}, deque([one]), set()
        while left:
            caller = left.popleft()
            edits |= self.edits.get(key(caller), set())
            for called in self.graph.next_of(caller):
                is_own = called.crate == caller.crate or caller.is_declared
                if is_own and key(called) not in self.listed | seen:
                    seen.add(key(called))
                    left.append(called)
        return sorted(edits)

    def tests_by_function(self):
        """Returns the tests that name each function."""
        graph, found = TestGraph(), {}
        for test in graph.functions:
            if test.is_test and test.crate.endswith("_tests"):
                for at in self.named_by(test, graph):
                    found.setdefault(at, []).append(test.path())
        scripts = files_below("tests", ".py", ".c")
        words = {path: set(re.findall(r"\w+", text_of(path))) for path in scripts}
        for one in self.functions:
            if key(one) in self.listed and "_" in one.name:
                scripts_of_one = [path for path in scripts if one.name in words[path]]
                found.setdefault(key(one), []).extend(scripts_of_one)
        return found

    def named_by(self, test, graph):
        """Returns the listed functions that a test names, directly or by functions of its file."""
        seen, left, named = {key(test)}, deque([test]), {}
        while left:
            for called in graph.calls[key(left.popleft())]:
                if key(called) in self.listed:
                    named[key(called)] = True
                elif called.file == test.file and key(called) not in seen:
                    seen.add(key(called))
                    left.append(called)
        return list(named)

    def contracts(self):
        for one in self.functions:
            at = key(one)
            if at in self.listed:
                edits = self.edits_that_reach(one)
                yield Contract(one, self.text_of(one), edits, self.tests.get(at, []))

    def text_of(self, one):
        """Returns a function's text. A method of an impl without a doc comment has the trait's."""
        text = self.texts[key(one)]
        for it in self.graph.by_name[one.name]:
            if it.is_declared and it.owner == one.trait and not text.doc:
                text = text._replace(doc=self.texts[key(it)].doc)
        return text


def wrapped(head, words):
    """Returns a line of a contract on several lines, or none without words."""
    indents = {"initial_indent": " " * 4, "subsequent_indent": " " * 8}
    return [textwrap.fill(f"{head} {words}", 100, **indents)] if words else []


def printed(contract):
    """Returns a contract as it is printed."""
    one, text = contract.one, contract.text
    gate = " ".join(name for is_left_out, name in contract.edits if not is_left_out)
    others = " ".join(name for is_left_out, name in contract.edits if is_left_out)
    lines = [f"{one.path()}  {one.file}:{one.at + 1}"]
    lines += [f"    {line}" for line in (text.doc, *text.clauses)]
    lines += wrapped("must-fail edits of the gate:", gate)
    lines += wrapped("other must-fail edits:", others)
    lines += wrapped("no must-fail edit:", text.bare)
    lines += wrapped("tests:", " ".join(contract.tests))
    return "\n".join(lines) + "\n"


def wrongs_of(contract):
    """Yields what a public function lacks."""
    one, text = contract.one, contract.text
    if not one.is_public:
        return
    place = f"{one.file}:{one.at + 1}: {one.path()}"
    if not any(clause.startswith("ensures") for clause in text.clauses):
        yield f"{place} has no clause `ensures`"
    if not text.doc:
        yield f"{place} has no doc comment"
    is_free = one.module == "laws" or bool(contract.edits)
    if is_free == bool(text.bare):
        lack = "a needless" if text.bare else "no must-fail edit, and no"
        yield f"{place} has {lack} line `// bare: REASON`"


def wrongs_of_bare(library):
    """Yields a message if lines `bare` are above no public function."""
    public = [one for one in library.functions if one.is_public]
    read = sum(bool(library.texts[key(one)].bare) for one in public)
    every = [line for lines in library.lines.values() for line in lines if BARE.match(line)]
    if len(every) != read:
        yield f"{len(every)} lines `// bare:`, but only {read} above public functions"


def has_clauses(crate, path, clauses):
    """Returns whether a function of a crate, or a type by a ghost item, has these clauses."""
    ones = [one for one in crate.functions if ("::" + one.path()).endswith("::" + path)]
    ghosts = crate.ghosts.get(path.split("::")[-1], set())
    is_ghost = bool(clauses and set(clauses) <= ghosts)
    return is_ghost or any(set(clauses) <= one.clauses | one.premises for one in ones)


def wrongs_of_page(library):
    """Yields the names in the crates' parts of the page that nothing has."""
    for part in re.split(r"(?m)^### ", text_of(PAGE))[1:]:
        crate = library.crates.get(part.split("\n")[0])
        lists = re.findall(r"\bContract: ([^.]*)", part.replace("\n", " ")) if crate else ()
        for path, clauses in re.findall(r"`([\w:]*\w)(?:: ([\w, ]+))?`", " ".join(lists)):
            if not has_clauses(crate, path, re.findall(r"\w+", clauses)):
                yield f"{PAGE}: {crate.name} has no {path}{': ' + clauses if clauses else ''}"


def checked(library):
    """Returns the number of public functions, and what is wrong."""
    contracts = list(library.contracts())
    wrongs = [wrong for contract in contracts for wrong in wrongs_of(contract)]
    for judge in (wrongs_of_bare, wrongs_of_page):
        wrongs += judge(library)
    return sum(contract.one.is_public for contract in contracts), wrongs


def main():
    words = [word.lower() for word in sys.argv[1:]]
    library = Library()
    if words == ["--check"]:
        public, wrongs = checked(library)
        return ended(max(public - len(wrongs), 0), wrongs)
    signal.signal(signal.SIGPIPE, signal.SIG_DFL)  # `make contracts | head` ends without a message.
    for contract in library.contracts():
        text = printed(contract)
        if all(word in text.lower() for word in words):
            print(text)
    return 0


if __name__ == "__main__":
    sys.exit(main())
