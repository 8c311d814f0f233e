#!/usr/bin/env python3
"""Counts the calls from `main` of crates/aec down to the buffer of bits: walk.py

Follows the calls in the sources of the crates for a coded sample, a decoded sample and a line of a script. Prints for each the
functions on the way and the numbers of calls and files, and then for each library the mean number of clauses of a function.

A way is the shortest chain of calls that passes the functions named in WAYS. A sample of a whole block really passes these. A
call is found by its name: a method by a type or trait that the file names; a function after a path by the last part of the path;
a free function without a path by its file or a `use`. After a function that a trait declares, the way continues in the trait's
impls.

Fails if a way doesn't exist. Nothing bounds its length.
"""

import re
import sys
from collections import deque
from typing import NamedTuple

from sources import all_crates, text_of


class Way(NamedTuple):
    what: str
    # The functions that it passes, each by the last parts of its path.
    through: list


MAIN = "aec::main"
LIBRARIES = ("aec_params", "aec_bits", "aec_block", "aec_interval", "aec_edit", "aec_engine", "aec_cli", "aec_c")
WAYS = [
    Way(
        "A coded sample, of a whole block that is split",
        ["aec_engine::engine::coding::encode", "StreamCoder::feed", "pieces::take_part", "shortest::write_shortest_of",
         "writing::put_split", "writing::put_low_groups", "Gathered::put", "packed::push_reserved_number"],
    ),
    Way(
        "A decoded sample, of a block read at once",
        ["aec_engine::engine::decoding::decode", "StreamReader::next_few", "untested_blocks::fill_next", "single_sets::read_single",
         "BitReader::read_sequences", "BitBuf::word_from"],
    ),
    Way(
        "A line of a script, an overwrite",
        ["aec_engine::engine::editing::edit", "Workspace::apply", "Workspace::overwrite", "Codec::code", "shortest::write_shortest_of",
         "writing::put_split", "writing::put_low_groups", "Gathered::put", "packed::push_reserved_number"],
    ),
]  # fmt: skip

CALL = re.compile(r"(?<![\w.])(?:(\w+)(?:::<[^>()]*>)?::)?(\w+)(?:::<[^>()]*>)?\(|\.(\w+)(?:::<[^>()]*>)?\(")
CLAUSE = re.compile(r"\s*(?:ensures|requires)\b")


def key(one):
    return one.file, one.at


def bodies(path, functions):
    """Yields each function of a file with its text: from its second line to the next function, without comments, contract and
    strings."""
    lines = text_of(path).split("\n")
    starts = sorted(one.at for one in functions) + [len(lines)]
    for one in functions:
        end = starts[starts.index(one.at) + 1]
        text = "\n".join(line.split("//")[0] for line in lines[one.at + 1 : end])
        text = re.sub(r"(?:ensures|requires) *\w* *\{(?:[^{}]|\{(?:[^{}]|\{[^{}]*\})*\})*\}", "", text)
        yield one, re.sub(r'"[^"\n]*"', "", text)


class CallGraph:
    """The functions of the crates, and which functions each one calls."""

    def __init__(self, are_tests_judged=False):
        crates = all_crates()
        left_out = () if are_tests_judged else ("_tests", "_example")
        judged = [crate for crate in crates.values() if not crate.name.endswith(left_out)]
        self.functions = [one for crate in judged for one in crate.functions if are_tests_judged or not one.is_test]
        self.impls = {pair for crate in crates.values() for pair in crate.impls if pair[0]}
        self.by_name = {}
        for one in self.functions:
            self.by_name.setdefault(one.name, []).append(one)
        self.texts = {path: text_of(path) for path in {one.file for one in self.functions}}
        self.calls = {}
        for path in sorted(self.texts):
            for one, body in bodies(path, [it for it in self.functions if it.file == path]):
                self.calls[key(one)] = [called for called in self.called_in(one, body) if called != one]

    def names(self, path, word):
        return re.search(rf"\b{word}\b", self.texts[path])

    def called_in(self, caller, body):
        for before, name, method in CALL.findall(body):
            for one in self.by_name.get(name or method, ()):
                if method and one.owner and (one.file == caller.file or self.names(caller.file, one.owner) or self.is_field(one)):
                    yield one
                elif name and before and before in (one.owner, one.module.split("::")[-1], "Self" if one.owner == caller.owner else ""):
                    yield one
                elif name and not before and not one.owner and (one.file == caller.file or self.is_used(caller.file, one)):
                    yield one

    def is_field(self, one):
        """Returns whether a function's type has methods that are called in files that don't name the type."""
        return one.owner in ("BitBuf", "BitReader", "Coded", "StreamReader", "StreamCoder")

    def is_used(self, path, one):
        return re.search(rf"^use [^;]*\b{one.name}\b[^;]*;", self.texts[path], re.M)

    def next_of(self, one):
        yield from self.calls[key(one)]
        for trait, owner in self.impls:
            if one.is_declared and trait.split("::")[-1] == one.owner:
                yield from (it for it in self.by_name[one.name] if it.owner == owner)

    def find(self, part):
        found = [one for one in self.functions if ("::" + one.path()).endswith("::" + part)]
        if len(found) != 1:
            sys.exit(f"FAILED: {len(found)} functions are {part}")
        return found[0]

    def chain(self, start, end):
        """Returns the shortest chain of calls from one function to another, empty if there is none."""
        came, left = {key(start): None}, deque([start])
        while left and key(end) not in came:
            one = left.popleft()
            for called in self.next_of(one):
                if key(called) not in came:
                    came[key(called)] = one
                    left.append(called)
        found = [end] if key(end) in came else []
        while found and came[key(found[0])]:
            found.insert(0, came[key(found[0])])
        return found


def way_through(graph, way):
    chain = [graph.find(MAIN)]
    for part in way.through:
        piece = graph.chain(chain[-1], graph.find(part))
        if not piece:
            sys.exit(f"FAILED: no calls lead from {chain[-1].path()} to {part}")
        chain += piece[1:]
    return chain


def clauses_of(crate):
    lines = [line for path in {one.file for one in crate.functions} for line in text_of(path).split("\n")]
    return sum(bool(CLAUSE.match(line)) for line in lines), len(crate.functions)


def main():
    graph, crates = CallGraph(), all_crates()
    for way in WAYS:
        chain = way_through(graph, way)
        files = {one.file for one in chain}
        print(f"{way.what}: {len(chain) - 1} calls, {len(files)} files")
        print("".join(f"    {one.path()}\n" for one in chain))
    for name in LIBRARIES:
        clauses, functions = clauses_of(crates[name])
        print(f"{name}: {clauses / functions:.2f} clauses a function ({clauses} of {functions})")


if __name__ == "__main__":
    main()
