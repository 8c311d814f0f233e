#!/usr/bin/env python3
"""Checks the numbers of the copies of large functions: copies.py

crates/aec_block/src/copies.rt says what they are for. A const parameter with the name COPY or KIND takes such a number. Prints each
number that two constants of that file have; each constant that no call passes; each argument for such a parameter that is neither one
of these constants nor such a parameter of the caller; and each call that passes the same number as an earlier call of the function,
unless both are for different block sizes, which both write out. The last line counts the constants and calls that are right, and the
failures. Ends with status 1 if something failed.
"""

import os
import re
import sys
from typing import NamedTuple

sys.path.insert(0, os.path.join(os.path.dirname(__file__), "..", "tools"))

from sources import ended, files_below, text_of

NUMBERS = "crates/aec_block/src/copies.rt"
TAKES_NUMBER = ("COPY", "KIND")
CONSTANT = re.compile(r"^pub(?:\(crate\))? const (\w+): usize = (\d+);$", re.M)
FUNCTION = re.compile(r"\bfn (\w+)<([^>]*)>\(")
PARAMETER = re.compile(r"const (\w+):")
CALL = re.compile(r"\b(\w+)::<([^<>]*)>\(")


class Call(NamedTuple):
    place: str
    function: str
    # The arguments that are numbers of copies, and the others.
    numbers: tuple
    others: tuple

    def may_be(self, other):
        """Returns whether both calls may be of the same copy of the same function."""
        sizes = zip(self.others, other.others)
        return self[1:3] == other[1:3] and not any(a != b and a.isdigit() and b.isdigit() for a, b in sizes)


def calls(texts):
    """Returns the calls of the functions that take the number of a copy."""
    declared = [(name, PARAMETER.findall(words)) for text in texts.values() for name, words in FUNCTION.findall(text)]
    takes_number = {(name, len(names)): [it in TAKES_NUMBER for it in names] for name, names in declared}
    found = []
    for path, text in texts.items():
        for at in CALL.finditer(text):
            words = at[2].split(", ")
            takes = takes_number.get((at[1], len(words)), ())
            if any(takes):
                arguments = list(zip(words, takes))
                parts = [tuple(word for word, is_number in arguments if is_number is wanted) for wanted in (True, False)]
                found.append(Call(f"{path}:{text.count(chr(10), 0, at.start()) + 1}", at[1], *parts))
    return found


def wrongs(constants, found):
    """Yields what is wrong with the constants and the calls: at most one sentence for each."""
    passed = {number for call in found for number in call.numbers}
    for at, (name, number) in enumerate(constants):
        same = [other for other, its in constants[:at] if its == number]
        if same:
            yield f"{NUMBERS}: {name} is {number}, as {same[0]} is"
        elif name not in passed:
            yield f"{NUMBERS}: no call passes {name}"
    known = {name for name, _ in constants}.union(TAKES_NUMBER)
    for at, call in enumerate(found):
        unknown = [number for number in call.numbers if number not in known]
        same = [other.place for other in found[:at] if other.may_be(call)]
        if unknown:
            yield f"{call.place}: {unknown[0]}, passed to {call.function}, is no constant of {NUMBERS}"
        elif same:
            yield f"{call.place}: {call.function} is passed {call.numbers[0]}, as in {same[0]}"


def main():
    texts = {path: text_of(path) for path in files_below("crates", ".rt")}
    constants, found = CONSTANT.findall(texts[NUMBERS]), calls(texts)
    failures = list(wrongs(constants, found))
    if not (constants and found):
        failures.append(f"{NUMBERS}: no constants, or no calls")
    return ended(len(constants) + len(found) - len(failures), failures)


if __name__ == "__main__":
    sys.exit(main())
