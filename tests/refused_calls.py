#!/usr/bin/env python3
"""Tests library calls that lack memory: refused_calls.py PATH_OF_AEC_MEMORY_TRIALS

The program at PATH_OF_AEC_MEMORY_TRIALS makes calls of the libraries that can lack memory, and prints the result of each call and the
state after it. It repeats a call that lacked memory. A preloaded library refuses growths (calls of malloc, calloc and realloc) within
those calls: the k-th and all later ones in the same call, and the k-th alone, for each k until a run meets no refusal. That run must
print the file stdout of the crate aec_memory_tests. Each other run must print the same, except for the call that lacked memory:
  - The state is the one before the call, but a codec's counters may have risen, at most as far as in a successful call. The repeated
    call prints its line of the file.
  - A coder in pieces returns the refusal for good. A new coder prints the line of the file.
  - In a run of edits, the refused growth of an edit is the outcome of that edit, and the other edits are made.
  - A run of the program ends with status 1 and one line, and makes no DEST.

No call goes on without a growth.

The command `cc` builds the preloaded library. Without `cc` nothing is tested, which is a failure if CI is set. Prints a table, the
checks that fail and, last, how many passed. Ends with status 1 if one failed.
"""

import os
import re
import sys
import tempfile
from concurrent.futures import ThreadPoolExecutor
from typing import NamedTuple

from lib.program import TOP, Program, Tally
from lib.refusing import Growths, build, has_compiler, print_skipped, ways

ROWS = os.path.join(TOP, "crates", "aec_memory_tests", "stdout")
WANT = "out of memory"
COUNTERS = re.compile(r"calls (\d+), reads (\d+),")


class Line(NamedTuple):
    """A printed line: a call, its result, and the state after it."""

    call: str
    answer: str
    left: str


def lines_of(text):
    return [Line(*re.fullmatch(r"(.*?): (.*?) \|(.*)", line).groups()) for line in text.splitlines()]


def counters(line):
    """Returns the numbers of calls and of reads in a line, zeros if it has no codec."""
    found = COUNTERS.search(line.left)
    return [int(number) for number in found.groups()] if found else [0, 0]


def rise(old, new):
    return [after - before for before, after in zip(counters(old), counters(new))]


def raised(line, by):
    calls, reads = (number + more for number, more in zip(counters(line), by))
    return line._replace(left=COUNTERS.sub(f"calls {calls}, reads {reads},", line.left))


def end_of_trial(rows, place):
    """Returns the place after the last call of the series that this call belongs to."""
    return next((i for i in range(place, len(rows)) if rows[i].call == "new"), len(rows))


def most_rise(rows, place):
    """Returns by how much a refused call may raise the counters, and by how much it must."""
    most = rise(rows[place - 1], rows[place])
    if rows[place].call == "Codec::code":
        return [0, 0], [0, 0]
    return most, most if rows[place].call == "Codec::decode" else [0, 0]


def after_refusal(rows, place, refused):
    """Returns the lines expected from a refused call on: only counters have changed, and the repeated call prints its row."""
    before = rows[place - 1]
    by = rise(before, refused)
    most, least = most_rise(rows, place)
    by = [min(max(number, low), high) for number, low, high in zip(by, least, most)]
    end = end_of_trial(rows, place)
    want = raised(before, by)._replace(call=rows[place].call, answer=WANT)
    return [want, *(raised(row, by) for row in rows[place:end]), *rows[end:]]


def after_refused_piece(rows, place, refused):
    """Returns the same for a coder in pieces, which lacks memory for good. It has appended the code of no interval, or of those that
    were complete, and holds fewer samples than an interval has. A new coder prints the last row."""
    end = end_of_trial(rows, place)
    codes = [without_held(rows[i].left) for i in (place - 1, place)]
    code = without_held(refused.left)
    code = code if code in codes else codes[0]
    held = refused.left if refused.left in [f"{code}, held {number}" for number in range(16)] else "fewer than 16 samples held"
    calls = [row.call for row in rows[place : end - 1]]
    for_good = [Line(call, WANT, held) for call in calls for _ in range(2)]
    return [*for_good, Line(rows[end - 1].call, WANT, code), *rows[end - 1 :]]


def without_held(left):
    return re.sub(r", held \d+", "", left)


def after_lost_edit(rows, place, refused):
    """Returns the same for a run of edits in which one edit lacks memory: the later edits are made of the samples before it."""
    spent, _, _, coded = re.findall(r" .*?;", rows[place].left)
    empty = next(row for row in reversed(rows[:place]) if row.call == "new")
    by = [1, 0] if rise(empty, refused) == [1, 0] else [0, 0]
    left = f"{spent} {WANT}; position outside the 0 samples;{coded}{raised(empty, by).left}"
    return [rows[place]._replace(left=left), *rows[place + 1 :]]


def after_refused_run(rows, place, refused):
    """Returns the same for a run of the program: its status is 1, DEST isn't there, and the message is that of lacking memory, in an
    edit perhaps with a line of the script. The repeated run prints its row."""
    texts = [f"aec: {WANT}", *([f"aec: line 1: {WANT}"] if "--edit" in refused.call else [])]
    lefts = [f" status 1, '{text}' no dest" for text in texts]
    left = refused.left if refused.left in lefts else lefts[0]
    return [rows[place]._replace(answer=WANT, left=left), *rows[place:]]


def wanted(rows, place, refused):
    if refused.call.startswith("perform"):
        return after_refused_run(rows, place, refused)
    if refused.call.startswith("StreamCoder") and place + 1 < end_of_trial(rows, place):
        return after_refused_piece(rows, place, refused)
    if refused.call.startswith("StreamCoder"):
        before = rows[place - 1]._replace(left=without_held(rows[place - 1].left))
        return after_refusal([*rows[: place - 1], before, *rows[place:]], place, refused)
    if refused.call == "Workspace::run" and refused.answer != WANT:
        return after_lost_edit(rows, place, refused)
    if refused.call == "Workspace::run":
        empty = next(row for row in reversed(rows[:place]) if row.call == "new")
        return after_refusal([*rows[: place - 1], empty, *rows[place:]], place, refused)
    return after_refusal(rows, place, refused)


def first_difference(rows, lines):
    return next((i for i, (row, line) in enumerate(zip(rows, lines)) if row != line), min(len(rows), len(lines)))


def compare(what, lines, want, tally):
    place = first_difference(want, lines)
    tally.holds(lines == want, f"{what}: {lines[place : place + 1]} in place of {want[place : place + 1]}")


class Calls:
    """The program, run with some growths refused."""

    def __init__(self, path, library, folder):
        self.program = Program(path, folder)
        self.growths = Growths(self.program, library, in_parts=True)

    def lines(self, first, last):
        """Returns the printed lines, without the marks on standard error, and the numbers of growths and refusals. The lines are None
        if the status isn't 0."""
        (status, text), growths, refused = self.growths.refuse(first, last, self.program.run)
        text = re.sub(r"(?m)^(refuse|grant)\n", "", text)
        return lines_of(text) if status == 0 else None, growths, refused


def refuse_in_turn(path, library, rows, alone, tally):
    """Refuses each growth in turn. Returns the name of the call in which each growth is."""
    calls = []
    with tempfile.TemporaryDirectory() as folder:
        program = Calls(path, library, folder)
        for first, last in ways(alone):
            lines, _, refused = program.lines(first, last)
            way = f"growth {first} {'alone' if alone else 'and those after it'}"
            if lines is None or len(lines) < len(rows):
                tally.holds(False, f"{way}: the program ends with a fault, or too early")
                return calls
            if refused == 0:
                tally.holds(lines == rows, f"{way}, with none refused: {lines}")
                return calls
            place = first_difference(rows, lines)
            if place == len(rows):
                tally.holds(False, f"{way}: no call lacks memory")
                continue
            want = wanted(rows, place, lines[place])
            compare(f"{way}, in {rows[place].call}", lines[place:], want, tally)
            calls.append(rows[place].call)
    tally.holds(False, f"more than {len(calls)} growths")
    return calls


def print_table(rows, calls):
    """Prints the number of rows of each call, and of its growths in all rows."""
    print("| Call | Rows | Growths |\n|---|---|---|")
    names, found = ([call.split(" ")[0] for call in listed] for listed in ([row.call for row in rows], calls))
    for call in dict.fromkeys(name for name in names if name != "new"):
        print(f"| `{call}` | {names.count(call)} | {found.count(call)} |")


def main():
    path, tally = os.path.abspath(sys.argv[1]), Tally()
    with open(ROWS, encoding="utf-8") as file:
        rows = lines_of(file.read())
    if not has_compiler():
        print_skipped(tally, len(rows))
        return 1 if tally.failed else 0
    with tempfile.TemporaryDirectory() as folder, ThreadPoolExecutor() as pool:
        library = build(folder)
        tallies = [Tally(), Tally()]
        parts = [pool.submit(refuse_in_turn, path, library, rows, alone, tallies[alone]) for alone in (False, True)]
        all_after, alone = (part.result() for part in parts)
    for one in tallies:
        tally.add(one)
    tally.holds(all_after == alone != [], f"{len(all_after)} growths, or {len(alone)}")
    print_table(rows, all_after)
    tally.print()
    return 1 if tally.failed else 0


if __name__ == "__main__":
    sys.exit(main())
