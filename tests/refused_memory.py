#!/usr/bin/env python3
"""Tests refused memory: refused_memory.py PATH_OF_AEC

Runs the program at PATH_OF_AEC with a small library loaded before the C library, which refuses growths (calls of malloc, calloc and
realloc): the k-th and all later ones, and the k-th alone, for each k until a run meets no refusal. That run must write the right bytes.
A refused run must end with status 1 and the one line for lack of memory on standard error, and must leave DEST as it was, or absent.
One exception: if only the growth for the list of the process's words is refused, the run may succeed, and must then write the right
bytes: the kit builds the list step by step.

Without the library and with little memory, the program also decodes a short stream of very many samples, cuts it to a range and edits
it; and it edits a stream by a script of a million lines, with four times the script's bytes and 16 MiB.

The command `cc` builds the library. Without `cc` the library's runs are skipped, which is a failure if CI is set. Prints a table, the
checks that fail and, last, how many passed. Ends with status 1 if one failed.
"""

import os
import resource
import sys
import tempfile
from concurrent.futures import ProcessPoolExecutor
from functools import partial
from typing import NamedTuple, Optional

from lib.jobs import CHANGED_STREAM, EARLY_JOB, EDIT_LINES, EVEN_JOBS, JOBS, LARGE_JOBS, LONGEST, STILL_STREAM, ZEROS, ZEROS_STREAM, Job
from lib.program import Program, Tally
from lib.refusing import MOST_GROWTHS, Growths, build, has_compiler, print_skipped, ways
from lib.spelling import bytes_of_bits

OLD = b"what DEST held before"
LITTLE = 2**25
WANT = "aec: out of memory\n"
WANT_OF_AN_EDIT = [f"aec: line {line}: out of memory\n" for line in EDIT_LINES]

class Run(NamedTuple):
    """A run, and its result if no growth is refused: status, output (None: not checked here) and DEST."""

    what: str
    words: list
    source: bytes
    script: bytes
    status: int
    printed: Optional[str]
    dest: Optional[bytes]


def succeeding(job):
    return Run(job.what, [*job.words, "source", "dest"], job.source, job.script, 0, "", job.answer)


RUNS = [
    *map(succeeding, [*JOBS, *EVEN_JOBS, EARLY_JOB]),
    succeeding(Job("coding of many zeros", LONGEST, ZEROS, ZEROS_STREAM)),
    *map(succeeding, LARGE_JOBS[1:]),
    Run("help", ["--help"], b"", b"", 0, None, None),
    Run("a fault of the words", ["-x", "source", "dest"], b"", b"", 2, None, None),
    Run("a wrong range", ["--range", "3", "source", "dest"], b"", b"", 2, "aec: --range needs FIRST:LEN\n", None),
    Run("no SOURCE", ["nowhere", "dest"], b"", b"", 1, "aec: read failed\n", None),
    Run("no folder of DEST", ["source", "nowhere/dest"], b"", b"", 1, "aec: write failed\n", None),
]


def list_of_words(run):
    """Returns the number of the growth for the list of the process's words. Reading the words takes the growths before it: one for
    each word, one for the end, and those of a list that doubles when it is full."""
    words = len(run.words) + 1
    return words + 3 + (words > 4) + (words > 8)


class Refusing:
    """The program with the library that refuses growths, on the files of a run."""

    def __init__(self, path, library, folder, run):
        self.program, self.run = Program(path, folder), run
        self.growths = Growths(self.program, library)
        self.program.write("source", run.source)
        self.program.write("script", run.script)

    def answer(self, old, first, last):
        """Runs with the growths from `first` to `last` refused, and with `old` in DEST, or no DEST. Returns the result, and the numbers
        of growths and refusals."""
        self.program.write("dest", old)
        answer, growths, refused = self.growths.refuse(first, last, self.program.run, *self.run.words)
        return (*answer, self.program.read("dest")), growths, refused

    def is_complete(self, answer, old):
        """Returns whether this is the result of a run with ample memory."""
        status, printed, dest = answer
        wanted = old if self.run.dest is None else self.run.dest
        return status == self.run.status and dest == wanted and self.run.printed in (None, printed)

    def is_want_of_memory(self, answer, old):
        wants = [WANT, *(WANT_OF_AN_EDIT if "--edit" in self.run.words else [])]
        return answer[0] == 1 and answer[1] in wants and answer[2] == old


class Row(NamedTuple):
    """The observations of a run whose growths are refused in turn."""

    growths: int
    runs: int
    tally: Tally


def refuse_in_turn(refusing, alone, old, tally):
    """Refuses each growth of a run in turn. Returns how many runs that took."""
    what = refusing.run.what
    for first, last in ways(alone):
        answer, _, refused = refusing.answer(old, first, last)
        way = f"{what}: growth {first} {'alone' if alone else 'and all after it'}: {answer}"
        complete = refusing.is_complete(answer, old)
        if refused == 0:
            tally.holds(complete, f"{way}, with none refused")
            return first
        goes_on = alone and first == list_of_words(refusing.run) and complete
        tally.holds(refusing.is_want_of_memory(answer, old) or goes_on, way)
    tally.holds(False, f"{what}: more than {MOST_GROWTHS} growths")
    return MOST_GROWTHS


def try_run(path, library, run):
    """Refuses each growth of a run in turn, alone and with all later ones, with an old DEST and without."""
    with tempfile.TemporaryDirectory() as folder:
        refusing, tally = Refusing(path, library, folder, run), Tally()
        answer, growths, _ = refusing.answer(None, 0, -1)
        tally.holds(refusing.is_complete(answer, None), f"{run.what}, with ample memory: {answer}")
        tally.holds(growths > 0, f"{run.what}: no growth is counted, so the library sees none")
        runs = 1 + sum(refuse_in_turn(refusing, alone, old, tally) for alone in (False, True) for old in (None, OLD))
        return Row(growths, runs, tally)


def refuse_all_in_turn(path, tally):
    print("| Run | Growths | Runs |\n|---|---|---|")
    with tempfile.TemporaryDirectory() as folder, ProcessPoolExecutor() as pool:
        rows = pool.map(partial(try_run, path, build(folder)), RUNS)
        for run, row in zip(RUNS, rows):
            tally.add(row.tally)
            print(f"| {run.what} | {row.growths:,} | {row.runs:,} |", flush=True)


def try_little_memory(path, tally):
    """Runs the program with little memory on a stream of 18,688 bytes with 67 million samples."""

    def limit():
        resource.setrlimit(resource.RLIMIT_AS, (LITTLE, LITTLE))

    with tempfile.TemporaryDirectory() as folder:
        program = Program(path, folder)
        program.write("source", ZEROS_STREAM * 256)  # whole bytes, so that the next interval begins at a byte
        program.write("script", b"append 1")
        # After the zeros, an interval of one sample: a block of equal samples, as a run of one.
        appended = ZEROS_STREAM * 256 + bytes_of_bits("0000" + "00000001" + "1")
        for words, wanted in (
            (["-d"], bytes(2**26)),
            (["--range", "5:1", "--count", str(2**26)], bytes(1)),
            (["--edit", "script"], appended),
        ):
            program.write("dest", OLD)
            what = f"{' '.join(words)} with {LITTLE >> 20} MB"
            tally.check(what, program.run(*words, *LONGEST, "source", "dest", preexec_fn=limit), (0, ""))
            tally.check(f"{what}: DEST", program.read("dest"), wanted)


def try_long_script(path, tally):
    """Edits by a script of a million lines, with an address space of four times its bytes and 16 MiB."""
    script = b"overwrite 20 1\n" * 10**6
    most = 4 * len(script) + 2**24
    with tempfile.TemporaryDirectory() as folder:
        program = Program(path, folder)
        program.write("source", STILL_STREAM)
        program.write("script", script)
        words = ["--edit", "script", "--count", "48", "source", "dest"]
        answer = program.run(*words, preexec_fn=lambda: resource.setrlimit(resource.RLIMIT_AS, (most, most)))
        tally.check(f"a million lines with {most >> 20} MB", answer, (0, ""))
        tally.check(f"a million lines with {most >> 20} MB: DEST", program.read("dest"), CHANGED_STREAM)


def main():
    path, tally = os.path.abspath(sys.argv[1]), Tally()
    try_little_memory(path, tally)
    try_long_script(path, tally)
    if not has_compiler():
        print_skipped(tally, len(RUNS))
    else:
        refuse_all_in_turn(path, tally)
        tally.print()
    return 1 if tally.failed else 0


if __name__ == "__main__":
    sys.exit(main())
