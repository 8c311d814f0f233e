#!/usr/bin/env python3
"""Compares two programs: two_programs.py PATH_OF_AEC PATH_OF_ANOTHER [--seed N] [--cases N] [--only N]

For changes of how the program works and not of what it does: runs the same jobs with both programs, and compares status, output and
DEST. A case is one random list of samples with random settings, and one stream of it that may be damaged:
  - coding, of a file whose unused bits may be unlawful, and which may end within a sample;
  - decoding of the stream without a count and with one, and a range of it;
  - a script of edits on it.

Not part of `make test`, which has only one program: build the other one with `make bin/aec` in another clone. The seed is printed
and can be given; a case can be tried alone by its number. Prints the jobs that differ and, last, how many were equal. Ends with
status 1 if one differed.
"""

import os
import random
import sys

from lib import damaged_cases
from lib import script_cases
from lib.program import Program, Tally, asked_of, on_each_core, short

OLD = b"what DEST held before"


def answer(program, words, given, script):
    """Runs a job. Returns its status, what it prints, and DEST after it."""
    program.write("source", given)
    program.write("script", script)
    program.write("dest", OLD)
    return (*program.run(*words, "source", "dest"), program.read("dest"))


def some_stored(damaged, chance):
    """Returns the bytes of the samples, perhaps with some random bytes in them, or with random bytes after them."""
    stored = damaged.settings.stored(damaged.samples)
    if chance.random() < 0.2 and stored:
        place = chance.randrange(len(stored))
        stored = stored[:place] + chance.randbytes(3) + stored[place + 3 :]
    return stored + chance.randbytes(chance.choice([0, 0, 1, 3]))


def some_jobs(chance, number, _):
    """Returns the jobs of a case: the words of each, the bytes of SOURCE, and those of a script."""
    damaged = damaged_cases.some_damaged(chance)
    settings, count = damaged.settings, len(damaged.samples)
    options = settings.options()
    asked = ["--count", str(damaged_cases.some_count(damaged, chance))]
    first = chance.randint(0, count)
    cut = ["--range", f"{first}:{chance.randint(0, count + 1 - first)}"]
    script = script_cases.some_script(settings, count, chance, number)
    edit = ["--edit", "script", "--count", str(count)]
    return [
        (options, some_stored(damaged, chance), b""),
        (["-d", *options], damaged.stream, b""),
        (["-d", *asked, *options], damaged.stream, b""),
        ([*cut, *options], damaged.stream, b""),
        ([*cut, *asked, *options], damaged.stream, b""),
        ([*edit, *options], chance.choice([damaged.stream, damaged.whole]), script),
    ]


def try_case(seed, number, program, other, jobs, tally):
    before = tally.failed
    for words, given, script in jobs(random.Random(f"{seed} {number}"), number, other):
        what = f"{' '.join(words)} on {short(given) or 'no bytes'}"
        tally.check(what, answer(program, words, given, script), answer(other, words, given, script))
    if tally.failed > before:
        print(f"  that was --seed {seed} --only {number}", flush=True)


def try_part(program, numbers, seed, path, jobs):
    tally, other = Tally(), Program(path, program.folder)
    for number in numbers:
        try_case(seed, number, program, other, jobs, tally)
    return tally


def main(jobs, cases):
    """Compares the jobs of so many cases. `jobs` returns those of a case, from a source of chance, its number and the other program."""
    asked, tally = asked_of("Has two programs do the same jobs, and compares what they answer.", cases, other=True), Tally()
    for part in on_each_core(try_part, asked.program, asked.numbers, asked.seed, os.path.abspath(asked.other), jobs):
        tally.add(part)
    tally.print()
    return 1 if tally.failed else 0


if __name__ == "__main__":
    sys.exit(main(some_jobs, 2000))
