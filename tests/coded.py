#!/usr/bin/env python3
"""Tests coded samples: coded.py PATH_OF_AEC [--seed N] [--cases N] [--only N]

Codes samples with the program at PATH_OF_AEC, and compares each byte with the plain coder of plain_coder.py. In turn
  - the worked examples, whose bytes are known by hand: the plain coder must return them too;
  - runs of each action in which each option and each sample count makes a difference;
  - random samples with random settings: coded from a file whose unused bits are lawful, or are not and must be refused; and as
    the stream of a coder with other choices, which an edit by an empty script must turn into the same bytes.

The seed of the last part is printed and can be given; one of its cases can be tried alone by its number. Prints the checks that
fail and, last, how many passed. Ends with status 1 if one failed.
"""

import random
import sys
import tempfile

from lib import foreign_writer
from lib import plain_coder
from lib.damaged_cases import some_samples, some_settings
from lib.program import Program, Tally, asked_of, on_each_core, said
from lib.telling_jobs import try_telling_jobs
from lib.worked_streams import EXAMPLES


def try_worked(program, tally):
    """Checks that the program and the plain coder return the bytes that are known by hand."""
    for stream, settings, _, samples, _ in EXAMPLES:
        what = f"{' '.join(settings.options())} on {settings.stored(samples).hex(' ')}"
        tally.check(f"{what}: the plain coder", plain_coder.stream(samples, settings), stream)
        tally.check(what, program.answer(settings.options(), settings.stored(samples)), stream)


def some_stored(settings, samples, chance):
    """Returns the bytes of the samples, with lawful unused bits or, rarely, others, and then a part of a sample; and the place of
    the first sample whose unused bits aren't lawful, None if there is none."""
    unused, words, bad = 8 * settings.storage() - settings.bits, [], None
    for i, x in enumerate(samples):
        is_negative = settings.signed and x < 0
        lawful = [0, 2**unused - 1] if is_negative else [0]
        high = chance.choice(lawful)
        if chance.random() * len(samples) < 0.5:
            high = chance.randrange(2**unused)
        if high not in lawful and bad is None:
            bad = i
        words.append(high * 2**settings.bits + x % 2**settings.bits)
    return settings.stored(words) + chance.randbytes(chance.randrange(settings.storage())), bad


def try_case(seed, number, program, tally):
    chance = random.Random(f"{seed} {number}")
    settings, before = some_settings(chance), tally.failed
    samples = some_samples(settings, chance)
    options, wanted = settings.options(), plain_coder.stream(samples, settings)
    foreign = foreign_writer.stream(samples, settings, chance)
    given, bad = some_stored(settings, samples, chance)
    refusal = None if bad is None else f"sample {bad} is out of range"
    coded = program.answer(options, given)
    what = f"{' '.join(options)} on {len(samples)} samples"
    tally.check(what, (program.said, coded), (said(refusal)[1], None if refusal else wanted))
    program.write("script", b"")
    words = ["--edit", "script", "--count", str(len(samples)), *options]
    tally.check(f"{' '.join(words)} on {foreign.hex(' ')}", program.answer(words, foreign), wanted)
    if tally.failed > before:
        print(f"  that was --seed {seed} --only {number}", flush=True)


def try_part(program, numbers, seed):
    tally = Tally()
    for number in numbers:
        try_case(seed, number, program, tally)
    return tally


def main():
    asked, tally = asked_of("Codes samples, and compares with a plain coder.", 2000), Tally()
    with tempfile.TemporaryDirectory() as folder:
        try_worked(Program(asked.program, folder), tally)
        try_telling_jobs(Program(asked.program, folder), tally)
    for part in on_each_core(try_part, asked.program, asked.numbers, asked.seed):
        tally.add(part)
    tally.print()
    return 1 if tally.failed else 0


if __name__ == "__main__":
    sys.exit(main())
