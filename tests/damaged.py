#!/usr/bin/env python3
"""Tests damaged streams: damaged.py PATH_OF_AEC [--seed N] [--cases N] [--only N]

Decodes, with the program at PATH_OF_AEC, damaged streams that another coder might have written, and compares status, message and
DEST with the result of the plain reader of plain_reader.py: the same samples, or the same fault with its bit. In turn
  - results that were worked out by hand, which the reader must return too;
  - the streams of worked examples, and others spelled by hand with blocks of every option, runs and padding: cut after each
    byte, and with each single bit turned, with the count and without;
  - streams of random settings and samples, written by any lawful choices, or with one block written unlawfully, and then
    damaged: bits turned, bytes cut off, lost, replaced or added, or plain random bytes. Each is decoded without a count and
    with one, and some are cut to a range. Each undamaged stream must be read as its samples.

The seed of the last part is printed and can be given; one of its streams can be tried alone by its number. Prints the checks
that fail and, last, how many passed. Ends with status 1 if one failed.
"""

import random
import sys
import tempfile
from collections import Counter

from lib.damaged_cases import some_count, some_damaged
from lib.plain_reader import Fault, reading
from lib.program import Program, Tally, asked_of, on_each_core, said
from lib.spelled_streams import SPELLED
from lib.worked_streams import EXAMPLES, READINGS

OLD = b"what DEST held before"


def read_by_reader(stream, settings, count):
    """Returns the samples and None, or None and the fault's text."""
    try:
        return reading(stream, settings, count), None
    except Fault as fault:
        return None, str(fault)


def try_decoding(program, tally, stream, settings, count, wanted, more=()):
    """Decodes a stream, and compares with the expected samples or fault. After a fault DEST must be unchanged."""
    samples, fault = wanted
    words = [*(more or ["-d"]), *settings.options(), *([] if count is None else ["--count", str(count)])]
    old = OLD if len(stream) % 2 else None
    program.write("source", stream)
    program.write("dest", old)
    answer = (*program.run(*words, "source", "dest"), program.read("dest"))
    dest = old if fault else settings.stored(samples)
    what = f"{' '.join(words)} on {stream.hex(' ') or 'no bytes'}"
    tally.check(what, answer, (*said(fault), dest))


def try_worked(program, tally):
    """Checks that the program and the reader return the results that are known by hand."""
    for worked in EXAMPLES + READINGS + SPELLED:
        stream, settings, count, *wanted = worked
        tally.check(f"the reader on {worked}", read_by_reader(stream, settings, count), tuple(wanted))
        try_decoding(program, tally, stream, settings, count, wanted)


def fronts_and_turned_bits(stream):
    """Yields a stream cut after each byte, then the stream with each of its bits turned."""
    yield from (stream[:length] for length in range(len(stream) + 1))
    for place in range(8 * len(stream)):
        turned = bytearray(stream)
        turned[place // 8] ^= 128 >> place % 8
        yield bytes(turned)


def try_turned(program, examples):
    tally = Tally()
    for worked in examples:
        for stream in fronts_and_turned_bits(worked.stream):
            for count in (None, worked.count):
                wanted = read_by_reader(stream, worked.settings, count)
                try_decoding(program, tally, stream, worked.settings, count, wanted)
    return tally


def some_range(wanted, chance):
    """Returns the words for a random range of a stream, and the expected samples or refusal."""
    samples, fault = wanted
    present = len(samples or [])
    first = chance.choice([0, present, present + 1, chance.randint(0, present)])
    length = chance.choice([0, 1, max(present - first, 0), 2**64 - 1])
    words = ["--range", f"{first}:{length}"]
    if fault is None and first + length > present:
        return words, (None, f"position outside the {present} samples")
    return words, (samples and samples[first : first + length], fault)


def try_damaged(seed, number, program, tally, answers):
    chance = random.Random(f"{seed} {number}")
    damaged = some_damaged(chance)
    settings, stream, before = damaged.settings, damaged.stream, tally.failed
    whole = read_by_reader(damaged.whole, settings, len(damaged.samples))
    tally.check(f"stream {number}: the reader on the lawful stream", whole, (damaged.samples, None))
    for count in (None, some_count(damaged, chance)):
        wanted = read_by_reader(stream, settings, count)
        answers[(wanted[1] or "samples").split(" at ")[0]] += 1
        try_decoding(program, tally, stream, settings, count, wanted)
        if chance.random() < 0.1:
            words, wanted = some_range(wanted, chance)
            try_decoding(program, tally, stream, settings, count, wanted, words)
    if tally.failed > before:
        print(f"  that was --seed {seed} --only {number}: {damaged.kind}", flush=True)


def try_part(program, numbers, seed):
    """Tests the streams of these numbers. Returns the tally, and how often each kind of result was expected."""
    tally, answers = Tally(), Counter()
    for number in numbers:
        try_damaged(seed, number, program, tally, answers)
    return tally, answers


def try_all(path, seed, numbers, tally):
    """Tests the streams of these numbers on all cores. If they are 1,000 or more, no kind of result may be missing."""
    answers = Counter()
    for its_tally, its_answers in on_each_core(try_part, path, numbers, seed):
        tally.add(its_tally)
        answers += its_answers
    print("results of the damaged streams: " + ", ".join(f"{text} {times}" for text, times in answers.most_common()))
    if len(numbers) >= 1000:
        tally.check("kinds of answers", len(answers), 5)


def main():
    asked, tally = asked_of("Decodes damaged streams, and compares with a plain reader.", 5000), Tally()
    if asked.only is None:
        with tempfile.TemporaryDirectory() as folder:
            program = Program(asked.program, folder)
            try_worked(program, tally)
        for its_tally in on_each_core(try_turned, asked.program, EXAMPLES + SPELLED):
            tally.add(its_tally)
    try_all(asked.program, asked.seed, asked.numbers, tally)
    tally.print()
    return 1 if tally.failed else 0


if __name__ == "__main__":
    sys.exit(main())
