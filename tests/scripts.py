#!/usr/bin/env python3
"""Tests edits by scripts against a plain model: scripts.py PATH_OF_AEC [--seed N] [--cases N] [--only N]

Generates streams and scripts, edits each stream by its script with the program at PATH_OF_AEC, and compares status, messages and DEST
with the model. The model reads the script by the rules of docs/COMMAND.md and makes its edits on a list. The expected bytes are those
that the same program writes when it codes that list, so this tests edits and scripts, not coding. A table of bytes worked out by hand
comes first. After a refusal DEST must be unchanged, or absent. At the end the options of --help are compared with those of the manual
page and of docs/COMMAND.md.

Prints the cases that fail and, last, how many checks passed. Ends with status 1 if one failed.
"""

import os
import random
import re
import sys
import tempfile

from lib.program import TOP, Program, Tally, asked_of, said, short
from lib.script_cases import some_count, some_samples, some_script, some_settings
from lib.script_examples import BAD_LINES, EXAMPLES, SKIPPED_LINES, ZEROS
from lib.script_model import Refused, edited, edits_of


def try_example(example, program, tally):
    for old in (None, b"old"):
        program.write("script", example.script)
        program.write("source", example.source)
        program.write("dest", old)
        count = [] if example.count is None else ["--count", str(example.count)]
        tally.check(f"{example.what}: answer", program.run("--edit", "script", *count, "source", "dest"), said(example.refusal))
        tally.check(f"{example.what}: DEST", program.read("dest"), old if example.refusal else example.dest)


def try_shared_names(program, tally):
    both = bytes.fromhex("23 FF FF")  # as a script a comment, as a stream eight times 31 by sample splitting
    program.write("both", both)
    tally.check("SCRIPT is SOURCE: answer", program.run("--edit", "both", "--count", "8", "both", "dest"), said(None))
    tally.check("SCRIPT is SOURCE: DEST", program.read("dest"), bytes.fromhex("01 F8"))
    for dest in ("source", "script"):
        program.write("script", b"overwrite 20 1\n")
        program.write("source", ZEROS)
        tally.check(f"DEST is the {dest}: answer", program.run("--edit", "script", "source", dest), said(None))
        tally.check(f"DEST is the {dest}: DEST", program.read(dest), bytes.fromhex("00 04 40 30 C2 00 08"))
    program.write("source", ZEROS)
    program.write("script", b"truncate 49")
    refusal = said("line 1: position outside the 48 samples")
    tally.check("refused, DEST is SOURCE: answer", program.run("--edit", "script", "source", "source"), refusal)
    tally.check("refused, DEST is SOURCE: DEST", program.read("source"), ZEROS)


def try_lines(program, tally):
    """Tests each bad line between others and as the last one, and all lines that do nothing."""
    program.write("source", ZEROS)
    for bad in BAD_LINES:
        for end in (b"\nappend\n", b""):
            program.write("script", b"append 1\n\n" + bad + end)
            program.write("dest", None)
            answer = program.run("--edit", "script", "source", "dest")
            tally.check(f"the bad line {bad!r}: answer", answer, said("script line 3 is not an edit"))
            tally.check(f"the bad line {bad!r}: DEST", program.read("dest"), None)
    program.write("script", b"\r\n".join(SKIPPED_LINES) + b"\r\noverwrite 20 1\r")
    tally.check("lines that say nothing: answer", program.run("--edit", "script", "source", "dest"), said(None))
    tally.check("lines that say nothing: DEST", program.read("dest"), bytes.fromhex("00 04 40 30 C2 00 08"))


def try_long_scripts(program, tally):
    """Tests a line of very many values, and very many lines of one value each."""
    values = bytes(i * i % 251 for i in range(10**6))
    numbers = [b"%d" % x for x in values]
    front, few = bytes(48), values[: 10**5]
    at_the_end = b"".join(b"insert %d %d\n" % (i, x) for i, x in enumerate(few))
    cases = [
        ("a million values on one line", ZEROS, b"insert 20 " + b" ".join(numbers), front[:20] + values + front[20:]),
        ("100,000 insertions at the end", b"", at_the_end, few),
        ("a million values taken out", ZEROS, b"insert 7 " + b" ".join(numbers) + b"\nremove 7 1000000", front),
    ]
    for what, source, script, samples in cases:
        wanted = program.answer([], samples)
        program.write("script", script)
        program.write("source", source)
        tally.check(f"{what}: answer", program.run("--edit", "script", "source", "dest"), said(None))
        tally.check(f"{what}: DEST", program.read("dest"), wanted)
    program.write("source", ZEROS)
    program.write("script", b"insert 0 1\n" * 50_000 + b"truncate 50049\n" + b"insert 0 1\n" * 9)
    program.write("dest", b"old")
    answer = program.run("--edit", "script", "source", "dest")
    tally.check("refused after 50,000 insertions: answer", answer, said("line 50001: position outside the 50048 samples"))
    tally.check("refused after 50,000 insertions: DEST", program.read("dest"), b"old")


def try_overwrites(program, tally):
    """Tests leading overwrites, which the program makes in the order of their places: in other orders, some of the same samples,
    with a refused one among them, and more than the program sorts."""
    many = 20_000
    orders = {
        "descending": range(many - 1, -1, -1),
        "in any order": random.Random(7).sample(range(many), many),
        "each place twice": [*range(many - 1, -1, -2), *range(many - 2, -1, -2)] * 2,
    }
    rows = [
        ("shared from before", [(20, [1, 2]), (19, [3, 4])]),
        ("shared from behind", [(19, [3, 4]), (20, [1, 2])]),
        ("a place three times", [(20, [1]), (20, [2]), (3, [4]), (20, [3])]),
        ("around another", [(10, [5] * 20), (40, [6]), (12, [7]), (5, [8] * 30), (6, [9])]),
        ("touching", [(30, [1, 2, 3]), (27, [4, 5, 6]), (33, [7]), (26, [8])]),
        ("without a value", [(48, []), (20, [1]), (20, []), (0, [])]),
        *((what, [(place, [place % 251]) for place in order]) for what, order in orders.items()),
    ]
    for what, overwrites in rows:
        samples = bytearray(48 if len(overwrites) < 10 else many)
        program.write("source", program.answer([], bytes(samples)))
        for place, values in overwrites:
            samples[place : place + len(values)] = bytes(values)
        lines = ["overwrite " + " ".join(map(str, [place, *values])) for place, values in overwrites]
        program.write("script", "\n\n".join(lines).encode())
        answer = program.run("--edit", "script", "--count", str(len(samples)), "source", "dest")
        tally.check(f"overwrites, {what}: answer", answer, said(None))
        tally.check(f"overwrites, {what}: DEST", program.read("dest"), program.answer([], bytes(samples)))
    program.write("source", ZEROS)
    for refused, why in (("48 1", "position outside the 48 samples"), ("7 256", "sample 0 is out of range")):
        program.write("script", f"overwrite 20 1\noverwrite 19 2\noverwrite {refused}\noverwrite 300 1\n".encode())
        program.write("dest", b"old")
        answer = program.run("--edit", "script", "--count", "48", "source", "dest")
        tally.check(f"overwrites, {refused} among them: answer", answer, said(f"line 3: {why}"))
        tally.check(f"overwrites, {refused} among them: DEST", program.read("dest"), b"old")


def try_case(seed, number, program, tally):
    chance = random.Random(f"{seed} {number}")
    settings = some_settings(chance)
    samples = some_samples(settings, chance)
    count, present = some_count(settings, samples, chance)
    script = some_script(settings, len(present), chance, number)
    old = chance.choice([None, b"", b"what DEST held before"])
    options = settings.options()
    source = program.answer(options, settings.stored(samples))
    try:
        left, refusal = edited(settings, present, edits_of(script)), None
    except Refused as why:
        left, refusal = None, str(why)
    wanted = old if refusal else program.answer(options, settings.stored(left))

    program.write("script", script)
    program.write("source", source)
    program.write("dest", old)
    words = options + ([] if count is None else ["--count", str(count)])
    what = f"case {number}, {' '.join(words)}, {len(samples)} samples, {short(script.decode('latin-1'))}"
    tally.check(f"{what}: answer", program.run("--edit", "script", *words, "source", "dest"), said(refusal))
    tally.check(f"{what}: DEST", program.read("dest"), wanted)


def listed_options(lines, pattern):
    """Returns the options that lines of that form begin with."""
    found = set()
    for line in lines:
        match = re.match(pattern, line)
        if match:
            found |= set(re.findall(r"(?<![\w-])--?\w[\w-]*", match.group().replace("\\-", "-")))
    return found


def try_options(program, tally):
    status, text = program.run("--help")
    tally.check("--help: status", status, 0)
    helped = listed_options(text.splitlines(), r" +--?\w[\w-]*(, --\w[\w-]*)?")
    with open(os.path.join(TOP, "man", "aec.1"), encoding="utf-8") as file:
        page = file.read().split(".SH OPTIONS\n")[1].split(".SH ")[0]
    manual = listed_options(re.findall(r"\.TP\n(.*)", page), r"\.BI? .*|\.BR .*")
    with open(os.path.join(TOP, "docs", "COMMAND.md"), encoding="utf-8") as file:
        part = file.read().split("\n## Options\n")[1].split("\n## ")[0]
    described = listed_options(part.splitlines(), r"- `-[^`]*`:")
    tally.check("the options of the manual page and of --help", sorted(manual), sorted(helped))
    tally.check("the options of docs/COMMAND.md and of --help", sorted(described), sorted(helped))
    tally.check("--edit is one of them", "--edit" in helped, True)


def main():
    asked, tally = asked_of("Compares edits by scripts with a plain model.", 300), Tally()
    with tempfile.TemporaryDirectory() as folder:
        program = Program(asked.program, folder)
        for example in EXAMPLES:
            try_example(example, program, tally)
        try_shared_names(program, tally)
        try_lines(program, tally)
        try_long_scripts(program, tally)
        try_overwrites(program, tally)
        for number in asked.numbers:
            try_case(asked.seed, number, program, tally)
        try_options(program, tally)
    tally.print()
    return 1 if tally.failed else 0


if __name__ == "__main__":
    sys.exit(main())
