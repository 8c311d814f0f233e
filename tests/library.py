#!/usr/bin/env python3
"""Tests the library for C and Python: library.py PATH_OF_AEC FOLDER [--seed N] [--cases N] [--only N]

FOLDER contains libaecp.a and libaecp.so. Tests in turn, by C programs (library_*.c) and by the Python module without numpy,
  - worked values, refused options with their number, and the other refusals with their place;
  - buffers of every length around the needed one: nothing changes after the result, and nothing at all if there is no result;
  - each growth refused, with all later ones or alone: the call fails for lack of memory, changes nothing, and frees each block that it
    allocated;
  - the least stack of a thread for each call, which aecp.h names (library_memory.py);
  - how many bytes a call allocates at once, of which aecp.h names the most (library_room.py);
  - eight threads at once; NULL for a buffer of no bytes; a run under valgrind, if it is installed, which must lose no memory;
  - streams edited by random scripts, against a model (library_edits.py);
  - where intervals begin, and what is decoded from there on, against the plain reader (library_offsets.py);
  - the C of docs/LIBRARY.md and README.md, and a program that is C and C++ (library_types.py);
  - random lists with random settings, against the plain coder, the program at PATH_OF_AEC, and libaec's client; some as workspaces.
Also tests which names the shared library defines and which libraries it needs.

Prints the checks that fail and, last, how many passed. Ends with status 1 if one failed.
"""

import argparse
import os
import random
import re
import shutil
import subprocess
import sys
import tempfile

from lib import plain_coder
from lib.damaged_cases import some_samples, some_settings
from lib.library_edits import try_scripts
from lib.library_memory import try_freed, try_refusals, try_stacks
from lib.library_offsets import try_offset_arguments, try_offsets
from lib.library_room import try_room
from lib.library_rows import ALL, APPLIED, EDITED, REFUSED, ROWS, SCRIPTED, Answer, Call
from lib.library_types import try_readme, try_types, try_version
from lib.program import TOP, Program, Tally, add_case_options, numbers_of, raised
from lib.refusing import build, has_compiler, print_skipped
from lib.settings import STANDARD_BLOCK_SIZES

THEIRS = os.environ.get("LIBAEC", "/usr/bin/aec")
NO_ROOM, MEMORY = 18, 12
CALLS = {"bound", "decode", "decode_at", "encode", "offsets", "range", "text", "open", "load", "close", "read", "write", "size", "calls",
         "version", "append", "insert", "overwrite", "remove", "truncate", "apply", "edit",
         "coder_open", "coder_feed", "coder_finish", "coder_take", "coder_close",
         "reader_open", "reader_next", "reader_go_to", "reader_close"}


class InC:
    """The calls by the C program, each in its own process."""

    def __init__(self, program):
        self.program = program

    def ask(self, call, room, run=None, **more):
        """Returns the result of a call with a buffer of `room` bytes, or a text if the C program failed."""
        status, printed = (run or self.program.run)(*call.words(room), **more)
        lines = [line for line in printed.splitlines() if line not in ("refuse", "grant")]
        if status != 0 or not lines:
            return f"status {status}: {printed}"
        number, place, length, answer, text = lines[0].split(" ", 4)
        return Answer(int(number), int(place), int(length), bytes.fromhex(answer), text)


def in_python(aecp, call):
    """Makes the call by the module. Returns bytes, or a refusal's number, place and text."""
    options = aecp.Options(**call.settings._asdict())
    count = None if call.count == ALL else call.count
    try:
        if call.name == "encode":
            return bytes(aecp.encode(call.given, options))
        if call.name == "decode":
            return bytes(aecp.decode_bytes(call.given, count, options))
        if call.name == "offsets":
            return aecp.offsets(call.given, count, options).tobytes()
        if call.name == "decode_at":
            return bytes(aecp.decode_bytes_at(call.given, call.first, count, options))
        return bytes(aecp.decode_range_bytes(call.given, count, call.first, call.length, options))
    except aecp.Fault as fault:
        return fault.number, fault.place, str(fault)


def try_rows(in_c, aecp, tally):
    for call, wanted in ROWS:
        what = " ".join(call.words(100))
        tally.check(f"C: {what}", in_c.ask(call, 100), Answer(0, 0, call.length_of(wanted), wanted, "no fault"))
        tally.check(f"Python: {what}", in_python(aecp, call), wanted)
    for call, number, place, text in REFUSED:
        what = " ".join(call.words(100))
        tally.check(f"C: {what}", in_c.ask(call, 100), Answer(number, place, 0, b"", text))
        tally.check(f"Python: {what}", in_python(aecp, call), (number, place, text))


def try_rooms(in_c, tally):
    """Tests buffers that are too short, exact and longer. The C program checks that the bytes around a result stay."""
    for call, wanted in ROWS:
        for room in range(len(wanted) + 4):
            length = call.length_of(wanted)
            text = f"the buffer is shorter than the answer, whose length is {length}"
            short = Answer(NO_ROOM, 0, length, b"", text)
            right = Answer(0, 0, length, wanted, "no fault") if room >= len(wanted) else short
            tally.check(f"C: {' '.join(call.words(room))}", in_c.ask(call, room), right)


def try_threads(in_c, tally):
    tally.check("threads", in_c.program.run("threads"), (0, "8 of 8 threads\n"))


def try_nulls(in_c, tally):
    """Tests NULL for buffers of no bytes: a call returns its result if that is empty, else the length that it needs."""
    none = ["encode 0 0", "decode 0 0", "decode 0 0", "range 0 0", "decode 6 0"]
    some = ["encode 18 5", "decode 18 8", "range 18 3", f"text {len('the buffer is shorter than the answer, whose length is 3')}"]
    some += ["offsets 0 0", "offsets 18 1", "decode_at 0 0", "decode_at 18 8"]
    some += ["edit 0 0", "edit 18 5"]
    tally.check("nulls", in_c.program.run("nulls"), (0, "\n".join([*none, *some, ""])))


def try_page(asked, folder, tally):
    """Runs the C program of the library's page, with the page's lines on workspaces. Its eight samples and the filler of the block
    take 3 + 8 + 7 * 3 + 8 = 40 bits."""
    with open(os.path.join(TOP, "docs", "LIBRARY.md"), encoding="utf-8") as page:
        program, *lines = re.findall(r"```c\n(.*?)```", page.read(), re.S)
    end = "    free(coded);\n"
    code = program.replace(end, "".join(lines) + end)
    source, path = os.path.join(folder, "example.c"), os.path.join(folder, "example")
    with open(source, "w", encoding="utf-8") as file:
        file.write(code)
    build_in_c(asked, path, source)
    tally.check("the page's program", Program(path, folder).run(), (0, "5 bytes, last sample 7\n"))


def try_valgrind(in_c, tally):
    """Checks that neither calls that succeed nor calls that fail lose memory."""
    if not shutil.which("valgrind"):
        return
    judge = ["valgrind", "-q", "--leak-check=full", "--error-exitcode=9", in_c.program.path]
    calls = [row[0] for row in [*ROWS, EDITED, SCRIPTED, APPLIED]] + [REFUSED[7][0], REFUSED[10][0]]
    for words in [call.words(100) for call in calls] + [["nulls"]]:
        ended = subprocess.run([*judge, *words], capture_output=True)
        tally.check(f"valgrind: {words[0]}: {ended.stderr[-300:]}", ended.returncode, 0)


def try_names(folder, tally):
    """Checks the names that the shared library exports, all of the version AECP_1, and the libraries that it needs."""
    library = os.path.join(folder, "libaecp.so")
    names = subprocess.run(["nm", "-D", "--defined-only", library], capture_output=True, text=True, check=True).stdout
    wanted = {"AECP_1", *(f"aecp_{name}@@AECP_1" for name in CALLS)}
    tally.check("names", {line.split()[-1] for line in names.splitlines()}, wanted)
    needs = subprocess.run(["readelf", "-d", library], capture_output=True, text=True, check=True).stdout
    tally.check("needs", [line.split("[")[1] for line in needs.splitlines() if "(NEEDED)" in line], ["libc.so.6]"])


def part_of(chance, samples):
    """Returns the first place of a random part of the samples, and its length."""
    first = chance.randint(0, len(samples))
    return first, chance.randint(0, len(samples) - first)


def try_case(aecp, ours, theirs, seed, number, tally):
    """Tests random samples: coded as by the plain coder and the program, read back, a part of them, cut by a byte."""
    chance, before = random.Random(f"{seed} {number}"), tally.failed
    settings = some_settings(chance)
    samples = some_samples(settings, chance)
    stored, options = settings.stored(samples), aecp.Options(**settings._asdict())
    what, width = f"{settings} on {len(samples)} samples", settings.storage()
    coded = aecp.encode(stored, options)
    tally.check(f"{what}: the plain coder", coded, plain_coder.stream(samples, settings))
    tally.check(f"{what}: the program", coded, ours.answer(settings.options(), stored))
    tally.check(f"{what}: decoded", bytes(aecp.decode_bytes(coded, len(samples), options)), stored)
    filled = bytes(aecp.decode_bytes(coded, None, options))
    tally.check(f"{what}: decoded without a count", filled, ours.answer(["-d", *settings.options()], coded))
    first, length = part_of(chance, samples)
    part = bytes(aecp.decode_range_bytes(coded, len(samples), first, length, options))
    tally.check(f"{what}: {length} samples from {first} on", part, stored[width * first : width * (first + length)])
    bound = aecp.calls.LIBRARY.aecp_bound(aecp.library.c_options(options), len(samples))
    tally.holds(len(coded) <= bound, f"{what}: {len(coded)} bytes, more than {bound}")
    if coded:
        cut = in_python(aecp, Call("decode", settings, coded[:-1], len(samples)))
        tally.check(f"{what}: cut", cut[:1], (6,))
    if theirs and settings.block_size in STANDARD_BLOCK_SIZES and not settings.pad and samples:
        # libaec's client accepts no copies of the sign above the bits of a sample.
        taken = [word for word in settings.options() if word != "--even-blocks"]
        foreign = theirs.answer(taken, settings.stored(samples, settings.bits))
        tally.check(f"{what}: libaec's stream", bytes(aecp.decode_bytes(foreign, len(samples), options)), stored)
    if tally.failed > before:
        print(f"  that was --seed {seed} --only {number}", flush=True)


def some_edit(chance, samples, new):
    """Returns a random edit that fits: the name of its method, its arguments, and the samples after it."""
    first, length = part_of(chance, samples)
    stop = first + length
    return chance.choice([
        ("append", [new], samples + new),
        ("insert", [first, new], samples[:first] + new + samples[first:]),
        ("overwrite", [first, samples[first:stop][::-1]], samples[:first] + samples[first:stop][::-1] + samples[stop:]),
        ("remove", [first, length], samples[:first] + samples[stop:]),
        ("truncate", [stop], samples[:stop]),
    ])


def try_list(chance, work, samples, what, tally):
    """Compares a workspace with a list. Afterwards the samples are the same as before."""
    before = list(samples)
    first, length = part_of(chance, samples)
    part = slice(first, first + length)
    tally.check(f"{what}: slice", list(work[part]), samples[part])
    work[part], samples[part] = samples[part][::-1], samples[part][::-1]
    tally.check(f"{what}: slice set", list(work), samples)
    for place in (0, -1) if samples else ():
        tally.check(f"{what}: [{place}]", work[place], samples[place])
        work[place] = samples[place] = before[place]
    del work[part], samples[part]
    tally.check(f"{what}: slice deleted", list(work[:]), samples)
    work.insert(first, before[part])
    work[part] = before[part]
    samples = before
    for key in (len(samples), -len(samples) - 1):
        tally.holds(isinstance(raised(lambda: work[key]), IndexError), f"{what}: [{key}]")
    tally.check(f"{what}: a slice with steps", list(work[::-2]), samples[::-2])
    work.overwrite(0, samples)
    tally.check(f"{what}: as before", list(work), samples)


def try_workspace(aecp, seed, number, tally):
    """Tests random edits, their samples read back, their stream against that of the coder, and refused edits."""
    chance = random.Random(f"workspace {seed} {number}")
    settings = some_settings(chance)
    samples, what = list(some_samples(settings, chance)), f"workspace {seed} {number}"
    options = aecp.Options(**settings._asdict())
    with aecp.Workspace(options, samples) as work:
        for _ in range(8):
            name, given, samples = some_edit(chance, samples, list(some_samples(settings, chance))[:20])
            getattr(work, name)(*given)
            tally.check(f"{what}: {name}", list(work.read(0, len(work))), samples)
        first, length = part_of(chance, samples)
        tally.check(f"{what}: part", list(work.read(first, length)), samples[first : first + length])
        tally.check(f"{what}: coded", work.tobytes(), bytes(aecp.encode(settings.stored(samples), options)))
        try_list(chance, work, list(samples), what, tally)
        with aecp.Workspace.of_coded(work.tobytes(), len(work), options) as other:
            tally.check(f"{what}: loaded", list(other), list(work))
        for name, given in [("append", [[2**40]]), ("remove", [len(samples), 1]), ("truncate", [len(samples) + 1])]:
            try:
                getattr(work, name)(*given)
                tally.holds(False, f"{what}: {name} isn't refused")
            except (aecp.SampleRefused, aecp.RangeRefused):
                tally.check(f"{what}: {name} refused", list(work.read(0, len(work))), samples)


def words():
    asked = argparse.ArgumentParser(description=__doc__)
    asked.add_argument("program")
    asked.add_argument("library", metavar="FOLDER")
    add_case_options(asked, 2000)
    return asked.parse_args()


def module(library):
    os.environ["AECP_LIBRARY"] = os.path.join(library, "libaecp.so")
    sys.path.insert(0, os.path.join(TOP, "bindings", "python"))
    sys.modules["numpy"] = None
    import aecp

    return aecp


def build_in_c(asked, path, source):
    words = ["-I", os.path.join(TOP, "bindings", "c"), "-o", path, source, os.path.join(asked.library, "libaecp.a"), "-pthread"]
    subprocess.run(["cc", "-O1", "-Wall", "-Werror", *words], check=True)


def built(asked, folder, name):
    """Builds a C program of tests/ with the library. Returns its path."""
    path = os.path.join(folder, name)
    build_in_c(asked, path, os.path.join(TOP, "tests", "lib", f"{name}.c"))
    return path


def try_handles(path, tally):
    judges = [[], ["valgrind", "-q", "--leak-check=full", "--error-exitcode=9"]]
    for judge in judges if shutil.which("valgrind") else judges[:1]:
        ended = subprocess.run([*judge, path], capture_output=True, text=True)
        tally.check(f"handles: {ended.stdout[-300:]}{ended.stderr[-300:]}", ended.returncode, 0)


def try_in_c(asked, folder, aecp, tally):
    in_c, handles = InC(Program(built(asked, folder, "library_calls"), folder)), built(asked, folder, "library_handles")
    try_page(asked, folder, tally)
    include, said = os.path.join(TOP, "bindings", "c"), Program(asked.program, folder).run("--version")[1]
    try_version(include, said.split()[-1], tally)
    try_types(include, os.path.join(asked.library, "libaecp.a"), folder, tally)
    try_readme(include, os.path.join(asked.library, "libaecp.a"), folder, tally)
    try_rows(in_c, aecp, tally)
    try_rooms(in_c, tally)
    rows = [(call, Answer(0, 0, call.length_of(wanted), wanted, "no fault")) for call, wanted in [*ROWS, EDITED, SCRIPTED, APPLIED]]
    library = build(folder)
    try_refusals(in_c, library, rows, Answer(MEMORY, 0, 0, b"", "out of memory"), tally)
    try_freed(Program(handles, folder), library, tally)
    try_room(Program(built(asked, folder, "library_room"), folder), library, tally)
    try_stacks(built(asked, folder, "library_stacks"), folder, os.path.join(include, "aecp.h"), CALLS, tally)
    try_threads(in_c, tally)
    try_nulls(in_c, tally)
    try_valgrind(in_c, tally)
    try_handles(handles, tally)


def main():
    asked, tally = words(), Tally()
    aecp = module(asked.library)
    with tempfile.TemporaryDirectory() as folder:
        try_names(asked.library, tally)
        try_scripts(aecp, asked.seed, tally)
        try_offset_arguments(aecp, tally)
        if has_compiler():
            try_in_c(asked, folder, aecp, tally)
        theirs = Program(THEIRS, folder) if os.path.exists(THEIRS) else None
        for number in numbers_of(asked):
            try_case(aecp, Program(asked.program, folder), theirs, asked.seed, number, tally)
            if number % 8 == 0:
                try_workspace(aecp, asked.seed, number, tally)
                try_offsets(aecp, asked.seed, number, tally)
    if has_compiler():
        tally.print()
    else:
        print_skipped(tally, len(ROWS) + len(REFUSED))
    return 1 if tally.failed else 0


if __name__ == "__main__":
    sys.exit(main())
