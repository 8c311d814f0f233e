#!/usr/bin/env python3
"""Tests too little stack or address space: small_memory.py PATH_OF_AEC

Runs the program at PATH_OF_AEC, with one file as SOURCE and DEST, on a system that gives it too little: stacks of 64 to 256 KiB, and
address spaces around the least that is enough. However the run ends, by a status or by a signal, the file must be unchanged or hold the
whole result. A run with enough memory must stay within a bound: decoding takes the stream, the samples that it keeps, and a few MiB,
however long the stream is; editing takes what COMMAND says.

Prints the checks that fail and, last, how many passed. Ends with status 1 if one failed.
"""

import os
import resource
import subprocess
import sys
import tempfile

from lib.jobs import JOBS, LARGE_JOBS
from lib.program import SECONDS, Program, Tally

KIB, MIB = 1024, 1024 * 1024
STEP = 4 * KIB  # a page
STACKS = range(64 * KIB, 256 * KIB + 1, STEP)
MOST_SPACE = 64 * MIB
WINDOW = 192 * KIB  # of address space, below and above the least that is enough
KEPT = 16 * MIB  # of samples, at most
FEW = 8 * MIB


def limited(limit, most):
    """Returns a function that limits a new process to so many bytes of something."""
    return lambda: resource.setrlimit(limit, (most, most))


def run_over_itself(program, job, limit, most):
    """Runs a job with one file as SOURCE and DEST. Returns the status, and what the file then holds."""
    program.write("source", job.source)
    program.write("script", job.script or b"")
    words = [program.path, *job.words, "source", "source"]
    run = subprocess.Popen(words, cwd=program.folder, env={}, preexec_fn=limited(limit, most), stderr=subprocess.PIPE)
    run.communicate(timeout=SECONDS)
    return run.returncode, program.read("source")


def try_size(program, tally, job, what, limit, most):
    """Checks one size. The file must hold the whole result after status 0, be unchanged after status 1, and either after any other end."""
    status, held = run_over_itself(program, job, limit, most)
    allowed = {0: [job.answer], 1: [job.source]}.get(status, [job.source, job.answer])
    told = f"{len(held)} bytes, not the {len(job.source)} of before nor the {len(job.answer)} of the answer"
    tally.holds(held in allowed, f"{job.what} with {most // KIB} KiB of {what} ends with {status}, and the file holds {told}")
    return status


def try_stacks(program, tally):
    for job in JOBS + LARGE_JOBS:
        ends = {try_size(program, tally, job, "stack", resource.RLIMIT_STACK, most) for most in STACKS}
        tally.holds(0 in ends, f"{job.what}: no stack was enough")


def least_space(program, job):
    """Returns the least address space, to a page, with which a run ends well, if more is always enough too."""
    low, high = 0, MOST_SPACE // STEP
    while high - low > 1:
        middle = (low + high) // 2
        try:
            ended = run_over_itself(program, job, resource.RLIMIT_AS, middle * STEP)[0]
        except (OSError, subprocess.SubprocessError):
            ended = None  # the program couldn't even start
        low, high = (low, middle) if ended == 0 else (middle, high)
    return high * STEP


def try_spaces(program, tally):
    for job in JOBS + LARGE_JOBS:
        least, ends = least_space(program, job), set()
        for most in range(least - WINDOW, least + WINDOW + 1, STEP):
            ends.add(try_size(program, tally, job, "address space", resource.RLIMIT_AS, most))
        tally.holds(0 in ends and len(ends) > 1, f"{job.what}: the window of {least // KIB} KiB holds no edge: {ends}")


def most_resident(program, *words):
    """Runs the program. Returns the status, and the most bytes that were resident at once."""
    with open(os.devnull, "wb") as nowhere:
        run = subprocess.Popen([program.path, *words], cwd=program.folder, stdout=nowhere, stderr=nowhere)
        status, used = os.wait4(run.pid, 0)[1:]
    run.returncode = os.waitstatus_to_exitcode(status)
    return run.returncode, used.ru_maxrss * KIB


def write_pieces(program, name, piece, times):
    """Writes a long file, of which this process never holds more than a piece."""
    with open(program.file(name), "wb") as file:
        for _ in range(times):
            file.write(piece)


def same_pieces(program, name, piece, times):
    with open(program.file(name), "rb") as file:
        return all(file.read(len(piece)) == piece for _ in range(times)) and not file.read(1)


def try_resident(program, tally):
    """Measures runs on 40 MiB of incompressible samples, in short blocks, and on 64 MiB of zeros. The memory of this process counts too,
    since the system counts it for the run until the run begins."""
    noise = bytes((x * x // 7 + 101 * x) % 256 for x in range(MIB))
    for what, piece, times, options in (
        ("noise", noise, 40, ["-N"]),
        ("noise in intervals of a block", noise, 40, ["-N", "-r", "1"]),
        ("noise in short blocks", noise, 40, ["-N", "--even-blocks", "-j", "10"]),
        ("zeros", bytes(MIB), 64, ["-r", "4096"]),
        ("zeros in long blocks", bytes(MIB), 64, ["-j", "64", "-r", "4096"]),
    ):
        write_pieces(program, "samples", piece, times)
        coded = most_resident(program, *options, "samples", "stream")
        own = resource.getrusage(resource.RUSAGE_SELF).ru_maxrss * KIB + MIB
        bound = max(own, os.path.getsize(program.file("stream")) + FEW)
        tally.holds(coded[0] == 0 and coded[1] <= bound, f"coding {what}: {coded}, the bound {bound}")
        for words in ["-d"], ["--range", f"5:{MIB}"]:
            read = most_resident(program, *words, *options, "stream", "back")
            bound = os.path.getsize(program.file("stream")) + KEPT + FEW
            tally.holds(read[0] == 0 and read[1] <= bound, f"{words[0]} of {what}: {read}, the bound {bound}")
            if words == ["-d"]:
                tally.holds(same_pieces(program, "back", piece, times), f"{what} comes back otherwise")


def editing_bound(stream, script, interval, intervals):
    """Returns the bytes that `--edit` takes at most, as COMMAND says: of the longer stream, the script, the samples of an interval, and the
    number of intervals."""
    lines = script.splitlines() or [b""]
    values = max(len(line.split()) for line in lines)
    together = 6 * MIB if len(lines) >= 8 and not lines[0].startswith(b"overwrite") else 0
    return 4 * stream + 2 * len(script) + 48 * interval + 32 * intervals + 16 * values + 5 * MIB // 2 + together


def try_editing(program, tally):
    """Measures edits of 10 MiB of incompressible samples, in the shortest and in the longest intervals."""
    piece, times, more = bytes((x * x // 7 + 101 * x) % 256 for x in range(MIB)), 10, 200_000
    write_pieces(program, "samples", piece, times)
    for block, blocks in ((8, 1), (16, 128), (64, 4096)):
        options, interval = ["-N", "-j", str(block), "-r", str(blocks)], block * blocks
        coded = program.run(*options, "samples", "stream")
        tally.check(f"coding in intervals of {interval}", coded, (0, ""))
        for what, script in (
            ("no edit", b""),
            ("overwrites", b"".join(b"overwrite %d 7\n" % place for place in range(0, times * MIB, times * MIB // 40))),
            ("values in one line", b"append" + b" 9" * more),
            ("an insertion in front", b"insert 0 7"),
            ("an insertion in the middle", b"insert 5000000 7"),
            ("scattered insertions", b"".join(b"insert %d 7\n" % (i * 2654435761 % (times * MIB)) for i in range(30_000))),
            ("lines of one value", b"append 7\n" * 100_000),
            ("a removal in front", b"remove 0 1"),
        ):
            program.write("script", script)
            status, most = most_resident(program, "--edit", "script", "--count", str(times * MIB), *options, "stream", "edited")
            longer = max(os.path.getsize(program.file(name)) for name in ("stream", "edited"))
            bound = editing_bound(longer, script, interval, (times * MIB + more) // interval + 1)
            tally.holds(status == 0 and most <= bound, f"{what} in intervals of {interval}: {status}, {most} bytes, the bound {bound}")


def main():
    tally = Tally()
    with tempfile.TemporaryDirectory() as folder:
        program = Program(sys.argv[1], folder)
        try_stacks(program, tally)
        try_spaces(program, tally)
        try_resident(program, tally)
        try_editing(program, tally)
    tally.print()
    return 1 if tally.failed else 0


if __name__ == "__main__":
    sys.exit(main())
