#!/usr/bin/env python3
"""Compares time and memory of two programs, for bench/tables.md: bench.py PATH_OF_AEC [--quick]

'Ours' is the program at PATH_OF_AEC, 'theirs' the command-line client of libaec (named by the environment variable LIBAEC, else
/usr/bin/aec). Both code generated samples, and decode the stream that theirs has coded. Prints these tables in Markdown, and
tests nothing:
- Decoding, then coding: seconds of processor time (user and system, start-up included, the least of three runs in turn), peak
  memory (the maximum resident set, from /usr/bin/time), ours divided by theirs, and the growth of both times and of our memory
  from 1 to 16 MiB of samples.
- For each input both ways, their seconds divided by ours. Then the geometric means of these ratios.
- The seconds of both for 64 MiB of some inputs.
- Our seconds with even block sizes. Theirs codes only 8, 16, 32 and 64.
- The memory of both for 16 and 64 MiB of samples, and for decoding a short stream of very many samples.

An input is one MiB of samples, repeated for the greater sizes. So a coder whose time is proportional to its input takes 16 times
as long for 16 MiB. With --quick only 1 MiB is run, once.
"""

import datetime
import math
import os
import platform
import random
import struct
import subprocess
import sys
import tempfile

MIB = 1 << 20
SIZES = [1, 16]
RUNS = 3
SETTINGS = [(8, 128), (16, 128), (64, 128), (8, 4096), (16, 4096), (64, 4096), (8, 2), (8, 1)]
EVEN_BLOCKS = [8, 10, 12, 16, 30, 32]
# The pairs that are compared: a block size, and the next lower power of two.
BESIDE = [(10, 8), (12, 8), (30, 16)]
# Of these inputs and settings 64 MiB are measured too: decoding keeps at most 16 MiB, and reads the rest twice.
LARGE = 64
LARGE_INPUTS = ["8-bit ramp with noise", "12-bit detector", "16-bit detector"]
LARGE_SETTINGS = [(8, 2), (8, 128), (16, 128), (64, 128)]
# The J and r over which means are taken.
GROUPS = [
    ("all", lambda block, interval: True),
    ("r 128 and 4096", lambda block, interval: interval >= 128),
    ("J 8, r 128 and 4096", lambda block, interval: block == 8 and interval >= 128),
    ("J 16, r 128 and 4096", lambda block, interval: block == 16),
    ("J 64, r 128 and 4096", lambda block, interval: block == 64),
    ("J 8, r 2", lambda block, interval: interval == 2),
    ("J 8, r 1", lambda block, interval: interval == 1),
]


# The functions that INPUTS names. Each returns one MiB of stored samples, least significant byte first.


def ramp_with_noise(chance):
    """Returns 8-bit samples: a slow ramp, and noise of three bits on it."""
    return bytes((i // 64 + chance.randrange(8)) % 256 for i in range(MIB))


def noise_12(chance):
    """Returns 12-bit samples, all equally likely: no compression is the shortest option."""
    return struct.pack(f"<{MIB // 2}H", *(chance.randrange(4096) for _ in range(MIB // 2)))


def detector(chance, greatest=65535):
    """Returns 16-bit samples like those of a detector: a level, noise around it, and seldom a peak that decays."""
    samples, peak = [], 0
    for _ in range(MIB // 2):
        if chance.random() < 0.004:
            peak = chance.randrange(2000, 40000)
        samples.append(min(1000 + peak + int(chance.gauss(0, 12)) + 60, greatest))
        peak = peak * 3 // 4
    return struct.pack(f"<{MIB // 2}H", *samples)


def detector_12(chance):
    """Returns the 12-bit samples of such a detector. Higher samples become the greatest."""
    return detector(chance, 4095)


def walk(chance):
    """Returns 32-bit signed samples: a walk by steps of up to 500."""
    samples, x = [], 0
    for _ in range(MIB // 4):
        x += chance.randrange(-500, 501)
        samples.append(x)
    return struct.pack(f"<{MIB // 4}i", *samples)


def waves(chance):
    """Returns 16-bit signed samples: three waves of different lengths, and a little noise on them."""
    samples = (
        9000 * math.sin(i / 700) + 2500 * math.sin(i / 57) + 300 * math.sin(i / 9) + chance.gauss(0, 4) for i in range(MIB // 2)
    )
    return struct.pack(f"<{MIB // 2}h", *map(round, samples))


def noise_8(chance):
    """Returns 8-bit samples, all equally likely."""
    return chance.randbytes(MIB)


def sparse(chance):
    """Returns 16-bit samples: zeros, and one in a thousand is another number."""
    return struct.pack(
        f"<{MIB // 2}H",
        *(chance.randrange(1, 300) if chance.random() < 0.001 else 0 for _ in range(MIB // 2)),
    )


def mask(chance):
    """Returns samples of 0 and 1, in a byte each. One in ten is 1."""
    return bytes(chance.random() < 0.1 for _ in range(MIB))


def residues(chance):
    """Returns 16-bit signed samples: seven in ten are 0, the others -1 or 1."""
    return struct.pack(f"<{MIB // 2}h", *(chance.choice((-1, 1)) if chance.random() < 0.3 else 0 for _ in range(MIB // 2)))


def walk_8(chance):
    """Returns 8-bit samples: a walk by steps of up to 2, which stops at 0 and at 255."""
    samples, x = bytearray(), 128
    for _ in range(MIB):
        x = min(max(x + chance.randrange(-2, 3), 0), 255)
        samples.append(x)
    return bytes(samples)


INPUTS = [
    ("8-bit ramp with noise", ["-n", "8"], ramp_with_noise),
    ("12-bit noise", ["-n", "12"], noise_12),
    ("12-bit noise, -N", ["-n", "12", "-N"], noise_12),
    ("8-bit noise, -N", ["-n", "8", "-N"], noise_8),
    ("12-bit detector", ["-n", "12"], detector_12),
    ("16-bit detector", ["-n", "16"], detector),
    ("16-bit waves", ["-n", "16", "-s"], waves),
    ("32-bit walk", ["-n", "32", "-s"], walk),
    ("16-bit sparse zeros", ["-n", "16"], sparse),
    ("1-bit mask", ["-n", "1"], mask),
    ("8-bit mask", ["-n", "8"], mask),
    ("16-bit residues", ["-n", "16", "-s"], residues),
    ("8-bit walk", ["-n", "8"], walk_8),
]


def run(command, folder):
    """Returns the processor time of a run in seconds, and its peak memory in MiB."""
    told = os.path.join(folder, "told")
    timed = ["/usr/bin/time", "-f", "%M", "-o", told, *command]
    _, status, used = os.wait4(os.posix_spawn(timed[0], timed, os.environ), 0)
    if status != 0:
        raise SystemExit(f"{' '.join(command)}: failed")
    with open(told) as file:
        return used.ru_utime + used.ru_stime, int(file.read().split()[-1]) / 1024


def least(told):
    """Returns the least seconds and the greatest peak memory of some runs."""
    return min(seconds for seconds, _ in told), max(mib for _, mib in told)


def measure(job, ours, theirs, options, source, folder, runs):
    """Returns seconds and MiB of ours, then of theirs, for one job on one file. The runs take turns, so that changes of the
    machine's speed affect both."""
    words = ["-d", *options] if job == "decoding" else options
    dest = os.path.join(folder, "dest")
    told = [[run([path, *words, source, dest], folder) for path in (ours, theirs)] for _ in range(runs)]
    return [least(one) for one in zip(*told)]


def row(name, block, interval, told):
    """Returns one line of a table: the greatest size, and the growth from the least size to it."""
    (our_seconds, our_mib), (their_seconds, their_mib) = told[-1]
    growth = [told[-1][i][0] / told[0][i][0] for i in (0, 1)]
    memory_growth = told[-1][0][1] / told[0][0][1]
    return (
        f"| {name} | {block} | {interval} | {our_seconds:.2f} | {their_seconds:.2f} | {our_seconds / their_seconds:.2f} "
        f"| {our_mib:.0f} | {their_mib:.0f} | {our_mib / their_mib:.1f} | {growth[0]:.1f} | {growth[1]:.1f} | {memory_growth:.1f} |"
    )


def speed(told):
    """Returns their seconds divided by ours, at the greatest size."""
    (our_seconds, _), (their_seconds, _) = told[-1]
    return their_seconds / our_seconds


def table(job, ours, theirs, pieces, folder, sizes, runs):
    """Prints the table of a job over all inputs and settings. Returns the speeds, by input, J and r."""
    speeds = {}
    print(f"## {job.capitalize()}, {sizes[-1]} MiB of samples\n")
    print("| Input | J | r | ours, s | theirs, s | ratio | ours, MiB | theirs, MiB | ratio | growth ours | theirs | memory |")
    print("|---|---|---|---|---|---|---|---|---|---|---|---|")
    for name, options, _ in INPUTS:
        for block, interval in SETTINGS:
            words = [*options, "-j", str(block), "-r", str(interval)]
            told = []
            for size in sizes:
                raw, coded = os.path.join(folder, "raw"), os.path.join(folder, "coded")
                with open(raw, "wb") as file:
                    file.write(pieces[name] * size)
                subprocess.run([theirs, *words, raw, coded], check=True)
                source = coded if job == "decoding" else raw
                told.append(measure(job, ours, theirs, words, source, folder, runs))
            print(row(name, block, interval, told), flush=True)
            speeds[name, block, interval] = speed(told)
    print()
    return speeds


def geometric_mean(values):
    """Returns the geometric mean of positive numbers."""
    return math.exp(sum(map(math.log, values)) / len(values))


def summary(coding, decoding):
    """Prints the speeds of coding and decoding."""
    print("## How many times as fast as libaec\n")
    print("| Input | J | r | coding | decoding |")
    print("|---|---|---|---|---|")
    for name, block, interval in coding:
        key = name, block, interval
        print(f"| {name} | {block} | {interval} | {coding[key]:.2f} | {decoding[key]:.2f} |")


def means(coding, decoding):
    """Prints geometric means of the speeds of coding and decoding, each with the least and the greatest of its rows."""
    print("\n## Means of these, with the least and the greatest\n")
    print("| Rows | coding | decoding |")
    print("|---|---|---|")
    for name, belongs in GROUPS:
        rows = [[speed for (_, *setting), speed in speeds.items() if belongs(*setting)] for speeds in (coding, decoding)]
        told = [f"{geometric_mean(row):.2f}, {min(row):.2f} to {max(row):.2f}" for row in rows]
        print(f"| {name} | {told[0]} | {told[1]} |")


def large_table(ours, theirs, pieces, folder, runs):
    """Prints the seconds of both programs for large inputs, and theirs divided by ours."""
    print(f"\n## {LARGE} MiB of samples\n")
    print("| Input | J | r | coding: ours, s | theirs, s | times | decoding: ours, s | theirs, s | times |")
    print("|---" * 9 + "|")
    raw, coded = os.path.join(folder, "raw"), os.path.join(folder, "coded")
    options_of = {name: options for name, options, _ in INPUTS}
    for name in LARGE_INPUTS:
        with open(raw, "wb") as file:
            file.writelines([pieces[name]] * LARGE)
        for block, interval in LARGE_SETTINGS:
            words = [*options_of[name], "-j", str(block), "-r", str(interval)]
            subprocess.run([theirs, *words, raw, coded], check=True)
            cells = [name, str(block), str(interval)]
            for job, source in (("coding", raw), ("decoding", coded)):
                (our, _), (their, _) = measure(job, ours, theirs, words, source, folder, runs)
                cells += [f"{our:.2f}", f"{their:.2f}", f"{their / our:.2f}"]
            print(f"| {' | '.join(cells)} |", flush=True)


def even_row(name, job, runs, commands, folder):
    """Prints the seconds of one job with each block size, from runs in turn, and the ratios of the pairs in BESIDE."""
    told = [[run(command, folder) for command in commands] for _ in range(runs)]
    seconds = dict(zip(EVEN_BLOCKS, (least(one)[0] for one in zip(*told))))
    ratios = [f"{seconds[block] / seconds[power]:.2f}" for block, power in BESIDE]
    print(f"| {name} | {job} | {' | '.join([f'{it:.2f}' for it in seconds.values()] + ratios)} |", flush=True)


def even_table(ours, pieces, folder, size, runs):
    """Prints our seconds with even block sizes and r 128. Ours decodes its own streams."""
    heads = [f"J {block}, s" for block in EVEN_BLOCKS] + [f"{block} / {power}" for block, power in BESIDE]
    print(f"\n## Even block sizes, {size} MiB of samples\n")
    print(f"| Input | Job | {' | '.join(heads)} |")
    print("|---" * (2 + len(heads)) + "|")
    raw, dest = os.path.join(folder, "raw"), os.path.join(folder, "dest")
    for name, options, _ in INPUTS:
        with open(raw, "wb") as file:
            file.write(pieces[name] * size)
        coding, decoding = [], []
        for block in EVEN_BLOCKS:
            words = [*options, "--even-blocks", "-j", str(block), "-r", "128"]
            coded = os.path.join(folder, f"coded{block}")
            subprocess.run([ours, *words, raw, coded], check=True)
            coding.append([ours, *words, raw, dest])
            decoding.append([ours, "-d", *words, coded, dest])
        even_row(name, "coding", runs, coding, folder)
        even_row(name, "decoding", runs, decoding, folder)


def memory_row(job, what, ours, theirs, words, source, folder):
    """Prints the memory of one job on one file."""
    (_, our_mib), (_, their_mib) = measure(job, ours, theirs, words, source, folder, 1)
    print(f"| {job} | {what} | {os.path.getsize(source)} | {our_mib:.1f} | {their_mib:.1f} |", flush=True)


def memory(ours, theirs, piece, folder, sizes, zeros):
    """Prints the memory for the detector's samples, and for decoding a stream of runs of zero blocks."""
    print("\n## Memory, in MiB\n")
    print("| Job | Samples, J, r | bytes of SOURCE | ours | theirs |")
    print("|---|---|---|---|---|")
    raw, coded = os.path.join(folder, "raw"), os.path.join(folder, "coded")
    for size in sizes:
        words = ["-n", "16", "-j", "16", "-r", "128"]
        with open(raw, "wb") as file:
            for _ in range(size):
                file.write(piece)
        subprocess.run([theirs, *words, raw, coded], check=True)
        what = f"{size} MiB, 16-bit detector, 16, 128"
        memory_row("coding", what, ours, theirs, words, raw, folder)
        memory_row("decoding", what, ours, theirs, words, coded, folder)
    words = ["-n", "8", "-j", "64", "-r", "4096"]
    with open(raw, "wb") as file:
        file.truncate(zeros * MIB)
    subprocess.run([ours, *words, raw, coded], check=True)
    memory_row("decoding", f"{zeros} MiB, 8-bit zeros, 64, 4096", ours, theirs, words, coded, folder)


def main():
    quick = "--quick" in sys.argv
    ours, theirs = os.path.abspath(sys.argv[1]), os.environ.get("LIBAEC", "/usr/bin/aec")
    for path in ("/usr/bin/time", theirs):
        if not os.path.exists(path):
            raise SystemExit(f"no {path}: install Debian's packages time and libaec-tools")
    sizes, runs = ([1], 1) if quick else (SIZES, RUNS)
    chance = random.Random(16)
    pieces = {name: make(chance) for name, _, make in INPUTS}
    print("# Tables of time and memory\n")
    print(f"`bench/bench.py` printed this page on {datetime.date.today()}, {os.cpu_count()} cores, {platform.platform()}; the seconds")
    print(f"are the least of {runs} runs. [docs/SPEED.md](../docs/SPEED.md) says how it was measured and what the inputs are.\n")
    with tempfile.TemporaryDirectory() as folder:
        speeds = {
            job: table(job, ours, theirs, pieces, folder, sizes, runs) for job in ("decoding", "coding")
        }
        summary(speeds["coding"], speeds["decoding"])
        means(speeds["coding"], speeds["decoding"])
        if not quick:
            large_table(ours, theirs, pieces, folder, runs)
        even_table(ours, pieces, folder, sizes[-1], runs)
        memory(ours, theirs, pieces["16-bit detector"], folder, [1] if quick else [16, 64], 1 if quick else 222)


if __name__ == "__main__":
    main()
