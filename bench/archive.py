#!/usr/bin/env python3
"""Measures the archive of one file: archive.py FOLDER [--place DIR] [--full] [--only NAME]

FOLDER contains libaecp.so. Prints a table for each of
    ends     ten samples at the end of 64 MiB and of 1 GiB, by aecp.open
    files    keep, check and back of 10,000 files of 8 KiB, beside zstd
    edits    edit and undo of 100 of 300 files of 256 KiB, and the repair of 3 damaged ones
    large    keep, check and back of one file of 256 MiB and one of 4 GiB, beside flac and zstd
    growth   the history: 100 edits of 3,000 samples in 256 KiB: one script, the same places, and
             others
Times are seconds of the clock, of one run each (of `ends` the least of 50), and core seconds: those
of the processors, user and system, of all processes of a run. Core seconds, and MB of samples for
each of them, depend little on what else runs. Without --full the numbers of files and samples are
an eighth, and of `large` only the smaller file is measured.
"""

from __future__ import annotations

import argparse
import os
import random
import shutil
import subprocess
import sys
import tempfile
import time
from pathlib import Path
from typing import Any, Callable, NamedTuple

TOP = Path(__file__).resolve().parents[1]
MIB = 1 << 20


class Spent(NamedTuple):
    """Seconds of the clock, and of the processors in the commands that were run."""

    clock: float
    cores: float


def spent(work: Callable[[], Any]) -> Spent:
    """Returns what some work took."""
    before, begun = os.times(), time.perf_counter()
    work()
    ended, after = time.perf_counter(), os.times()
    cores = after.children_user + after.children_system
    return Spent(ended - begun, cores - before.children_user - before.children_system)


def clock(work: Callable[[], Any], runs: int = 1) -> float:
    """Returns the least time of some runs."""
    return min(spent(work).clock for _ in range(runs))


def row(*cells: Any) -> None:
    print("| " + " | ".join(str(it) for it in cells) + " |", flush=True)


def head(*cells: str) -> None:
    print()
    row(*cells)
    row(*("---" for _ in cells))


def run(*words: Any, where: str) -> None:
    line = [str(it) for it in words]
    subprocess.run(line, cwd=where, check=True, stdout=subprocess.DEVNULL, stderr=subprocess.DEVNULL)


def aecp_words(*words: Any) -> list[str]:
    return [sys.executable, "-m", "aecp", *map(str, words)]


def detector(seed: int, samples: int) -> bytes:
    """Returns samples of 16 bits: a level that moves, noise of some bits, and bright pixels."""
    chance = random.Random(seed)
    block = bytearray()
    level = 1000
    for _ in range(4096):
        level = min(max(level + chance.randint(-3, 3), 200), 3000)
        x = level + chance.getrandbits(4) + (chance.getrandbits(12) if chance.random() < 0.001 else 0)
        block += x.to_bytes(2, "little")
    out = bytearray()
    while len(out) < 2 * samples:
        cut = 2 * chance.randrange(4096)
        out += block[cut:] + block[:cut]
    return bytes(out[: 2 * samples])


def write_large(path: str, size: int) -> None:
    """Writes samples whose noise is another in each MiB: else zstd would find the same bytes again."""
    piece, noisy = detector(1, MIB // 2), int.from_bytes(b"\x0f\0" * (MIB // 2), "little")
    with open(path, "wb") as file:
        for number in range(size // MIB):
            cut = 2 * (number * 7919 % (MIB // 2))
            noise = int.from_bytes(random.Random(number).randbytes(MIB), "little") & noisy
            file.write((int.from_bytes(piece[cut:] + piece[:cut], "little") ^ noise).to_bytes(MIB, "little"))


def ends(place: str, full: bool) -> None:
    """Ten samples at the end, with opening the file."""
    import aecp

    head("ten samples at the end of", "by aecp.open, us", "bytes of FILE.aec")
    for mib in (64, 1024) if full else (8, 128):
        raw, path = os.path.join(place, "raw"), os.path.join(place, "f.aec")
        write_large(raw, mib * MIB)
        with aecp.create(path, aecp.Options(16)) as made, open(raw, "rb") as file:
            made.write(file)

        def last() -> None:
            with aecp.open(path) as samples:
                list(samples[-10:])

        row(f"{mib} MiB", round(clock(last, 50) * 1e6), os.path.getsize(path))
        for name in (raw, path):
            os.unlink(name)


def files(place: str, full: bool) -> None:
    """Many small files."""
    many = 10000 if full else 1250
    folder = os.path.join(place, "many")
    os.mkdir(folder)
    for number in range(many):
        Path(folder, f"f{number:05}.raw").write_bytes(detector(number % 50, 4096))
    head(f"{many} files of 8 KiB", "seconds", "core seconds", "files a second")

    def measured(name: str, *words: Any) -> None:
        took = spent(lambda: run(*words, where=place))
        row(name, f"{took.clock:.1f}", f"{took.cores:.1f}", round(many / took.clock))

    measured("aecp keep", *aecp_words("keep", folder, "-n", 16))
    measured("aecp check", *aecp_words("check", folder))
    measured("aecp back --to", *aecp_words("back", folder, "--to", "restored"))
    measured("aecp keep --jobs 1 --to", *aecp_words("keep", folder, "-n", 16, "--jobs", 1, "--to", "other"))
    if shutil.which("zstd"):
        coding = "mkdir zstd && find many -name '*.raw' | xargs zstd -q --output-dir-flat zstd"
        measured("zstd -3 (not synced)", "sh", "-c", coding)
        measured("zstd -t", "sh", "-c", "find zstd -name '*.zst' | xargs zstd -q -t")
    for name in ("many", "restored", "other", "zstd"):
        shutil.rmtree(os.path.join(place, name), ignore_errors=True)


def edits(place: str, full: bool) -> None:
    """One table of two pixels for many files, and damage in few."""
    many = 300 if full else 36
    names = [f"f{number:03}.raw" for number in range(many)]
    os.mkdir(os.path.join(place, "sky"))
    for number, name in enumerate(names):
        Path(place, "sky", name).write_bytes(detector(number % 50, MIB // 8))
    Path(place, "table.csv").write_text("row,column,value\n9,4,1\n9,5,2\n", encoding="ascii")
    head(f"{many} files of 256 KiB", "seconds", "core seconds", "files a second")

    def measured(name: str, number: int, *words: Any) -> None:
        took = spent(lambda: run(*aecp_words(*words), where=place))
        row(name, f"{took.clock:.1f}", f"{took.cores:.1f}", round(number / took.clock))

    measured("keep", many, "keep", "sky", "-n", 16, "--shape", "256x512")
    measured("check", many, "check", "sky")
    measured("back --to", many, "back", "sky", "--to", "restored")
    edited = [f"sky/{name}.aec" for name in names[: many // 3]]
    measured(f"edit of {many // 3}", len(edited), "edit", *edited, "table.csv")
    measured(f"undo of {many // 3}", len(edited), "undo", *edited)
    for name in names[:3]:
        with open(os.path.join(place, "sky", f"{name}.aec"), "r+b") as file:
            file.seek(40000)
            file.write(bytes(4))
    measured("keep --repair, 3 are damaged", many, "keep", "sky", "--repair")
    for name in ("sky", "restored"):
        shutil.rmtree(os.path.join(place, name))
    os.unlink(os.path.join(place, "table.csv"))


def large(place: str, full: bool) -> None:
    """One large file."""
    for mib in (256, 4096) if full else (256,):
        write_large(os.path.join(place, "raw"), mib * MIB)
        large_file(place, mib * MIB)
        for name in ("raw", "raw.aec", "raw.zst", "raw.flac"):
            Path(place, name).unlink(missing_ok=True)


def large_file(place: str, size: int) -> None:
    """The file `raw`, of so many bytes."""
    head(f"{size // MIB} MiB", "seconds", "core seconds", "MB for each core second", "bytes")

    def measured(name: str, result: str, *words: Any) -> None:
        took = spent(lambda: run(*words, where=place))
        made = os.path.getsize(os.path.join(place, result)) if result else ""
        row(name, f"{took.clock:.1f}", f"{took.cores:.1f}", round(size / took.cores / 1e6), made)

    measured("aecp keep", "raw.aec", *aecp_words("keep", "raw", "-n", 16, "--jobs", 1))
    measured("aecp check", "", *aecp_words("check", "raw.aec", "--jobs", 1))
    measured("aecp back", "again", *aecp_words("back", "raw.aec", "again"))
    os.unlink(os.path.join(place, "again"))
    if shutil.which("zstd"):
        measured("zstd -3", "raw.zst", "zstd", "-q", "-3", "raw", "-o", "raw.zst")
        measured("zstd -t", "", "zstd", "-q", "-t", "raw.zst")
    if shutil.which("flac") and size < 2 << 30:
        shape = ["--force-raw-format", "--endian=little", "--sign=unsigned", "--channels=1"]
        shape += ["--bps=16", "--sample-rate=48000"]
        measured("flac -5", "raw.flac", "flac", "-s", "-5", *shape, "raw", "-o", "raw.flac")
        measured("flac -t", "", "flac", "-s", "-t", "raw.flac")


def growth(place: str, full: bool) -> None:
    """The bytes of the file after 100 edits."""
    count = 100 if full else 25
    samples = 1 << 17
    head(f"{count} edits of 3,000 samples in 256 KiB", "stream, bytes", "FILE.aec, bytes", "times the stream", "seconds an edit")
    for name in ("the same script each time", "the same places, other values", "other places, other values"):
        chance = random.Random(1)
        Path(place, "g").write_bytes(detector(1, samples))
        run(*aecp_words("keep", "g", "-n", 16), where=place)
        places = sorted(chance.sample(range(samples), 3000))
        total = 0.0
        for number in range(count):
            if name.startswith("other"):
                places = sorted(chance.sample(range(samples), 3000))
            if number == 0 or not name.endswith("script each time"):
                script = "".join(f"overwrite {at} {chance.randrange(900, 1100)}\n" for at in places)
            Path(place, "script").write_text(script, encoding="ascii")
            total += clock(lambda: run(*aecp_words("edit", "g.aec", "script"), where=place))
        run(*aecp_words("export", "g.aec", "bare"), where=place)
        stream, size = (os.path.getsize(os.path.join(place, it)) for it in ("bare", "g.aec"))
        row(name, stream, size, f"{size / stream:.2f}", f"{total / count:.2f}")
        for it in ("g", "g.aec", "bare", "script"):
            os.unlink(os.path.join(place, it))


TABLES = {"ends": ends, "files": files, "edits": edits, "large": large, "growth": growth}


def main() -> None:
    asked = argparse.ArgumentParser(description=__doc__, allow_abbrev=False)
    asked.add_argument("library", metavar="FOLDER")
    asked.add_argument("--place", help="the folder for the files, which needs three times the bytes of the largest")
    asked.add_argument("--full", action="store_true")
    asked.add_argument("--only", choices=TABLES)
    words = asked.parse_args()
    os.environ["AECP_LIBRARY"] = os.path.abspath(os.path.join(words.library, "libaecp.so"))
    os.environ["PYTHONPATH"] = str(TOP / "bindings" / "python")
    sys.path.insert(0, str(TOP / "bindings" / "python"))
    with tempfile.TemporaryDirectory(dir=words.place) as place:
        for name, table in TABLES.items():
            if words.only in (None, name):
                table(place, words.full)


if __name__ == "__main__":
    main()
