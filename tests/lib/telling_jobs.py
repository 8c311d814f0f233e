"""Jobs in which each option and each sample count makes a difference: without it, the run ends otherwise.

For each action and each option there are settings that need the option, with samples on which a run without it writes other
bytes or is refused. The expected bytes are those of plain_coder.py.
"""

from typing import NamedTuple, Optional

from lib import plain_coder
from lib.program import said
from lib.settings import Settings

# An option, settings that need it, and samples on which it makes a difference.
OPTIONS = [
    ("-n", Settings(bits=12), [0, 4095, 17, 5, 2000, 1, 1, 3, 9, 10, 300]),
    ("-j", Settings(block_size=16), [3, 9, 1, 0, 7, 7, 250, 3, 4, 4, 4, 90, 1]),
    ("-r", Settings(interval=7), [5] * 30 + [200, 4, 9]),
    ("-s", Settings(bits=5, signed=True), [-16, 15, -1, 0, 3, -4, 7, 7, -9, 2]),
    ("-N", Settings(preprocess=False), [100, 101, 102, 103, 104, 105, 106, 107, 1, 0]),
    ("-m", Settings(bits=12, msb_first=True), [0, 1, 2, 0, 1, 2, 3, 7, 7, 1]),
    ("-3", Settings(bits=17, three_byte=True), [0, 131071, 5, 70000, 1, 2, 3, 4, 9]),
    ("-p", Settings(pad=True), [0] * 17 + [3] * 17),
    ("-t", Settings(bits=2, interval=1, restricted=True), [0, 0, 0, 0, 0, 0, 0, 3, 1, 1]),
    ("--even-blocks", Settings.of_blocks(10, interval=1), [0, 1, 2, 3, 4, 5, 6, 7, 8, 9, 3, 9]),
]

STORAGE = ["-m", "-3"]  # say how samples are stored, so they mean nothing to an edit


class Telling(NamedTuple):
    """A run: its words, SOURCE, the bytes that it writes or None, the words with which it must end otherwise, its refusal, and SCRIPT."""

    words: list
    source: bytes
    answer: Optional[bytes]
    without: list
    refusal: Optional[str] = None
    script: bytes = b""


def without(words, option):
    """Returns the words without an option and its value."""
    at = words.index(option)
    has_value = option in ("-n", "-j", "-r", "--count")
    return words[:at] + words[at + 1 + has_value :]


def jobs_of(option, settings, samples):
    """Yields each action with an option that it needs."""
    words, stream = settings.options(), plain_coder.stream(samples, settings)
    stored, count = settings.stored(samples), ["--count", str(len(samples))]
    edited = [*samples[:2], samples[0], *samples[3:]]
    part, script = settings.stored(samples[1 : len(samples) - 1]), b"overwrite 2 %d\n" % samples[0]
    less = without(words, option)
    yield Telling(words, stored, stream, less)
    yield Telling(["-d", *count, *words], stream, stored, ["-d", *count, *less])
    ranged = ["--range", f"1:{len(samples) - 2}", *count]
    yield Telling(ranged + words, stream, part, ranged + less)
    if option not in STORAGE:
        edit = ["--edit", "script", *count]
        yield Telling(edit + words, stream, plain_coder.stream(edited, settings), edit + less, script=script)


def jobs_of_counts():
    """Yields each action that takes a count, on five samples of 7: without the count a whole block is read."""
    stream = bytes.fromhex("00 78")
    for count, answer in (("5", bytes([7] * 5)), ("0", b""), ("7", bytes([7] * 7))):
        yield Telling(["-d", "--count", count], stream, answer, ["-d"])
    outside = "position outside the 5 samples"
    for place in ("5:1", "4:2", "0:6", "6:0"):
        words = ["--range", place, "--count", "5"]
        yield Telling(words, stream, None, without(words, "--count"), outside)
    # bytes after the samples are ignored with a count, and refused without one
    behind = ["--range", "3:2", "--count", "8"]
    yield Telling(behind, bytes.fromhex("00 78 FF FF"), bytes([7] * 2), without(behind, "--count"))
    words, grown = ["--edit", "script", "--count", "5"], plain_coder.stream([7] * 5 + [9], Settings())
    yield Telling(words, stream, grown, without(words, "--count"), script=b"append 9\n")
    yield Telling(words, stream, None, without(words, "--count"), f"line 1: {outside}", b"overwrite 5 7\n")


def telling_jobs():
    for row in OPTIONS:
        yield from jobs_of(*row)
    yield from jobs_of_counts()


def try_telling_jobs(program, tally):
    """Tests each job as it is, and with the words with which it must end otherwise."""
    for job in telling_jobs():
        what = " ".join(job.words)
        for words, tells in ((job.words, False), (job.without, True)):
            program.write("source", job.source)
            program.write("script", job.script)
            program.write("dest", None)
            ended = program.run(*words, "source", "dest"), program.read("dest")
            wanted = said(job.refusal), job.answer
            if tells:
                tally.holds(ended != wanted, f"{' '.join(words)} ends as {what}: {ended}")
            else:
                tally.check(what, ended, wanted)
