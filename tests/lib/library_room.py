"""Tests how many bytes the calls of the library allocate at once, for library.py: at most as many
as aecp.h says, with little and much code, short and long intervals, few and many samples. The C
program library_room makes the calls; the library of refusing.py counts."""

from typing import NamedTuple

from lib.refusing import Growths
from lib.settings import Settings

KIB, MIB = 1024, 1024 * 1024
ALL = 2**64 - 1
# The C library rounds the lengths of blocks up. A call has at most four large ones at once.
ROUNDED = 4 * 4 * KIB

SINGLE = Settings(block_size=64, interval=1)
SHORT = Settings(block_size=8, interval=128)
LONG = Settings(block_size=64, interval=128)
LONGEST = Settings(block_size=64, interval=4096)
WIDE = Settings(bits=32, block_size=16, interval=128)


class Call(NamedTuple):
    """A call on so many samples, all zeros or noise. It asks for the first `count` of them."""

    name: str
    kind: str
    settings: Settings
    samples: int
    count: int = ALL

    def words(self):
        s = self.settings
        numbers = [s.bits, s.block_size, s.interval, self.samples, self.count]
        return [self.name, self.kind, *map(str, numbers)]

    def text(self):
        asked = "" if self.count == ALL else f", the first {self.count}"
        s = self.settings
        options = f"{s.bits} bits, J {s.block_size}, r {s.interval}"
        return f"{self.name}: {self.samples} {self.kind}, {options}{asked}"


class Lengths(NamedTuple):
    """The length of a call's result, of the code of all samples, and aecp_bound of the count."""

    result: int
    code: int
    bound: int


def interval(call, least=0):
    """Returns eight bytes for each sample of an interval, or `least` if that is more."""
    return max(8 * call.settings.interval_len(), least)


def copied(call, lengths):
    """Returns how much of the stream a call copies that decodes only `count` samples."""
    return lengths.code if call.count == ALL else min(lengths.code, lengths.bound)


def of_encode(call, lengths):
    return 72 * KIB + 2 * lengths.code + interval(call, 32 * KIB)


def of_decode(call, lengths):
    s = call.settings
    kept = 16 * MIB if s.block_size * s.storage() <= 32 else 0
    return max(12 * s.interval_len(), 48 * KIB) + 64 * KIB + copied(call, lengths) + kept


def of_range(call, lengths):
    return interval(call, 16 * KIB) + copied(call, lengths)


def of_offsets(call, lengths):
    return lengths.code + 24 * lengths.result


def of_decode_at(call, lengths):
    size = call.settings.block_size
    blocks = -(-lengths.result // (call.settings.storage() * size))
    return lengths.code + 24 * blocks * size


# The bytes of a line of each script of library_room.c.
LINES = {"inserts": 17, "overwrites": 20, "appends": 9}


def of_edit(call, lengths):
    """The script of library_room.c has 13 bytes and three values, or lines of one value each."""
    lines = LINES.get(call.name.removeprefix("edit_"))
    count, script, values = (call.count, lines * call.count, 1) if lines else (3, 13, 3)
    intervals = -(-(call.samples + count) // call.settings.interval_len())
    listed = min(40 * script // 12, 640 * KIB) + min(24 * script, 6 * MIB)
    streams = 6 * max(lengths.code, lengths.result)
    return streams + 2 * script + listed + 4 * interval(call) + 32 * intervals + 16 * values


def of_apply(call, lengths):
    intervals = -(-(call.samples + call.count) // call.settings.interval_len())
    script = LINES[call.name] * call.count
    return 2 * lengths.result + 16 * intervals + 24 * script + 3 * interval(call)


def of_take(call, lengths):
    return 2 * lengths.result


def of_read(call, lengths):
    """A read from sample 0 on."""
    return -(-lengths.result // call.settings.interval_len()) * 3 * interval(call)


def of_write(call, lengths):
    return 2 * lengths.code


def of_reader(call, lengths):
    return lengths.code + interval(call)


def of_none(call, lengths):
    return 0


# What aecp.h says that a call allocates at most. It gives no number for a coder, which is held to
# that of aecp_encode.
SAID = {
    "encode": of_encode,
    "feed": of_encode,
    "decode": of_decode,
    "range": of_range,
    "offsets": of_offsets,
    "decode_at": of_decode_at,
    "reader": of_reader,
    "take": of_take,
    "edit": of_edit,
    "read": of_read,
    "write": of_write,
    **dict.fromkeys(LINES, of_apply),
    **{f"edit_{name}": of_edit for name in LINES},
    "next": of_none,
    "asked": of_none,
}

CALLS = [
    *(Call(name, "zeros", SHORT, 64 * MIB) for name in ("encode", "feed")),
    *(Call(name, "noise", SHORT, 16 * MIB) for name in ("encode", "feed")),
    *(Call(name, "zeros", LONGEST, 4 * MIB) for name in ("encode", "feed")),
    *(Call("encode", "noise", SHORT, samples) for samples in (0, 1, 100, 10_000, 64 * KIB)),
    *(Call("decode", kind, SHORT, 32 * MIB) for kind in ("zeros", "noise")),
    *(Call("decode", "noise", SINGLE, samples) for samples in (1, 1000)),
    *(Call("decode", "noise", LONG, 8 * MIB, few) for few in (0, 1, 10, 1000)),
    *(Call("range", "noise", LONG, 8 * MIB, count) for count in (0, 10, 100_000, 8 * MIB)),
    Call("range", "zeros", LONGEST, 4 * MIB, 4 * MIB),
    *(Call("offsets", kind, settings, 2 * MIB) for settings in (SINGLE, LONGEST) for kind in ("zeros", "noise")),
    *(Call("offsets", "noise", SINGLE, MIB, count) for count in (0, 1, 1000, MIB)),
    *(Call("decode_at", kind, LONG, MIB) for kind in ("zeros", "noise")),
    *(Call("decode_at", "noise", LONG, MIB, count) for count in (0, 1, 1000, MIB)),
    *(Call("decode_at", "zeros", LONGEST, MIB, count) for count in (1, 5000)),
    *(Call(name, "noise", WIDE, MIB, MIB) for name in ("encode", "feed", "range")),
    *(Call(name, "noise", LONG, 8 * MIB) for name in ("reader", "next")),
    *(Call("decode", "zeros", settings, 4 * MIB) for settings in (SINGLE, LONG, LONGEST)),
    Call("take", "noise", SHORT, 2 * MIB),
    *(Call("edit", "noise", settings, 2 * MIB) for settings in (SHORT, LONGEST)),
    *(Call(name, "noise", LONG, 2 * MIB, 10_000) for name in ("read", "write")),
    *(Call(name, "noise", SHORT, 2 * MIB, count) for name in LINES for count in (1, 10_000)),
    *(Call(name, "zeros", LONGEST, 2 * MIB, count) for name in LINES for count in (1, 100)),
    *(Call(name, "noise", SINGLE, 10_000, 70_000) for name in LINES),
    *(Call(f"edit_{name}", "noise", SHORT, 2 * MIB, 10_000) for name in LINES),
    *(Call(f"edit_{name}", "zeros", LONGEST, 2 * MIB, 100) for name in LINES),
    *(Call(f"edit_{name}", "noise", SINGLE, 10_000, 70_000) for name in LINES),
    *(Call(f"edit_{name}", "noise", SINGLE, 2 * MIB, 10_000) for name in LINES),
    Call("asked", "noise", LONG, MIB, 1000),
]


def try_room(program, library, tally):
    """Compares the most bytes that each call allocates with the number that aecp.h gives."""
    growths = Growths(program, library, in_parts=True)
    for call in CALLS:
        (status, printed), number, _ = growths.refuse(0, -1, program.run, *call.words())
        words = [int(word) for word in printed.split() if word.isdigit()]
        if status != 0 or len(words) != 4 or words[0] != 0:
            tally.holds(False, f"{call.text()}: status {status}, {printed}")
            continue
        most = SAID[call.name](call, Lengths(*words[1:]))
        allowed = most + (ROUNDED if most else 0)
        told = f"{growths.most} bytes at once in {number} growths; {most} are allowed"
        tally.holds(growths.most <= allowed, f"{call.text()}: {told}")
