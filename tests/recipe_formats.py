#!/usr/bin/env python3
"""Tests the scripts of examples/ for GRIB, HDF5 and packets, without eccodes and h5py:
recipe_formats.py PATH_OF_AEC [--seed N] [--cases N] [--only N]

Makes messages, chunks and packets by the rules of the formats, and tries each refusal.
`recipes.py` runs this with eccodes, h5py and numpy hidden. Prints the checks that fail and, last,
how many passed. Ends with status 1 if one failed.
"""

import os
import random
import struct
import sys
import tempfile

from lib.program import Program, Tally, asked_of
from lib.recipe_calls import EXAMPLES, called, hiding
from lib.recipe_messages import try_bad_messages, try_message
from lib.recipe_nearest import try_halfway, try_limits, try_nearest
from lib.recipe_starts import try_annotations, try_oldest
from lib.recipe_tables import try_tables
from lib.settings import Settings

import szip_chunks

PACKETS, HDF5 = os.path.join(EXAMPLES, "space_packets.py"), os.path.join(EXAMPLES, "h5_szip.py")
NN, EC = 32, 4  # bits of the filter's mask: with preprocessing, without
MSB_FIRST, LSB_FIRST = 16, 8
BLOCK_SIZES = [8, 16, 32, 10, 12, 14, 18, 20, 22, 24, 26, 28, 30]


def written_out(samples, bits, block_size):
    """Returns a stream without preprocessing, whose blocks are all uncompressed: the identifier,
    which is ones alone, then the samples. The samples fill whole blocks."""
    ones = 3 if bits <= 8 else 4 if bits <= 16 else 5
    text = ""
    for first in range(0, len(samples), block_size):
        block = samples[first : first + block_size]
        text += "1" * ones + "".join(f"{x:0{bits}b}" for x in block)
    text += "0" * (-len(text) % 8)
    return bytes(int(text[i : i + 8], 2) for i in range(0, len(text), 8))


def lines_of(samples, layout, is_filled_by_copies):
    """Returns the samples with filler after each line: copies of its last sample, or zeros."""
    filled = []
    for first in range(0, len(samples), layout.line):
        line = samples[first : first + layout.line]
        room = -layout.line % layout.block_size + layout.line - len(line)
        filled += line + [line[-1] if is_filled_by_copies else 0] * room
    return filled


def chunk_of(layout, elements, aec):
    """Returns the chunk of elements, given as bytes each, with planes, lines, filler and head by
    the filter's rules."""
    raw = b"".join(elements)
    is_nn, is_msb = bool(layout.mask & NN), bool(layout.mask & MSB_FIRST)
    if layout.element >= 4 and layout.bits >= 32:
        bits, samples = 8, [it[place] for place in range(layout.element) for it in elements]
    else:
        order = "big" if is_msb else "little"
        bits, samples = layout.bits, [int.from_bytes(it, order) for it in elements]
    samples = lines_of(samples, layout, is_nn)
    settings = Settings.of_blocks(
        layout.block_size,
        bits=bits,
        interval=-(-layout.line // layout.block_size),
        preprocess=is_nn,
        msb_first=is_msb,
    )
    if is_nn:
        stream = aec.answer(settings.options(), settings.stored(samples))
    else:
        stream = written_out(samples, bits, layout.block_size)
    return szip_chunks.Chunk(len(raw).to_bytes(4, "little") + stream, False)


def drawn_chunk(chance):
    """Returns a random layout, elements of it (1, 2, 4 or 8 bytes each, some with fewer bits), and
    another element."""
    size, least, most = chance.choice([(1, 1, 8), (2, 9, 16), (4, 17, 24), (8, 64, 64)])
    bits = chance.choice([chance.randint(least, most), 8 * size])
    mask = chance.choice([NN, EC]) | chance.choice([MSB_FIRST, LSB_FIRST])
    block_size, line = chance.choice(BLOCK_SIZES), chance.randint(1, 90)
    layout = szip_chunks.Layout(mask, block_size, bits, line, size)
    order = "big" if mask & MSB_FIRST else "little"
    count, kept = chance.randint(1, 300), chance.choice([0, bits // 2])
    elements = [(chance.getrandbits(bits) >> kept).to_bytes(size, order) for _ in range(count)]
    return layout, elements, chance.getrandbits(bits).to_bytes(size, order)


def may_follow(before, after, raw_bytes):
    """Returns whether an edit may turn `before` into `after`. A raw chunk stays raw. A coded chunk
    becomes raw if it doesn't shrink, unless it was as long as a raw one: HDF5 1.10 would miss
    the change."""
    if before.is_raw:
        return after.is_raw
    is_as_long = len(before.data) == raw_bytes
    return not is_as_long if after.is_raw else is_as_long or len(after.data) < raw_bytes


def try_chunk(number, chance, aec, tally):
    """Checks the raw bytes of a random chunk before and after an edit, which may make it raw."""
    layout, elements, value = drawn_chunk(chance)
    chunk, raw = chunk_of(layout, elements, aec), b"".join(elements)
    what = f"own chunk {number}: {layout}"
    tally.check(what, szip_chunks.decoded(layout, aec.path, chunk, len(raw)), raw)
    for is_raw in (False, True):
        before = szip_chunks.Chunk(raw, True) if is_raw else chunk
        place = chance.randrange(len(elements))
        after = szip_chunks.edited(layout, aec.path, before, place, value, len(raw))
        wanted = b"".join([*elements[:place], value, *elements[place + 1 :]])
        back = szip_chunks.decoded(layout, aec.path, after, len(raw))
        tally.check(f"{what}: edited, raw before: {is_raw}", back, wanted)
        said = f"{what}: {len(after.data)} of {len(raw)} bytes, raw: {after.is_raw}"
        tally.holds(may_follow(before, after, len(raw)), said)


def try_layouts(aec, tally):
    """Checks the words of layouts, and the layouts and chunks that are refused."""
    for mask, more in (
        (EC | LSB_FIRST, ["-N"]),
        (EC | MSB_FIRST, ["-m", "-N"]),
        (NN | LSB_FIRST, []),
        (NN | MSB_FIRST, ["-m"]),
    ):
        words = szip_chunks.Layout(mask, 16, 12, 70, 2).words()
        tally.check(f"mask {mask}", words, ["-n", "12", "-j", "16", "-r", "5", *more])
    words = szip_chunks.Layout(NN, 10, 64, 70, 8).words()
    tally.check("planes", words, ["-n", "8", "-j", "10", "-r", "7", "--even-blocks"])
    for block_size, bits, element, text in (
        (2, 8, 1, "blocks of 2 samples: aec has even sizes from 8 to 64"),
        (4, 8, 1, "blocks of 4 samples: aec has even sizes from 8 to 64"),
        (6, 8, 1, "blocks of 6 samples: aec has even sizes from 8 to 64"),
        (8, 24, 3, "elements of 24 bits in 3 bytes are laid out in no known way"),
        (8, 8, 2, "elements of 8 bits in 2 bytes are laid out in no known way"),
        (8, 32, 8, "elements of 32 bits in 8 bytes are laid out in no known way"),
        (8, 64, 4, "elements of 64 bits in 4 bytes are laid out in no known way"),
    ):
        layout = szip_chunks.Layout(NN, block_size, bits, 64, element)
        tally.check(f"layout: {text}", called(layout.check), (1, text))
    layout = szip_chunks.Layout(NN, 8, 8, 8, 1)
    for data, is_raw, text in (
        (b"\x08\0\0", False, "a chunk has 3 bytes, too few for its head"),
        (b"\x09\0\0\0\x20\x09\x24\x92", False, "a chunk has 9 raw bytes in place of 8"),
        (b"\0\1\2", True, "a chunk has 3 raw bytes in place of 8"),
        (b"\x08\0\0\0\x20\x09", False, "aec: coded data is cut short at bit 0"),
    ):
        chunk = szip_chunks.Chunk(data, is_raw)
        for act in (szip_chunks.decoded, szip_chunks.edited):
            more = (chunk, 8) if act is szip_chunks.decoded else (chunk, 0, b"\1", 8)
            answer = called(act, layout, aec.path, *more)
            tally.check(f"{act.__name__}: {text}", answer, (1, text))


def packet(apid, sequence, field, secondary=b"", flags=3):
    body = secondary + field
    identity = (0x800 if secondary else 0) | apid
    return struct.pack(">HHH", identity, flags << 14 | sequence, len(body) - 1) + body


def try_packets(aec, script, tally):
    """Reads packets of two instruments, of which two are missing, one is damaged, one is idle, and
    the last one is cut."""
    words = ["--count", "8", "-N"]
    stream = bytes.fromhex("E0 00 20 40 60 80 A0 C0 E0")
    listed = [
        packet(77, 16383, stream, b"time"),
        packet(78, 5, stream),
        packet(77, 0, stream + b"crc", b"time"),
        packet(0x7FF, 0, bytes(4)),
        packet(77, 3, stream, b"time"),
        packet(78, 6, stream[:-1]),
        packet(78, 7, stream),
    ]
    said = [
        "packet 4 (APID 77, sequence count 3): 2 before it are missing",
        "packet 5 (APID 78, sequence count 6): aec: coded data is cut short at bit 0",
    ]
    cut = "packet 6: it is cut, at byte 99 of the file"
    short = "packet 1: it is cut, at byte 19 of the file"
    lost = "packet 1: at byte 15 no space packet begins; the rest of the file isn't read"
    part = "packet 0 (APID 78, sequence count 1): it is a segment of a longer stream; segments aren't joined"
    for name, data, more, status in (
        ("all", b"".join(listed), [*said, "5 packets decoded, 1 not"], 1),
        ("cut", b"".join(listed)[:-1], [*said, cut, "4 packets decoded, 2 not"], 1),
        ("head", listed[0] + b"\0", [short, "1 packets decoded, 1 not"], 1),
        ("sound", listed[0] + listed[1], ["2 packets decoded, 0 not"], 0),
        ("lost", listed[1] + b"\xff" * 9, [lost, "1 packets decoded, 1 not"], 1),
        ("parts", packet(78, 1, stream, flags=1) + packet(78, 2, stream), [part, "1 packets decoded, 1 not"], 1),
    ):
        aec.write("p", data)
        answer = script.run(PACKETS, "read", aec.path, "p", name, "4", *words)
        tally.check(f"packets {name}", answer, (status, "".join(line + "\n" for line in more)))
    names = ["0077_000000", "0077_000002", "0077_000004", "0078_000001", "0078_000006"]
    listed = sorted(os.listdir(aec.file("all")))
    tally.check("packets decoded", listed, [name + ".raw" for name in names])
    for name in listed:
        samples = aec.read(os.path.join("all", name))
        tally.check(f"samples of {name}", samples, bytes(range(8)))
    try_packet_words(words, aec, script, tally)


def try_packet_words(words, aec, script, tally):
    """Checks words that space_packets.py refuses. Folder `all` and packets `p` are there."""
    usage = "read takes the words AEC FILE FOLDER SECONDARY OPTIONS.."
    for given, status, text in (
        (["all", "4", *words], 1, "all: File exists"),
        (["new", "x", *words], 2, "x is no length of a secondary header; see --help"),
        (["new", "4", "-n", "33"], 2, "aec: bits per sample must be 1 to 32; see --help"),
        (["new"], 2, f"{usage}; see --help"),
    ):
        answer = script.run(PACKETS, "read", aec.path, "p", *given)
        tally.check(f"packets: {given}", answer, (status, f"space_packets.py: {text}\n"))
        tally.holds(not os.path.exists(aec.file("new")), f"packets: {given}: a folder is left")


def try_sample_packets(aec, script, tally):
    """Checks that sample_packets.py makes the packets that the format's rules make here, from the
    samples of durations.raw."""
    with open(os.path.join(EXAMPLES, "durations.raw"), "rb") as file:
        samples = file.read()
    settings = Settings(bits=12, block_size=16, interval=32)
    fields = [aec.answer(settings.options(), samples[i : i + 1024]) for i in range(0, 8192, 1024)]
    packets = [packet(77, number, it, bytes(4)) for number, it in enumerate(fields)]
    path = os.path.join(EXAMPLES, "sample_packets.py")
    tally.check("sample packets", script.run(path, aec.path, "sample"), (0, ""))
    tally.check("sample packets: the file", aec.read("sample"), b"".join(packets))
    answer = script.run(path, aec.path, "none/sample")
    said = "sample_packets.py: none/sample: No such file or directory\n"
    tally.check("sample packets: no folder", answer, (1, said))


def try_statuses(aec, script, tally):
    """Runs each script with --help, without words and with wrong ones; h5py and aecp are hidden."""
    names = sorted(it for it in os.listdir(EXAMPLES) if it.endswith(".py"))
    for name in names:
        path, more = os.path.join(EXAMPLES, name), {"env": hiding(aec.folder, "h5py", "aecp")}
        with open(path, encoding="utf-8") as file:
            if "__main__" not in file.read():
                continue
        for words in (["--help"], ["-h"]):
            status, said = script.run(path, *words, **more)
            tally.holds(status == 0 and said.count("\n") > 1, f"{name} {words}: {status} {said}")
        for words in ([], ["one", "two", "three", "four"], ["--no-such-word", "x", "y"]):
            status, said = script.run(path, *words, **more)
            is_so = status == 2 and said.count("\n") == 1 and "see --help" in said
            tally.holds(is_so, f"{name} {words}: {status} {said}")
    runs, shell = os.path.join(EXAMPLES, "run.sh"), Program("/bin/sh", aec.folder)
    for words, wanted in (([], 2), ([aec.path, "x"], 2), (["none"], 1)):
        status, said = shell.run(runs, *words)
        is_so = status == wanted and said.count("\n") == 1
        tally.holds(is_so, f"run.sh {words}: {status} {said}")


def try_without_h5py(aec, script, tally):
    said = "h5_szip.py: No module named 'h5py': python3-h5py has it for /usr/bin/python3\n"
    answer = script.run(HDF5, "show", "none.h5", "d", env=hiding(aec.folder, "h5py"))
    tally.check("without h5py", answer, (1, said))
    path, hidden = os.path.join(EXAMPLES, "aecp_szip.py"), hiding(aec.folder, "aecp")
    answer = script.run(path, "none.h5", "d", env=hidden)
    tally.check("without aecp", answer, (1, "aecp_szip.py: No module named 'aecp'\n"))


def try_refused_programs(aec, tally):
    """Tries a program that isn't this project's, and one that isn't there."""
    for path, text in (
        ("/bin/true", "/bin/true isn't this project's aec: its --version prints something else"),
        (aec.file("none"), f"{aec.file('none')}: No such file or directory"),
    ):
        layout, chunk = szip_chunks.Layout(NN, 8, 8, 8, 1), szip_chunks.Chunk(b"\x08\0\0\0", False)
        answer = called(szip_chunks.decoded, layout, path, chunk, 8)
        tally.check(f"the program {path}", answer, (1, text))


def main():
    asked = asked_of("The formats of the recipes, without eccodes and h5py.", 48)
    tally = Tally()
    with tempfile.TemporaryDirectory() as folder:
        aec, script = Program(asked.program, folder), Program(sys.executable, folder)
        for number in asked.numbers:
            try_message(number, random.Random(f"{asked.seed} {number}"), aec, tally)
            try_chunk(number, random.Random(f"{asked.seed} {number}"), aec, tally)
            try_nearest(number, random.Random(f"{asked.seed} {number}"), tally)
        try_bad_messages(aec, script, tally)
        try_tables(aec, script, tally)
        try_annotations(tally)
        try_oldest(aec, tally)
        try_limits(tally)
        try_halfway(tally)
        try_layouts(aec, tally)
        try_packets(aec, script, tally)
        try_sample_packets(aec, script, tally)
        try_statuses(aec, script, tally)
        try_without_h5py(aec, script, tally)
        try_refused_programs(aec, tally)
    tally.print()
    return 1 if tally.failed else 0


if __name__ == "__main__":
    sys.exit(main())
