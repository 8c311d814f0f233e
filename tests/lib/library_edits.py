"""Tests streams edited by scripts in one call, for library.py: each random script against the model of script_model.py, whose samples the
library codes afresh. Each refusal must have the model's text and line, also of a line that is no edit. Also tests streams that are coded
in pieces, cut anywhere, and decoded interval by interval, against those of one call."""

import copy
import pickle
import random

from lib.program import raised
from lib.script_cases import some_count, some_samples, some_script, some_settings
from lib.script_model import Refused, edited, edits_of

CASES = 600


def expected(aecp, settings, samples, script):
    """Returns the edited stream and its number of samples, or the text of the refusal and the line."""
    try:
        left = edited(settings, samples, edits_of(script))
    except Refused as refusal:
        text = str(refusal)
        words = text.replace(":", "").split()
        return text, int(words[words.index("line") + 1])
    return aecp.encode(settings.stored(left), aecp.Options(**settings._asdict())), len(left)


def got(aecp, options, coded, count, script):
    try:
        return aecp.edit(coded, count, script, options)
    except aecp.Fault as fault:
        return str(fault), fault.line


def try_script(aecp, seed, number, tally):
    chance = random.Random(f"script {seed} {number}")
    settings = some_settings(chance)
    samples = some_samples(settings, chance)
    options = aecp.Options(**settings._asdict())
    coded = aecp.encode(settings.stored(samples), options)
    count, read = some_count(settings, samples, chance)
    script = some_script(settings, len(read), chance, number)
    tally.check(f"script {seed} {number}", got(aecp, options, coded, count, script), expected(aecp, settings, read, script))


def try_kinds(aecp, tally):
    """Tests the kinds of exceptions, a result longer than the module's first buffer, and a cut stream."""
    options = aecp.Options(8)
    coded = aecp.encode(bytes(8), options)
    tally.check("text", aecp.edit(coded, 8, "truncate 3\nappend 1 2\n", options), (aecp.encode(b"\0\0\0\1\2", options), 5))
    tally.check("nothing", aecp.edit(b"", 0, "", options), (b"", 0))
    bad = (("rename 3", aecp.ScriptRefused, 1), ("append 256", aecp.SampleRefused, 0), ("remove 8 1", aecp.RangeRefused, 8))
    for script, kind, place in bad:
        try:
            aecp.edit(coded, 8, script, options)
            tally.holds(False, f"{script}: not refused")
        except kind as fault:
            tally.check(script, (fault.place, fault.line), (place, 1))
    try:
        aecp.edit(coded[:-1], 8, "append 1", options)
        tally.holds(False, "a cut stream: not refused")
    except aecp.StreamRefused as fault:
        tally.check("a cut stream", (fault.bit, fault.line), (0, 0))
    wide, many = aecp.Options(32, interval=1), b"append " + b" 4294967295 0" * 20000
    stored = b"\xff\xff\xff\xff\0\0\0\0" * 20000
    tally.check("a long stream", aecp.edit(b"", 0, many, wide), (aecp.encode(stored, wide), 40000))


def try_pieces(aecp, seed, number, tally):
    chance = random.Random(f"pieces {seed} {number}")
    settings = some_settings(chance)
    stored = settings.stored(some_samples(settings, chance))
    options = aecp.Options(**settings._asdict())
    coder, pieces, at = aecp.Encoder(options), [], 0
    while at < len(stored):
        length = chance.choice([0, 1, 2, 3, 7, 64, 1000, len(stored)])
        pieces.append(coder.feed(stored[at : at + length]))
        at += length
    whole = (aecp.encode(stored, options), len(stored) // settings.storage())
    tally.check(f"pieces {seed} {number}", (b"".join([*pieces, coder.finish()]), coder.count), whole)


def try_refused_pieces(aecp, tally):
    """Checks that each call after a sample out of range names its index among all samples again, and that
    `count` contains no sample of a refused call."""
    coder = aecp.Encoder(aecp.Options(7))
    coder.feed(bytes(3000))
    for call in (lambda: coder.feed(b"\1\x80"), lambda: coder.feed(b"\1"), coder.finish):
        try:
            call()
            tally.holds(False, "a sample of 8 bits is fed")
        except aecp.SampleRefused as fault:
            tally.check("refused piece", fault.index, 3001)
        tally.check("the count after a refused piece", coder.count, 3000)
    try:
        aecp.Encoder(aecp.Options(33))
        tally.holds(False, "33 bits")
    except aecp.OptionsRefused:
        tally.check("nothing in pieces", aecp.Encoder(aecp.Options(8)).finish(), b"")


def left_of(decoder):
    return list(iter(decoder.next_bytes, b""))


def try_intervals(aecp, seed, number, tally):
    """Reads a stream interval by interval, with a count and without; then goes back and forth to intervals, and reads each."""
    chance = random.Random(f"intervals {seed} {number}")
    settings = some_settings(chance)
    stored = settings.stored(some_samples(settings, chance))
    options = aecp.Options(**settings._asdict())
    coded, count = aecp.encode(stored, options), len(stored) // settings.storage()
    length = settings.block_size * settings.interval * settings.storage()
    for count in (count, None):
        whole = bytes(aecp.decode_bytes(coded, count, options))
        wanted = [whole[at : at + length] for at in range(0, len(whole), length)]
        decoder = aecp.Decoder(coded, count, options)
        tally.check(f"intervals {seed} {number}", [left_of(decoder), left_of(decoder)], [wanted, []])
        for place in (chance.randint(0, len(wanted)), chance.randint(0, len(wanted)), len(wanted) + 1, 2**64 - 1, 0):
            before = min(place * length, len(whole)) // settings.storage()
            got = decoder.go_to(place), bytes(decoder.next_bytes())
            tally.check(f"intervals {seed} {number}: to {place}", got, (before, b"".join(wanted[place : place + 1])))


def fault_of(call):
    """Returns the number and the place of a call's fault, None if there is none."""
    fault = raised(call)
    return None if fault is None else (getattr(fault, "number", type(fault)), getattr(fault, "place", None))


def try_cut_intervals(aecp, tally):
    """Reads a stream cut in its third interval, up to the fault, which must be that of decoding all. And tries what can't be opened or
    copied."""
    options = aecp.Options(8, block_size=8, interval=1)
    coded = aecp.encode(bytes(range(8)) + bytes(range(100, 116)), options)
    cut = coded[: len(coded) * 2 // 3]
    whole, decoder = fault_of(lambda: aecp.decode_bytes(cut, 24, options)), aecp.Decoder(cut, 24, options)
    tally.check("the cut stream", whole[0], 6)
    tally.check("before the cut", bytes(decoder.next_bytes()), bytes(range(8)))
    read = 1
    while fault_of(decoder.next_bytes) is None:
        read += 1
    for call in (decoder.next_bytes, lambda: decoder.go_to(9), decoder.next_bytes):
        tally.check("the fault of an interval", fault_of(call), whole)
    tally.check("back", (decoder.go_to(0), bytes(decoder.next_bytes())), (0, bytes(range(8))))
    fresh = aecp.Decoder(cut, 24, options)
    # Going to an interval checks nothing after its start.
    tally.check("to the cut", (fresh.go_to(read), fault_of(lambda: fresh.go_to(read + 1))), (8 * read, whole))
    tally.check("too many", fault_of(lambda: aecp.Decoder(coded, 2**32 + 1, options)), (9, 2**32))
    tally.check("no options", fault_of(lambda: aecp.Decoder(coded, 8, aecp.Options(33))), (1, 0))
    # No array has samples of three bytes: after the refusal the decoder is where it was.
    wide = aecp.Options(24, block_size=8, interval=1, three_byte=True)
    decoder = aecp.Decoder(aecp.encode(bytes(range(24)), wide), 8, wide)
    tally.check("three bytes", fault_of(lambda: next(decoder))[0] in (ValueError, ImportError), True)
    tally.check("then as bytes", bytes(decoder.next_bytes()), bytes(range(24)))
    for call in (copy.copy, copy.deepcopy, pickle.dumps):
        for held in (decoder, aecp.Encoder(options)):
            tally.check("a copy", fault_of(lambda: call(held)), (TypeError, None))


def try_scripts(aecp, seed, tally):
    try_kinds(aecp, tally)
    try_refused_pieces(aecp, tally)
    try_cut_intervals(aecp, tally)
    for number in range(CASES):
        try_script(aecp, seed, number, tally)
        try_pieces(aecp, seed, number, tally)
        try_intervals(aecp, seed, number, tally)
