"""The model of edits by scripts: reads a script by the rules of docs/COMMAND.md and makes its edits on a list."""

import re
from typing import NamedTuple


class Refused(Exception):
    """Why nothing is written, as the program prints it after `aec: `."""


class Edit(NamedTuple):
    line: int
    name: bytes
    places: list  # FIRST, COUNT, or FIRST and LEN
    values: list


# How many places follow a name, and whether values may come after them.
FORMS = {
    b"overwrite": (1, True),
    b"append": (0, True),
    b"truncate": (1, False),
    b"insert": (1, True),
    b"remove": (2, False),
}
MOST_SAMPLES = 2**32


def whole_number(word):
    """Returns the number of a word that may be FIRST, COUNT or LEN, None for any other word."""
    if re.fullmatch(rb"[0-9]+", word) and int(word) < 2**64:
        return int(word)
    return None


def value(word):
    """Returns the number of a word that may be V, None for any other word."""
    if re.fullmatch(rb"-?[0-9]+", word) and -(2**63) <= int(word) < 2**63:
        return int(word)
    return None


def edit_of(number, words):
    """Returns the edit that the words of a line mean, None if they are no edit."""
    if words[0] not in FORMS:
        return None
    many, has_values = FORMS[words[0]]
    places = [whole_number(word) for word in words[1 : 1 + many]]
    values = [value(word) for word in words[1 + many :]]
    if len(places) < many or None in places + values or (values and not has_values):
        return None
    return Edit(number, words[0], places, values)


def edits_of(script):
    """Returns the edits of a script. Raises Refused at the first line that is no edit."""
    edits = []
    for number, line in enumerate(script.split(b"\n"), 1):
        if line.endswith(b"\r"):
            line = line[:-1]
        words = [word for word in re.split(rb"[ \t]", line) if word]
        if not words or words[0].startswith(b"#"):
            continue
        edit = edit_of(number, words)
        if edit is None:
            raise Refused(f"script line {number} is not an edit")
        edits.append(edit)
    return edits


def exchanged(count, edit):
    """Returns the first place and the end of the samples that an edit replaces by its values, among so many samples."""
    first = edit.places[0] if edit.places else count
    if edit.name == b"overwrite":
        return first, first + len(edit.values)
    if edit.name == b"truncate":
        return first, max(first, count)
    if edit.name == b"remove":
        return first, first + edit.places[1]
    return first, first


def edited(settings, samples, edits):
    """Returns the samples after the edits. Raises Refused at the first edit that doesn't fit."""
    for edit in edits:
        first, end = exchanged(len(samples), edit)
        left = len(samples) - (end - first) + len(edit.values)
        if end > len(samples):
            raise Refused(f"line {edit.line}: position outside the {len(samples)} samples")
        if left > MOST_SAMPLES:
            raise Refused(f"line {edit.line}: more than {MOST_SAMPLES} samples")
        for i, x in enumerate(edit.values):
            if not settings.holds(x):
                raise Refused(f"line {edit.line}: sample {i} is out of range")
        samples = samples[:first] + edit.values + samples[end:]
    return samples


def is_zero_block(settings, samples, first):
    """Returns whether all values of the block from that place on are coded as 0."""
    block = samples[first : first + settings.block_size]
    if not settings.preprocess:
        return not any(block)
    before = block[0] if first % settings.interval_len() == 0 else samples[first - 1]
    return all(x == before for x in block)


def decoded_without_count(settings, samples):
    """Returns the samples that are read from their stream without a count: also the filler, and if the stream ends with five or
    more zero blocks, all remaining blocks of their segment."""
    if not samples:
        return []
    size = settings.block_size
    samples = samples + [samples[-1]] * (-len(samples) % size)
    blocks = len(samples) // size
    begin = (blocks - 1) // settings.interval * settings.interval
    begin += (blocks - 1 - begin) // 64 * 64
    end = min(begin + 64, (begin // settings.interval + 1) * settings.interval)
    run = 0
    while blocks - run > begin and is_zero_block(settings, samples, (blocks - run - 1) * size):
        run += 1
    return samples + [samples[-1]] * ((end - blocks) * size) if run >= 5 else samples
