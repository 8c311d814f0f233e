"""What a script makes of a list of samples, beside a plain list, with few and with many edits."""

from __future__ import annotations

import random
import time
from array import array

from hypothesis import given, settings, strategies

import aecp.archive._result
from aecp.archive._result import Result
from aecp.archive._scripts import Edit

NAMES = ("overwrite", "append", "truncate", "insert", "remove")


def some_edit(chance: random.Random, count: int) -> Edit:
    """Returns an edit that fits so many samples."""
    name = chance.choice(NAMES)
    length = min(chance.choice([0, 1, 1, 2, 5, 40]), count if name in ("overwrite", "remove") else 40)
    room = count - length if name in ("overwrite", "remove") else count
    first = chance.choice([0, room, chance.randint(0, room)])
    values = array("q", [chance.randrange(1 << 20, 1 << 21) for _ in range(length)])
    if name == "truncate":
        return Edit(1, name, [chance.choice([count, max(count - 1, 0), chance.randint(0, count)])], array("q"))
    if name == "remove":
        return Edit(1, name, [first, length], array("q"))
    return Edit(1, name, [] if name == "append" else [first], values)


def changed(samples: list[int], edit: Edit) -> None:
    """Applies an edit to a plain list."""
    first, end = edit.exchanged(len(samples))
    samples[first:end] = edit.values


def samples_of(result: Result) -> list[int]:
    """Returns the samples of a result of the list 0, 1, 2, .."""
    found: list[int] = []
    for part in result.parts():
        whole = range(part.first + part.length) if part.values is None else part.values
        found += whole[part.first : part.first + part.length]
    return found


@given(strategies.integers(0, 2**32), strategies.integers(0, 300), strategies.integers(0, 60), strategies.sampled_from([2, 3, 256]))
@settings(deadline=None)
def test_as_a_plain_list(seed: int, count: int, edits: int, most: int) -> None:
    """Blocks of two parts are cut at nearly each edit, those of 256 never."""
    kept, aecp.archive._result.MOST_PARTS = aecp.archive._result.MOST_PARTS, most
    try:
        chance, samples, result = random.Random(seed), list(range(count)), Result(count)
        for _ in range(edits):
            edit = some_edit(chance, len(samples))
            changed(samples, edit)
            result.apply(edit)
            assert result.count == len(samples)
        assert samples_of(result) == samples
    finally:
        aecp.archive._result.MOST_PARTS = kept


def test_many_edits_as_a_plain_list() -> None:
    """With blocks of the usual length, some of them cut."""
    chance, samples, result = random.Random(3), list(range(5000)), Result(5000)
    for _ in range(3000):
        edit = some_edit(chance, len(samples))
        if edit.name == "truncate":
            continue
        changed(samples, edit)
        result.apply(edit)
    assert len(result._blocks) > 3 and samples_of(result) == samples


def seconds(name: str, edits: int) -> float:
    """Returns the processor time that so many edits of one value at random places take."""
    chance, count = random.Random(1), 1 << 22
    lines = [Edit(1, name, [chance.randrange(count)], array("q", [1])) for _ in range(edits)]
    begun = time.process_time()
    Result(count, lines)
    return time.process_time() - begun


def test_edits_out_of_order_take_no_square_of_their_number() -> None:
    """For 16 times as many edits, one list that is passed over from place to place takes 256 times as long or more, the cut ones some 30
    times. The bound is far from both, so that other work on the machine doesn't decide."""
    for name in ("insert", "overwrite"):
        few, many = min(seconds(name, 1250) for _ in range(3)), seconds(name, 20_000)
        assert many < 130 * few, (name, few, many)
