"""Buffers that one thread tries to grow or cut while another thread's call uses them."""

import array
import random
import sys
import threading

import aecp
import pytest
from helpers import raised

LONG = 3000  # samples of a long call
OPTIONS, COUNT = aecp.Options(8), 1 << 22


def refuses_growth(held, call):
    """Returns whether a buffer refuses to grow while another thread makes a call. Makes the call up
    to ten times, since a call can end before this thread runs."""
    refused = False
    for _ in range(10):
        thread = threading.Thread(target=call, daemon=True)
        thread.start()
        while thread.is_alive():
            fault = raised(lambda: (held.append(0), held.pop()))
            refused |= isinstance(fault, BufferError)
        thread.join()
        if refused:
            break
    return refused


def with_room(given):
    """Returns a buffer that has memory for one more item. So a wrong module fails its test without
    reading freed memory."""
    held = bytearray(given) if isinstance(given, bytes) else given[:]
    held.append(0)
    held.pop()
    return held


@pytest.fixture(scope="module")
def buffers():
    """An array of numbers, stored samples of 8 bits with their stream, and a long script."""
    stored = random.Random(6).randbytes(1 << 16) * 64
    return {
        "numbers": array.array("q", range(1 << 16)) * 8,
        "stored": stored,
        "coded": aecp.encode(stored, OPTIONS),
        "script": b"append" + b" 1" * (1 << 18),
    }


@pytest.fixture
def work(buffers):
    """A workspace with the array's numbers."""
    with aecp.Workspace(aecp.Options(16), buffers["numbers"]) as work:
        yield work


CALLS = {
    "append": ("numbers", lambda held, work, _: work.append(held)),
    "insert": ("numbers", lambda held, work, _: work.insert(0, held)),
    "overwrite": ("numbers", lambda held, work, _: work.overwrite(0, held)),
    "encode": ("stored", lambda held, *_: aecp.encode(held, OPTIONS)),
    "feed": ("stored", lambda held, *_: aecp.Encoder(OPTIONS).feed(held)),
    "decode": ("coded", lambda held, *_: aecp.decode_bytes(held, COUNT, OPTIONS)),
    "decode_range": ("coded", lambda held, *_: aecp.decode_range_bytes(held, COUNT, 5, 5, OPTIONS)),
    "decode_at": ("coded", lambda held, *_: aecp.decode_bytes_at(held, 0, COUNT, OPTIONS)),
    "offsets": ("coded", lambda held, *_: aecp.offsets(held, COUNT, OPTIONS)),
    "of_coded": ("coded", lambda held, *_: aecp.Workspace.of_coded(held, COUNT, OPTIONS)),
    "edit": ("coded", lambda held, *_: aecp.edit(held, COUNT, "remove 5 5", OPTIONS)),
    "script": ("script", lambda held, *_: aecp.edit(b"", 0, held, OPTIONS)),
    "Decoder": ("coded", lambda held, *_: aecp.Decoder(held, COUNT, OPTIONS)),
    "out": ("stored", lambda held, _, coded: aecp.decode_bytes(coded, COUNT, OPTIONS, out=held)),
}


@pytest.mark.parametrize("name", CALLS)
def test_a_buffer_cannot_grow_while_a_call_uses_it(name, buffers, work):
    """A buffer refuses to grow while a call uses it, and can grow afterwards."""
    kind, call = CALLS[name]
    held = with_room(buffers[kind])
    assert refuses_growth(held, lambda: call(held, work, buffers["coded"]))
    held.append(0)


def cut_after(step, work):
    """Appends an array of 3,000 samples, which is cut to 100 after this step of the call. Returns
    whether the call has so many steps."""
    samples, steps = array.array("q", range(LONG)), []

    def cut(_frame, _event, _called):
        steps.append(0)
        if len(steps) == step:
            raised(lambda: samples.__delitem__(slice(100, None)))

    sys.setprofile(cut)
    try:
        work.append(samples)
    finally:
        sys.setprofile(None)
    return len(steps) >= step


def test_an_array_that_is_cut_while_it_is_appended():
    """A call appends all samples of an array, or those that are left of it, if another thread cuts
    the array after any step of the call."""
    lengths = set()
    for step in range(1, 400):
        with aecp.Workspace(aecp.Options(16)) as work:
            has_step = cut_after(step, work)
            assert list(work) == list(range(len(work))), step
            lengths.add(len(work))
        if not has_step:
            break
    assert lengths == {100, LONG}
