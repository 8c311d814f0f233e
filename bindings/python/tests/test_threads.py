"""Threads that share a workspace, an Encoder or a Decoder: no sample is lost, and each call is one
step for the other threads. A call of 3,000 samples or more takes so long that other threads run
during the call."""

import array
import pickle
import random
import threading

import aecp
import pytest
from helpers import THREADS, drawn, in_threads, raised

ROUNDS = 150
LONG = 3000  # samples of a long call
CALLS = 20  # calls of each thread, if calls are long or have pauses
FAR = 10**9  # a place after the last sample

# Edits that a thread repeats. Some make two calls of C. The last one writes the samples 0 to 999
# over all others.
EDITS = (
    lambda work: work.__setitem__(slice(100, 300), range(1000, 1000 + LONG)),
    lambda work: work.reverse(),
    lambda work: work.__delitem__(slice(None, None, 2)),
    lambda work: work.append(range(LONG)),
    lambda work: work.__setitem__(slice(None), range(1000)),
)

READINGS = {
    "len": len,
    "list": list,
    "reversed": lambda work: list(reversed(work)),
    "sample": lambda work: work[-1],
    "slice": lambda work: work[-150:-50],
    "slice with steps": lambda work: work[::3],
    "read": lambda work: type(raised(lambda: work.read(0, LONG))),
    "index": lambda work: work.index(600),
    "count": lambda work: work.count(600),
    "repr": repr,
    "tobytes": lambda work: work.tobytes(),
    "copy": lambda work: list(work.copy()),
    "pickle": lambda work: list(pickle.loads(pickle.dumps(work))),
}


def test_threads_append_single_samples():
    """Eight threads that append single samples: the workspace has all of them."""
    with aecp.Workspace(aecp.Options(16, interval=2)) as work:

        def append(number):
            for i in range(ROUNDS):
                work.append(number * ROUNDS + i)

        assert in_threads(append) == []
        assert sorted(work) == list(range(THREADS * ROUNDS))


def test_threads_read():
    """Eight threads that read samples, the stream and copies get what is there."""
    samples = random.Random(1).sample(range(THREADS * ROUNDS), THREADS * ROUNDS)
    with aecp.Workspace(aecp.Options(16, interval=2), samples) as work:
        coded = work.tobytes()

        def read(number):
            for i in range(ROUNDS):
                place = (number * 37 + i * 11) % len(samples)
                assert len(work) == len(samples) and work[place] == samples[place]
                assert i % 10 or work.tobytes() == coded
                assert i % 50 or work.copy() == samples

        assert in_threads(read) == []


def test_threads_write_and_read():
    """Eight threads that set samples read what they have set, and no other sample changes."""
    with aecp.Workspace(aecp.Options(16, interval=2), drawn("set", THREADS * ROUNDS)) as work:

        def edit(number):
            for i in range(ROUNDS):
                place = number * ROUNDS + i
                work[place] = place + 1
                assert work[place] == place + 1 and len(work) == THREADS * ROUNDS

        assert in_threads(edit) == []
        assert list(work) == list(range(1, THREADS * ROUNDS + 1))


def test_one_thread_closes():
    """While one thread closes a workspace, the others' edits succeed or raise a Fault."""
    with aecp.Workspace(aecp.Options(16, interval=2), range(THREADS * ROUNDS)) as work:

        def close(number):
            for _ in range(ROUNDS):
                fault = raised(lambda: work.append(1)) if number else raised(work.close)
                assert fault is None or isinstance(fault, aecp.Fault)

        assert in_threads(close) == []
        assert (len(work), repr(work)) == (0, "<closed Workspace>")


def test_closing_waits_for_calls():
    """After close no workspace is open, also if other threads' calls were running."""
    for _ in range(CALLS):
        work, begun = aecp.Workspace(aecp.Options(16)), threading.Event()

        def append_or_close(number):
            if number:
                begun.set()
                fault = raised(lambda: work.append(range(LONG)))
                assert fault is None or isinstance(fault, aecp.NotOpen), fault
            else:
                begun.wait()
                work.close()

        assert in_threads(append_or_close) == []
        assert repr(work) == "<closed Workspace>"


def test_threads_append_3000_samples():
    """Eight threads that append 3,000 samples a call: the samples of each call lie side by side."""
    noise = drawn("appended", LONG - 1)
    with aecp.Workspace(aecp.Options(16)) as work:

        def append(number):
            for i in range(CALLS):
                work.append([number * CALLS + i, *noise])
                assert all(len(work) > i * LONG for _ in range(9))
                assert len(work.tobytes()) > i * LONG

        assert in_threads(append) == []
        samples = list(work)
    parts = [samples[at : at + LONG] for at in range(0, len(samples), LONG)]
    assert sorted(parts) == [[number, *noise] for number in range(THREADS * CALLS)]


def test_threads_overwrite_and_read_3000_samples():
    """Eight threads that write 3,000 samples each in a part of its own read the same samples."""
    with aecp.Workspace(aecp.Options(16), drawn("before", THREADS * LONG)) as work:

        def overwrite(number):
            for i in range(CALLS):
                part = drawn(f"{number} {i}", LONG)
                work.overwrite(number * LONG, part)
                assert list(work.read(number * LONG, LONG)) == part

        assert in_threads(overwrite) == []


def test_threads_pop():
    """No two threads pop the same sample, and no sample is lost, also while threads reverse the
    samples."""
    popped, before = [], range(2 * THREADS * CALLS)
    with aecp.Workspace(aecp.Options(16), before) as work:

        def pop(number):
            for i in range(CALLS):
                popped.append(work.pop(*([], [0], [number])[i % 3]))
                if i % 5 == 0:
                    work.reverse()

        assert in_threads(pop, pausing=True) == []
        assert sorted([*popped, *work]) == list(before)


def test_threads_remove():
    """Threads that remove samples by their values remove these and no others."""
    removed = THREADS * CALLS
    with aecp.Workspace(aecp.Options(16), range(2 * removed)) as work:

        def remove(number):
            for sample in range(number, removed, THREADS):
                work.remove(sample)

        assert in_threads(remove, pausing=True) == []
        assert list(work) == list(range(removed, 2 * removed))


def test_threads_insert_near_the_end():
    """No insert near the end fails, and no sample is lost, while other threads pop."""
    popped, before = [], range(1000)
    with aecp.Workspace(aecp.Options(16), before) as work:

        def insert_or_pop(number):
            for i in range(CALLS):
                if number % 2:
                    popped.append(work.pop(0))
                else:
                    work.insert((FAR, -1)[i % 2], len(before) + number // 2 * CALLS + i)

        assert in_threads(insert_or_pop, pausing=True) == []
        wanted = list(range(len(before) + THREADS // 2 * CALLS))
        assert sorted([*popped, *work]) == wanted


@pytest.mark.parametrize("pausing", [False, True], ids=["running", "pausing"])
def test_threads_read_while_one_edits(pausing):
    """While one thread edits, each reading of another thread returns what it returns between two of
    these edits."""
    work, states = aecp.Workspace(aecp.Options(16), range(1000)), []
    for edit in EDITS:
        edit(work)
        states.append(work.copy())
    wanted = {name: [read(state) for state in states] for name, read in READINGS.items()}
    ended = []

    def edit_or_read(number):
        while number == 0 and len(ended) < THREADS - 1:
            for edit in EDITS:
                edit(work)
        try:
            for name, read in list(READINGS.items()) * (CALLS // 4 if number else 0):
                assert read(work) in wanted[name], name
        finally:
            ended.append(number)

    assert in_threads(edit_or_read, pausing) == []
    assert work == states[-1]


@pytest.mark.parametrize("read", [len, aecp.Workspace.calls], ids=["len", "calls"])
def test_numbers_while_one_thread_edits(read):
    """While one thread edits, neither the length nor `calls` gets smaller for another thread."""
    work, ended = aecp.Workspace(aecp.Options(16), range(LONG)), threading.Event()

    def edit_or_read(number):
        try:
            for _ in range(0 if number else ROUNDS):
                work.overwrite(0, range(LONG))
        finally:
            if number == 0:
                ended.set()
        before = read(work)
        while not ended.is_set():
            now = read(work)
            assert before <= now
            before = now

    assert in_threads(edit_or_read) == []
    assert len(work) == LONG


def test_threads_feed():
    """Threads that feed an Encoder get the pieces that a single thread gets."""
    samples, pieces = array.array("H", drawn("fed", LONG)) * 10, []
    coder, alone = (aecp.Encoder(aecp.Options(16)) for _ in range(2))

    def feed(_):
        for _ in range(CALLS):
            pieces.append(coder.feed(samples))

    assert in_threads(feed) == []
    assert coder.count == THREADS * CALLS * len(samples)
    wanted = [alone.feed(samples) for _ in range(THREADS * CALLS)]
    assert sorted(pieces) == sorted(wanted)
    assert coder.finish() == alone.finish()


def test_one_thread_finishes():
    """A thread can finish an Encoder while others feed it: their feeds succeed or raise NotOpen."""
    samples = array.array("H", drawn("fed", LONG)) * 10
    for _ in range(12):
        coder, half = aecp.Encoder(aecp.Options(16)), threading.Event()

        def feed(_):
            for i in range(CALLS):
                fault = raised(lambda: coder.feed(samples))
                assert fault is None or isinstance(fault, aecp.NotOpen), fault
                if i == CALLS // 2:
                    half.set()

        def finish(_):
            half.wait()
            coder.finish()

        works = [finish] + [feed] * (THREADS - 1)
        assert in_threads(lambda number: works[number](number)) == []
        with pytest.raises(aecp.NotOpen):
            coder.feed(samples)


@pytest.fixture(scope="module")
def intervals():
    """A Decoder of 16 intervals of 65,536 samples, and the place of each interval by its
    samples."""
    options, length = aecp.Options(8, interval=4096), 65536
    samples = random.Random(5).randbytes(16 * length).translate(bytes(range(16)) * 16)
    places = {samples[at : at + length]: at // length for at in range(0, len(samples), length)}
    return aecp.Decoder(aecp.encode(samples, options), len(samples), options), places


def test_threads_read_intervals(intervals):
    """Each interval is returned to one of the threads that share a Decoder."""
    decoder, places = intervals
    got = []

    def read(_):
        for stored in iter(decoder.next_bytes, b""):
            got.append(places.get(bytes(stored), -1))

    for _ in range(5):
        decoder.go_to(0)
        got.clear()
        assert in_threads(read) == []
        assert sorted(got) == list(range(len(places)))


def test_threads_go_to_intervals(intervals):
    """Threads that share a Decoder can go to intervals, and read whole ones."""
    decoder, places = intervals

    def go_to(number):
        for i in range(CALLS):
            place = (number * 5 + i * 7) % (len(places) + 2)
            assert decoder.go_to(place) == min(place, len(places)) * 65536
            stored = bytes(decoder.next_bytes())
            assert not stored or stored in places

    assert in_threads(go_to) == []


def test_threads_read_short_intervals():
    """The samples that a thread gets from a shared Decoder aren't overwritten by those that the
    next thread gets."""
    options, count = aecp.Options(8, block_size=8, interval=1), THREADS * 2 * CALLS
    wanted = [number.to_bytes(8, "big") for number in range(count)]
    decoder, got = aecp.Decoder(aecp.encode(b"".join(wanted), options), 8 * count, options), []

    def read(_):
        for stored in iter(decoder.next_bytes, b""):
            got.append(bytes(stored))

    assert in_threads(read, pausing=True) == []
    assert sorted(got) == wanted
