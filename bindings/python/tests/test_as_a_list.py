"""A workspace does what a list does: random calls on both return the same, or raise the same kind
of exception, and leave the same samples."""

import array
from collections.abc import MutableSequence

import aecp
import pytest
from helpers import raised
from hypothesis import settings
from hypothesis import strategies as st
from hypothesis.stateful import RuleBasedStateMachine, initialize, rule

STEPS = st.sampled_from([None, None, None, 1, 2, 3, -1, -2, -3])
FAR = 10**9


class Machine(RuleBasedStateMachine):
    """A workspace beside a list."""

    def __init__(self):
        super().__init__()
        self.work, self.list = None, []

    @initialize(data=st.data())
    def begin(self, data):
        self.options = aecp.Options(
            data.draw(st.sampled_from([4, 8, 12])),
            block_size=8,
            interval=data.draw(st.integers(1, 3)),
            signed=data.draw(st.booleans()),
        )
        self.samples = st.integers(self.options.least, self.options.most)
        self.list = data.draw(st.lists(self.samples, max_size=60))
        self.work = aecp.Workspace(self.options, self.list)

    def both(self, call, returns=True):
        """Makes a call on both. Compares what each returns (except edits, which return a number if
        they are a workspace's), or which exception it raises."""
        outcomes = []
        for it in (self.work, self.list):
            out = []
            fault = raised(lambda: out.append(call(it)))
            outcomes.append(type(fault) if fault is not None else out[0] if returns else None)
        assert outcomes[0] == outcomes[1]
        assert list(self.work) == self.list
        assert len(self.work) == len(self.list)

    def place(self, data):
        """Draws a place, also one outside the samples."""
        return data.draw(st.integers(-len(self.list) - 2, len(self.list) + 1))

    def key(self, data):
        """Draws a slice, also with ends outside the samples."""
        ends = st.none() | st.integers(-len(self.list) - 2, len(self.list) + 2)
        return slice(data.draw(ends), data.draw(ends), data.draw(STEPS))

    def value(self, data):
        """Draws a sample: one that is there, if there is one, or another."""
        return data.draw(st.sampled_from(self.list) | self.samples if self.list else self.samples)

    def new(self, data, most=9):
        return data.draw(st.lists(self.samples, max_size=most))

    @rule(data=st.data())
    def get_slice(self, data):
        key = self.key(data)
        self.both(lambda it: list(it[key]))

    @rule(data=st.data())
    def set_slice(self, data):
        key, new = self.key(data), self.new(data, 20)
        self.both(lambda it: it.__setitem__(key, new))

    @rule(data=st.data())
    def set_slice_to_as_many(self, data):
        key = self.key(data)
        count = len(self.list[key])
        new = data.draw(st.lists(self.samples, min_size=count, max_size=count))
        self.both(lambda it: it.__setitem__(key, new))

    @rule(data=st.data())
    def delete_slice(self, data):
        key = self.key(data)
        self.both(lambda it: it.__delitem__(key))

    @rule(data=st.data())
    def get(self, data):
        place = self.place(data)
        self.both(lambda it: it[place])

    @rule(data=st.data())
    def set(self, data):
        place, value = self.place(data), self.value(data)
        self.both(lambda it: it.__setitem__(place, value))

    @rule(data=st.data())
    def delete(self, data):
        place = self.place(data)
        self.both(lambda it: it.__delitem__(place))

    @rule(data=st.data(), times=st.sampled_from([1, 1, 2, FAR]))
    def insert(self, data, times):
        place, value = self.place(data) * times, self.value(data)
        self.both(lambda it: it.insert(place, value), returns=False)

    @rule(data=st.data())
    def append(self, data):
        value = self.value(data)
        self.both(lambda it: it.append(value), returns=False)

    @rule(data=st.data())
    def extend(self, data):
        new = self.new(data, 20)
        self.both(lambda it: it.extend(new))

    @rule(data=st.data())
    def add(self, data):
        new = self.new(data)
        self.both(lambda it: it.__iadd__(new) is it)

    @rule(data=st.data(), has_place=st.booleans())
    def pop(self, data, has_place):
        words = [self.place(data)] * has_place
        self.both(lambda it: it.pop(*words))

    @rule(data=st.data(), count=st.integers(0, 2))
    def index(self, data, count):
        value, words = self.value(data), [self.place(data) for _ in range(count)]
        self.both(lambda it: it.index(value, *words))

    @rule(data=st.data())
    def count(self, data):
        value = self.value(data)
        self.both(lambda it: it.count(value))

    @rule(data=st.data())
    def remove(self, data):
        value = self.value(data)
        self.both(lambda it: it.remove(value), returns=False)

    @rule(data=st.data())
    def contains(self, data):
        value = self.value(data)
        self.both(lambda it: value in it)

    @rule()
    def reverse(self):
        self.both(lambda it: it.reverse())

    @rule()
    def reverse_iterated(self):
        self.both(lambda it: list(reversed(it)))

    @rule()
    def is_equal(self):
        """A workspace equals a list, a tuple, an array and a workspace of the same samples."""
        samples = self.list
        equal = [samples, tuple(samples), array.array("q", samples), self.work.copy()]
        assert all(self.work == it and it == self.work for it in equal)
        assert self.work != [*samples, 1] and self.work != [*samples[:-1], None]
        assert self.work != aecp.Workspace(self.options, [*samples, 1])

    @rule()
    def code(self):
        """The stream is that of a workspace that was made with these samples."""
        assert self.work.tobytes() == aecp.Workspace(self.options, self.list).tobytes()

    @rule(data=st.data())
    def refuse(self, data):
        """A sample out of range is refused with its index, and nothing changes."""
        key = self.key(data)
        key = slice(key.start, key.stop)
        wrong = data.draw(st.sampled_from([self.options.least - 1, self.options.most + 1]))
        new = self.new(data, 20)
        with pytest.raises(
            aecp.SampleRefused, match=f"^sample {len(new)} is out of range$"
        ) as caught:
            self.work[key] = [*new, wrong, 0, wrong]
        assert caught.value.index == len(new)
        assert list(self.work) == self.list

    def teardown(self):
        if self.work is not None:
            self.is_equal()
            self.code()
            self.both(lambda it: it.clear())
            self.work.close()


Machine.TestCase.settings = settings()
TestAsAList = Machine.TestCase


def test_it_is_a_sequence():
    """A workspace is a MutableSequence, and no key of a dict."""
    work = aecp.Workspace(aecp.Options(8))
    assert isinstance(work, MutableSequence)
    with pytest.raises(TypeError, match="unhashable"):
        hash(work)


@pytest.mark.parametrize(
    "other", [b"\1\2", bytearray(b"\1\2"), "12", memoryview(b"\1\2"), {1, 2}, None]
)
def test_it_equals_no_bytes(other):
    """A workspace doesn't equal bytes, text or a set."""
    assert aecp.Workspace(aecp.Options(8), [1, 2]) != other


@pytest.mark.parametrize("key", [1.0, "1", None, (1, 2), slice("a", None), slice(None, None, 0)])
def test_keys_that_a_list_refuses(key):
    """Keys that a list refuses raise the same kind of exception, and change nothing."""
    work, samples = aecp.Workspace(aecp.Options(8), range(9)), list(range(9))
    for call in (
        lambda it: it[key],
        lambda it: it.__setitem__(key, [1]),
        lambda it: it.__delitem__(key),
    ):
        assert type(raised(lambda: call(work))) is type(raised(lambda: call(samples))) is not None
    assert list(work) == samples
