"""What a workspace does beside a list's calls: edits that return numbers, reading, streams, and
edits that fail in the middle."""

import aecp
import pytest
from helpers import CODED, EIGHT

OPTIONS = aecp.Options(8, block_size=8, interval=2)
NAMES = ("aecp_insert", "aecp_overwrite", "aecp_remove")


class Short(aecp.Workspace):
    """A workspace that fails with NoMemory at one of its edits."""

    left = None

    def _call(self, name, *words, front=False):
        if self.left is not None and name in NAMES:
            self.left -= 1
            if self.left == -1:
                raise aecp.NoMemory(12, 0, "out of memory")
        return super()._call(name, *words, front=front)


@pytest.mark.parametrize("number", [0, 1])
@pytest.mark.parametrize(
    ("part", "new"),
    [(slice(2, 20), [100] * 9), (slice(2, 10), [100] * 9), (slice(3, 40, 2), None)],
)
def test_a_failed_edit_of_a_slice_is_undone(part, new, number):
    """If the first or second edit of a slice fails, all samples are as they were."""
    before = list(range(100))
    work = Short(aecp.Options(8, block_size=8, interval=1), before)
    work.left = number
    with pytest.raises(aecp.NoMemory, match="^out of memory$"):
        if new is None:
            del work[part]
        else:
            work[part] = new
    assert list(work) == before


@pytest.mark.parametrize(
    ("part", "new", "index"),
    [
        (slice(None, None, 2), [1, 2, 300, 4, 5], 2),
        (slice(None, None, -1), [300] + [1] * 9, 0),
        (slice(None, None, -1), [1] * 9 + [-1], 9),
        (slice(2, 4), [1, -1], 1),
        (slice(2, 4), [1, 2, 256, -1], 2),
        (slice(2, 4), [256], 0),
    ],
)
def test_the_refused_sample_of_a_slice(part, new, index):
    """A refused sample has its index among the new ones, and nothing changes."""
    work = aecp.Workspace(aecp.Options(8, block_size=8, interval=1), range(10))
    with pytest.raises(aecp.SampleRefused, match=f"^sample {index} is out of range$") as caught:
        work[part] = new
    assert (caught.value.index, list(work)) == (index, list(range(10)))


def test_a_slice_with_steps_keeps_its_length():
    """A slice with steps takes only as many samples as it has."""
    work = aecp.Workspace(OPTIONS, range(10))
    with pytest.raises(ValueError, match="^a slice with steps of 5 samples can't become 4$"):
        work[::2] = [1] * 4
    assert list(work) == list(range(10))


@pytest.mark.parametrize("place", [100, -101, 2**63, -(2**70)])
def test_places_outside(place):
    """A place outside the samples raises an IndexError with a text, and changes nothing."""
    work = aecp.Workspace(OPTIONS, range(100))
    for call in (
        lambda: work[place],
        lambda: work.__setitem__(place, 1),
        lambda: work.__delitem__(place),
        lambda: work.pop(place),
    ):
        with pytest.raises(IndexError, match=f"^there is no place {place} among 100 samples$"):
            call()
    assert list(work) == list(range(100))


def test_numbers_that_edits_return():
    """Edits return how many intervals of 16 samples they coded, and `calls` returns their sum."""
    work = aecp.Workspace(OPTIONS, range(100))
    before = work.calls()
    coded = [
        work.append(1),
        work.append(range(40)),
        work.overwrite(0, [5]),
        work.overwrite(30, [5, 6, 7]),
    ]
    assert coded == [1, 3, 1, 2]
    coded += [
        work.insert(141, 3),
        work.truncate(141),
        work.remove(140, 1),
        work.truncate(128),
        work.remove(0, 0),
    ]
    assert all(0 <= it <= 2 for it in coded[4:])
    assert work.calls() == before + sum(coded)
    assert list(work) == [5, *range(1, 30), 5, 6, 7, *range(33, 100), 1, *range(27)]


REFUSED = {
    "truncate": (lambda work: work.truncate(101), aecp.RangeRefused),
    "remove": (lambda work: work.remove(99, 2), aecp.RangeRefused),
    "remove from": (lambda work: work.remove(101, 0), aecp.RangeRefused),
    "overwrite": (lambda work: work.overwrite(99, [1, 2]), aecp.RangeRefused),
    "read": (lambda work: work.read(99, 2), aecp.RangeRefused),
    "read far": (lambda work: work.read(2**64 - 1, 2**64 - 1), aecp.RangeRefused),
    "append": (lambda work: work.append([1, 2, 256]), aecp.SampleRefused),
    "insert": (lambda work: work.insert(5, [1, 2, -1]), aecp.SampleRefused),
    "overwrite with": (lambda work: work.overwrite(5, [1, 2, 300]), aecp.SampleRefused),
    "extend": (lambda work: work.extend(iter([1, 2, 300])), aecp.SampleRefused),
}


@pytest.mark.parametrize(("edit", "kind"), REFUSED.values(), ids=REFUSED)
def test_a_refused_call_changes_nothing(edit, kind):
    """A range outside the samples, or a sample out of range, is refused with its place."""
    work = aecp.Workspace(OPTIONS, range(100))
    coded, calls = work.tobytes(), work.calls()
    with pytest.raises(kind) as caught:
        edit(work)
    assert caught.value.place == (100 if kind is aecp.RangeRefused else 2)
    assert (work.tobytes(), work.calls(), len(work)) == (coded, calls, 100)


@pytest.mark.parametrize("wrong", [-1, 2**64])
@pytest.mark.parametrize(
    ("name", "call"),
    [
        ("count", lambda work, it: work.truncate(it)),
        ("first", lambda work, it: work.remove(it, 1)),
        ("length", lambda work, it: work.remove(0, it)),
        ("first", lambda work, it: work.overwrite(it, [1])),
        ("first", lambda work, it: work.read(it, 1)),
        ("length", lambda work, it: work.read(0, it)),
    ],
)
def test_numbers_of_another_size(name, call, wrong):
    """A place or a length that doesn't fit 64 bits is refused by its name."""
    work = aecp.Workspace(OPTIONS, range(9))
    with pytest.raises(ValueError, match=rf"^{name} must be 0 to 2\^64 - 1$"):
        call(work, wrong)
    for it in (1.0, "1", True):
        with pytest.raises(TypeError, match=f"^{name} must be a whole number, not {it!r}$"):
            call(work, it)
    assert list(work) == list(range(9))


def test_a_workspace_as_samples():
    """A workspace can be appended to itself, inserted into itself and assigned to its own
    slices."""
    work, samples = aecp.Workspace(OPTIONS, range(9)), list(range(9))
    for it in (work, samples):
        it += it
        it.extend(it)
        it[3:5] = it
        it[::2] = it[::-2]
    work.insert(2, work)
    samples[2:2] = samples
    assert list(work) == samples


def test_the_samples_of_a_stream():
    """`of_coded` begins with the first samples of a stream, or with all."""
    work = aecp.Workspace.of_coded(CODED, 8, OPTIONS)
    assert (bytes(work), len(work), work.options) == (EIGHT, 8, OPTIONS)
    assert bytes(aecp.Workspace.of_coded(CODED, 5, OPTIONS)) == EIGHT[:5]
    assert bytes(aecp.Workspace.of_coded(memoryview(CODED), None, OPTIONS)) == EIGHT
    assert list(aecp.Workspace.of_coded(b"\x00\x78", None, OPTIONS)) == [7] * 8
    with pytest.raises(aecp.StreamRefused) as caught:
        aecp.Workspace.of_coded(CODED, 9, OPTIONS)
    assert caught.value.bit == 31


def test_the_stream_of_a_workspace():
    """`tobytes` returns the stream, also one that is longer than the buffer of the first try."""
    assert aecp.Workspace(OPTIONS, []).tobytes() == b"" == aecp.Workspace(OPTIONS).tobytes()
    assert aecp.Workspace(OPTIONS, list(EIGHT)).tobytes() == CODED
    long = [37 * i * i % 251 for i in range(200000)]
    with aecp.Workspace(OPTIONS, long) as work:
        coded = work.tobytes()
        assert type(coded) is bytes and len(coded) > 1 << 16
        assert list(aecp.decode_bytes(coded, len(long), OPTIONS)) == long
        assert work.tobytes() == coded
        work.truncate(8)
        assert work.tobytes() == aecp.Workspace(OPTIONS, long[:8]).tobytes()


def test_the_text_of_a_workspace():
    """`repr` shows the options and at most six samples."""
    text = f"Workspace({OPTIONS}, [0, 1, 2, 3, 4, 5"
    assert repr(aecp.Workspace(OPTIONS, range(6))) == f"{text}])"
    assert repr(aecp.Workspace(OPTIONS, range(7))) == f"{text}, .. (7 samples)])"
    assert repr(aecp.Workspace(OPTIONS)) == f"Workspace({OPTIONS}, [])"
    assert repr(Short(OPTIONS, [1])) == f"Short({OPTIONS}, [1])"


def test_what_is_read_is_the_caller_s_own():
    """`read` and slices return new arrays of 64-bit numbers."""
    work = aecp.Workspace(OPTIONS, range(9))
    for part in (work.read(2, 3), work[2:5], work[4:1:-1][::-1]):
        assert (type(part).__name__, part.typecode, list(part)) == ("array", "q", [2, 3, 4])
        part[0] = 77
    assert list(work) == list(range(9))
    assert len(work.read(9, 0)) == 0


def test_a_sample_that_is_not_there():
    """`index` and `remove` name the value that isn't among the samples."""
    work = aecp.Workspace(OPTIONS, range(9))
    for call in (lambda: work.index(77), lambda: work.remove(77)):
        with pytest.raises(ValueError, match="^77 is not among the samples$"):
            call()
    assert "3" not in work and None not in work and work.count("3") == 0 and 3.0 in work


def test_refused_options():
    """A workspace refuses options that the format doesn't have, before it takes any sample."""
    taken = iter([1, 2])
    for options, kind in ((aecp.Options(33), aecp.OptionsRefused), (None, TypeError)):
        with pytest.raises(kind):
            aecp.Workspace(options, taken)
    assert list(taken) == [1, 2]
