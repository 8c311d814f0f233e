"""Copies and pickles have samples of their own. Closed workspaces and finished encoders say so."""

import copy
import pickle

import aecp
import pytest

OPTIONS = aecp.Options(12, signed=True, block_size=8, interval=3, msb_first=True, pad=True)
WAYS = {
    "copy": copy.copy,
    "deepcopy": copy.deepcopy,
    "method": aecp.Workspace.copy,
    "pickle": lambda work: pickle.loads(pickle.dumps(work)),
}


@pytest.mark.parametrize("way", WAYS.values(), ids=WAYS)
def test_a_copy_has_samples_of_its_own(way):
    """A copy has the same samples and options; its edits and its end leave the original alone."""
    work = aecp.Workspace(OPTIONS, range(-50, 50))
    other = way(work)
    assert type(other) is aecp.Workspace and other is not work
    assert other == work and other.options == OPTIONS
    other[0] = 7
    other.truncate(3)
    assert (list(other), len(work)) == ([7, -49, -48], 100)
    del other
    assert list(work) == list(range(-50, 50))


@pytest.mark.parametrize("way", WAYS.values(), ids=WAYS)
def test_the_original_is_closed(way):
    """A copy stays as it is when the original is edited and closed."""
    work = aecp.Workspace(OPTIONS, range(100))
    other = way(work)
    work[5:90] = []
    work.close()
    assert list(other) == list(range(100))
    assert other.tobytes() == aecp.Workspace(OPTIONS, range(100)).tobytes()


@pytest.mark.parametrize("way", WAYS.values(), ids=WAYS)
def test_a_copy_of_a_subclass(way):
    """A copy of an object of a subclass is of this subclass."""
    assert type(way(Subclass(OPTIONS, [1, 2]))) is Subclass


class Subclass(aecp.Workspace):
    """A workspace of another class, by a name that pickle finds."""


@pytest.mark.parametrize("way", WAYS.values(), ids=WAYS)
def test_a_closed_workspace_has_no_copy(way):
    """A closed workspace can't be copied or pickled."""
    work = aecp.Workspace(OPTIONS, range(-50, 50))
    work.close()
    with pytest.raises(aecp.NotOpen):
        way(work)


@pytest.mark.parametrize("protocol", range(pickle.HIGHEST_PROTOCOL + 1))
def test_a_pickled_fault(protocol):
    """A fault keeps its class, its text and its members in a pickle."""
    with pytest.raises(aecp.StreamRefused) as caught:
        aecp.decode_bytes(b"", 1, OPTIONS)
    again = pickle.loads(pickle.dumps(caught.value, protocol))
    assert (type(again), again.bit, str(again)) == (aecp.StreamRefused, 0, str(caught.value))
    with pytest.raises(aecp.SampleRefused) as caught:
        aecp.edit(b"", 0, "append 1 2\nappend 3 4 5000", OPTIONS)
    again = pickle.loads(pickle.dumps(caught.value, protocol))
    assert (again.number, again.index, again.line) == (5, 2, 2)
    assert (again.text, str(again)) == (caught.value.text, str(caught.value))


@pytest.mark.parametrize("way", [copy.copy, copy.deepcopy, pickle.dumps])
def test_coders_have_no_copies(way):
    """Encoders and Decoders can't be copied or pickled."""
    for it in (aecp.Encoder(OPTIONS), aecp.Decoder(b"", 0, OPTIONS)):
        text = f"^{type(it).__name__} objects can't be copied or pickled$"
        with pytest.raises(TypeError, match=text):
            way(it)
