"""What is closed frees its memory, and says in one sentence that it isn't open."""

import gc

import aecp
import pytest
from aecp.library import LIBRARY

OPTIONS = aecp.Options(8)
CLOSED = "^the handle, coder or reader isn't open$"


@pytest.fixture
def closed(monkeypatch):
    """The names of the library's calls that close something, in the order of the calls."""
    names = []
    LIBRARY.load_now()
    for name in ("aecp_close", "aecp_coder_close", "aecp_reader_close"):
        call = getattr(LIBRARY, name)

        def close(handle, name=name, call=call):
            if handle.full:
                names.append(name)
            call(handle)

        monkeypatch.setattr(LIBRARY, name, close)
    return names


EDITS = {
    "append": lambda work: work.append(1),
    "insert": lambda work: work.insert(0, [1]),
    "overwrite": lambda work: work.overwrite(0, []),
    "truncate": lambda work: work.truncate(0),
    "remove": lambda work: work.remove(0, 0),
    "read": lambda work: work.read(0, 0),
    "tobytes": lambda work: work.tobytes(),
    "list": list,
}


@pytest.mark.parametrize("edit", EDITS.values(), ids=EDITS)
def test_a_closed_workspace(edit):
    """The calls of a closed workspace raise NotOpen. Its length is 0. It may be closed twice."""
    work = aecp.Workspace(OPTIONS, range(9))
    work.close()
    with pytest.raises(aecp.NotOpen, match=CLOSED):
        edit(work)
    assert (len(work), work.calls(), repr(work)) == (0, 0, "<closed Workspace>")
    work.close()


def test_the_block_closes():
    """The end of a with block closes the workspace, also after an exception."""
    with aecp.Workspace(OPTIONS, range(9)) as work:
        assert len(work) == 9
    assert repr(work) == "<closed Workspace>"
    with pytest.raises(KeyError), aecp.Workspace(OPTIONS, range(9)) as work:
        raise KeyError
    assert repr(work) == "<closed Workspace>"


def test_a_finished_encoder():
    """After finish, feed and finish of an Encoder raise NotOpen."""
    coder = aecp.Encoder(OPTIONS)
    coder.finish()
    with pytest.raises(aecp.NotOpen, match=CLOSED):
        coder.feed(b"\1")
    with pytest.raises(aecp.NotOpen, match=CLOSED):
        coder.finish()


def test_what_is_dropped_is_freed(closed):
    """A workspace, an Encoder and a Decoder that nobody holds free the library's memory."""
    for make, name in (
        (lambda: aecp.Workspace(OPTIONS, [1]), "aecp_close"),
        (lambda: aecp.Encoder(OPTIONS), "aecp_coder_close"),
        (lambda: aecp.Decoder(b"", 0, OPTIONS), "aecp_reader_close"),
    ):
        it = make()
        assert closed == []
        del it
        gc.collect()
        assert closed == [name]
        closed.clear()


def test_a_refused_workspace_is_freed(closed):
    """A constructor that refuses its samples frees the library's memory at once."""
    for samples, kind in (([1, 256], aecp.SampleRefused), ([1.5], TypeError), (7, TypeError)):
        with pytest.raises(kind) as caught:
            aecp.Workspace(OPTIONS, samples)
        assert closed == ["aecp_close"] and caught.value is not None
        closed.clear()


def test_closing_frees_once(closed):
    """Closing frees a workspace's memory once, and dropping the closed one frees nothing."""
    work = aecp.Workspace(OPTIONS, [1])
    work.close()
    work.close()
    del work
    gc.collect()
    assert closed == ["aecp_close"]
