"""The Python of docs/LIBRARY.md, and the example aecp_szip.py beside HDF5."""

import re
import subprocess
import sys

import pytest


def test_the_python_of_the_page(numpy, checkout, tmp_path):
    """The blocks of Python in docs/LIBRARY.md run one after the other and print nothing."""
    text = (checkout / "docs" / "LIBRARY.md").read_text(encoding="utf-8")
    blocks = re.findall(r"```python\n(.*?)```", text, re.S)
    assert len(blocks) >= 3
    ended = subprocess.run(
        [sys.executable, "-c", "".join(blocks)], cwd=tmp_path, capture_output=True, text=True
    )
    assert (ended.returncode, ended.stdout, ended.stderr) == (0, "", "")


KEYS = {"compression": "szip", "compression_opts": ("nn", 8)}
# The type, shape and chunks of data sets.
SETS = [
    ("u1", (70, 33), (16, 33)),
    (">i2", (9, 20, 31), (4, 7, 31)),
    ("<i4", (40,), (40,)),
    ("<f8", (20, 30), (8, 16)),
]


@pytest.fixture
def h5py(numpy):
    """The module h5py, with an HDF5 that has szip."""
    h5py = pytest.importorskip("h5py")
    if not h5py.h5z.filter_avail(h5py.h5z.FILTER_SZIP):
        pytest.skip("HDF5 has no szip here")
    return h5py


@pytest.fixture
def shown(checkout, models, monkeypatch):
    """Runs aecp_szip.py on a file. Returns 0 and what it prints, or 1 and its refusal."""
    monkeypatch.syspath_prepend(str(checkout / "examples"))
    called = models("recipe_calls").called
    import aecp_szip

    return lambda path: called(aecp_szip.show, path, "d")


@pytest.mark.parametrize(("name", "shape", "chunks"), SETS)
def test_data_sets_with_szip(h5py, numpy, shown, tmp_path, name, shape, chunks):
    """aecp_szip.py prints the elements of data sets that HDF5 has written."""
    path = str(tmp_path / "sets.h5")
    elements = (numpy.random.default_rng(7).integers(0, 9, shape).cumsum(-1) % 100).astype(name)
    with h5py.File(path, "w") as file:
        file.create_dataset("d", data=elements, chunks=chunks, **KEYS)
    assert shown(path) == (0, f"{elements}\n")


def test_a_data_set_that_grows(h5py, numpy, shown, tmp_path):
    """Chunks that HDF5 misses if asked by place, and chunks that aren't in the file."""
    import aecp_szip

    path, elements = str(tmp_path / "sets.h5"), numpy.arange(600, dtype="<i4").reshape(20, 30)
    with h5py.File(path, "w", libver="latest") as file:
        more = {"chunks": (8, 16), "maxshape": (20, None), "fillvalue": 5, **KEYS}
        file.create_dataset("d", (20, 30), "<i4", **more)[:, :16] = elements[:, :16]
    elements[:, 16:] = 5
    with h5py.File(path, "r") as file:
        assert (aecp_szip.array_of(file["d"]) == elements).all()


def test_a_data_set_without_szip(h5py, numpy, shown, tmp_path):
    """A data set without szip is refused."""
    path = str(tmp_path / "sets.h5")
    with h5py.File(path, "w") as file:
        file.create_dataset("d", data=numpy.arange(600, dtype="<i4"))
    assert shown(path) == (1, "the data set has the filters [], not szip (4) alone")
