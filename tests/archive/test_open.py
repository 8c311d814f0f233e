"""`aecp.open`: ranges of damage, pickles of files that change, and how much it keeps in memory."""

from __future__ import annotations

import os
import pickle
from typing import Any

import aecp
import pytest
from making import flip, made, noise, parts_at, walk
from running import done


def test_bad_ranges_that_touch_are_one(tmp_path: Any) -> None:
    """Neighbours among the damaged groups are one range, and others are ranges of their own."""
    path = made(str(tmp_path / "f.aec"), noise(1, 60000))
    groups = parts_at(path).groups
    starts = [it.interval * 64 for it in groups]
    for number in (0, 1, 2, 5):
        flip(path, groups[number].bit + 5000)
    with aecp.open(path) as file:
        assert [tuple(it) for it in file.bad_ranges()] == [(0, starts[3]), (starts[5], starts[6] - starts[5])]


def test_a_pickle_of_other_samples_is_refused(tmp_path: Any) -> None:
    """A dask worker that opens the file after an edit says so."""
    from aecp.archive import Refused

    path = made(str(tmp_path / "f.aec"), walk(1, 500))
    with aecp.open(path) as file:
        pickled = pickle.dumps(file)
    pickle.loads(pickled).close()
    done(str(tmp_path), "edit", "f.aec", "-", given=b"overwrite 5 9\n")
    with pytest.raises(Refused):
        pickle.loads(pickled)
    done(str(tmp_path), "undo", "f.aec")
    pickle.loads(pickled).close()


def test_decoded_groups_that_are_kept_are_few(tmp_path: Any) -> None:
    """Parts of 1,000 groups are read, and at most 8 MiB of decoded samples stay in memory."""
    path = str(tmp_path / "f.aec")
    with aecp.create(path, aecp.Options(16)) as file:
        file.write(os.urandom(20 << 20))
    with aecp.open(path) as file:
        for first in range(0, len(file), 5000):
            file[first : first + 5]
        assert 4 << 20 < sum(map(len, file._kept.values())) <= 8 << 20
