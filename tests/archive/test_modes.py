"""Modes, owners and times of the files that a run makes."""

from __future__ import annotations

import os
from pathlib import Path

import pytest
from making import USUAL, keep, read, sound_parts, walk, words_of, write
from running import How, command, done

DATA = USUAL.stored(walk(1, 500))


@pytest.mark.parametrize("mask", [0o077, 0o022, 0o002])
def test_new_files_have_the_mode_that_the_umask_leaves(place: str, mask: int) -> None:
    def masked() -> None:
        os.umask(mask)

    path = keep(place, "f", walk(1, 500))
    os.chmod(path, 0o666)
    for words in (["back", "f.aec", "a"], ["rescue", "f.aec", "b", "--ranges", "c"], ["export", "f.aec", "d"]):
        done(place, *words, how=How(before=masked))
    for name in "abcd":
        assert os.stat(os.path.join(place, name)).st_mode & 0o777 == 0o666 & ~mask, name
    os.chmod(os.path.join(place, "f"), 0o666)
    done(place, "keep", "f", *words_of(USUAL), "--anyway", "--to", "to", how=How(before=masked))
    assert os.stat(os.path.join(place, "to", "f.aec")).st_mode & 0o777 == 0o666 & ~mask


def test_a_private_file_comes_back_private(place: str) -> None:
    path = keep(place, "f", walk(1, 500))
    os.chmod(path, 0o600)
    done(place, "back", "f.aec", "out")
    assert os.stat(os.path.join(place, "out")).st_mode & 0o777 == 0o600


def test_an_original_comes_back_with_its_time(place: str) -> None:
    """So a later `keep` needn't read it. Samples that were edited are of now."""
    path = write(place, "f", DATA)
    earlier = 10**18 + 123_456_789
    os.utime(path, ns=(earlier, earlier))
    done(place, "keep", "f", *words_of(USUAL), "--anyway", "--remove")
    done(place, "back", "f.aec")
    assert os.stat(path).st_mtime_ns == earlier and read(path) == DATA
    done(place, "edit", "f.aec", "-", given=b"overwrite 5 9\n")
    done(place, "back", "f.aec", "edited")
    assert os.stat(os.path.join(place, "edited")).st_mtime_ns > earlier + 10**17


@pytest.mark.parametrize("seconds", [-(2**31), 0, 2**33, 2**33 + 2**32])
def test_any_time_of_an_original_is_kept(place: str, seconds: int) -> None:
    """Some file systems have times after the year 2262, which 64 bits of nanoseconds can't name."""
    path = write(place, "f", DATA)
    os.utime(path, (seconds, seconds))
    if os.stat(path).st_mtime != seconds:
        pytest.skip("this file system has no such times")
    done(place, "keep", "f", *words_of(USUAL), "--anyway", "--remove")
    assert sound_parts(path + ".aec").fields["source"]["mtime_ns"] == min(seconds * 10**9, 2**63 - 1)
    done(place, "check", "f.aec")
    done(place, "back", "f.aec")
    assert read(path) == DATA
    assert "1 kept already" in done(place, "keep", "f", *words_of(USUAL), "--anyway").out


@pytest.mark.skipif(os.geteuid() != 0, reason="only root becomes another user")
def test_a_file_that_its_owner_may_only_read_is_edited(tmp_path: Path) -> None:
    """The right to write in the folder is enough, as for a rename."""
    for folder in (tmp_path, *tmp_path.parents):
        if str(folder) not in ("/", "/tmp"):
            os.chmod(folder, 0o755)
    path = keep(str(tmp_path), "f", walk(1, 500))
    os.chmod(tmp_path, 0o777)
    os.chown(path, 65534, 65534)
    os.chmod(path, 0o444)
    ran = command(str(tmp_path), "edit", "f.aec", "-", how=How(b"append 7\n", user=65534))
    assert ran.status == 0 and os.stat(path).st_mode & 0o777 == 0o444, ran
