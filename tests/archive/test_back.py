"""`aecp back`: files and folders come back bit for bit, or not at all."""

from __future__ import annotations

import os
from typing import Any

import pytest
from making import FAST, USUAL, flip, keep, leftovers, noise, parts_at, read, samples_at, tree, walk, write
from plain_form import Parts, as_packed, sha256
from running import How, Hooks, command, done, refused

SAMPLES = walk(6, 900)
DATA = USUAL.stored(SAMPLES)


def test_names_and_ranges(place: str) -> None:
    keep(place, "f", SAMPLES)
    assert done(place, "back", "f.aec", "-", "--range", "5:3").raw == DATA[10:16]
    assert done(place, "back", "f.aec", "-").raw == DATA
    refused(place, "back", "f.aec")
    assert read(place, "f") == DATA
    done(place, "back", "f.aec", "new")
    assert read(place, "new") == DATA
    done(place, "back", "f.aec", "--range", "5:3", "late")
    assert read(place, "late") == DATA[10:16]
    done(place, "back", "f.aec", "--range", "900:0", "nothing")
    assert read(place, "nothing") == b""
    for words in ("899:2", "901:0"):
        refused(place, "back", "f.aec", "wrong", "--range", words)
    for words in (f"{10**23}:1", f"1:{2**64}"):
        assert command(place, "back", "f.aec", "wrong", "--range", words).status in (1, 2)
    for words in ("899", "-1:2", "1:-2", "x:1"):
        assert command(place, "back", "f.aec", "wrong", "--range", words).status == 2
    assert "wrong" not in os.listdir(place)
    refused(place, "back", "none.aec")
    refused(place, "back", "f.aec", "none/f")


def test_ranges_of_large_files_need_only_their_groups(place: str) -> None:
    samples = noise(1, 60000)
    path = keep(place, "f", samples)
    groups = parts_at(path).groups
    flip(path, groups[2].bit + 999)
    stored = USUAL.stored(samples)
    done(place, "back", "f.aec", "end", "--range", "59000:1000")
    assert read(place, "end") == stored[-2000:]
    first = groups[2].interval * 64
    refused(place, "back", "f.aec", "bad", "--range", f"{first}:1")
    assert "bad" not in os.listdir(place)


def test_folders(place: str) -> None:
    os.makedirs(os.path.join(place, "d", "run0", "inner"))
    wanted = {}
    for i, name in enumerate(["a", "run0/b", "run0/inner/c", "run0/d e"]):
        keep(os.path.join(place, "d"), name, walk(i, 300 + i))
        wanted[name] = read(place, "d", name)
        os.unlink(os.path.join(place, "d", name))
    done(place, "back", "d")
    for name, data in wanted.items():
        assert read(place, "d", name) == data
    done(place, "back", "d", "--to", "out")
    found = tree(os.path.join(place, "out"))
    assert sorted(it for it in found.values() if isinstance(it, bytes)) == sorted(wanted.values())
    done(place, "back", "d/a.aec", "d/run0/b.aec", "--to", "some")
    found = tree(os.path.join(place, "some"))
    assert sorted(it for it in found.values() if isinstance(it, bytes)) == sorted([wanted["a"], wanted["run0/b"]])


def test_one_bad_file_of_a_folder(place: str) -> None:
    """The others come back, and the status is 1."""
    for i in range(4):
        os.unlink(keep(place, f"f{i}", walk(i, 3000))[:-4])
    flip(os.path.join(place, "f2.aec"), 4000)
    write(place, "f3", b"mine")
    ran = command(place, "back", ".")
    assert ran.status == 1 and "f2" in ran.err and "f3" in ran.err, ran
    assert read(place, "f0") == USUAL.stored(walk(0, 3000)) and read(place, "f1") == USUAL.stored(walk(1, 3000))
    assert not os.path.exists(os.path.join(place, "f2")) and read(place, "f3") == b"mine"
    assert leftovers(place) == []


def forged(parts: Parts, how: str) -> bytes:
    """Returns a file of another content, sealed again so that each CRC is right."""
    fields = parts.fields
    if how == "samples":
        fields["samples"]["sha256"] = "0" * 64
        parts.history[-1]["after"]["samples"]["sha256"] = "0" * 64
    elif how == "stream":
        fields["stream"]["sha256"] = "0" * 64
        parts.history[-1]["after"]["stream"]["sha256"] = "0" * 64
    elif how == "source":
        fields["source"]["sha256"] = "0" * 64
    elif how == "head":
        fields["source"]["head"] = as_packed(b"other")
    elif how == "bits":
        fields["options"]["bits"] = 15
    elif how == "block size":
        fields["options"]["block_size"] = 32
    elif how == "sign":
        fields["options"]["signed"] = True
    elif how == "order":
        fields["options"]["msb_first"] = True
    elif how == "count":
        fields["samples"]["count"] -= 1
        fields["samples"]["bytes"] -= 2
    elif how == "greater count":
        fields["samples"]["count"] += 700
        fields["samples"]["bytes"] += 1400
    elif how == "crc":
        parts.groups[0] = parts.groups[0]._replace(crc=parts.groups[0].crc ^ 1)
    elif how == "bit":
        parts.groups[1] = parts.groups[1]._replace(bit=parts.groups[1].bit + 1)
    elif how == "interval":
        parts.groups[1] = parts.groups[1]._replace(interval=parts.groups[1].interval - 1)
    elif how == "no groups":
        parts.groups.clear()
    elif how == "order of groups":
        parts.groups.reverse()
    return parts.sealed()


FORGERIES = [
    "samples", "stream", "head", "bits", "block size", "sign", "order", "count", "greater count", "crc", "bit", "interval", "no groups",
    "order of groups",
]  # fmt: skip


@pytest.mark.parametrize("how", FORGERIES)
def test_sums_are_compared(place: str, how: str) -> None:
    """A file whose sums don't belong together is refused by every verb that reads it, and nothing is written."""
    samples = noise(6, 20000)
    path = keep(place, "f", samples)
    write(place, "f.aec", forged(parts_at(path), how))
    before = tree(place)
    assert command(place, "check", "f.aec").status == 1, "check"
    ran = command(place, "back", "f.aec", "out")
    assert ran.status == 1 or (how == "stream" and read(place, "out") == USUAL.stored(samples)), ran
    ran = command(place, "back", "f.aec", "-")
    assert ran.status == 1 or (how == "stream" and ran.raw == USUAL.stored(samples))
    if os.path.exists(os.path.join(place, "out")):
        os.unlink(os.path.join(place, "out"))
    ran = command(place, "keep", "f", *USUAL.options(), "--remove")
    assert ran.status == 1 and tree(place) == before, "keep --remove"
    refused(place, "undo", "f.aec")
    ran = command(place, "edit", "f.aec", "-", given=b"overwrite 0 1\n")
    if ran.status == 0:  # a new index is written with each edit: a wrong one is no reason to refuse it
        assert how in ("head", "crc", "bit", "interval", "no groups", "order of groups")
        assert samples_at(path) == [1, *samples[1:]]
    else:
        assert tree(place) == before


def test_a_file_of_another_source_does_not_come_back(place: str) -> None:
    """The head and the tail of the source make other bytes than its sum says."""
    path = keep(place, "f", SAMPLES)
    parts = parts_at(path)
    parts.fields["source"]["head"] = as_packed(b"other")
    parts.fields["source"]["bytes"] += 5
    write(place, "f.aec", parts.sealed())
    ran = command(place, "back", "f.aec", "out")
    assert ran.status == 1 and not os.path.exists(os.path.join(place, "out")), ran


@pytest.mark.parametrize("refuse", [(), ("renameat2",), ("renameat2", "link", "linkat")], ids=len)
def test_never_over_a_file_that_appears_meanwhile(place: str, refuse: tuple[str, ...]) -> None:
    """A file of the same name appears before each call that writes: it stays, and the run is refused."""
    path = keep(place, "f", SAMPLES)
    os.unlink(path[:-4])
    out = os.path.join(place, "out")
    for number in range(1, 60):
        for name in (out, out + ".made"):
            if os.path.lexists(name):
                os.unlink(name)
        hooks = Hooks(refuse=refuse, error=22, make=out, make_at=number)
        ran = command(place, "back", "f.aec", "out", how=How(hooks=hooks))
        if not os.path.exists(out + ".made"):
            assert ran.status == 0 and read(out) == DATA
            break
        assert read(out) == b"mine" and ran.status == 1, f"call {number}: {ran}"
    assert number > 4 and leftovers(place) == []


@pytest.mark.parametrize("names", [("renameat2",), ("renameat2", "link", "linkat")])
def test_never_over_without_the_calls_of_the_system(place: str, names: tuple[str, ...]) -> None:
    keep(place, "f", SAMPLES)
    write(place, "f", b"mine")
    ran = command(place, "back", "f.aec", how=How(hooks=Hooks(refuse=names, error=22)))
    assert ran.status == 1 and read(place, "f") == b"mine" and leftovers(place) == []
    os.symlink("nowhere", os.path.join(place, "g"))
    ran = command(place, "back", "f.aec", "g", how=How(hooks=Hooks(refuse=names, error=22)))
    assert ran.status == 1 and sorted(os.listdir(place)) == ["f", "f.aec", "g"]


def test_a_full_disk(place: str) -> None:
    path = keep(place, "f", noise(1, 9000))
    os.unlink(path[:-4])
    for room in (0, 1, 17000, 17999):
        ran = command(place, "back", "f.aec", how=How(hooks=Hooks(room=room)))
        assert ran.status == 1 and "space" in ran.err
        assert os.listdir(place) == ["f.aec"]


def test_a_broken_pipe(place: str) -> None:
    import subprocess
    import sys

    keep(place, "f", noise(1, 60000))
    line = f'"{sys.executable}" -m aecp back f.aec - | true'
    assert subprocess.run(["sh", "-c", line], cwd=place, capture_output=True, check=False).stderr == b""


def test_an_edited_file_with_a_head_comes_back(place: str) -> None:
    whole = b"23 bytes of a header...tail"[:23] + DATA
    write(place, "f", whole)
    done(place, "keep", "f", "-n", "16", "--skip", "23", "--anyway", "--remove")
    done(place, "edit", "f.aec", "-", given=b"overwrite 3 77\n")
    ran = done(place, "back", "f.aec", "out")
    got = read(place, "out")
    changed = bytearray(whole)
    changed[23 + 6 : 23 + 8] = (77).to_bytes(2, "little")
    assert got == bytes(changed) or got == bytes(changed[23:]), ran
    assert sha256(DATA) == parts_at(os.path.join(place, "f.aec")).history[0]["after"]["samples"]["sha256"]


def test_an_open_file_of_a_group_cut_in_two(place: str) -> None:
    """`back` of a file whose end is cut off says so."""
    path = keep(place, "f", noise(1, 20000), FAST)
    size = os.path.getsize(path)
    for cut in (1, 31, 32, 33, 500, size // 2, size - 1, size):
        data = read(path)[: size - cut]
        write(place, "cut.aec", data)
        refused(place, "back", "cut.aec", "out")
        assert not os.path.exists(os.path.join(place, "out"))


def test_jobs_of_back(place: str) -> None:
    for i in range(9):
        os.unlink(keep(place, f"f{i}", walk(i, 3000))[:-4])
    done(place, "back", ".", "--to", "out")
    assert len(os.listdir(os.path.join(place, "out"))) == 9


def test_any_file_may_be_given_twice(place: str, tmp_path: Any) -> None:
    keep(place, "f", SAMPLES)
    os.unlink(os.path.join(place, "f"))
    ran = command(place, "back", "f.aec", "f.aec", "--to", "out")
    assert read(place, "out", "f") == DATA and ran.status in (0, 1)
