"""Pairs of the earlier form, FILE.aec with FILE.aec.json, and the notes of keep.sh."""

from __future__ import annotations

import json
import os
from typing import Any

import aecp
import pytest
from making import USUAL, flip, old_note, old_pair, options_of, read, samples_at, tree, walk, words_of, write
from plain_form import sha256
from running import How, command, done, refused

SAMPLES = walk(1, 3000)
STORED = USUAL.stored(SAMPLES)


def old_keep_sh(folder: str, name: str) -> str:
    coded = bytes(aecp.encode(STORED, options_of(USUAL)))
    lines = (
        f"options -n 16 -j 16 -r 4\ncount 3000\nbytes 6000\nsha256 {sha256(STORED)}\n"
        f"coded_bytes {len(coded)}\ncoded_sha256 {sha256(coded)}\n"
    )
    write(folder, name + ".aec.note", lines.encode())
    return write(folder, name + ".aec", coded)


@pytest.mark.parametrize("make", [old_pair, old_keep_sh])
def test_pairs_are_read(place: str, make: Any) -> None:
    make(place, "f", *([SAMPLES] if make is old_pair else []))
    done(place, "check", "f.aec")
    assert "1 checked, 1 sound, 0 damaged" in done(place, "check", ".").out
    assert "3000" in done(place, "info", "f.aec").out
    done(place, "back", "f.aec")
    assert read(place, "f") == STORED
    assert done(place, "back", "f.aec", "-", "--range", "5:3").raw == STORED[10:16]


@pytest.mark.parametrize("make", [old_pair, old_keep_sh])
def test_keep_makes_one_file_of_a_pair(place: str, make: Any) -> None:
    path = make(place, "f", *([SAMPLES] if make is old_pair else []))
    write(place, "f", STORED)
    ran = command(place, "keep", "f", *words_of(USUAL))
    assert ran.status == 0, ran
    left = sorted(os.listdir(place))
    assert left == ["f", "f.aec"], (left, ran)
    assert samples_at(path) == SAMPLES


@pytest.mark.parametrize("how", ["stream", "note", "note sum", "count", "sum", "cut"])
def test_damaged_pairs(place: str, how: str) -> None:
    path = old_pair(place, "f", SAMPLES)
    fields = json.loads(read(path + ".json"))
    own = fields.pop("note_sha256")
    if how == "stream":
        flip(path, 4000)
    elif how == "note":
        flip(path + ".json", 8 * 200)
    elif how == "note sum":
        write(place, "f.aec.json", json.dumps(fields).encode())
    elif how == "count":
        fields["samples"]["count"] -= 1
        write(place, "f.aec.json", old_note(fields))
    elif how == "sum":
        fields["samples"]["sha256"] = "0" * 64
        write(place, "f.aec.json", old_note(fields))
    else:
        os.truncate(path, 100)
    assert own
    before = tree(place)
    assert command(place, "check", "f.aec").status == 1
    refused(place, "back", "f.aec", "out")
    write(place, "f", STORED)
    ran = command(place, "keep", "f", *words_of(USUAL), "--remove")
    assert ran.status == 1 and read(place, "f") == STORED, ran
    os.unlink(os.path.join(place, "f"))
    assert tree(place) == before


def test_crafted_notes(place: str) -> None:
    """The notes that ended runs of the earlier command with a traceback."""
    path = old_pair(place, "f", SAMPLES)
    sound = {key: it for key, it in json.loads(read(path + ".json")).items() if key != "note_sha256"}
    state = sound["history"][0]["after"]
    changes: list[dict[str, Any]] = [
        {"samples": {**sound["samples"], "count": it}} for it in (2**64, -1, 1.5, True, None, "7", float("inf"), 10**30)
    ]
    for name in ("bits", "block_size", "interval"):
        changes += [{"options": {**sound["options"], name: it}} for it in (-1, 2**32, 2**64, 0, "x", None, 1.5)]
    changes += [{"stream": {**sound["stream"], "sha256": it}} for it in ("\0" * 64, "\udcff", 7, None, "x" * 5_000_000, "../../etc/passwd")]
    changes += [{"source": it} for it in (7, "x", True, [], {"bytes": "x"})]
    changes += [{"format": it} for it in (2, "\x1b[2J", None, [1])]
    changes += [{"written_by": "\x1b[2J"}, {"written": 7}, {"history": 7}, {"history": [7]}, {"history": [{}]}]
    changes += [{"history": [{"what": "keep", "after": state}]}, {"history": [{"what": "edit", "when": "\x1b", "by": "x", "after": state}]}]
    changes += [{"samples": {**sound["samples"], "bytes": 7}}, {"more": 1}]
    for change in changes:
        write(place, "f.aec.json", old_note({**sound, **change}))
        before = tree(place)
        for words in (["check", "f.aec"], ["info", "f.aec"], ["back", "f.aec", "-"], ["log", "f.aec"], ["check", "."]):
            ran = command(place, *words, how=How(seconds=20))
            assert ran.status in (0, 1), (change, words, ran)
            assert "\x1b" not in ran.err and len(ran.err) < 5000, (change, words)
        assert tree(place) == before, change
    for data in (b"", b"[]", b"7", b"{", b"[" * 100000, b"\xff" * 100):
        write(place, "f.aec.json", data)
        for verb in ("check", "info"):
            assert command(place, verb, "f.aec").status == 1, data[:20]


def test_pipes_and_devices_beside_a_stream(place: str) -> None:
    path = old_pair(place, "f", SAMPLES)
    os.unlink(path + ".json")
    os.mkfifo(path + ".json")
    for verb in ("check", "info", "log"):
        assert command(place, verb, "f.aec", how=How(seconds=10)).status == 1
    os.unlink(path + ".json")
    os.symlink("/dev/zero", path + ".json")
    import resource

    for verb in ("check", "info"):
        assert command(place, verb, "f.aec", how=How(limits={resource.RLIMIT_AS: 4 << 30}, seconds=10)).status == 1


def test_writing_verbs_name_keep(place: str) -> None:
    """edit and undo of a pair either make the new form or refuse it without a change."""
    old_pair(place, "f", SAMPLES)
    before = tree(place)
    ran = command(place, "edit", "f.aec", "-", given=b"overwrite 5 9\n")
    if ran.status == 1:
        assert tree(place) == before and "keep" in ran.err
    else:
        assert samples_at(os.path.join(place, "f.aec"))[5] == 9
