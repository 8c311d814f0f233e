"""The history: its growth, `log`, `forget`, and histories that somebody made up."""

from __future__ import annotations

import json
import os
import random
from typing import Any

import pytest
from making import FAST, USUAL, flip, keep, leftovers, noise, parts_at, read, samples_at, sound_parts, walk, write
from plain_form import as_packed, script_of
from running import command, done, refused
from lib.settings import Settings

SENSOR = Settings(bits=16, block_size=16, interval=128)


def test_growth_is_bounded(place: str, times: int) -> None:
    """Edits of the same 3,000 pixels in 256 KiB: after 100 the file has at most 1.5 times the bytes of its stream."""
    path = keep(place, "f", walk(1, 1 << 17), SENSOR)
    places = sorted(random.Random(1).sample(range(1 << 17), 3000))
    script = b"".join(b"overwrite %d %d\n" % (at, at % 4096) for at in places)
    for _ in range(100 if times > 1 else 8):
        done(place, "edit", "f.aec", "-", given=script)
    size, stream = os.path.getsize(path), len(parts_at(path).stream)
    assert size <= 1.5 * stream, (size, stream)


def test_the_least_inverse_is_taken(place: str) -> None:
    """An inverse is a script, a difference or the stream, whichever is least."""
    samples = walk(1, 30000)
    path = keep(place, "f", samples, FAST)
    stream = parts_at(path).stream
    done(place, "edit", "f.aec", "-", given=b"truncate 0\n")
    inverse = parts_at(path).history[-1]["inverse"]
    assert size_of(inverse) < 1.1 * len(stream) * 4 / 3 + 200
    done(place, "undo", "f.aec")
    done(place, "edit", "f.aec", "-", given=b"append 1 2 3\n")
    assert size_of(parts_at(path).history[-1]["inverse"]) < 200
    done(place, "undo", "f.aec")
    done(place, "edit", "f.aec", "-", given=b"remove 0 10\n")
    assert size_of(parts_at(path).history[-1]["inverse"]) < 200, "a script of one line, though all later bits moved"
    done(place, "undo", "f.aec")
    assert parts_at(path).stream == stream
    # All samples of one interval change at random: the difference of the streams is less than a script of numbers.
    done(place, "edit", "f.aec", "-", given=b"overwrite 4096 " + b" ".join(b"%d" % x for x in noise(1, 2048)) + b"\n")
    assert size_of(parts_at(path).history[-1]["inverse"]) < 4000
    done(place, "undo", "f.aec")
    assert parts_at(path).stream == stream


def size_of(inverse: Any) -> int:
    return len(json.dumps(inverse))


def test_equal_scripts_are_stored_once(place: str) -> None:
    path = keep(place, "f", walk(1, 30000), FAST)
    script = b"".join(b"overwrite %d %d\n" % (at, at % 4096) for at in range(0, 30000, 7))
    done(place, "edit", "f.aec", "-", given=script)
    one = os.path.getsize(path)
    done(place, "undo", "f.aec")
    done(place, "edit", "f.aec", "-", given=script)
    assert parts_at(path).history[-1]["script"] == {"same": 1}
    assert os.path.getsize(path) < one + 2500
    assert done(place, "log", "f.aec", "--script", "3").out == script.decode()
    assert done(place, "log", "f.aec", "--script", "1").out == script.decode()
    done(place, "undo", "f.aec")
    assert samples_at(path) == walk(1, 30000)


def test_log(place: str) -> None:
    keep(place, "f", walk(1, 500))
    done(place, "edit", "f.aec", "-", given=b"overwrite 5 9\n")
    done(place, "undo", "f.aec")
    done(place, "edit", "f.aec", "-", given=b"append 1 2\n")
    lines = done(place, "log", "f.aec").out.splitlines()
    for word, line in zip(("keep", "edit", "undo", "edit"), [it for it in lines if it.strip()]):
        assert word in line, lines
    found = json.loads(done(place, "log", "f.aec", "--json").out)
    assert [it in json.dumps(found) for it in ("keep", "edit", "undo")] == [True] * 3
    assert done(place, "log", "f.aec", "--script", "1").out == "overwrite 5 9\n"
    for number in ("0", "2", "4", "99", "-1"):
        assert command(place, "log", "f.aec", "--script", number).status in (1, 2), number


@pytest.mark.parametrize("keep_count", [0, 1, 2, 3, 5, 50])
def test_forget(place: str, keep_count: int) -> None:
    samples = walk(1, 3000)
    path = keep(place, "f", samples)
    states = [samples]
    for number in range(4):
        script = b"overwrite %d 9\nappend %d\n" % (number, number)
        done(place, "edit", "f.aec", "-", given=script)
        states.append(samples_at(path))
    before = parts_at(path)
    command(place, "forget", "f.aec", "--keep", str(keep_count))
    after = sound_parts(path)
    assert after.stream == before.stream and after.fields["source"] == before.fields["source"]
    if keep_count >= 5:
        assert after.history == before.history
    possible = min(keep_count, 4)
    for number in range(possible):
        done(place, "undo", "f.aec")
        assert samples_at(path) == states[3 - number]
    if possible < 4:
        refused(place, "undo", "f.aec")
    assert sound_parts(path).history[0]["what"] in ("forget", "keep")
    assert leftovers(place) == []


def test_forget_twice_counts_all(place: str) -> None:
    path = keep(place, "f", walk(1, 3000))
    for number in range(4):
        done(place, "edit", "f.aec", "-", given=b"overwrite %d 9\n" % number)
    done(place, "forget", "f.aec", "--keep", "3")
    dropped = sound_parts(path).history[0]["entries"]
    done(place, "forget", "f.aec", "--keep", "1")
    parts = sound_parts(path)
    assert [it["what"] for it in parts.history] == ["forget", "edit"]
    assert parts.history[0]["entries"] == 4 and dropped == 2
    assert script_of(parts, 1) == b"overwrite 3 9\n"


def test_forget_keeps_scripts_that_later_entries_need(place: str) -> None:
    """An entry that says {"same": K} gets the script itself when K is forgotten."""
    samples = walk(1, 3000)
    path = keep(place, "f", samples)
    done(place, "edit", "f.aec", "-", given=b"overwrite 1 9\n" * 50)
    done(place, "undo", "f.aec")
    done(place, "edit", "f.aec", "-", given=b"overwrite 1 9\n" * 50)
    done(place, "forget", "f.aec", "--keep", "1")
    parts = sound_parts(path)
    assert script_of(parts, len(parts.history) - 1) == b"overwrite 1 9\n" * 50
    done(place, "undo", "f.aec")
    assert samples_at(path) == samples


def changed(path: str, change: Any) -> None:
    parts = parts_at(path)
    change(parts.history)
    with open(path, "wb") as file:
        file.write(parts.sealed())


def pixels(count: int) -> dict[str, Any]:
    return {"pixels": {"count": count, "gaps": "", "values": ""}}


def undo_of(entry: dict[str, Any], edit: int) -> dict[str, Any]:
    """Returns an entry that says that an edit was undone, with the state after another entry."""
    return {"what": "undo", "edit": edit, **{name: entry[name] for name in ("when", "by", "before", "after")}}


FORGERIES = {
    "same as a later one": lambda it: it[1].update(script={"same": 2}),
    "same as itself": lambda it: it[1].update(script={"same": 1}),
    "same as none": lambda it: it[1].update(script={"same": 99}),
    "same as a keep": lambda it: it[1].update(script={"same": 0}),
    "same is a bool": lambda it: it[2].update(script={"same": True}),
    "same is negative": lambda it: it[2].update(script={"same": -2}),
    "a script that is a number": lambda it: it[1].update(script=7),
    "a script that is no base64": lambda it: it[1].update(script="!!!!"),
    "a script that is no zlib": lambda it: it[1].update(script="AAAA"),
    "an inverse that is a number": lambda it: it[2].update(inverse=7),
    "an inverse of no kind": lambda it: it[2].update(inverse={"other": "AAAA"}),
    "front past the end": lambda it: it[2].update(inverse={"difference": {"front": 2**63, "end": 0, "middle": as_packed(b"")}}),
    "front negative": lambda it: it[2].update(inverse={"difference": {"front": -1, "end": 0, "middle": as_packed(b"")}}),
    "front and end overlap": lambda it: it[2].update(inverse={"difference": {"front": 500, "end": 10**6, "middle": as_packed(b"")}}),
    "values that don't decode": lambda it: it[2].update(inverse={"values": ""}),
    "values that are a number": lambda it: it[2].update(inverse={"values": 7}),
    "values and more": lambda it: it[2].update(inverse={"values": "", "script": ""}),
    "values of a script that inserts": lambda it: it[2].update(script=as_packed(b"insert 0 1\n"), inverse={"values": "AAAA"}),
    "values of a script that doesn't fit": lambda it: it[2].update(script=as_packed(b"overwrite 9999 1\n"), inverse={"values": "AAAA"}),
    "pixels that don't decode": lambda it: it[2].update(script=pixels(1), inverse={"values": "AAAA"}),
    "pixels without gaps": lambda it: it[2].update(script={"pixels": {"count": 1, "values": "AAAA"}}),
    "no pixels": lambda it: it[2].update(script=pixels(0)),
    "too many pixels": lambda it: it[2].update(script=pixels(2**32)),
    "a shape of other samples": lambda it: it[2].update(shape=[3, 999]),
    "a shape that is a text": lambda it: it[2].update(shape="30x100"),
    "an undo of no edit": lambda it: it.append(undo_of(it[2], 0)),
    "an undo of an edit that isn't undone": lambda it: it.append(undo_of(it[2], 2)),
    "an undo of itself": lambda it: it.append(undo_of(it[2], 3)),
    "no list": lambda it: it.clear(),
    "an entry more": lambda it: it.append(dict(it[2])),
    "an unknown entry": lambda it: it.append({"what": "other", "when": it[0]["when"], "by": it[0]["by"]}),
    "a field more": lambda it: it[0].update(more=1),
    "a time of another form": lambda it: it[0].update(when="yesterday"),
    "a control character": lambda it: it[0].update(by="aecp \x1b[2J"),
    "a long text": lambda it: it[0].update(by="aecp " + "x" * 5_000_000),
    "infinity": lambda it: it[1].update(samples_changed=float("inf")),
    "a float": lambda it: it[1].update(samples_changed=1.0),
    "states that don't follow": lambda it: it[2]["before"]["stream"].update(sha256="2" * 64),
    "upper case": lambda it: it[0]["after"]["stream"].update(sha256=it[0]["after"]["stream"]["sha256"].upper()),
    "NUL": lambda it: it[0]["after"]["stream"].update(sha256="\0" * 64),
    "surrogates": lambda it: it[0].update(when="\udcff"),
}


@pytest.mark.parametrize("name", FORGERIES)
def test_forged_histories(place: str, name: str) -> None:
    """No verb shows a traceback, a control character or a long text; none changes the file, or undo makes what its sum says."""
    path = keep(place, "f", walk(1, 3000))
    done(place, "edit", "f.aec", "-", given=b"overwrite 1 9\n")
    done(place, "edit", "f.aec", "-", given=b"overwrite 2 9\n")
    sound = parts_at(path)
    changed(path, FORGERIES[name])
    before = read(path)
    for words in (["check", "f.aec"], ["log", "f.aec"], ["log", "f.aec", "--script", "1"], ["info", "f.aec"], ["undo", "f.aec"]):
        ran = command(place, *words)
        assert ran.status in (0, 1), (words, ran)
        assert not any(ord(it) < 32 and it not in "\n\t" for it in ran.said) and len(ran.said) < 20000, words
        if words[0] == "undo" and ran.status == 0:
            first = sound.history[1]["after"]["stream"]["sha256"]
            assert sound_parts(path).fields["stream"]["sha256"] == first
        else:
            assert read(path) == before, words
    assert leftovers(place) == []


FOUND_BY_UNDO = {
    "front past the end", "front and end overlap", "values that don't decode", "values of a script that inserts",
    "values of a script that doesn't fit", "pixels that don't decode",
}  # fmt: skip
HARMLESS = {"states that don't follow", "no list", "an entry more", "a script that is no zlib"}


@pytest.mark.parametrize("name", sorted(set(FORGERIES) - HARMLESS))
def test_forged_histories_are_found_by_check(place: str, name: str) -> None:
    path = keep(place, "f", walk(1, 3000))
    done(place, "edit", "f.aec", "-", given=b"overwrite 1 9\n")
    done(place, "edit", "f.aec", "-", given=b"overwrite 2 9\n")
    changed(path, FORGERIES[name])
    if name in FOUND_BY_UNDO:
        refused(place, "undo", "f.aec")
        return
    assert command(place, "check", "f.aec").status == 1


def test_a_bomb_in_the_history(place: str) -> None:
    import zlib

    path = keep(place, "f", walk(1, 300))
    parts = parts_at(path)
    parts.history = zlib.compress(b"[" + b" " * (200 << 20) + b"]", 1)  # type: ignore[assignment]
    write(place, "f.aec", parts.sealed())
    for verb in ("check", "log", "info", "undo"):
        ran = command(place, verb, "f.aec")
        assert ran.status in (0, 1) and (verb != "check" or ran.status == 1), (verb, ran)
    assert grown_by(lambda: command(place, "check", "f.aec")) < 160 << 10


def grown_by(work: Any) -> int:
    """Returns the most memory of a child, in KiB, above that of this process."""
    import resource

    with open("/proc/self/statm", encoding="ascii") as file:
        own = int(file.read().split()[1]) * 4
    work()
    return int(resource.getrusage(resource.RUSAGE_CHILDREN).ru_maxrss) - own


def test_info(place: str) -> None:
    keep(place, "f", walk(1, 500))
    done(place, "edit", "f.aec", "-", given=b"overwrite 5 9\n")
    ran = done(place, "info", "f.aec")
    for word in ("500", "-n 16", "-j 16", "-r 4"):
        assert word in ran.out, ran.out
    found = json.loads(done(place, "info", "f.aec", "--json").out)
    assert "500" in json.dumps(found)
    ran = command(place, "info", "f.aec", "none.aec")
    assert ran.status == 1 and "500" in ran.out
    refused(place, "info", "none.aec")
    assert USUAL.bits == 16


def test_a_damaged_history_costs_no_samples(place: str) -> None:
    """`check` names it, `rescue` and aecp.open give all samples, and a new `forget` or `edit` doesn't hide it."""
    import aecp

    samples = walk(1, 3000)
    path = keep(place, "f", samples)
    parts = parts_at(path)
    at = len(parts.stream) + 16 * len(parts.groups)
    flip(path, 8 * at + 100)
    assert "history" in refused(place, "check", "f.aec").said
    ran = command(place, "back", "f.aec", "out")
    assert ran.status == 1 or read(place, "out") == USUAL.stored(samples)
    command(place, "rescue", "f.aec", "rescued")
    assert read(place, "rescued") == USUAL.stored(samples)
    with aecp.open(path) as file:
        assert list(file) == samples
    before = read(path)
    for words in (["edit", "f.aec", "-"], ["undo", "f.aec"], ["forget", "f.aec", "--keep", "0"]):
        refused(place, *words, given=b"append 1\n")
        assert read(path) == before
    done(place, "keep", "f", *USUAL.options(), "--repair")
    repaired = sound_parts(path)
    assert repaired.stream == parts.stream and [it["what"] for it in repaired.history] == ["keep"]
    assert repaired.history[0]["after"] == parts.history[0]["after"]


def test_forget_moves_the_places_of_undone_edits(place: str) -> None:
    path = keep(place, "f", walk(1, 3000))
    for number in range(3):
        done(place, "edit", "f.aec", "-", given=b"overwrite %d 9\n" % number)
    done(place, "undo", "f.aec")
    done(place, "edit", "f.aec", "-", given=b"overwrite 7 9\n")
    done(place, "forget", "f.aec", "--keep", "3")
    parts = sound_parts(path)
    history = parts.history
    assert [it["what"] for it in history] == ["forget", "edit", "undo", "edit"]
    assert history[2]["edit"] == 1 and history[1]["inverse"] is None
    assert script_of(parts, 1) == b"overwrite 2 9\n"
    done(place, "forget", "f.aec", "--keep", "2")
    history = sound_parts(path).history
    assert [it["what"] for it in history] == ["forget", "undo", "edit"] and history[1]["edit"] is None
    done(place, "undo", "f.aec")
    refused(place, "undo", "f.aec")
