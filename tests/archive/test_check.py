"""`aecp check`: it finds every damage, and nothing else."""

from __future__ import annotations

import json
import os
import random
import resource
from typing import Any, Callable

import pytest
from making import (
    FAST, USUAL, check_json, damaged_names, flip, keep, made, noise, parts_at, read, tree, walk, write,
)  # fmt: skip
from plain_form import Parts
from running import How, Hooks, command, done, refused
from test_back import FORGERIES, forged


def sealed(path: str, change: Callable[[Parts], Any]) -> None:
    parts = parts_at(path)
    change(parts)
    with open(path, "wb") as file:
        file.write(parts.sealed())


def damages(chance: random.Random) -> dict[str, Callable[[str], Any]]:
    """Returns by name each way to damage a file at a path."""

    def cut(path: str) -> None:
        os.truncate(path, chance.randrange(os.path.getsize(path)))

    def flipped(path: str, first: int, end: int) -> None:
        flip(path, chance.randrange(8 * first, 8 * end))

    ways: dict[str, Callable[[str], Any]] = {
        "flip": lambda path: flipped(path, 0, os.path.getsize(path)),
        "flip in the stream": lambda path: flipped(path, 0, len(parts_at(path).stream)),
        "flip in the foot": lambda path: flipped(path, os.path.getsize(path) - 32, os.path.getsize(path)),
        "flip behind the stream": lambda path: flipped(path, len(parts_at(path).stream), os.path.getsize(path)),
        "cut": cut,
        "empty": lambda path: os.truncate(path, 0),
        "longer": lambda path: write(os.path.dirname(path), path, read(path) + b"x"),
        "twice": lambda path: write(os.path.dirname(path), path, read(path) * 2),
        "a byte before": lambda path: write(os.path.dirname(path), path, b"x" + read(path)),
        "format": lambda path: sealed(path, lambda it: it.fields.update(format=3)),
        "no options": lambda path: sealed(path, lambda it: it.fields.pop("options")),
        "negative count": lambda path: sealed(path, lambda it: it.fields["samples"].update(count=-1)),
        "no history": lambda path: sealed(path, lambda it: it.history[0].pop("after")),
        "another last state": lambda path: sealed(path, lambda it: it.history[-1].update(after=it.history[0]["after"])),
    }
    for name in FORGERIES:
        if name != "head":  # the file was edited since, so no sum says what its head was
            ways[name] = lambda path, how=name: write(os.path.dirname(path), path, forged(parts_at(path), how))
    return ways


def test_each_damage_is_found_and_no_other(place: str, times: int) -> None:
    for trial in range(3 * times):
        chance = random.Random(trial)
        folder = os.path.join(place, str(trial))
        os.mkdir(folder)
        ways = damages(chance)
        first = keep(place, f"{trial}.raw", walk(trial, 3000) + noise(trial, 12000), USUAL)
        done(place, "edit", f"{trial}.raw.aec", "-", given=b"overwrite 5 7\n")
        for name, damage in ways.items():
            for kind in ("bad ", "sound "):
                write(folder, kind + name + ".aec", read(first))
            damage(os.path.join(folder, f"bad {name}.aec"))
        before = tree(folder)
        status, found = check_json(folder)
        bad = damaged_names(found)
        assert status == 1
        assert bad == {f"bad {name}.aec" for name in ways}, (trial, bad ^ {f"bad {name}.aec" for name in ways})
        text = command(folder, "check", ".")
        assert text.status == 1 and f"{len(ways)} damaged" in text.said
        for name in ways:
            assert f"bad {name}.aec" in text.said
            ran = command(folder, "edit", f"bad {name}.aec", "-", given=b"append 1\n")
            assert ran.status == 1, name
        assert tree(folder) == before, "nothing is written"


def test_the_sum_of_the_original_is_compared(place: str) -> None:
    """Samples, stream and history belong together, but the file that was kept had another sum."""
    path = keep(place, "f", walk(1, 3000))
    write(place, "f.aec", forged(parts_at(path), "source"))
    assert "those of the original" in refused(place, "check", "f.aec").said
    refused(place, "back", "f.aec", "out")
    assert "out" not in os.listdir(place)


def test_damaged_groups_are_named_with_their_samples(place: str) -> None:
    samples = noise(1, 60000)
    path = keep(place, "f", samples)
    groups = parts_at(path).groups
    for number in (1, 4):
        flip(path, groups[number].bit + 1000)
    status, found = check_json(place, "f.aec")
    assert status == 1
    wanted = [(groups[i].interval * 64, (groups[i + 1].interval - groups[i].interval) * 64) for i in (1, 4)]
    assert ranges_of(found) == wanted, found
    text = command(place, "check", "f.aec").said
    assert str(wanted[0][0]) in text.replace(",", ""), text


def ranges_of(found: Any) -> list[tuple[int, int]]:
    """Returns the ranges of samples in a JSON result, wherever they are."""
    if isinstance(found, dict):
        if {"first", "length"} <= set(found):
            return [(found["first"], found["length"])]
        return [it for value in found.values() for it in ranges_of(value)]
    if isinstance(found, list):
        if len(found) == 2 and all(type(it) is int for it in found):
            return [(found[0], found[1])]
        return [it for value in found for it in ranges_of(value)]
    return []


def test_a_sound_folder(place: str) -> None:
    for i in range(5):
        keep(place, f"f{i}", walk(i, 500))
    ran = done(place, "check", ".")
    assert "5 checked, 5 sound, 0 damaged" in ran.out and ran.err == ""
    status, found = check_json(place)
    assert status == 0 and found["faults"] == []


def test_what_is_not_there(place: str) -> None:
    refused(place, "check", "none")
    refused(place, "check", "none.aec")
    write(place, "plain", b"1234")
    refused(place, "check", "plain")
    write(place, "no.aec", b"1234")
    refused(place, "check", "no.aec")


def test_an_empty_folder_is_said(place: str) -> None:
    """A job whose disk isn't mounted is told that nothing was checked."""
    ran = command(place, "check", ".")
    assert "0 checked" in ran.said or "no files" in ran.said or ran.status == 1


@pytest.mark.parametrize("error", [5, 13, 116])
def test_a_file_that_cannot_be_read_is_not_sound(place: str, error: int) -> None:
    for name in "ab":
        keep(place, name, noise(1, 20000))
    hooks = Hooks(fail="read", error=error, fail_path=os.path.join(place, "a.aec"))
    ran = command(place, "check", ".", "--json", "--jobs", "1", how=How(hooks=hooks))
    assert ran.status == 1
    assert damaged_names(json.loads(ran.out)) == {"a.aec"}
    hooks = Hooks(fail="open", error=error, fail_path="a.aec")
    ran = command(place, "check", ".", "--jobs", "1", how=How(hooks=hooks))
    assert ran.status == 1 and "a.aec" in ran.said


def test_a_folder_that_cannot_be_read_is_not_passed_over(place: str, tmp_path: Any) -> None:
    for it in [tmp_path, *tmp_path.parents]:
        if str(it) not in ("/", "/tmp"):
            os.chmod(it, 0o755)
    os.chmod(place, 0o755)
    keep(place, "a", walk(1, 500))
    os.mkdir(os.path.join(place, "closed"))
    os.chmod(os.path.join(place, "closed"), 0)
    ran = command(place, "check", ".", "--jobs", "1", how=How(user=65534))
    assert ran.status == 1 and "closed" in ran.said, ran


def test_without_memory_nothing_is_called_sound(place: str) -> None:
    """Any error in one file is that file's fault."""

    def failing() -> None:
        import aecp
        from aecp.archive import _file

        def refuse(*_: Any, **__: Any) -> None:
            raise MemoryError

        for name in ("pieces", "judge_all", "bad_groups"):
            setattr(_file.ArchiveFile, name, refuse)
        aecp.decode_bytes = refuse  # type: ignore[assignment]

    keep(place, "a", walk(1, 500))
    ran = command(place, "check", "a.aec", "--jobs", "1", how=How(before=failing))
    assert ran.status == 1 and "memory" in ran.said, ran


@pytest.mark.parametrize("fault", [ValueError, RuntimeError, RecursionError, OverflowError, KeyError, AssertionError])
def test_any_exception_is_one_file_s(place: str, fault: Any) -> None:
    def failing() -> None:
        from aecp.archive import _file

        real = _file.ArchiveFile.open.__func__  # type: ignore[attr-defined]

        def opened(cls: Any, path: str, *more: Any, **named: Any) -> Any:
            if os.fspath(path).endswith("b.aec"):
                raise fault("planted")
            return real(cls, path, *more, **named)

        _file.ArchiveFile.open = classmethod(opened)  # type: ignore[assignment, method-assign]

    for name in "abc":
        keep(place, name, walk(1, 500))
    flip(os.path.join(place, "c.aec"), 900)
    ran = command(place, "check", ".", "--json", "--jobs", "1", how=How(before=failing))
    assert ran.status == 1 and damaged_names(json.loads(ran.out)) == {"b.aec", "c.aec"}, ran


def test_pipes_devices_and_links(place: str, outside: str) -> None:
    """Nothing hangs, nothing outside is read, and sound files are still checked."""
    keep(place, "a", walk(1, 500))
    os.mkfifo(os.path.join(place, "pipe.aec"))
    os.symlink("/dev/zero", os.path.join(place, "zero.aec"))
    os.symlink("a.aec", os.path.join(place, "link.aec"))
    os.symlink("nowhere", os.path.join(place, "dangling.aec"))
    os.symlink(".", os.path.join(place, "loop"))
    limits = {resource.RLIMIT_AS: 6 << 30}
    ran = command(place, "check", ".", "--jobs", "1", how=How(limits=limits, seconds=20))
    assert "1 sound" in ran.said, ran
    for name in ("pipe.aec", "zero.aec", "dangling.aec"):
        for words in (
            ["check", name], ["back", name, "out"], ["info", name], ["log", name], ["edit", name, "-"], ["undo", name],
            ["rescue", name, "out"], ["view", name, "o.png", "--width", "9"], ["export", name, "out"], ["diff", name, "a.aec"],
        ):  # fmt: skip
            ran = command(place, *words, given=b"append 1\n", how=How(limits=limits, seconds=20))
            assert ran.status in (1, 2), (words, ran)
    assert "out" not in os.listdir(place)
    assert read(outside, "file") == b"untouched"


def test_a_sparse_file_is_not_read_whole(place: str) -> None:
    path = write(place, "big.aec", b"")
    os.truncate(path, 20 << 30)
    for verb in ("check", "info", "log"):
        ran = command(place, verb, "big.aec", how=How(limits={resource.RLIMIT_AS: 4 << 30}, seconds=10))
        assert ran.status == 1


def test_check_beside_edits(place: str) -> None:
    keep(place, "f", walk(1, 30000), FAST)
    from running import start

    for number in range(25):
        running = start(place, "edit", "f.aec", "-", how=How(given=b"overwrite %d 1\n" % number))
        status, found = check_json(place, "f.aec", "--jobs", "1")
        assert (status, found["faults"]) == (0, []), found
        assert running.ended().status == 0


def test_limit(place: str) -> None:
    made(os.path.join(place, "f.aec"), [0] * 100000, FAST)
    ran = refused(place, "check", "f.aec", "--limit", "99999")
    assert "99999" in ran.said.replace(",", "")
    done(place, "check", "f.aec", "--limit", "100000")
    write(place, "g", FAST.stored([0] * 1000))
    refused(place, "keep", "g", "-n", "16", "--limit", "999")
    assert "g.aec" not in os.listdir(place)
    done(place, "keep", "g", "-n", "16", "--limit", "1000")
    refused(place, "keep", "g", "-n", "16", "--limit", "999")


def test_each_flipped_byte_behind_the_stream(place: str) -> None:
    """Index, history, trailer and foot of a file that has no source: each byte is checked."""
    path = made(os.path.join(place, "f.aec"), walk(1, 3000))
    data = read(path)
    for at in range(len(parts_at(path).stream), len(data), 3):
        name = f"{at}.aec"
        write(place, name, data)
        flip(os.path.join(place, name), 8 * at + at % 8)
    status, found = check_json(place)
    assert damaged_names(found) == {name for name in os.listdir(place) if name != "f.aec"} and status == 1
