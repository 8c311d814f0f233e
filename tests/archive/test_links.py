"""Links that somebody plants: no run writes, makes or removes anything outside its folder."""

from __future__ import annotations

import os
import random
import time
from typing import Any

import pytest
from making import USUAL, keep, leftovers, read, tree, walk, words_of, write
from running import How, Hooks, Started, command, done, refused, start
from test_stops import BY_NAME, SCRIPT

FIXED = [
    ".{0}.new", ".{0}.json.new", ".{0}.lock", ".{0}.json.lock", "{0}.new", "{0}.tmp", ".{0}.tmp", "{0}.lock", ".aecp.lock", ".aecp.new",
    ".aecp-.new", ".aecp-00000000.new", "{0}~", "{0}.json", "{0}.note", "{0}.bak",
]  # fmt: skip


@pytest.mark.parametrize("dangling", [False, True])
@pytest.mark.parametrize("name", BY_NAME)
def test_links_at_names_that_can_be_guessed(place: str, outside: str, name: str, dangling: bool) -> None:
    """Links planted before a run, to a file outside and to a name where there is none."""
    verb = BY_NAME[name]
    verb.prepare(place)
    target = os.path.join(outside, "new" if dangling else "file")
    planted = []
    for base in {"f", "f.aec", verb.target}:
        for form in FIXED:
            path = os.path.join(place, form.format(base))
            if form.format(base) in ("f.aec.json", "f.aec.note"):
                continue  # with such a file the pair is an old one
            if not os.path.lexists(path):
                os.symlink(target, path)
                planted.append(path)
    before = tree(outside)
    ran = command(place, *verb.words, given=verb.given)
    assert ran.status == 0, ran
    assert tree(outside) == before, f"{name} wrote outside"
    target_path = os.path.join(place, verb.target)
    assert os.path.isfile(target_path) and not os.path.islink(target_path)


@pytest.mark.parametrize("name", BY_NAME)
def test_links_at_each_name_that_a_run_makes(place: str, outside: str, name: str) -> None:
    """A link appears at each new name just before the run makes its file there."""
    verb = BY_NAME[name]
    verb.prepare(place)
    before = tree(outside)
    for target in ("file", "new"):
        hooks = Hooks(plant=os.path.join(outside, target))
        ran = command(place, *verb.words, how=How(verb.given, hooks=hooks, seconds=20))
        assert tree(outside) == before, f"{name} wrote outside: {ran}"
        path = os.path.join(place, verb.target)
        assert not os.path.islink(path) or ran.status == 1, f"{name}: {verb.target} is a link: {ran}"


def test_names_are_random(place: str) -> None:
    keep(place, "f", walk(1, 500))
    names = set()
    for number in range(10):
        calls = done(place, "edit", "f.aec", "-", given=b"append %d\n" % number, how=How(hooks=Hooks(logs=True))).calls
        names |= {os.path.basename(it.first) for it in calls if it.name == "open"}
    assert len(names) == 10 and all(it.startswith(".aecp-") and it.endswith(".new") and len(it) >= 18 for it in names), names


def test_a_link_that_appears_while_it_runs(place: str, outside: str, times: int) -> None:
    """Another replaces hidden files by links, as fast as it can, in a folder that it may write."""
    keep(place, "f", walk(1, 30000))
    stop = os.path.join(os.path.dirname(place), "stop")

    def attacking() -> None:
        target = os.path.join(outside, "file")
        while not os.path.exists(stop):
            for name in os.listdir(place):
                if name.startswith("."):
                    path = os.path.join(place, name)
                    try:
                        os.unlink(path)
                        os.symlink(target, path)
                    except OSError:
                        pass

    attacker = Started(place, attacking, How())
    try:
        end = time.monotonic() + 3 * times
        while time.monotonic() < end:
            data = read(place, "f.aec") if not os.path.islink(os.path.join(place, "f.aec")) else None
            ran = start(place, "edit", "f.aec", "-", how=How(given=SCRIPT)).ended()
            assert "Traceback" not in ran.said, ran
            assert read(outside, "file") == b"untouched"
            assert os.listdir(outside) == ["file"]
            if os.path.islink(os.path.join(place, "f.aec")):
                os.unlink(os.path.join(place, "f.aec"))
                assert data is not None
                write(place, "f.aec", data)
    finally:
        open(stop, "w").close()
        attacker.kill()
        attacker.ended()


@pytest.mark.parametrize("words", [["edit", "l.aec", "-"], ["undo", "l.aec"], ["forget", "l.aec", "--keep", "0"]])
def test_an_archive_that_is_a_link_is_not_written(place: str, outside: str, words: list[str]) -> None:
    keep(outside, "g", walk(1, 500))
    done(outside, "edit", "g.aec", "-", given=SCRIPT)
    os.symlink(os.path.join(outside, "g.aec"), os.path.join(place, "l.aec"))
    before = tree(outside), tree(place)
    ran = refused(place, *words, given=b"append 1\n")
    assert "g.aec" in ran.err, "the message names what the link points to"
    assert (tree(outside), tree(place)) == before
    done(place, "check", os.path.join(outside, "g.aec"))


def test_outputs_that_are_links(place: str, outside: str) -> None:
    keep(place, "f", walk(1, 500))
    before = tree(outside)
    for target in ("file", "new"):
        for words in (["back", "f.aec", "out"], ["rescue", "f.aec", "out"], ["export", "f.aec", "out"],
                      ["view", "f.aec", "out.png", "--width", "10"], ["rescue", "f.aec", "r", "--ranges", "out"]):  # fmt: skip
            for name in ("out", "out.png", "r"):
                if os.path.lexists(os.path.join(place, name)):
                    os.unlink(os.path.join(place, name))
            for name in ("out", "out.png"):
                os.symlink(os.path.join(outside, target), os.path.join(place, name))
            ran = command(place, *words)
            assert ran.status == 1, (words, ran)
            assert tree(outside) == before, words
    assert leftovers(place) == []


def test_originals_that_are_links(place: str, outside: str) -> None:
    write(outside, "data", USUAL.stored(walk(1, 500)))
    os.symlink(os.path.join(outside, "data"), os.path.join(place, "l"))
    before = tree(outside)
    ran = command(place, "keep", "l", *words_of(USUAL), "--anyway", "--remove")
    assert tree(outside) == before, ran
    os.symlink(os.path.join(outside, "data"), os.path.join(place, "m"))
    os.symlink(os.path.join(outside, "new.aec"), os.path.join(place, "m.aec"))
    write(place, "n", USUAL.stored(walk(1, 500)))
    os.symlink(os.path.join(outside, "new.aec"), os.path.join(place, "n.aec"))
    for name in ("m", "n"):
        command(place, "keep", name, *words_of(USUAL), "--anyway", "--repair")
        command(place, "keep", name, *words_of(USUAL), "--anyway")
    assert tree(outside) == before


def test_folders_that_are_links_are_passed_over(place: str, outside: str) -> None:
    keep(outside, "g", walk(1, 500))
    write(outside, "h", USUAL.stored(walk(2, 500)))
    os.symlink(outside, os.path.join(place, "inner"))
    write(place, "own", USUAL.stored(walk(3, 500)))
    before = tree(outside)
    done(place, "keep", ".", *words_of(USUAL), "--anyway")
    done(place, "check", ".")
    command(place, "back", ".")
    assert tree(outside) == before
    assert os.path.exists(os.path.join(place, "own.aec"))


@pytest.mark.parametrize("verb", ["keep", "back"])
def test_to_follows_no_link_below_its_folder(place: str, outside: str, verb: str) -> None:
    for folder in ("src/sub", "out/src"):
        os.makedirs(os.path.join(place, folder))
    keep(os.path.join(place, "src", "sub"), "f", walk(1, 300))
    os.symlink(outside, os.path.join(place, "out", "src", "sub"))
    before = tree(outside)
    ran = command(place, verb, "src", "--to", "out", *(["-n", "16", "--anyway"] if verb == "keep" else []))
    assert ran.status == 1 and "no folder" in ran.said, ran
    assert tree(outside) == before, "something is written through the link"


def test_back_waits_for_no_pipe(place: str) -> None:
    keep(place, "f", walk(1, 300))
    os.unlink(os.path.join(place, "f"))
    os.mkfifo(os.path.join(place, "f"))
    for words in (["f.aec"], ["."]):
        ran = command(place, "back", *words, how=How(seconds=20))
        assert ran.status == 1 and "exists" in ran.said, ran


def test_leftovers_that_are_not_ours(place: str, outside: str) -> None:
    """Hidden names that are links, folders, pipes or another's files lead nowhere, and stop nothing."""
    keep(place, "f", walk(1, 500))
    planted = [os.path.join(place, f".aecp-{number:08x}.new") for number in range(5)]
    os.symlink(os.path.join(outside, "file"), planted[0])
    os.mkdir(planted[1])
    os.mkfifo(planted[2])
    os.link(os.path.join(outside, "file"), planted[3])
    os.symlink("/dev/zero", planted[4])
    before = tree(outside)
    for words in (["edit", "f.aec", "-"], ["undo", "f.aec"], ["keep", ".", *words_of(USUAL), "--anyway"], ["check", "."]):
        ran = command(place, *words, given=b"append 1\n", how=How(seconds=15))
        assert ran.status == 0, ran
    assert tree(outside) == before
    # The hard link was a regular file that nobody has locked: its name goes, and the file outside stays.
    assert sorted(leftovers(place)) == sorted(os.path.basename(it) for it in planted if it != planted[3])


def test_a_fifo_at_each_name(place: str) -> None:
    os.mkfifo(os.path.join(place, "f"))
    os.mkfifo(os.path.join(place, "f.aec"))
    for words in (["keep", "f", "-n", "16"], ["back", "f.aec"], ["edit", "f.aec", "-"], ["check", "."], ["fit", "f"]):
        ran = command(place, *words, given=b"append 1\n", how=How(seconds=10))
        assert ran.status in (0, 1, 2), ran


def test_random_attacks(place: str, outside: str, times: int) -> None:
    """Replaces FILE.aec by links, pipes and folders while verbs run."""
    chance = random.Random(1)
    keep(place, "f", walk(1, 3000))
    data = read(place, "f.aec")
    before = tree(outside)
    path = os.path.join(place, "f.aec")
    lines = ("edit f.aec -", "undo f.aec", "check f.aec", "back f.aec -", "forget f.aec --keep 9")
    verbs: list[Any] = [it.split() for it in lines]
    for _ in range(60 * times):
        running = start(place, *chance.choice(verbs), how=How(given=SCRIPT, seconds=15))
        time.sleep(chance.random() * 0.02)
        side = os.path.join(place, "side")
        kind = chance.choice(["link", "pipe", "dangling"])
        if kind == "pipe":
            os.mkfifo(side)
        else:
            os.symlink(os.path.join(outside, "file" if kind == "link" else "new"), side)
        os.replace(side, path)
        ran = running.ended()
        assert "Traceback" not in ran.said and ran.status in (0, 1), ran
        assert tree(outside) == before
        os.unlink(path)
        write(place, "f.aec", data)
