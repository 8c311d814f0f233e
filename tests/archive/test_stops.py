"""Stops: kill -9 at each system call and at random moments, and the order of fsync, rename and unlink."""

from __future__ import annotations

import os
import random
import shutil
import time
from dataclasses import dataclass, field
from typing import Any, Callable, Optional

import aecp
import pytest
from making import USUAL, flip, keep, leftovers, noise, parts_at, read, sound_parts, walk, words_of, write
from running import Call, How, Hooks, command, done, in_child, run_words, start

SCRIPT = b"overwrite 5 9\nappend 4 5 6\nremove 100 3\n"
SAMPLES = walk("stops", 3000)
STORED = USUAL.stored(SAMPLES)


@dataclass
class Verb:
    """A verb that writes: the words of its run, the files that it begins with, and the name that it makes or replaces."""

    name: str
    words: list[str]
    target: str
    prepare: Callable[[str], None]
    given: Optional[bytes] = None
    removes: bool = False
    left: list[str] = field(default_factory=list)  # the names at the end


def kept(folder: str) -> None:
    keep(folder, "f", SAMPLES)


def edited(folder: str) -> None:
    kept(folder)
    done(folder, "edit", "f.aec", "-", given=SCRIPT)


def alone(folder: str) -> None:
    write(folder, "f", STORED)


def archive_alone(folder: str) -> None:
    kept(folder)
    os.unlink(os.path.join(folder, "f"))


def broken(folder: str) -> None:
    kept(folder)
    flip(os.path.join(folder, "f.aec"), 4000)


def with_script(folder: str) -> None:
    kept(folder)
    write(folder, "script", SCRIPT)


KEEP = ["keep", "f", *words_of(USUAL), "--anyway", "--jobs", "1"]
VERBS = [
    Verb("keep", KEEP, "f.aec", alone, left=["f", "f.aec"]),
    Verb("keep --remove", [*KEEP, "--remove"], "f.aec", alone, removes=True, left=["f.aec"]),
    Verb("keep --repair", [*KEEP, "--repair"], "f.aec", broken, left=["f", "f.aec"]),
    Verb("edit", ["edit", "f.aec", "script"], "f.aec", with_script, left=["f", "f.aec", "script"]),
    Verb("undo", ["undo", "f.aec"], "f.aec", edited, left=["f", "f.aec"]),
    Verb("forget", ["forget", "f.aec", "--keep", "0"], "f.aec", edited, left=["f", "f.aec"]),
    Verb("back", ["back", "f.aec"], "f", archive_alone, left=["f", "f.aec"]),
    Verb("rescue", ["rescue", "f.aec", "out"], "out", kept, left=["f", "f.aec", "out"]),
    Verb("export", ["export", "f.aec", "out"], "out", kept, left=["f", "f.aec", "out"]),
]
BY_NAME = {it.name: it for it in VERBS}


class Trial:
    """A verb with a folder that is made anew for each run."""

    def __init__(self, place: str, verb: Verb) -> None:
        self.verb = verb
        self.first = os.path.join(place, "first")
        self.folder = os.path.join(place, "run")
        os.mkdir(self.first)
        verb.prepare(self.first)
        self.old = self.target_in(self.first)
        self.begin()
        ran = command(self.folder, *verb.words, how=How(hooks=Hooks(logs=True)), given=verb.given)
        assert ran.status == 0, ran
        assert sorted(os.listdir(self.folder)) == verb.left, "nothing else is left"
        self.calls = ran.calls
        self.new = self.target_in(self.folder)
        assert self.new is not None and self.new != self.old

    def target_in(self, folder: str) -> Any:
        """Returns what the verb makes: an archive without times, or the bytes of another file."""
        path = os.path.join(folder, self.verb.target)
        if not os.path.exists(path):
            return None
        data = read(path)
        if not path.endswith(".aec"):
            return data
        try:
            parts = sound_parts(path)
        except AssertionError:
            return data
        fields = {key: it for key, it in parts.fields.items() if key not in ("written", "history", "source")}
        fields["source"] = {key: it for key, it in (parts.fields["source"] or {}).items() if key != "mtime_ns"}
        history = [{key: it for key, it in entry.items() if key != "when"} for entry in parts.history]
        return parts.stream, tuple(parts.groups), str(history), str(fields)

    def begin(self) -> None:
        shutil.rmtree(self.folder, ignore_errors=True)
        shutil.copytree(self.first, self.folder, symlinks=True)

    def judge(self, what: str) -> None:
        """Demands the old state or the new one, no lost samples, and that the next run of a verb removes what the stop left."""
        found = self.target_in(self.folder)
        assert found in (self.old, self.new), f"{what}: neither the old file nor the new one"
        others = {it for it in os.listdir(self.folder) if not it.startswith(".aecp-")}
        assert others <= set(self.verb.left) | set(os.listdir(self.first)), f"{what}: {others}"
        original = os.path.join(self.folder, "f")
        if self.verb.removes or self.verb.name.startswith("keep"):
            if os.path.exists(original):
                assert read(original) == STORED, what
            else:
                assert found == self.new and self.verb.removes, f"{what}: the original is gone, and no archive is there"
        if os.path.exists(os.path.join(self.folder, "f.aec")) and self.verb.name != "keep --repair":
            assert command(self.folder, "check", "f.aec", "--jobs", "1").status == 0, what
        self.go_on(what)

    def go_on(self, what: str) -> None:
        """Runs the verb again: it does the rest, or says that all is done. No hidden file is left."""
        if self.target_in(self.folder) != self.new or self.verb.removes:
            if not os.path.exists(os.path.join(self.folder, "f")) and self.verb.removes:
                return self.clean(what)
            ran = command(self.folder, *self.verb.words, given=self.verb.given)
            assert ran.status == 0, f"{what}: again: {ran}"
            assert self.target_in(self.folder) == self.new, f"{what}: again: another file"
        return self.clean(what)

    def clean(self, what: str) -> None:
        if leftovers(self.folder):
            done(self.folder, "edit", "f.aec", "-", given=b"append 7\n")
            done(self.folder, "undo", "f.aec")
        assert not leftovers(self.folder), f"{what}: {os.listdir(self.folder)}"


@pytest.mark.parametrize("name", BY_NAME)
@pytest.mark.parametrize("after", [False, True], ids=["before", "after"])
def test_each_system_call(place: str, name: str, after: bool) -> None:
    trial = Trial(place, BY_NAME[name])
    number = 0
    while True:
        number += 1
        trial.begin()
        ran = start(trial.folder, *trial.verb.words, how=How(trial.verb.given, hooks=Hooks(stop=number, after=after))).ended()
        assert "Traceback" not in ran.said, ran
        trial.judge(f"{name} stopped {'after' if after else 'before'} call {number}")
        if ran.status >= 0:
            assert ran.status == 0, ran
            break
        assert ran.status == -9, ran
    assert number > 4, f"{name} makes only {number} calls"


@pytest.mark.parametrize("name", ["keep", "keep --remove"])
@pytest.mark.parametrize("after", [False, True], ids=["before", "after"])
def test_each_system_call_without_hard_links(place: str, name: str, after: bool) -> None:
    """Without links and renameat2, a stop can leave an empty FILE.aec. The next `keep` replaces it, and no original is lost."""
    trial, number, empties = Trial(place, BY_NAME[name]), 0, 0
    while True:
        number += 1
        trial.begin()
        hooks = Hooks(stop=number, after=after, refuse=("link", "linkat", "renameat2"))
        ran = start(trial.folder, *trial.verb.words, how=How(hooks=hooks)).ended()
        path, original = os.path.join(trial.folder, "f.aec"), os.path.join(trial.folder, "f")
        is_empty = os.path.exists(path) and os.path.getsize(path) == 0
        empties += is_empty
        assert is_empty or trial.target_in(trial.folder) in (trial.old, trial.new), f"call {number}"
        assert not is_empty or read(original) == STORED, f"call {number}"
        trial.go_on(f"{name} stopped at call {number}")
        if ran.status == 0:
            break
    assert number > 4 and empties


@pytest.mark.parametrize("name", BY_NAME)
@pytest.mark.parametrize("error", [28, 5], ids=["full", "broken"])
def test_each_call_that_fails(place: str, name: str, error: int) -> None:
    """Each call that writes fails once, alone: the run is refused or finds another way, and nothing is lost."""
    trial = Trial(place, BY_NAME[name])
    counts: dict[str, int] = {}
    for call in trial.calls:
        counts[call.name] = counts.get(call.name, 0) + 1
    for call_name, most in counts.items():
        for number in range(1, most + 1):
            trial.begin()
            hooks = Hooks(fail=call_name, fail_at=number, error=error)
            ran = command(trial.folder, *trial.verb.words, how=How(trial.verb.given, hooks=hooks))
            what = f"{name}: {call_name} {number} fails: {ran.status} {ran.said}"
            found = trial.target_in(trial.folder)
            assert found in (trial.old, trial.new), what
            if ran.status == 0:
                assert found == trial.new, what
                assert call_name not in ("write", "fsync", "fdatasync") , f"{what}: nothing was said"
            else:
                assert ran.status == 1 and ran.said.strip(), what
            original = os.path.join(trial.folder, "f")
            if trial.verb.name.startswith("keep"):
                assert os.path.exists(original) or found == trial.new, what
            hidden = leftovers(trial.folder)
            assert not hidden or call_name in ("unlink", "rename", "renameat2", "link"), f"{what}: {hidden}"
            trial.judge(what)


@pytest.mark.parametrize("name", BY_NAME)
def test_random_moments(place: str, name: str, times: int) -> None:
    trial, chance = Trial(place, BY_NAME[name]), random.Random(f"moments {name}")
    trial.begin()
    begun = time.monotonic()
    start(trial.folder, *trial.verb.words, how=How(trial.verb.given)).ended()
    whole, stopped = time.monotonic() - begun, 0
    rounds = 12 if times == 1 else 500
    for number in range(rounds):
        trial.begin()
        running = start(trial.folder, *trial.verb.words, how=How(trial.verb.given))
        time.sleep(chance.random() * 1.1 * whole)
        running.kill()
        is_stopped = running.ended().status != 0
        stopped += is_stopped
        whole *= 1.1 if is_stopped else 0.8  # the first run may have taken longer, beside other work
        trial.judge(f"{name} stopped at random moment {number}")
    assert stopped > rounds // 12, f"only {stopped} of {rounds} runs were stopped"


def hidden(name: str) -> bool:
    return os.path.basename(name).startswith(".aecp-")


def place_of(calls: tuple[Call, ...], is_it: Callable[[Call], bool], what: str) -> int:
    """Returns the place of the last call of a kind, and fails the test if there is none."""
    found = [i for i, it in enumerate(calls) if is_it(it) and it.result == 0]
    assert found, f"no {what} in {calls}"
    return found[-1]


@pytest.mark.parametrize("name", BY_NAME)
def test_the_order_of_calls(place: str, name: str) -> None:
    """A file is written whole, synced, renamed, and its folder is synced; an original goes after all of that."""
    trial = Trial(place, BY_NAME[name])
    calls, target = trial.calls, trial.verb.target
    renames = ("rename", "renameat", "renameat2", "link", "linkat")
    renamed = place_of(
        calls, lambda it: it.name in renames and hidden(it.first) and os.path.basename(it.second) == target, "rename of the new file"
    )
    source = os.path.basename(calls[renamed].first)
    ours = [i for i, it in enumerate(calls) if os.path.basename(it.first) == source]
    writes = [i for i in ours if calls[i].name in ("write", "pwrite", "ftruncate")]
    synced = place_of(calls[:renamed], lambda it: it.name in ("fsync", "fdatasync") and os.path.basename(it.first) == source, "fsync")
    assert writes and max(writes) < synced, f"a write after the fsync: {calls}"
    for change in ("fchmod", "fchown"):
        assert all(i < synced for i in ours if calls[i].name == change), f"{change} after the fsync: {calls}"
    folder = os.path.realpath(trial.folder)
    folder_synced = place_of(calls, lambda it: it.name == "fsync" and os.path.realpath(it.first) == folder, "fsync of the folder")
    assert folder_synced > renamed, f"the folder is synced before the rename: {calls}"
    if trial.verb.removes:
        gone = place_of(calls, lambda it: it.name == "unlink" and os.path.basename(it.first) == "f", "unlink of the original")
        assert gone > folder_synced, f"the original goes before the folder is synced: {calls}"
    opened = [it for it in calls if it.name == "open" and it.result >= 0]
    assert all(hidden(it.first) for it in opened), f"a file is made under a name that can be guessed: {opened}"
    assert len({it.first for it in opened}) == len(opened)


def test_keep_of_many_files_syncs_before_it_removes(place: str) -> None:
    for i in range(6):
        write(place, f"f{i}", USUAL.stored(walk(i, 3000)))
    words = ["keep", ".", *words_of(USUAL), "--anyway", "--jobs", "1", "--remove"]
    calls = done(place, *words, how=How(hooks=Hooks(logs=True))).calls
    synced: set[str] = set()
    folder_synced: set[str] = set()
    for it in calls:
        base = os.path.basename(it.second)
        if it.name in ("rename", "renameat2", "link") and base.endswith(".aec") and it.result == 0:
            synced.add(base)
        if it.name == "fsync" and os.path.realpath(it.first) == os.path.realpath(place):
            folder_synced |= synced
        if it.name == "unlink" and not hidden(it.first):
            assert os.path.basename(it.first) + ".aec" in folder_synced, f"{it.first} goes before its archive is synced: {calls}"
    assert len(folder_synced) == 6


def test_create_is_synced_too(tmp_path: Any) -> None:
    def work() -> None:
        with aecp.create("f.aec", aecp.Options(16)) as file:
            file.write(STORED)

    calls = in_child(str(tmp_path), work, How(hooks=Hooks(logs=True))).calls
    names = [it.name for it in calls if it.name in ("fsync", "fdatasync", "rename", "renameat2", "link")]
    assert len(names) >= 3 and names[0] in ("fsync", "fdatasync") and names[-1] == "fsync", calls
    assert names[1] in ("rename", "renameat2", "link")


def test_locks_are_looked_at_again(place: str) -> None:
    """An edit that waited for another's lock edits the file that is there now, not the one that was replaced."""
    from running import Started

    kept(place)
    path = os.path.join(place, "f.aec")
    go, ready = os.pipe(), os.pipe()

    def holding() -> None:
        from aecp.archive import _saving

        with _saving.locked(path) as status:
            os.write(ready[1], b"x")
            os.read(go[0], 1)
            data = read(path)
            with _saving.replacement(path, status) as file:
                file.write(data)

    holder = Started(place, holding, How())
    os.read(ready[0], 1)
    waiting = start(place, "edit", "f.aec", "-", how=How(given=b"append 1\n"))
    time.sleep(0.3)
    assert len(parts_at(path).history) == 1, "the edit waits"
    os.write(go[1], b"x")
    assert holder.ended().status == 0
    ran = waiting.ended()
    assert ran.status == 0, ran
    assert len(sound_parts(path).history) == 2
    assert parts_at(path).fields["samples"]["count"] == 3001


def test_a_reader_needs_no_lock(place: str) -> None:
    """check, back and info read a file that another run has locked."""
    import fcntl

    kept(place)
    with open(os.path.join(place, "f.aec"), "rb") as file:
        fcntl.flock(file, fcntl.LOCK_EX)
        for words in (["check", "f.aec"], ["info", "f.aec"], ["log", "f.aec"], ["back", "f.aec", "out"]):
            assert command(place, *words, how=How(seconds=10)).status == 0


def test_the_run_of_words_is_the_command() -> None:
    with pytest.raises(SystemExit):
        run_words(["-V"])
    assert noise(1, 3) == noise(1, 3)
