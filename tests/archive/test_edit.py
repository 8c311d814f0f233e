"""`aecp edit` and `undo`: a state machine beside a plain list, and every line that is refused."""

from __future__ import annotations

import os
import random
import shutil
import tempfile
from typing import Any

import aecp
import pytest
from lib import script_model
from hypothesis import strategies as st
from hypothesis.stateful import RuleBasedStateMachine, initialize, invariant, precondition, rule
from making import (
    USUAL, keep, made, noise, numbers_of, options_of, parts_at, read, samples_at, settings_by_chance, sound_parts, tree, walk,
    walks_for, words_of, write,
)  # fmt: skip
from plain_form import script_of
from running import command, done, refused
from lib.settings import Settings


def script_for(settings: Settings, samples: list[int], chance: random.Random, lines: int = 5) -> tuple[bytes, list[int]]:
    """Returns a random script that fits, and the samples after it by the model. One in three only overwrites."""
    script: list[str] = []
    if samples and chance.random() < 0.3:
        return pixels_for(settings, samples, chance)
    for _ in range(chance.randint(1, lines)):
        count = len(samples)
        first = chance.randint(0, count)
        length = min(chance.randint(0, count - first), chance.choice([1, 5, 3000]))
        new = [chance.randint(settings.least(), settings.most()) for _ in range(chance.choice([1, 1, 2, 9, 1500]))]
        over = samples[first : first + length][::-1] if chance.random() < 0.3 else [chance.choice(new) for _ in range(length)]
        line = chance.choice([
            f"overwrite {first} {' '.join(map(str, over))}" if over else "# nothing",
            f"append {' '.join(map(str, new))}",
            f"insert {first} {' '.join(map(str, new))}",
            f"remove {first} {length}",
            f"truncate {count - min(length, 9)}",
        ])  # fmt: skip
        script.append(line)
        samples = script_model.edited(settings, samples, script_model.edits_of(line.encode()))
    return "\n".join(script).encode() + b"\n", samples


def pixels_for(settings: Settings, samples: list[int], chance: random.Random) -> tuple[bytes, list[int]]:
    """Returns a script that overwrites single samples, mostly in ascending order, and the samples after it."""
    places = chance.sample(range(len(samples)), min(len(samples), chance.choice([1, 2, 50, 700])))
    if chance.random() < 0.7:
        places.sort()
    after, script = samples.copy(), b""
    for place in places:
        after[place] = chance.choice([settings.least(), settings.most(), samples[place]])
        script += b"overwrite %d %d\n" % (place, after[place])
    return script, after


class Archive(RuleBasedStateMachine):
    """One archive beside a list of samples, the states of its history, and a plain file."""

    def __init__(self) -> None:
        super().__init__()
        self.folder = tempfile.mkdtemp()
        self.path = os.path.join(self.folder, "f.aec")

    def teardown(self) -> None:
        shutil.rmtree(self.folder)

    @initialize(data=st.data())
    def begin(self, data: Any) -> None:
        self.settings = data.draw(settings_by_chance())
        count = data.draw(st.sampled_from([0, 1, 70, 400, 6000]))
        self.samples = data.draw(walks_for(self.settings, count))
        keep(self.folder, "f", self.samples, self.settings)
        self.first = self.settings.stored(self.samples)
        self.undone: list[tuple[list[int], bytes]] = []  # the states that undo goes back to, newest last
        self.entries = ["keep"]

    @rule(seed=st.integers(0, 2**32))
    def edit(self, seed: int) -> None:
        before = parts_at(self.path)
        script, after = script_for(self.settings, self.samples, random.Random(seed))
        if len(after) > 20000:
            return
        self.undone.append((self.samples, before.stream))
        done(self.folder, "edit", "f.aec", "-", given=script)
        parts = parts_at(self.path)
        assert script_of(parts, len(parts.history) - 1) == script
        changed, differ = parts.history[-1]["samples_changed"], sum(a != b for a, b in zip(self.samples, after))
        if all(line.startswith((b"overwrite", b"#")) for line in script.splitlines()):
            assert changed == differ
        else:
            assert abs(len(after) - len(self.samples)) <= changed <= len(self.samples) + len(after)
            assert changed > 0 or after == self.samples
        self.samples = after
        self.entries.append("edit")

    @precondition(lambda self: self.undone)
    @rule()
    def undo(self) -> None:
        done(self.folder, "undo", "f.aec")
        self.samples, stream = self.undone.pop()
        assert parts_at(self.path).stream == stream, "taken back, bit for bit"
        self.entries.append("undo")

    @precondition(lambda self: not self.undone)
    @rule()
    def undo_nothing(self) -> None:
        before = read(self.path)
        refused(self.folder, "undo", "f.aec")
        assert read(self.path) == before

    @rule()
    def undo_all(self) -> None:
        before = read(self.path)
        ran = done(self.folder, "undo", "f.aec", "--all")
        if not self.undone:
            assert "there is no edit to undo" in ran.out and read(self.path) == before
            return
        self.entries += ["undo"] * len(self.undone)
        (self.samples, stream), self.undone = self.undone[0], []
        assert parts_at(self.path).stream == stream, "taken back, bit for bit"

    @rule(keep_count=st.integers(0, 4))
    def forget(self, keep_count: int) -> None:
        before = parts_at(self.path)
        ran = command(self.folder, "forget", "f.aec", "--keep", str(keep_count))
        assert ran.status in (0, 1), ran
        after = parts_at(self.path)
        assert after.stream == before.stream
        if ran.status == 0:
            left = [it["what"] for it in after.history]
            live = 0
            for what in left:  # an edit that isn't forgotten can still be undone
                live += what == "edit"
                live -= what == "undo" and live > 0
            assert len(left) <= len(before.history) + 1
            possible = undoable(after.history)
            assert possible <= len(self.undone)
            self.undone = self.undone[len(self.undone) - possible :]

    @rule()
    def back(self) -> None:
        done(self.folder, "back", "f.aec", "out")
        assert read(self.folder, "out") == self.settings.stored(self.samples)
        os.unlink(os.path.join(self.folder, "out"))

    @rule(data=st.data())
    def part(self, data: Any) -> None:
        first = data.draw(st.integers(0, len(self.samples)))
        length = data.draw(st.integers(0, len(self.samples) - first))
        ran = done(self.folder, "back", "f.aec", "-", "--range", f"{first}:{length}")
        assert ran.raw == self.settings.stored(self.samples[first : first + length])
        with aecp.open(self.path) as file:
            assert list(file[first : first + length]) == self.samples[first : first + length]

    @rule()
    def bad_line(self) -> None:
        before = read(self.path)
        refused(self.folder, "edit", "f.aec", "-", given=b"append 0\noverwrite %d 0\n" % (len(self.samples) + 7))
        assert read(self.path) == before

    @rule()
    def export(self) -> None:
        ran = done(self.folder, "export", "f.aec", "-")
        assert ran.raw == bytes(aecp.encode(self.settings.stored(self.samples), options_of(self.settings)))

    @invariant()
    def is_sound(self) -> None:
        if not hasattr(self, "samples"):
            return
        parts = sound_parts(self.path)
        assert parts.stream == bytes(aecp.encode(self.settings.stored(self.samples), options_of(self.settings)))
        assert read(self.folder, "f") == self.first, "the original is never touched"
        assert sorted(os.listdir(self.folder)) == ["f", "f.aec"]
        assert parts.history[-1].get("after", {}).get("samples") in (None, parts.fields["samples"])


def undoable(history: list[dict[str, Any]]) -> int:
    """Returns how many edits of a history aren't undone."""
    return sum(1 for it in history if it["what"] == "edit" and it["inverse"] is not None)


class TestArchive(Archive.TestCase):
    """Runs the state machine."""


LINES = [
    (b"overwrite 7 1 2", ["line 1", "7", "8 samples"]),
    (b"overwrite 9 1", ["line 1", "9", "8 samples"]),
    (b"overwrite 0 1 256", ["line 1", "256", "0 to 255"]),
    (b"append 1\nappend -1", ["line 2", "-1", "0 to 255"]),
    (b"append 99999999999999999999", ["line 1", "99999999999999999999"]),
    (b"append", ["line 1", "append"]),
    (b"truncate 9", ["line 1", "9"]),
    (b"remove 3 6", ["line 1", "6", "8 samples"]),
    (b"remove 1", ["line 1", "remove"]),
    (b"truncate 1 2", ["line 1", "truncate"]),
    (b"insert 9 1", ["line 1", "9"]),
    (b"# one\n\nAppend 1\r\n", ["line 3", "Append"]),
    (b"append +1", ["line 1", "+1"]),
    (b"overwrite x 1", ["line 1", "x"]),
    (b"overwrite \xff 1", ["line 1"]),
    (b"\x1b[2J 1", ["line 1"]),
]


def test_lines_that_are_refused(place: str) -> None:
    settings = Settings(bits=8, block_size=16, interval=4)
    path = keep(place, "f", list(range(8)), settings)
    before = read(path)
    for script, words in LINES:
        ran = refused(place, "edit", "f.aec", "-", given=script)
        assert all(word in ran.err for word in words), (script, ran.err)
        assert "\x1b" not in ran.said and "\r" not in ran.said
        assert read(path) == before
    ran = refused(place, "edit", "f.aec", "-", given=b"x\nappend 1\noverwrite 8 300\n")
    assert "line 1" in ran.err and "line 3" in ran.err and "line 2" not in ran.err
    done(place, "edit", "f.aec", "-", "--allow-empty", given=b"append\noverwrite 8\ninsert 0\r")
    assert samples_at(path) == list(range(8))


def test_long_runs_are_undone(place: str) -> None:
    """Runs over 1,000 values, and changes at each place of 5,000 and more samples."""
    for count, script in (
        (6000, "overwrite 100 " + " ".join(str(x) for x in noise(1, 3500))),
        (6000, "remove 3 5100"),
        (100, "append " + " ".join(str(x) for x in noise(2, 5500))),
        (5000, "insert 2500 " + " ".join(str(x) for x in noise(3, 2049))),
        (9000, "truncate 0"),
        (8192, "overwrite 0 " + " ".join(str(4095 - x) for x in walk(4, 8192))),
    ):
        folder = tempfile.mkdtemp(dir=place)
        samples = walk(count, count)
        path = keep(folder, "f", samples)
        stream = parts_at(path).stream
        settings = USUAL
        wanted = script_model.edited(settings, samples, script_model.edits_of(script.encode()))
        done(folder, "edit", "f.aec", "-", given=script.encode() + b"\n")
        assert samples_at(path) == wanted
        # The script of `diff` leads from one to the other, at any length.
        keep(folder, "g", samples)
        out = done(folder, "diff", "g.aec", "f.aec").out
        done(folder, "edit", "g.aec", "-", given=out.encode())
        assert samples_at(os.path.join(folder, "g.aec")) == wanted
        done(folder, "undo", "f.aec")
        assert parts_at(path).stream == stream and samples_at(path) == samples


@pytest.mark.parametrize("at", [0, 1, 1023, 1024, 2046, 2047, 2048, 4095, 4096, 5999])
def test_one_sample_at_each_edge(place: str, at: int) -> None:
    samples = walk(1, 6000)
    path = keep(place, "f", samples)
    keep(place, "g", samples)
    done(place, "edit", "f.aec", "-", given=b"overwrite %d 9\n" % at)
    assert samples_at(path)[at] == 9
    assert done(place, "diff", "g.aec", "f.aec").out.strip() == f"overwrite {at} 9"
    done(place, "undo", "f.aec")
    assert samples_at(path) == samples


def test_diff_of_random_lists(place: str, times: int) -> None:
    for number in range(12 * times):
        chance = random.Random(number)
        samples = walk(number, chance.choice([0, 50, 2500, 7000]))
        _, wanted = script_for(USUAL, samples, chance, 8)
        folder = tempfile.mkdtemp(dir=place)
        made(os.path.join(folder, "a.aec"), samples)
        made(os.path.join(folder, "b.aec"), wanted)
        out = done(folder, "diff", "a.aec", "b.aec").raw
        if samples == wanted:
            assert out == b""
            continue
        done(folder, "edit", "a.aec", "-", given=out)
        assert samples_at(os.path.join(folder, "a.aec")) == wanted, number


def test_diff_of_other_options_is_refused(place: str) -> None:
    keep(place, "a", [1, 2, 3] * 90, Settings(bits=16, block_size=16))
    keep(place, "b", [1, 2, 3] * 90, Settings(bits=16, block_size=16, signed=True))
    keep(place, "c", [1, 2, 3] * 90, Settings(bits=12, block_size=16))
    refused(place, "diff", "a.aec", "b.aec")
    ran = command(place, "diff", "a.aec", "c.aec")
    assert (ran.status, ran.out) in ((0, ""), (1, "")), ran
    keep(place, "d", [1, 2, 4] * 90, USUAL)
    keep(place, "e", [1, 2, 3] * 90, USUAL._replace(block_size=32, interval=2))
    out = done(place, "diff", "d.aec", "e.aec").out
    done(place, "edit", "d.aec", "-", given=out.encode())
    assert samples_at(os.path.join(place, "d.aec")) == [1, 2, 3] * 90


def test_many_files_and_one_script(place: str) -> None:
    for i in range(5):
        keep(place, f"f{i}", walk(i, 500 + i))
    write(place, "script", b"overwrite 502 1\n")
    names = [f"f{i}.aec" for i in range(5)]
    ran = command(place, "edit", "script", *names)
    assert ran.status == 1, ran
    for i in range(5):
        wanted = walk(i, 500 + i)
        if i > 2:
            wanted[502] = 1
        assert samples_at(os.path.join(place, f"f{i}.aec")) == wanted
    assert all(f"f{i}.aec" in ran.said for i in range(5))
    assert [command(place, "undo", it).status for it in names] == [1, 1, 1, 0, 0]


def test_undo_all_of_a_folder(place: str) -> None:
    """Each file gets the state in which it was kept, by as many entries as single undos make; a file without edits stays."""
    for i in range(3):
        keep(place, f"f{i}", walk(i, 500 + i))
    first = [parts_at(os.path.join(place, f"f{i}.aec")).stream for i in range(3)]
    for script, names in ((b"append 7 8 9\n", "f1 f2"), (b"overwrite 0 5\n", "f2"), (b"remove 3 400\n", "f2"), (b"insert 0 1\n", "f2")):
        done(place, "edit", "-", *(f"{name}.aec" for name in names.split()), given=script)
    done(place, "undo", "f2.aec")
    untouched = read(place, "f0.aec")
    ran = done(place, "undo", ".", "--all")
    assert "f0.aec: there is no edit to undo" in ran.out and read(place, "f0.aec") == untouched
    assert "f1.aec: the edit of 20" in ran.out and "f2.aec: 3 edits are undone, bit for bit: 502 samples" in ran.out, ran
    for i in range(3):
        path = os.path.join(place, f"f{i}.aec")
        assert sound_parts(path).stream == first[i] and samples_at(path) == walk(i, 500 + i)
    history = parts_at(os.path.join(place, "f2.aec")).history
    assert [it.get("edit") for it in history if it["what"] == "undo"] == [4, 3, 2, 1]
    assert not undoable(history)
    before = tree(place)
    ran = done(place, "undo", ".", "--all")
    assert ran.out.count("there is no edit to undo") == 3 and tree(place) == before
    ran = refused(place, "undo", "f0.aec", "none.aec", "--all")
    assert "there is no such file" in ran.err and "f0.aec: there is no edit to undo" in ran.out


def test_numbers_of_is_the_model(place: str) -> None:
    settings = Settings(bits=20, three_byte=True, signed=True, msb_first=True)
    samples = [-5, 7, settings.least(), settings.most()]
    assert numbers_of(settings.stored(samples), settings) == samples
    assert words_of(settings)[:2] == ["-n", "20"]
