"""What runs say: counts, JSON, names, and messages that name the file that they are about."""

from __future__ import annotations

import json
import os

import pytest
from making import FAST, USUAL, flip, keep, noise, parts_at, read, samples_at, tree, walk, words_of, write
from running import command, done, refused
from test_rescue import covered
from test_check import ranges_of

DATA = USUAL.stored(walk(1, 500))


@pytest.mark.parametrize("names", [("f.aec", "f.aec"), ("f.aec", "./f.aec"), (".", "f.aec")])
def test_a_file_that_is_named_twice_is_worked_on_once(place: str, names: tuple[str, str]) -> None:
    path = keep(place, "f", walk(1, 500))
    if "." not in names:
        done(place, "edit", *names, "-", given=b"append 7\n")
        assert samples_at(path) == [*walk(1, 500), 7] and len(parts_at(path).history) == 2
        done(place, "edit", "f.aec", "-", given=b"append 8\n")
    else:
        for _ in range(2):
            done(place, "edit", "f.aec", "-", given=b"append 7\n")
    done(place, "undo", *names)
    assert samples_at(path) == [*walk(1, 500), 7]
    assert "1 checked, 1 sound, 0 damaged" in done(place, "check", *names).out


@pytest.mark.parametrize("verb", ["check", "back", "undo", "info"])
def test_a_folder_without_kept_files(place: str, verb: str) -> None:
    """A job whose disk isn't mounted fails, though nothing is damaged."""
    os.mkdir(os.path.join(place, "disk"))
    write(place, "disk/original", DATA)
    ran = refused(place, verb, "disk")
    assert "disk: there is no kept file in it" in ran.err, ran
    keep(place, "disk/original", walk(1, 500))
    assert "no kept file" not in command(place, verb, "disk").said


def test_all_that_keep_passes_over_is_counted(place: str) -> None:
    for name, data in (("a", DATA), ("b.txt", DATA), ("odd", b"abc")):
        write(place, name, data)
    os.symlink("a", os.path.join(place, "link"))
    ran = done(place, "keep", ".", "-n", "16", "--anyway")
    assert "1 kept, 3 passed over" in ran.out and ran.err.count("passed over") == 3, ran
    found = json.loads(command(place, "keep", ".", "none", "-n", "16", "--anyway", "--json").out)
    assert (found["skipped"], found["passed"], found["refused"]) == (1, 3, 1)
    kinds = {it["file"]: it["kind"] for it in found["files"]}
    assert kinds == {"./a": "skipped", "./b.txt": "passed", "./odd": "passed", "./link": "passed", "none": "refused"}


NAMES = [b"line\nfeed", b"back\\slash", b"\xff\xfe no text", "ü \u202e".encode()]


def test_json_has_the_names_of_files(place: str) -> None:
    """Escaped for a terminal, a name couldn't be told from one with a backslash."""
    for name in NAMES:
        write(os.fsencode(place), name, DATA)
    ran = done(place, "keep", ".", *words_of(USUAL), "--anyway", "--json")
    assert {os.fsencode(it["file"]) for it in json.loads(ran.out)["files"]} == {b"./" + it for it in NAMES}
    for name in NAMES:
        kept = name + b".aec"
        assert [os.fsencode(it["file"]) for it in json.loads(done(place, "info", kept, "--json").out)] == [kept]
        assert os.fsencode(json.loads(done(place, "rescue", kept, "--json").out)["file"]) == kept
        flip(os.path.join(place, os.fsdecode(kept)), 100)
    ran = command(place, "check", ".", "--json")
    assert ran.out.isascii() and {os.fsencode(it["file"]) for it in json.loads(ran.out)["faults"]} == {b"./" + it + b".aec" for it in NAMES}


def test_messages_about_kept_files_elsewhere_name_them(place: str) -> None:
    """`keep --to` names the original first, and then the file that is damaged or in the way."""
    write(place, "f", DATA)
    words = ["keep", "f", *words_of(USUAL), "--anyway", "--to", "disk"]
    done(place, *words)
    path = os.path.join(place, "disk", "f.aec")
    flip(path, 8 * (os.path.getsize(path) - 5))
    for more in ([], ["--repair"]):
        ran = refused(place, *words, *more)
        assert ran.err.startswith(f"aecp: f: {path} "), ran
    os.unlink(path)
    done(place, *words)
    write(place, "f", DATA[::-1])
    ran = refused(place, *words)
    assert f"move {path} away" in ran.err, ran
    keep(place, "g", walk(1, 500))
    flip(os.path.join(place, "g.aec"), 8 * (os.path.getsize(os.path.join(place, "g.aec")) - 5))
    assert "g: FILE.aec isn't sound: " in refused(place, "keep", "g", *words_of(USUAL)).err


def test_json_says_which_originals_are_removed(place: str) -> None:
    for name in "abc":
        keep(place, name, walk(1, 500))
    done(place, "edit", "b.aec", "-", given=b"append 7\n")
    found = json.loads(command(place, "keep", "a", "b", *words_of(USUAL), "--remove", "--json").out)
    said = [(it["file"], it["kind"], it.get("removed", False)) for it in found["files"]]
    assert said == [("a", "skipped", True), ("b", "refused", False)]
    found = json.loads(done(place, "keep", "c", *words_of(USUAL), "--json").out)
    assert "removed" not in found["files"][0] and sorted(it for it in os.listdir(place) if "." not in it) == ["b", "c"]


def test_an_empty_kept_file_is_made_anew(place: str) -> None:
    """And said, since a file that a fault of the disk has emptied may have had edits."""
    path = keep(place, "f", walk(1, 500))
    os.truncate(path, 0)
    ran = done(place, "keep", "f", *words_of(USUAL), "--anyway")
    assert "f: FILE.aec was empty, and is made anew" in ran.err and "1 kept" in ran.out, ran
    assert samples_at(path) == walk(1, 500)
    os.truncate(path, 1)
    assert "isn't sound" in refused(place, "keep", "f", *words_of(USUAL)).err


def test_two_originals_whose_kept_files_would_have_one_name(place: str) -> None:
    for folder, data in (("x", DATA), ("y", DATA[::-1])):
        os.mkdir(os.path.join(place, folder))
        write(place, f"{folder}/f", data)
    before = tree(place)
    ran = refused(place, "keep", "x/f", "y/f", *words_of(USUAL), "--anyway", "--to", "disk", "--remove")
    assert "y/f: its FILE.aec would have the name of that of x/f" in ran.err and "1 kept" in ran.out, ran
    assert read(place, "y/f") == before["y/f"] and os.listdir(os.path.join(place, "disk")) == ["f.aec"]
    done(place, "keep", "y/f", "y/f", *words_of(USUAL), "--anyway", "--to", "other")


def test_another_shape_of_a_kept_file_is_said(place: str) -> None:
    keep(place, "f", walk(1, 500), USUAL, "--shape", "20x25")
    keep(place, "g", walk(1, 500))
    words = ["keep", "f", *words_of(USUAL)]
    assert done(place, *words, "--shape", "20x25").err == ""
    assert "f: it is kept already, as 20x25 of no recorded type" in done(place, *words, "--shape", "25x20").err
    assert "f: it is kept already, as 20x25 of no recorded type" in done(place, *words, "--dtype", "<u2").err
    assert "g: it is kept already, as a list of no" in done(place, "keep", "g", *words_of(USUAL), "--shape", "20x25").err


def test_diff_prints_json_whatever_differs(place: str) -> None:
    """Files with another number of samples differ by a script, which is JSON too."""
    keep(place, "f", walk(1, 500))
    keep(place, "g", [*walk(1, 500), 7])
    keep(place, "h", [*walk(1, 499), 7])
    assert json.loads(done(place, "diff", "f.aec", "g.aec", "--json").out) == {"script": "insert 500 7\n"}
    assert json.loads(done(place, "diff", "f.aec", "h.aec", "--json", "--script").out) == {"script": "overwrite 499 7\n"}
    rows = [{"place": 499, "value": 7, "was": walk(1, 500)[-1]}]
    assert json.loads(done(place, "diff", "f.aec", "h.aec", "--json").out) == {"differences": rows}
    assert done(place, "diff", "f.aec", "g.aec").out == "insert 500 7\n"


def test_log_says_which_edits_can_be_undone(place: str) -> None:
    keep(place, "f", walk(1, 500))
    for script in (b"append 1\n", b"append 2\n"):
        done(place, "edit", "f.aec", "-", given=script)
    done(place, "undo", "f.aec")
    found = json.loads(done(place, "log", "f.aec", "--json").out)
    assert [(it["what"], it["can_be_undone"]) for it in found] == [("keep", False), ("edit", True), ("edit", False), ("undo", False)]


def test_rescue_counts_what_is_sound(place: str) -> None:
    path = keep(place, "f", noise(1, 60000))
    groups = parts_at(path).groups
    for number in (1, 2, 5):
        flip(path, groups[number].bit + 999)
    found = json.loads(command(place, "rescue", "f.aec", "--json").out)
    assert (found["samples"], found["sound"]) == (60000, 60000 - len(covered(ranges_of(found["lost"]))))
    assert 0 < found["sound"] < 60000


def test_rescue_of_a_stream_takes_no_range(place: str) -> None:
    keep(place, "f", walk(1, 500), FAST)
    ran = command(place, "rescue", "f.aec", "out", *words_of(FAST), "--count", "500", "--range", "0:5")
    assert ran.status == 2 and "--range" in ran.err and not os.path.exists(os.path.join(place, "out")), ran


@pytest.mark.parametrize("part,word", [("index", "rescue"), ("history", "rescue"), ("end", "bytes after its end")])
def test_a_message_says_what_helps(place: str, part: str, word: str) -> None:
    path = keep(place, "f", walk(1, 500))
    stream = len(parts_at(path).stream)
    if part == "end":
        write(place, "f.aec", read(path) + b"\n")
    else:
        flip(path, 8 * (stream + (5 if part == "index" else 40)))
    ran = refused(place, "back", "f.aec", "out")
    assert word in ran.err, ran
    if part != "end":
        done(place, "rescue", "f.aec", "out")
        assert read(place, "out") == DATA
