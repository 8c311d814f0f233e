"""`aecp keep`: what it takes, what it says, what it says about options and changes, and two runs at once."""

from __future__ import annotations

import glob
import os
import signal
import threading
import time

import pytest
from making import FAST, USUAL, check_json, keep, leftovers, old_pair, read, samples_at, tree, walk, words_of, write
from running import How, Hooks, command, done, in_child, refused, start
from lib.settings import Settings

NAMES = [b"plain", b"with blanks  in it", b"line\nfeed", b"-n", b"--help", b"\xff\xfe no text", "ü".encode(), b"'quotes\"", b"*?[x]"]
DATA = USUAL.stored(walk(3, 500))


def test_names_of_every_kind(place: str) -> None:
    for name in NAMES:
        write(os.fsencode(place), name, DATA)
    write(place, "README.txt", b"odd size")
    write(place, "odd", b"odd")
    os.mkdir(os.path.join(place, "inner"))
    write(place, "inner/file", DATA)
    os.symlink("plain", os.path.join(place, "link"))
    ran = done(place, "keep", ".", "-n", "16", "--anyway")
    count = len(NAMES) + 1
    assert f"{count} kept" in ran.out, ran
    for name in ("README.txt", "odd", "link"):
        assert name in ran.err, ran
    assert f"{count} checked, {count} sound, 0 damaged" in done(place, "check", ".").out
    kept = {os.path.relpath(os.path.join(folder, it), place) for folder, _, files in os.walk(place) for it in files if it.endswith(".aec")}
    assert len(kept) == count and not any(it.startswith(("README", "link", "odd")) for it in kept)
    for name in NAMES:
        done(place, "edit", "--", name + b".aec", "-", given=b"overwrite 1 5\n")
        done(place, "undo", "--", name + b".aec")
        done(place, "back", "--", name + b".aec", name + b".out")
        assert read(os.fsencode(place), name + b".out") == DATA
        ran = done(place, "info", "--", name + b".aec")
        assert "\x1b" not in ran.said and "\xff" not in ran.said
        assert sum(1 for line in ran.out.splitlines() if "feed" in line) <= 1, "a line feed of a name is escaped"


def test_again_and_changed(place: str) -> None:
    keep(place, "a", walk(1, 500))
    before = tree(place)
    ran = done(place, "keep", "a", "-n", "16", "-j", "16", "-r", "4")
    assert "1 kept already" in ran.said
    assert tree(place) == before
    os.utime(os.path.join(place, "a"), ns=(5, 5))
    ran = command(place, "keep", "a", *words_of(USUAL))
    assert "changed" in ran.err or "kept already" in ran.said
    write(place, "a", DATA)
    ran = command(place, "keep", "a", *words_of(USUAL))
    assert ran.status == 1 or "changed" in ran.err, ran
    assert "a" in ran.err
    assert read(place, "a.aec") == before["a.aec"], "nothing is replaced"


@pytest.mark.parametrize("change", ["longer with the same time", "changed within the second"])
def test_a_changed_original_is_noticed(place: str, change: str) -> None:
    path = keep(place, "a", walk(1, 500))[:-4]
    status = os.stat(path)
    data = read(path)
    if change == "longer with the same time":
        write(place, "a", data + data[:64])
        os.utime(path, ns=(status.st_atime_ns, status.st_mtime_ns))
    else:
        write(place, "a", data[::-1])
        second = status.st_mtime_ns // 10**9 * 10**9
        os.utime(path, ns=(second, second + (status.st_mtime_ns + 5000) % 10**9))
    ran = command(place, "keep", "a", *words_of(USUAL))
    assert "changed" in ran.err, ran
    assert "1 kept already" not in ran.out, ran
    assert (command(place, "keep", "a", *words_of(USUAL), "--remove").status, os.path.exists(path)) == (1, True)


def test_rehash_finds_equal_times_with_other_bytes(place: str) -> None:
    path = keep(place, "a", walk(1, 500))[:-4]
    status = os.stat(path)
    write(place, "a", read(path)[::-1])
    os.utime(path, ns=(status.st_atime_ns, status.st_mtime_ns))
    assert "changed" in command(place, "keep", "a", *words_of(USUAL), "--rehash").err
    assert os.path.exists(path)


def test_an_unchanged_original_after_an_edit(place: str) -> None:
    keep(place, "a", walk(1, 500))
    done(place, "edit", "a.aec", "-", given=b"overwrite 5 9\n")
    ran = done(place, "keep", "a", *words_of(USUAL), "--rehash")
    assert "1 kept already" in ran.said and "changed" not in ran.err


def test_other_options_are_said(place: str) -> None:
    keep(place, "a", walk(1, 500))
    before = tree(place)
    ran = command(place, "keep", "a", "-n", "12", "-j", "16", "-r", "4")
    assert "-n 16" in ran.said and "a" in ran.err, ran
    assert tree(place) == before


def test_hints_at_better_options(place: str) -> None:
    big = Settings(bits=16, block_size=16, interval=128, msb_first=True)
    write(place, "big", big.stored(walk(1, 30000, step=3)))
    assert "-m" in done(place, "keep", "big", "-n", "16", "--anyway").err
    signed = Settings(bits=16, block_size=16, interval=128, signed=True)
    write(place, "signed", signed.stored([x - 2048 for x in walk(2, 30000, step=900)]))
    assert "-s" in done(place, "keep", "signed", "-n", "16", "--anyway").err
    write(place, "right", FAST.stored(walk(1, 30000, step=3)))
    assert "-m" not in done(place, "keep", "right", "-n", "16").err


def test_whole_samples_and_unused_bits(place: str) -> None:
    write(place, "odd", b"abc")
    refused(place, "keep", "odd", "-n", "16")
    write(place, "wide", b"\xff\xff" * 50)
    refused(place, "keep", "wide", "-n", "12")
    write(place, "negative", b"\xff\xff" * 50)
    done(place, "keep", "negative", "-n", "12", "-s", "--anyway")
    assert {it for it in os.listdir(place) if it.endswith(".aec")} == {"negative.aec"}
    assert leftovers(place) == []


def test_a_larger_stream_is_refused(place: str) -> None:
    write(place, "noise", os.urandom(9000))
    ran = refused(place, "keep", "noise", "-n", "16")
    assert "--anyway" in ran.err
    assert os.listdir(place) == ["noise"]
    done(place, "keep", "noise", "-n", "16", "--anyway")


def test_patterns(place: str) -> None:
    for name in ("a.raw", "b.raw", "c.txt", "d.bin"):
        write(place, name, DATA)
    done(place, "keep", ".", "-n", "16", "--include", "*.raw", "--include", "*.txt", "--exclude", "b*", "--anyway")
    assert {it for it in os.listdir(place) if it.endswith(".aec")} == {"a.raw.aec", "c.txt.aec"}


def test_mode_of_the_original(place: str) -> None:
    path = write(place, "a", DATA)
    os.chmod(path, 0o600)
    done(place, "keep", "a", "-n", "16", "--anyway")
    assert os.stat(path + ".aec").st_mode & 0o077 == 0, "a private file's archive is private"


def test_a_file_that_another_run_has_locked_is_counted(place: str) -> None:
    """Two runs of one folder: each file is kept once, and both end with status 0."""
    for number in range(40):
        write(place, f"f{number}", DATA)
    words = ["keep", ".", "-n", "16", "--anyway", "--jobs", "1"]
    runs = [start(place, *words) for _ in range(2)]
    ended = [it.ended() for it in runs]
    assert [it.status for it in ended] == [0, 0], ended
    assert "40 checked, 40 sound, 0 damaged" in done(place, "check", ".").out
    assert leftovers(place) == [] and len(os.listdir(place)) == 80
    for ran in ended:
        assert "no files" not in ran.said, ran


def count_kept(place: str) -> int:
    """Returns how many files of a folder are kept: written and renamed, not the hidden ones."""
    return len(glob.glob(os.path.join(place, "*.aec")))


def test_stopped_by_a_signal(place: str) -> None:
    for number, jobs in ((signal.SIGINT, "1"), (signal.SIGINT, "2"), (signal.SIGTERM, "2")):
        for name in os.listdir(place):
            os.unlink(os.path.join(place, name))
        for i in range(200):
            write(place, f"f{i}", FAST.stored(walk(7, 3000)))
        running = start(place, "keep", ".", "-n", "16", "--jobs", jobs)
        while count_kept(place) < 15 and running.child:
            time.sleep(0.002)
            if os.waitid(os.P_PID, running.child, os.WEXITED | os.WNOHANG | os.WNOWAIT):
                break
        if number == signal.SIGINT:
            os.killpg(running.child, number)
        else:
            running.kill(number)
        ran = running.ended()
        assert ran.status in (128 + number, 0), ran
        assert "Traceback" not in ran.said, ran
        assert command(place, "check", ".").status == 0
        done(place, "keep", ".", "-n", "16")
        assert sorted(os.listdir(place)) == sorted([f"f{i}" for i in range(200)] + [f"f{i}.aec" for i in range(200)])


def test_an_old_pair_becomes_one_file(place: str) -> None:
    samples = walk(1, 3000)
    old_pair(place, "a", samples)
    write(place, "a", USUAL.stored(samples))
    ran = command(place, "keep", "a", *words_of(USUAL))
    assert ran.status == 0, ran
    if "a.aec.json" not in os.listdir(place):
        assert samples_at(os.path.join(place, "a.aec")) == samples


def test_status_json(place: str) -> None:
    import json

    for name in "ab":
        write(place, name, DATA)
    write(place, "odd", b"abc")
    ran = command(place, "keep", "a", "b", "odd", "-n", "16", "--anyway", "--json")
    found = json.loads(ran.out)
    assert ran.status == 1
    text = json.dumps(found)
    assert all(name in text for name in ("odd", '"a"', '"b"')), text
    status, found = check_json(place, "a.aec", "b.aec")
    assert status == 0 and found["faults"] == []


def test_threads_of_the_tests_are_none() -> None:
    assert threading.active_count() == 1, "forked children must not inherit locks"


def test_nothing_is_left_when_a_file_cannot_be_read(place: str) -> None:
    write(place, "a", DATA)
    write(place, "b", DATA)
    hooks = Hooks(fail="read", error=5, fail_path=os.path.join(place, "a"))
    ran = command(place, "keep", "a", "b", "-n", "16", "--anyway", "--jobs", "1", how=How(hooks=hooks))
    assert ran.status == 1 and "a" in ran.err, ran
    assert sorted(os.listdir(place)) == ["a", "b", "b.aec"], "the next file is kept"


def test_in_child_reports() -> None:
    assert in_child("/", lambda: 1 / 0).status == 71
