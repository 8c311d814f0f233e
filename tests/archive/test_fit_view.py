"""`aecp fit` and `aecp view`."""

from __future__ import annotations

import json
import os
import re
import zlib
from typing import Any

import aecp
import pytest
from making import FAST, USUAL, keep, made, options_of, read, walk, words_of, write
from running import command, done, refused
from lib.settings import Settings

WALK = Settings(bits=12, block_size=32, interval=8)


def test_fit_names_sizes(place: str) -> None:
    samples = walk(121, 3000)
    write(place, "walk", WALK.stored(samples))
    ran = done(place, "fit", "walk", "-n", "12")
    assert "recommended" in ran.out
    rows = re.findall(r"^ *(\d+) .*-n 12 -j (\d+) -r (\d+)", ran.out.replace(",", ""), re.M)
    assert len(rows) > 5
    for size, block, interval in rows:
        options = options_of(WALK._replace(block_size=int(block), interval=int(interval)))
        assert int(size) == len(aecp.encode(WALK.stored(samples), options))
    assert json.loads(done(place, "fit", "walk", "-n", "12", "--json").out)


def test_fit_sees_what_was_forgotten(place: str) -> None:
    samples = walk(121, 3000)
    write(place, "walk", WALK.stored(samples))
    write(place, "big", WALK._replace(msb_first=True).stored(samples))
    write(place, "left", WALK._replace(bits=16).stored([it << 4 for it in samples]))
    assert "-m" in done(place, "fit", "big", "-n", "16").out
    assert "lowest 4 bits" in done(place, "fit", "left", "-n", "16").out
    assert "-n 12" in done(place, "fit", "walk", "-n", "16").out
    assert "-m" in done(place, "fit", "big").out
    assert command(place, "fit", "left", "-n", "12").status == 1
    for words in (["none"], ["walk", "-n", "99999999999"], ["walk", "-n", "0"], ["walk", "-n", "16", "-j", "7"]):
        assert command(place, "fit", *words).status in (1, 2), words


def test_fit_of_a_stream_names_unsigned_first(place: str) -> None:
    """Spiky data: as signed samples its differences are smaller, and they decode otherwise."""
    settings = Settings(bits=16, block_size=16, interval=128)
    samples = [x if i % 50 else 65535 - x % 100 for i, x in enumerate(walk(1, 4096, most=600))]
    write(place, "unknown", bytes(aecp.encode(settings.stored(samples), options_of(settings))))
    ran = done(place, "fit", "--stream", "4096", "unknown")
    rows = [line for line in ran.out.splitlines() if "-n 16 -j 16" in line]
    assert rows, ran.out
    first = rows[0]
    assert not re.search(r"-s\b", first), ran.out
    assert any(re.search(r"-s\b", it) for it in rows[1:]), ran.out
    assert "otherwise" in ran.said or "other samples" in ran.said or "differ" in ran.said, ran.said


def test_fit_of_a_stream(place: str) -> None:
    stored = WALK.stored(walk(121, 3000))
    write(place, "unknown", bytes(aecp.encode(stored, options_of(WALK))))
    ran = done(place, "fit", "--stream", "3000", "unknown", "-n", "12")
    assert "-n 12 -j 32 -r 8" in ran.out
    for words, status in (
        (["--stream", "0", "unknown"], (2,)),
        (["--stream", "999999", "unknown", "-n", "12"], (1,)),
        (["--stream", "99999999999999999999", "unknown", "-n", "12"], (1, 2)),
    ):
        assert command(place, "fit", *words).status in status, words


def test_fit_of_folders(place: str) -> None:
    os.mkdir(os.path.join(place, "d"))
    for i in range(3):
        write(place, f"d/f{i}", WALK.stored(walk(i, 3000)))
    ran = command(place, "fit", "d", "-n", "12")
    assert ran.status == 0 and "recommended" in ran.out, ran


def pixels_of(png: bytes) -> tuple[bytes, int, int]:
    """Returns the grey bytes of a PNG file of one data chunk, its width and height."""
    width, height = int.from_bytes(png[16:20], "big"), int.from_bytes(png[20:24], "big")
    at = png.index(b"IDAT")
    rows = zlib.decompress(png[at + 4 : at + 4 + int.from_bytes(png[at - 4 : at], "big")])
    starts = range(1, height * (width + 1), width + 1)
    return b"".join(rows[first : first + width] for first in starts), width, height


def test_view(place: str) -> None:
    settings = Settings(bits=12, signed=True)
    keep(place, "s", [-100, 0, 155, 27, -100], settings)
    done(place, "view", "s.aec", "o.png", "--width", "3", "--min", "-100", "--max", "155")
    assert pixels_of(read(place, "o.png")) == (bytes([0, 100, 255, 127, 0, 0]), 3, 2)
    done(place, "view", "s.aec", "p.pgm", "--width", "2", "--range", "1:2", "--min", "0", "--max", "155")
    assert read(place, "p.pgm") == b"P5\n2 1\n255\n\0\xff"
    write(place, "raw", bytes(aecp.encode(settings.stored([-100, 0, 155, 27, -100]), options_of(settings))))
    done(place, "view", "raw", "o.pgm", "--width", "3", "--count", "5", *words_of(settings), "--min", "-100", "--max", "155")
    assert read(place, "o.pgm") == b"P5\n3 2\n255\n" + bytes([0, 100, 255, 127, 0, 0])


@pytest.mark.parametrize(
    "words",
    [
        ["q.gif", "--width", "3"],
        ["q.pgm", "--width", "0"],
        ["q.pgm", "--width", "99999999"],
        ["q.pgm", "--width", "3", "--range", "1:0"],
        ["q.pgm", "--width", "3", "--range", f"{10**23}:1"],
        ["q.jpg", "--width", "3"],
        ["q.pgm", "--width", "3", "--frame", "99"],
    ],
)
def test_view_refuses(place: str, words: list[str]) -> None:
    keep(place, "s", [1, 2, 3, 4, 5])
    assert command(place, "view", "s.aec", *words).status in (1, 2)
    assert sorted(os.listdir(place)) == ["s", "s.aec"]


def test_view_never_over_a_file(place: str) -> None:
    keep(place, "s", [1, 2, 3, 4, 5])
    write(place, "o.png", b"mine")
    refused(place, "view", "s.aec", "o.png", "--width", "2")
    assert read(place, "o.png") == b"mine"


def test_view_scales_between_percentiles(place: str) -> None:
    """One star doesn't make the sky black."""
    samples = [1000 + i % 100 for i in range(10000)]
    samples[5000] = 65535
    made(os.path.join(place, "f.aec"), samples, FAST, shape=(100, 100))
    done(place, "view", "f.aec", "o.pgm", "--width", "100")
    grey = read(place, "o.pgm")[-10000:]
    assert max(grey[:4000]) > 200 and min(grey[:4000]) < 20


def test_view_of_frames(place: str) -> None:
    samples = [10 * (i // 12) + i % 3 for i in range(36)]
    made(os.path.join(place, "f.aec"), samples, USUAL, shape=(3, 4, 3))
    done(place, "view", "f.aec", "o.pgm", "--frame", "2", "--min", "20", "--max", "22")
    got: Any = read(place, "o.pgm")
    assert got.startswith(b"P5\n3 4\n255\n") and got[-12:] == bytes([0, 127, 255] * 4), got
    assert "none of its 3 frames" in refused(place, "view", "f.aec", "p.pgm", "--frame", "3").err
