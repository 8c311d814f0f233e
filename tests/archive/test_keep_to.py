"""`aecp keep --to` and `--repair`, headers of .npy and FITS files, and disks of every kind."""

from __future__ import annotations

import os
import subprocess
from pathlib import Path
from typing import Any

import aecp
import pytest
from making import FAST, USUAL, flip, keep, leftovers, noise, parts_at, read, samples_at, sound_parts, tree, walk, words_of, write
from running import How, Hooks, command, done, refused
from lib.settings import Settings

DATA = USUAL.stored(walk(3, 500))

LIMITED = """
import resource, sys
resource.setrlimit(resource.RLIMIT_AS, (200 << 20,) * 2)
from aecp.cli import main
main(sys.argv[1:])
"""


def test_to_another_folder(place: str, tmp_path: Any) -> None:
    data = os.path.join(place, "data")
    os.makedirs(os.path.join(data, "run0"))
    write(data, "a", DATA)
    write(data, "run0/b", DATA)
    before = tree(data)
    done(place, "keep", "data", "-n", "16", "--anyway", "--to", "out")
    assert tree(data) == before, "nothing is written beside the originals"
    found = sorted(it for it in tree(os.path.join(place, "out")) if it.endswith(".aec"))
    assert len(found) == 2 and found[0].endswith("a.aec") and found[1].endswith(os.path.join("run0", "b.aec"))
    assert "2 kept already" in done(place, "keep", "data", "-n", "16", "--anyway", "--to", "out").said
    done(place, "back", "out", "--to", "again")
    files = {name: it for name, it in tree(os.path.join(place, "again")).items() if isinstance(it, bytes)}
    assert sorted(files.values()) == [DATA, DATA]


def test_a_read_only_folder_is_kept_elsewhere(tmp_path: Any) -> None:
    data, out = tmp_path / "data", tmp_path / "out"
    for folder in (data, out):
        folder.mkdir()
    (data / "a").write_bytes(DATA)
    os.chmod(tmp_path, 0o755)
    for it in Path(str(tmp_path)).parents:
        if it != Path("/") and str(it) != "/tmp":
            os.chmod(it, 0o755)
    os.chmod(data, 0o555)
    os.chmod(out, 0o777)
    as_nobody = How(user=65534)
    ran = refused(str(tmp_path), "keep", "data", "-n", "16", "--anyway", "--jobs", "1", how=as_nobody)
    assert "ermission denied" in ran.said
    done(str(tmp_path), "keep", "data", "-n", "16", "--anyway", "--jobs", "1", "--to", "out", how=as_nobody)
    done(str(tmp_path), "check", "out", "--jobs", "1", how=as_nobody)
    assert os.listdir(data) == ["a"]


def test_repair_makes_a_damaged_file_anew(place: str) -> None:
    samples = walk(1, 3000)
    path = keep(place, "a", samples)
    sound = parts_at(path)
    flip(path, 4000)
    ran = command(place, "keep", "a", *words_of(USUAL), "--repair")
    assert ran.status == 0, ran
    assert samples_at(path) == samples
    assert sound_parts(path).stream == sound.stream
    before = read(path)
    assert done(place, "keep", "a", *words_of(USUAL), "--repair").status == 0
    assert read(path) == before, "a sound file stays"


def test_repair_applies_the_recorded_edits(place: str) -> None:
    path = keep(place, "a", walk(1, 3000))
    done(place, "edit", "a.aec", "-", given=b"append 7\n")
    done(place, "undo", "a.aec")
    done(place, "edit", "a.aec", "-", given=b"overwrite 5 9\n")
    sound = parts_at(path)
    flip(path, 4000)
    assert command(place, "keep", "a", *words_of(USUAL), "--repair").status == 0
    parts = sound_parts(path)
    assert (parts.stream, parts.history, parts.fields["source"]) == (sound.stream, sound.history, sound.fields["source"])
    done(place, "undo", "a.aec")
    assert samples_at(path) == walk(1, 3000)


@pytest.mark.parametrize("how", ["another original", "another head", "edits that are forgotten", "no original"])
def test_repair_refuses(place: str, how: str) -> None:
    write(place, "a", b"head" + USUAL.stored(walk(1, 3000)))
    words = ["keep", "a", *words_of(USUAL), "--skip", "4", "--anyway"]
    done(place, *words)
    path = os.path.join(place, "a.aec")
    if how == "edits that are forgotten":
        done(place, "edit", "a.aec", "-", given=b"overwrite 5 9\n")
        done(place, "forget", "a.aec", "--keep", "0")
    if how == "another head":
        write(place, "a", b"HEAD" + USUAL.stored(walk(1, 3000)))
    flip(path, 4000)
    if how == "another original":
        status = os.stat(path[:-4])
        write(place, "a", b"head" + USUAL.stored(walk(2, 3000)))
        os.utime(path[:-4], ns=(status.st_mtime_ns, status.st_mtime_ns))
    if how == "no original":
        os.unlink(path[:-4])
    before = tree(place)
    ran = command(place, *words, "--repair")
    assert ran.status == 1 and ran.err.strip(), ran
    assert tree(place) == before


def test_repair_keeps_nothing(place: str) -> None:
    """A file without a kept file is refused, also where --to is given and a named file has only its last name below DIR."""
    os.mkdir(os.path.join(place, "data"))
    write(place, os.path.join("data", "a"), USUAL.stored(walk(1, 3000)))
    words = [*words_of(USUAL), "--anyway", "--jobs", "1"]
    done(place, "keep", "data", *words, "--to", "disk")
    path = os.path.join(place, "disk", "data", "a.aec")
    flip(path, 4000)
    before = tree(place)
    disk, other = (os.path.join(place, *names) for names in (("disk", "a.aec"), ("other", "data", "a.aec")))
    for more, name in (
        (["data/a", "--to", "disk"], disk),
        (["data/a"], "data/a.aec"),
        (["data"], "data/a.aec"),
        (["data", "--to", "other"], other),
    ):
        ran = refused(place, "keep", *more, *words, "--repair")
        assert f"aecp: data/a: there is no kept file {name} to repair" in ran.err and "1 refused" in ran.out, ran
    assert tree(place) == before, "no file and no folder is made"
    assert "1 repaired" in done(place, "keep", "data", "--to", "disk", "--repair").out
    assert samples_at(path) == walk(1, 3000)


@pytest.mark.parametrize("more", [[], words_of(USUAL)], ids=["without options", "with options"])
def test_repair_leaves_an_empty_kept_file(place: str, more: list[str]) -> None:
    """It isn't removed, and the original isn't kept anew."""
    write(place, "a", USUAL.stored(walk(1, 3000)))
    write(place, "a.aec", b"")
    before = tree(place)
    ran = refused(place, "keep", "a", *more, "--repair")
    assert "there is no kept file a.aec to repair: the file of this name is empty" in ran.err, ran
    assert "1 refused" in ran.out and tree(place) == before


def test_damage_is_not_counted_as_kept(place: str) -> None:
    """With the original at hand, `keep` of a folder doesn't call a file kept whose end is gone."""
    path = keep(place, "a", walk(1, 3000))
    os.truncate(path, 500)
    ran = command(place, "keep", "a", *words_of(USUAL))
    assert ran.status == 1 and "kept already" not in ran.out, ran


def test_fits_headers(place: str) -> None:
    card = "".join(
        f"{it:<80}"
        for it in (
            "SIMPLE  =                    T", "BITPIX  =                   16", "NAXIS   =                    2",
            "NAXIS1  =                  100", "NAXIS2  =                   60", "END",
        )
    )  # fmt: skip
    head = card.encode().ljust(2880, b" ")
    big = Settings(bits=16, block_size=16, interval=128, msb_first=True, signed=True)
    data = big.stored(walk(1, 6000))
    whole = head + data + bytes(-len(data) % 2880)
    write(place, "a.fits", whole)
    done(place, "keep", "a.fits", "-n", "16")
    parts = sound_parts(os.path.join(place, "a.fits.aec"))
    assert (parts.fields["shape"], parts.fields["dtype"]) == ([60, 100], ">i2")
    os.unlink(os.path.join(place, "a.fits"))
    done(place, "back", "a.fits.aec")
    assert read(place, "a.fits") == whole


def fits_part(first: str, bits: int, sizes: tuple[int, ...], data: bytes) -> bytes:
    """Returns a header and data, each filled up to whole blocks of 2,880 bytes."""
    cards = [first, f"BITPIX  = {bits:20}", f"NAXIS   = {len(sizes):20}"]
    cards += [f"NAXIS{i + 1}  = {it:20}" for i, it in enumerate(sizes)]
    if first.startswith("XTENSION"):
        cards += [f"PCOUNT  = {0:20}", f"GCOUNT  = {1:20}"]
    head = "".join(f"{it:<80}" for it in [*cards, "END"]).encode()
    return head + b" " * (-len(head) % 2880) + data + bytes(-len(data) % 2880)


def test_a_fits_image_after_one_of_floats(place: str) -> None:
    """The first image of whole numbers is kept, and what is before it is its head. The floats look like a line of a header."""
    data = Settings(bits=16, msb_first=True, signed=True).stored(walk(1, 6000))
    first = fits_part("SIMPLE  =                    T", -32, (10, 11), b"BITPIX  =                    8".ljust(440))
    whole = first + fits_part("XTENSION= 'IMAGE   '", 16, (100, 60), data)
    write(place, "a.fits", whole)
    done(place, "keep", "a.fits", "--remove")
    parts = sound_parts(os.path.join(place, "a.fits.aec"))
    assert (parts.fields["shape"], parts.fields["dtype"], parts.fields["samples"]["count"]) == ([60, 100], ">i2", 6000)
    done(place, "back", "a.fits.aec")
    assert read(place, "a.fits") == whole


def test_skip_bytes(place: str) -> None:
    whole = b"header of 23 bytes ....\n"[:23] + DATA
    write(place, "a.edf", whole)
    done(place, "keep", "a.edf", "-n", "16", "--skip", "23", "--anyway", "--shape", "20x25", "--dtype", "<u2")
    parts = sound_parts(os.path.join(place, "a.edf.aec"))
    assert parts.fields["shape"] == [20, 25] and parts.fields["samples"]["count"] == 500
    done(place, "keep", "a.edf", "-n", "16", "--skip", "23", "--anyway", "--remove", "--shape", "20x25", "--dtype", "<u2")
    assert os.listdir(place) == ["a.edf.aec"]
    done(place, "back", "a.edf.aec")
    assert read(place, "a.edf") == whole


HEADS = [b"\x93NUMPY\x01\x00\xff\xff{", b"\x93NUMPY\x01\x00\x10\x00{'descr': '<u2'}", b"SIMPLE  = T" + b"x" * 3000]


@pytest.mark.parametrize("head", HEADS)
def test_broken_headers(place: str, head: bytes) -> None:
    """A header that can't be read is refused, or the file is kept as samples: it comes back either way."""
    name = "a.npy" if head[:1] == b"\x93" else "a.fits"
    whole = head + bytes(len(head) % 2) + DATA
    write(place, name, whole)
    ran = command(place, "keep", name, "-n", "16", "--anyway")
    if ran.status == 0:
        os.unlink(os.path.join(place, name))
        done(place, "back", name + ".aec")
        assert read(place, name) == whole
    else:
        assert os.listdir(place) == [name]


def test_an_npy_of_floats_is_not_taken_for_integers(place: str) -> None:
    numpy = pytest.importorskip("numpy")
    numpy.save(os.path.join(place, "a.npy"), numpy.ones(100, dtype="f4"))
    ran = command(place, "keep", "a.npy", "-n", "32", "--anyway")
    if ran.status == 0:
        assert sound_parts(os.path.join(place, "a.npy.aec")).fields["dtype"] != "<f4"


def test_big_numpy_files_in_fortran_order_come_back(place: str) -> None:
    numpy = pytest.importorskip("numpy")
    array = numpy.asfortranarray(numpy.array(walk(1, 6000), dtype="u2").reshape(60, 100))
    numpy.save(os.path.join(place, "a.npy"), array)
    whole = read(place, "a.npy")
    done(place, "keep", "a.npy", "-n", "16", "--anyway")
    os.unlink(os.path.join(place, "a.npy"))
    done(place, "back", "a.npy.aec")
    assert read(place, "a.npy") == whole
    shape = sound_parts(os.path.join(place, "a.npy.aec")).fields["shape"]
    if shape == [60, 100]:
        assert (numpy.asarray(aecp.open(os.path.join(place, "a.npy.aec"))) == array).all()


def test_a_full_disk(place: str) -> None:
    samples = noise(1, 9000)
    for room in (0, 1, 4000, 18050, 18500):
        write(place, "a", FAST.stored(samples))
        ran = command(place, "keep", "a", "-n", "16", "--anyway", "--jobs", "1", how=How(hooks=Hooks(room=room)))
        assert ran.status == 1 and "space" in ran.err, (room, ran)
        assert os.listdir(place) == ["a"]


def test_no_hard_links_and_no_renameat2(place: str) -> None:
    """As on exFAT and sshfs."""
    hooks = Hooks(refuse=("link", "linkat", "renameat2"), error=1)
    write(place, "a", DATA)
    words = ("keep", "a", "-n", "16", "--anyway", "--jobs", "1")
    done(place, *words, how=How(hooks=hooks))
    assert sorted(os.listdir(place)) == ["a", "a.aec"]
    os.unlink(os.path.join(place, "a"))
    done(place, "back", "a.aec", how=How(hooks=hooks))
    assert read(place, "a") == DATA
    done(place, "edit", "a.aec", "-", given=b"append 1\n", how=How(hooks=hooks))
    done(place, "undo", "a.aec", how=How(hooks=hooks))
    refused(place, "back", "a.aec", how=How(hooks=hooks))
    for error in (22, 38, 95):
        os.unlink(os.path.join(place, "a"))
        done(place, "back", "a.aec", how=How(hooks=Hooks(refuse=("link", "linkat", "renameat2"), error=error)))
    assert leftovers(place) == []


def test_a_file_system_of_64_kib(tmp_path: Any) -> None:
    disk = tmp_path / "disk"
    disk.mkdir()
    if os.geteuid() != 0 or subprocess.run(["mount", "-t", "tmpfs", "-o", "size=64k", "none", str(disk)], check=False).returncode:
        pytest.skip("nothing can be mounted here")
    try:
        (disk / "data").write_bytes(os.urandom(40000))
        ran = command(str(disk), "keep", "data", "-n", "8", "--anyway")
        assert ran.status == 1 and "space" in ran.err
        assert os.listdir(disk) == ["data"]
    finally:
        subprocess.run(["umount", str(disk)], check=True)


def test_little_memory(place: str) -> None:
    """Keeps, checks and restores 128 MiB in a process that may have 200 MiB of address space."""
    piece = bytes((1 << 20) - 2)
    write(place, "f", b"".join(piece + number.to_bytes(2, "little") for number in range(128)))
    environment = {key: it for key, it in os.environ.items() if key != "LD_PRELOAD"}
    import sys

    for line in ("keep f -n 16 --jobs 1", "check f.aec --jobs 1", "back f.aec out", "rescue f.aec out2"):
        words = line.split()
        words = [sys.executable, "-c", LIMITED, *words]
        ended = subprocess.run(words, cwd=place, env=environment, capture_output=True, text=True, check=False)
        assert ended.returncode == 0, (words, ended.stdout, ended.stderr)
    for name in ("out", "out2"):
        assert subprocess.run(["cmp", "f", name], cwd=place, check=False).returncode == 0
