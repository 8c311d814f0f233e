"""The words of the command, its help, its standard streams, and how it ends."""

from __future__ import annotations

import os
import subprocess
import sys
from typing import Any

import pytest
from making import USUAL, keep, read, tree, walk, write
from running import How, command, done, refused

VERBS = [
    "keep", "back", "check", "edit", "undo", "forget", "log", "diff", "pixels", "info", "fit", "rescue", "export", "view",
]  # fmt: skip
HERE = os.path.dirname(os.path.abspath(__file__))


def shell(place: str, line: str, **environment: str) -> Any:
    """Runs a line of the shell, in which `aecp` is the command."""
    made = f'aecp() {{ "{sys.executable}" -m aecp "$@"; }}\n{line}'
    clean = {key: it for key, it in os.environ.items() if key != "LD_PRELOAD"}
    clean.update(environment)
    words = ["sh", "-c", made]
    return subprocess.run(words, cwd=place, env=clean, capture_output=True, text=True, errors="replace", timeout=180, check=False)


@pytest.mark.parametrize("verb", VERBS)
def test_help_and_wrong_words(place: str, verb: str) -> None:
    for words in ([verb, "--help"], ["help", verb]):
        ran = done(place, *words)
        assert ran.out.startswith(f"usage: aecp {verb}") and ran.err == "", ran
        assert len(ran.out.splitlines()) > 3
    ran = command(place, verb, "--no-such-word")
    assert ran.status == 2 and f"usage: aecp {verb}" in ran.err, "an error shows the verb's own usage"
    assert command(place, verb).status == 2


def test_no_verb_loads_numpy(place: str) -> None:
    # numpy starts threads, which wait for ever where memory is short.
    write(place, "numpy.py", b"raise SystemExit('numpy is loaded')\n")
    write(place, "f", USUAL.stored(walk(1, 3000)))
    write(place, "script", b"overwrite 3 1 2\n")
    write(place, "table.csv", b"place,value\n9,4\n")
    lines = [
        "keep f -n 16", "check f.aec", "info f.aec", "edit f.aec script", "edit f.aec table.csv", "undo f.aec", "log f.aec",
        "diff f.aec f.aec", "pixels table.csv", "back f.aec --range 5:7 part", "back f.aec whole", "export f.aec stream",
        "rescue f.aec some", "fit f -n 16", "view f.aec f.png --width 50", "forget f.aec --keep 1",
    ]  # fmt: skip
    path = os.pathsep.join([place, os.environ["PYTHONPATH"]])
    for line in lines:
        ran = shell(place, f"aecp {line}", PYTHONPATH=path)
        assert ran.returncode == 0 and "numpy" not in ran.stdout + ran.stderr, (line, ran)
    assert {line.split()[0] for line in lines} == set(VERBS)


def test_top(place: str) -> None:
    assert command(place).status == 2
    assert command(place, "nothing").status == 2
    assert command(place, "help", "nothing").status in (1, 2)
    version = done(place, "-V").out
    assert version.startswith("aecp ") and done(place, "--version").out == version
    for verb in VERBS:
        assert verb in done(place, "--help").out


def test_no_abbreviations(place: str) -> None:
    write(place, "f", USUAL.stored(walk(1, 500)))
    for word in ("--rem", "--remov", "--any", "--job"):
        ran = command(place, "keep", "f", "-n", "16", "--anyway", word)
        assert ran.status == 2, word
    assert os.listdir(place) == ["f"]
    keep(place, "f", walk(1, 500))
    assert command(place, "check", "f.aec", "--js").status == 2
    assert command(place, "--vers").status == 2


def test_options_among_names(place: str) -> None:
    for name in "abc":
        write(place, name, USUAL.stored(walk(1, 500)))
    done(place, "keep", "a", "-n", "16", "b", "--anyway", "c")
    assert len(os.listdir(place)) == 6
    done(place, "check", "a.aec", "--json", "b.aec")


def test_numbers_out_of_range(place: str) -> None:
    keep(place, "f", walk(1, 500))
    write(place, "g", USUAL.stored(walk(1, 500)))
    before = tree(place)
    large = str(10**23)
    for words in (
        ["fit", "f", "-n", "99999999999"], ["rescue", "f.aec", "-n", "99999999999"], ["rescue", "f.aec", "-n", "16", "--count", large],
        ["view", "f.aec", "o.png", "-n", "16", "--range", f"{large}:1", "--width", "3"], ["keep", "g", "-n", large],
        ["keep", "g", "-n", "-1"],
        ["keep", "g", "-n", "16", "-j", large], ["keep", "g", "-n", "16", "-r", "0"], ["keep", "g", "-n", "16", "--jobs", "0"],
        ["keep", "g", "-n", "16", "--jobs", "-3"], ["keep", "g", "-n", "16", "--skip", large], ["keep", "g", "-n", "16", "--skip", "-1"],
        ["keep", "g", "-n", "16", "--shape", f"{large}x2"], ["keep", "g", "-n", "16", "--shape", "0x"], ["keep", "g", "-n", "x"],
        ["keep", "g", "-n", "16", "--dtype", "f8"], ["log", "f.aec", "--script", large], ["forget", "f.aec", "--keep", "-1"],
        ["forget", "f.aec", "--keep", "x"], ["check", "f.aec", "--limit", "-1"], ["pixels", "--shape", f"{large}x9", "f"],
        ["view", "f.aec", "o.png", "--width", large], ["view", "f.aec", "o.png", "--width", "9", "--frame", large],
    ):  # fmt: skip
        ran = command(place, *words)
        assert ran.status in (1, 2) and ran.err.strip(), (words, ran)
        assert tree(place) == before, words


@pytest.mark.parametrize("unbuffered", ["", "1"])
def test_a_full_output(place: str, unbuffered: str) -> None:
    if not os.path.exists("/dev/full"):
        pytest.skip("no /dev/full")
    keep(place, "f", walk(1, 500))
    for line in ("aecp check . >/dev/full", "aecp --version >/dev/full", "aecp back f.aec - >/dev/full", "aecp log f.aec >/dev/full",
                 "aecp info f.aec > /dev/full", "aecp check . --json >/dev/full", "aecp --help >/dev/full"):  # fmt: skip
        ended = shell(place, line, PYTHONUNBUFFERED=unbuffered)
        assert ended.returncode == 1 and "Traceback" not in ended.stderr and ended.stderr.strip(), (line, ended)
        assert "Exception ignored" not in ended.stderr, (line, ended)


@pytest.mark.parametrize(
    "line,status",
    [
        ("aecp check . >&-", (0, 1)),
        ("aecp check . 2>&-", (0,)),
        ("aecp check . <&-", (0,)),
        ("aecp back f.aec - >&-", (1,)),
        ("aecp edit f.aec - <&-", (1,)),
        ("aecp check . <&- >&- 2>&-", (0, 1)),
        ("aecp nothing 2>&-", (2,)),
        ("aecp back none.aec 2>&-", (1,)),
        ("aecp keep f -n 16 -j 16 -r 4 2>&- >&-", (0, 1)),
    ],
)
def test_closed_streams(place: str, line: str, status: tuple[int, ...]) -> None:
    keep(place, "f", walk(1, 500))
    before = tree(place)
    ended = shell(place, line)
    assert ended.returncode in status and "Traceback" not in ended.stderr and "Exception" not in ended.stderr, ended
    assert tree(place) == before


def test_names_that_the_terminal_cannot_show(place: str) -> None:
    keep(place, "é", walk(1, 500))
    name = b"a\x1b[2Jb\n\xff"
    write(os.fsencode(place), name, USUAL.stored(walk(2, 500)))
    done(place, "keep", b"./" + name, "-n", "16", "--anyway")
    for line in ("aecp info *.aec", "aecp check .", "aecp log é.aec", "aecp back . --to out", "aecp undo a*.aec"):
        ended = shell(place, line, PYTHONIOENCODING="ascii", LC_ALL="C.UTF-8")
        assert "Traceback" not in ended.stderr and ended.returncode in (0, 1), (line, ended)
        assert "\x1b" not in ended.stdout + ended.stderr, line
        ended = shell(place, line, LC_ALL="C", PYTHONUTF8="0", PYTHONCOERCECLOCALE="0")
        assert "Traceback" not in ended.stderr, (line, ended)


def test_deep_folders(tmp_path: Any) -> None:
    """3,000 folders in one another."""
    here = os.open(tmp_path, os.O_RDONLY)
    try:
        for _ in range(3000):
            os.mkdir("d", dir_fd=here)
            inner = os.open("d", os.O_RDONLY, dir_fd=here)
            os.close(here)
            here = inner
        file = os.open("f", os.O_CREAT | os.O_WRONLY, dir_fd=here)
        os.write(file, USUAL.stored(walk(1, 500)))
        os.close(file)
    finally:
        os.close(here)
    (tmp_path / "g").write_bytes(USUAL.stored(walk(1, 500)))
    for words in (["keep", ".", "-n", "16", "--anyway"], ["check", "."], ["back", ".", "--to", "out"]):
        ran = command(str(tmp_path), *words)
        assert ran.status in (0, 1), ran
    assert (tmp_path / "g.aec").exists()
    subprocess.run(["rm", "-rf", str(tmp_path / "d"), str(tmp_path / "out")], check=True)


def test_no_library(place: str) -> None:
    keep(place, "f", walk(1, 500))
    ended = shell(place, "aecp --help && aecp keep --help && aecp -V", AECP_LIBRARY="/none.so")
    assert ended.returncode == 0, ended
    ended = shell(place, "aecp check .", AECP_LIBRARY="/none.so")
    assert ended.returncode == 1 and ended.stderr.startswith("aecp: ") and ended.stderr.count("\n") == 1, ended


def test_nothing_loads_numpy(place: str) -> None:
    code = "import sys, aecp, aecp.archive, aecp.cli, aecp.archive._verbs; sys.exit('numpy' in sys.modules)"
    subprocess.run([sys.executable, "-c", code], check=True)


def test_quiet_and_progress(place: str) -> None:
    for i in range(5):
        write(place, f"f{i}", USUAL.stored(walk(i, 500)))
    ran = done(place, "keep", ".", "-n", "16", "--anyway", "-q")
    assert ran.err == "", "nothing on a pipe"
    ran = done(place, "check", ".")
    assert ran.err == "" and "\r" not in ran.out


def test_progress_on_a_terminal(place: str) -> None:
    """On a terminal's standard error there is a line of progress, with -q there is none."""
    import pty

    for i in range(30):
        write(place, f"f{i}", os.urandom(400000))
    for more, wanted in (["-q"], False), ([], True):
        for name in os.listdir(place):
            if name.endswith(".aec"):
                os.unlink(os.path.join(place, name))
        top, side = pty.openpty()
        words = [sys.executable, "-m", "aecp", "keep", ".", "-n", "16", "--anyway", *more]
        running = subprocess.Popen(words, cwd=place, stdout=subprocess.DEVNULL, stderr=side)
        os.close(side)
        said = b""
        while True:
            try:
                part = os.read(top, 4096)
            except OSError:
                break
            if not part:
                break
            said += part
        os.close(top)
        assert running.wait() == 0
        assert bool(said.strip()) == wanted, said


def test_a_missing_script(place: str) -> None:
    keep(place, "f", walk(1, 500))
    refused(place, "edit", "f.aec", "none")
    refused(place, "edit", "f.aec", ".")
    os.mkfifo(os.path.join(place, "pipe"))
    assert read(place, "f") == USUAL.stored(walk(1, 500))


def test_completions_name_every_verb() -> None:
    folder = os.path.join(HERE, "..", "..", "completions")
    found = [name for name in os.listdir(folder) if "aecp" in name]
    if not found:
        pytest.skip("no completions of aecp yet")
    for name in found:
        text = open(os.path.join(folder, name), encoding="utf-8").read()
        assert all(verb in text for verb in VERBS), name


def test_the_page(place: str) -> None:
    """Runs the commands of docs/ARCHIVE.md block by block, and checks that they print each remark that has a digit."""
    import re

    bin_folder = os.path.join(place, "bin")
    os.mkdir(bin_folder)
    write(bin_folder, "aecp", f'#!/bin/sh\nexec "{sys.executable}" -m aecp "$@"\n'.encode())
    os.chmod(os.path.join(bin_folder, "aecp"), 0o755)
    top = os.path.join(HERE, "..", "..")
    os.symlink(os.path.abspath(os.path.join(top, "examples")), os.path.join(place, "examples"))
    text = read(top, "docs", "ARCHIVE.md").decode()
    environment = {**os.environ, "PATH": f"{bin_folder}:{os.environ['PATH']}"}
    environment.pop("LD_PRELOAD", None)
    blocks = [it for it in re.findall(r"```sh\n(.*?)```", text, re.S) if "make " not in it and "srun" not in it]
    assert blocks
    for block in blocks:
        ended = subprocess.run(["sh", "-euc", block], cwd=place, env=environment, capture_output=True, text=True, check=False)
        assert ended.returncode == 0, (block, ended.stdout, ended.stderr)
        for line in block.splitlines():
            remark = line.partition("  # ")[2].strip()
            for part in re.split(r"\.\.|, |; ", remark):
                assert not re.search(r"\d", part) or part.strip() in ended.stdout, (part, ended.stdout)


def test_how_is_used() -> None:
    assert How().given is None
