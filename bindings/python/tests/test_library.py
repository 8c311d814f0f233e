"""The library that the module loads: where it is, which are refused, and with which one-line
message."""

import ctypes
import os
import re
import shutil
import subprocess
import sys

import aecp
import pytest
from aecp import levels, library
from helpers import raised

ENCODE = "import aecp; aecp.encode(b'', aecp.Options(8))"  # the library is loaded at the first call


def _run(code, **more):
    """Runs Python in a process of its own, with more variables of the environment."""
    given = {**os.environ, **more}
    return subprocess.run([sys.executable, "-c", code], env=given, capture_output=True, text=True)


@pytest.mark.parametrize("name", ["none.so", "empty.so", "libc.so.6"])
def test_a_library_that_cannot_be_used(tmp_path, name):
    """A missing library, a file that is no library, and a library without the calls: one
    ImportError of one line."""
    (tmp_path / "empty.so").touch()
    path = name if name == "libc.so.6" else str(tmp_path / name)
    ended = _run(ENCODE, AECP_LIBRARY=path)
    found = [it for it in ended.stderr.splitlines() if re.match(r"\w+Error: |During|The above", it)]
    assert len(found) == 1 and found[0].startswith(
        f"ImportError: aecp can't use the library {path}: "
    )
    assert found[0].endswith(" (`make library` builds it, AECP_LIBRARY names another)")


def test_the_import_needs_no_library(tmp_path):
    """The module is imported, and options are made, without the library and without numpy."""
    code = "import aecp, sys; aecp.Options(8); assert 'numpy' not in sys.modules"
    code += "; print(aecp.__version__)"
    ended = _run(code, AECP_LIBRARY=str(tmp_path / "none"))
    assert (ended.stdout, ended.stderr) == (f"{aecp.__version__}\n", "")


def test_objects_that_were_not_made(tmp_path):
    """If the library can't be loaded, the ends of a process and of half-made objects print
    nothing."""
    code = "import aecp\ntry:\n    aecp.Workspace(aecp.Options(8))\n"
    code += "except ImportError:\n    print('none')"
    for name in ("Workspace", "Encoder"):
        ended = _run(code.replace("Workspace", name), AECP_LIBRARY=str(tmp_path / "none"))
        assert (ended.stdout, ended.stderr) == ("none\n", "")


@pytest.mark.parametrize(
    ("number", "is_right"),
    [
        (10000, True),
        (10007, True),
        (10200, True),
        (9900, False),
        (100, False),
        (20000, False),
        (None, True),
    ],
)
def test_the_version_of_a_library(monkeypatch, number, is_right):
    """A library of another major or an older minor version is refused, one without a version
    isn't."""
    monkeypatch.setattr(library, "VERSION", 10000)
    call = type("Call", (), {"__call__": lambda _: number})
    given = type("Library", (), {} if number is None else {"aecp_version": call()})
    if is_right:
        library.judge_version(given)
    else:
        found = f"{number // 10000}.{number // 100 % 100}.0"
        with pytest.raises(OSError, match=f"^it has version {found}, and the module needs 1.0$"):
            library.judge_version(given)


@pytest.mark.parametrize(
    ("number", "is_right"), [(10299, False), (10300, True), (10400, True), (20300, False)]
)
def test_an_older_minor_version(monkeypatch, number, is_right):
    """A module of version 1.3 needs a library from 1.3 on."""
    monkeypatch.setattr(library, "VERSION", 10300)
    call = type("Call", (), {"__call__": lambda _: number})
    given = type("Library", (), {"aecp_version": call()})
    assert (type(raised(lambda: library.judge_version(given))) is OSError) != is_right


@pytest.mark.skipif(shutil.which("cc") is None, reason="no C compiler, the command cc")
def test_a_library_of_another_version(tmp_path):
    """A library of another major version that has all calls is refused too."""
    names = sorted(library.call_types())
    lines = [f"int {name}(void) {{ return 0; }}" for name in names]
    lines.append("unsigned aecp_version(void) { return 20003; }")
    (tmp_path / "other.c").write_text("\n".join(lines), encoding="ascii")
    path = str(tmp_path / "other.so")
    subprocess.run(["cc", "-shared", "-fPIC", "-o", path, str(tmp_path / "other.c")], check=True)
    said = _run(ENCODE, AECP_LIBRARY=path).stderr.splitlines()[-1]
    assert said.startswith(
        f"ImportError: aecp can't use the library {path}: it has version 2.0.3, and "
    )


def test_the_version_of_the_module():
    """The version that the module needs is its own, without the last number."""
    major, minor = aecp.__version__.split(".")[:2]
    assert library.VERSION == int(major) * 10000 + int(minor) * 100


def test_where_the_library_is(monkeypatch, tmp_path):
    """AECP_LIBRARY comes first, then the module's folder, then bin/ of a checkout, then the
    loader."""
    monkeypatch.setenv("AECP_LIBRARY", "/named/libaecp.so")
    assert library.place_of_library() == "/named/libaecp.so"
    monkeypatch.setenv("AECP_LIBRARY", "")
    monkeypatch.setenv("AECP_LEVEL", "x86-64-v3")
    here, built = tmp_path / "bindings" / "python" / "aecp", tmp_path / "bin"
    monkeypatch.setattr(library, "HERE", str(here))
    assert library.place_of_library() == "libaecp.so.1"
    for folder in (built, built / "x86-64-v3", here, here / "x86-64-v3"):
        folder.mkdir(parents=True)
        (folder / "libaecp.so").touch()
        assert library.place_of_library() == str(folder / "libaecp.so")
    monkeypatch.setenv("AECP_LEVEL", "x86-64-v2")
    assert library.place_of_library() == str(here / "libaecp.so")


def test_the_level_of_a_processor(monkeypatch):
    """A processor has x86-64-v3 if /proc/cpuinfo lists all that the level adds."""
    flags = " ".join(levels.FLAGS)
    assert levels.level_of(f"processor: 0\nflags\t\t: fpu {flags} sse2\n") == levels.V3
    for flag in levels.FLAGS:
        rest = " ".join(it for it in levels.FLAGS if it != flag)
        assert levels.level_of(f"flags\t: fpu {rest} {flag}x\n") == levels.PLAIN
    assert levels.level_of("") == levels.PLAIN
    assert levels.lacking(f"flags\t: fpu {flags}\n") == list(levels.NEEDED)
    assert levels.lacking(f"flags\t: {' '.join(levels.NEEDED)}\n") == levels.lacking("") == []
    monkeypatch.setattr(levels, "CPUINFO", "/nonexistent")
    monkeypatch.delenv("AECP_LEVEL", raising=False)
    assert levels.level() == levels.PLAIN
    monkeypatch.setenv("AECP_LEVEL", "v3")
    with pytest.raises(ImportError, match="^AECP_LEVEL must be x86-64-v2 or x86-64-v3, not v3$"):
        levels.level()


def test_an_old_processor(monkeypatch, tmp_path):
    """On a processor that lacks what every built library uses, no library is loaded, unless
    AECP_LEVEL names a level."""
    place = tmp_path / "cpuinfo"
    monkeypatch.setattr(levels, "CPUINFO", str(place))
    monkeypatch.delenv("AECP_LEVEL", raising=False)
    place.write_text("flags\t: fpu popcnt sse4_1 ssse3\n", encoding="ascii")
    text = "^aecp needs a processor with x86-64-v2; this one lacks sse4_2$"
    with pytest.raises(ImportError, match=text):
        library.load()
    monkeypatch.setenv("AECP_LEVEL", "x86-64-v2")
    assert library.load().aecp_version() >= library.VERSION


def test_the_structs_of_the_header(checkout):
    """The structures have the members of aecp.h, in their order, and each call of aecp.h is
    declared."""
    header = (checkout / "bindings" / "c" / "aecp.h").read_text(encoding="utf-8")
    text = re.sub(r"/\*.*?\*/", "", header, flags=re.S)
    found = re.findall(r"typedef struct \{([^}]*)\} (\w+);", text)
    members = {name: re.findall(r"(\w+);", body) for body, name in found}
    assert members.pop("aecp_options")[3] == "is_signed"
    assert [name for name, _ in library.COptions._fields_] == [*library.NUMBERS, *library.FLAGS]
    structs = (library.Reply, library.EditReply, library.Handle, library.Coder, library.Reader)
    names = ("aecp_reply", "aecp_edit_reply", "aecp_handle", "aecp_coder", "aecp_reader")
    for name, struct in zip(names, structs):
        assert [it for it, _ in struct._fields_] == members.pop(name), name
    assert members == {}
    declared = set(re.findall(r"\b(aecp_\w+)\(", text)) - {"aecp_version"}
    assert set(library.call_types()) == declared


def test_the_library_is_loaded_once():
    """The library is loaded at the first call, and its calls are kept."""
    fresh = library.Library()
    assert not fresh.is_loaded
    with pytest.raises(AttributeError):
        fresh.__wrapped__
    assert not fresh.is_loaded
    call = fresh.aecp_bound
    assert fresh.is_loaded and fresh.aecp_bound is call
    assert isinstance(fresh.load_now(), ctypes.CDLL) and fresh.load_now() is fresh.load_now()
    assert library.LIBRARY.load_now() is library.LIBRARY.load_now()


def test_options_for_c():
    """Options become a structure of C with the same members; equal options share it."""
    options = aecp.Options(12, 8, 3, signed=True, pad=True, even_blocks=True)
    made = library.c_options(options)
    for name in library.NUMBERS + library.FLAGS:
        assert getattr(made, name) == getattr(options, name), name
    assert (
        library.c_options(aecp.Options(12, 8, 3, signed=True, pad=True, even_blocks=True)) is made
    )
