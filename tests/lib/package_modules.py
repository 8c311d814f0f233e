"""Tests the wheel in fresh environments of Python, and the Rust crate over the packed archive. For packages.py."""

import filecmp
import glob
import os
import re
import runpy
import shutil
import signal
import subprocess
import sys

from lib.by_pytest import interpreter

TOP = os.path.abspath(os.path.join(os.path.dirname(__file__), "..", ".."))
# The most seconds that one run of cargo may take, so that a call that never returns makes the test fail.
CARGO_SECONDS = 250

WITHOUT_NUMPY = """
import aecp, sys
assert "numpy" not in sys.modules
options = aecp.Options(bits=16)
samples = bytes(range(200)) * 10
coded = aecp.encode(samples, options)
assert bytes(aecp.decode_bytes(coded, 1000, options)) == samples
with aecp.Workspace.of_coded(coded, 1000, options) as work:
    work[10:13] = [7, 8, 9]
    assert list(work[10:13]) == [7, 8, 9] and len(work) == 1000
try:
    aecp.decode(coded, 1000, options)
except ImportError as fault:
    assert "numpy" in str(fault)
else:
    raise SystemExit("arrays without numpy")
print(aecp.__version__)
"""

WITH_NUMPY = """
import aecp, numpy
samples = numpy.arange(4096, dtype="<u2")
options = aecp.Options(bits=16)
coded = aecp.encode(samples, options)
assert (aecp.decode(coded, 4096, options) == samples).all()
"""

WITH_NUMCODECS = """
import numcodecs, numpy
codec = numcodecs.get_codec({"id": "aecp", "bits": 16})
samples = numpy.arange(4096, dtype="<u2")
assert (numpy.frombuffer(codec.decode(codec.encode(samples)), "<u2") == samples).all()
try:
    import zarr
except ImportError:
    print("no zarr")
else:
    if zarr.__version__.startswith("2"):
        array = zarr.array(samples.reshape(64, 64), chunks=(16, 64), compressor=codec)
        assert (array[:].ravel() == samples).all() and array.nbytes_stored < samples.nbytes
        print("zarr", zarr.__version__)
"""

# A caller's code, for mypy --strict.
TYPED = """
import aecp

stored: bytearray = aecp.decode_bytes(b"", 0, aecp.Options(8))
part: bytearray = aecp.decode_range_bytes(b"", 0, 0, 0, aecp.Options(8))
front: memoryview = aecp.decode_bytes(b"", 0, aecp.Options(8), out=bytearray(1))
aecp.decode(b"", 0, aecp.Options(8)).no_such_method()  # type: ignore[attr-defined]


def coded(samples: bytes, options: aecp.Options) -> bytes:
    return bytes(aecp.encode(samples, options))


def total(work: aecp.Workspace) -> int:
    return sum(work)
"""


def clean():
    """Returns an environment without the kit, cargo or a setting of this repository."""
    return {"PATH": "/usr/bin:/bin", "HOME": "/nonexistent", "LC_ALL": "C.UTF-8"}


def run(words, **more):
    """Runs a command in a clean environment. Returns its status and what it prints."""
    done = subprocess.run(words, capture_output=True, text=True, env={**clean(), **more}, cwd="/", timeout=250)
    return done.returncode, done.stdout + done.stderr


def version():
    with open(os.path.join(TOP, "VERSION"), encoding="utf-8") as file:
        return file.read().strip()


def snapshot():
    """Returns time and name of the commit, which its packages have behind the version. Empty for a release, whose
    commit has a tag such as v1.1.0."""

    def git(*words):
        given = {**os.environ, "TZ": "UTC"}
        words = ["git", "-c", "safe.directory=*", *words]
        return subprocess.run(words, cwd=TOP, capture_output=True, text=True, env=given).stdout.strip()

    if f"v{version()}" in git("tag", "--points-at", "HEAD").split():
        return ""
    is_changed = bool(git("status", "--porcelain", "--untracked-files=no"))
    return git("log", "-1", "--date=format-local:%Y%m%d%H%M%S", "--format=%cd.%h", "--abbrev=8") + ".changed" * is_changed


def tarball_version():
    """Returns the version in the name of the tarball in dist/."""
    return f"{version()}~git{snapshot()}" if snapshot() else version()


def python_version():
    """Returns the version of the wheel, the sdist and each copy of the module in dist/."""
    at, _, name = snapshot().partition(".")
    return f"{version()}.dev{at}+g{name}" if at else version()


def venv(python, folder, *words):
    """Makes a fresh environment. Returns the path of its interpreter, or None."""
    status, said = run([python, "-m", "venv", *words, folder])
    if status:
        print(f"skipped, since {python} can't make an environment: {said[-200:]}")
        return None
    return os.path.join(folder, "bin", "python")


def files_of(python):
    top = os.path.dirname(os.path.dirname(python))
    found = {os.path.relpath(os.path.join(at, name), top) for at, _, names in os.walk(top) for name in names}
    return {it for it in found if "__pycache__" not in it}


def try_bare(python, wheel, tally):
    """Installs the wheel without numpy, uses its module and its command, and removes it."""
    before = files_of(python)
    status, said = run([python, "-m", "pip", "install", "--no-index", "--disable-pip-version-check", wheel])
    tally.holds(status == 0, f"pip install: {said}")
    status, said = run([python, "-c", WITHOUT_NUMPY])
    tally.check("the module without numpy", (status, said.strip()), (0, python_version()))
    try_library(python, tally)
    command = os.path.join(os.path.dirname(python), "aecp")
    status, said = run([command, "--help"])
    tally.holds(status == 0 and "keep" in said, f"aecp --help: {said}")
    try_archive(command, os.path.dirname(os.path.dirname(python)), tally)
    status, said = run([python, "-m", "pip", "uninstall", "-y", "--disable-pip-version-check", "aecp"])
    tally.holds(status == 0, f"pip uninstall: {said}")
    tally.check("what the wheel leaves", sorted(files_of(python) - before), [])


def try_library(python, tally):
    """Checks which library the installed module loads, by the processor and by AECP_LEVEL."""
    levels = runpy.run_path(os.path.join(TOP, "bindings/python/aecp/levels.py"))
    here = levels["level"]()
    for asked in {"", levels["PLAIN"], here}:
        status, said = run([python, "-c", "import aecp.library; print(aecp.library.LIBRARY.load_now()._name)"], AECP_LEVEL=asked)
        end = "/aecp/x86-64-v3/libaecp.so\n" if (asked or here) == levels["V3"] else "/aecp/libaecp.so\n"
        tally.holds(status == 0 and said.endswith(end), f"the library that the module loads with AECP_LEVEL={asked}: {said}")


def try_archive(command, folder, tally):
    path = os.path.join(folder, "durations.raw")
    shutil.copy(os.path.join(TOP, "examples", "durations.raw"), path)
    for words in (["keep", path, "-n", "16"], ["check", path + ".aec"]):
        status, said = run([command, *words])
        tally.holds(status == 0, f"aecp {words[0]}: {said}")
    for left in glob.glob(path + "*"):
        os.remove(left)


def try_arrays(python, wheel, folder, tally):
    """Tests the wheel with numpy, numcodecs and zarr, if the system has them."""
    status, said = run([python, "-m", "pip", "install", "--no-index", "--no-deps", "--disable-pip-version-check", wheel])
    tally.holds(status == 0, f"pip install beside numpy: {said}")
    tally.check("the module with numpy", run([python, "-c", WITH_NUMPY]), (0, ""))
    if run([python, "-c", "import numcodecs"])[0]:
        tally.skip("python3-numcodecs", "the codec of the wheel")
    else:
        status, said = run([python, "-c", WITH_NUMCODECS])
        tally.holds(status == 0, f"the codec by its entry point: {said}")
        print(f"numcodecs: {said.strip() or 'without zarr 2'}")
    try_types(python, folder, tally)


def try_types(python, folder, tally):
    mypy = shutil.which("mypy") or shutil.which("mypy", path="/usr/bin")
    if not mypy:
        tally.skip("mypy", "a typed caller of the module")
        return
    source = os.path.join(folder, "typed.py")
    with open(source, "w", encoding="utf-8") as file:
        file.write(TYPED)
    status, said = run([mypy, "--strict", "--cache-dir", os.path.join(folder, "mypy"), "--python-executable", python, source])
    tally.holds(status == 0, f"mypy --strict on a caller: {said}")


def try_wheel(wheel, folder, tally):
    """Tests the wheel in an environment without numpy, and in one with it."""
    bare = venv(sys.executable, os.path.join(folder, "bare"))
    if bare:
        try_bare(bare, wheel, tally)
    else:
        tally.skip("python3-venv", "the wheel without numpy")
    python = interpreter("numpy, h5py", "numpy")
    full = python and venv(python, os.path.join(folder, "full"), "--system-site-packages")
    if full:
        try_arrays(full, wheel, folder, tally)
    else:
        tally.skip("python3-numpy", "the wheel beside numpy")


def try_make(folder, tally):
    """Runs `make install-c` below an empty folder, and removes what it installed. Then does so with `make install-python` in a fresh
    environment, and checks that pip knows each file: of its records nothing may be left."""
    words = ["make", "-s", "-C", TOP, f"DESTDIR={folder}", "PREFIX=/usr"]
    tally.check("make install-c", run([*words, "install-c"]), (0, ""))
    better = os.path.join(folder, "usr/lib/glibc-hwcaps/x86-64-v3/libaecp.so.1")
    tally.check(f"{better} is installed", os.path.exists(better), os.path.exists(os.path.join(TOP, "bin/x86-64-v3/libaecp.so")))
    tally.check("make uninstall-c", run([*words, "uninstall-c"]), (0, ""))
    left = [os.path.join(at, name) for at, _, names in os.walk(folder) for name in names]
    tally.check("what make uninstall-c leaves", left, [])
    for target in ("make -s uninstall-python", "python -m pip uninstall -q -y --disable-pip-version-check aecp"):
        python = venv(sys.executable, os.path.join(folder, target.split()[0]))
        if python:
            try_make_python(python, target.split(), tally)
        else:
            tally.skip("python3-venv", "make install-python")


def try_make_python(python, removal, tally):
    """Runs `make install-python` in an environment, uses what it installed, and removes it by the words of a command."""
    before, top = files_of(python), os.path.dirname(os.path.dirname(python))
    given = {"PATH": f"{top}/bin:/usr/bin:/bin", "VIRTUAL_ENV": top}
    status, said = run(["make", "-s", "-C", TOP, "install-python", f"PYTHON={python}"], **given)
    tally.holds(status == 0, f"make install-python: {said}")
    status, said = run(["aecp", "--version"], **given)
    tally.check("the installed command aecp", (status, said.split()[-1:]), (0, [version()]))
    tally.holds(os.path.exists(os.path.join(top, "share/man/man1/aecp.1")), "make install-python installs no aecp(1)")
    status, said = run([*removal, *(["-C", TOP, f"PYTHON={python}"] if removal[0] == "make" else [])], **given)
    tally.holds(status == 0, f"{removal}: {said}")
    tally.check(f"what {removal} leaves", sorted(files_of(python) - before), [])


def try_unsafe(tally):
    """Checks that unsafe code is in one file, with a reason at each block."""
    paths = glob.glob(os.path.join(TOP, "bindings/rust/aecp*/**/*.rs"), recursive=True)
    for path in sorted(paths):
        with open(path, encoding="utf-8") as file:
            text = re.sub(r"(?m)//(?! SAFETY:).*$", "", file.read())
        blocks = len(re.findall(r"\bunsafe\b", text))
        if os.path.basename(path) == "raw.rs":
            tally.check("unsafe blocks and their reasons", text.count("// SAFETY:"), blocks)
        else:
            tally.check(f"unsafe code in {path}", blocks, 0)


def cargo(crate, folder, *words, **more):
    """Runs cargo in a crate, for at most CARGO_SECONDS. Returns its status and the end of what it prints."""
    given = {**os.environ, "RUST_BACKTRACE": "0", "CARGO_TARGET_DIR": os.path.join(folder, "target"), "CARGO_TERM_COLOR": "never", **more}
    given.pop("AECP_LIB_DIR", None) if "AECP_LIB_DIR" not in more else None
    words = ["cargo", words[0], "--offline", *words[1:]]
    # In a session of its own, so that the tests, which cargo starts, can be killed with it.
    with subprocess.Popen(
        words, cwd=crate, stdout=subprocess.PIPE, stderr=subprocess.STDOUT, text=True, env=given, start_new_session=True
    ) as running:
        try:
            said, late = running.communicate(timeout=CARGO_SECONDS)[0], ""
        except subprocess.TimeoutExpired:
            os.killpg(running.pid, signal.SIGKILL)
            said, late = running.communicate()[0], f"\nkilled after {CARGO_SECONDS} seconds"
        except BaseException:
            os.killpg(running.pid, signal.SIGKILL)
            raise
    return running.returncode, said[-8000:] + late


def library_of_another_version(lib, folder):
    """Makes a copy of libaecp.a whose major version is 2. Returns its folder."""
    other = os.path.join(folder, "another_version")
    os.mkdir(other)
    source, built = os.path.join(other, "version.c"), os.path.join(other, "version.o")
    with open(source, "w", encoding="utf-8") as file:
        file.write("unsigned aecp_version(void) { return 20000; }\n")
    before, after = os.path.join(lib, "libaecp.a"), os.path.join(other, "libaecp.a")
    subprocess.run(["objcopy", "--redefine-sym", "aecp_version=aecp_version_before", before, after], check=True)
    subprocess.run(["cc", "-c", "-o", built, source], check=True)
    subprocess.run(["ar", "rs", after, built], check=True, capture_output=True)
    return other


def try_shared(crate, lib, folder, tally):
    """Runs tests of the crate with the shared library: they pass if the loader finds it, and else can't start."""
    for paths, is_found in ((lib, True), ("", False)):
        words = ["test", "--test", "calls"]
        status, said = cargo(crate, folder, *words, AECP_DYNAMIC="1", AECP_LIB_DIR=lib, LD_LIBRARY_PATH=paths)
        tally.holds((status == 0) == is_found, f"cargo test with the shared library, LD_LIBRARY_PATH={paths}: {said}")
        tally.holds(is_found or "libaecp.so.1" in said, f"cargo test without the shared library: {said}")


def try_another_version(crate, lib, folder, tally):
    """Checks that each call of the crate panics if the library has another major version."""
    if all(tally.has(tool, "the Rust crate with a library of another version") for tool in ("cc", "objcopy", "ar")):
        other = library_of_another_version(lib, folder)
        status, said = cargo(crate, folder, "test", "--test", "another_version", "--", "--ignored", AECP_LIB_DIR=other)
        tally.holds(status == 0 and "1 passed" in said, f"cargo test with a library of another version: {said}")


def try_crate(unpacked, folder, tally):
    """Runs the tests of the crate, with AECP_LIB_DIR, with pkg-config, with the shared library and with a library of another version, and
    clippy."""
    try_unsafe(tally)
    if not tally.has("cargo", "the tests of the Rust crate"):
        return
    crates, lib = os.path.join(folder, "crates"), os.path.join(unpacked, "lib")
    crate = os.path.join(crates, "aecp")
    shutil.copytree(os.path.join(TOP, "bindings/rust"), crates, ignore=shutil.ignore_patterns("target", "Cargo.lock"))
    status, said = cargo(crates, folder, "doc", "--no-deps", "--workspace", DOCS_RS="1", RUSTDOCFLAGS="-D warnings")
    tally.holds(status == 0, f"cargo doc without the library: {said}")
    for name, file in (("aecp-sys", "LICENSE"), ("aecp-sys", "build.rs"), ("aecp", "LICENSE"), ("aecp", "src/raw.rs")):
        status, said = cargo(os.path.join(crates, name), folder, "package", "--list", "--allow-dirty")
        tally.holds(status == 0 and file in said.split(), f"cargo package of {name} lacks {file}: {said}")
    for name in ("aecp-sys", "aecp"):
        same = filecmp.cmp(os.path.join(TOP, "LICENSE"), os.path.join(crates, name, "LICENSE"), shallow=False)
        tally.holds(same, f"bindings/rust/{name}/LICENSE isn't the repository's")
    status, said = cargo(crate, folder, "test", AECP_LIB_DIR=lib)
    tally.holds(status == 0, f"cargo test: {said}")
    print(f"cargo test: {', '.join(re.findall(r'test result: ok. ([0-9]+ passed)', said))}")
    if status == -signal.SIGKILL:
        return  # the next runs would hang too
    if shutil.which("pkg-config"):
        status, said = cargo(crate, folder, "test", "--test", "calls", PKG_CONFIG_PATH=os.path.join(lib, "pkgconfig"))
        tally.holds(status == 0, f"cargo test by pkg-config: {said}")
    try_shared(crate, lib, folder, tally)
    try_another_version(crate, lib, folder, tally)
    status, said = cargo(crate, folder, "build", AECP_LIB_DIR="/nonexistent")
    tally.holds(status != 0 and "/nonexistent has no libaecp.a" in said, f"cargo build without the library: {said}")
    if subprocess.run(["cargo", "clippy", "--version"], capture_output=True).returncode:
        tally.skip("cargo-clippy", "clippy on the Rust crate")
        return
    status, said = cargo(crate, folder, "clippy", "--all-targets", AECP_LIB_DIR=lib, RUSTFLAGS="-D warnings")
    tally.holds(status == 0, f"cargo clippy: {said}")
