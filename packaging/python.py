#!/usr/bin/env python3
"""Builds the sdist and the wheel of the Python module, with the library inside: python.py FOLDER [--wheel]

Copies bindings/python, with the files that its gathered.txt names, and runs `python3 -m build` there: all metadata are in its
pyproject.toml.
AECP_SNAPSHOT has the time and the name of a commit that is no release, for debian/rules: they are added to the version.
FOLDER gets both files, whose dates are SOURCE_DATE_EPOCH or else the commit's. This Python must have build, setuptools and wheel, or
else Debian's, /usr/bin/python3: the wheel is for any Python. With --wheel no sdist is written.
"""

import glob
import gzip
import io
import os
import re
import shutil
import subprocess
import sys
import tarfile
import tempfile

sys.dont_write_bytecode = True

import elf
import proved
import stage

SOURCE = os.path.join(proved.TOP, "bindings", "python")
LIBRARIES = ("libaecp.so", f"{stage.V3}/libaecp.so")
# Where the wheel has the libraries, by their names in bin/.
PLACES = {name: f"aecp/{name}" for name in LIBRARIES}
NEEDED = "import build, setuptools, wheel"
GATHERED = "gathered.txt"
LEFT_OUT = ("__pycache__", "build", "dist", "*.egg-info", ".*", GATHERED)


class Unfit(Exception):
    """The library needs more than the wheel's tag allows, or nothing here can build wheels."""


def platform_tag():
    """Returns the wheel's platform, which setup.py names."""
    with open(os.path.join(SOURCE, "setup.py"), encoding="utf-8") as file:
        return re.search(r'(?m)^PLATFORM = "(.*)"$', file.read())[1]


def glibc_allowed():
    """Returns the version of glibc in the platform's name, as (2, 17)."""
    return tuple(map(int, re.search(r"_(\d+)_(\d+)_", platform_tag()).groups()))


def check_library(path):
    """Raises Unfit if a library needs more than the tag allows."""
    needed, libraries = elf.glibc_needed(path), elf.libraries_needed(path)
    if needed > glibc_allowed() or not set(libraries) <= {"libc.so.6"}:
        version = ".".join(map(str, needed))
        raise Unfit(f"{path} needs glibc {version} and {', '.join(libraries)}, which {platform_tag()} doesn't allow")


def builder():
    """Returns the words of an interpreter that can build wheels. Raises Unfit if there is none."""
    for path in (sys.executable, "/usr/bin/python3"):
        if os.path.exists(path) and subprocess.run([path, "-c", NEEDED], capture_output=True, check=False).returncode == 0:
            return path
    raise Unfit("no Python here has build, setuptools and wheel (on Debian: python3-build, python3-setuptools, python3-wheel)")


def gathered():
    """Yields the place in the module's folder and the path of each file that it gets from another folder, if this file is there."""
    with open(os.path.join(SOURCE, GATHERED), encoding="ascii") as file:
        for place, source in map(str.split, file):
            path = os.path.join(proved.TOP, source)
            if os.path.exists(path):
                yield place, path


def sources():
    """Returns the place and the path of each file of a distribution, but for PROVED."""
    names = dict(gathered())
    for at, folders, files in os.walk(SOURCE):
        kept = shutil.ignore_patterns(*LEFT_OUT)
        folders[:] = sorted(set(folders) - kept(at, folders))
        for name in sorted(set(files) - kept(at, files)):
            path = os.path.join(at, name)
            names.setdefault(os.path.relpath(path, SOURCE), path)
    return names.items()


def copy_sources(folder, text):
    """Copies the module's sources and the files that it gets from other folders. `text` is that of PROVED, or None."""
    for place, path in sources():
        stage.write(os.path.join(folder, place), stage.read(path), 0o755 if place.endswith(".so") else 0o644)
    if text is not None:
        stage.write(os.path.join(folder, "aecp", "PROVED"), text.encode())


def name_snapshot(module, named):
    """Adds time and name of a commit to the version of a copy of the module, as 1.1.0.dev20261130190512+gcd5bd7d4; nothing if there are
    none."""
    path, begin = os.path.join(module, "__init__.py"), f'__version__ = "{proved.version()}'
    at, _, name = named.partition(".")
    if named:
        stage.write(path, stage.read(path).decode().replace(f'{begin}"', f'{begin}.dev{at}+g{name}"', 1).encode())


def date_all(folder, moment):
    """Gives each file and folder a date."""
    for path in [folder, *stage.below(folder)]:
        os.utime(path, (moment, moment))


def repack(path, moment):
    """Writes an sdist again, with sorted names, one date and no owner: setuptools writes the time of the build."""
    with tarfile.open(path) as archive:
        members = [(it, archive.extractfile(it).read() if it.isreg() else None) for it in archive.getmembers()]
    with open(path, "wb") as raw, gzip.GzipFile("", "wb", 9, raw, mtime=moment) as packed:
        with tarfile.open(fileobj=packed, mode="w", format=tarfile.PAX_FORMAT) as archive:
            for info, data in sorted(members, key=lambda it: it[0].name):
                info.uid = info.gid = 0
                info.uname = info.gname = "root"
                info.mtime, info.pax_headers = moment, {}
                archive.addfile(info, io.BytesIO(data) if data is not None else None)


def build(folder, moment, text=None, more=(), snapshot=""):
    """Writes the sdist and the wheel into a folder. Returns their paths. `text` is that of PROVED, or None; `more` are words for `build`;
    `snapshot` is what `proved.snapshot` returns. Raises Unfit."""
    for name in LIBRARIES:
        path = os.path.join(proved.TOP, "bin", name)
        if os.path.exists(path):
            check_library(path)
    python = builder()
    with tempfile.TemporaryDirectory() as work:
        source, made = os.path.join(work, "python"), os.path.join(work, "made")
        copy_sources(source, text)
        name_snapshot(os.path.join(source, "aecp"), snapshot)
        date_all(source, moment)
        given = {**os.environ, "SOURCE_DATE_EPOCH": str(max(moment, 315532800)), "PYTHONDONTWRITEBYTECODE": "1"}
        words = [python, "-m", "build", "--no-isolation", "--outdir", made, *more, source]
        done = subprocess.run(words, env=given, capture_output=True, text=True, check=False)
        if done.returncode:
            raise Unfit(f"{' '.join(words)} fails:\n{(done.stdout + done.stderr)[-2000:]}")
        for sdist in glob.glob(os.path.join(made, "*.tar.gz")):
            repack(sdist, moment)
        return [shutil.copy(path, folder) for path in sorted(glob.glob(os.path.join(made, "*")))]


def main():
    if not sys.argv[1:] or sys.argv[2:] not in ([], ["--wheel"]):
        print(__doc__.splitlines()[0], file=sys.stderr)
        return 1
    if not os.path.exists(os.path.join(proved.TOP, "bin", LIBRARIES[0])):
        print(f"there is no bin/{LIBRARIES[0]}: run make library first", file=sys.stderr)
        return 1
    os.umask(0o022)
    os.makedirs(sys.argv[1], exist_ok=True)
    try:
        made = build(sys.argv[1], proved.moment(), more=sys.argv[2:], snapshot=os.environ.get("AECP_SNAPSHOT", ""))
    except (Unfit, proved.NotProved) as fault:
        print(fault, file=sys.stderr)
        return 1
    print("\n".join(made))
    return 0


if __name__ == "__main__":
    sys.exit(main())
