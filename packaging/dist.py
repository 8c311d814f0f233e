#!/usr/bin/env python3
"""Packs what `make levels` has built into dist/: dist.py [--unproved]

Writes a tarball, the Debian packages, the sdist and the wheel, each with the files for x86-64-v2 and for x86-64-v3, and SHA256SUMS. Two
runs with the same bin/ write the same bytes, in any folder: each date is SOURCE_DATE_EPOCH or else the commit's, names are sorted, and
no package contains a path of this machine.

Until a commit has the tag of its version, such as v1.1.0, several commits have the same version. So all packages of such a commit get
its time and name added: 1.1.0~git20261130190512.cd5bd7d4, or for Python 1.1.0.dev20261130190512+gcd5bd7d4. They sort by time, and before
the release. If debian/changelog begins with another version than the file VERSION, the Debian packages have that.

Fails unless each binary was proved and built at this commit; a checkout with changes counts as the commit 'NAME with changes'.
With --unproved, the binaries are packed unchecked, for a try, and the file PROVED says so.
"""

import glob
import os
import shutil
import subprocess
import sys
import tempfile
import time

sys.dont_write_bytecode = True

import proved
import python
import stage
import tarball

BINARIES = {name: f"bin/{name}" for name in ("aec", "libaecp.a", "libaecp.so", f"{stage.V3}/aec", f"{stage.V3}/libaecp.so")}
DIST = os.path.join(proved.TOP, "dist")


class Failed(Exception):
    """A tool that builds packages has failed."""


def texts(is_proved):
    """Returns a function that, given the paths of a package's binaries, returns the text of PROVED."""
    start = proved.head(proved.version(), list(BINARIES.values()), is_proved)
    sums = {name: proved.sum_of(os.path.join(proved.TOP, path)) for name, path in BINARIES.items()}

    def text(places):
        lines = [f"{sums[name]}  {place}\n" for name, place in places.items()]
        return f"{start}\n{''.join(lines)}"

    return text


def name_snapshot(changelog, named):
    """Adds time and name of the commit to the version that debian/changelog begins with, if it is that of the file VERSION."""
    begin, text = f"aec-proved ({proved.version()}", stage.read(changelog).decode()
    if named and text.startswith(begin + ")"):
        stage.write(changelog, text.replace(begin, f"{begin}~git{named}", 1).encode())


def debian_packages(work, head, named):
    """Runs dpkg-buildpackage in a copy of the checkout without crates. Returns the paths of the packages. `head` begins PROVED; `named` are
    the time and the name of the commit."""
    copy, place = os.path.join(work, "debian", "checkout"), os.path.join(work, "proved")
    left_out = shutil.ignore_patterns(".git", "crates", "dist", "wheel", "__pycache__")
    shutil.copytree(proved.TOP, copy, symlinks=True, ignore=left_out)
    stage.write(place, head.encode())
    name_snapshot(os.path.join(copy, "debian", "changelog"), named)
    given = {**os.environ, "AECP_PROVED_HEAD": place, "AECP_SNAPSHOT": named, "MAKEFLAGS": "", "MAKELEVEL": ""}
    words = ["dpkg-buildpackage", "-us", "-uc", "-b", "--no-pre-clean"]
    done = subprocess.run(words, cwd=copy, env=given, capture_output=True, text=True, check=False)
    if done.returncode:
        raise Failed(f"dpkg-buildpackage fails:\n{(done.stdout + done.stderr)[-3000:]}")
    return sorted(glob.glob(os.path.join(work, "debian", "*.deb")))


def write_sums(made):
    """Writes the sums of all packages, as `sha256sum -c` reads them. Returns the path."""
    path = os.path.join(DIST, "SHA256SUMS")
    lines = [f"{proved.sum_of(it)}  {os.path.basename(it)}\n" for it in made]
    stage.write(path, "".join(sorted(lines, key=lambda it: it.split()[1])).encode())
    return path


def build(is_proved):
    """Writes all packages. Returns their paths. Raises Failed if files of the checkout change meanwhile."""
    os.umask(0o022)
    when, at, named = proved.moment(), proved.state(), proved.snapshot()
    version = proved.version() + (f"~git{named}" if named else "")
    os.environ["SOURCE_DATE_EPOCH"] = str(when)
    text = texts(is_proved)
    shutil.rmtree(DIST, ignore_errors=True)
    os.makedirs(DIST)
    with tempfile.TemporaryDirectory() as work:
        os.chmod(work, 0o755)
        made = [tarball.build(proved.TOP, work, DIST, version, when, text(tarball.PLACES), named)]
        made += [shutil.copy(path, DIST) for path in debian_packages(work, text({}), named)]
        made += python.build(DIST, when, text(python.PLACES), snapshot=named)
    if proved.state() != at:
        raise Failed("files changed meanwhile: run this again")
    made.append(write_sums(made))
    return made


def main():
    is_proved = sys.argv[1:] != ["--unproved"]
    begun = time.monotonic()
    missing = [path for path in BINARIES.values() if not os.path.exists(os.path.join(proved.TOP, path))]
    if missing:
        print(f"there is no {missing[0]}: run make levels first", file=sys.stderr)
        return 1
    try:
        made = build(is_proved)
    except (proved.NotProved, python.Unfit, Failed, subprocess.CalledProcessError) as fault:
        shutil.rmtree(DIST, ignore_errors=True)
        print(fault, file=sys.stderr)
        return 1
    for path in made:
        print(f"{os.path.relpath(path, proved.TOP)}: {os.path.getsize(path)} bytes")
    print(f"{len(made)} files in {time.monotonic() - begun:.0f} s" + ("" if is_proved else ", of binaries that aren't proved"))
    return 0


if __name__ == "__main__":
    sys.exit(main())
