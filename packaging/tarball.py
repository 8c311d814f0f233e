"""Builds the tarball: program, library, the command aecp with its Python module, and pages in a folder laid out as PREFIX, and a script
that installs them."""

import gzip
import os
import tarfile

import python
import stage

# The paths of the binaries in the folder.
PLACES = {
    "aec": "bin/aec",
    f"{stage.V3}/aec": f"{stage.V3}/aec",
    "libaecp.a": "lib/libaecp.a",
    "libaecp.so": "lib/libaecp.so.1",
    f"{stage.V3}/libaecp.so": f"lib/glibc-hwcaps/{stage.V3}/libaecp.so.1",
}
# The Python module is in lib/aecp/, where only the command aecp looks for it. Its library is a link to the one in lib/.
MODULE = "lib/aecp/aecp"
LINKS = {
    "libaecp.so": "../../libaecp.so.1",
    f"{stage.V3}/libaecp.so": f"../../../glibc-hwcaps/{stage.V3}/libaecp.so.1",
}
COMMAND = """#!/usr/bin/env python3
import os
import sys

sys.path.insert(0, os.path.join(os.path.dirname(os.path.realpath(__file__)), "..", "lib", "aecp"))
from aecp.cli import main

main()
"""
# The pages of the command, by their names in the repository.
PAGES = {
    "man/aecp.1": "share/man/man1/aecp.1",
    "completions/aecp.bash": "share/bash-completion/completions/aecp",
    "completions/_aecp": "share/zsh/site-functions/_aecp",
}


def add(archive, path, name, moment):
    """Adds a file, a link or a folder, with owner root and the date of the commit."""
    info = archive.gettarinfo(path, name)
    info.uid = info.gid = 0
    info.uname = info.gname = "root"
    info.mtime = moment
    info.mode = 0o755 if info.isdir() or info.issym() or os.access(path, os.X_OK) else 0o644
    if info.isreg():
        with open(path, "rb") as file:
            archive.addfile(info, file)
    else:
        archive.addfile(info)


def add_command(top, folder):
    """Writes the command aecp, its module and its pages below a folder."""
    source = os.path.join(top, "bindings", "python", "aecp")
    for at, _, names in os.walk(source):
        for name in filter(lambda it: it.endswith(".py") or it == "py.typed", names):
            path = os.path.join(at, name)
            stage.write(os.path.join(folder, MODULE, os.path.relpath(path, source)), stage.read(path))
    for name, target in LINKS.items():
        place = os.path.join(folder, MODULE, name)
        os.makedirs(os.path.dirname(place), mode=0o755, exist_ok=True)
        os.symlink(target, place)
    for name, place in PAGES.items():
        stage.write(os.path.join(folder, place), stage.read(os.path.join(top, name)))
    stage.write(os.path.join(folder, "bin/aecp"), COMMAND.encode(), 0o755)


def fill(top, folder, version, proved, named):
    """Copies everything below a folder."""
    stage.program(top, folder, "", "aec")
    stage.library(top, folder, "", "lib", "${pcfiledir}/../..")
    add_command(top, folder)
    python.name_snapshot(os.path.join(folder, MODULE), named)
    better = f"{stage.V3}/aec"
    stage.write(os.path.join(folder, PLACES[better]), stage.read(os.path.join(top, "bin", better)), 0o755)
    script = stage.with_level_function(top, stage.read(os.path.join(top, "packaging/install.sh")))
    stage.write(os.path.join(folder, "install.sh"), script, 0o755)
    stage.write(os.path.join(folder, "LICENSE"), stage.read(os.path.join(top, "LICENSE")))
    stage.write(os.path.join(folder, "NOTICES"), stage.notices(top))
    readme = README.format(version=version).encode()
    stage.write(os.path.join(folder, "README"), readme)
    for place in ("PROVED", "share/doc/aec/PROVED"):
        stage.write(os.path.join(folder, place), proved.encode())


README = """aec {version} for Linux on x86-64-v2 (SSE4.2), glibc 2.34 or newer.

    sh install.sh PREFIX              installs, for example below /usr/local or $HOME/.local
    sh install.sh uninstall PREFIX    removes what was installed
    PROGRAM=aec-proved sh install.sh PREFIX    installs the program as aec-proved, beside libaec's aec; set PROGRAM for uninstall too
    AECP_LEVEL=x86-64-v2 sh install.sh PREFIX  installs the program for every processor with SSE4.2

On a processor with x86-64-v3 (AVX2) a faster program for this level is installed, and the loader takes a faster shared library.

bin/aec and bin/aecp also run in this folder; aecp needs Python 3.9 or newer. share/doc/aec/README.md is the first page.
PROVED lists the binaries and says what was proved.
LICENSE is the licence, and NOTICES has the licence of crates whose code is in the binaries.
"""


def build(top, work, folder, version, moment, proved, named):
    """Writes the tarball into a folder. Returns the tarball's path. `named` are the time and the name of a commit that is no release."""
    name = f"aec-{version}-x86_64-linux"
    root = os.path.join(work, name)
    fill(top, root, version, proved, named)
    path = os.path.join(folder, name + ".tar.gz")
    with open(path, "wb") as raw, gzip.GzipFile("", "wb", 9, raw, mtime=moment) as packed:
        with tarfile.open(fileobj=packed, mode="w", format=tarfile.GNU_FORMAT) as archive:
            for place in sorted([root, *stage.below(root)]):
                add(archive, place, os.path.relpath(place, work), moment)
    return path
