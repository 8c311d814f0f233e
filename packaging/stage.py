"""Copies the contents of each package below a folder. `stage.py level` prints the shell function of level.sh, for debian/rules."""

import os
import runpy
import subprocess
import sys

PLAIN, V3 = "x86-64-v2", "x86-64-v3"


def write(path, data, mode=0o644):
    """Writes a file, with the folders above it."""
    os.makedirs(os.path.dirname(path), mode=0o755, exist_ok=True)
    with open(path, "wb") as file:
        file.write(data)
    os.chmod(path, mode)


def read(path):
    with open(path, "rb") as file:
        return file.read()


def below(folder):
    """Yields the paths of all files, links and folders below a folder."""
    for at, folders, names in os.walk(folder):
        yield from (os.path.join(at, name) for name in folders + names)


def made(top, target, folder, *words):
    """Runs a target of the Makefile that installs below a folder."""
    command = ["make", "-s", "-C", top, target, f"DESTDIR={folder}", *words]
    subprocess.run(command, check=True, stdout=subprocess.DEVNULL, env={**os.environ, "MAKEFLAGS": "", "MAKELEVEL": ""})


def program(top, folder, prefix, name):
    """Installs the plain program with its manual page, completions and pages, as `make install` does."""
    made(top, "install", folder, f"PREFIX={prefix}", f"PROGRAM={name}", f"CPU={PLAIN}")


def library(top, folder, prefix, libdir, pc_prefix):
    """Installs the library for C, as `make install-c` does: for both levels."""
    words = [f"PREFIX={prefix}", f"LIBDIR={prefix}/{libdir}", "PC_PREFIX=" + pc_prefix.replace("$", "$$")]
    made(top, "install-c", folder, *words)


def level_function(top):
    """Returns the shell function of level.sh, with the flags that the Python module has."""
    flags = runpy.run_path(os.path.join(top, "bindings/python/aecp/levels.py"))["FLAGS"]
    return read(os.path.join(top, "packaging/level.sh")).decode().replace("@FLAGS@", " ".join(flags))


def with_level_function(top, script):
    """Returns a script with the shell function instead of its line @LEVEL_OF@."""
    return script.replace(b"@LEVEL_OF@\n", level_function(top).encode())


def notices(top):
    """Returns the notices of the kit's crates whose code is in the binaries. Their licence asks for them in each copy."""
    return read(os.path.join(top, "NOTICES"))


if __name__ == "__main__":
    if sys.argv[1:] != ["level"]:
        sys.exit(__doc__)
    print(level_function(os.path.join(os.path.dirname(os.path.abspath(__file__)), "..")), end="")
