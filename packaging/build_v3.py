#!/usr/bin/env python3
"""Builds for x86-64-v3 what bin/ has for x86-64-v2: build_v3.py program|library

Proves only the topmost crate again, and refuses unless the files in bin/ were proved from the crates as they are now: so both are
the same proved text. The gate never builds this level.

`rt` reads the level from a file BUILD.bazel alone, and `rt ci` refuses a checkout that has one anywhere. So this script copies the crates
to a temporary folder, with the file, and builds there. It writes the results and their records to bin/x86-64-v3/, and the lines of the
checker to bin/x86-64-v3/program.log or library.log. If what is there was built from these crates, it builds nothing.
"""

import os
import re
import shutil
import signal
import subprocess
import sys
import tempfile
from typing import NamedTuple

sys.dont_write_bytecode = True

import proved

sys.path.insert(0, os.path.join(proved.TOP, "tools"))

import sources

BUILD_FILE = """load("@rattle//bazel/rattle:crate.bzl", "rattle_crate")
rattle_crate(name = "{name}", cpu = "{cpu}", deps = {deps}{kind})
"""
# The program's own status if the processor lacks a feature of the level. The file is built all the same.
LACKS_FEATURE = 127
# How many lines of the checker are shown if it fails.
LINES = 20


class Kind(NamedTuple):
    """What can be built: the topmost crate, the words of rt, the file in its out/, the files of bin/."""

    crate: str
    words: list
    made: str
    files: list


KINDS = {
    "program": Kind("aec", ["run", "--", "--version"], "aec", ["bin/aec"]),
    "library": Kind("aec_c", ["lib"], "libaec_c.a", ["bin/libaecp.a", "bin/libaecp.so"]),
}


class Failed(Exception):
    """The build isn't possible, or rt has failed."""


def label(name, lines):
    """Returns how a BUILD.bazel names a crate of the repository or a library of the kit."""
    return f"//crates/{name}" if name in lines else f"@rattle//{name}"


def build_file(crate, lines):
    """Returns the text of the crate's BUILD.bazel: what crates.txt says of it, and the level."""
    kind, uses, _ = lines[crate]
    deps = [label(name, lines) for name in uses]
    more = f', crate_type = "{kind}"' if kind else ""
    return BUILD_FILE.format(name=crate, cpu=proved.LEVEL, deps=str(deps).replace("'", '"'), kind=more)


def link_or_copy(path, to):
    """Gives a file of out/ a second name. rt replaces such a file, and never writes into it."""
    try:
        os.link(path, to)
    except OSError:
        shutil.copy2(path, to)


def copy_crates(crate, tree):
    """Copies a crate, with those below it, and what was built of these, to a folder where it has a BUILD.bazel."""
    lines = sources.crate_lines()
    others = sources.below(crate, lines)
    for name in (crate, *others):
        here, there = (os.path.join(top, "crates", name) for top in (proved.TOP, tree))
        shutil.copytree(here, there, ignore=shutil.ignore_patterns("out"))
        built = os.path.join(here, "out", "rlib")
        if name in others and os.path.isdir(built):
            shutil.copytree(built, os.path.join(there, "out", "rlib"), copy_function=link_or_copy)
    shutil.copy(os.path.join(proved.TOP, "HANDLES"), tree)
    with open(os.path.join(tree, "crates.txt"), "w", encoding="utf-8") as file:
        file.writelines(f"{lines[name].text}\n" for name in lines if name in others)
    with open(os.path.join(tree, "crates", crate, "BUILD.bazel"), "w", encoding="utf-8") as file:
        file.write(build_file(crate, lines))


def build(kind, tree, log):
    """Proves and builds the crate in the copy. Returns the path of the built file. Raises Failed."""
    folder = os.path.join(tree, "crates", kind.crate)
    with open(log, "w", encoding="utf-8") as file:
        ended = subprocess.run(["rt", *kind.words], cwd=folder, stdin=subprocess.DEVNULL, stdout=file, stderr=file, check=False)
    with open(log, encoding="utf-8", errors="replace") as file:
        said = file.read()
    is_proved = re.search(rf"^logic=proved .*\bcpu={proved.LEVEL}\b", said, re.M)
    made = os.path.join(folder, "out", kind.made)
    if not is_proved or not os.path.exists(made) or ended.returncode not in (0, LACKS_FEATURE):
        end = "\n".join(said.splitlines()[-LINES:])
        raise Failed(f"{kind.crate} isn't built for {proved.LEVEL}. The last lines of {os.path.relpath(log, proved.TOP)}:\n{end}")
    return made


def linked(archive, tree):
    """Links the library's files from the archive that rt has built. Returns their folder."""
    folder = os.path.join(tree, "linked")
    given = {**os.environ, "ARCHIVE": archive}
    subprocess.run(["sh", "library.sh", "--link", folder], cwd=proved.TOP, env=given, stdin=subprocess.DEVNULL, check=True)
    return folder


def replace(path, to):
    """Copies a file to a place in bin/, in one step."""
    shutil.copy(path, to + ".new")
    os.replace(to + ".new", to)


def check_plain(kind, now):
    """Raises NotProved unless the files in bin/ were proved from the crates as they are now, by this kit."""
    kit = proved.told("rt", "version")
    for path in kind.files:
        found = proved.record_of(path)
        if (found.crates(), found.kit) != (now.rpartition(" ")[2], kit):
            raise proved.NotProved(f"{path} was not proved from these crates by this kit: run make and make library")


def make(name):
    """Builds the program or the library, unless it is there."""
    kind, now = KINDS[name], proved.state()
    check_plain(kind, now)
    made = [proved.counterpart(path) for path in kind.files]
    if not all(map(proved.is_same_build, kind.files, made)):
        print(f"building {', '.join(made)} from the proofs of {', '.join(kind.files)}", flush=True)
        folder = os.path.join(proved.TOP, "bin", proved.LEVEL)
        os.makedirs(folder, exist_ok=True)
        with tempfile.TemporaryDirectory() as tree:
            copy_crates(kind.crate, tree)
            built = build(kind, tree, os.path.join(folder, f"{name}.log"))
            ready = linked(built, tree) if name == "library" else os.path.dirname(built)
            if proved.state() != now:
                raise Failed("files changed meanwhile: run this again")
            for path in made:
                replace(os.path.join(ready, os.path.basename(path)), os.path.join(proved.TOP, path))
    for path in made:
        proved.record(now, path)


def main():
    if sys.argv[1:2] not in [[name] for name in KINDS]:
        print(__doc__.splitlines()[0], file=sys.stderr)
        return 1
    if not shutil.which("rt"):
        print("no command 'rt': the Rattle kit's folder bin has to be on the path", file=sys.stderr)
        return 1
    # Then the temporary folder is removed, too.
    signal.signal(signal.SIGTERM, lambda *_: sys.exit(1))
    try:
        make(sys.argv[1])
    except (Failed, proved.NotProved, subprocess.CalledProcessError) as fault:
        print(fault, file=sys.stderr)
        return 1
    return 0


if __name__ == "__main__":
    sys.exit(main())
