#!/usr/bin/env python3
"""Tests the choice between the files for x86-64-v2 and x86-64-v3: processors.py [PLAIN OTHER]

Reads made-up texts of /proc/cpuinfo, of processors that have all flags of x86-64-v3, lack one, or have none, by the module
aecp.levels and by the shell function of install.sh and of the Debian package. Both must choose the same level. Checks which library the
Python module takes, with files in several folders and each value of AECP_LEVEL.

With two programs, for x86-64-v2 and for x86-64-v3, runs both on older processors by qemu: on one with x86-64-v2 the first must work, and
the second must end with status 127 and one line, and leave DEST as it is; so must both on one that lacks SSE4.2. Without
qemu-x86_64-static or qemu-x86_64 this part is skipped, with a line.

Prints the checks that fail and, last, how many passed. Ends with status 1 if one failed.
"""

import os
import re
import resource
import runpy
import shutil
import subprocess
import sys
import tempfile

sys.dont_write_bytecode = True

from lib.program import TOP, Program, Tally

sys.path.insert(0, os.path.join(TOP, "packaging"))

import stage

LEVELS = runpy.run_path(os.path.join(TOP, "bindings/python/aecp/levels.py"))
PLAIN, V3 = LEVELS["PLAIN"], LEVELS["V3"]
# What x86-64-v3 adds to x86-64-v2 by the x86-64 psABI, in the names of Linux.
ADDED = "abm avx avx2 bmi1 bmi2 f16c fma movbe".split()
# The flags of a processor of 2008, and others that begin or end like those of x86-64-v3.
OLD = "fpu cx16 lahf_lm popcnt pni sse4_1 sse4_2 ssse3 fma4 bmi avx2_ xavx abmx".split()
TEXT = """processor\t: 0
vendor_id\t: GenuineIntel
vmx flags\t: {1}
bugs\t\t: avx avx2 bmi1 bmi2 f16c fma abm movbe
flags\t\t: {0}

processor\t: 1
flags\t\t: {0}
"""
# Each processor of qemu, and the level that it has, if any.
PROCESSORS = {"core2duo": None, "Nehalem": PLAIN, "Haswell": V3}
# Ends with the path that the module would load, without loading the whole package.
PLACE = """
import ctypes, sys, types
ctypes.CDLL = sys.exit
sys.modules["aecp"] = types.ModuleType("aecp")
sys.modules["aecp"].__path__ = [sys.argv[1]]
import aecp.levels
aecp.levels.CPUINFO = sys.argv[2]
import aecp.library
aecp.library.LIBRARY.load_now()
"""
SAYS = "this machine lacks a feature of"
SAMPLES = bytes(range(200))
MEMORY = 2**31


def texts():
    """Yields texts of /proc/cpuinfo, each with its name and its level."""
    everything = " ".join(ADDED)
    yield "a new processor", TEXT.format(" ".join([*OLD, *ADDED, "avx512f"]), ""), V3
    yield "one that lists them backwards", TEXT.format(" ".join([*reversed(ADDED), *OLD]), ""), V3
    yield "an old one", TEXT.format(" ".join(OLD), everything), PLAIN
    for flag in ADDED:
        yield f"one without {flag}", TEXT.format(" ".join([*OLD, *(it for it in ADDED if it != flag)]), everything), PLAIN
    yield "one without flags", TEXT.replace("flags", "Features").format(everything, everything), PLAIN
    yield "no text", "", PLAIN


def level_by_shell(path):
    done = subprocess.run(["sh", "-euc", stage.level_function(TOP) + 'level_of "$1"', "sh", path], capture_output=True, text=True)
    return done.stdout.strip() or done.stderr


def try_texts(folder, tally):
    path = os.path.join(folder, "cpuinfo")
    for name, text, level in texts():
        with open(path, "w", encoding="ascii") as file:
            file.write(text)
        tally.check(f"Python: {name}", LEVELS["level_of"](text), level)
        tally.check(f"shell: {name}", level_by_shell(path), level)
    tally.check("shell: no such file", level_by_shell(os.path.join(folder, "none")), PLAIN)


def place(module, cpuinfo, **given):
    """Returns the path of the library that a copy of the module would load on a processor, or the line of the exception."""
    environment = {**{name: it for name, it in os.environ.items() if not name.startswith("AECP_")}, **given}
    done = subprocess.run([sys.executable, "-Bc", PLACE, module, cpuinfo], capture_output=True, text=True, env=environment)
    return done.stderr.strip().split("\n")[-1]


def try_places(folder, tally):
    """Tests which library the module takes, beside it and in a checkout's bin/."""
    module, checkout = os.path.join(folder, "bindings/python/aecp"), os.path.join(folder, "bin")
    left_out = shutil.ignore_patterns("__pycache__", "*.so")
    shutil.copytree(os.path.join(TOP, "bindings/python/aecp"), module, ignore=left_out)
    new, old, too_old = (os.path.join(folder, name) for name in ("new", "old", "too_old"))
    for path, flags in ((new, [*OLD, *ADDED]), (old, [*OLD, *ADDED[1:]]), (too_old, [it for it in OLD if it != "sse4_1"])):
        with open(path, "w", encoding="ascii") as file:
            file.write(TEXT.format(" ".join(flags), ""))
    tally.check("no file", place(module, new), "libaecp.so.1")
    # Later files come before earlier ones.
    for where, level in ((checkout, PLAIN), (checkout, V3), (module, PLAIN), (module, V3)):
        best = os.path.join(where, *([V3] if level == V3 else []), "libaecp.so")
        os.makedirs(os.path.dirname(best), exist_ok=True)
        open(best, "w").close()
        plain = os.path.join(where, "libaecp.so")
        tally.check(f"a new processor, {best}", place(module, new), best)
        tally.check(f"an old processor, {best}", place(module, old), plain)
        tally.check(f"AECP_LEVEL={V3}, {best}", place(module, old, AECP_LEVEL=V3), best)
        tally.check(f"AECP_LEVEL={PLAIN}, {best}", place(module, new, AECP_LEVEL=PLAIN), plain)
    tally.check("AECP_LIBRARY", place(module, new, AECP_LIBRARY="/x.so", AECP_LEVEL="none"), "/x.so")
    lacks = f"ImportError: aecp needs a processor with {PLAIN}; this one lacks sse4_1"
    tally.check("a processor that is too old", place(module, too_old), lacks)
    tally.check("the same, with AECP_LEVEL", place(module, too_old, AECP_LEVEL=PLAIN), os.path.join(module, "libaecp.so"))
    refused = f"ImportError: AECP_LEVEL must be {PLAIN} or {V3}, not v3"
    tally.check("AECP_LEVEL=v3", place(module, new, AECP_LEVEL="v3"), refused)


def limit():
    """Limits the memory of qemu: a program that reserves a lot, as one for AddressSanitizer does, really gets it there."""
    resource.setrlimit(resource.RLIMIT_AS, (MEMORY, MEMORY))


def on_processor(qemu, name, program):
    """Codes samples on a processor of qemu. Returns the status, the lines of standard error without qemu's warnings, and DEST."""
    program.write("source", SAMPLES)
    program.write("dest", b"before")
    words = [qemu, "-cpu", name, program.path, "source", "dest"]
    ended = subprocess.run(words, cwd=program.folder, capture_output=True, text=True, timeout=60, preexec_fn=limit)
    said = [line for line in ended.stderr.splitlines() if not re.match(r"qemu-x86_64(-static)?: warning", line)]
    return ended.returncode, said, program.read("dest")


def try_processors(paths, folder, tally):
    qemu = shutil.which("qemu-x86_64-static") or shutil.which("qemu-x86_64")
    if not qemu:
        print("skipped, since there is no qemu-x86_64-static: older processors", flush=True)
        return
    coded = Program(paths[0], folder).answer([], SAMPLES)
    for name, has in PROCESSORS.items():
        for path, needed in zip(paths, (PLAIN, V3)):
            status, said, dest = on_processor(qemu, name, Program(path, folder))
            what = f"{path} on {name}"
            if has in (needed, V3):
                tally.check(what, (status, said, dest), (0, [], coded))
            else:
                told = len(said) == 1 and said[0].startswith(f"{SAYS} {needed}")
                tally.check(f"{what}, which says {said}", (status, told, dest), (127, True, b"before"))


def main():
    tally = Tally()
    tally.check("the flags of levels.py", sorted(LEVELS["FLAGS"]), sorted(ADDED))
    with tempfile.TemporaryDirectory() as folder:
        try_texts(folder, tally)
        try_places(folder, tally)
        if sys.argv[1:]:
            try_processors(sys.argv[1:3], folder, tally)
    tally.print()
    return 1 if tally.failed else 0


if __name__ == "__main__":
    sys.exit(main())
