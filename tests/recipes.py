#!/usr/bin/env python3
"""Tests the scripts of examples/ and the page about them:
recipes.py PATH_OF_AEC [--seed N] [--cases N] [--only N]

Runs each command of docs/RECIPES.md in a new folder, those of `aecp` if `make library` has built
bin/libaecp.so. Meanwhile tests the formats: with eccodes, h5py and numpy hidden
(recipe_formats.py), and against eccodes and HDF5 by an interpreter that has them (recipe_grib.py,
recipe_hdf5.py). Skips what needs a program or a module that isn't installed, and prints that.

Prints the checks that fail and, last, how many passed. Ends with status 1 if one failed.
"""

import os
import re
import shutil
import subprocess
import sys
import tempfile

from lib.program import TOP, Program, Tally, asked_of
from lib.recipe_calls import EXAMPLES, hiding

PAGE = os.path.join(TOP, "docs", "RECIPES.md")
LIBRARY = os.path.join(TOP, "bin", "libaecp.so")
SAMPLES = "/usr/share/eccodes/ifs_samples/grib1_mlgrib2_ccsds"
MODULES = ("eccodes", "gribapi", "h5py", "numpy")
NUMPY = "import aecp, numpy"  # in a block whose python3 must have numpy


def interpreter_with(module, environment=None):
    """Returns the path of a Python that has a module, None if none has."""
    for path in (sys.executable, "/usr/bin/python3"):
        words = [path, "-c", f"import {module}"]
        if os.path.exists(path):
            ended = subprocess.run(words, env=environment, capture_output=True, check=False)
            if ended.returncode == 0:
                return path
    return None


def begun(python, name, asked, environment=None):
    """Starts a test in a process of its own, with the same seed and cases."""
    words = [python, os.path.join(TOP, "tests", name), asked.program]
    words += ["--seed", str(asked.seed), "--cases", str(asked.cases)]
    words += [] if asked.only is None else ["--only", str(asked.only)]
    pipes = {"stdout": subprocess.PIPE, "stderr": subprocess.STDOUT, "text": True}
    return subprocess.Popen(words, env=environment, **pipes)


def add_test(running, tally):
    said, name = running.communicate()[0], os.path.basename(running.args[1])
    print(f"{name}: {said}", end="", flush=True)
    counts = re.findall(r"^(\d+) passed, (\d+) failed", said, re.M)
    is_so = counts and (running.returncode == 0) == (counts[-1][1] == "0")
    tally.holds(is_so, f"{name} ended with {running.returncode}")
    for passed, failed in counts[-1:]:
        tally.passed, tally.failed = tally.passed + int(passed), tally.failed + int(failed)


def begun_hidden(asked, folder, tally):
    """Starts the test of the formats, with MODULES hidden from each Python."""
    environment = hiding(folder, *MODULES)
    found = [it for it in MODULES if interpreter_with(it, environment)]
    tally.check("modules that are hidden", found, [])
    return begun(sys.executable, "recipe_formats.py", asked, environment)


def begun_judged(asked):
    """Starts the tests against eccodes and HDF5. Returns them, and what is skipped."""
    running, skipped = [], []
    for module, name in (("eccodes", "recipe_grib.py"), ("h5py", "recipe_hdf5.py")):
        if python := interpreter_with(module):
            running.append(begun(python, name, asked))
        else:
            skipped.append(f"{name}: no {module}")
    return running, skipped


def missing_for(block):
    """Returns what a block of commands needs and isn't there."""
    needs = {
        "libeccodes-tools": ("grib_get", shutil.which("grib_get")),
        "libeccodes-data": (SAMPLES, os.path.isdir(SAMPLES)),
        "python3-h5py": ("h5_szip.py", interpreter_with("h5py") == "/usr/bin/python3"),
        "hdf5-tools": ("h5diff", shutil.which("h5diff")),
        "parallel": ("parallel", shutil.which("parallel")),
        "cdo": (" cdo ", shutil.which("cdo")),
        "libaecp.so": ("aecp ", os.path.exists(LIBRARY)),
        "python3-numpy": (NUMPY, interpreter_with("numpy")),
        "python3-eccodes": ("import eccodes", interpreter_with("eccodes") == "/usr/bin/python3"),
        "libaecp.so to preload": ("examples/preload", os.path.exists(LIBRARY)),
        "libaec-dev": ("examples/preload", os.path.exists("/usr/include/libaec.h")),
    }
    return [name for name, (word, is_there) in needs.items() if word in block and not is_there]


def wanted_words(line):
    """Returns what a command must print: its remark up to a comma, if that has a digit."""
    remark = line.partition("  # ")[2].split(", ")[0].strip()
    return remark if re.search(r"\d", remark) else ""


def prepare_page(aec):
    """Copies examples/, `aec`, `aecp` and libaecp to where the commands of the page find them.
    Returns the environment for the commands."""
    bin_folder = aec.file("bin")
    os.mkdir(bin_folder)
    os.symlink(aec.path, os.path.join(bin_folder, "aec"))
    os.symlink(EXAMPLES, aec.file("examples"))
    write_program(aec, "bin/aecp", f'"{sys.executable}" -m aecp')
    if python := interpreter_with("numpy"):
        os.mkdir(aec.file("numpy"))
        write_program(aec, "numpy/python3", f'"{python}"')
    for name in ("libaecp.so", "libaecp.so.1"):
        os.symlink(LIBRARY, os.path.join(bin_folder, name))
    return {
        **os.environ,
        "PATH": f"{bin_folder}:{os.environ['PATH']}",
        "PYTHONPATH": os.path.join(TOP, "bindings", "python"),
        "AECP_LIBRARY": LIBRARY,
        "LIBRARY_PATH": bin_folder,  # where cc looks for libraries
        "LD_LIBRARY_PATH": bin_folder,
    }


def write_program(aec, name, words):
    """Writes a program that runs these words of a shell with the program's arguments."""
    aec.write(name, f'#!/bin/sh\nexec {words} "$@"\n'.encode())
    os.chmod(aec.file(name), 0o755)


def try_block(block, aec, environment, tally):
    """Runs a block of commands, and checks that they print what its remarks say. If the block needs
    numpy, `python3` is a Python that has it."""
    if NUMPY in block:
        environment = {**environment, "PATH": f"{aec.file('numpy')}:{environment['PATH']}"}
    more = {"env": environment, "capture_output": True, "text": True}
    ended = subprocess.run(["sh", "-euc", block], cwd=aec.folder, check=False, **more)
    said = f"{ended.stdout[-300:]} {ended.stderr[-300:]}"
    tally.holds(ended.returncode == 0, f"the page: {block.splitlines()[0]}: {said}")
    for line in block.splitlines():
        is_so = wanted_words(line) in ended.stdout
        tally.holds(is_so, f"the page: {line}: not in {ended.stdout}")


def try_page(aec, tally):
    """Runs each block of commands of the page, in one folder. Returns what was skipped."""
    environment, skipped, failed_before = prepare_page(aec), [], set()
    with open(PAGE, encoding="utf-8") as file:
        text = file.read()
    for block in re.findall(r"```sh\n(.*?)```", text, re.S):
        missing = missing_for(block) or [it for it in failed_before if it in block]
        if missing:
            skipped.append(f"a block of the page: no {', '.join(missing)}")
            failed_before |= {it for it in ("message.grib", "field.grib") if it in block}
        else:
            try_block(block, aec, environment, tally)
    return skipped


def main():
    asked = asked_of("The recipes.", 48)
    os.environ["PYTHONDONTWRITEBYTECODE"] = "1"
    tally = Tally()
    with tempfile.TemporaryDirectory() as folder:
        aec = Program(asked.program, folder)
        running, skipped = begun_judged(asked)
        running.append(begun_hidden(asked, folder, tally))
        os.mkdir(aec.file("page"))
        skipped += try_page(Program(asked.program, aec.file("page")), tally)
        for it in running:
            add_test(it, tally)
    tally.print(len(skipped), "; ".join(skipped))
    return 1 if tally.failed else 0


if __name__ == "__main__":
    sys.exit(main())
