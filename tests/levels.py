#!/usr/bin/env python3
"""Tests the program for x86-64-v3: levels.py [--short] [PLAIN OTHER]

PLAIN is bin/aec if no programs are given, and OTHER bin/x86-64-v3/aec: these must be built from the same crates by one kit. Runs with OTHER
each script that tests/run.sh runs with the program of the gate. Left out is instructions_bounded.py, whose bounds are those of PLAIN.
Compares both programs by two_programs.py, and runs both on older processors by processors.py. With --short runs only coded.py, some
hundred jobs of two_programs.py, and processors.py.

On a processor without x86-64-v3 only processors.py is run, and that is said. Prints what each script prints and, last, how many checks
passed. Ends with status 1 if one failed.
"""

import argparse
import os
import re
import runpy
import subprocess
import sys
import time

sys.dont_write_bytecode = True

from lib.program import TOP, Tally

sys.path.insert(0, os.path.join(TOP, "packaging"))

import proved

PATHS = ["bin/aec", "bin/x86-64-v3/aec"]
LEFT_OUT = "instructions_bounded.py"
# Cases of six jobs each.
CASES = {True: 100, False: 2000}
COUNTS = re.compile(r"(\d+) passed, (\d+) failed")


def words():
    asked = argparse.ArgumentParser(description="Tests the program for x86-64-v3.")
    asked.add_argument("--short", action="store_true")
    asked.add_argument("programs", nargs="*", metavar="PLAIN OTHER")
    return asked.parse_args()


def scripts_of_gate():
    """Returns the scripts that tests/run.sh runs with the program of the gate, by the lines of its parts."""
    with open(os.path.join(TOP, "tests/run.sh"), encoding="utf-8") as file:
        found = re.findall(r"^[\w-]+ on_program tests/(\w+\.py)'?$", file.read(), re.M)
    return [name for name in found if name != LEFT_OUT]


def commands(plain, other, is_short):
    all_of_gate = [[name, other] for name in scripts_of_gate()]
    kept = [it for it in all_of_gate if it[0] == "coded.py"] if is_short else all_of_gate
    return [*kept, ["two_programs.py", plain, other, "--cases", str(CASES[is_short])]]


def try_script(name, more, tally):
    """Runs a script, and adds its counts to the tally. A script that prints none, or ends with another status, has failed."""
    begun = time.monotonic()
    command = [sys.executable, "-B", os.path.join("tests", name), *more]
    done = subprocess.run(command, cwd=TOP, stdin=subprocess.DEVNULL, stdout=subprocess.PIPE, stderr=subprocess.STDOUT, text=True)
    print(f"== {name} {' '.join(more)}: {time.monotonic() - begun:.0f} s\n{done.stdout}", end="", flush=True)
    counts = COUNTS.match((done.stdout.splitlines() or [""])[-1])
    if counts and (done.returncode == 0) == (counts[2] == "0"):
        tally.passed, tally.failed = tally.passed + int(counts[1]), tally.failed + int(counts[2])
    else:
        tally.holds(False, f"{name} ends with {done.returncode}, and its last line has no counts that say why")


def try_same_build(tally):
    """Checks that the programs in bin/ are built from the same crates, as their records say, and are two."""
    tally.holds(proved.is_same_build(*PATHS), f"{PATHS[1]} is not built from the crates of {PATHS[0]}: run make levels")
    sums = {proved.sum_of(os.path.join(TOP, path)) for path in PATHS}
    tally.check("different programs for both levels", len(sums), 2)


def main():
    asked, tally = words(), Tally()
    programs = asked.programs or PATHS
    missing = [path for path in programs if not os.path.exists(os.path.join(TOP, path))]
    if len(programs) != 2 or missing:
        print(f"there is no {missing[0]}: run make levels first" if missing else __doc__.splitlines()[0], file=sys.stderr)
        return 1
    if not asked.programs:
        try_same_build(tally)
    levels = runpy.run_path(os.path.join(TOP, "bindings/python/aecp/levels.py"))
    if levels["level"]() == levels["V3"]:
        for name, *more in commands(*programs, asked.short):
            try_script(name, more, tally)
    else:
        print(f"skipped, since this processor lacks {levels['V3']}: the program for it", flush=True)
    try_script("processors.py", programs, tally)
    tally.print()
    return 1 if tally.failed else 0


if __name__ == "__main__":
    sys.exit(main())
