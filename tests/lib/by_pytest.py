"""Runs a folder of tests by pytest, for archive.py and module.py: one process a file, several at
once. Finds an interpreter that has what the tests import."""

from __future__ import annotations

import argparse
import os
import re
import shutil
import subprocess
import sys
from concurrent.futures import ThreadPoolExecutor
from pathlib import Path
from typing import NamedTuple, Optional

TOP = Path(__file__).resolve().parents[2]


class Suite(NamedTuple):
    """A folder of tests."""

    what: str  # what they test, for messages
    folder: Path
    needed: tuple[str, ...]  # modules that an interpreter must have; the best choice comes first
    packages: str  # the modules that are always needed, with their Debian packages
    slow: tuple[str, ...] = ()  # the files that take longest, which begin first


class Counts(NamedTuple):
    """How many tests of a file passed, failed or were skipped."""

    passed: int
    failed: int
    skipped: int


def words(description: Optional[str]) -> argparse.ArgumentParser:
    """Returns a parser of the words that each suite takes."""
    parser = argparse.ArgumentParser(description=description, allow_abbrev=False)
    parser.add_argument("library", metavar="FOLDER")
    parser.add_argument("--thorough", action="store_true")
    parser.add_argument("--jobs", type=int, default=os.cpu_count() or 1)
    parser.add_argument("--python", help="the interpreter to run the tests by")
    return parser


def has_modules(python: str, modules: str) -> bool:
    """Returns whether an interpreter can import these modules, given as `numpy, h5py`."""
    line = [python, "-c", f"import {modules}"]
    return subprocess.run(line, capture_output=True, check=False).returncode == 0


def interpreter(*needed: str, asked: Optional[str] = None) -> Optional[str]:
    """Returns the interpreter `asked`, or this one, or /usr/bin/python3: the first that has the
    first of the lists of modules that one of them has. Returns None if none has any."""
    paths = [asked] if asked else [sys.executable, "/usr/bin/python3"]
    for modules in needed:
        for path in filter(shutil.which, paths):
            if has_modules(path, modules):
                return path
    return None


def lacking(suite: Suite, what: str) -> int:
    """Says what the tests lack. Returns the status, which is 1 where CI=true is set."""
    must = os.environ.get("CI") == "true"
    print(f"the tests of {suite.what} need {what}, which this machine lacks")
    print(f"0 passed, {int(must)} failed, 1 skipped ({what})")
    return int(must)


def counts_of(text: str, status: int) -> Counts:
    """Returns the counts in the last line of pytest. A run that ended otherwise counts as one
    failure more."""
    line = next((it for it in reversed(text.splitlines()) if re.search(r" in [0-9.]+s", it)), "")
    pairs = re.findall(r"(\d+) (passed|failed|skipped|error)", line)
    found = {name: int(number) for number, name in pairs}
    failed = found.get("failed", 0) + found.get("error", 0)
    if status not in (0, 1, 5) or (status == 1 and not failed):
        failed += 1
    return Counts(found.get("passed", 0), failed, found.get("skipped", 0))


def tested(suite: Suite, python: str, more: list[str], environment: dict[str, str]) -> Counts:
    """Runs pytest. Returns the counts, and prints what pytest says if something failed."""
    line = [python, "-m", "pytest", "-q", "-p", "no:cacheprovider", "-rs", "--tb=short", *more]
    ended = subprocess.run(
        line,
        cwd=suite.folder,
        env=environment,
        capture_output=True,
        text=True,
        errors="replace",
        check=False,
    )
    counts = counts_of(ended.stdout, ended.returncode)
    if counts.failed:
        print(ended.stdout + ended.stderr, flush=True)
    else:
        skips = [it for it in ended.stdout.splitlines() if it.startswith("SKIPPED")]
        last = ended.stdout.strip().splitlines()[-1:]
        print("\n".join([f"{' '.join(more)}: {' '.join(last)}", *skips]), flush=True)
    return counts


def parts_of(suite: Suite, more: list[str]) -> list[list[str]]:
    """Returns the words of each run of pytest: one a file, unless the words name tests."""
    if more:
        return [more]
    names = sorted(it.stem for it in suite.folder.glob("test_*.py"))
    slow = suite.slow
    return [
        [f"{it}.py"]
        for it in sorted(names, key=lambda it: slow.index(it) if it in slow else len(slow))
    ]


def run(suite: Suite, asked: argparse.Namespace, more: list[str], given: dict[str, str]) -> int:
    """Runs the tests with these variables of the environment. Prints how many passed and failed.
    Returns the status."""
    python = interpreter(*suite.needed, asked=asked.python)
    if python is None:
        return lacking(suite, suite.packages)
    paths = [str(TOP / "bindings" / "python"), os.getenv("PYTHONPATH")]
    environment = {
        **os.environ,
        "AECP_LIBRARY": os.path.abspath(os.path.join(asked.library, "libaecp.so")),
        "PYTHONPATH": os.pathsep.join(filter(None, paths)),
        "PYTHONDONTWRITEBYTECODE": "1",
        **given,
    }
    flags = ["--thorough"] if asked.thorough else []

    def of_part(part: list[str]) -> Counts:
        return tested(suite, python, [*flags, *part], environment)

    with ThreadPoolExecutor(asked.jobs) as pool:
        counts = list(pool.map(of_part, parts_of(suite, more)))
    passed, failed, skipped = (sum(it[i] for it in counts) for i in range(3))
    print(f"{passed} passed, {failed} failed{f', {skipped} skipped' if skipped else ''}")
    return 1 if failed or not passed else 0
