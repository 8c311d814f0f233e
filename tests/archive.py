#!/usr/bin/env python3
"""Tests the archive of one file, and the command `aecp`: archive.py FOLDER [--thorough] [--jobs N] [--python PATH] [WORD..]

FOLDER contains libaecp.so. The tests are those of tests/archive/, by pytest and hypothesis. If this Python lacks them, the script runs
them by /usr/bin/python3. If that lacks them too, the script says so, and fails where CI=true is set. `--thorough` tries ten times as many
cases. WORD goes to pytest, as `-k NAME` or a file of tests/archive/; without one, all files are tested, N at once.

Prints the tests that fail and, last, how many passed. Ends with status 1 if one failed.
"""

from __future__ import annotations

import os
import shutil
import subprocess
import sys
import tempfile
from typing import Optional

from lib import by_pytest

SUITE = by_pytest.Suite(
    what="the archive",
    folder=by_pytest.TOP / "tests" / "archive",
    needed=("pytest, hypothesis, numpy",),
    packages="pytest, hypothesis and numpy (python3-pytest, python3-hypothesis, python3-numpy)",
    slow=("test_stops", "test_hostile", "test_edit", "test_pool", "test_dask", "test_reading", "test_keep"),
)


def hooks(folder: str) -> Optional[str]:
    """Compiles hooks.c. Returns the path of the library, None if there is no C compiler."""
    path = os.path.join(folder, "hooks.so")
    if shutil.which("cc") is None:
        return None
    subprocess.run(["cc", "-O1", "-shared", "-fPIC", "-o", path, str(SUITE.folder / "hooks.c"), "-ldl"], check=True)
    return path


def main() -> int:
    asked, more = by_pytest.words(__doc__).parse_known_args()
    with tempfile.TemporaryDirectory() as folder:
        library = hooks(folder)
        if library is None:
            return by_pytest.lacking(SUITE, "a C compiler, the command cc")
        return by_pytest.run(SUITE, asked, more, {"LD_PRELOAD": library})


if __name__ == "__main__":
    sys.exit(main())
