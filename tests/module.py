#!/usr/bin/env python3
"""Tests the Python module aecp, except its archive: module.py FOLDER [--program PATH] [--thorough] [--jobs N] [--python PATH] [WORD..]

FOLDER contains libaecp.so. The tests are those of bindings/python/tests/, by pytest and hypothesis. The script runs them by the first
of this Python and /usr/bin/python3 that has both, if possible with numpy and h5py. If neither has both, the script says so, and fails
where CI=true is set. `--program` names the program aec whose streams are compared with the module's. `--thorough` tries ten times as
many cases. WORD goes to pytest, as `-k NAME` or a file of bindings/python/tests/; without one, all files are tested, N at once.

Prints the tests that fail and, last, how many passed. Ends with status 1 if one failed.
"""

from __future__ import annotations

import os
import sys

from lib import by_pytest

SUITE = by_pytest.Suite(
    what="the Python module",
    folder=by_pytest.TOP / "bindings" / "python" / "tests",
    needed=("pytest, hypothesis, numpy, h5py", "pytest, hypothesis, numpy", "pytest, hypothesis"),
    packages="pytest and hypothesis (python3-pytest, python3-hypothesis)",
    slow=("test_types", "test_threads", "test_as_a_list", "test_held_buffers"),
)


def main() -> int:
    parser = by_pytest.words(__doc__)
    parser.add_argument("--program", metavar="PATH", help="the program aec")
    asked, more = parser.parse_known_args()
    given = {"AECP_PROGRAM": os.path.abspath(asked.program)} if asked.program else {}
    return by_pytest.run(SUITE, asked, more, given)


if __name__ == "__main__":
    sys.exit(main())
