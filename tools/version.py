#!/usr/bin/env python3
"""Writes the version of the file VERSION into each file that has to contain it: version.py [--check]

The file VERSION is the one place where a version is changed. Makefile, tools/man.py, packaging/ and the tests read it. Files that
cannot read it, such as sources and headers, contain a copy, and PLACES lists these copies. `make version` writes the copies, the
manual page and the pages that `make pages` writes.

With --check nothing is written, and the script fails if a copy differs.
"""

import os
import re
import sys

TOP = os.path.join(os.path.dirname(os.path.abspath(__file__)), "..")

# The files with a copy, and the text around each copy. POINTS stands for 1.2.3, and NUMBER for 10203. A text that begins with FIRST is at
# the file's start: debian/changelog also has the versions of earlier releases, and a packager may add to the first one.
FIRST = r"\A"
PLACES = [
    ("crates/aec_cli/src/words.rt", 'const VERSION: &str = "POINTS";'),
    ("crates/aec_tests/src/words.rt", 'b"aec POINTS\\n"'),
    ("crates/aec_c/src/exports.rt", "aecp_version() -> u32\n    ensures { result ≡ NUMBER }\n{\n    NUMBER\n}"),
    ("bindings/c/aecp.h", "The version of this header, POINTS:"),
    ("bindings/c/aecp.h", "#define AECP_VERSION NUMBER\n"),
    ("bindings/c/aecp.h", '#define AECP_VERSION_STRING "POINTS"\n'),
    ("bindings/python/aecp/__init__.py", '__version__ = "POINTS"\n'),
    ("bindings/python/aecp/library.py", "\nVERSION = NUMBER  # POINTS, as AECP_VERSION of aecp.h\n"),
    ("bindings/rust/aecp/Cargo.toml", '\nversion = "POINTS"\n'),
    ("bindings/rust/aecp/Cargo.toml", 'path = "../aecp-sys", version = "POINTS"'),
    ("bindings/rust/aecp-sys/Cargo.toml", '\nversion = "POINTS"\n'),
    ("bindings/rust/aecp-sys/src/lib.rs", "pub const AECP_VERSION: u32 = NUMBER;\n"),
    ("debian/changelog", FIRST + "aec-proved (POINTS"),
    ("CITATION.cff", "\nversion: POINTS\n"),
    ("bindings/c/aecp.3", '.TH AECP 3 "" "aecp POINTS"\n'),
]


def version():
    """Returns the version, three numbers with points between them."""
    with open(os.path.join(TOP, "VERSION"), encoding="utf-8") as file:
        text = file.read().strip()
    if not re.fullmatch(r"\d+\.\d\d?\.\d\d?", text):
        sys.exit(f"VERSION contains {text!r}, not three numbers with points between them")
    return text


def number_of(points):
    """Returns the version as one number: 10,000, 100 and 1 times its three numbers."""
    major, minor, patch = map(int, points.split("."))
    return 10000 * major + 100 * minor + patch


def filled(around, points):
    """Returns the text of a place with a version in it."""
    return around.removeprefix(FIRST).replace("POINTS", points).replace("NUMBER", str(number_of(points)))


def pattern_of(around):
    """Returns a pattern for the text of a place with any version in it."""
    start = FIRST if around.startswith(FIRST) else ""
    return start + re.escape(around.removeprefix(FIRST)).replace("POINTS", r"\d+\.\d+\.\d+").replace("NUMBER", r"\d+")


def updated(text, around, points):
    """Returns a file's text with the version in one of its places. None if the place isn't there exactly once."""
    found = re.findall(pattern_of(around), text)
    return text.replace(found[0], filled(around, points), 1) if len(found) == 1 else None


def differences(is_written):
    """Yields a line for each place that differs or is missing. If `is_written`, each place that differs is corrected instead."""
    points = version()
    for path, around in PLACES:
        with open(os.path.join(TOP, path), encoding="utf-8") as file:
            text = file.read()
        wanted = updated(text, around, points)
        if wanted is None:
            yield f"{path} must contain {filled(around, points)!r} exactly once"
        elif wanted != text and is_written:
            with open(os.path.join(TOP, path), "w", encoding="utf-8") as file:
                file.write(wanted)
        elif wanted != text:
            yield f"{path} has another version than the file VERSION: run make version"


def main():
    found = list(differences(is_written=sys.argv[1:] != ["--check"]))
    print("".join(f"{line}\n" for line in found), end="")
    print(f"{len(PLACES) - len(found)} passed, {len(found)} failed")
    return 1 if found else 0


if __name__ == "__main__":
    sys.exit(main())
