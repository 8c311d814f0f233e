"""The level of the processor, or the one that AECP_LEVEL names: it decides which of two built libraries the module loads. As a program,
prints it."""

from __future__ import annotations

import os
import re
from typing import Optional

PLAIN, V3 = "x86-64-v2", "x86-64-v3"
# What x86-64-v3 adds, by the names of /proc/cpuinfo (abm means LZCNT). Linux lists avx and avx2 only if it saves their registers.
FLAGS = ("abm", "avx", "avx2", "bmi1", "bmi2", "f16c", "fma", "movbe")
# What each built library uses of x86-64-v2.
NEEDED = ("popcnt", "sse4_1", "sse4_2", "ssse3")
CPUINFO = "/proc/cpuinfo"


def flags_in(cpuinfo: str) -> Optional[set[str]]:
    """Returns the features of a processor that /proc/cpuinfo describes by this text. None if it lists none."""
    line = re.search(r"^flags\s*:(.*)$", cpuinfo, re.M)
    return set(line[1].split()) if line else None


def level_of(cpuinfo: str) -> str:
    """Returns the level of a processor that /proc/cpuinfo describes by this text."""
    return V3 if (flags_in(cpuinfo) or set()).issuperset(FLAGS) else PLAIN


def lacking(cpuinfo: str) -> list[str]:
    """Returns which features each built library needs, and a processor lacks. Empty if /proc/cpuinfo lists no features."""
    flags = flags_in(cpuinfo)
    return [] if flags is None else [it for it in NEEDED if it not in flags]


def described() -> str:
    """Returns the text of /proc/cpuinfo; an empty one if it can't be read."""
    try:
        with open(CPUINFO, encoding="ascii", errors="replace") as file:
            return file.read()
    except OSError:
        return ""


def level() -> str:
    """Returns the level that AECP_LEVEL names, else the processor's, else PLAIN. Raises ImportError if AECP_LEVEL names another."""
    named = os.environ.get("AECP_LEVEL")
    if named:
        if named not in (PLAIN, V3):
            raise ImportError(f"AECP_LEVEL must be {PLAIN} or {V3}, not {named}")
        return named
    return level_of(described())


def judge_processor() -> None:
    """Raises ImportError if the processor lacks a feature that each built library needs, unless AECP_LEVEL names a level."""
    lacks = [] if os.environ.get("AECP_LEVEL") else lacking(described())
    if lacks:
        raise ImportError(f"aecp needs a processor with {PLAIN}; this one lacks {', '.join(lacks)}")


def names_of(file: str) -> list[str]:
    """Returns the paths in a folder of built files where the file for this processor may be, the best first."""
    return [os.path.join(V3, file), file] if level() == V3 else [file]


if __name__ == "__main__":
    print(level())
