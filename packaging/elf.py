"""Finds with `objdump` what a built file needs of the C library, and how it is linked."""

import re
import subprocess

# Names of versions that aren't numbers, and the version of glibc that has them. GLIBC_PRIVATE counts as 99.0, since other versions of
# glibc may lack it.
NAMED = {"ABI_DT_RELR": (2, 36), "PRIVATE": (99, 0)}


def headers(path):
    return subprocess.run(["objdump", "-p", path], capture_output=True, text=True, check=True).stdout


def glibc_needed(path):
    """Returns the least version of glibc that the loader accepts for a file, as (2, 17)."""
    found = [(0, 0)]
    for name in re.findall(r"GLIBC_(\S+)", headers(path).partition("Version References:")[2]):
        numbers = re.fullmatch(r"(\d+)\.(\d+)(\.\d+)?", name)
        found.append((int(numbers[1]), int(numbers[2])) if numbers else NAMED[name])
    return max(found)


def libraries_needed(path):
    """Returns the names of the shared libraries that a file needs."""
    return sorted(re.findall(r"^ +NEEDED +(\S+)", headers(path), re.M))


def is_bound_at_load(path):
    """Returns whether a file is linked with `-z relro` and `-z now`."""
    text = headers(path)
    return bool(re.search(r"(?m)^ +RELRO ", text) and re.search(r"(?m)^ +FLAGS_1 +0x[0-9a-f]*[13579bdf]$", text))
