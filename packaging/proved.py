#!/usr/bin/env python3
"""Records what was proved of the built files: proved.py state | record STATE FILE.. | gate STATE LOG | debian

state: prints the commit of the checkout and the sum of its crates, before a build begins.
record: after `make` or `make library` has proved and built FILE, writes FILE.proved beside it: the file's SHA-256, the state and
the kit. `make dist` packs a file only if its sum and state still match and all files have one kit. It also writes sum, commit and
kit into the file PROVED of each package. A file of bin/ that was built for x86-64-v3 from other crates is removed: nothing may
take it for the same program.
gate: after `make test` has run the gate, writes the state and the last line of the gate's LOG to bin/gate.
debian: writes the file PROVED of each Debian package below debian/, for debian/rules.
"""

import hashlib
import os
import subprocess
import sys
import time
from typing import NamedTuple

TOP = os.path.abspath(os.path.join(os.path.dirname(os.path.abspath(__file__)), ".."))
GATE = "bin/gate"
# The level that the gate doesn't build, and the folder of its files.
LEVEL = "x86-64-v3"

HEAD = """aec {version} for Linux on x86-64. A checker has proved that each Rattle function of the program and of the library keeps
its contract. The page docs/PROOFS.md of the source lists what the contracts say, and what isn't proved.

kit     {kit}
commit  {commit}
gate    {gate}

SHA-256 of each binary. To compare one, run `sha256sum` on the binary. A path with x86-64-v3 is of a binary for processors
of this level, any other of one for x86-64-v2.
"""
UNPROVED = """aec {version} for Linux on x86-64. NOTHING IS PROVED of these binaries. They were built for trying the packages.

commit  {commit}

SHA-256 of each binary. A path with x86-64-v3 is of a binary for processors of this level, any other of one for x86-64-v2.
"""


STRIPPED = """
Debian's dh_strip has removed symbols from these files: the packages -dbgsym have those of programs and shared libraries. Before, the
files had these sums:

{}"""

BUILD = "run make levels"

# For each Debian package its binaries, by the names in bin/.
LIB = "usr/lib/x86_64-linux-gnu"
DEBIAN = {
    "aec-proved": {"aec": "usr/lib/aec-proved/x86-64-v2/aec-proved", f"{LEVEL}/aec": f"usr/lib/aec-proved/{LEVEL}/aec-proved"},
    "libaecp1": {"libaecp.so": f"{LIB}/libaecp.so.1", f"{LEVEL}/libaecp.so": f"{LIB}/glibc-hwcaps/{LEVEL}/libaecp.so.1"},
    "libaecp-dev": {"libaecp.a": f"{LIB}/libaecp.a"},
}


class Record(NamedTuple):
    """What is recorded of a built file: its SHA-256, the commit and the sum of the crates that it was built from, the kit."""

    sum: str
    state: str
    kit: str

    def crates(self):
        """Returns the sum of the crates."""
        return self.state.rpartition(" ")[2]


class NotProved(Exception):
    """A file to be packed wasn't proved and built here, or the packages have no date."""


def told(*words):
    """Returns what a command prints, without the end of the line. Empty if it fails."""
    try:
        return subprocess.run(words, cwd=TOP, capture_output=True, text=True, check=True).stdout.strip()
    except (OSError, subprocess.CalledProcessError):
        return ""


def git(*words):
    """Returns what git prints in the checkout, even if another user owns the checkout."""
    return told("git", "-c", "safe.directory=*", *words)


def commit():
    """Returns the commit of the checkout, with the words 'with changes' if a file of it was changed; 'unknown' if git names
    none."""
    name = git("rev-parse", "HEAD")
    if not name:
        return "unknown"
    return name + (" with changes" if git("status", "--porcelain", "--untracked-files=no") else "")


def moment():
    """Returns the date of every packed file, in seconds: SOURCE_DATE_EPOCH, else the commit's. Raises NotProved if there is neither."""
    given = os.environ.get("SOURCE_DATE_EPOCH") or git("log", "-1", "--format=%ct")
    if not given:
        raise NotProved("there is no commit to take a date from: set SOURCE_DATE_EPOCH")
    return int(given)


def crates():
    """Returns a sum of what the proofs read: crates.txt, and src/, specs/ and proofs/ of each crate."""
    top = os.path.join(TOP, "crates")
    parts = [os.path.join(top, crate, part) for crate in os.listdir(top) for part in ("src", "specs", "proofs")]
    paths = [os.path.join(at, name) for part in parts for at, _, names in os.walk(part) for name in names]
    lines = [f"{os.path.relpath(path, TOP)} {sum_of(path)}\n" for path in sorted([os.path.join(TOP, "crates.txt"), *paths])]
    return hashlib.sha256("".join(lines).encode()).hexdigest()[:16]


def state():
    """Returns the commit of the checkout and the sum of its crates."""
    return f"{commit()}, crates {crates()}"


def sum_of(path):
    """Returns the SHA-256 of a file."""
    with open(path, "rb") as file:
        return hashlib.sha256(file.read()).hexdigest()


def record(at, path):
    """Writes sum, state and kit of a file that was just proved and built. Removes its counterpart in the folder LEVEL if that was
    built from other crates or by another kit."""
    with open(os.path.join(TOP, path + ".proved"), "w", encoding="utf-8") as file:
        file.write(f"{sum_of(os.path.join(TOP, path))}\n{at}\n{told('rt', 'version')}\n")
    other = counterpart(path)
    if os.path.exists(os.path.join(TOP, other)) and not is_same_build(path, other):
        os.remove(os.path.join(TOP, other))
        print(f"{other} is removed, since it was not built from these crates")


def counterpart(path):
    """Returns where the file is that is built for LEVEL instead."""
    return os.path.join(os.path.dirname(path), LEVEL, os.path.basename(path))


def record_of(path):
    """Returns the record of a file. Raises NotProved if there is none, or if the file has another sum."""
    try:
        with open(os.path.join(TOP, path + ".proved"), encoding="utf-8") as file:
            found = Record(*file.read().splitlines())
    except (OSError, TypeError):
        raise NotProved(f"{path}.proved is missing: {BUILD}") from None
    if found.sum != sum_of(os.path.join(TOP, path)):
        raise NotProved(f"{path} isn't the file that make has built: {BUILD}")
    return found


def is_same_build(path, other):
    """Returns whether two files are as they were recorded, and were built from the same crates by one kit."""
    try:
        one, two = record_of(path), record_of(other)
    except (NotProved, OSError):
        return False
    return (one.crates(), one.kit) == (two.crates(), two.kit)


def record_gate(at, log):
    """Writes a state, and the last line of the gate's log at this state, to bin/gate."""
    with open(log, encoding="utf-8") as file:
        lines = file.read().splitlines()
    os.makedirs(os.path.join(TOP, "bin"), exist_ok=True)
    with open(os.path.join(TOP, GATE), "w", encoding="utf-8") as file:
        file.write(f"{at}\n{lines[-1] if lines else 'no line'}\n")


def kit_of(paths):
    """Returns the kit that has proved these files. Raises NotProved if a file, its commit or its crates have changed, or if the
    files have several kits."""
    kits, now = set(), state()
    for path in paths:
        found = record_of(path)
        if found.state != now:
            raise NotProved(f"{path} was built at commit {found.state}, and this is {now}: {BUILD}")
        kits.add(found.kit)
    if len(kits) != 1:
        raise NotProved(f"the files were proved by different kits, {sorted(kits)}: {BUILD}")
    return kits.pop()


def gate():
    """Returns the last line of the gate at this commit and of these crates, from bin/gate, or a text that it wasn't run."""
    try:
        with open(os.path.join(TOP, GATE), encoding="utf-8") as file:
            at, line = file.read().splitlines()
    except (OSError, ValueError):
        at, line = "", ""
    return line if at == state() else "make test was not run at this commit on the machine that made this package"


def head(version, paths, is_proved):
    """Returns the text of PROVED up to the sums."""
    if not is_proved:
        return UNPROVED.format(version=version, commit=commit())
    return HEAD.format(version=version, kit=kit_of(paths), commit=commit(), gate=gate())


def version():
    with open(os.path.join(TOP, "VERSION"), encoding="utf-8") as file:
        return file.read().strip()


def is_release():
    """Returns whether the commit has the tag of its version, such as v1.1.0."""
    return f"v{version()}" in git("tag", "--points-at", "HEAD").split()


def snapshot():
    """Returns time and name of a commit that is no release, such as 20261130190512.cd5bd7d4: `make dist` adds them to the version of its
    packages. Empty for a release, and where git names no commit."""
    told = git("log", "-1", "--format=%ct %h", "--abbrev=8").split()
    if is_release() or not told:
        return ""
    at = time.strftime("%Y%m%d%H%M%S", time.gmtime(int(told[0])))
    return f"{at}.{told[1]}" + (".changed" if commit() != git("rev-parse", "HEAD") else "")


def debian_head():
    """Returns the first lines of PROVED: those of the file that AECP_PROVED_HEAD names, else those of this checkout."""
    named = os.environ.get("AECP_PROVED_HEAD")
    if named:
        with open(named, encoding="utf-8") as file:
            return file.read()
    paths = [f"bin/{name}" for files in DEBIAN.values() for name in files]
    return head(version(), paths, is_proved=not os.environ.get("AECP_UNPROVED"))


def write_debian():
    """Writes PROVED of each Debian package that has binaries. Raises NotProved."""
    start = debian_head()
    for package, files in DEBIAN.items():
        root = os.path.join(TOP, "debian", package)
        packed = "".join(f"{sum_of(os.path.join(root, place))}  /{place}\n" for place in files.values())
        before = "".join(f"    {sum_of(os.path.join(TOP, 'bin', name))}  bin/{name}\n" for name in files)
        is_stripped = any(sum_of(os.path.join(root, place)) != sum_of(os.path.join(TOP, "bin", name)) for name, place in files.items())
        path = os.path.join(root, "usr/share/doc", package, "PROVED")
        os.makedirs(os.path.dirname(path), exist_ok=True)
        with open(path, "w", encoding="utf-8") as file:
            file.write(f"{start}\n{packed}{STRIPPED.format(before) if is_stripped else ''}")
        os.chmod(path, 0o644)


def main():
    action, words = (sys.argv[1:2] or [""])[0], sys.argv[2:]
    if action == "state" and not words:
        print(state())
    elif action in ("record", "gate") and len(words) > 1:
        for path in words[1:]:
            record(words[0], path) if action == "record" else record_gate(words[0], path)
    elif action == "debian" and not words:
        try:
            write_debian()
        except NotProved as fault:
            print(fault, file=sys.stderr)
            return 1
    else:
        print(__doc__.splitlines()[0], file=sys.stderr)
        return 1
    return 0


if __name__ == "__main__":
    sys.exit(main())
