#!/usr/bin/env python3
"""Checks that the packages of `make dist` may be released: release.py

Fails, and prints what is missing, unless all of these hold:

- the checkout is a commit without changes, with the tag of its version, such as v1.1.0;
- CHANGELOG.md has a day for this version, and debian/changelog begins with it;
- the binaries that `make dist` packs were proved and built at this commit, by one kit;
- the gate has passed at this commit, on this machine;
- the checker has refused every wrong body at this state of the crates (checks/wrong_bodies.py).
"""

import os
import re
import subprocess
import sys

sys.dont_write_bytecode = True

import dist
import proved


def faults_of_names(version: str, is_tagged: bool, news: str, changelog: str) -> list[str]:
    """Returns what a release lacks of its version, given the texts of CHANGELOG.md and debian/changelog."""
    found = []
    if not is_tagged:
        found.append(f"the commit has no tag v{version}")
    if not re.search(rf"(?m)^## {re.escape(version)} \(\d+ [A-Z][a-z]+ \d{{4}}\)$", news):
        found.append(f"CHANGELOG.md has no day for {version}")
    if not changelog.startswith(f"aec-proved ({version}) "):
        found.append(f"debian/changelog doesn't begin with {version}")
    return found


def text_of(name: str) -> str:
    with open(os.path.join(proved.TOP, name), encoding="utf-8") as file:
        return file.read()


def faults() -> list[str]:
    """Returns what is missing."""
    texts = map(text_of, ("CHANGELOG.md", "debian/changelog"))
    found = faults_of_names(proved.version(), proved.is_release(), *texts)
    if not re.fullmatch("[0-9a-f]+", proved.commit()):
        found.append(f"the checkout is at commit {proved.commit()}")
    try:
        proved.kit_of(list(dist.BINARIES.values()))
    except (proved.NotProved, OSError) as fault:
        found.append(str(fault))
    if not re.search(r"\b0 failed\b", proved.gate()):
        found.append(f"the gate: {proved.gate()}")
    script = os.path.join(proved.TOP, "checks", "wrong_bodies.py")
    tried = subprocess.run([sys.executable, script, "--untried"], capture_output=True, text=True)
    if tried.returncode:
        found.append((tried.stdout + tried.stderr).strip())
    return found


def main() -> int:
    found = faults()
    print("\n".join(found) or "all is proved, and every wrong body was refused")
    return 1 if found else 0


if __name__ == "__main__":
    sys.exit(main())
