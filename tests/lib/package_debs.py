"""Tests the Debian packages by lintian, by apt and by the tests of debian/tests, for packages.py."""

import os
import re
import subprocess

import release
from lib.package_modules import TOP, python_version, snapshot, tarball_version, version

# For apt, which fetches the packages that ours and their tests need.
APT_SECONDS = 900
# Commands in a root where all packages are installed.
USE = """set -e
aecp --version
python3 -c 'import aecp; print(aecp.decode_bytes(aecp.encode(bytes(8), aecp.Options(8)), 8, aecp.Options(8)))'
test -e /usr/share/man/man1/aecp.1.gz -a -e /usr/share/bash-completion/completions/aecp
"""
# What the tests of debian/tests read, and the one that can't be run in the root: it reads /proc/self.
SOURCES = ("VERSION", "debian/tests", "docs/LIBRARY.md", "examples")
LEFT_OUT = "module"
# Runs such a test. It must print nothing to standard error, as autopkgtest demands.
TEST = """cd /tmp/source
AUTOPKGTEST_TMP=$(mktemp -d) debian/tests/{} 2> /tmp/errors
status=$?
! grep . /tmp/errors && exit $status
"""


def field_of(deb, name):
    """Returns what the control file of a Debian package has in a field."""
    return subprocess.run(["dpkg-deb", "-f", deb, name], capture_output=True, text=True).stdout.strip()


def debian_version():
    """Returns the version of the Debian packages in dist/. If a packager has added to that of VERSION, `make dist` adds nothing."""
    with open(os.path.join(TOP, "debian", "changelog"), encoding="utf-8") as file:
        named = re.match(r"aec-proved \((.*?)\)", file.readline())[1]
    return f"{named}~git{snapshot()}" if named == version() and snapshot() else named


def try_versions(made, tally):
    """Checks that each package has its version, in its name and inside."""
    for name in sorted(made):
        wanted = tarball_version() if "x86_64-linux" in name else debian_version() if name.endswith(".deb") else python_version()
        tally.holds(wanted in name, f"{name} has another version than {wanted}")
    for name in filter(lambda it: it.endswith(".deb"), made):
        tally.check(f"the version in {name}", field_of(made[name], "Version"), debian_version())


def try_release(tally):
    """Checks what `make release-check` says of a tag and of both changelogs."""
    news, changelog = "# Changelog\n\n## 2.3.4 (1 May 2027)\n", "aec-proved (2.3.4) unstable; urgency=medium\n"
    cases = [
        ((True, news, changelog), []),
        ((False, news, changelog), ["the commit has no tag v2.3.4"]),
        ((True, news.replace("1 May 2027", "not released yet"), changelog), ["CHANGELOG.md has no day for 2.3.4"]),
        ((True, news, changelog.replace("4)", "4~git1)")), ["debian/changelog doesn't begin with 2.3.4"]),
    ]
    for given, wanted in cases:
        tally.check(f"what a release lacks: {given}", release.faults_of_names("2.3.4", *given), wanted)


def tests_of_control():
    """Returns the tests of debian/tests/control but LEFT_OUT, and the packages that they need."""
    with open(os.path.join(TOP, "debian/tests/control"), encoding="utf-8") as file:
        found = dict(re.findall(r"(?m)^Tests: (.*)\nDepends: (.*)$", file.read()))
    del found[LEFT_OUT]
    return list(found), sorted({name for names in found.values() for name in names.split(", ")})


def try_tests(tests, root, tally):
    """Runs tests of debian/tests on the installed packages."""
    for name in SOURCES:
        root.copy(os.path.join(TOP, name), f"/tmp/source/{name}")
    for name in tests:
        status, said = root.run(TEST.format(name))
        tally.holds(status == 0, f"debian/tests/{name}: {said}")


def try_apt(made, root, tally):
    """Installs all Debian packages by apt, which fetches what they need, runs the tests of debian/tests, and removes the packages."""
    if not root.is_debian:
        tally.skip("debootstrap", "apt install of the Debian packages")
        return
    debs = sorted(name for name in made if name.endswith(".deb"))
    for deb in debs:
        root.copy(made[deb], f"/tmp/apt/{deb}")
    before, (tests, needed) = root.files(), tests_of_control()
    words = f"apt-get install -qy --no-install-recommends /tmp/apt/*.deb {' '.join(needed)}"
    status, said = root.run(f"apt-get update -q && {words}", APT_SECONDS)
    tally.holds(status == 0, f"apt-get install ./dist/*.deb: {said[-2000:]}")
    status, said = root.run(USE)
    tally.holds(status == 0 and f"aecp {python_version()}" in said, f"aecp of the Debian package: {said}")
    try_tests(tests, root, tally)
    names = " ".join(deb.partition("_")[0] for deb in debs)
    status, said = root.run(f"apt-get purge -qy {names}", APT_SECONDS)
    tally.holds(status == 0, f"apt-get purge: {said[-2000:]}")
    tally.check("what apt-get purge leaves", sorted(it for it in root.files() - before if "aec" in it), [])


def try_lintian(made, tally):
    if tally.has("lintian", "lintian on the Debian packages"):
        debs = sorted(path for name, path in made.items() if name.endswith(".deb"))
        # The packages -dbgsym have symbol tables alone, since the kit writes no debug information.
        words = ["lintian", "--fail-on", "error,warning", "--tag-display-limit", "0", "--suppress-tags", "debug-file-with-no-debug-symbols"]
        done = subprocess.run([*words, *debs], capture_output=True, text=True)
        tally.check("lintian", (done.returncode, done.stdout), (0, ""))
