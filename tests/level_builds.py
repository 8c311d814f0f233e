#!/usr/bin/env python3
"""Tests how make builds and installs both levels, in a small checkout with a made-up `rt` that proves nothing: level_builds.py

The made-up `rt` writes files that tell what they were built from, and notes each call. Checks that
  - both levels are built from the same crates: the plain one in the checkout, the other in a temporary folder, which is removed;
  - nothing is built again if the crates are the same;
  - the other level is refused if crates or kit aren't those of the plain build, if files change meanwhile, or if rt doesn't say that
    the crate is proved for this level; then bin/ is unchanged;
  - a plain build from other crates removes the files of the other level;
  - `make install` takes the program for CPU, and says so; `make install-c` takes both libraries.

Needs make, cc, ld, objcopy and ar; if one is missing, the test is skipped, with a line. Prints the checks that fail and, last, how many
passed. Ends with status 1 if one failed.
"""

import json
import os
import re
import shutil
import subprocess
import sys
import tempfile

sys.dont_write_bytecode = True

from lib.program import TOP, Tally

PLAIN, V3 = "x86-64-v2", "x86-64-v3"
FILES = ["Makefile", "VERSION", "LICENSE", "NOTICES", "build.sh", "library.sh", "packaging", "tools", "bindings", "man", "completions"]
CRATES = "low:\naec_c staticlib: low byteorder\nmid: low\naec: mid\n"
TOOLS = ("make", "cc", "ld", "objcopy", "ar")
# Notes the call; for `run` and `lib` writes the file that is asked for, as the variables FAKE_.. say.
RT = r'''#!/usr/bin/env python3
import json, os, re, subprocess, sys
given, here = os.environ, os.getcwd()
def text(path):
    return open(path).read() if os.path.exists(path) else ""
if sys.argv[1] == "version":
    print(given.get("FAKE_KIT", "kit one"))
elif sys.argv[1] == "doc":
    print(given["FAKE_FOLDER"] + "/START-HERE.md")
else:
    name, build, top = os.path.basename(here), text("BUILD.bazel"), os.path.dirname(os.path.dirname(here))
    call = {"name": name, "words": sys.argv[1:], "top": top, "build": build, "crates": text(top + "/crates.txt")}
    with open(given["FAKE_FOLDER"] + "/calls", "a") as file:
        print(json.dumps(call), file=file)
    cpu = re.search('cpu = "([^"]*)"', build)
    level = cpu[1] if cpu else "plain"
    if "EDIT" in given and cpu:
        open(given["EDIT"], "a").write("changed")
    if "FAIL" in given and cpu:
        print("logic=not-proved")
        sys.exit(1)
    os.makedirs("out", exist_ok=True)
    if name == "aec":
        with open("out/aec", "w") as file:
            file.write("#!/bin/sh\necho '%s of %s'\n" % (level, text(top + "/crates/low/src/lib.rt")))
        os.chmod("out/aec", 0o755)
    elif name == "aec_c":
        names = sorted(set(re.findall(r"(aecp_[a-z_]*)\(", text(given["FAKE_FOLDER"] + "/aecp.h"))))
        with open("out/all.c", "w") as file:
            file.write("".join("int %s(void) { return %d; }\n" % (it, len(level)) for it in names))
        subprocess.run(["cc", "-fPIC", "-ffunction-sections", "-c", "-o", "out/all.o", "out/all.c"], check=True)
        subprocess.run(["ar", "rcs", "out/libaec_c.a", "out/all.o"], check=True)
    print("logic=proved functions=1 " + ("cpu=%s " % given.get("FAKE_CPU", level) if cpu else "") + "sum=1")
    sys.exit(int(given.get("FAKE_STATUS", "0")) if cpu else 0)
'''


class Checkout:
    """A small checkout, and the environment in which its make finds the made-up rt."""

    def __init__(self, folder):
        self.top, self.folder, self.temporary = os.path.join(folder, "checkout"), folder, os.path.join(folder, "temporary")
        for name in ("bin", "c", "temporary", "checkout"):
            os.makedirs(os.path.join(folder, name))
        for name in FILES:
            path, place = os.path.join(TOP, name), os.path.join(self.top, name)
            shutil.copytree(path, place, symlinks=True) if os.path.isdir(path) else shutil.copy(path, place)
        for name in re.findall(r"^\w+", CRATES, re.M):
            self.write(f"crates/{name}/src/{'main' if name == 'aec' else 'lib'}.rt", f"code of {name}")
            self.write(f"crates/{name}/out/incremental/kept", "")
        self.write("crates.txt", CRATES)
        self.write("HANDLES", "Handles allowed: none.\n")
        self.write("README.md", "")
        self.write("../bin/rt", RT)
        os.chmod(os.path.join(folder, "bin/rt"), 0o755)
        shutil.copy(os.path.join(TOP, "bindings/c/aecp.h"), folder)
        subprocess.run(["ar", "rcs", os.path.join(folder, "c/liblibc_c.a")], check=True)

    def path(self, name):
        return os.path.join(self.top, name)

    def write(self, name, text):
        os.makedirs(os.path.dirname(self.path(name)), exist_ok=True)
        with open(self.path(name), "w", encoding="utf-8") as file:
            file.write(text)

    def read(self, name):
        if not os.path.exists(self.path(name)):
            return None
        with open(self.path(name), "rb") as file:
            return file.read()

    def make(self, *words, **more):
        """Runs make. Returns its status and what it prints."""
        given = {**{name: it for name, it in os.environ.items() if name not in ("MAKEFLAGS", "MAKELEVEL", "CPU", "AECP_LEVEL")}, **more}
        given.update(PATH=f"{self.folder}/bin:{given['PATH']}", FAKE_FOLDER=self.folder, TMPDIR=self.temporary, PYTHONDONTWRITEBYTECODE="1")
        words = ["make", "-s", f"PYTHON={sys.executable}", *words]
        done = subprocess.run(words, cwd=self.top, env=given, stdin=subprocess.DEVNULL, capture_output=True, text=True)
        return done.returncode, done.stdout + done.stderr

    def calls(self):
        path = os.path.join(self.folder, "calls")
        if not os.path.exists(path):
            return []
        with open(path, encoding="utf-8") as file:
            found = [json.loads(line) for line in file]
        os.remove(path)
        return [it for it in found if it["build"]]

    def left(self):
        """Returns the files BUILD.bazel in the checkout, and what is left in the temporary folder."""
        found = [at for at, _, names in os.walk(self.top) if "BUILD.bazel" in names]
        return found + os.listdir(self.temporary)


def try_both(it, tally):
    for _ in range(2):
        status, said = it.make("all", "library", f"CPU={V3}")
        tally.holds(status == 0, f"make all library: {said}")
        tally.check("the plain program", it.read("bin/aec"), b"#!/bin/sh\necho 'plain of code of low'\n")
        tally.check("the other program", it.read(f"bin/{V3}/aec"), b"#!/bin/sh\necho 'x86-64-v3 of code of low'\n")
        for name in ("libaecp.a", "libaecp.so"):
            one, other = it.read(f"bin/{name}"), it.read(f"bin/{V3}/{name}")
            tally.holds(None not in (one, other) and one != other, f"{name} isn't built for both levels")
        tally.check("what is left", it.left(), [])
    calls = it.calls()
    wanted = [("aec", ["run", "--", "--version"]), ("aec_c", ["lib"])]
    tally.check("builds of the other level", [(call["name"], call["words"]) for call in calls], wanted)
    for call in calls:
        tally.holds(call["top"].startswith(it.temporary), f"{call['name']} is built in {call['top']}")
        tally.check(f"crates.txt for {call['name']}", call["crates"], "low:\nmid: low\n" if call["name"] == "aec" else "low:\n")
    wanted = ['name = "aec", cpu = "x86-64-v3", deps = ["//crates/mid"])']
    wanted += ['name = "aec_c", cpu = "x86-64-v3", deps = ["//crates/low", "@rattle//byteorder"], crate_type = "staticlib")']
    tally.check("the files BUILD.bazel", [re.search(r"\((name.*)\n", call["build"])[1] for call in calls], wanted)


def try_plain_alone(it, tally):
    """Builds for x86-64-v2 alone, and for a wrong level."""
    tally.check("make CPU=x86-64-v2", it.make(f"CPU={PLAIN}")[0], 0)
    tally.check("make library CPU=x86-64-v2", it.make("library", f"CPU={PLAIN}")[0], 0)
    tally.check("only the plain files", (it.calls(), os.path.exists(it.path(f"bin/{V3}"))), ([], False))
    status, said = it.make("CPU=v3")
    tally.holds(status and "CPU is x86-64-v2 or x86-64-v3, not v3" in said, f"make CPU=v3: {said}")
    tally.check("CPU in the environment", it.make("clean", "-n", CPU="x86_64")[0], 0)
    status, said = it.make("install", f"DESTDIR={it.folder}/none", f"CPU={V3}")
    tally.holds(status and f"there is no bin/{V3}/aec: run make first" in said, f"make install without that program: {said}")
    tally.check("nothing is installed", os.path.exists(f"{it.folder}/none"), False)


def try_refusals(it, tally):
    """Makes the build of the other level fail in each way. What is in bin/ must stay."""
    before, record = it.read(f"bin/{V3}/aec"), it.path(f"bin/{V3}/aec.proved")
    source = it.path("crates/low/src/lib.rt")
    rows = [
        ("another kit", {"FAKE_KIT": "kit two"}, "was not proved from these crates by this kit"),
        ("not proved", {"FAIL": "1"}, "aec isn't built for x86-64-v3"),
        ("another level", {"FAKE_CPU": "x86-64-v2"}, "aec isn't built for x86-64-v3"),
        ("a failing program", {"FAKE_STATUS": "1"}, "aec isn't built for x86-64-v3"),
        ("files that change", {"EDIT": source}, "files changed meanwhile"),
        ("other crates", {}, "was not proved from these crates by this kit"),
    ]
    for name, given, line in rows:
        if os.path.exists(record):
            # With its record, the program that is there would do.
            os.remove(record)
        status, said = it.make("v3-program", **given)
        tally.holds(status and line in said, f"{name}: {said}")
        tally.check(f"{name}: the program", it.read(f"bin/{V3}/aec"), before)
        tally.check(f"{name}: what is left", it.left(), [])
    it.write("crates/low/src/lib.rt", "code of low")
    tally.check("a processor that lacks the level", it.make("v3-program", FAKE_STATUS="127")[0], 0)


def try_stale(it, tally):
    """Changes a crate, and builds only the plain files: those of the other level must go."""
    it.write("crates/low/src/lib.rt", "new code")
    for words, names in (([f"CPU={PLAIN}"], ["aec"]), (["library", f"CPU={PLAIN}"], ["libaecp.a", "libaecp.so"])):
        status, said = it.make(*words)
        for name in names:
            tally.holds(status == 0 and f"bin/{V3}/{name} is removed" in said, f"make {words} with an older {V3}/{name}: {said}")
            tally.check(f"an older {V3}/{name}", it.read(f"bin/{V3}/{name}"), None)


def try_install(it, tally):
    for level, path in ((PLAIN, "bin/aec"), (V3, f"bin/{V3}/aec")):
        status, said = it.make("install", f"DESTDIR={it.folder}/{level}", "PREFIX=/usr", f"CPU={level}")
        tally.check(f"make install CPU={level}", (status, said), (0, f"installing {path} for {level} as /usr/bin/aec\n"))
        tally.check(f"the program for {level}", it.read(f"../{level}/usr/bin/aec"), it.read(path))
    places, better = [f"DESTDIR={it.folder}/both", "PREFIX=/usr"], f"lib/glibc-hwcaps/{V3}/libaecp.so.1"
    tally.check("make install-c", it.make("install-c", *places), (0, ""))
    for place, path in (("lib/libaecp.so.1", "libaecp.so"), (better, f"{V3}/libaecp.so")):
        tally.holds(it.read(f"../both/usr/{place}") == it.read(f"bin/{path}"), f"{place} isn't bin/{path}")
    os.rename(it.path(f"bin/{V3}/libaecp.so"), it.path("away"))
    tally.check("make install-c for one level", it.make("install-c", *places), (0, ""))
    os.rename(it.path("away"), it.path(f"bin/{V3}/libaecp.so"))
    tally.check(f"the {better} that was there", it.read(f"../both/usr/{better}"), None)
    tally.check("make uninstall-c", it.make("uninstall-c", *places), (0, ""))
    left = [os.path.join(at, name) for at, folders, names in os.walk(f"{it.folder}/both") for name in names + folders if "hwcaps" in name]
    tally.check("what uninstall-c leaves", left, [])


def main():
    tally = Tally()
    missing = [name for name in TOOLS if not shutil.which(name)]
    if missing:
        print(f"skipped, since there is no {missing[0]}: builds for both levels")
    else:
        with tempfile.TemporaryDirectory() as folder:
            it = Checkout(folder)
            try_plain_alone(it, tally)
            try_both(it, tally)
            try_install(it, tally)
            try_refusals(it, tally)
            try_stale(it, tally)
    tally.print()
    return 1 if tally.failed else 0


if __name__ == "__main__":
    sys.exit(main())
