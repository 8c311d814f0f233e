#!/usr/bin/env python3
"""Tests the packages of `make dist`, installed where there is no kit and, if they need none, no Python or compiler: packages.py [--quick]

Runs `make dist` here and in a copy of the checkout elsewhere, and compares the bytes. Installs each package into an empty root, runs
README's commands and debian/tests there, removes the package, and looks for files that are left. Then tests the wheel in fresh
environments, and the Rust crate over the packed archive. All versions must be that of the file VERSION.

A part that needs a missing program is skipped, with a line. MUST_RUN names programs (`lintian cargo`): if one of them is missing, the
test fails. If MUST_RUN contains the word `proved`, the test also fails if a binary of bin/ isn't what a proving build has written at
this commit. With --quick the root is never Debian's least system, which takes a minute to make. Prints the checks that fail and, last,
how many passed. Ends with status 1 if one failed.
"""

import glob
import os
import re
import runpy
import shutil
import subprocess
import sys
import tarfile
import tempfile
import time
import zipfile

sys.dont_write_bytecode = True

from lib.program import TOP, Tally

sys.path.insert(0, os.path.join(TOP, "packaging"))

import elf
import installed
from lib import package_debs
from lib import package_modules
from lib import package_roots
from lib.package_debs import debian_version, field_of
from lib.package_modules import python_version, tarball_version, version
import proved
import python
import stage

DIST = os.path.join(TOP, "dist")
LIB = "usr/lib/x86_64-linux-gnu"
SUMS_OF_ALL = "SHA256SUMS"
BINARIES = ("aec", "libaecp.a", "libaecp.so", "x86-64-v3/aec", "x86-64-v3/libaecp.so")
LEVELS = runpy.run_path(os.path.join(TOP, "bindings/python/aecp/levels.py"))
PLAIN, V3 = LEVELS["PLAIN"], LEVELS["V3"]
# Flags in /proc/cpuinfo of a processor of each level.
FLAGS = {PLAIN: " ".join(LEVELS["NEEDED"]), V3: " ".join([*LEVELS["NEEDED"], *LEVELS["FLAGS"]])}
# The command that a file PROVED names; --strict so that a line in another form fails.
SUMS = "grep -E '^[0-9a-f]{{64}} ' {} | sha256sum --strict -c"


class Checks(Tally):
    """A count of checks, and the programs that must be here."""

    def __init__(self):
        super().__init__()
        self.must = os.environ.get("MUST_RUN", "").split()

    def skip(self, name, what):
        """Prints that a part is skipped, since a program isn't on the machine. Fails if MUST_RUN names the program."""
        print(f"skipped, since there is no {name}: {what}", flush=True)
        if name in self.must:
            self.holds(False, f"{name} must be here")

    def has(self, name, what):
        if shutil.which(name):
            return True
        self.skip(name, what)
        return False


def dist(top):
    """Runs `make dist` in a checkout, with UNPROVED=1 if the binaries aren't proved. Returns the packages by name."""
    words = ["make", "-s", "-C", top, "dist", f"PYTHON={sys.executable}"] + ([] if is_proved() else ["UNPROVED=1"])
    subprocess.run(words, check=True, stdout=subprocess.DEVNULL)
    return {os.path.basename(path): path for path in glob.glob(os.path.join(top, "dist", "*"))}


def is_proved():
    try:
        return bool(proved.kit_of([f"bin/{name}" for name in BINARIES]))
    except proved.NotProved:
        return False


def data_of(path):
    with open(path, "rb") as file:
        return file.read()


def copied_checkout(folder):
    """Copies all files that git doesn't ignore, .git and bin/ into a folder."""
    for name in filter(None, proved.git("ls-files", "-coz", "--exclude-standard").split("\0")):
        if os.path.lexists(os.path.join(TOP, name)):
            os.makedirs(os.path.dirname(os.path.join(folder, name)), exist_ok=True)
            shutil.copy2(os.path.join(TOP, name), os.path.join(folder, name), follow_symlinks=False)
    shutil.copytree(os.path.join(TOP, "bin"), os.path.join(folder, "bin"))
    git = os.path.join(TOP, ".git")
    (shutil.copytree if os.path.isdir(git) else shutil.copy2)(git, os.path.join(folder, ".git"))


def try_python_build(checkout, made, folder, tally):
    """Checks that `python3 -m build` in a checkout makes the wheel that `make dist` makes, with the plain version and without PROVED."""
    words = [python.builder(), "-m", "build", "--no-isolation", "--outdir", folder, os.path.join(checkout, "bindings/python")]
    done = subprocess.run(words, capture_output=True, text=True)
    tally.holds(done.returncode == 0, f"python3 -m build: {done.stdout[-1000:]}{done.stderr[-1000:]}")
    wheel = next(path for name, path in made.items() if name.endswith(".whl"))
    name = os.path.basename(wheel).replace(python_version(), version())
    built = os.path.join(folder, name)
    tally.holds(os.path.exists(built), f"python3 -m build makes no {name}")
    if os.path.exists(built):
        with zipfile.ZipFile(wheel) as one, zipfile.ZipFile(built) as other:
            wanted = {it.replace(python_version(), version()) for it in one.namelist()} - {"aecp/PROVED"}
            tally.check("the files of python3 -m build", sorted(other.namelist()), sorted(wanted))


def try_sums(made, tally):
    """Checks that SHA256SUMS has the sums of all other files."""
    done = subprocess.run(["sha256sum", "--strict", "-c", SUMS_OF_ALL], cwd=DIST, capture_output=True, text=True)
    named = sorted(re.findall(r"(?m)^(\S+): OK$", done.stdout))
    tally.check("the files of SHA256SUMS", (done.returncode, named), (0, sorted({*made} - {SUMS_OF_ALL})))


def try_builds(made, folder, tally):
    """Checks that a build in another folder writes the same bytes, and that no binary contains a path of this machine."""
    other = os.path.join(folder, "elsewhere", "checkout")
    copied_checkout(other)
    again = dist(other)
    tally.check("the names of a second build", sorted(again), sorted(made))
    for name in sorted(made):
        tally.holds(data_of(made[name]) == data_of(again.get(name, made[name])), f"a second build of {name} has other bytes")
    try_python_build(other, made, os.path.join(folder, "elsewhere", "made"), tally)
    for name in BINARIES:
        found = re.findall(rb"/(?:tmp|home|root|work)/[\w./-]+|" + re.escape(TOP.encode()), data_of(os.path.join(TOP, "bin", name)))
        tally.check(f"paths of this machine in bin/{name}", found, [])


def try_links_again(tally):
    archive = os.path.join(TOP, "crates/aec_c/out/libaec_c.a")
    if not (os.path.exists(archive) and tally.has("rt", "linking the library again")):
        print("skipped, since make library wasn't run here: linking the library again")
        return
    paths = [os.path.join(TOP, "bin", name) for name in ("libaecp.a", "libaecp.so")]
    before = [data_of(path) for path in paths]
    subprocess.run(["sh", "library.sh", "--link"], cwd=TOP, check=True)
    for path, data in zip(paths, before):
        tally.holds(data_of(path) == data, f"linking {path} again writes other bytes")


def try_notices(made, tally):
    """Checks that the tarball and the wheel contain the licence of the kit's crates, as plain text, with their names."""
    text = stage.notices(TOP).decode()
    for name in ("byteorder", "clap", "smallvec", "strsim", "thiserror", "\nTHE SOFTWARE IS PROVIDED", "\n\nPermission is hereby granted"):
        tally.holds(name in text, f"the notices lack {name!r}")
    with open(os.path.join(TOP, "debian/copyright"), encoding="utf-8") as file:
        in_debian = re.sub(r"(?m)^ \.?", "", file.read())
    for part in text.split("\n\n", 1):
        tally.holds(part.strip() in in_debian, f"debian/copyright lacks a part of NOTICES: {part[:60]}")
    top = f"aec-{tarball_version()}-x86_64-linux"
    with tarfile.open(made[top + ".tar.gz"]) as archive:
        for place in ("NOTICES", "share/doc/aec/NOTICES"):
            tally.check(f"{place} of the tarball", archive.extractfile(f"{top}/{place}").read().decode(), text)
    with zipfile.ZipFile(next(path for name, path in made.items() if name.endswith(".whl"))) as archive:
        tally.holds("aecp/PROVED" in archive.namelist(), "the wheel has no PROVED")
        tally.check("NOTICES of the wheel", archive.read(f"aecp-{python_version()}.dist-info/NOTICES").decode(), text)


def try_wheel_libraries(made, tally):
    with zipfile.ZipFile(next(path for name, path in made.items() if name.endswith(".whl"))) as archive:
        for name, place in python.PLACES.items():
            tally.holds(archive.read(place) == data_of(os.path.join(TOP, "bin", name)), f"{place} of the wheel isn't bin/{name}")


def try_symbols(made, tally):
    """Checks that the binaries need no newer C library than the packages say, and no other library, and how they are linked."""
    paths = {name: os.path.join(TOP, "bin", name) for name in BINARIES if not name.endswith(".a")}
    needs = {name: elf.glibc_needed(path) for name, path in paths.items()}
    library, program = (max(it for name, it in needs.items() if name.endswith(end)) for end in ("libaecp.so", "aec"))
    tally.holds(library <= python.glibc_allowed(), f"the wheel is for {python.platform_tag()}, and the library needs glibc {library}")
    for path in paths.values():
        tally.holds(set(elf.libraries_needed(path)) <= {"libc.so.6"}, f"{path} needs {elf.libraries_needed(path)}")
        tally.holds(elf.is_bound_at_load(path), f"{path} isn't linked with -z relro and -z now")
    told = field_of(made[f"aec-proved_{debian_version()}_amd64.deb"], "Depends")
    tally.check("what the package of the program needs", told, "libc6 (>= {}.{})".format(*program))
    print("glibc: the program needs {}.{}, the library {}.{}".format(*program, *library))


def commands_of(page):
    """Returns README's first commands that run the program on a file of examples/."""
    with open(page, encoding="utf-8") as file:
        blocks = re.findall(r"(?ms)^```sh\n(.*?)^```$", file.read())
    return next(it for it in blocks if re.search(r"^aec .*examples/", it, re.M))


def try_commands(root, page, name, tally):
    top = "" if root.words else root.path
    script = f"""set -e
export PATH="{top}/opt/aec/bin:$PATH"
rm -rf {top}/tmp/use
mkdir {top}/tmp/use
cd {top}/tmp/use
ln -s {top}{os.path.dirname(page)}/examples .
"""
    status, said = root.run(script + commands_of(root.inside(page)))
    tally.holds(status == 0, f"{name}: README's commands end with {status}: {said}")


def levels_here():
    """Returns the levels whose binaries run on this machine."""
    return [PLAIN, V3] if LEVELS["level"]() == V3 else [PLAIN]


def built_for(level, name):
    """Returns the bytes of the file of bin/ that is built for a level."""
    return data_of(os.path.join(TOP, "bin", V3 if level == V3 else "", name))


def try_tarball_levels(root, install, program, tally):
    """Installs the tarball on processors of both levels, and with AECP_LEVEL, and compares which program is installed."""
    tally.holds(built_for(PLAIN, "aec") != built_for(V3, "aec"), "the programs for both levels are one")
    for level, flags in FLAGS.items():
        root.set_processor(flags)
        # Without another root install.sh reads this machine's /proc/cpuinfo.
        default = level if root.words else levels_here()[-1]
        for asked in ("", PLAIN, V3):
            status, said = root.run(f"AECP_LEVEL={asked} {install}")
            is_right = status == 0 and data_of(program) == built_for(asked or default, "aec") and f" for {asked or default}" in said
            tally.holds(is_right, f"the tarball's program on {level} with AECP_LEVEL={asked}: {said}")
    tally.check("the tarball with AECP_LEVEL=v3", root.run(f"AECP_LEVEL=v3 {install}")[0], 1)
    root.set_processor(FLAGS[levels_here()[-1]])


def try_tarball(made, root, folder, tally):
    """Unpacks the tarball, installs it, uses it, and removes it; then again under another name."""
    name = f"aec-{tarball_version()}-x86_64-linux"
    before = root.files()
    subprocess.run(["tar", "-C", folder, "-xzf", made[name + ".tar.gz"]], check=True)
    root.copy(os.path.join(folder, name), f"/tmp/{name}")
    place, prefix = (f"/tmp/{name}", "/opt/aec") if root.words else (root.inside(f"/tmp/{name}"), root.inside("/opt/aec"))
    try_tarball_levels(root, f"sh {place}/install.sh {prefix}", root.inside("/opt/aec/bin/aec"), tally)
    for words, script in (("sums", f"cd {place}; {SUMS.format('PROVED')}"), ("install", f"sh {place}/install.sh {prefix}")):
        status, said = root.run(script)
        tally.holds(status == 0, f"the tarball's {words}: {said}")
    tally.check("the tarball's program", root.run(f"{prefix}/bin/aec --version"), (0, f"aec {version()}\n"))
    try_command(root.inside("/opt/aec/bin/aecp"), folder, tally)
    try_commands(root, "/opt/aec/share/doc/aec/README.md", "tarball", tally)
    try_c(root.inside("/opt/aec"), "lib", "tarball", root, folder, tally)
    status, said = root.run(f"sh {place}/install.sh uninstall {prefix}")
    tally.holds(status == 0, f"the tarball's uninstall: {said}")
    tally.check("what the tarball leaves", sorted(root.files() - before), [])
    tally.check("the tarball's program as aecp", root.run(f"PROGRAM=aecp sh {place}/install.sh {prefix}")[0], 1)
    status, said = root.run(f"PROGRAM=aec-proved sh {place}/install.sh {prefix} && {prefix}/bin/aec-proved --version")
    tally.holds(status == 0 and not os.path.exists(root.inside("/opt/aec/bin/aec")), f"the tarball under another name: {said}")
    status, said = root.run(f"sh {place}/install.sh uninstall {prefix}")
    tally.holds(status == 1 and os.path.exists(root.inside("/opt/aec/lib/libaecp.a")), f"uninstall of a name that isn't installed: {said}")
    root.run(f"PROGRAM=aec-proved sh {place}/install.sh uninstall {prefix}")
    tally.check("what the tarball leaves under another name", sorted(root.files() - before), [])


def try_command(command, folder, tally):
    """Uses the tarball's command aecp here, where Python is."""
    path = os.path.join(folder, "kept.raw")
    with open(path, "wb") as file:
        file.write(bytes(range(200)) * 100)
    for words in (["--version"], ["keep", path, "-n", "16"], ["check", path + ".aec"], ["back", path + ".aec", "-o", path + ".back"]):
        status, said = package_modules.run([sys.executable, command, *words])
        tally.holds(status == 0, f"aecp {words[0]} of the tarball: {said}")
    tally.holds(data_of(path) == data_of(path + ".back"), "aecp of the tarball restores other bytes")


def c_example():
    with open(os.path.join(TOP, "docs", "LIBRARY.md"), encoding="utf-8") as file:
        return re.search(r"(?s)```c\n(#include <aecp.h>.*?)```", file.read())[1]


def try_c(prefix, lib, name, root, folder, tally):
    """Compiles the program of docs/LIBRARY.md here with what is installed in the root, and runs it there."""
    if not (tally.has("cc", "the library for C") and tally.has("pkg-config", "the library for C")):
        return
    source, built = os.path.join(folder, "example.c"), os.path.join(folder, f"example_{name}")
    with open(source, "w", encoding="utf-8") as file:
        file.write(c_example())
    pkg = {**os.environ, "PKG_CONFIG_PATH": os.path.join(prefix, lib, "pkgconfig")}
    if name == "deb":
        pkg["PKG_CONFIG_SYSROOT_DIR"] = root.path
    told = subprocess.run(["pkg-config", "--modversion", "aecp"], capture_output=True, text=True, env=pkg).stdout.strip()
    tally.check(f"{name}: the version of aecp.pc", told, version())
    words = subprocess.run(["pkg-config", "--cflags", "--libs", "aecp"], capture_output=True, text=True, env=pkg).stdout.split()
    for kind in ("shared", "static"):
        linked = words if kind == "shared" else ["-l:libaecp.a" if word == "-laecp" else word for word in words]
        done = subprocess.run(["cc", "-o", built, source, *linked], capture_output=True, text=True)
        tally.holds(done.returncode == 0, f"{name}: cc with {linked} says {done.stderr}")
        if done.returncode == 0:
            root.copy(built, "/tmp/example")
            inside = f"{prefix}/{lib}".removeprefix(root.path if root.words else "")
            path = f"LD_LIBRARY_PATH={inside} " if kind == "shared" and name != "deb" else ""
            program = path + ("/tmp/example" if root.words else root.inside("/tmp/example"))
            status, said = root.run(program)
            tally.holds(status == 0 and "last sample 7" in said, f"{name}: the {kind} program of LIBRARY prints {said!r}")
            if kind == "shared":
                said = root.run(f"export LD_TRACE_LOADED_OBJECTS=1; {program}")[1]
                wanted = f"/glibc-hwcaps/{V3}/" if levels_here()[-1] == V3 else "/"
                tally.holds(re.search(rf"libaecp.so.1 => \S+(?<!/{V3}){wanted}libaecp.so.1", said), f"{name}: the loader takes {said}")


def try_debs(made, root, folder, tally):
    """Installs, uses and removes the Debian packages, with a file /usr/bin/aec of another package and without."""
    if root.words is None:
        print("skipped, since no other root can be entered here: dpkg")
        return
    debs = [f"{name}_{debian_version()}_amd64.deb" for name in ("aec-proved", "libaecp1", "libaecp-dev")]
    for deb in debs:
        root.copy(made[deb], f"/tmp/{deb}")
    before = root.files()
    for has_other, level in ((True, PLAIN), (False, levels_here()[-1])):
        other = root.inside("/usr/bin/aec")
        if has_other:
            with open(other, "w", encoding="utf-8") as file:
                file.write("libaec's client\n")
        # libaecp-dev needs libc6-dev, which a root without a compiler lacks.
        status, said = root.run(f"cd /tmp && dpkg -i {debs[0]} {debs[1]} && dpkg -i --force-depends {debs[2]}")
        tally.holds(status == 0, f"dpkg -i: {said}")
        try_link(root, f"/tmp/{debs[0]}", level, tally)
        tally.check("aec-proved --version", root.run("aec-proved --version"), (0, f"aec {version()}\n"))
        status, said = root.run(f"for name in /usr/share/doc/*/PROVED; do {SUMS.format('$name')} || exit 1; done")
        tally.holds(status == 0 and said.count(": OK") >= 5, f"the sums of PROVED: {said}")
        if has_other:
            tally.check("a file of another package", data_of(other), b"libaec's client\n")
            tally.holds(not os.path.lexists(root.inside("/usr/share/man/man1/aec.1.gz")), "aec(1) describes another program than aec")
        else:
            tally.check("aec of the alternatives", root.run("aec --version"), (0, f"aec {version()}\n"))
            status, said = root.run("rm /usr/bin/aec && dpkg-trigger --no-await /usr/bin/aec && dpkg --triggers-only -a && aec --version")
            tally.holds(status == 0 and f"aec {version()}\n" in said, f"aec when another package's file was removed: {said}")
            installed.try_links(root.inside("/usr/share/doc/aec-proved"), tally)
            scripts = "/var/lib/dpkg/info/aec-proved"
            status, said = root.run(f"{scripts}.prerm remove && {scripts}.postinst abort-remove && aec-proved --version")
            tally.holds(status == 0 and f"aec {version()}\n" in said, f"aec-proved after a removal that failed: {said}")
            try_commands(root, "/usr/share/doc/aec-proved/README.md", "deb", tally)
            try_c(root.inside("/usr"), LIB.removeprefix("usr/"), "deb", root, folder, tally)
        status, said = root.run("dpkg -P libaecp-dev libaecp1 aec-proved")
        tally.holds(status == 0, f"dpkg -P: {said}")
        if has_other:
            tally.check("a file of another package, at last", data_of(other), b"libaec's client\n")
            os.remove(other)
        tally.check("what the packages leave", sorted(root.files() - before), [])


def try_link(root, deb, last, tally):
    """Installs the program's package on processors of both levels, last on one of the level `last`. Checks which program the command is,
    that one chosen by hand stays, and that `--auto` leads back."""

    def try_step(command, level):
        status, said = root.run(command)
        tally.holds(status == 0, f"{command} ({level}): {said}")
        wanted = f"/usr/lib/aec-proved/{level}/aec-proved\n"
        tally.check(f"the command aec-proved after {command}", root.run("readlink -f /usr/bin/aec-proved"), (0, wanted))

    for level in (PLAIN, V3, last):
        root.set_processor(FLAGS[level])
        try_step(f"dpkg -i {deb}", level)
    other = PLAIN if last == V3 else V3
    try_step(f"update-alternatives --set aec-proved /usr/lib/aec-proved/{other}/aec-proved && dpkg -i {deb}", other)
    try_step("update-alternatives --auto aec-proved", last)


def main():
    begun, tally = time.monotonic(), Checks()
    if "--quick" in sys.argv[1:]:
        package_roots.debian_root = lambda root: False
    tally.holds(is_proved() or "proved" not in tally.must, "the binaries of bin/ are not those of a proving build at this commit")
    made = dist(TOP)
    print(f"make dist: {time.monotonic() - begun:.0f} s" + ("" if is_proved() else ", of binaries that nobody has proved"), flush=True)
    with tempfile.TemporaryDirectory() as folder:
        package_debs.try_versions({name: path for name, path in made.items() if name != SUMS_OF_ALL}, tally)
        package_debs.try_release(tally)
        try_sums(made, tally)
        try_notices(made, tally)
        try_builds(made, folder, tally)
        try_links_again(tally)
        try_wheel_libraries(made, tally)
        try_symbols(made, tally)
        package_debs.try_lintian(made, tally)
        root = package_roots.Root(folder)
        print(f"installed in {root.kind}, {time.monotonic() - begun:.0f} s after the start", flush=True)
        try_tarball(made, root, folder, tally)
        try_debs(made, root, folder, tally)
        package_debs.try_apt(made, root, tally)
        package_modules.try_make(os.path.join(folder, "made"), tally)
        package_modules.try_wheel(next(path for name, path in made.items() if name.endswith(".whl")), folder, tally)
        package_modules.try_crate(os.path.join(folder, f"aec-{tarball_version()}-x86_64-linux"), folder, tally)
    print(f"packages: {time.monotonic() - begun:.0f} s")
    tally.print()
    return 1 if tally.failed else 0


if __name__ == "__main__":
    sys.exit(main())
