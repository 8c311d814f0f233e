#!/usr/bin/env python3
"""Tests the installed library as other projects build with it: library_builds.py

Installs bin/libaecp.a, bin/libaecp.so and the header by `make install-c`, once into lib and once into a folder below lib, and builds a
small program with them: by CMake's `find_package`, and by the words of pkg-config. The program must code and decode samples. Both must
refuse a version that isn't there. A project that CMake configures twice, with two installations, must use the second one; an installation
without the header is refused. Then `make uninstall-c` must leave no file.

Needs cc, cmake and pkg-config; a part whose command is missing is skipped, with a line, and fails if MUST_RUN names the command. Prints
the checks that fail and, last, how many passed. Ends with status 1 if one failed.
"""

import os
import re
import shutil
import subprocess
import sys
import tempfile

from lib.program import TOP, Tally

PROGRAM = """
#include <aecp.h>
#include <string.h>

int main(void) {
    uint8_t samples[] = {0, 1, 2, 3, 4, 5, 6, 7}, back[8], coded[64];
    aecp_options options = AECP_OPTIONS(8);
    aecp_reply reply;
    if (aecp_encode(&options, samples, 8, coded, sizeof coded, &reply)) return 1;
    return aecp_decode(&options, 8, coded, reply.len, back, 8, &reply) || memcmp(samples, back, 8);
}
"""

PROJECT = """
cmake_minimum_required(VERSION 3.10)
project(uses_aecp C)
find_package(aecp {asked} CONFIG REQUIRED)
add_executable(uses_aecp main.c)
target_link_libraries(uses_aecp {target})
"""
TARGETS = ("aecp::aecp", "aecp::static")

# Prints whether find_package finds what is asked for.
ASKING = """
cmake_minimum_required(VERSION 3.19)
project(asks C)
set(out ${CMAKE_CURRENT_BINARY_DIR})
foreach(asked QUESTIONS)
  string(REPLACE " " ";" words "${asked}")
  find_package(aecp ${words} CONFIG QUIET)
  message(STATUS "asked ${asked}: ${aecp_FOUND}")
  unset(aecp_DIR CACHE)
  unset(aecp_FOUND)
  unset(aecp_shared_FOUND)
  unset(aecp_static_FOUND)
endforeach()
"""


def ran(*words, **more):
    ended = subprocess.run(words, capture_output=True, text=True, **more)
    return ended.returncode, ended.stdout + ended.stderr


def has(command, what, tally):
    """Returns whether there is a command. If not, prints that what needs it is skipped, which fails if MUST_RUN names the command."""
    if not shutil.which(command):
        print(f"skipped, since there is no command {command}: {what}")
        tally.holds(command not in os.environ.get("MUST_RUN", "").split(), f"{command} must be here")
    return bool(shutil.which(command))


def later(version):
    """Returns the next version that may break the callers of this one."""
    major, minor, _ = map(int, version.split("."))
    return f"{major}.{minor + 1}"


def try_cmake(prefix, version, folder, tally):
    """Builds projects that ask `find_package` for the version, with each target, and one that asks for a later version."""
    source, built = os.path.join(folder, "source"), os.path.join(folder, "cmake")
    os.makedirs(source)
    for asked, target, is_there in (*((version, it, True) for it in TARGETS), (later(version), TARGETS[0], False)):
        with open(os.path.join(source, "CMakeLists.txt"), "w", encoding="utf-8") as file:
            file.write(PROJECT.format(asked=asked, target=target))
        with open(os.path.join(source, "main.c"), "w", encoding="utf-8") as file:
            file.write(PROGRAM)
        shutil.rmtree(built, ignore_errors=True)
        status, said = ran("cmake", "-S", source, "-B", built, f"-DCMAKE_PREFIX_PATH={prefix}")
        tally.holds((status == 0) == is_there, f"find_package(aecp {asked}): {said[-800:]}")
        if is_there:
            status, said = ran("cmake", "--build", built)
            tally.holds(status == 0, f"cmake --build: {said[-800:]}")
            program = os.path.join(built, "uses_aecp")
            tally.check(f"the program that CMake builds with {target}", ran(program), (0, ""))
            is_shared = "libaecp.so" in ran("ldd", program)[1]
            tally.check(f"whether the program with {target} needs libaecp.so.1", is_shared, target == TARGETS[0])


def try_asking(prefix, version, folder, tally):
    """Asks `find_package` for versions, ranges and components."""
    major, minor, _ = map(int, version.split("."))
    questions = {
        **dict.fromkeys([f"{major}", f"{major}.{minor}", version, f"{version} EXACT", f"{major}...<{major + 1}"], True),
        **dict.fromkeys([f"{major}.{minor + 1}", f"{major + 1}", f"{major - 1}"], False),
        **dict.fromkeys([f"{major}...{major + 1}", f"{major + 1}...99"], False),
        **dict.fromkeys(["COMPONENTS shared", "COMPONENTS static", "COMPONENTS shared static"], True),
        **{"COMPONENTS other": False, "OPTIONAL_COMPONENTS other": True},
    }
    source, built = os.path.join(folder, "asking"), os.path.join(folder, "asked")
    os.makedirs(source)
    with open(os.path.join(source, "CMakeLists.txt"), "w", encoding="utf-8") as file:
        file.write(ASKING.replace("QUESTIONS", " ".join(f'"{it}"' for it in questions)))
    said = ran("cmake", "-S", source, "-B", built, f"-DCMAKE_PREFIX_PATH={prefix}")[1]
    found = {asked: is_found in ("1", "TRUE") for asked, is_found in re.findall(r"asked (.*): (\w*)\n", said)}
    tally.check("what find_package finds", found, questions)


def try_cmake_twice(prefix, lib, version, folder, tally):
    """Configures a project with an installation, then by a link to its libraries, then with a copy of it, then with the copy without its
    header."""
    source, built, other, merged = (os.path.join(folder, name) for name in ("source", "twice", "other", "merged"))
    with open(os.path.join(source, "CMakeLists.txt"), "w", encoding="utf-8") as file:
        file.write(PROJECT.format(asked=version, target=TARGETS[0]))
    shutil.copytree(prefix, other, symlinks=True)
    os.mkdir(merged)
    os.symlink(os.path.join(prefix, "lib"), os.path.join(merged, "lib"))
    for place, where in ((prefix, prefix), (merged, prefix), (other, other)):
        words = [f"-Daecp_DIR={place}/{lib}/cmake/aecp", "-DCMAKE_EXPORT_COMPILE_COMMANDS=ON"]
        status, said = ran("cmake", "-S", source, "-B", built, *words)
        tally.holds(status == 0, f"cmake with {place}: {said[-800:]}")
        with open(os.path.join(built, "compile_commands.json"), encoding="utf-8") as file:
            tally.holds(f"{where}/include" in file.read(), f"the header of {where} isn't used, by {place}")
    os.remove(os.path.join(other, "include", "aecp.h"))
    status, said = ran("cmake", "-S", source, "-B", built)
    tally.holds(status != 0 and "The header aecp.h is neither in" in " ".join(said.split()), f"cmake without the header: {said[-800:]}")


def try_pkg_config(libdir, version, folder, tally):
    """Builds the program by the words of pkg-config, with the shared library and with the archive."""
    source, built = os.path.join(folder, "main.c"), os.path.join(folder, "by_pkg_config")
    with open(source, "w", encoding="utf-8") as file:
        file.write(PROGRAM)
    paths = {**os.environ, "PKG_CONFIG_PATH": os.path.join(libdir, "pkgconfig"), "LD_LIBRARY_PATH": libdir}
    for asked, is_there in ((f"aecp >= {version}", True), (f"aecp >= {later(version)}", False)):
        tally.check(f"pkg-config --exists {asked}", ran("pkg-config", "--exists", asked, env=paths)[0] == 0, is_there)
    words = ran("pkg-config", "--cflags", "--libs", "aecp", env=paths)[1].split()
    for linked in (words, ["-l:libaecp.a" if word == "-laecp" else word for word in words]):
        status, said = ran("cc", "-o", built, source, *linked)
        tally.holds(status == 0, f"cc with {linked}: {said}")
        tally.check("the program that pkg-config builds", ran(built, env=paths), (0, ""))


def try_install(lib, version, tally):
    with tempfile.TemporaryDirectory() as folder:
        prefix = os.path.join(folder, "prefix")
        places = [f"PREFIX={prefix}", f"LIBDIR={prefix}/{lib}"]
        status, said = ran("make", "-s", "-C", TOP, "install-c", *places)
        tally.holds(status == 0, f"make install-c into {lib}: {said}")
        if has("cmake", "find_package", tally):
            try_cmake(prefix, version, folder, tally)
            try_asking(prefix, version, folder, tally)
            try_cmake_twice(prefix, lib, version, folder, tally)
        if has("pkg-config", "aecp.pc", tally):
            try_pkg_config(os.path.join(prefix, lib), version, folder, tally)
        status, said = ran("make", "-s", "-C", TOP, "uninstall-c", *places)
        left = [os.path.join(at, name) for at, _, names in os.walk(prefix) for name in names]
        tally.check(f"what uninstall-c leaves of {lib}: {said}", left, [])


def main():
    with open(os.path.join(TOP, "VERSION"), encoding="utf-8") as file:
        version = file.read().strip()
    tally = Tally()
    if has("cc", "the installed library", tally):
        for lib in ("lib", "lib/x86_64-linux-gnu"):
            try_install(lib, version, tally)
    tally.print()
    return 1 if tally.failed else 0


if __name__ == "__main__":
    sys.exit(main())
