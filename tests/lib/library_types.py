"""Tests aecp.h with compilers, for library.py: a program that is C and C++ at once, with samples of 16 bits, compiles without a warning,
in C++ also about casts and null pointers of C; README's C codes 4,096 samples of 16 bits."""

import os
import re
import shutil
import subprocess

from lib.program import TOP, Program

PROGRAM = """
#include <aecp.h>
#include <inttypes.h>
#include <stdio.h>
#include <string.h>

int main(void) {
    const uint16_t samples[] = {0, 1, 2, 3, 1000, 1001, 65535, 65534};
    uint16_t back[8];
    uint8_t coded[64];
    const int64_t one = 7;
    aecp_options options = AECP_OPTIONS(16);
    aecp_handle handle = AECP_HANDLE;
    aecp_coder coder = AECP_CODER;
    aecp_reader reader = AECP_READER;
    aecp_reply reply;
    if (aecp_version() != AECP_VERSION) return 5;
    if (aecp_encode(&options, samples, sizeof samples, coded, sizeof coded, &reply)) return 1;
    size_t len = reply.len;
    if (aecp_decode(&options, 8, coded, len, back, sizeof back, &reply) || memcmp(samples, back, sizeof back)) return 2;
    if (aecp_range(&options, 8, 4, 2, coded, len, back, sizeof back, &reply) || back[0] != 1000 || back[1] != 1001) return 3;
    if (aecp_load(&options, 8, coded, len, &handle, &reply) || aecp_append(&handle, &one, 1, &reply)) return 4;
    printf("%" PRIu64 " samples\\n", aecp_size(&handle));
    aecp_close(&handle);
    aecp_coder_close(&coder);
    aecp_reader_close(&reader);
    return 0;
}
"""

README = """
#include <stdio.h>
#include <stdlib.h>
#include <string.h>
%s
int main(void) {
    static uint16_t samples[4096], back[4096];
    for (int i = 0; i < 4096; i++) samples[i] = (uint16_t)(1000 + i %% 99);
%s
    size_t len = (size_t)reply.len;
    if (aecp_decode(&options, 4096, coded, len, back, sizeof back, &reply) || memcmp(samples, back, sizeof back)) return 1;
    free(coded);
    return 0;
}
"""


def try_readme(include, archive, folder, tally):
    with open(os.path.join(TOP, "README.md"), encoding="utf-8") as file:
        head, code = re.search(r"```c\n(#include <aecp.h>\n)(.*?)```", file.read(), re.S).groups()
    source, path = os.path.join(folder, "readme.c"), os.path.join(folder, "readme")
    with open(source, "w", encoding="utf-8") as file:
        file.write(README % (head, code))
    ended = subprocess.run(["cc", "-Wall", "-Werror", "-I", include, "-o", path, source, archive], capture_output=True, text=True)
    tally.check(f"README's C: {ended.stderr[-500:]}", ended.returncode, 0)
    tally.check("README's C: its samples come back", Program(path, folder).run(), (0, ""))


def try_version(include, version, tally):
    """Checks that the header has the version of the program, three numbers with points between them."""
    with open(os.path.join(include, "aecp.h"), encoding="utf-8") as file:
        said = re.search(r"#define AECP_VERSION (\d+)", file.read())
    major, minor, patch = map(int, version.split("."))
    tally.check("AECP_VERSION", int(said[1]), 10000 * major + 100 * minor + patch)


def try_types(include, archive, folder, tally):
    """Runs the program, built by the compiler of C and, if there is one, by that of C++."""
    for compiler, suffix, more in (("cc", "c", []), ("c++", "cpp", ["-Wold-style-cast", "-Wzero-as-null-pointer-constant"])):
        if shutil.which(compiler):
            source, path = os.path.join(folder, f"types.{suffix}"), os.path.join(folder, f"types_{suffix}")
            with open(source, "w", encoding="utf-8") as file:
                file.write(PROGRAM)
            words = ["-O1", "-Wall", "-Wextra", "-Wpedantic", "-Werror", *more, "-I", include, "-o", path, source, archive]
            ended = subprocess.run([compiler, *words], capture_output=True, text=True)
            tally.check(f"{compiler}: {ended.stderr[-500:]}", ended.returncode, 0)
            tally.check(f"types by {compiler}", Program(path, folder).run(), (0, "9 samples\n"))
