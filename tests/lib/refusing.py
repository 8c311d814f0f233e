"""A library that is loaded before the C library. It refuses growths of a program (calls of malloc,
calloc and realloc), and counts the blocks that are not freed, and the bytes of blocks."""

import os
import shutil
import struct
import subprocess

MOST_GROWTHS = 2000
ALL_AFTER = 2**62
NO_COMPILER = "no C compiler: no command 'cc'"

LIBRARY = """
#include <fcntl.h>
#include <malloc.h>
#include <stdlib.h>
#include <string.h>
#include <sys/mman.h>
#include <sys/syscall.h>
#include <unistd.h>

extern void *__libc_malloc(size_t), *__libc_calloc(size_t, size_t), *__libc_realloc(void *, size_t), __libc_free(void *);

/* In the file that GROWTHS names: how many growths there were, and how many were refused; the first and the last to refuse;
   whether growths count now; how many blocks more were allocated than freed while they did, and
   how many bytes; and the most that this number of bytes ever was. */
static struct { long growths, refused, first, last, counting, kept, held, most; } *counts;

__attribute__((constructor)) static void begin(void) {
    const char *name = getenv("GROWTHS");
    int file = name ? open(name, O_RDWR) : -1;
    void *place = file < 0 ? MAP_FAILED : mmap(0, sizeof *counts, PROT_READ | PROT_WRITE, MAP_SHARED, file, 0);
    if (file >= 0) close(file);
    if (place != MAP_FAILED) counts = place;
}

static int is_refused(void) {
    if (!counts || !counts->counting || ++counts->growths < counts->first || counts->growths > counts->last) return 0;
    counts->refused++;
    return 1;
}

/* Counts the bytes of a block that was allocated in place of one of `old` bytes. */
static void *counted(void *block, size_t old) {
    if (!counts || !counts->counting || !block) return block;
    counts->held += (long)malloc_usable_size(block) - (long)old;
    if (counts->held > counts->most) counts->most = counts->held;
    return block;
}

static void *added(void *block) {
    if (counts && counts->counting && block) counts->kept++;
    return counted(block, 0);
}

void *malloc(size_t size) { return is_refused() ? 0 : added(__libc_malloc(size)); }
void *calloc(size_t number, size_t size) {
    return is_refused() ? 0 : added(__libc_calloc(number, size));
}
void *realloc(void *old, size_t size) {
    if (is_refused()) return 0;
    size_t before = old ? malloc_usable_size(old) : 0;
    return old ? counted(__libc_realloc(old, size), before) : added(__libc_realloc(old, size));
}
void free(void *block) {
    if (counts && counts->counting && block) {
        counts->kept--;
        counts->held -= (long)malloc_usable_size(block);
    }
    __libc_free(block);
}

/* On standard error a program may say from where to where growths count. Behind the part with the first that is refused all are
   granted. */
ssize_t write(int file, const void *bytes, size_t size) {
    if (counts && file == 2 && size >= 6 && !memcmp(bytes, "refuse", 6)) counts->counting = 1;
    if (counts && file == 2 && size >= 5 && !memcmp(bytes, "grant", 5)) {
        counts->counting = 0;
        if (counts->refused) counts->last = 0;
    }
    return syscall(SYS_write, file, bytes, size);
}
"""


def has_compiler():
    return shutil.which("cc") is not None


def print_skipped(tally, number):
    """Prints the last line of a test that skips so many checks because there is no compiler. If CI is set, as continuous integration
    does, that is a failure."""
    if os.environ.get("CI"):
        tally.holds(False, NO_COMPILER)
    tally.print(number, NO_COMPILER)


def build(folder):
    source, library = os.path.join(folder, "refusing.c"), os.path.join(folder, "refusing.so")
    with open(source, "w", encoding="utf-8") as file:
        file.write(LIBRARY)
    subprocess.run(["cc", "-O1", "-shared", "-fPIC", "-o", library, source], check=True)
    return library


class Growths:
    """Runs of a program with the library. All growths count, or only those in the parts that the program marks."""

    def __init__(self, program, library, in_parts=False):
        self.program, self.at_first, self.kept, self.most = program, 0 if in_parts else 1, 0, 0
        self.environment = {**os.environ, "LD_PRELOAD": library, "GROWTHS": program.file("growths")}

    def refuse(self, first, last, run, *words):
        """Calls `run`, which runs the program, with the growths from `first` to `last` refused. Returns the result, and the numbers
        of growths and refusals. `self.kept` becomes the number of blocks that weren't freed, and
        `self.most` the most bytes that the counted blocks had at once. The C library rounds the
        length of a block up: that of a large one to whole pages."""
        self.program.write("growths", struct.pack("8l", 0, 0, first, last, self.at_first, 0, 0, 0))
        answer = run(*words, env=self.environment)
        counts = struct.unpack("8l", self.program.read("growths"))
        growths, refused, *_, self.kept, _, self.most = counts
        return answer, growths, refused


def ways(alone):
    """Returns for each growth in turn the first and the last to refuse: that one alone, or all later ones too."""
    return ((first, first if alone else ALL_AFTER) for first in range(1, MOST_GROWTHS))
