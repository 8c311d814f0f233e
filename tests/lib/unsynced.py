"""A library that is loaded before the C library, and lets syncs of a program fail with the errors of a disk."""

import errno
import os
import subprocess

LIBRARY = """
#define _GNU_SOURCE
#include <errno.h>
#include <fcntl.h>
#include <stdio.h>
#include <stdlib.h>
#include <string.h>
#include <sys/stat.h>
#include <sys/syscall.h>
#include <unistd.h>

/* Notes in the file that SYNCS names which file is synced, how many bytes it holds, and by what call. The first FAILING syncs fail
   with the error ERRNO. */
static int note(int file, const char *call) {
    static int calls;
    char link[64], name[4096], line[5000];
    struct stat held = {0};
    snprintf(link, sizeof link, "/proc/self/fd/%d", file);
    ssize_t length = readlink(link, name, sizeof name - 1);
    name[length < 0 ? 0 : length] = 0;
    fstat(file, &held);
    int out = open(getenv("SYNCS"), O_WRONLY | O_APPEND | O_CREAT, 0600);
    int size = snprintf(line, sizeof line, "%s %s %lld\\n", call, name, (long long)held.st_size);
    if (write(out, line, size) != size) abort();
    close(out);
    if (calls++ < atoi(getenv("FAILING"))) {
        errno = atoi(getenv("ERRNO"));
        return -1;
    }
    return 0;
}

int fsync(int file) { return note(file, "fsync"); }
int fdatasync(int file) { return note(file, "fdatasync"); }
"""

# The errors of a disk, a quota or a server: the file may then not be on the disk.
OF_A_DEVICE = [errno.ENOSPC, errno.EIO, errno.EDQUOT, errno.EROFS, errno.ESTALE, errno.EBADF, errno.ENOMEM, errno.ETIMEDOUT]
# The errors of a file that can't be synced, such as a pipe: the run then succeeds.
OF_A_KIND = [errno.EINVAL, errno.ENOSYS, errno.EOPNOTSUPP]
ALL = 2**31 - 1


def build(folder):
    source, library = os.path.join(folder, "unsynced.c"), os.path.join(folder, "unsynced.so")
    with open(source, "w", encoding="utf-8") as file:
        file.write(LIBRARY)
    subprocess.run(["cc", "-O1", "-shared", "-fPIC", "-o", library, source], check=True)
    return library


class Syncs:
    """Runs of a program with the library."""

    def __init__(self, program, library):
        self.program, self.library = program, library

    def fail(self, error, failing, *words):
        """Runs the program so that its first `failing` syncs fail with `error`. Returns the result, and a line for each sync."""
        self.program.write("syncs", b"")
        more = {"LD_PRELOAD": self.library, "SYNCS": self.program.file("syncs"), "ERRNO": str(error), "FAILING": str(failing)}
        answer = self.program.run(*words, env={**os.environ, **more})
        return answer, self.program.read("syncs").decode().splitlines()
