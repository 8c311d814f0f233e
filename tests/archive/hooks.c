/* A library that is loaded before the C library. It logs the calls of a process that change files, stops
   the process before or after one of them, refuses calls, limits the bytes that can be written, and
   plants a symbolic link at each name before a file is made there. A test sets it up by ctypes in a
   forked child; without that all calls pass. */
#define _GNU_SOURCE
#include <dlfcn.h>
#include <errno.h>
#include <fcntl.h>
#include <signal.h>
#include <stdarg.h>
#include <stdio.h>
#include <stdlib.h>
#include <string.h>
#include <sys/stat.h>
#include <sys/types.h>
#include <unistd.h>

static long stop_at, calls, room = -1, fail_at, fail_calls;
static int stop_after, log_to = -1, refused_error, fail_error;
static char refused[400], fail_name[40], planted[4096], fail_path[400], made[400];
static long make_at;

void hooks_reset(void) {
    stop_at = calls = fail_at = fail_calls = 0, room = -1, log_to = -1;
    refused[0] = fail_name[0] = planted[0] = fail_path[0] = made[0] = 0;
}
/* Makes the file `path` with the text "mine" before the call with this number, and the file `path`.made, if there is no such file. */
void hooks_make(const char *path, long number) {
    snprintf(made, sizeof made, "%s", path), make_at = number, calls = 0;
}
void hooks_log(int file) { log_to = file; }
void hooks_stop(long number, int after) { stop_at = number, stop_after = after, calls = 0; }
long hooks_calls(void) { return calls; }
void hooks_room(long bytes) { room = bytes; }
/* Refuses the calls whose names are listed, each between blanks: " link linkat ". */
void hooks_refuse(const char *names, int error) {
    snprintf(refused, sizeof refused, "%s", names), refused_error = error;
}
/* Fails the call with this name and number (0: each), if one of its texts contains `path`. */
void hooks_fail(const char *name, long number, int error, const char *path) {
    snprintf(fail_name, sizeof fail_name, "%s", name), fail_at = number, fail_error = error, fail_calls = 0;
    snprintf(fail_path, sizeof fail_path, "%s", path);
}
void hooks_plant(const char *target) { snprintf(planted, sizeof planted, "%s", target); }

/* The name of an open file, for logs and for failures of a certain file. */
static const char *name_of(int file, char *out) {
    char link[64];
    snprintf(link, sizeof link, "/proc/self/fd/%d", file);
    ssize_t size = readlink(link, out, 4095);
    out[size < 0 ? 0 : size] = 0;
    return out;
}

static int is_in(const char *list, const char *name) {
    char word[64];
    snprintf(word, sizeof word, " %s ", name);
    return strstr(list, word) != NULL;
}

static void make(void) {
    char mark[420];
    int (*open_it)(const char *, int, ...) = dlsym(RTLD_NEXT, "open");
    ssize_t (*write_it)(int, const void *, size_t) = dlsym(RTLD_NEXT, "write");
    int file = open_it(made, O_CREAT | O_EXCL | O_WRONLY, 0644);
    snprintf(mark, sizeof mark, "%s.made", made);
    if (file < 0) return;
    if (write_it(file, "mine", 4) == 4) close(open_it(mark, O_CREAT | O_WRONLY, 0644));
    close(file);
}

/* Returns whether the call is to fail, with errno set. Stops the process if its time has come. */
static int begun(const char *name, const char *first, const char *second, int counts) {
    int number = errno;
    if (counts && ++calls == stop_at && !stop_after) kill(getpid(), SIGKILL);
    if (counts && made[0] && calls == make_at) make();
    if (refused[0] && is_in(refused, name)) return errno = refused_error, 1;
    if (fail_name[0] && !strcmp(fail_name, name) && (strstr(first, fail_path) || strstr(second, fail_path)))
        if (++fail_calls == fail_at || !fail_at) return errno = fail_error, 1;
    errno = number;
    return 0;
}

static long done(const char *name, const char *first, const char *second, long result, int counts) {
    int number = errno;
    if (log_to >= 0 && counts) {
        char line[9000];
        int size = snprintf(line, sizeof line, "%s\t%s\t%s\t%ld\n", name, first, second, result);
        ssize_t (*real)(int, const void *, size_t) = dlsym(RTLD_NEXT, "write");
        real(log_to, line, size);
    }
    if (counts && calls == stop_at && stop_after) kill(getpid(), SIGKILL);
    errno = number;
    return result;
}

static void plant(int folder, const char *path) {
    if (!planted[0]) return;
    int number = errno;
    int (*real)(const char *, int, const char *) = dlsym(RTLD_NEXT, "symlinkat");
    real(planted, folder, path);
    errno = number;
}

#define OPEN(NAME)                                                                          \
    int NAME(const char *path, int flags, ...) {                                            \
        va_list rest; va_start(rest, flags); int mode = va_arg(rest, int); va_end(rest);    \
        int (*real)(const char *, int, ...) = dlsym(RTLD_NEXT, #NAME);                      \
        int counts = (flags & O_CREAT) != 0;                                                \
        if (counts) plant(AT_FDCWD, path);                                                  \
        if (begun("open", path, "", counts)) return done("open", path, "", -1, counts);     \
        return done("open", path, "", real(path, flags, mode), counts);                     \
    }
OPEN(open)
OPEN(open64)
#define OPENAT(NAME)                                                                        \
    int NAME(int folder, const char *path, int flags, ...) {                                \
        va_list rest; va_start(rest, flags); int mode = va_arg(rest, int); va_end(rest);    \
        int (*real)(int, const char *, int, ...) = dlsym(RTLD_NEXT, #NAME);                 \
        int counts = (flags & O_CREAT) != 0;                                                \
        if (counts) plant(folder, path);                                                    \
        if (begun("open", path, "", counts)) return done("open", path, "", -1, counts);     \
        return done("open", path, "", real(folder, path, flags, mode), counts);             \
    }
OPENAT(openat)
OPENAT(openat64)

ssize_t write(int file, const void *data, size_t size) {
    ssize_t (*real)(int, const void *, size_t) = dlsym(RTLD_NEXT, "write");
    struct stat status;
    char name[4096];
    int counts = file > 2 && !fstat(file, &status) && S_ISREG(status.st_mode);
    if (!counts) return real(file, data, size);
    name_of(file, name);
    if (begun("write", name, "", 1)) return done("write", name, "", -1, 1);
    if (room >= 0) {
        if (!room && size) return errno = ENOSPC, done("write", name, "", -1, 1);
        if ((long)size > room) size = room;
        room -= size;
    }
    return done("write", name, "", real(file, data, size), 1);
}
#define PWRITE(NAME)                                                                        \
    ssize_t NAME(int file, const void *data, size_t size, off64_t at) {                     \
        ssize_t (*real)(int, const void *, size_t, off64_t) = dlsym(RTLD_NEXT, #NAME);      \
        char name[4096];                                                                    \
        name_of(file, name);                                                                \
        if (begun("write", name, "", 1)) return done("write", name, "", -1, 1);             \
        return done("write", name, "", real(file, data, size, at), 1);                      \
    }
PWRITE(pwrite)
PWRITE(pwrite64)
ssize_t read(int file, void *data, size_t size) {
    ssize_t (*real)(int, void *, size_t) = dlsym(RTLD_NEXT, "read");
    char name[4096];
    if (!fail_name[0]) return real(file, data, size);
    if (begun("read", name_of(file, name), "", 0)) return -1;
    return real(file, data, size);
}
#define PREAD(NAME)                                                                         \
    ssize_t NAME(int file, void *data, size_t size, off64_t at) {                           \
        ssize_t (*real)(int, void *, size_t, off64_t) = dlsym(RTLD_NEXT, #NAME);            \
        char name[4096];                                                                    \
        if (!fail_name[0]) return real(file, data, size, at);                               \
        if (begun("read", name_of(file, name), "", 0)) return -1;                           \
        return real(file, data, size, at);                                                  \
    }
PREAD(pread)
PREAD(pread64)

#define OF_FILE(NAME)                                                                       \
    int NAME(int file) {                                                                    \
        int (*real)(int) = dlsym(RTLD_NEXT, #NAME);                                         \
        char name[4096];                                                                    \
        name_of(file, name);                                                                \
        if (begun(#NAME, name, "", 1)) return done(#NAME, name, "", -1, 1);                 \
        return done(#NAME, name, "", real(file), 1);                                        \
    }
OF_FILE(fsync)
OF_FILE(fdatasync)
int fchmod(int file, mode_t mode) {
    int (*real)(int, mode_t) = dlsym(RTLD_NEXT, "fchmod");
    char name[4096];
    name_of(file, name);
    if (begun("fchmod", name, "", 1)) return done("fchmod", name, "", -1, 1);
    return done("fchmod", name, "", real(file, mode), 1);
}
int fchown(int file, uid_t user, gid_t group) {
    int (*real)(int, uid_t, gid_t) = dlsym(RTLD_NEXT, "fchown");
    char name[4096];
    name_of(file, name);
    if (begun("fchown", name, "", 1)) return done("fchown", name, "", -1, 1);
    return done("fchown", name, "", real(file, user, group), 1);
}
int flock(int file, int how) {
    int (*real)(int, int) = dlsym(RTLD_NEXT, "flock");
    char name[4096];
    name_of(file, name);
    if (begun("flock", name, "", 1)) return done("flock", name, "", -1, 1);
    return done("flock", name, "", real(file, how), 1);
}
#define CUT(NAME)                                                                           \
    int NAME(int file, off64_t size) {                                                      \
        int (*real)(int, off64_t) = dlsym(RTLD_NEXT, #NAME);                                \
        char name[4096];                                                                    \
        name_of(file, name);                                                                \
        if (begun("ftruncate", name, "", 1)) return done("ftruncate", name, "", -1, 1);     \
        return done("ftruncate", name, "", real(file, size), 1);                            \
    }
CUT(ftruncate)
CUT(ftruncate64)
#define ONE(NAME)                                                                           \
    int NAME(const char *path) {                                                            \
        int (*real)(const char *) = dlsym(RTLD_NEXT, #NAME);                                \
        if (begun(#NAME, path, "", 1)) return done(#NAME, path, "", -1, 1);                 \
        return done(#NAME, path, "", real(path), 1);                                        \
    }
ONE(unlink)
ONE(rmdir)
int unlinkat(int folder, const char *path, int flags) {
    int (*real)(int, const char *, int) = dlsym(RTLD_NEXT, "unlinkat");
    if (begun("unlink", path, "", 1)) return done("unlink", path, "", -1, 1);
    return done("unlink", path, "", real(folder, path, flags), 1);
}
int mkdir(const char *path, mode_t mode) {
    int (*real)(const char *, mode_t) = dlsym(RTLD_NEXT, "mkdir");
    if (begun("mkdir", path, "", 1)) return done("mkdir", path, "", -1, 1);
    return done("mkdir", path, "", real(path, mode), 1);
}
int chmod(const char *path, mode_t mode) {
    int (*real)(const char *, mode_t) = dlsym(RTLD_NEXT, "chmod");
    if (begun("chmod", path, "", 1)) return done("chmod", path, "", -1, 1);
    return done("chmod", path, "", real(path, mode), 1);
}
#define TWO(NAME)                                                                           \
    int NAME(const char *old, const char *path) {                                           \
        int (*real)(const char *, const char *) = dlsym(RTLD_NEXT, #NAME);                  \
        if (begun(#NAME, old, path, 1)) return done(#NAME, old, path, -1, 1);               \
        return done(#NAME, old, path, real(old, path), 1);                                  \
    }
TWO(rename)
TWO(link)
TWO(symlink)
int renameat(int from, const char *old, int to, const char *path) {
    int (*real)(int, const char *, int, const char *) = dlsym(RTLD_NEXT, "renameat");
    if (begun("rename", old, path, 1)) return done("rename", old, path, -1, 1);
    return done("rename", old, path, real(from, old, to, path), 1);
}
int renameat2(int from, const char *old, int to, const char *path, unsigned flags) {
    int (*real)(int, const char *, int, const char *, unsigned) = dlsym(RTLD_NEXT, "renameat2");
    if (begun("renameat2", old, path, 1)) return done("renameat2", old, path, -1, 1);
    return done("renameat2", old, path, real(from, old, to, path, flags), 1);
}
int linkat(int from, const char *old, int to, const char *path, int flags) {
    int (*real)(int, const char *, int, const char *, int) = dlsym(RTLD_NEXT, "linkat");
    if (begun("link", old, path, 1)) return done("link", old, path, -1, 1);
    return done("link", old, path, real(from, old, to, path, flags), 1);
}
