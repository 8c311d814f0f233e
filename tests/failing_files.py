#!/usr/bin/env python3
"""Tests files and devices that fail: failing_files.py PATH_OF_AEC

Runs the program at PATH_OF_AEC on files that can't be opened, read, created, written or synced, and compares status, output and
DEST with docs/COMMAND.md:
  - a full device, a pipe whose reader goes away, a limit of a file's size;
  - a disk that fails at the sync (by a library that is loaded before the C library);
  - files without permission (as another user if the test runs as root);
  - folders in place of files, folders that are missing or go away, one file as SOURCE and DEST;
  - standard streams that can't be written or are closed, names of descriptors that aren't open;
  - words that are no text, and jobs in which each option makes a difference.
If a failed run leaves anything in DEST, that must be the beginning of the result.

Prints the checks that fail and, last, how many passed. Ends with status 1 if one failed.
"""

import errno
import os
import resource
import shutil
import signal
import subprocess
import sys
import tempfile

from lib.jobs import CHANGED, CHANGED_STREAM, JOBS, LARGE_JOBS, STILL_STREAM, Job
from lib.program import SECONDS, Program, Tally, said
from lib.refusing import NO_COMPILER, has_compiler
from lib.telling_jobs import try_telling_jobs
from lib.unsynced import ALL, OF_A_DEVICE, OF_A_KIND, Syncs
from lib.unsynced import build as build_unsynced

OLD = b"what DEST held before"
NOBODY = 65534
MOST_SECONDS = 300  # of the whole test, in case a pipe waits for a program that doesn't open it
DONE, UNREAD, UNWRITTEN = said(None), said("read failed"), said("write failed")
NO_EDITS = b"# nothing\n"


def prepare(program, job, old=None):
    program.write("source", job.source)
    program.write("script", job.script or NO_EDITS)
    program.write("dest", old)


def end(run):
    try:
        printed = run.communicate(timeout=SECONDS)[0].decode()
    except subprocess.TimeoutExpired:
        run.kill()
        return None, f"no answer in {SECONDS} seconds"
    return run.returncode, printed


def try_devices(program, tally):
    """Tests a full device and /dev/null as DEST, and as SOURCE a device that can't be read from its start."""
    for job in JOBS + LARGE_JOBS:
        prepare(program, job)
        tally.check(f"{job.what} to a full device", program.run(*job.words, "source", "/dev/full"), UNWRITTEN)
        tally.check(f"{job.what} to /dev/null", program.run(*job.words, "source", "/dev/null"), DONE)
        program.write("dest", OLD)
        tally.check(f"{job.what} from /proc/self/mem", program.run(*job.words, "/proc/self/mem", "dest"), UNREAD)
        tally.check(f"{job.what} from /proc/self/mem: DEST", program.read("dest"), OLD)
    program.write("source", b"")
    tally.check("no bytes to a full device", program.run("source", "/dev/full"), DONE)


def try_pipes(program, tally):
    """Tests as DEST a pipe that holds less than the result, and whose reader goes away after some bytes."""
    for job in LARGE_JOBS:
        for taken in (0, 1, 1000):
            prepare(program, job)
            os.mkfifo(program.file("pipe"))
            words = [program.path, *job.words, "source", "pipe"]
            run = subprocess.Popen(words, cwd=program.folder, stdout=subprocess.PIPE, stderr=subprocess.STDOUT)
            with open(program.file("pipe"), "rb", buffering=0) as pipe:
                got = b""
                while len(got) < taken:
                    got += pipe.read(taken - len(got))
            what = f"{job.what} to a pipe whose reader goes after {taken} bytes"
            tally.check(what, end(run), UNWRITTEN)
            tally.check(f"{what}: what was read", got, job.answer[:taken])
            os.remove(program.file("pipe"))


def limit_files(most):
    """Returns a function that limits the files of a new process to so many bytes. Writing more fails, as on a full disk."""

    def limit():
        signal.signal(signal.SIGXFSZ, signal.SIG_IGN)
        resource.setrlimit(resource.RLIMIT_FSIZE, (most, most))

    return limit


def try_syncs(program, tally):
    """Checks that DEST is synced once, whole and last, and that a sync that fails as a disk's does makes every run fail."""
    if not has_compiler():
        print("skipped: files whose sync fails, since there is " + NO_COMPILER)
        return
    syncs = Syncs(program, build_unsynced(program.folder))
    for job in JOBS + LARGE_JOBS:
        once = [f"fsync {program.file('dest')} {len(job.answer)}"]
        ends = [(0, 0, DONE, 1), (errno.EINTR, 3, DONE, 4)]
        ends += [(error, ALL, UNWRITTEN, 1) for error in OF_A_DEVICE] + [(error, ALL, DONE, 1) for error in OF_A_KIND]
        for error, failing, answer, calls in ends:
            prepare(program, job, OLD)
            what = f"{job.what} whose first {failing} syncs fail by {errno.errorcode.get(error)}"
            tally.check(what, syncs.fail(error, failing, *job.words, "source", "dest"), (answer, once * calls))
            tally.check(f"{what}: DEST", program.read("dest"), job.answer)
    prepare(program, JOBS[0])
    program.write("source", JOBS[0].source[:0])
    empty = syncs.fail(errno.EIO, ALL, "source", "dest")
    tally.check("no samples, and a sync that fails", empty, (UNWRITTEN, [f"fsync {program.file('dest')} 0"]))
    refused = syncs.fail(errno.EIO, ALL, "-n", "1", "script", "dest")
    tally.check("a refused run syncs nothing", refused, (said("sample 0 is out of range"), []))


def try_limits(program, tally):
    """Limits the size of files: if the result is longer, DEST must hold the beginning of it."""
    for job in JOBS + LARGE_JOBS:
        for most in (0, 1, 5, 5000):
            prepare(program, job, OLD)
            what = f"{job.what} to a file of at most {most} bytes"
            fits = len(job.answer) <= most
            answer = program.run(*job.words, "source", "dest", preexec_fn=limit_files(most))
            tally.check(what, answer, DONE if fits else UNWRITTEN)
            held = program.read("dest")
            is_front = job.answer.startswith(held) and (held == job.answer or not fits)
            tally.holds(is_front, f"{what}: DEST is no front of the answer: {held[:60]}")


def unprivileged():
    """Returns the arguments that run a program as a user with few rights, None if that is impossible."""
    if os.geteuid() != 0:
        return {}
    user = {"user": NOBODY, "group": NOBODY, "extra_groups": []}
    try:
        subprocess.run(["true"], check=True, **user)
    except (OSError, ValueError, subprocess.SubprocessError):
        return None
    return user


def try_permissions(program, tally):
    """Tests files that the user may not read or write. Root may do all, so for root another user runs the program."""
    user = unprivileged()
    if user is None:
        print("skipped: files without permission, since root can't become another user here")
        return
    os.chmod(program.folder, 0o777)
    for job in JOBS:
        uses_script = "--edit" in job.words
        for closed, answer in (("source", UNREAD), ("script", UNREAD if uses_script else DONE), ("dest", UNWRITTEN)):
            prepare(program, job, OLD)
            for name in ("source", "script", "dest"):
                os.chmod(program.file(name), 0o000 if name == closed else 0o666)
            what = f"{job.what}, {closed} without permission"
            tally.check(what, program.run(*job.words, "source", "dest", **user), answer)
            for name in ("source", "script", "dest"):
                os.chmod(program.file(name), 0o666)
            tally.check(f"{what}: DEST", program.read("dest"), job.answer if answer == DONE else OLD)
        prepare(program, job)
        os.makedirs(program.file("closed"), exist_ok=True)
        os.chmod(program.file("closed"), 0o555)
        tally.check(f"{job.what}, a closed folder", program.run(*job.words, "source", "closed/dest", **user), UNWRITTEN)
        tally.check(f"{job.what}, a closed folder: its files", os.listdir(program.file("closed")), [])


def try_folders(program, tally):
    """Tests folders in place of files, files in place of folders, and names that lead nowhere."""
    os.mkdir(program.file("folder"))
    os.symlink("nowhere", program.file("astray"))
    os.symlink("round", program.file("round"))
    nothing = ["folder", "nowhere", "nowhere/file", "source/file", "astray", "round", "", "x" * 300]
    nowhere = ["folder", "folder/", "nowhere/file", "source/file", "round", "", "x" * 300]
    for job in JOBS:
        for name in nothing:
            prepare(program, job, OLD)
            tally.check(f"{job.what} from {name[:20]!r}", program.run(*job.words, name, "dest"), UNREAD)
            tally.check(f"{job.what} from {name[:20]!r}: DEST", program.read("dest"), OLD)
        for name in nowhere:
            prepare(program, job)
            names = sorted(os.listdir(program.folder))
            tally.check(f"{job.what} to {name[:20]!r}", program.run(*job.words, "source", name), UNWRITTEN)
            tally.check(f"{job.what} to {name[:20]!r}: files", sorted(os.listdir(program.folder)), names)
    for name in nothing:
        prepare(program, JOBS[0], OLD)
        tally.check(f"a script {name[:20]!r}", program.run("--edit", name, "source", "dest"), UNREAD)
        tally.check(f"a script {name[:20]!r}: DEST", program.read("dest"), OLD)
    for name in ("astray", "round"):
        os.remove(program.file(name))
    os.rmdir(program.file("folder"))


def try_going_folders(program, tally):
    """Removes the folder of DEST, or the one that the program runs in, while the program reads SOURCE."""
    for job in JOBS:
        for gone, dest in (("gone", "gone/dest"), ("here", "dest")):
            prepare(program, job)
            os.mkdir(program.file(gone))
            os.mkfifo(program.file("pipe"))
            words = [program.file(word) if word == "script" else word for word in job.words]
            words = [program.path, *words, program.file("pipe"), dest]
            folder = program.file(gone) if gone == "here" else program.folder
            run = subprocess.Popen(words, cwd=folder, stdout=subprocess.PIPE, stderr=subprocess.STDOUT)
            with open(program.file("pipe"), "wb") as pipe:
                os.rmdir(program.file(gone))
                pipe.write(job.source)
            tally.check(f"{job.what}, the folder {gone!r} goes away", end(run), UNWRITTEN)
            tally.check(f"{job.what}, the folder {gone!r} goes away: it", os.path.exists(program.file(gone)), False)
            os.remove(program.file("pipe"))


def try_one_file(program, tally):
    """Tests one file as SOURCE and DEST, by one name and by two."""
    os.symlink("source", program.file("other"))
    for job in JOBS + LARGE_JOBS:
        for dest in ("source", "./source", "other"):
            prepare(program, job)
            tally.check(f"{job.what} from source to {dest}", program.run(*job.words, "source", dest), DONE)
            tally.check(f"{job.what} from source to {dest}: DEST", program.read("source"), job.answer)
    os.remove(program.file("other"))
    os.link(program.file("source"), program.file("other"))
    program.write("source", CHANGED)
    tally.check("coding from source to a second name of it", program.run("source", "other"), DONE)
    tally.check("coding from source to a second name of it: DEST", program.read("other"), CHANGED_STREAM)
    os.remove(program.file("other"))
    cut = STILL_STREAM[:2]
    program.write("source", cut)
    refused = program.run("-d", "--count", "48", "source", "source")
    tally.check("a refused stream as SOURCE and DEST", refused, said("coded data is cut short at bit 14"))
    tally.check("a refused stream as SOURCE and DEST: it", program.read("source"), cut)


def try_standard_streams(program, tally):
    """Checks that standard streams that can't be written don't change the status."""
    program.write("source", CHANGED)
    runs = [(["--help"], 0), (["--version"], 0), (["-x"], 2), (["-n", "40", "source", "dest"], 2), (["nowhere", "dest"], 1)]
    runs.append((["source", "dest"], 0))
    for words, status in runs:
        for device in ("/dev/full", "/dev/null"):
            program.write("dest", None)
            with open(device, "wb") as full:
                ended = subprocess.run([program.path, *words], cwd=program.folder, stdout=full, stderr=full, timeout=SECONDS)
            what = f"{' '.join(words)} with {device} as standard streams"
            tally.check(what, ended.returncode, status)
            tally.check(f"{what}: DEST", program.read("dest"), CHANGED_STREAM if words == ["source", "dest"] else None)


def without(streams, most=None):
    """Returns a function that closes the standard streams of these numbers, and allows no descriptor from `most` on."""

    def close():
        for number in streams:
            os.close(number)
        if most is not None:
            resource.setrlimit(resource.RLIMIT_NOFILE, (most, most))

    return close


def names_of(streams):
    """Returns the names that lead to these standard streams."""
    names = [(f"/dev/{('stdin', 'stdout', 'stderr')[number]}", f"/dev/fd/{number}") for number in streams]
    return [name for pair in names for name in pair]


def try_closed_streams(program, tally):
    """Checks that no file gets the number of a closed standard stream: the name of such a stream means /dev/null."""
    for closed in ([0], [1], [2], [0, 1], [0, 2], [1, 2], [0, 1, 2]):
        for job in JOBS:
            for dest in ["dest", *names_of(closed)]:
                prepare(program, job, OLD)
                what = f"{job.what} to {dest}, closed are {closed}"
                tally.check(what, program.run(*job.words, "source", dest, preexec_fn=without(closed)), DONE)
                tally.check(f"{what}: SOURCE", program.read("source"), job.source)
                tally.check(f"{what}: SCRIPT", program.read("script"), job.script or NO_EDITS)
                tally.check(f"{what}: DEST", program.read("dest"), job.answer if dest == "dest" else OLD)
        for name in names_of(closed):
            samples = Job(f"coding from {name}", [name], b"", b"")
            stream = Job(f"an edit of {name}", ["--edit", "script", name], b"", b"")
            script = Job(f"an edit by {name}", ["--edit", name, "source"], STILL_STREAM, STILL_STREAM)
            for job in (samples, stream, script):
                prepare(program, job, OLD)
                what = f"{job.what}, closed are {closed}"
                tally.check(what, program.run(*job.words, "dest", preexec_fn=without(closed)), DONE)
                tally.check(f"{what}: DEST", program.read("dest"), job.answer)


def try_streams_that_stay_closed(program, tally):
    """Closes standard input and output, and allows only descriptor 0 to be opened."""
    refused = said("a standard stream is closed and /dev/null can't be opened")
    for job in JOBS:
        for dest in ["dest", *names_of([0, 1])]:
            prepare(program, job, OLD)
            what = f"{job.what} to {dest}, without descriptors for standard streams"
            tally.check(what, program.run(*job.words, "source", dest, preexec_fn=without([0, 1], 1)), refused)
            tally.check(f"{what}: SOURCE", program.read("source"), job.source)
            tally.check(f"{what}: DEST", program.read("dest"), OLD)


def try_numbers(program, tally):
    """Checks that no name of a descriptor that isn't open leads to a file that the program itself has open."""
    for number in range(3, 10):
        name = f"/dev/fd/{number}"
        for job in JOBS:
            by_name = [name if word == "script" else word for word in job.words]
            cases = [(job.words, "source", name, UNWRITTEN), (job.words, name, "dest", UNREAD), (job.words, name, name, UNREAD)]
            if by_name != job.words:
                cases += [(by_name, "source", "dest", UNREAD), (by_name, "source", name, UNREAD), (by_name, name, "dest", UNREAD)]
            for words, source, dest, answer in cases:
                prepare(program, job, OLD)
                what = f"{' '.join(words)} {source} {dest}"
                tally.check(what, program.run(*words, source, dest), answer)
                held = [program.read(file) for file in ("source", "script", "dest")]
                tally.check(f"{what}: files", held, [job.source, job.script or NO_EDITS, OLD])


def try_words_that_are_no_text(program, tally):
    words = [[b"\xe9", "dest"], ["source", b"\xe9"], ["source", "dest", b"-\x80"], ["--edit", b"\xed\xa0\x80", "source", "dest"]]
    words += [["-d", "--count", b"48\xff", "source", "dest"], ["--help", b"\xc3"], [b"\xe9"]]
    for given in words:
        prepare(program, JOBS[0], OLD)
        names = sorted(os.listdir(program.folder))
        tally.check(f"the words {given}", program.run(*given), (2, "aec: words must be UTF-8 text\n"))
        tally.check(f"the words {given}: files", sorted(os.listdir(program.folder)), names)
        tally.check(f"the words {given}: DEST", program.read("dest"), OLD)
    prepare(program, JOBS[0])
    tally.check("a name in UTF-8", program.run("source", "\u00e9"), DONE)
    tally.check("a name in UTF-8: DEST", program.read("\u00e9"), JOBS[0].answer)


def main():
    signal.alarm(MOST_SECONDS)
    tally = Tally()
    with tempfile.TemporaryDirectory() as folder:
        own = os.path.join(folder, "aec")  # where another user may run it
        shutil.copy(sys.argv[1], own)
        os.chmod(own, 0o755)
        os.chmod(folder, 0o755)
        os.mkdir(os.path.join(folder, "files"))
        program = Program(own, os.path.join(folder, "files"))
        groups = [try_devices, try_pipes, try_limits, try_permissions, try_folders, try_going_folders, try_one_file]
        groups += [try_syncs, try_numbers, try_telling_jobs, try_standard_streams, try_closed_streams, try_streams_that_stay_closed]
        groups.append(try_words_that_are_no_text)
        for group in groups:
            group(program, tally)
    tally.print()
    return 1 if tally.failed else 0


if __name__ == "__main__":
    sys.exit(main())
