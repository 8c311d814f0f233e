#!/usr/bin/env python3
"""Tries the wrong bodies that the gate leaves out: wrong_bodies.py [CRATE|CRATE/NAME..]

These are the entries of crates/CRATE/more-must-fail.txt, with which the gate would take too long.
An entry is a name, and then the text of a must-fail edit as in must-fail/. The checker must refuse
each. With names, only those crates or edits are tried. With `--changed COMMIT` in their place, only
the crates are tried whose src/, specs/, proofs/ or more-must-fail.txt differ from those of COMMIT;
all crates, if git doesn't know COMMIT.

A crate is copied below bin/ and checked without edits, over the proofs that `make test` has kept.
Then workers take its edits one by one, each worker in a copy of its own. There are as many workers
as processors, but at most one for each 4.5 GB of free memory, or RT_JOBS if that is set. A worker
without edits helps where most time is left.

Prints for each edit the first thing that the checker refuses. An edit fails if it can't be
applied, if the checker can't read the edited text, if the crate is still proved, or if it is
refused only because a proof names what the edit took away. A crate fails if it isn't proved
without edits, before them or in each worker's copy after them. The last line counts what passed
and what failed. Ctrl-C and the signal TERM stop the run: then the last line also counts the edits
that were not tried. Ends with status 1 if something failed; else with status 3 if it was stopped.

If each edit of a crate was refused in one run, bin/wrong-bodies/CRATE records the sum of what
decides that, and the kit. With `--untried` no edit is tried: the run prints each crate without such
a record of its present files and this kit, and ends with status 1 if there is one.
"""

import functools
import hashlib
import os
import re
import shutil
import signal
import subprocess
import sys
import tempfile
import threading
import time
from collections import deque
from concurrent.futures import ThreadPoolExecutor

sys.path.insert(0, os.path.join(os.path.dirname(__file__), "..", "tools"))

from checker import STOP, Stopped, check, verdict
from must_fail import Unusable, changed_texts, other_edits_of
from sources import TOP, below, crate_lines, text_of

# The most seconds that a check may take that begins from nothing.
SECONDS_ANEW = 3600
UNFINISHED = 3
# The memory that a check may take, in KiB.
CHECK_KIB = 4_500_000
RECORDS = os.path.join(TOP, "bin", "wrong-bodies")
# What decides whether a wrong body of a crate is refused: files of the crate, and of those below.
DECIDING = re.compile(r"crates/(\w+)/(src/|specs/|proofs/|more-must-fail\.txt$)")


def write_texts(folder, texts):
    for path, text in texts.items():
        with open(os.path.join(folder, path), "w", encoding="utf-8") as file:
            file.write(text)


def asked_edits(names):
    """Returns for each crate of the names its edits that are asked for. Ends the program if a name
    has none."""
    asked = {}
    for name in names:
        crate, _, edit = name.partition("/")
        found = [it for it in other_edits_of(crate) if edit in ("", it.name)]
        if not found:
            sys.exit(f"no such edits: {name}")
        asked[crate] = asked.get(crate, []) + found
    return asked


def git_lines(*words):
    """Returns the lines that git prints in the checkout, whoever owns it. None if git fails."""
    try:
        words = ["git", "-c", "safe.directory=*", *words]
        ran = subprocess.run(words, cwd=TOP, capture_output=True, text=True)
    except OSError:
        return None
    return ran.stdout.splitlines() if ran.returncode == 0 else None


def changed_since(commit, crates):
    """Prints and returns those of the crates that differ from a commit in what decides whether a
    wrong body is refused; all crates, if git doesn't know the commit."""
    known = git_lines("rev-parse", "--verify", "--quiet", f"{commit}^{{commit}}")
    changed = known and git_lines(
        "diff", "--name-only", "--no-renames", known[0], "--", "crates"
    )
    new = git_lines("ls-files", "--others", "--exclude-standard", "--", "crates")
    if changed is None or new is None:
        print(f"git doesn't know the commit {commit}: all crates are tried", flush=True)
        return list(crates)
    named = {found[1] for path in changed + new if (found := DECIDING.match(path))}
    kept = [crate for crate in crates if crate in named]
    print(f"crates that differ from {commit}: {' '.join(kept) or 'none'}", flush=True)
    return kept


def all_asked(crates):
    found = {crate: other_edits_of(crate) for crate in crates}
    return {crate: edits for crate, edits in found.items() if edits}


def asked_of(words, crates):
    """Returns for each crate the edits that the words of the command line ask for."""
    if words and words[0] != "--changed":
        return asked_edits(words)
    if len(words) == 2:
        crates = changed_since(words[1], crates)
    elif words:
        sys.exit("wrong_bodies.py --changed takes one commit")
    return all_asked(crates)


def stop(number, frame):
    STOP.set()


def tried(edit, folder):
    """Checks a crate with an edit, and takes the edit back. Returns as `verdict` does."""
    try:
        texts = changed_texts(edit, folder)
    except (Unusable, OSError) as why:
        return False, str(why)
    before = {path: text_of(os.path.join(folder, path)) for path in texts}
    write_texts(folder, texts)
    found = verdict(*check(folder), set(texts))
    write_texts(folder, before)
    return found


def copy_of(crate, lines, top, source=TOP):
    """Copies a crate from a repository into a new one, with the crates that it uses. The files of
    those are hard links: a check replaces files, and never writes into them. Returns the crate's
    folder."""
    others = below(crate, lines)
    os.makedirs(os.path.join(top, "crates"))
    shutil.copy(os.path.join(source, "HANDLES"), top)
    named = [lines[name].text for name in lines if name in {crate, *others}]
    write_texts(top, {"crates.txt": "".join(f"{text}\n" for text in named)})
    shared = {"copy_function": os.link, "ignore": shutil.ignore_patterns("incremental")}
    for name in (crate, *others):
        how = {} if name == crate else shared
        names = (os.path.join(at, "crates", name) for at in (source, top))
        shutil.copytree(*names, **how)
    return os.path.join(top, "crates", crate)


@functools.cache
def kit():
    """Returns the kit's name."""
    return subprocess.run(["rt", "version"], capture_output=True, check=True).stdout


def sum_of(crate, lines, top=TOP):
    """Returns a sum of what decides, in a repository, whether the wrong bodies of a crate are
    refused, and of the kit's name."""
    crates = {crate, *below(crate, lines)}
    found = hashlib.sha256(kit())
    for at, folders, names in os.walk(os.path.join(top, "crates")):
        folders[:] = sorted(name for name in folders if name != "out")
        for path in (os.path.join(at, name) for name in sorted(names)):
            name = os.path.relpath(path, top)
            decides = DECIDING.match(name)
            is_list = name.endswith("more-must-fail.txt")
            if decides and decides[1] in ({crate} if is_list else crates):
                with open(path, "rb") as file:
                    found.update(f"{name} {hashlib.sha256(file.read()).hexdigest()}\n".encode())
    return found.hexdigest()


class Crate:
    """A crate whose edits are tried: those that no worker has taken, and how the others ended."""

    def __init__(self, name, edits, lines, room):
        self.name, self.left, self.lines = name, deque(edits), lines
        self.room = os.path.join(room, name)
        self.is_whole = len(edits) == len(other_edits_of(name))
        self.workers = 0
        # The seconds that each edit took.
        self.seconds = []
        self.ends = {}
        self.lock = threading.Lock()
        # The sum of the copy that was proved without edits. None before, and if it isn't proved.
        self.sum = None

    def base(self):
        return os.path.join(self.room, "base")

    def work_left(self):
        """Returns the seconds that the edits may still take each worker, if one more helps."""
        mean = sum(self.seconds) / len(self.seconds) if self.seconds else 60
        return mean * len(self.left) / (self.workers + 1)

    def fail(self):
        self.ends[f"{self.name}, which is not proved without edits"] = False
        self.left.clear()

    def is_proved(self):
        """Returns whether the crate is proved without edits. The first worker that asks copies and
        checks it."""
        with self.lock:
            if self.sum is None and self.left:
                folder = copy_of(self.name, self.lines, self.base())
                found = sum_of(self.name, self.lines, self.base())
                if check(folder, SECONDS_ANEW)[0] == 0:
                    self.sum = found
                else:
                    self.fail()
            return self.sum is not None

    def next(self):
        """Takes an edit that is left. Returns None if there is none."""
        with self.lock:
            return self.left.popleft() if self.left else None

    def try_edits(self, number):
        """Tries edits in a copy of its own until none is left. Then checks it without edits."""
        if not self.is_proved():
            return
        own = os.path.join(self.room, str(number))
        folder = copy_of(self.name, self.lines, own, self.base())
        while edit := self.next():
            begun = time.monotonic()
            try:
                is_refused, said = tried(edit, folder)
            except Stopped:
                self.left.appendleft(edit)
                raise
            self.seconds.append(time.monotonic() - begun)
            self.ends[f"{self.name}/{edit.name}"] = is_refused
            end = "refused" if is_refused else "NOT REFUSED"
            # One write, so that the lines of two workers don't mix.
            print(f"{self.name}/{edit.name}: {end}: {said[:200]}\n", end="", flush=True)
        if check(folder)[0] != 0:
            self.fail()
        shutil.rmtree(own)

    def record(self):
        """Records that all edits were refused, if they were."""
        is_done = self.sum and self.is_whole and not self.left and not STOP.is_set()
        if is_done and all(self.ends.values()):
            os.makedirs(RECORDS, exist_ok=True)
            write_texts(RECORDS, {self.name: f"{self.sum}\n"})


class Workers:
    """Shares the edits of crates among workers."""

    def __init__(self, crates):
        self.crates, self.lock = crates, threading.Lock()

    def next(self):
        """Returns the crate where one more worker saves most, and counts the worker. None if no
        crate has more edits left than workers."""
        with self.lock:
            helped = [crate for crate in self.crates if len(crate.left) > crate.workers]
            crate = max(helped, key=Crate.work_left, default=None)
            if crate:
                crate.workers += 1
            return crate

    def work(self, number):
        """Works until nothing is left, or the run is told to stop."""
        while not STOP.is_set() and (crate := self.next()):
            try:
                crate.try_edits(number)
            except Stopped:
                return
            finally:
                with self.lock:
                    crate.workers -= 1
            if not crate.workers:
                crate.record()


def free_kib():
    """Returns the memory that is free on the machine and within the limit of its control group."""
    free = int(re.search(r"MemAvailable:\s+(\d+)", text_of("/proc/meminfo"))[1])
    try:
        limit = text_of("/sys/fs/cgroup/memory.max").strip()
    except OSError:
        return free
    return min(free, int(limit) // 1024) if limit.isdigit() else free


def checks_at_once():
    """Returns how many checks may run at a time."""
    if given := os.environ.get("RT_JOBS"):
        return max(int(given), 1)
    return max(min(len(os.sched_getaffinity(0)), free_kib() // CHECK_KIB), 1)


def summary(ends, left):
    failed = [name for name, is_well in ends.items() if not is_well]
    counts = f"{len(ends) - len(failed)} passed, {len(failed)} failed"
    if STOP.is_set():
        counts += f"; stopped before the end, {left} not tried"
    return "".join(f"FAILED: {name}\n" for name in failed) + counts


def print_untried(lines):
    """Prints the crates without a record of their present files. Returns the status."""
    untried = []
    for crate in all_asked(lines):
        path = os.path.join(RECORDS, crate)
        found = text_of(path).strip() if os.path.exists(path) else ""
        if found != sum_of(crate, lines):
            untried.append(crate)
    for crate in untried:
        print(f"{crate}: not all its wrong bodies were tried at this state: run make wrong-bodies")
    return 1 if untried else 0


def main():
    lines = crate_lines()
    if sys.argv[1:] == ["--untried"]:
        return print_untried(lines)
    asked = asked_of(sys.argv[1:], lines)
    for number in (signal.SIGINT, signal.SIGTERM):
        signal.signal(number, stop)
    os.makedirs(os.path.join(TOP, "bin"), exist_ok=True)
    many = checks_at_once()
    with tempfile.TemporaryDirectory(dir=os.path.join(TOP, "bin")) as room:
        crates = [Crate(name, edits, lines, room) for name, edits in asked.items()]
        workers = Workers(crates)
        with ThreadPoolExecutor(many) as pool:
            list(pool.map(workers.work, range(many)))
    ends = {name: is_well for crate in crates for name, is_well in crate.ends.items()}
    print(summary(ends, sum(len(crate.left) for crate in crates)))
    if not all(ends.values()):
        return 1
    return UNFINISHED if STOP.is_set() else 0


if __name__ == "__main__":
    sys.exit(main())
