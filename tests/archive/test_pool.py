"""Work dealt to processes of this machine."""

from __future__ import annotations

import contextlib
import fcntl
import os
import re
import resource
import signal
import subprocess
import sys
import threading
import time
from collections.abc import Iterator
from typing import Any

import pytest
from making import FAST, USUAL, flip, keep, noise, walk, write
from running import How, command, done, start, until


def many(place: str, count: int) -> None:
    for i in range(count):
        write(place, f"f{i:03}", USUAL.stored(walk(i, 300 + i)))


def lines(text: str) -> list[str]:
    """Returns the lines in order. The bytes of the new files depend on the time of writing."""
    return sorted(re.sub(r"became \d+", "became N", text).splitlines())


def kept_in(text: str) -> int:
    """Returns how many files were kept, by this run or by a process that died."""
    return sum(int(number) for number in re.findall(r"(\d+) (?:kept|checked)", text))


def test_jobs_make_no_difference(place: str) -> None:
    os.mkdir(os.path.join(place, "one"))
    os.mkdir(os.path.join(place, "two"))
    results = []
    for name, jobs in (("one", "1"), ("two", "3")):
        folder = os.path.join(place, name)
        many(folder, 40)
        write(folder, "odd", b"abc")
        first = command(folder, "keep", ".", "-n", "16", "--anyway", "--jobs", jobs)
        flip(os.path.join(folder, "f007.aec"), 99)
        os.truncate(os.path.join(folder, "f008.aec"), 20)
        second = command(folder, "check", ".", "--jobs", jobs)
        third = command(folder, "back", ".", "--to", "out")
        results.append([(it.status, lines(it.out), lines(it.err)) for it in (first, second, third)])
    assert results[0] == results[1]
    assert results[0][0][0] == 0 and results[0][1][0] == 1


def test_two_files_use_two_processes(place: str) -> None:
    """All cores are used from two files on."""
    for i in range(2):
        write(place, f"f{i}", FAST.stored(noise(i, 1 << 17)) * 16)
    words = [sys.executable, "-m", "aecp", "keep", ".", "-n", "16", "--anyway", "--jobs", "2"]
    environment = {key: it for key, it in os.environ.items() if key != "LD_PRELOAD"}
    running = subprocess.Popen(words, cwd=place, env=environment, stdout=subprocess.DEVNULL)
    most = 0
    while running.poll() is None:
        most = max(most, len(children(running.pid)))
        time.sleep(0.005)
    assert running.returncode == 0
    assert most >= 2, f"{most} processes"


def children(process: int) -> list[int]:
    try:
        with open(f"/proc/{process}/task/{process}/children", encoding="ascii") as file:
            return [int(it) for it in file.read().split()]
    except OSError:
        return []


def killed_one(process: int, seconds: float) -> bool:
    """Kills a child of a run that has two. Returns whether it could, before the run ended or the time was over."""
    end = time.monotonic() + seconds
    while time.monotonic() < end:
        found = children(process)
        if len(found) >= 2:
            time.sleep(0.05)
            try:
                os.kill(found[-1], signal.SIGKILL)
                return True
            except ProcessLookupError:
                pass
        time.sleep(0.001)
    return False


@pytest.mark.parametrize("verb", ["keep", "check"])
def test_a_killed_process_of_the_pool(place: str, verb: str) -> None:
    """Its files are dealt again, or the run says which files weren't done: none is passed over with status 0. On a busy machine a short
    run may end before one of its processes is killed: then longer files are tried."""
    count, killed = 12, False
    for times in (8, 32, 128):
        folder = os.path.join(place, str(times))
        os.mkdir(folder)
        for i in range(count):
            write(folder, f"f{i:03}", FAST.stored(noise(i, 1 << 16)) * times)
        if verb == "check":
            done(folder, "keep", ".", "-n", "16", "--anyway")
        words = ["keep", ".", "-n", "16", "--anyway"] if verb == "keep" else ["check", "."]
        running = start(folder, *words, "--jobs", "2")
        killed = killed_one(running.child, 20)
        ran = running.ended()
        if killed:
            break
    assert killed and "Traceback" not in ran.said, ran
    if ran.status == 0:
        assert kept_in(ran.out) == count, ran
    else:
        assert ran.status == 1 and ran.err.strip(), ran
    done(folder, "keep", ".", "-n", "16", "--anyway")
    assert f"{count} checked, {count} sound, 0 damaged" in done(folder, "check", ".").out
    assert not [it for it in os.listdir(folder) if it.startswith(".")]


@pytest.mark.parametrize("verb", ["keep", "check"])
def test_a_file_that_kills_each_process(place: str, verb: str) -> None:
    """A file that no process survives is named, with status 1, and all others are done."""
    many(place, 8)
    if verb == "check":
        done(place, "keep", ".", "-n", "16", "--anyway")
    bad = "f003.aec" if verb == "check" else "f003"

    def deadly() -> None:
        first, real = os.getpid(), os.open

        def opened(path: Any, *more: Any, **named: Any) -> int:
            if os.getpid() != first and str(path).endswith(bad):
                os.kill(os.getpid(), signal.SIGKILL)
            return real(path, *more, **named)

        os.open = opened  # type: ignore[assignment]

    words = ["keep", ".", "-n", "16", "--anyway"] if verb == "keep" else ["check", "."]
    ran = command(place, *words, "--jobs", "2", how=How(before=deadly))
    assert ran.status == 1 and "f003" in ran.said, ran
    assert sum(name.endswith(".aec") for name in os.listdir(place)) == (8 if verb == "check" else 7)
    assert kept_in(ran.out) == 7 if verb == "keep" else "7 sound" in ran.out, ran


# The command, with three processes on every machine.
THREE = "import aecp.archive._pool as it; it.cores = lambda: 3; from aecp.cli import main; main()"


def has_open(process: int, name: str) -> bool:
    found = []
    with contextlib.suppress(OSError):
        for number in os.listdir(f"/proc/{process}/fd"):
            with contextlib.suppress(OSError):
                found.append(os.readlink(f"/proc/{process}/fd/{number}"))
    return any(it.endswith(name) for it in found)


class Blocked:
    """A run of `undo a.aec b.aec c.aec` by three processes: one waits for the lock of a.aec, the others are idle."""

    def __init__(self, place: str) -> None:
        write(place, "script", b"overwrite 3 1\n")
        for name in ("a", "b", "c"):
            keep(place, name, walk(1, 300))
            done(place, "edit", "script", f"{name}.aec")
        before = [os.stat(os.path.join(place, it)).st_ino for it in ("b.aec", "c.aec")]
        self.lock = os.open(os.path.join(place, "a.aec"), os.O_RDWR)
        fcntl.flock(self.lock, fcntl.LOCK_EX)
        words = [sys.executable, "-c", THREE, "undo", "a.aec", "b.aec", "c.aec"]
        environment = {key: it for key, it in os.environ.items() if key != "LD_PRELOAD"}
        self.run = subprocess.Popen(words, cwd=place, env=environment, stdout=subprocess.PIPE, stderr=subprocess.PIPE, text=True)
        self.processes: list[int] = []

        def is_blocked() -> bool:
            self.processes = children(self.run.pid)
            later = [os.stat(os.path.join(place, it)).st_ino for it in ("b.aec", "c.aec")]
            waits = any(has_open(it, "/a.aec") for it in self.processes)
            return len(self.processes) == 3 and waits and all(x != y for x, y in zip(before, later))

        assert until(is_blocked)
        time.sleep(0.5)

    def free(self) -> None:
        fcntl.flock(self.lock, fcntl.LOCK_UN)

    def ended(self) -> tuple[int, str, str]:
        """Returns how the run ended, after all its processes have closed its standard output."""
        out, err = self.run.communicate(timeout=30)
        assert "Traceback" not in err, err
        return self.run.returncode, out, err

    def close(self) -> None:
        for it in [self.run.pid, *self.processes]:
            with contextlib.suppress(ProcessLookupError):
                os.kill(it, signal.SIGKILL)
        self.run.wait()
        os.close(self.lock)


@pytest.fixture()
def blocked(place: str) -> Iterator[Blocked]:
    made_run = Blocked(place)
    yield made_run
    made_run.close()


def test_a_killed_idle_process(place: str, blocked: Blocked) -> None:
    """One of the idle processes reads the queue, and dies with the lock of the queue."""
    for it in blocked.processes:
        if not has_open(it, "/a.aec"):
            os.kill(it, signal.SIGKILL)
    time.sleep(0.2)
    blocked.free()
    status, out, err = blocked.ended()
    assert status == 0 and out.count("is undone") == 3, (status, out, err)


def test_a_killed_run_leaves_no_process(blocked: Blocked) -> None:
    """Its processes would keep its standard output open."""
    blocked.run.kill()
    assert blocked.ended()[0] == -signal.SIGKILL


@pytest.mark.parametrize("number", [signal.SIGINT, signal.SIGTERM])
def test_a_stop_ends_blocked_processes(place: str, blocked: Blocked, number: int) -> None:
    blocked.run.send_signal(number)
    status, _, err = blocked.ended()
    assert status == 128 + number and "stopped" in err, (status, err)


@pytest.mark.parametrize("number", [signal.SIGINT, signal.SIGTERM, signal.SIGHUP])
def test_a_stop_before_a_process_begins(place: str, number: int) -> None:
    """A process of the pool that gets a signal directly after the fork goes on without a word: the first process ends it."""
    for name in ("a", "b", "c"):
        keep(place, name, walk(1, 300))

    def before() -> None:
        real = os.fork

        def fork() -> int:
            child = real()
            if child == 0:
                os.kill(os.getpid(), number)
            return child

        os.fork = fork  # type: ignore[assignment]

    ran = command(place, "check", ".", "--jobs", "2", how=How(before=before, seconds=60))
    assert ran.status == 0 and "3 sound" in ran.out and not ran.err, ran


@pytest.mark.parametrize("verb", ["keep", "back"])
def test_a_stop_leaves_no_hidden_files(place: str, verb: str) -> None:
    """Processes that are killed in the middle of their work leave files, which the first process removes."""
    for i in range(3):
        write(place, f"f{i}", FAST.stored(noise(i, 1 << 16)) * 64)
    if verb == "back":
        done(place, "keep", ".", "-n", "16", "--anyway", "--jobs", "2")
    out = os.path.join(place, "out", "f0")
    os.makedirs(os.path.dirname(out))
    words = ["keep", ".", "-n", "16", "--anyway"] if verb == "keep" else ["back", "f0.aec", "f1.aec", "f2.aec"]
    folder = os.path.join(place, "out")
    running = start(place, *words, "--to", "out", "--jobs", "2")

    def hidden() -> list[str]:
        return [it for it in os.listdir(folder) if it.startswith(".")]

    assert until(hidden)
    running.kill(signal.SIGTERM)
    ran = running.ended()
    assert ran.status == 128 + signal.SIGTERM and not hidden(), (ran, hidden())


@pytest.mark.parametrize("number", [signal.SIGTERM, 0])
def test_a_script_that_fills_the_queue(place: str, number: int) -> None:
    """Each lot has the script. Where all processes wait, the queue is full, and its thread too waits."""
    write(place, "script", b"overwrite 3 1\n" * 20000)
    locks = []
    for i in range(8):
        keep(place, f"f{i}", walk(1, 300))
        locks.append(os.open(os.path.join(place, f"f{i}.aec"), os.O_RDWR))
        fcntl.flock(locks[-1], fcntl.LOCK_EX)
    words = [sys.executable, "-c", THREE, "edit", "script", *(f"f{i}.aec" for i in range(8))]
    environment = {key: it for key, it in os.environ.items() if key != "LD_PRELOAD"}
    run = subprocess.Popen(words, cwd=place, env=environment, stdout=subprocess.PIPE, stderr=subprocess.PIPE, text=True)
    try:
        assert until(lambda: sum(has_open(it, ".aec") for it in children(run.pid)) == 3)
        time.sleep(0.2)
        os.kill(run.pid if number else children(run.pid)[0], number or signal.SIGKILL)
        time.sleep(0.2)
        for lock in locks:
            fcntl.flock(lock, fcntl.LOCK_UN)
        out, err = run.communicate(timeout=60)
    finally:
        run.kill()
        run.wait()
        for lock in locks:
            os.close(lock)
    assert run.returncode == (128 + number if number else 0), (out, err)
    assert number or out.count(" samples changed") == 8, (out, err)


def test_no_edit_is_done_twice(place: str) -> None:
    """A process that dies after it has edited a file: the file isn't edited again."""
    write(place, "script", b"append 1\n")
    names = [f"f{i:02}" for i in range(40)]
    for name in names:
        keep(place, name, walk(1, 300))

    def deadly() -> None:
        import aecp.archive._pool as pool

        pool.cores = lambda: 2
        first, real, died = os.getpid(), os.rename, os.path.join(place, "died")

        def renamed(old: Any, new: Any, **named: Any) -> None:
            real(old, new, **named)
            if os.getpid() != first and str(new).endswith("f04.aec") and not os.path.exists(died):
                os.close(os.open(died, os.O_CREAT | os.O_WRONLY))
                os.kill(os.getpid(), signal.SIGKILL)

        os.rename = renamed  # type: ignore[assignment]

    ran = command(place, "edit", "script", *(f"{it}.aec" for it in names), how=How(before=deadly))
    assert os.path.exists(os.path.join(place, "died"))
    assert ran.status == 1 and "f04.aec: a process died" in ran.err and "aecp log" in ran.err, ran
    for name in names:
        assert len(done(place, "log", f"{name}.aec").out.splitlines()) == 2, name


def test_no_files_for_a_pool(place: str) -> None:
    for name in ("a", "b"):
        keep(place, name, walk(1, 300))
    environment = {key: it for key, it in os.environ.items() if key != "LD_PRELOAD"}

    def few() -> None:
        resource.setrlimit(resource.RLIMIT_NOFILE, (10, 10))

    words = [sys.executable, "-c", THREE, "check", "."]
    ran = subprocess.run(words, cwd=place, env=environment, preexec_fn=few, capture_output=True, text=True, timeout=60, check=False)
    assert ran.returncode == 1 and "standard output" not in ran.stderr, ran
    assert "no processes can be had: " in ran.stderr and "--jobs 1" in ran.stderr, ran


@pytest.mark.parametrize("lacking", ["process", "second process", "thread", "locks"])
def test_no_processes_for_a_pool(place: str, lacking: str) -> None:
    """The processes that were begun are killed: else the run would wait for them."""
    for name in ("a", "b"):
        keep(place, name, walk(1, 300))

    def before() -> None:
        import concurrent.futures.process as process

        real, left = os.fork, [lacking != "process"]

        def fork() -> int:
            if not left.pop():
                raise BlockingIOError(11, "no more processes")
            left.append(False)
            return real()

        def refuse(*_: Any) -> None:
            raise RuntimeError("can't start new thread")

        def lock(*_: Any) -> None:
            raise NotImplementedError("no semaphores")

        if "process" in lacking:
            os.fork = fork  # type: ignore[assignment]
        elif lacking == "thread":
            threading.Thread.start = refuse  # type: ignore[assignment,method-assign]
        else:
            process._check_system_limits = lock  # type: ignore[attr-defined]

    ran = command(place, "check", ".", "--jobs", "2", how=How(before=before, seconds=60))
    assert ran.status == 1 and "no processes can be had: " in ran.err and "--jobs 1" in ran.err, ran
