"""Runs the command `aecp` in a forked child: its words, its limits, and the calls that the test stops, refuses or logs."""

from __future__ import annotations

import ctypes
import importlib
import os
import pkgutil
import resource
import signal
import sys
import tempfile
import time
from dataclasses import dataclass, field
from typing import Any, Callable, NamedTuple, Optional, Union

import aecp.archive
import aecp.cli
from aecp.library import LIBRARY

Word = Union[str, bytes]
SECONDS = 180


class Call(NamedTuple):
    """A system call that the hooks have logged: two texts (names of files), and its result."""

    name: str
    first: str
    second: str
    result: int


class Ran(NamedTuple):
    """How a run ended. `status` is less than 0 if a signal ended it."""

    status: int
    out: str
    err: str
    raw: bytes = b""
    calls: tuple[Call, ...] = ()

    @property
    def said(self) -> str:
        return self.out + self.err


@dataclass(frozen=True)
class Hooks:
    """What the hooks do in a child: see hooks.c."""

    stop: int = 0
    after: bool = False
    room: Optional[int] = None
    refuse: tuple[str, ...] = ()
    error: int = 1
    fail: str = ""
    fail_at: int = 0
    fail_path: str = ""
    plant: str = ""
    make: str = ""
    make_at: int = 0
    logs: bool = False


@dataclass(frozen=True)
class How:
    """How a child runs: its standard input, limits of the system, user, hooks, and a function that it calls first."""

    given: Optional[bytes] = None
    limits: dict[int, int] = field(default_factory=dict)
    user: Optional[int] = None
    hooks: Hooks = Hooks()
    before: Optional[Callable[[], None]] = None
    seconds: float = SECONDS


def hooks_library() -> Any:
    """Returns the preloaded library of hooks.c, with the types of its calls."""
    library = ctypes.CDLL(None)
    library.hooks_stop.argtypes = [ctypes.c_long, ctypes.c_int]
    library.hooks_room.argtypes = [ctypes.c_long]
    library.hooks_calls.restype = ctypes.c_long
    library.hooks_make.argtypes = [ctypes.c_char_p, ctypes.c_long]
    library.hooks_fail.argtypes = [ctypes.c_char_p, ctypes.c_long, ctypes.c_int, ctypes.c_char_p]
    return library


def arm(hooks: Hooks, log: int) -> None:
    """Sets up the hooks of this process. `log` is the descriptor of the file that they log to."""
    library = hooks_library()
    library.hooks_reset()
    if hooks.refuse:
        names = f" {' '.join(hooks.refuse)} ".encode()
        library.hooks_refuse(names, hooks.error)
    if hooks.fail:
        library.hooks_fail(hooks.fail.encode(), hooks.fail_at, hooks.error, os.fsencode(hooks.fail_path))
    if hooks.plant:
        library.hooks_plant(os.fsencode(hooks.plant))
    if hooks.make:
        library.hooks_make(os.fsencode(hooks.make), hooks.make_at)
    if hooks.room is not None:
        library.hooks_room(hooks.room)
    if hooks.logs:
        library.hooks_log(log)
    if hooks.stop:
        library.hooks_stop(hooks.stop, hooks.after)


RUNNING: set[int] = set()  # the children that haven't been waited for


def kill_all() -> None:
    """Ends the children that a failed test has left."""
    for child in list(RUNNING):
        os.kill(child, signal.SIGKILL)
        os.waitpid(child, 0)
    RUNNING.clear()


class Started:
    """A child process that runs work() with files for its standard streams."""

    def __init__(self, folder: Word, work: Callable[[], object], how: How) -> None:
        self.files = [tempfile.TemporaryFile() for _ in range(4)]
        if how.given is not None:
            self.files[0].write(how.given)
            self.files[0].seek(0)
        self.seconds, self.begun = how.seconds, time.monotonic()
        sys.stdout.flush()
        sys.stderr.flush()
        self.child = os.fork()
        if self.child == 0:
            self._run(folder, work, how)
        RUNNING.add(self.child)

    def _run(self, folder: Word, work: Callable[[], object], how: How) -> None:
        status = 70
        try:
            os.setsid()
            signal.alarm(0)
            signal.signal(signal.SIGALRM, signal.SIG_DFL)
            for number, file in enumerate(self.files[:3]):
                os.dup2(file.fileno(), number)
            fresh_streams()
            os.chdir(folder)
            for limit, most in how.limits.items():
                resource.setrlimit(limit, (most, most))
            if how.user is not None:
                os.setgroups([])
                os.setgid(how.user)
                os.setuid(how.user)
            if how.before is not None:
                how.before()
            arm(how.hooks, self.files[3].fileno())
            try:
                work()
                status = 0
            except SystemExit as end:
                status = status_of(end)
            except BaseException:  # noqa: BLE001 - Python would print it
                import traceback

                traceback.print_exc()
                status = 71
            hooks_library().hooks_reset()
            for stream in (sys.stdout, sys.stderr):
                try:
                    stream.flush()
                except (OSError, ValueError, AttributeError):
                    pass
        finally:
            os._exit(status)

    def kill(self, number: int = signal.SIGKILL) -> None:
        os.kill(self.child, number)

    def ended(self) -> Ran:
        """Waits for the end. A child that takes too long is killed, and has the status -99."""
        status = self._wait()
        RUNNING.discard(self.child)
        try:
            os.killpg(self.child, signal.SIGKILL)
        except (ProcessLookupError, PermissionError):
            pass
        texts = []
        for file in self.files[1:]:
            file.seek(0)
            texts.append(file.read())
        for file in self.files:
            file.close()
        out, err, log = texts
        words = [line.split("\t") for line in log.decode(errors="replace").splitlines()]
        calls = tuple(Call(it[0], it[1], it[2], int(it[3])) for it in words if len(it) == 4)
        return Ran(status, out.decode(errors="replace"), err.decode(errors="replace"), out, calls)

    def _wait(self) -> int:
        pause = 0.0005
        while True:
            child, status = os.waitpid(self.child, os.WNOHANG)
            if child:
                return os.waitstatus_to_exitcode(status)
            if time.monotonic() - self.begun > self.seconds:
                os.kill(self.child, signal.SIGKILL)
                os.waitpid(self.child, 0)
                return -99
            time.sleep(pause)
            pause = min(pause * 1.5, 0.01)


def fresh_streams() -> None:
    """Opens the standard streams of Python anew, as pytest has replaced them."""
    sys.stdin = open(0, encoding="utf-8", errors="surrogateescape", closefd=False)  # noqa: SIM115
    sys.stdout = open(1, "w", encoding="utf-8", errors="surrogateescape", closefd=False)  # noqa: SIM115
    sys.stderr = open(2, "w", encoding="utf-8", errors="backslashreplace", closefd=False)  # noqa: SIM115
    sys.__stdin__, sys.__stdout__, sys.__stderr__ = sys.stdin, sys.stdout, sys.stderr


def status_of(end: SystemExit) -> int:
    """Returns the status of a process that this exception ends."""
    if end.code is None:
        return 0
    if isinstance(end.code, int):
        return end.code & 255
    print(end.code, file=sys.stderr)
    return 1


def load_all() -> None:
    """Loads what the command needs, once: a forked child then begins within milliseconds."""
    for it in pkgutil.iter_modules(aecp.archive.__path__, "aecp.archive."):
        importlib.import_module(it.name)
    importlib.import_module("concurrent.futures.process")
    LIBRARY.load_now()


load_all()


def run_words(words: list[Word]) -> None:
    """Runs the command with these words, in this process."""
    sys.argv = ["aecp", *map(os.fsdecode, words)]
    aecp.cli.main([os.fsdecode(word) for word in words])


def start(folder: Word, *words: Word, how: How = How()) -> Started:
    """Starts the command in a folder."""
    return Started(folder, lambda: run_words(list(words)), how)


def command(folder: Word, *words: Word, how: How = How(), given: Optional[bytes] = None) -> Ran:
    """Runs the command in a folder. Fails the test if it prints a traceback, or doesn't end."""
    if given is not None:
        how = How(given, how.limits, how.user, how.hooks, how.before, how.seconds)
    ran = start(folder, *words, how=how).ended()
    assert "Traceback" not in ran.said, f"{words}: {ran.said}"
    assert ran.status != -99, f"{words}: no end after {how.seconds} s: {ran.said}"
    return ran


def until(holds: Callable[[], object], seconds: float = 30) -> bool:
    """Waits until something holds. Returns whether it does before the time is over."""
    end = time.monotonic() + seconds
    while not holds() and time.monotonic() < end:
        time.sleep(0.01)
    return bool(holds())


def in_child(folder: Word, work: Callable[[], object], how: How = How()) -> Ran:
    """Runs work() in a child process."""
    return Started(folder, work, how).ended()


def done(folder: Word, *words: Word, how: How = How(), given: Optional[bytes] = None) -> Ran:
    """Runs the command, and fails the test if the status isn't 0."""
    ran = command(folder, *words, how=how, given=given)
    assert ran.status == 0, f"{words}: {ran}"
    return ran


def refused(folder: Word, *words: Word, how: How = How(), given: Optional[bytes] = None) -> Ran:
    """Runs the command, and fails the test if the status isn't 1, or nothing says why."""
    ran = command(folder, *words, how=how, given=given)
    assert ran.status == 1, f"{words}: {ran}"
    assert ran.said.strip(), f"{words}: refused without a word"
    return ran
