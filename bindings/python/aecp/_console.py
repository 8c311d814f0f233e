"""What the command prints: results on standard output, notices and progress on standard error."""

from __future__ import annotations

import argparse
import contextlib
import errno
import json
import os
import sys
import time
from collections.abc import Iterator
from typing import Any, Optional

TENTH = 0.1  # seconds between two lines of progress


def shown(text: object) -> str:
    """Returns a name or another foreign text for a terminal: control characters are escaped."""
    return "".join(it if it.isprintable() else escaped(it) for it in str(text))


def escaped(character: str) -> str:
    """Returns a character that isn't printed as an escape sequence in ASCII."""
    code = ord(character)
    if 0xDC80 <= code <= 0xDCFF:  # a byte of a name that is no UTF-8
        return f"\\x{code - 0xDC00:02x}"
    return character.encode("unicode_escape").decode("ascii", "replace")


def reason(error: BaseException, path: str) -> str:
    """Returns the text that says why work on the file `path` failed."""
    if isinstance(error, OSError) and error.errno is not None:
        return system_reason(error, path)
    if isinstance(error, MemoryError):
        return "out of memory"
    if isinstance(error, RecursionError):
        return "it is nested too deeply"
    return shown_lines(str(error)) or type(error).__name__


def shown_lines(text: str) -> str:
    """Returns a text of several lines for a terminal."""
    return "\n".join(map(shown, text.split("\n")))


def system_reason(error: OSError, path: str) -> str:
    """Returns the text of a failure of the system, with the name of its file if that isn't
    `path`."""
    is_full = error.errno in (errno.ENOSPC, errno.EDQUOT)
    text = "no space left on the device" if is_full else str(error.strerror or error)
    name = error.filename
    if name is None or isinstance(name, int) or os.fspath(name) in (path, os.fsencode(path)):
        return text
    return f"{text}: {shown(os.fsdecode(name))}"


def bytes_text(size: float) -> str:
    """Returns a number of bytes with a unit."""
    for unit in ("B", "kB", "MB"):
        if size < 999.5:
            return f"{size:.0f} {unit}" if unit == "B" else f"{size:.1f} {unit}"
        size /= 1000
    return f"{size:.1f} GB"


def seconds_text(seconds: float) -> str:
    """Returns a time as hours, minutes and seconds."""
    whole = int(seconds + 0.5)
    hours, minutes, rest = whole // 3600, whole // 60 % 60, whole % 60
    if hours:
        return f"{hours} h {minutes:02} min"
    return f"{minutes} min {rest:02} s" if minutes else f"{rest} s"


class Progress:
    """A line on a terminal: files, bytes, rate and time left."""

    def __init__(self, console: Console, files: int, size: int) -> None:
        self.console, self.files, self.size = console, files, size
        self.done_files = self.done_size = 0
        self.begun = self.printed = time.monotonic()

    def add(self, files: int, size: int) -> None:
        """Counts files and bytes that are done."""
        self.done_files += files
        self.done_size += size
        now = time.monotonic()
        if now - self.printed >= TENTH:
            self.printed = now
            self.console.draw(self.line(now - self.begun))

    def line(self, seconds: float) -> str:
        """Returns the line after so many seconds."""
        rate = self.done_size / max(seconds, 1e-3)
        text = f"{self.done_files} of {self.files} files, "
        text += f"{bytes_text(self.done_size)} of {bytes_text(self.size)}, {bytes_text(rate)}/s"
        left = (self.size - self.done_size) / rate if rate else 0
        return f"{text}, {seconds_text(left)} left" if rate else text


class Console:
    """The standard streams of a run."""

    def __init__(self, quiet: bool = False) -> None:
        self.quiet = quiet
        self.is_drawn = False
        self.is_terminal = is_terminal()

    def say(self, text: str) -> None:
        """Prints a result."""
        self.clear()
        sys.stdout.write(text + "\n")
        if self.is_terminal:
            sys.stdout.flush()

    def say_json(self, value: Any) -> None:
        """Prints a result as JSON."""
        self.say(json.dumps(value, indent=1))

    def write(self, data: Any) -> None:
        """Writes bytes to standard output."""
        self.clear()
        sys.stdout.flush()
        sys.stdout.buffer.write(data)

    def complain(self, text: str, status: int = 1) -> int:
        """Prints a line on standard error. Returns the status."""
        self.clear()
        with contextlib.suppress(OSError, ValueError):
            sys.stderr.write(f"aecp: {text}\n")
            sys.stderr.flush()
        return status

    def notice(self, text: str) -> None:
        """Prints a line on standard error that no script needs."""
        if not self.quiet:
            self.complain(text)

    def draw(self, line: str) -> None:
        """Draws a line of progress over the one before."""
        if self.is_terminal and not self.quiet:
            with contextlib.suppress(OSError, ValueError):
                sys.stderr.write(f"\r{line}\x1b[K")
                sys.stderr.flush()
                self.is_drawn = True

    def clear(self) -> None:
        """Removes the line of progress."""
        if self.is_drawn:
            self.is_drawn = False
            with contextlib.suppress(OSError, ValueError):
                sys.stderr.write("\r\x1b[K")
                sys.stderr.flush()

    @contextlib.contextmanager
    def progress(self, files: int, size: int) -> Iterator[Progress]:
        """Yields progress over files of so many bytes."""
        try:
            yield Progress(self, files, size)
        finally:
            self.clear()


def is_terminal() -> bool:
    """Returns whether standard error is a terminal."""
    try:
        return sys.stderr.isatty()
    except (OSError, ValueError):
        return False


def open_standard_streams() -> None:
    """Opens closed standard streams, so that no file gets their numbers, and lets them print every
    name. Writing to a standard output that was closed fails; a closed standard error swallows its
    lines."""
    for number, flags in ((0, os.O_WRONLY), (1, os.O_RDONLY), (2, os.O_WRONLY)):
        try:
            os.fstat(number)
        except OSError:
            os.open(os.devnull, flags)
    sys.stdin = sys.stdin or open(0, closefd=False, encoding="utf-8")
    sys.stdout = sys.stdout or open(1, "w", closefd=False, encoding="utf-8")
    sys.stderr = sys.stderr or open(2, "w", closefd=False, encoding="utf-8")
    for stream in (sys.stdout, sys.stderr):
        reconfigure: Optional[Any] = getattr(stream, "reconfigure", None)
        if reconfigure is not None:
            reconfigure(errors="backslashreplace")


class Parser(argparse.ArgumentParser):
    """A parser that raises OSError if it can't print help or version. Newer versions of argparse
    ignore that where standard output has no buffer."""

    def _print_message(self, message: str, file: Any = None) -> None:
        if message and file is not None and file is sys.stdout:
            file.write(message)
        else:
            super()._print_message(message, file)
