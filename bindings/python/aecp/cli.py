"""The command aecp: how it begins and how it ends.

Status 0: all is done. 1: something was refused or is damaged. 2: the arguments are wrong. 128 plus
the number of a signal: it was stopped.
"""

from __future__ import annotations

import argparse
import contextlib
import os
import re
import signal
import sys
from collections.abc import Iterator
from typing import Any, NoReturn, Optional

from aecp._console import Console, open_standard_streams, reason
from aecp._words import parsers

SIGNED = ("--fill", "--min", "--max")  # options whose values may be negative
STOPS = (signal.SIGINT, signal.SIGTERM, signal.SIGHUP)


def parsed(argv: Optional[list[str]]) -> argparse.Namespace:
    """Returns what the arguments ask for. A verb's arguments and options may come in any order."""
    words = sys.argv[1:] if argv is None else argv
    top, verbs = parsers()
    if not words or words[0] not in verbs:
        return top.parse_args(words)
    verb, rest = verbs[words[0]], words[1:]
    at = rest.index("--") if "--" in rest else len(rest)
    # parse_intermixed_args loses "--", so that names after it would become options: each gets a
    # mark meanwhile.
    marked = joined(rest[:at]) + [f"\0{word}" for word in rest[at + 1 :]]
    asked = verb.parse_intermixed_args(marked)
    for name, value in vars(asked).items():
        setattr(asked, name, unmarked(value))
    if words[0] == "help":
        (verbs[asked.of] if asked.of else top).print_help()
        sys.exit(0)
    asked.usage = verb.format_usage()
    return asked


def joined(words: list[str]) -> list[str]:
    """Returns words in which an option and its negative value are one: argparse takes -3 for an
    option."""
    made: list[str] = []
    for word in words:
        if made and made[-1] in SIGNED and re.fullmatch("-[0-9]+", word):
            made[-1] += f"={word}"
        else:
            made.append(word)
    return made


def unmarked(value: Any) -> Any:
    """Returns an argument without its mark."""
    if isinstance(value, list):
        return [unmarked(it) for it in value]
    return value[1:] if isinstance(value, str) and value.startswith("\0") else value


def interrupted(number: int, _: Any) -> NoReturn:
    """Raises KeyboardInterrupt at a signal to stop. Later signals are ignored: by then, what was
    begun is being removed."""
    for it in STOPS:
        signal.signal(it, signal.SIG_IGN)
    raise KeyboardInterrupt(number)


def handle_stops() -> None:
    """Handles signals to stop, unless they are ignored, as SIGHUP is under nohup."""
    for stop in STOPS:
        if signal.getsignal(stop) is not signal.SIG_IGN:
            signal.signal(stop, interrupted)


@contextlib.contextmanager
def guarded_output(console: Console) -> Iterator[None]:
    """Ends with status 1 if standard output can't be written. A closed pipe needs no message."""
    try:
        yield
        sys.stdout.flush()
    except BrokenPipeError:
        end_without_output()
    except OSError as error:
        console.complain(f"standard output: {reason(error, '')}")
        end_without_output()


def end_without_output() -> NoReturn:
    """Ends with status 1. What standard output still holds is lost."""
    sys.stderr.flush()
    os._exit(1)


def main(argv: Optional[list[str]] = None) -> NoReturn:
    """Does what the arguments ask for, and ends with the status."""
    open_standard_streams()
    console = Console()
    with guarded_output(console):
        try:
            asked = parsed(argv)
        except SystemExit as end:
            sys.stdout.flush()
            raise end
    console.quiet = asked.quiet
    handle_stops()
    try:
        from aecp.archive import _verbs
        from aecp.library import LIBRARY

        LIBRARY.load_now()
    except ImportError as error:
        sys.exit(console.complain(str(error)))
    try:
        with guarded_output(console):
            status = _verbs.run(asked, console)
    except KeyboardInterrupt as stop:
        console.complain("stopped")
        os._exit(128 + (stop.args[0] if stop.args else signal.SIGINT))
    sys.exit(status)


if __name__ == "__main__":
    main()
