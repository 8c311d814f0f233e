"""What the verbs share: the values of arguments, and work on many files."""

from __future__ import annotations

import argparse
import os
import re
import sys
from collections.abc import Iterator
from functools import partial
from typing import Any, Callable, Optional

from aecp._console import Console, reason, shown
from aecp.archive._form import Damaged, Refused
from aecp.archive._outcomes import DIED, Guarded, Outcome, advice
from aecp.archive._paths import Found, Passed, kept_path
from aecp.archive._pool import Deal, Failed, pool_of
from aecp.archive._saving import remove_leftovers
from aecp.archive._scripts import MOST_SAMPLES
from aecp.archive._tables import shape_in
from aecp.calls import encode
from aecp.faults import Fault
from aecp.options import FLAGS, NUMBERS, Options

USUAL = {"block_size": 16, "interval": 128}
WRITING = ("keep", "back", "edit", "undo", "forget")  # verbs that write files
SYNCING = 8  # threads of a process that write small files, so that they wait for the disk together


class Wrong(Exception):
    """The arguments are wrong. The text says why."""


def judge_numbers(asked: argparse.Namespace) -> None:
    """Raises Wrong for a number that no verb takes."""
    least = {"jobs": 1, "width": 1, "stream": 1, "limit": 0, "skip": 0}
    least.update({"frame": 0, "count": 0, "keep": 0})
    for name, value in vars(asked).items():
        if name in least and isinstance(value, int) and not isinstance(value, bool):
            if not least[name] <= value <= MOST_SAMPLES:
                raise Wrong(f"--{name} must be {least[name]} to {MOST_SAMPLES}, not {value}")


def options_of(asked: argparse.Namespace) -> Options:
    """Returns the options that the arguments give; without -n they have 16 bits. Raises Wrong if
    the format has no such options."""
    values = {name: getattr(asked, name) for name in NUMBERS + FLAGS}
    for name, value in {**USUAL, "bits": 16}.items():
        values[name] = value if values[name] is None else values[name]
    try:
        options = Options(**values)
        encode(b"", options)
    except (Fault, ValueError, TypeError) as error:
        raise Wrong(str(error)) from None
    return options


def given_in(asked: argparse.Namespace) -> dict[str, object]:
    """Returns the options that the user gave, with their values."""
    given: dict[str, object] = {}
    for name in NUMBERS:
        if getattr(asked, name) is not None:
            given[name] = getattr(asked, name)
    for name in FLAGS:
        if getattr(asked, name) != (name == "preprocess"):
            given[name] = getattr(asked, name)
    return given


def shape_of(asked: argparse.Namespace) -> Optional[tuple[int, ...]]:
    """Returns the shape that the arguments give."""
    if asked.shape is None:
        return None
    try:
        return shape_in(asked.shape)
    except ValueError as error:
        raise Wrong(f"--shape: {error}") from None


def part_of(asked: argparse.Namespace) -> Optional[tuple[int, int]]:
    """Returns the two numbers of --range FIRST:LEN."""
    if asked.range is None:
        return None
    match = re.fullmatch(r"([0-9]{1,30}):([0-9]{1,30})", asked.range)
    if match is None:
        raise Wrong(f"--range: {asked.range} is no FIRST:LEN")
    return int(match[1]), int(match[2])


def input_of(path: str) -> bytes:
    """Returns the bytes of a file; - is standard input."""
    if path == "-":
        return sys.stdin.buffer.read()
    with open(path, "rb") as file:
        return file.read()


def guarded(console: Console, path: str, work: Callable[[], int]) -> int:
    """Returns the status of work on one file. If the work fails, prints why, with the file's
    name."""
    try:
        return work()
    except (BrokenPipeError, Wrong, Failed):
        raise
    except Damaged as error:
        return console.complain(f"{shown(path)}: {reason(error, path)}{advice(error)}")
    except Exception as error:
        return console.complain(f"{shown(path)}: {reason(error, path)}")


def say_passed(console: Console, passed: list[Passed]) -> int:
    """Prints which paths aren't worked on. Returns the status."""
    for it in passed:
        text = f"{shown(it.name)}: {it.why}"
        if it.is_bad:
            console.complain(text)
        else:
            console.notice(text)
    return int(any(it.is_bad for it in passed))


def dealt(
    asked: argparse.Namespace,
    console: Console,
    work: Callable[[Found], Outcome],
    found: list[Found],
    again: Optional[Callable[[Found], Outcome]] = None,
) -> Iterator[tuple[Found, Outcome]]:
    """Yields each file with what happened to it, in order. The work is dealt to processes. After a
    process has died, `again` is done instead of `work`."""
    jobs, dask = getattr(asked, "jobs", None), getattr(asked, "dask", None)
    sizes = [it.size for it in found]
    threads = SYNCING if asked.verb in WRITING else 1
    deal = Deal(Guarded(work), DIED, Guarded(again or work), threads)
    with pool_of(jobs, dask, len(found), partial(clean, asked)) as pool:
        with console.progress(len(found), sum(sizes)) as progress:
            for it, outcome in deal.results(pool, found, sizes):
                progress.add(1, it.size)
                yield it, outcome


def clean(asked: argparse.Namespace, lot: list[Found]) -> None:
    """Removes the hidden files that killed processes have left of work on a lot."""
    if asked.verb not in WRITING:
        return
    folders = {os.path.dirname(it.path) for it in lot}
    to = getattr(asked, "to", None)
    if to is not None:
        folders = {os.path.dirname(os.path.join(to, it.below)) for it in lot}
    for folder in folders:
        remove_leftovers(folder)


class Counts:
    """How many files had which outcome, and their bytes."""

    def __init__(self) -> None:
        self.kinds: dict[str, int] = {}
        self.bytes = self.coded = 0
        self.files: list[dict[str, Any]] = []

    def add(self, found: Found, outcome: Outcome) -> None:
        """Counts a file."""
        self.kinds[outcome.kind] = self.kinds.get(outcome.kind, 0) + 1
        self.bytes += outcome.bytes
        self.coded += outcome.coded
        said = {"file": found.name, "kind": outcome.kind, "text": outcome.said}
        sizes = {"bytes": outcome.bytes, "coded": outcome.coded}
        self.files.append({**said, **sizes, **outcome.more})

    def add_passed(self, passed: list[Passed]) -> None:
        """Counts paths that aren't worked on."""
        for it in passed:
            kind = "refused" if it.is_bad else "passed"
            self.kinds[kind] = self.kinds.get(kind, 0) + 1
            said = {"file": it.name, "kind": kind, "text": it.why}
            self.files.append({**said, "bytes": 0, "coded": 0})

    def text(self, names: dict[str, str]) -> str:
        """Returns the numbers of files in words."""
        said = [f"{self.kinds[kind]} {name}" for kind, name in names.items() if kind in self.kinds]
        return ", ".join(said) or "no files"

    def json(self) -> dict[str, Any]:
        """Returns everything as JSON has it."""
        return {**self.kinds, "bytes": self.bytes, "coded": self.coded, "files": self.files}


def one_kept(path: str) -> str:
    """Returns the path of a kept file. Raises Refused if it is a folder or isn't there."""
    if os.path.isdir(path):
        raise Refused("it is a folder: name a file in it")
    found = kept_path(path)
    if not os.path.lexists(found):
        raise Refused("it isn't kept" if os.path.lexists(path) else "there is no such file")
    return found
